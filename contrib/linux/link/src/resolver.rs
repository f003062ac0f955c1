//! Whom the host asks for names: resolvconf(8) or resolvectl(1) is told where it is there, else /etc/resolv.conf linked.

use crate::folder;
use crate::say;
use std::fs;
use std::io::{self, Read, Write};
use std::net::IpAddr;
use std::os::unix::fs::OpenOptionsExt;
use std::path::{Path, PathBuf};
use std::process::{Command, Stdio};
use std::sync::mpsc::{channel, Sender};

/// The daemon's file of name servers.
pub const FILE: &str = "resolv.conf";
const RESOLVCONF: [&str; 2] = ["/usr/sbin/resolvconf", "/sbin/resolvconf"];
const RESOLVECTL: &str = "/usr/bin/resolvectl";
/// It is there where systemd-resolved runs.
const RESOLVED: &str = "/run/systemd/resolve";
const ETC: &str = "/etc/resolv.conf";
/// The name under which resolvconf keeps it.
const NAME: &str = "dhcpcd-link";
const TEXT_MOST: u64 = 64 * 1024;

enum Way {
    Resolvconf(&'static str),
    Resolvectl,
    Link,
}

impl Way {
    fn found() -> Way {
        match RESOLVCONF.iter().find(|path| is_resolvconf(Path::new(path))) {
            Some(path) => Way::Resolvconf(path),
            None if Path::new(RESOLVECTL).exists() && Path::new(RESOLVED).exists() => Way::Resolvectl,
            None => Way::Link,
        }
    }
}

/// Whether resolvconf(8) is there, and isn't resolvectl(1) by another name, which knows interfaces of the host alone.
fn is_resolvconf(path: &Path) -> bool {
    let is_other = |path: &Path| path.file_name().map_or(false, |name| name == "resolvectl");
    fs::canonicalize(path).map_or(false, |path| !is_other(&path))
}

/// A program that is run, and what it reads.
#[derive(Debug, PartialEq, Eq)]
struct Job {
    program: &'static str,
    words: Vec<String>,
    input: String,
}

/// The daemon's `resolv.conf`, of which the host is told.
pub struct Resolver {
    file: PathBuf,
    interface: String,
    way: Way,
}

impl Resolver {
    /// That of a folder. `interface` is the one that resolvectl asks over.
    pub fn new(folder: &Path, interface: &str) -> Resolver {
        Resolver { file: folder.join(folder::FILES).join(FILE), interface: interface.to_string(), way: Way::found() }
    }

    /// Tells the host what the file says now: whether all went well.
    fn tell(&self) -> bool {
        let said = read(&self.file).unwrap_or_default();
        match self.way {
            Way::Resolvconf(path) => resolvconf(path, &said).run(),
            Way::Resolvectl => resolvectl(&self.interface, &said).iter().filter(|job| !job.run()).count() == 0,
            Way::Link => self.link(),
        }
    }

    /// Links /etc/resolv.conf where there is none, and leaves it else.
    fn link(&self) -> bool {
        match fs::read_link(ETC) {
            Ok(path) if path == self.file => {}
            Err(error) if error.kind() == io::ErrorKind::NotFound => {
                match std::os::unix::fs::symlink(&self.file, ETC) {
                    Ok(()) => say!(Notice, "{ETC} is a link to {} now", self.file.display()),
                    Err(error) => {
                        say!(Warning, "{ETC}: {error}");
                        return false;
                    }
                }
            }
            _ => say!(Notice, "{ETC} stays as it is; {} has what was leased", self.file.display()),
        }
        true
    }
}

/// Tells the host beside the loop, one change after another.
pub struct Telling(Sender<()>);

impl Telling {
    pub fn start(resolver: Resolver) -> Telling {
        let (tell, told) = channel();
        std::thread::spawn(move || {
            while told.recv().is_ok() {
                // what is told is the newest
                while told.try_recv().is_ok() {}
                resolver.tell();
            }
        });
        Telling(tell)
    }

    pub fn tell(&self) {
        let _ = self.0.send(());
    }
}

/// Tells the host once, of the run in a folder: the status.
pub fn tell_once(folder: &Path) -> i32 {
    let names = fs::read_to_string(folder.join(crate::table::INTERFACES)).unwrap_or_default();
    match names.lines().next().filter(|name| is_interface(name)) {
        Some(interface) => i32::from(!Resolver::new(folder, interface).tell()),
        // no run was there yet
        None => 0,
    }
}

/// Whether a text may be the name of an interface, and no option.
fn is_interface(text: &str) -> bool {
    let is_plain = |letter: char| letter.is_ascii_alphanumeric() || "._:@-".contains(letter);
    (1..16).contains(&text.len()) && !text.starts_with('-') && text.chars().all(is_plain)
}

/// What a file of name servers says: addresses, and domains to search. All else in it is passed over, since a program
/// without rights writes it.
#[derive(Debug, Default, PartialEq, Eq)]
struct Names {
    servers: Vec<String>,
    domains: Vec<String>,
}

fn read(file: &Path) -> io::Result<Names> {
    let mut text = String::new();
    fs::OpenOptions::new()
        .read(true)
        .custom_flags(libc::O_NOFOLLOW | libc::O_NONBLOCK)
        .open(file)?
        .take(TEXT_MOST)
        .read_to_string(&mut text)?;
    Ok(Names::read(&text))
}

impl Names {
    fn read(text: &str) -> Names {
        let mut names = Names::default();
        for line in text.lines() {
            let mut words = line.split(' ');
            let (list, is_right): (_, fn(&str) -> bool) = match words.next() {
                Some("nameserver") => (&mut names.servers, |word| word.parse::<IpAddr>().is_ok()),
                Some("search") => (&mut names.domains, is_domain),
                _ => continue,
            };
            list.extend(words.filter(|word| is_right(word)).map(str::to_string));
        }
        names
    }

    fn is_empty(&self) -> bool {
        self.servers.is_empty() && self.domains.is_empty()
    }

    fn text(&self) -> String {
        let search =
            if self.domains.is_empty() { String::new() } else { format!("search {}\n", self.domains.join(" ")) };
        search + &self.servers.iter().map(|server| format!("nameserver {server}\n")).collect::<String>()
    }
}

fn is_domain(word: &str) -> bool {
    let is_plain = |letter: char| letter.is_ascii_alphanumeric() || "._-".contains(letter);
    !word.is_empty() && !word.starts_with('-') && word.chars().all(is_plain)
}

fn resolvconf(program: &'static str, said: &Names) -> Job {
    let word = if said.is_empty() { "-d" } else { "-a" };
    Job { program, words: vec![word.to_string(), NAME.to_string()], input: said.text() }
}

fn resolvectl(interface: &str, said: &Names) -> Vec<Job> {
    let job = |word: &str, list: &[String]| {
        let words = [word.to_string(), interface.to_string()].into_iter().chain(list.iter().cloned()).collect();
        Job { program: RESOLVECTL, words, input: String::new() }
    };
    if said.is_empty() {
        return vec![job("revert", &[])];
    }
    // an empty word takes what was there away
    let list = |of: &[String]| if of.is_empty() { vec![String::new()] } else { of.to_vec() };
    vec![job("dns", &list(&said.servers)), job("domain", &list(&said.domains))]
}

impl Job {
    /// Runs the program to its end, and tells where it fails.
    fn run(&self) -> bool {
        let outcome = self.outcome();
        if let Err(why) = &outcome {
            say!(Warning, "{} {}: {why}", self.program, self.words.join(" "));
        }
        outcome.is_ok()
    }

    fn outcome(&self) -> Result<(), String> {
        let failed = |error: io::Error| error.to_string();
        let mut command = Command::new(self.program);
        command.args(&self.words).stdin(Stdio::piped()).stdout(Stdio::null());
        let mut child = command.spawn().map_err(failed)?;
        if let Some(mut input) = child.stdin.take() {
            // one that doesn't read it may do well without
            let _ = input.write_all(self.input.as_bytes());
        }
        match child.wait().map_err(failed)? {
            status if status.success() => Ok(()),
            status => Err(status.to_string()),
        }
    }
}

#[cfg(test)]
mod tests {
    use super::*;

    #[test]
    fn addresses_and_domains_are_read_and_all_else_passed_over() {
        let text =
            "search example.org $(id) -x b\nnameserver 10.0.0.1\nnameserver 2001:db8::1\nnameserver x\noptions a\n";
        let names = Names::read(text);
        assert_eq!(names.text(), "search example.org b\nnameserver 10.0.0.1\nnameserver 2001:db8::1\n");
        assert!(Names::read("root:x:0:0:root:/root:/bin/sh\nnameserver\nsearch \n").is_empty());
    }

    #[test]
    fn the_host_is_told_of_servers_and_of_their_end() {
        let words = |job: &Job| job.words.join(" ");
        let said = Names::read("nameserver 10.0.0.1\nnameserver 10.0.0.2\n");
        assert_eq!(
            resolvectl("c0", &said).iter().map(words).collect::<Vec<_>>(),
            ["dns c0 10.0.0.1 10.0.0.2", "domain c0 "]
        );
        assert_eq!(words(&resolvectl("c0", &Names::default())[0]), "revert c0");
        let job = resolvconf(RESOLVCONF[0], &said);
        assert_eq!((words(&job), job.input), ("-a dhcpcd-link".to_string(), said.text()));
        assert_eq!(words(&resolvconf(RESOLVCONF[0], &Names::default())), "-d dhcpcd-link");
    }

    #[test]
    fn a_name_of_an_interface_is_no_option() {
        assert!(is_interface("eth0.7") && is_interface("wlx001122334455"));
        assert!(
            !is_interface("") && !is_interface("--help") && !is_interface("a b") && !is_interface("a23456789012345x")
        );
    }
}
