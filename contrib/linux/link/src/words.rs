//! The words that this program is called with.

use crate::calls::Call;
use crate::folder;
use std::path::{Path, PathBuf};

pub const USAGE: &str = "usage: dhcpcd-link [--folder FOLDER] [--configuration FILE] [--program PROGRAM] [--resolv] \
[INTERFACE..]
       dhcpcd-link bridge PORT PEER INTERFACE..
       dhcpcd-link resolv [FOLDER]
       FOLDER/host host-list | host-add ROW.. | host-del ROW..";
const FOLDER: &str = "/var/lib/dhcpcd-live";
const CONFIGURATION: &str = "/etc/dhcpcd.conf";
const NO_CONFIGURATION: &str = "/dev/null";
/// Where the daemon stands: beside this program, or as built in the repository that has both.
const PROGRAMS: [&str; 2] = ["dhcpcd", "../../../../../crates/dhcpcd_prog/out/dhcpcd_prog"];

/// What a run was asked for.
#[derive(Debug, PartialEq, Eq)]
pub struct Run {
    pub folder: PathBuf,
    pub configuration: PathBuf,
    pub program: PathBuf,
    pub tells_resolver: bool,
    /// None are those of the configuration.
    pub interfaces: Vec<String>,
}

/// What this program was asked for.
#[derive(Debug, PartialEq, Eq)]
pub enum Asked {
    Run(Run),
    Bridge {
        port: u16,
        peer: u16,
        interfaces: Vec<String>,
    },
    Rows {
        folder: PathBuf,
        call: Call,
    },
    Hook {
        folder: PathBuf,
    },
    /// The host is told once of the name servers of a run.
    Resolv {
        folder: PathBuf,
    },
    Help,
}

/// Words of no form, and why.
#[derive(Debug, PartialEq, Eq)]
pub struct Usage(pub String);

/// Reads the name by which this program was called, and its words.
pub fn read(name: &Path, words: &[String]) -> Result<Asked, Usage> {
    if name.file_name().map_or(false, |last| last == folder::HOST) {
        return script(name, words);
    }
    match words.first().map(String::as_str) {
        Some("bridge") => bridge(&words[1..]),
        Some("resolv") => resolv(&words[1..]),
        Some("--help") => Ok(Asked::Help),
        _ => run(words),
    }
}

/// As the daemon's script, in the folder of its name.
fn script(name: &Path, words: &[String]) -> Result<Asked, Usage> {
    let folder = name.parent().unwrap_or_else(|| Path::new("/")).to_path_buf();
    match (words.is_empty(), Call::read(words)) {
        (true, _) => Ok(Asked::Hook { folder }),
        (false, Some(call)) => Ok(Asked::Rows { folder, call }),
        (false, None) => Err(Usage(format!("no such row: {}", words.join(" ")))),
    }
}

fn bridge(words: &[String]) -> Result<Asked, Usage> {
    let port = |word: &String| word.parse().ok().filter(|port| *port != 0);
    match words {
        [own, peer, interfaces @ ..] if !interfaces.is_empty() => match (port(own), port(peer)) {
            (Some(port), Some(peer)) => Ok(Asked::Bridge { port, peer, interfaces: interfaces.to_vec() }),
            _ => Err(Usage("a port is a number from 1 to 65535".to_string())),
        },
        _ => Err(Usage("an interface is missing".to_string())),
    }
}

fn resolv(words: &[String]) -> Result<Asked, Usage> {
    match words {
        [] => Ok(Asked::Resolv { folder: FOLDER.into() }),
        [folder] => Ok(Asked::Resolv { folder: folder.into() }),
        _ => Err(Usage("there is more than a folder".to_string())),
    }
}

fn run(words: &[String]) -> Result<Asked, Usage> {
    let here = std::env::current_exe().unwrap_or_default();
    let mut run = Run {
        folder: FOLDER.into(),
        configuration: if Path::new(CONFIGURATION).exists() { CONFIGURATION } else { NO_CONFIGURATION }.into(),
        program: PROGRAMS.iter().map(|name| folder::beside(&here, name)).find(|path| path.exists()).unwrap_or_default(),
        tells_resolver: false,
        interfaces: Vec::new(),
    };
    let mut rest = words.iter();
    while let Some(word) = rest.next() {
        let mut value = || rest.next().map(PathBuf::from).ok_or_else(|| Usage(format!("{word} wants a word")));
        match word.as_str() {
            "--folder" => run.folder = value()?,
            "--configuration" => run.configuration = value()?,
            "--program" => run.program = value()?,
            "--resolv" => run.tells_resolver = true,
            other if other.starts_with('-') => return Err(Usage(format!("{other} is no word of this program"))),
            name => run.interfaces.push(name.to_string()),
        }
    }
    if run.program.as_os_str().is_empty() {
        return Err(Usage("the daemon isn't built; --program says where it is".to_string()));
    }
    Ok(Asked::Run(run))
}

#[cfg(test)]
mod tests {
    use super::*;

    fn asked(name: &str, text: &str) -> Result<Asked, Usage> {
        let words: Vec<String> = text.split_whitespace().map(str::to_string).collect();
        read(Path::new(name), &words)
    }

    #[test]
    fn the_daemons_script_is_told_by_its_name() {
        let folder = PathBuf::from("/folder");
        assert_eq!(asked("/folder/host", "host-list"), Ok(Asked::Rows { folder: folder.clone(), call: Call::List }));
        assert_eq!(asked("/folder/host", ""), Ok(Asked::Hook { folder }));
        assert!(asked("/folder/host", "host-add addr").is_err());
    }

    #[test]
    fn words_of_a_run_are_read() {
        let text = "--folder /f --configuration /c --program /p --resolv eth1 eth0";
        let run = Run {
            folder: "/f".into(),
            configuration: "/c".into(),
            program: "/p".into(),
            tells_resolver: true,
            interfaces: vec!["eth1".to_string(), "eth0".to_string()],
        };
        assert_eq!(asked("/x/dhcpcd-link", text), Ok(Asked::Run(run)));
        assert!(asked("/x/dhcpcd-link", "--program").is_err() && asked("/x/dhcpcd-link", "--programs /p").is_err());
    }

    #[test]
    fn the_host_is_told_of_a_folder() {
        assert_eq!(asked("l", "resolv /f"), Ok(Asked::Resolv { folder: "/f".into() }));
        assert_eq!(asked("l", "resolv"), Ok(Asked::Resolv { folder: FOLDER.into() }));
        assert!(asked("l", "resolv /f /g").is_err());
    }

    #[test]
    fn a_bridge_has_ports_and_interfaces() {
        let interfaces = vec!["c0".to_string()];
        assert_eq!(asked("l", "bridge 1 65535 c0"), Ok(Asked::Bridge { port: 1, peer: 65535, interfaces }));
        for text in ["bridge", "bridge 1 2", "bridge 0 2 c0", "bridge 1 65536 c0", "bridge 1 x c0"] {
            assert!(asked("l", text).is_err(), "{text}");
        }
    }
}
