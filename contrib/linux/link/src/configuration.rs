//! What this program reads of the configuration: which interfaces it names, and `persistent`; and what the daemon finds
//! wrong with it, told with the line's text.

use std::fs::File;
use std::io;
use std::path::Path;
use std::process::{Child, Command, Stdio};

const BYTE_ORDER_MARK: &[u8] = b"\xef\xbb\xbf";
/// The script of a configuration without hooks.
const NO_HOOKS: &str = "/dev/null";
/// The word that both programs mind.
const PERSISTENT: &str = "persistent";

/// What a configuration says here.
#[derive(Debug, Default, PartialEq, Eq)]
pub struct Named {
    /// Interfaces with a block, in their order.
    pub blocks: Vec<String>,
    pub allowed: Vec<String>,
    pub denied: Vec<String>,
    pub is_persistent: bool,
    pub hooks: Hooks,
}

/// Whether hooks are run, and tell what happens.
#[derive(Clone, Copy, Debug, Default, PartialEq, Eq)]
pub enum Hooks {
    #[default]
    Run,
    None,
}

impl Named {
    pub fn read(bytes: &[u8]) -> Named {
        let text = String::from_utf8_lossy(bytes);
        let mut named = Named::default();
        let mut is_global = true;
        for line in text.lines() {
            let words: Vec<&str> = line.split_ascii_whitespace().collect();
            match words[..] {
                ["interface", name, ..] => {
                    is_global = false;
                    let name = name.trim_matches('"').to_string();
                    if !named.blocks.contains(&name) {
                        named.blocks.push(name);
                    }
                }
                ["profile" | "ssid", ..] => is_global = false,
                ["allowinterfaces", ref names @ ..] if is_global => {
                    named.allowed.extend(names.iter().map(|name| name.to_string()))
                }
                ["denyinterfaces", ref names @ ..] if is_global => {
                    named.denied.extend(names.iter().map(|name| name.to_string()))
                }
                ["script", path] if is_global => {
                    named.hooks = if path.trim_matches('"') == NO_HOOKS { Hooks::None } else { Hooks::Run };
                }
                [PERSISTENT, ..] if is_global => named.is_persistent = true,
                _ => {}
            }
        }
        named
    }

    /// The interfaces of the configuration, of these that the host has: first those with a block, in their order, then
    /// the others that are allowed. Where none is named, those that are hardware.
    pub fn chosen(&self, there: &[(String, Made)]) -> Vec<String> {
        let is_managed = |name: &str| {
            (self.allowed.is_empty() || self.allowed.iter().any(|pattern| fits(pattern, name)))
                && !self.denied.iter().any(|pattern| fits(pattern, name))
        };
        let mut chosen: Vec<String> = self.blocks.iter().filter(|name| is_managed(name)).cloned().collect();
        let is_named = !chosen.is_empty() || !self.allowed.is_empty();
        for (name, made) in there {
            let counts = if is_named { !self.allowed.is_empty() } else { *made == Made::Hardware };
            if counts && is_managed(name) && !chosen.contains(name) {
                chosen.push(name.clone());
            }
        }
        chosen
    }
}

/// What an interface is made of.
#[derive(Clone, Copy, Debug, PartialEq, Eq)]
pub enum Made {
    Hardware,
    Software,
}

/// Whether a name is a pattern, or begins with what stands before its `*`.
fn fits(pattern: &str, name: &str) -> bool {
    match pattern.strip_suffix('*') {
        Some(begins) => name.starts_with(begins),
        None => pattern == name,
    }
}

/// What was found of a line.
#[derive(Debug, PartialEq, Eq)]
pub struct Finding {
    pub refuses: bool,
    pub text: String,
}

/// The daemon's own check of a file, which goes on beside this program.
pub struct Check(Child);

impl Check {
    pub fn start(program: &Path, file: &Path) -> io::Result<Check> {
        let mut command = Command::new(program);
        command.arg("check").stdin(File::open(file)?).stdout(Stdio::piped()).stderr(Stdio::piped());
        command.spawn().map(Check)
    }

    /// What it finds, and what of the form of the file with these bytes an editor hides.
    pub fn end(self, file: &Path, bytes: &[u8]) -> io::Result<Vec<Finding>> {
        let output = self.0.wait_with_output()?;
        let text = |bytes: &[u8]| String::from_utf8_lossy(bytes).into_owned();
        Ok(findings(file, bytes, output.status.success(), &text(&output.stdout), &text(&output.stderr)))
    }
}

fn findings(file: &Path, bytes: &[u8], passed: bool, noticed: &str, refused: &str) -> Vec<Finding> {
    let lines: Vec<String> =
        bytes.split(|byte| *byte == b'\n').map(|line| String::from_utf8_lossy(line).into_owned()).collect();
    let of_line = |number: usize, what: &str, refuses: bool| {
        let line = lines.get(number.wrapping_sub(1)).map_or("", String::as_str).trim_end_matches('\r');
        Finding { refuses, text: format!("{}:{number}: {what}: {line}", file.display()) }
    };
    let mut found = form(file, bytes);
    for line in noticed.lines() {
        let words: Vec<&str> = line.splitn(3, ' ').collect();
        if let ["notice", number, word] = words[..] {
            let number = number.parse().unwrap_or(0);
            found.push(of_line(number, &format!("`{word}` does nothing"), false));
        }
    }
    let told = refused.trim_end();
    let place = told.strip_prefix("dhcpcd: configuration line ").and_then(|rest| rest.split_once(": "));
    match place {
        Some((number, cause)) => found.push(of_line(number.parse().unwrap_or(0), meaning(cause), true)),
        None if !passed => found.push(Finding { refuses: true, text: format!("{}: {told}", file.display()) }),
        None => {}
    }
    found
}

/// Marks that an editor doesn't show.
fn form(file: &Path, bytes: &[u8]) -> Vec<Finding> {
    let mut found = Vec::new();
    let mut tell = |number: usize, what: &str| {
        found.push(Finding { refuses: false, text: format!("{}:{number}: {what}", file.display()) });
    };
    if bytes.starts_with(BYTE_ORDER_MARK) {
        tell(1, "the file begins with a byte order mark (BOM), which becomes part of the first word");
    }
    if let Some(at) = bytes.windows(2).position(|pair| pair == b"\r\n") {
        let number = 1 + bytes[..at].iter().filter(|byte| **byte == b'\n').count();
        tell(number, "lines end with CRLF");
    }
    found
}

/// A cause of docs/FORMATS.md in words.
fn meaning(cause: &str) -> &str {
    match cause {
        "NotText" => "this isn't text in UTF-8, or has a control character",
        "BadArgument" => "an argument is missing, of no form, or one too many",
        "Repeated" => "this identity association stands twice",
        "TooMany" => "there are too many of these",
        other => other,
    }
}

#[cfg(test)]
mod tests {
    use super::*;

    fn chosen(text: &str) -> Vec<String> {
        let there =
            [("lo", Made::Software), ("eth1", Made::Hardware), ("eth0", Made::Hardware), ("docker0", Made::Software)];
        let there: Vec<_> = there.iter().map(|(name, made)| (name.to_string(), *made)).collect();
        Named::read(text.as_bytes()).chosen(&there)
    }

    #[test]
    fn interfaces_are_those_of_the_configuration_in_its_order() {
        assert_eq!(chosen("nodelay\n"), ["eth1", "eth0"]);
        assert_eq!(chosen("denyinterfaces eth1\n"), ["eth0"]);
        assert_eq!(chosen("interface eth7\ninterface eth0\ninterface eth7\n"), ["eth7", "eth0"]);
        assert_eq!(chosen("allowinterfaces eth*\ninterface eth0\n"), ["eth0", "eth1"]);
        assert_eq!(chosen("allowinterfaces docker0\n"), ["docker0"]);
        assert_eq!(chosen("interface eth0\nallowinterfaces eth1\n"), ["eth0"]);
        assert!(chosen("allowinterfaces wlan*\n").is_empty());
    }

    #[test]
    fn persistent_is_a_global_line() {
        assert!(Named::read(b"persistent\r\n").is_persistent);
        assert_eq!(Named::read(b"script /x\nscript /dev/null\n").hooks, Hooks::None);
        assert!(!Named::read(b"#persistent\ninterface eth0\npersistent\n").is_persistent);
    }

    #[test]
    fn findings_have_the_file_the_line_and_its_text() {
        let text = b"\xef\xbb\xbfnodelay\r\nnoarp\r\ntimeout soon\r\n";
        let refused = "dhcpcd: configuration line 3: BadArgument\n";
        let found = findings(Path::new("conf"), text, false, "notice 1 \u{feff}nodelay\n", refused);
        let texts: Vec<&str> = found.iter().map(|one| one.text.as_str()).collect();
        assert_eq!(texts.len(), 4);
        assert!(texts[0].starts_with("conf:1: ") && texts[0].contains("BOM"));
        assert_eq!(texts[1], "conf:1: lines end with CRLF");
        assert!(texts[2].starts_with("conf:1: `\u{feff}nodelay` does nothing: "));
        assert_eq!(texts[3], "conf:3: an argument is missing, of no form, or one too many: timeout soon");
        assert!(found[3].refuses && !found[2].refuses);
    }

    #[test]
    fn a_check_that_fails_otherwise_refuses() {
        let found = findings(Path::new("conf"), b"", false, "", "dhcpcd: input too long\n");
        assert_eq!(found, [Finding { refuses: true, text: "conf: dhcpcd: input too long".to_string() }]);
        assert!(findings(Path::new("conf"), b"", true, "ok\n", "").is_empty());
    }
}
