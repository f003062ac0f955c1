//! The daemon's calls of its script: the same program is run for each and asks the process that stays, over a socket in
//! the folder; where none stays it does by itself what is asked.

use crate::leases::Moment;
use crate::rows::Row;
use crate::table::Table;
use std::io::{self, BufRead, BufReader, Read, Write};
use std::os::unix::fs::PermissionsExt;
use std::os::unix::net::{UnixListener, UnixStream};
use std::path::Path;
use std::time::Duration;

const SOCKET: &str = "rows.socket";
/// How long a caller may take to say what it wants: it does so at once.
const CALLER_PATIENCE: Duration = Duration::from_millis(500);
/// How long the process that stays may take to answer.
const PATIENCE: Duration = Duration::from_secs(10);
const LINE_MOST: u64 = 256;

/// What the script is called for.
#[derive(Clone, Debug, PartialEq, Eq)]
pub enum Call {
    List,
    Add(Row),
    Remove(Row),
}

impl Call {
    /// Reads the words of the script.
    pub fn read(words: &[String]) -> Option<Call> {
        let (word, rest) = words.split_first()?;
        let row = || rest.join(" ").parse::<Row>().ok();
        match word.as_str() {
            "host-list" if rest.is_empty() => Some(Call::List),
            "host-add" => row().map(Call::Add),
            "host-del" => row().map(Call::Remove),
            _ => None,
        }
    }

    fn line(&self) -> String {
        match self {
            Call::List => "host-list\n".to_string(),
            Call::Add(row) => format!("host-add {row}\n"),
            Call::Remove(row) => format!("host-del {row}\n"),
        }
    }

    /// Does what is asked, and says what is to be printed.
    pub fn answer(&self, table: &mut Table, now: Moment) -> io::Result<String> {
        match self {
            Call::List => Ok(table.list_anew()?.iter().map(|row| format!("{row}\n")).collect()),
            Call::Add(row) => table.add(row, now).map(|()| String::new()),
            Call::Remove(row) => table.remove(row, now).map(|()| String::new()),
        }
    }
}

impl std::fmt::Display for Call {
    fn fmt(&self, out: &mut std::fmt::Formatter) -> std::fmt::Result {
        out.write_str(self.line().trim_end())
    }
}

const DONE: &str = "done\n";
const FAILED: &str = "failed\n";

/// Why a call failed.
pub enum Failure {
    /// The process that stays has told it.
    Told,
    Why(String),
}

/// Has a call answered: what is to be printed.
pub fn ask(folder: &Path, call: &Call) -> Result<String, Failure> {
    match UnixStream::connect(folder.join(SOCKET)) {
        Ok(stream) => ask_over(&stream, call).map_err(|error| Failure::Why(error.to_string()))?.ok_or(Failure::Told),
        Err(_) => {
            let mut table =
                Table::open(folder).map_err(|error| Failure::Why(format!("{}: {error}", folder.display())))?;
            call.answer(&mut table, 0).map_err(|error| Failure::Why(error.to_string()))
        }
    }
}

fn ask_over(mut stream: &UnixStream, call: &Call) -> io::Result<Option<String>> {
    stream.set_read_timeout(Some(PATIENCE))?;
    stream.write_all(call.line().as_bytes())?;
    let mut answer = String::new();
    stream.read_to_string(&mut answer)?;
    match (answer.strip_suffix(DONE), answer.as_str()) {
        (Some(printed), _) => Ok(Some(printed.to_string())),
        (None, FAILED) => Ok(None),
        (None, _) => Err(io::ErrorKind::UnexpectedEof.into()),
    }
}

/// Opens the socket for calls.
pub fn listen(folder: &Path) -> io::Result<UnixListener> {
    let path = folder.join(SOCKET);
    if let Err(error) = std::fs::remove_file(&path) {
        if error.kind() != io::ErrorKind::NotFound {
            return Err(error);
        }
    }
    let listener = UnixListener::bind(&path)?;
    std::fs::set_permissions(&path, std::fs::Permissions::from_mode(0o600))?;
    listener.set_nonblocking(true)?;
    Ok(listener)
}

/// Closes it for those to come.
pub fn close(folder: &Path) {
    let _ = std::fs::remove_file(folder.join(SOCKET));
}

/// Answers the next caller: what was asked, and why it failed, if so.
pub fn serve(listener: &UnixListener, table: &mut Table, now: Moment) -> io::Result<Option<(Call, Option<io::Error>)>> {
    let (stream, _) = listener.accept()?;
    stream.set_nonblocking(false)?;
    stream.set_read_timeout(Some(CALLER_PATIENCE))?;
    stream.set_write_timeout(Some(CALLER_PATIENCE))?;
    let mut line = String::new();
    BufReader::new((&stream).take(LINE_MOST)).read_line(&mut line)?;
    let words: Vec<String> = line.trim_end().split(' ').map(str::to_string).collect();
    let call = match Call::read(&words) {
        Some(call) => call,
        None => return Ok(None),
    };
    let (text, failure) = match call.answer(table, now) {
        Ok(printed) => (format!("{printed}{DONE}"), None),
        Err(error) => (FAILED.to_string(), Some(error)),
    };
    (&stream).write_all(text.as_bytes())?;
    Ok(Some((call, failure)))
}

#[cfg(test)]
mod tests {
    use super::*;

    fn words(text: &str) -> Vec<String> {
        text.split(' ').map(str::to_string).collect()
    }

    #[test]
    fn calls_are_read_as_they_are_written() {
        for text in ["host-list", "host-add addr 1 10.0.0.1/8", "host-del route 1 ::/0 via fe80::1 metric 5"] {
            assert_eq!(Call::read(&words(text)).unwrap().line(), format!("{text}\n"));
        }
        for text in ["", "host-list x", "host-add", "host-add addr 1 $(id)/8", "host-take addr 1 10.0.0.1/8"] {
            assert_eq!(Call::read(&words(text)), None, "{text}");
        }
    }
}
