//! The rows that were made, written down for a run after a crash: the name of the boot, and a line for each change.

use crate::rows::Row;
use std::fs::{self, File, OpenOptions};
use std::io::{self, Write};
use std::path::{Path, PathBuf};

const FILE: &str = "rows";
/// What is another one after each boot, when the rows of the one before are gone.
const BOOT: &str = "/proc/sys/kernel/random/boot_id";
/// With so many lines more than rows the file is written anew.
const LINES_MOST: usize = 500;

/// What became of a row.
#[derive(Clone, Copy, Debug, PartialEq, Eq)]
pub enum Change {
    Add,
    Remove,
}

impl Change {
    fn word(self) -> &'static str {
        match self {
            Change::Add => "add",
            Change::Remove => "del",
        }
    }
}

pub struct Notes {
    file: PathBuf,
    boot: String,
    /// The file, to be written at its end; none where it isn't of this boot.
    end: Option<File>,
    lines: usize,
}

impl Notes {
    pub fn open(folder: &Path) -> Notes {
        let boot = fs::read_to_string(BOOT).unwrap_or_default().trim().to_string();
        Notes { file: folder.join(FILE), boot, end: None, lines: 0 }
    }

    /// The rows that stand there, of interfaces that have a place.
    pub fn read(&mut self, place_of: impl Fn(&str) -> Option<usize>) -> Vec<Row> {
        let text = fs::read_to_string(&self.file).unwrap_or_default();
        let mut lines = text.lines();
        let mut rows = Vec::new();
        if lines.next() != Some(&self.boot) {
            return rows;
        }
        for line in lines {
            self.lines += 1;
            if let Some((change, row)) = changed(line, &place_of) {
                rows.retain(|other| *other != row);
                if change == Change::Add {
                    rows.push(row);
                }
            }
        }
        self.end = OpenOptions::new().append(true).open(&self.file).ok();
        rows
    }

    /// Whether more lines stand there than so many rows are worth.
    pub fn is_long(&self, rows: usize) -> bool {
        self.end.is_none() || self.lines > rows + LINES_MOST
    }

    /// Writes one change down, of a row of the interface with this name.
    pub fn append(&mut self, change: Change, name: &str, row: &Row) -> io::Result<()> {
        let mut end = self.end.as_ref().ok_or(io::ErrorKind::NotFound)?;
        self.lines += 1;
        end.write_all(line(change, name, row).as_bytes())
    }

    /// Writes these rows down and no others, whole or not at all.
    pub fn write_anew<'a>(&mut self, rows: impl Iterator<Item = (&'a str, &'a Row)>) -> io::Result<()> {
        let lines: Vec<String> = rows.map(|(name, row)| line(Change::Add, name, row)).collect();
        let aside = self.file.with_extension("new");
        fs::write(&aside, format!("{}\n{}", self.boot, lines.concat()))?;
        fs::rename(&aside, &self.file)?;
        self.lines = lines.len();
        self.end = Some(OpenOptions::new().append(true).open(&self.file)?);
        Ok(())
    }
}

fn line(change: Change, name: &str, row: &Row) -> String {
    format!("{} {name} {row}\n", change.word())
}

/// The change that a line tells, where it tells one.
fn changed(line: &str, place_of: impl Fn(&str) -> Option<usize>) -> Option<(Change, Row)> {
    let (word, rest) = line.split_once(' ')?;
    let (name, row) = rest.split_once(' ')?;
    let change = [Change::Add, Change::Remove].into_iter().find(|change| change.word() == word)?;
    Some((change, Row { place: place_of(name)?, ..row.parse().ok()? }))
}

#[cfg(test)]
mod tests {
    use super::*;

    fn rows(texts: &[&str]) -> Vec<Row> {
        texts.iter().map(|text| text.parse().unwrap()).collect()
    }

    #[test]
    fn changes_are_read_as_they_were_written() {
        let folder = std::env::temp_dir().join(format!("dhcpcd-link-notes-{}", std::process::id()));
        fs::create_dir_all(&folder).unwrap();
        let place_of = |name: &str| ["c0", "c1"].iter().position(|other| *other == name).map(|at| at + 1);
        let all = rows(&["addr 1 10.0.0.1/8", "route 2 ::/0 via fe80::1 metric 5", "addr 1 10.0.0.2/8"]);
        let mut notes = Notes::open(&folder);
        assert_eq!(notes.read(place_of), []);
        assert!(notes.is_long(3) && notes.append(Change::Add, "c0", &all[0]).is_err());
        notes.write_anew([("c0", &all[0]), ("c1", &all[1])].into_iter()).unwrap();
        notes.append(Change::Add, "c0", &all[2]).unwrap();
        notes.append(Change::Remove, "c0", &all[0]).unwrap();
        notes.append(Change::Add, "c9", &all[0]).unwrap();
        assert!(!notes.is_long(2));
        let mut again = Notes::open(&folder);
        assert_eq!(again.read(place_of), all[1..]);
        again.append(Change::Remove, "c1", &all[1]).unwrap();
        assert_eq!(Notes::open(&folder).read(place_of), all[2..]);
        // what was cut off counts for nothing
        let text = fs::read_to_string(folder.join(FILE)).unwrap();
        fs::write(folder.join(FILE), &text[..text.len() - 9]).unwrap();
        assert_eq!(Notes::open(&folder).read(place_of), all[1..]);
        fs::write(folder.join(FILE), format!("another boot\n{text}")).unwrap();
        assert_eq!(Notes::open(&folder).read(place_of), []);
        fs::remove_dir_all(&folder).unwrap();
    }
}
