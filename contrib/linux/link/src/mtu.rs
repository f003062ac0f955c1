//! The MTU that a server says (RFC 2132, section 5.1): set on its interface, and taken back.

use crate::netlink::request::{Kernel, Link};
use crate::say;
use std::collections::BTreeMap;
use std::path::{Path, PathBuf};

/// RFC 791, section 3.2: each host takes packets of this size. Less is a fault, or an attack.
const LEAST: u16 = 576;
const FILE: &str = "mtu";

/// What the interfaces had before, kept over a crash.
pub struct Mtus {
    file: PathBuf,
    before: BTreeMap<String, u32>,
}

impl Mtus {
    pub fn open(folder: &Path) -> Mtus {
        let file = folder.join(FILE);
        let text = std::fs::read_to_string(&file).unwrap_or_default();
        let line = |line: &str| {
            let (name, mtu) = line.split_once(' ')?;
            Some((name.to_string(), mtu.parse().ok()?))
        };
        let before = text.lines().filter_map(line).collect();
        Mtus { file, before }
    }

    fn note(&self) {
        let text: String = self.before.iter().map(|(name, mtu)| format!("{name} {mtu}\n")).collect();
        let written = if text.is_empty() { std::fs::remove_file(&self.file) } else { std::fs::write(&self.file, text) };
        if let Err(error) = written {
            if error.kind() != std::io::ErrorKind::NotFound {
                say!(Warning, "{}: {error}", self.file.display());
            }
        }
    }

    /// Sets what the lease of an interface says, or takes it back where it says nothing.
    pub fn set(&mut self, kernel: &mut Kernel, name: &str, asked: Option<u16>) {
        let asked = asked.filter(|mtu| {
            if *mtu < LEAST {
                say!(Warning, "{name}: an MTU of {mtu} is too little");
            }
            *mtu >= LEAST
        });
        let link = match kernel.links().ok().and_then(|links| links.into_iter().find(|link| link.name == name)) {
            Some(link) => link,
            None => return,
        };
        match (asked, self.before.get(name).copied()) {
            (Some(mtu), before) => self.change(kernel, &link, u32::from(mtu), before.or(Some(link.mtu))),
            (None, Some(before)) => self.change(kernel, &link, before, None),
            (None, None) => {}
        }
    }

    fn change(&mut self, kernel: &mut Kernel, link: &Link, mtu: u32, before: Option<u32>) {
        if link.mtu != mtu {
            match kernel.set_mtu(link.index, mtu) {
                Ok(()) => say!(Info, "{}: MTU {mtu}", link.name),
                Err(error) => {
                    say!(Warning, "{}: MTU {mtu}: {error}", link.name);
                    return;
                }
            }
        }
        match before {
            Some(before) => self.before.insert(link.name.clone(), before),
            None => self.before.remove(&link.name),
        };
        self.note();
    }

    /// Takes all back.
    pub fn take_back(&mut self, kernel: &mut Kernel) {
        let names: Vec<String> = self.before.keys().cloned().collect();
        for name in names {
            self.set(kernel, &name, None);
        }
    }
}
