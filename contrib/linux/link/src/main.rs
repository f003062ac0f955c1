//! Joins interfaces of a Linux host to `dhcpcd live`, which speaks datagrams alone and has no raw sockets, and keeps the
//! host's addresses and routes for it. README.md of contrib/linux has how it is used.

#![forbid(unsafe_code)]

mod bridge;
mod calls;
mod clock;
mod configuration;
mod copy;
mod daemon;
mod datagrams;
mod filter;
mod folder;
mod frames;
mod journal;
mod leases;
mod mtu;
mod netlink;
mod notes;
mod notify;
mod packet;
mod ports;
mod rates;
mod resolver;
mod rows;
mod run;
mod signals;
mod start;
mod states;
mod table;
mod transcript;
mod waiting;
mod words;

use std::io::Write;
use std::os::unix::process::CommandExt;
use std::path::Path;
use std::process::{exit, Command};
use words::Asked;

/// sysexits(3) aside, the daemon's own statuses: words of no form.
const USAGE_STATUS: i32 = 2;

fn main() {
    let mut given = std::env::args();
    let name = given.next().unwrap_or_default();
    let rest: Vec<String> = given.collect();
    let status = match words::read(Path::new(&name), &rest) {
        Ok(Asked::Run(asked)) => start::run(&asked),
        Ok(Asked::Bridge { port, peer, interfaces }) => start::bridge(port, peer, &interfaces),
        Ok(Asked::Rows { folder, call }) => rows_call(&folder, &call),
        Ok(Asked::Hook { folder }) => hook(&folder),
        Ok(Asked::Resolv { folder }) => resolver::tell_once(&folder),
        Ok(Asked::Help) => {
            println!("{}", words::USAGE);
            0
        }
        Err(words::Usage(why)) => {
            say!(Error, "{why}");
            eprintln!("{}", words::USAGE);
            USAGE_STATUS
        }
    };
    exit(status)
}

fn rows_call(folder: &Path, call: &calls::Call) -> i32 {
    match calls::ask(folder, call) {
        Ok(printed) => {
            // a listing that can't be handed over counts for nothing
            match std::io::stdout().write_all(printed.as_bytes()) {
                Ok(()) => 0,
                Err(_) => 1,
            }
        }
        Err(calls::Failure::Told) => 1,
        Err(calls::Failure::Why(why)) => {
            say!(Warning, "{call}: {why}");
            1
        }
    }
}

/// Becomes the hook of a folder.
fn hook(folder: &Path) -> i32 {
    let error = Command::new(folder.join(folder::HOOK)).exec();
    say!(Warning, "{}: {error}", folder.join(folder::HOOK).display());
    1
}
