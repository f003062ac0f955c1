//! How a run begins: what the configuration says is checked and told, the folder made, and all that is needed opened.

use crate::bridge::{self, Bridge, Hearing};
use crate::clock::Clock;
use crate::configuration::{Check, Finding, Made, Named};
use crate::daemon::{Daemon, Wire};
use crate::folder::{Folder, Refused, HOST};
use crate::netlink::request::Kernel;
use crate::run::{Parts, Run};
use crate::say;
use crate::signals::Signals;
use crate::table::Table;
use crate::words;
use std::fs::File;
use std::io;
use std::path::Path;

/// The daemon's own status of a configuration with a bad line.
const BAD_CONFIGURATION: i32 = 4;
const FAILED: i32 = 1;
/// It is there for interfaces of hardware alone.
const DEVICE: &str = "device";

/// Why a run didn't begin.
struct Stopped {
    status: i32,
    why: String,
}

impl From<String> for Stopped {
    fn from(why: String) -> Stopped {
        Stopped { status: FAILED, why }
    }
}

/// Runs the daemon until a signal: the status.
pub fn run(asked: &words::Run) -> i32 {
    match begin(asked) {
        Ok(run) => run.live(),
        Err(stopped) => {
            say!(Error, "{}", stopped.why);
            stopped.status
        }
    }
}

fn begin(asked: &words::Run) -> Result<Run, Stopped> {
    let signals = Signals::open().map_err(|error| format!("signals: {error}"))?;
    let file = &asked.configuration;
    let bytes = std::fs::read(file).map_err(|error| format!("{}: {error}", file.display()))?;
    let failed = |error: io::Error| Stopped::from(format!("{}: {error}", asked.program.display()));
    let check = Check::start(&asked.program, file).map_err(failed)?;
    let opened = open(asked, signals, &Named::read(&bytes));
    tell(&check.end(file, &bytes).map_err(failed)?)?;
    let mut parts = opened?;
    let listener = crate::calls::listen(&parts.folder.path)
        .map_err(|error| format!("{}: {error}", parts.folder.path.display()))?;
    let daemon = start_daemon(asked, &mut parts)?;
    Run::new(parts, daemon, listener, asked.tells_resolver).map_err(|error| Stopped::from(error.to_string()))
}

/// Opens all that a run needs before its daemon.
fn open(asked: &words::Run, signals: Signals, named: &Named) -> Result<Parts, Stopped> {
    let (interfaces, missing) = chosen(asked, named)?;
    let folder = Folder::make(&asked.folder, &interfaces).map_err(|refused| match refused {
        Refused::InUse => format!("another run has {}", asked.folder.display()),
        Refused::Failed(error) => format!("{}: {error}", asked.folder.display()),
    })?;
    let clock = Clock::start();
    let table = Table::open(&folder.path).map_err(|error| format!("{}: {error}", folder.path.display()))?;
    let wire = Wire::open_any().map_err(|error| format!("127.0.0.1: {error}"))?;
    let bridge = Bridge::open(wire, &interfaces, Hearing::Transcript)?;
    let (is_persistent, hooks) = (named.is_persistent, named.hooks);
    Ok(Parts { signals, folder, clock, table, bridge, missing, is_persistent, hooks })
}

/// Says what the daemon finds wrong with the configuration; one with a bad line ends it here.
fn tell(findings: &[Finding]) -> Result<(), Stopped> {
    for finding in findings {
        if finding.refuses {
            return Err(Stopped { status: BAD_CONFIGURATION, why: finding.text.clone() });
        }
        say!(Warning, "{}", finding.text);
    }
    Ok(())
}

/// The interfaces of the run, and those of the configuration that aren't there.
fn chosen(asked: &words::Run, named: &Named) -> Result<(Vec<String>, Vec<String>), Stopped> {
    if !asked.interfaces.is_empty() {
        return Ok((asked.interfaces.clone(), Vec::new()));
    }
    let links = Kernel::open().and_then(|mut kernel| kernel.links()).map_err(|error| format!("netlink: {error}"))?;
    let ethernet = links.iter().filter(|link| link.is_ethernet && link.hardware.is_some());
    let there: Vec<(String, Made)> = ethernet.map(|link| (link.name.clone(), made(&link.name))).collect();
    let (chosen, missing): (Vec<String>, Vec<String>) =
        named.chosen(&there).into_iter().partition(|name| there.iter().any(|(other, _)| other == name));
    for name in &missing {
        say!(Warning, "{name} isn't there; once it comes the run begins anew");
    }
    if chosen.is_empty() {
        return Err(Stopped::from("there is no interface for it".to_string()));
    }
    Ok((chosen, missing))
}

fn made(name: &str) -> Made {
    if Path::new("/sys/class/net").join(name).join(DEVICE).exists() {
        Made::Hardware
    } else {
        Made::Software
    }
}

fn start_daemon(asked: &words::Run, parts: &mut Parts) -> Result<Daemon, Stopped> {
    let wire = &parts.bridge.wire;
    let peer = wire.own_port().map_err(|error| format!("127.0.0.1: {error}"))?;
    let path = |path: &Path| path.to_string_lossy().into_owned();
    let mut words = vec![wire.port().to_string(), peer.to_string()];
    words.extend([path(&parts.folder.files()), path(&parts.folder.path.join(HOST))]);
    words.extend(parts.bridge.ports.iter().map(|port| {
        let digits: Vec<String> = port.hardware.iter().map(|byte| format!("{byte:02x}")).collect();
        format!("{}={}", port.name, digits.join(":"))
    }));
    let configuration =
        File::open(&asked.configuration).map_err(|error| format!("{}: {error}", asked.configuration.display()))?;
    Daemon::start(&asked.program, configuration, &words)
        .map_err(|error| format!("{}: {error}", asked.program.display()).into())
}

/// Joins interfaces to a daemon that another one starts: the status.
pub fn bridge(port: u16, peer: u16, interfaces: &[String]) -> i32 {
    let opened = Signals::open().and_then(|signals| Ok((signals, Wire::open(peer, port)?)));
    let joined = opened.map_err(|error| error.to_string()).and_then(|(signals, wire)| {
        let bridge = Bridge::open(wire, interfaces, Hearing::Sending)?;
        Ok((signals, bridge))
    });
    match joined {
        Ok((signals, bridge)) => {
            println!("ready");
            i32::from(!bridge::alone(bridge, &signals))
        }
        Err(why) => {
            say!(Error, "{why}");
            FAILED
        }
    }
}
