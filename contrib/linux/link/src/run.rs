//! The run: bridge, tables and daemon side by side, until a stop or the end of the daemon.

use crate::bridge::{Bridge, Meaning};
use crate::calls;
use crate::clock::Clock;
use crate::configuration::Hooks;
use crate::copy::Copy;
use crate::daemon::{Daemon, Transcript};
use crate::datagrams::Told;
use crate::folder::Folder;
use crate::leases::Lease;
use crate::mtu::Mtus;
use crate::notify::Notify;
use crate::ports::Port;
use crate::rates::Budget;
use crate::resolver::{self, Resolver, Telling};
use crate::rows::{Entry, Row};
use crate::say;
use crate::signals::{Asks, Signals};
use crate::states::Standing;
use crate::table::{Leaves, Over, Table};
use crate::transcript::{Reading, Said};
use crate::waiting::{wait, Source};
use nix::sys::inotify::{AddWatchFlags, InitFlags, Inotify};
use nix::sys::time::TimeSpec;
use nix::sys::timerfd::{ClockId, Expiration, TimerFd, TimerFlags, TimerSetTimeFlags};
use std::collections::BTreeMap;
use std::io;
use std::net::IpAddr;
use std::os::unix::io::AsRawFd;
use std::os::unix::net::UnixListener;
use std::time::{Duration, Instant};

/// How long after the kernel's word rows are looked at, so that the daemon's own changes are over.
const LOOK_AFTER: Duration = Duration::from_millis(300);
/// A row that others take away is put back so often in so long.
const PUT_BACK: usize = 3;
const PUT_BACK_SPAN: Duration = Duration::from_secs(60);
/// A daemon that was told to stop goes on for five seconds, and longer while it still has rows taken away.
const STOP: Duration = Duration::from_secs(8);
const STOP_AFTER_CALL: Duration = Duration::from_secs(6);
/// Without an address for so long the service counts as ready all the same.
const READY: Duration = Duration::from_secs(30);
/// How often it is asked at least whether the host was suspended, by a clock that goes on then.
const ASLEEP: TimeSpec = TimeSpec::from_duration(Duration::from_secs(120));
/// How long after a row of the daemon's what an earlier run left is looked at.
const TIDY_AFTER: Duration = Duration::from_secs(2);
const LEASE4: &str = ".lease4";
const LEASE6: &str = ".lease6";

/// What a run is made of, before its daemon is there.
pub struct Parts {
    pub signals: Signals,
    pub folder: Folder,
    pub clock: Clock,
    pub table: Table,
    pub bridge: Bridge,
    pub missing: Vec<String>,
    pub is_persistent: bool,
    pub hooks: Hooks,
}

/// Why the loop is over.
enum End {
    /// The daemon's status.
    Daemon(i32),
    /// It was to stop, and didn't.
    NoStop,
    /// What the daemon holds stays, as `persistent` asks for.
    Persistent,
    /// All has to begin anew.
    Anew,
}

pub struct Run {
    parts: Parts,
    daemon: Daemon,
    listener: UnixListener,
    files: Inotify,
    timer: TimerFd,
    reading: Reading,
    copy: Copy,
    notify: Notify,
    mtus: Mtus,
    resolver: Option<Telling>,
    stop: Standing<bool>,
    stop_by: Option<Instant>,
    look_at: Option<Instant>,
    tidy_at: Option<Instant>,
    ready_by: Instant,
    puts: BTreeMap<String, (Budget, bool)>,
    failures: BTreeMap<String, Budget>,
    end: Option<End>,
}

impl Run {
    pub fn new(parts: Parts, daemon: Daemon, listener: UnixListener, tells_resolver: bool) -> io::Result<Run> {
        let files = Inotify::init(InitFlags::IN_NONBLOCK | InitFlags::IN_CLOEXEC)?;
        files.add_watch(&parts.folder.files(), AddWatchFlags::IN_MOVED_TO | AddWatchFlags::IN_DELETE)?;
        let timer = TimerFd::new(ClockId::CLOCK_BOOTTIME, TimerFlags::TFD_NONBLOCK | TimerFlags::TFD_CLOEXEC)?;
        timer.set(Expiration::Interval(ASLEEP), TimerSetTimeFlags::empty())?;
        let first = parts.bridge.ports.first().map_or("", |port| port.name.as_str());
        let resolver = tells_resolver.then(|| Telling::start(Resolver::new(&parts.folder.path, first)));
        let mut run = Run {
            mtus: Mtus::open(&parts.folder.path),
            parts,
            daemon,
            listener,
            files,
            timer,
            reading: Reading::default(),
            copy: Copy::start(),
            notify: Notify::open(),
            resolver,
            stop: Standing::new(false),
            stop_by: None,
            look_at: None,
            tidy_at: None,
            ready_by: Instant::now() + READY,
            puts: BTreeMap::new(),
            failures: BTreeMap::new(),
            end: None,
        };
        run.read_files();
        if run.parts.is_persistent {
            run.parts.table.set_leaves(Leaves::Rows);
        }
        Ok(run)
    }

    /// Lives until the end: the status.
    pub fn live(mut self) -> i32 {
        loop {
            let now = Instant::now();
            self.act(now);
            if let Some(end) = self.end.take() {
                return self.end(&end);
            }
            let sources = wait(&self.sources(), self.due(now));
            self.mind_suspend();
            for source in sources {
                self.hear(source);
            }
        }
    }

    fn sources(&self) -> Vec<(i32, Source)> {
        let mut sources = self.parts.bridge.sources();
        sources.extend([
            (self.parts.signals.fd(), Source::Signals),
            (self.daemon.fd(), Source::Transcript),
            (self.files.as_raw_fd(), Source::Files),
            (self.listener.as_raw_fd(), Source::Calls),
            (self.timer.as_raw_fd(), Source::Timer),
        ]);
        sources
    }

    fn due(&self, now: Instant) -> Option<Instant> {
        let ready = Some(self.ready_by).filter(|_| !self.notify.is_ready());
        [self.parts.bridge.due(now), self.stop.due(now), self.stop_by, self.look_at, self.tidy_at, ready]
            .into_iter()
            .flatten()
            .min()
    }

    fn act(&mut self, now: Instant) {
        self.parts.bridge.act(now);
        if self.stop.due(now).map_or(false, |due| due <= now) {
            let taken = self.parts.bridge.wire.tell_stop();
            self.stop.say(now, taken);
        }
        if self.stop_by.map_or(false, |by| by <= now) {
            self.end = Some(End::NoStop);
        }
        if self.look_at.map_or(false, |at| at <= now) {
            self.look_at = None;
            self.look(now);
        }
        if self.tidy_at.map_or(false, |at| at <= now) {
            self.tidy_at = None;
            self.end_left(Over::Replaced);
        }
        if !self.notify.is_ready() && self.ready_by <= now {
            self.notify.ready();
        }
    }

    fn hear(&mut self, source: Source) {
        let now = Instant::now();
        match source {
            Source::Signals => self.hear_signals(now),
            Source::Daemon => self.parts.bridge.hear_daemon(now),
            Source::Kernel => {
                let meaning = self.parts.bridge.hear_kernel(now);
                self.mind(meaning, now);
            }
            Source::Transcript => self.hear_transcript(),
            Source::Files => self.hear_files(),
            Source::Calls => self.hear_call(),
            // that it woke is all
            Source::Timer => drop(self.timer.wait()),
            Source::Port(at) => self.parts.bridge.hear_port(at, now),
        }
    }

    fn hear_signals(&mut self, now: Instant) {
        for asks in self.parts.signals.came() {
            match asks {
                Asks::Stop if self.parts.is_persistent => self.end = Some(End::Persistent),
                Asks::Stop => {
                    self.stop.set(true);
                    self.stop_by = self.stop_by.or(Some(now + STOP));
                    self.notify.stopping();
                }
                Asks::Rebind => self.parts.bridge.tell_all(Told::Rebind),
                Asks::Release => {
                    self.parts.bridge.tell_all(Told::Release);
                    self.end_left(Over::All);
                }
                // its transcript ends too
                Asks::Child => {}
            }
        }
    }

    fn mind(&mut self, meaning: Meaning, now: Instant) {
        if meaning.rows && self.look_at.is_none() {
            self.look_at = Some(now + LOOK_AFTER);
        }
        let down: Vec<usize> =
            self.parts.bridge.ports.iter().filter(|port| !port.carrier.now()).map(|port| port.place).collect();
        for place in down {
            self.end_left(Over::Place(place));
        }
        let came = meaning.others.iter().find(|name| self.parts.missing.contains(name));
        if let Some(why) = meaning.anew.or_else(|| came.map(|name| format!("{name} came"))) {
            say!(Warning, "{why}: the run begins anew");
            self.end = Some(End::Anew);
        }
    }

    /// What an earlier run left goes, as far as it is over.
    fn end_left(&mut self, over: Over) {
        if !self.parts.table.has_left() {
            return;
        }
        if let Err(error) = self.parts.table.end_left(over) {
            say!(Warning, "what an earlier run left: {error}");
        }
    }

    fn hear_transcript(&mut self) {
        match self.daemon.transcript() {
            Transcript::Bytes(bytes) => {
                for said in self.reading.read(&bytes) {
                    self.said(&said);
                }
                self.copy.write(bytes);
            }
            // it closes its transcript with its end
            Transcript::End => self.end = Some(End::Daemon(self.daemon.wait())),
        }
    }

    fn said(&mut self, said: &Said) {
        match said {
            Said::Carrier { place, up } => self.parts.bridge.heard_carrier(*place, *up),
            Said::Stop => self.stop.heard(true),
            Said::Event(event) => match event.told() {
                Some((true, line)) => say!(Warning, "{line}"),
                Some((false, line)) => say!(Info, "{line}"),
                None => {}
            },
        }
    }

    fn hear_call(&mut self) {
        match calls::serve(&self.listener, &mut self.parts.table, self.parts.clock.moment()) {
            Ok(Some((call, Some(error)))) => self.tell_failure(&call.to_string(), &error),
            Ok(_) => {}
            Err(error) if error.kind() == io::ErrorKind::WouldBlock => {}
            Err(error) => say!(Warning, "a call of the script: {error}"),
        }
        let now = Instant::now();
        if self.parts.table.has_left() {
            self.tidy_at = Some(now + TIDY_AFTER);
        }
        self.stop_by = self.stop_by.map(|by| by.max(now + STOP_AFTER_CALL));
        self.tell_systemd();
    }

    /// The daemon asks for what failed again each second; it is told now and then.
    fn tell_failure(&mut self, call: &str, error: &io::Error) {
        let new = || Budget::new(1, PUT_BACK_SPAN);
        if self.failures.entry(call.to_string()).or_insert_with(new).spend(Instant::now()) {
            say!(Warning, "{call}: {error}");
        }
    }

    /// Ready once there is an address for more than the link.
    fn tell_systemd(&mut self) {
        let mut parts = Vec::new();
        for port in &self.parts.bridge.ports {
            let nets = self.parts.table.addresses(port.place);
            let is_wide = |address: IpAddr| !matches!(address, IpAddr::V4(address) if address.is_link_local());
            if nets.iter().any(|net| is_wide(net.address)) {
                self.notify.ready();
            }
            let texts: Vec<String> = nets.iter().map(|net| net.to_string()).collect();
            let text = if texts.is_empty() { "no address".to_string() } else { texts.join(" ") };
            parts.push(format!("{} {text}", port.name));
        }
        self.notify.status(&parts.join("; "));
    }

    fn mind_suspend(&mut self) {
        if self.parts.clock.was_suspended() {
            say!(Notice, "the host was suspended: leases are confirmed");
            self.parts.bridge.tell_all(Told::Rebind);
            if let Err(error) = self.parts.table.refresh_all(self.parts.clock.moment()) {
                say!(Warning, "lifetimes: {error}");
            }
        }
    }

    fn hear_files(&mut self) {
        let events = match self.files.read_events() {
            Ok(events) => events,
            Err(_) => return,
        };
        if events.iter().any(|event| event.mask.contains(AddWatchFlags::IN_Q_OVERFLOW)) {
            self.read_files();
        }
        for name in events.into_iter().filter_map(|event| event.name) {
            self.read_file(&name.to_string_lossy());
        }
    }

    fn read_files(&mut self) {
        let folder = self.parts.folder.files();
        let names = std::fs::read_dir(folder)
            .map(|entries| entries.flatten().map(|entry| entry.file_name()).collect::<Vec<_>>());
        for name in names.unwrap_or_default() {
            self.read_file(&name.to_string_lossy());
        }
    }

    /// A file of the daemon is another one now, or gone.
    fn read_file(&mut self, name: &str) {
        if name == resolver::FILE {
            if let Some(resolver) = &self.resolver {
                resolver.tell();
            }
            return;
        }
        let interface = name.strip_suffix(LEASE4).or_else(|| name.strip_suffix(LEASE6));
        let is_it = |port: &&Port| Some(port.name.as_str()) == interface;
        if let Some(port) = self.parts.bridge.ports.iter().find(is_it) {
            let (place, interface) = (port.place, port.name.clone());
            self.read_lease(name, place, &interface);
        }
    }

    /// The file of a lease of an interface of this run is another one now, or gone.
    fn read_lease(&mut self, name: &str, place: usize, interface: &str) {
        let text = std::fs::read_to_string(self.parts.folder.files().join(name));
        let lease = text.ok().and_then(|text| Lease::read(&text)).filter(|lease| lease.interface == interface);
        if name.ends_with(LEASE4) {
            let mtu = lease.as_ref().and_then(|lease| lease.mtu);
            self.mtus.set(self.parts.table.kernel(), interface, mtu);
        }
        if lease.is_none() {
            self.end_left(Over::Place(place));
        }
        if self.parts.hooks == Hooks::None {
            tell_lease(interface, self.parts.table.lease(name), lease.as_ref());
        }
        if let Err(error) = self.parts.table.set_lease(name, lease, self.parts.clock.moment()) {
            say!(Warning, "lifetimes of {name}: {error}");
        }
    }

    /// Puts rows back that others took away, of interfaces with carrier.
    fn look(&mut self, now: Instant) {
        let ports = &self.parts.bridge.ports;
        let puts = &mut self.puts;
        let may = |row: &Row| {
            let has_carrier = ports.iter().any(|port| port.place == row.place && port.carrier.now());
            has_carrier && may_put(puts, row, now)
        };
        match self.parts.table.put_back(self.parts.clock.moment(), may) {
            Ok(put) => {
                for (row, outcome) in put {
                    let name = self.parts.bridge.ports.get(row.place - 1).map_or("", |port| port.name.as_str());
                    let kind = if matches!(row.entry, Entry::Address(_)) { "address" } else { "route" };
                    match outcome {
                        Ok(()) => say!(Notice, "{name}: {kind} {} was taken away, and is put back", row.entry),
                        Err(error) => say!(Warning, "{name}: {kind} {} was taken away: {error}", row.entry),
                    }
                }
            }
            Err(error) => say!(Warning, "netlink: {error}"),
        }
    }

    fn end(&mut self, end: &End) -> i32 {
        let status = match end {
            End::Daemon(status) if self.stop_by.is_some() => *status,
            End::Daemon(status) => {
                say!(Error, "the daemon has ended by itself, with status {status}");
                (*status).max(1)
            }
            End::NoStop => {
                say!(Error, "the daemon doesn't end");
                1
            }
            End::Persistent => 0,
            End::Anew => 1,
        };
        self.daemon.kill();
        self.copy.end();
        calls::close(&self.parts.folder.path);
        if self.stop_by.is_some() {
            self.mtus.take_back(self.parts.table.kernel());
        }
        status
    }
}

/// Tells what became of a lease where no hooks do.
fn tell_lease(interface: &str, before: Option<&Lease>, now: Option<&Lease>) {
    match (before.map(Lease::granted), now.map(Lease::granted)) {
        (Some(before), Some(now)) if before == now => say!(Info, "{interface}: renewed {now}"),
        (_, Some(now)) => say!(Info, "{interface}: bound {now}"),
        (Some(before), None) => say!(Warning, "{interface}: over {before}"),
        (None, None) => {}
    }
}

/// Whether a row may be put back, of which the first refusal is told.
fn may_put(puts: &mut BTreeMap<String, (Budget, bool)>, row: &Row, now: Instant) -> bool {
    let (budget, told) = puts.entry(row.to_string()).or_insert_with(|| (Budget::new(PUT_BACK, PUT_BACK_SPAN), false));
    let may = budget.spend(now);
    if !may && !*told {
        say!(Warning, "{row} is taken away again and again: for a while it isn't put back");
    }
    *told = !may;
    may
}
