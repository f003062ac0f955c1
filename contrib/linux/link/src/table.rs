//! The rows of the host that the daemon lists, adds and takes away, and those that it wants, kept over a crash.

use crate::leases::{Lease, Lifetimes, Moment};
use crate::netlink::request::{Address, Kernel, Put, RouteMore};
use crate::notes::{Change, Notes};
use crate::rows::{Entry, Net, Route, Row, Way};
use nix::net::if_::if_nametoindex;
use std::collections::BTreeMap;
use std::io;
use std::net::IpAddr;
use std::path::Path;

/// The file in the folder that has the names of interfaces in the order of their numbers.
pub const INTERFACES: &str = "interfaces";
/// linux/if_addr.h: addresses that the kernel makes of others.
const IFA_F_TEMPORARY: u32 = 0x01;
const IFA_F_MANAGETEMPADDR: u32 = 0x100;

/// The tables of the host, as far as its interfaces here are concerned.
pub struct Table {
    kernel: Kernel,
    notes: Notes,
    names: Vec<String>,
    wanted: Vec<Row>,
    /// What an earlier run left for this one: it stays until the daemon wants it again, or another in its place.
    left: Vec<Row>,
    leaves: Leaves,
    leases: BTreeMap<String, Lease>,
}

/// Whether rows of an earlier run are taken from the daemon's listing, so that it takes none away that it will want again.
#[derive(Clone, Copy, Debug, PartialEq, Eq)]
pub enum Leaves {
    Nothing,
    Rows,
}

/// Whose rows are over.
#[derive(Clone, Copy, Debug, PartialEq, Eq)]
pub enum Over {
    All,
    Place(usize),
    /// Those of a family that the daemon has rows of again.
    Replaced,
}

impl Table {
    /// The tables of a folder that names its interfaces.
    pub fn open(folder: &Path) -> io::Result<Table> {
        let names = std::fs::read_to_string(folder.join(INTERFACES))?;
        let mut table = Table {
            kernel: Kernel::open()?,
            notes: Notes::open(folder),
            names: names.lines().map(str::to_string).collect(),
            wanted: Vec::new(),
            left: Vec::new(),
            leaves: Leaves::Nothing,
            leases: BTreeMap::new(),
        };
        table.recall();
        Ok(table)
    }

    /// The rows that an earlier process of this boot was to keep.
    fn recall(&mut self) {
        let names = &self.names;
        self.wanted = self.notes.read(|name| Some(names.iter().position(|other| other == name)? + 1));
    }

    /// Writes all rows that are to be known after a crash down anew.
    fn note_all(&mut self) -> io::Result<()> {
        let Table { notes, names, wanted, left, .. } = self;
        notes.write_anew(wanted.iter().chain(left.iter()).map(|row| (name_in(names, row), row)))
    }

    /// Writes one change down, which is made here already.
    fn note(&mut self, change: Change, row: &Row) -> io::Result<()> {
        if self.notes.is_long(self.wanted.len() + self.left.len()) {
            return self.note_all();
        }
        self.notes.append(change, name_in(&self.names, row), row)
    }

    fn name(&self, row: &Row) -> &str {
        name_in(&self.names, row)
    }

    fn index(&self, row: &Row) -> io::Result<u32> {
        Ok(if_nametoindex(self.name(row))?)
    }

    /// The rows that the daemon is told of: what it made, and what an earlier DHCP client left. Those of others stay.
    pub fn list(&mut self) -> io::Result<Vec<Row>> {
        let places: BTreeMap<u32, usize> = self
            .names
            .iter()
            .enumerate()
            .filter_map(|(at, name)| Some((if_nametoindex(name.as_str()).ok()?, at + 1)))
            .collect();
        let mut rows = Vec::new();
        for address in self.kernel.addresses()? {
            if let Some(place) = places.get(&address.index) {
                let row = Row { place: *place, entry: Entry::Address(address.net) };
                if is_kept(&address)
                    && (self.wanted.contains(&row) || self.left.contains(&row) || is_of_client(&address))
                {
                    rows.push(row);
                }
            }
        }
        for own in self.kernel.own_routes()? {
            let entry = Entry::Route(own.route);
            match own.route.way {
                // the kernel keeps those without an interface
                Way::Reject => {
                    rows.extend(self.wanted.iter().chain(&self.left).find(|row| row.entry == entry).copied())
                }
                Way::Link | Way::Via(_) => {
                    rows.extend(places.get(&own.index).map(|place| Row { place: *place, entry }))
                }
            }
        }
        rows.sort_by_cached_key(Row::to_string);
        rows.dedup();
        Ok(rows)
    }

    /// The rows of a listing for the daemon, which goes on from there: they are what it wants now.
    pub fn list_anew(&mut self) -> io::Result<Vec<Row>> {
        let rows = self.list()?;
        if std::mem::replace(&mut self.leaves, Leaves::Nothing) == Leaves::Rows {
            self.left = rows.clone();
        }
        self.wanted = rows.into_iter().filter(|row| !self.left.contains(row)).collect();
        self.note_all()?;
        Ok(self.wanted.clone())
    }

    /// What an earlier run left isn't told of at the first listing.
    pub fn set_leaves(&mut self, leaves: Leaves) {
        self.leaves = leaves;
    }

    /// Whether something of an earlier run is there still.
    pub fn has_left(&self) -> bool {
        !self.left.is_empty()
    }

    /// Takes away what an earlier run left, as far as it is over.
    pub fn end_left(&mut self, over: Over) -> io::Result<()> {
        let is_over = |row: &Row| match over {
            Over::All => true,
            Over::Place(place) => row.place == place,
            Over::Replaced => self.wanted.iter().any(|other| other.place == row.place && is_ip4(other) == is_ip4(row)),
        };
        let (over, left): (Vec<Row>, Vec<Row>) = self.left.iter().partition(|row| is_over(row));
        if over.is_empty() {
            return Ok(());
        }
        self.left = left;
        // routes go before the addresses that they are from
        over.iter().rev().map(|row| self.take_away(row)).fold(Ok(()), io::Result::and)?;
        self.note_all()
    }

    /// Adds a row; `Ok` where the host then has it.
    pub fn add(&mut self, row: &Row, now: Moment) -> io::Result<()> {
        if let Err(error) = self.put(row, now) {
            if !self.list()?.contains(row) {
                return Err(error);
            }
        }
        self.left.retain(|other| other != row);
        if !self.wanted.contains(row) {
            self.wanted.push(*row);
        }
        self.note(Change::Add, row)?;
        self.mend(row, now);
        Ok(())
    }

    /// Takes a row away; `Ok` where the host then hasn't it.
    pub fn remove(&mut self, row: &Row, now: Moment) -> io::Result<()> {
        self.wanted.retain(|other| other != row);
        self.note(Change::Remove, row)?;
        self.take_away(row)?;
        self.mend(row, now);
        Ok(())
    }

    fn take_away(&mut self, row: &Row) -> io::Result<()> {
        let removed = match self.index(row) {
            Ok(index) => match row.entry {
                Entry::Address(net) => self.kernel.remove_address(index, net),
                Entry::Route(route) => self.kernel.remove_route(index, &route),
            },
            Err(error) => Err(error),
        };
        if let Err(error) = removed {
            if self.list()?.contains(row) {
                return Err(error);
            }
        }
        Ok(())
    }

    /// With an address of IPv4 the kernel takes away routes that others of the interface still want.
    fn mend(&mut self, changed: &Row, now: Moment) {
        let is_address4 = matches!(changed.entry, Entry::Address(net) if net.address.is_ipv4());
        let has_address4 = self.own_address(changed.place, |_| true).is_some();
        if is_address4 && has_address4 && self.wanted.iter().any(|row| row.place == changed.place && row != changed) {
            // what can't be put back now is looked for again after the kernel's word of it
            let _ = self.put_back(now, |row| row.place == changed.place);
        }
    }

    /// Puts back rows that are wanted and aren't there, of those that may be: which, and what came of each.
    pub fn put_back(
        &mut self,
        now: Moment,
        mut may: impl FnMut(&Row) -> bool,
    ) -> io::Result<Vec<(Row, io::Result<()>)>> {
        let listed = self.list()?;
        let missing: Vec<Row> = self.wanted.iter().filter(|row| !listed.contains(row)).copied().collect();
        let missing = missing.into_iter().filter(|row| !self.is_over(row, now) && may(row)).collect::<Vec<Row>>();
        Ok(missing.into_iter().map(|row| (row, self.put(&row, now))).collect())
    }

    fn until(&self, row: &Row) -> Option<crate::leases::Until> {
        self.leases.values().find_map(|lease| lease.until(self.name(row), row))
    }

    /// Whether the lease that a row comes from is over.
    fn is_over(&self, row: &Row, now: Moment) -> bool {
        self.until(row).map_or(false, |until| until.left(now).is_none())
    }

    fn lifetimes(&self, row: &Row, now: Moment) -> Lifetimes {
        self.until(row).and_then(|until| until.left(now)).unwrap_or(Lifetimes::NONE)
    }

    fn put(&mut self, row: &Row, now: Moment) -> io::Result<()> {
        let index = self.index(row)?;
        let lifetimes = self.lifetimes(row, now);
        match row.entry {
            Entry::Address(net) => match self.kernel.put_address(Put::New, index, net, lifetimes) {
                // it is there without the mark, or with another time
                Err(error) if error.raw_os_error() == Some(libc::EEXIST) => {
                    self.kernel.put_address(Put::Anew, index, net, lifetimes)
                }
                outcome => outcome,
            },
            Entry::Route(route) => self.put_route(row.place, index, &route, lifetimes),
        }
    }

    fn put_route(&mut self, place: usize, index: u32, route: &Route, lifetimes: Lifetimes) -> io::Result<()> {
        let more = RouteMore { source: self.source(place, route), expires: expires(route, lifetimes) };
        match self.kernel.put_route(Put::New, index, route, more) {
            // the address isn't there yet
            Err(error) if error.raw_os_error() == Some(libc::EINVAL) && more.source.is_some() => {
                self.kernel.put_route(Put::New, index, route, RouteMore { source: None, ..more })
            }
            outcome => outcome,
        }
    }

    /// The address of IPv4 that packets over a route are to come from: of those of the interface the one on its network, or
    /// else the first. For IPv6 the kernel chooses (RFC 6724).
    fn source(&self, place: usize, route: &Route) -> Option<IpAddr> {
        let beyond = match route.way {
            Way::Via(gateway) => gateway,
            Way::Link => route.net.address,
            Way::Reject => return None,
        };
        if !beyond.is_ipv4() {
            return None;
        }
        let near = self.own_address(place, |net| net.contains(beyond));
        near.or_else(|| self.own_address(place, |_| true)).map(|net| net.address)
    }

    fn own_address(&self, place: usize, is_it: impl Fn(&Net) -> bool) -> Option<Net> {
        self.wanted.iter().find_map(|row| match row.entry {
            Entry::Address(net) if row.place == place && net.address.is_ipv4() && is_it(&net) => Some(net),
            _ => None,
        })
    }

    /// The lease that a file had when it was read last.
    pub fn lease(&self, file: &str) -> Option<&Lease> {
        self.leases.get(file)
    }

    /// A file has this lease now, or none: what comes from it gets what is left.
    pub fn set_lease(&mut self, file: &str, lease: Option<Lease>, now: Moment) -> io::Result<()> {
        match lease {
            Some(lease) => self.leases.insert(file.to_string(), lease),
            None => self.leases.remove(file),
        };
        if self.leases.contains_key(file) {
            self.refresh(file, now)?;
        }
        Ok(())
    }

    /// Sets the kernel's lifetimes of all that comes from the lease of a file.
    fn refresh(&mut self, file: &str, now: Moment) -> io::Result<()> {
        let granted = |row: &&Row| {
            let name = self.name(row);
            self.leases.get(file).map_or(false, |lease| lease.until(name, row).is_some())
        };
        let granted: Vec<Row> = self.wanted.iter().filter(granted).copied().collect();
        let there = self.list()?;
        let is_there = |row: &&Row| there.contains(row) && !self.is_over(row, now);
        let rows: Vec<Row> = granted.iter().filter(is_there).copied().collect();
        for row in &rows {
            let (index, lifetimes) = (self.index(row)?, self.lifetimes(row, now));
            match row.entry {
                Entry::Address(net) => self.kernel.put_address(Put::Anew, index, net, lifetimes)?,
                Entry::Route(route) => {
                    let more = RouteMore { source: None, expires: expires(&route, lifetimes) };
                    self.kernel.put_route(Put::Anew, index, &route, more)?;
                }
            }
        }
        Ok(())
    }

    /// Sets all lifetimes again, as after a suspended host wakes.
    pub fn refresh_all(&mut self, now: Moment) -> io::Result<()> {
        let files: Vec<String> = self.leases.keys().cloned().collect();
        files.iter().try_for_each(|file| self.refresh(file, now))
    }

    /// The addresses of an interface that the daemon wants.
    pub fn addresses(&self, place: usize) -> Vec<Net> {
        let net = |row: &Row| match row.entry {
            Entry::Address(net) if row.place == place => Some(net),
            _ => None,
        };
        self.wanted.iter().filter_map(net).collect()
    }

    pub fn kernel(&mut self) -> &mut Kernel {
        &mut self.kernel
    }
}

fn name_in<'a>(names: &'a [String], row: &Row) -> &'a str {
    names.get(row.place.wrapping_sub(1)).map_or("", String::as_str)
}

fn is_ip4(row: &Row) -> bool {
    match row.entry {
        Entry::Address(net) => net.address.is_ipv4(),
        Entry::Route(route) => route.net.address.is_ipv4(),
    }
}

/// When the kernel ends a route: of IPv6 alone can that be said, but not of one that rejects, and those of IPv4 go with
/// their address.
fn expires(route: &Route, lifetimes: Lifetimes) -> Option<u32> {
    let can_end = route.way != Way::Reject && !route.net.address.is_ipv4();
    Some(lifetimes.valid).filter(|valid| can_end && *valid != Lifetimes::FOR_EVER)
}

/// Whether an address may be the daemon's: the kernel's own link-local ones, and ends of a line with a peer, are not.
fn is_kept(address: &Address) -> bool {
    let is_link_local = match address.net.address {
        IpAddr::V4(_) => false,
        // RFC 4291, section 2.5.6
        IpAddr::V6(found) => found.segments()[0] & 0xffc0 == 0xfe80,
    };
    !address.has_peer && !is_link_local
}

/// Whether a DHCP client made an address: it has the mark, or a lifetime that neither an administrator gives nor the kernel
/// by a router's word.
fn is_of_client(address: &Address) -> bool {
    let is_made_of_others = address.flags & (IFA_F_TEMPORARY | IFA_F_MANAGETEMPADDR) != 0;
    let has_lifetime = !address.is_for_ever() && address.protocol == 0 && !is_made_of_others;
    let is_whole = address.net.address.is_ipv4() || address.net.length == 128;
    address.protocol == crate::netlink::request::PROTOCOL || has_lifetime && is_whole
}
