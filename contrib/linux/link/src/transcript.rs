//! What the daemon says of its turns (docs/FORMATS.md, "Transcript"): which states it has heard, and what happened.

use std::collections::BTreeMap;

/// What a transcript tells this program.
#[derive(Debug, PartialEq, Eq)]
pub enum Said {
    /// The daemon heard of a carrier.
    Carrier { place: usize, up: bool },
    /// It heard that it is to end.
    Stop,
    /// Something happened at an interface.
    Event(Event),
}

/// A reason of hooks (docs/FORMATS.md, "Hooks"), with its variables.
#[derive(Debug, Default, PartialEq, Eq)]
pub struct Event {
    pub reason: String,
    pub interface: String,
    pub values: BTreeMap<String, String>,
}

/// Variables that events are told with.
const TOLD: [&str; 9] = [
    "new_ip_address",
    "new_subnet_cidr",
    "new_dhcp_lease_time",
    "new_dhcp_server_identifier",
    "new_dhcp6_addresses",
    "new_dhcp6_prefixes",
    "old_ip_address",
    "old_dhcp6_addresses",
    "new_delegated_address",
];

/// A transcript that is read as it comes.
#[derive(Default)]
pub struct Reading {
    begun: Vec<u8>,
    event: Option<Event>,
}

impl Reading {
    /// Reads further bytes.
    pub fn read(&mut self, bytes: &[u8]) -> Vec<Said> {
        let mut said = Vec::new();
        for part in bytes.split_inclusive(|byte| *byte == b'\n') {
            self.begun.extend_from_slice(part);
            if part.ends_with(b"\n") {
                let line = std::mem::take(&mut self.begun);
                self.line(String::from_utf8_lossy(&line).trim_end(), &mut said);
            }
        }
        said
    }

    fn line(&mut self, line: &str, said: &mut Vec<Said>) {
        if let (Some(event), Some(var)) = (&mut self.event, line.strip_prefix("var ")) {
            if let Some((name, value)) = var.split_once('=').filter(|(name, _)| TOLD.contains(name)) {
                event.values.insert(name.to_string(), value.to_string());
            }
            return;
        }
        said.extend(self.event.take().map(Said::Event));
        let words: Vec<&str> = line.split(' ').collect();
        match words[..] {
            ["turn", _, _, "carrier", place, state] => {
                said.extend(place.parse().ok().map(|place| Said::Carrier { place, up: state == "up" }));
            }
            ["turn", _, _, "stop"] => said.push(Said::Stop),
            ["hook", "start", _, reason, name, _] | ["hook", "drop", _, reason, name] => {
                let (reason, interface) = (reason.to_string(), name.to_string());
                self.event = Some(Event { reason, interface, ..Event::default() });
            }
            _ => {}
        }
    }
}

impl Event {
    fn value(&self, name: &str) -> &str {
        self.values.get(name).map_or("", String::as_str)
    }

    /// The line that tells it, and whether it is of a kind that someone has to look at; `None` where nobody needs it.
    pub fn told(&self) -> Option<(bool, String)> {
        let address = format!("{}/{}", self.value("new_ip_address"), self.value("new_subnet_cidr"));
        let addresses = self.value("new_dhcp6_addresses");
        let prefixes = self.value("new_dhcp6_prefixes");
        let six = [addresses, prefixes].iter().filter(|text| !text.is_empty()).cloned().collect::<Vec<_>>().join(" ");
        let lease = format!(
            "{address} from {} for {} s",
            self.value("new_dhcp_server_identifier"),
            self.value("new_dhcp_lease_time")
        );
        let (matters, text) = match self.reason.as_str() {
            "CARRIER" => (false, "carrier".to_string()),
            "NOCARRIER" => (true, "no carrier".to_string()),
            "BOUND" => (false, format!("bound {lease}")),
            "RENEW" => (false, format!("renewed {lease}")),
            "REBIND" => (false, format!("rebound {lease}")),
            "REBOOT" => (false, format!("confirmed {lease}")),
            "BOUND6" => (false, format!("bound {six}")),
            "RENEW6" => (false, format!("renewed {six}")),
            "REBIND6" => (false, format!("rebound {six}")),
            "REBOOT6" => (false, format!("confirmed {six}")),
            "DELEGATED6" => (false, format!("delegated {}", self.value("new_delegated_address"))),
            "IPV4LL" => (true, format!("link-local address {address}")),
            "STATIC" => (false, format!("static address {address}")),
            "NAK" => (true, "the lease is refused".to_string()),
            "TIMEOUT" => (true, "no lease within the time for it".to_string()),
            "EXPIRE" => (true, format!("expired {}", self.value("old_ip_address"))),
            "EXPIRE6" => (true, format!("expired {}", self.value("old_dhcp6_addresses"))),
            "STOP" => (false, format!("given up {}", self.value("old_ip_address"))),
            "STOP6" => (false, format!("given up {}", self.value("old_dhcp6_addresses"))),
            _ => return None,
        };
        Some((matters, format!("{}: {}", self.interface, text.trim_end())))
    }
}

#[cfg(test)]
mod tests {
    use super::*;

    const TEXT: &str = "dhcpcd-transcript 1\nlife 1\nstart 0 1 up 1\nturn 5 6 carrier 2 down\nuntil none\n\
        hook start 3 BOUND eth0 ok\nvar interface=eth0\nvar new_ip_address=10.0.0.5\nvar new_subnet_cidr=24\n\
        var new_dhcp_lease_time=3600\nvar new_dhcp_server_identifier=10.0.0.1\nturn 9 7 stop\n";

    #[test]
    fn states_and_events_are_read_however_the_bytes_come() {
        let whole = Reading::default().read(TEXT.as_bytes());
        let event = match &whole[1] {
            Said::Event(event) => event,
            other => panic!("{other:?}"),
        };
        assert_eq!(event.told(), Some((false, "eth0: bound 10.0.0.5/24 from 10.0.0.1 for 3600 s".to_string())));
        assert_eq!(whole[0], Said::Carrier { place: 2, up: false });
        assert_eq!((&whole[2], whole.len()), (&Said::Stop, 3));
        let mut reading = Reading::default();
        let by_bytes: Vec<Said> = TEXT.bytes().flat_map(|byte| reading.read(&[byte])).collect();
        assert_eq!(by_bytes, whole);
    }

    #[test]
    fn what_a_line_of_a_configuration_says_is_no_event() {
        let text = "c:turn 1 2 stop\nc:hook start 1 BOUND eth0 ok\nturn 1 2 frame 1 00\nturn x\n";
        assert_eq!(Reading::default().read(text.as_bytes()), []);
    }
}
