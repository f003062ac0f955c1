//! The kernel's tables of interfaces, addresses and routes, by netlink.

pub mod events;
pub mod message;
pub mod request;
