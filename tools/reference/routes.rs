// A box of many ports, and the route of a datagram.
//
// Document 02, wish 7.

use crate::records::{Port, PortRecord, Table, TableRecord};

/// "a box of up to 64 port records, [...] with up to 8 tables and 256 routes"
pub const MAX_BOX_PORTS: usize = 64;
pub const MAX_BOX_TABLES: usize = 8;
pub const MAX_ROUTES: usize = 256;
/// "prefix length 0 to 32"
pub const ADDRESS_BITS: u8 = 32;

/// "routes: prefix, prefix length 0 to 32, port number (from 0, here and later) and a domain"
#[derive(Clone, Copy, PartialEq, Eq)]
pub struct Route {
    pub prefix: u32,
    pub length: u8,
    pub port: u8,
    pub domain: u32,
}

/// The records of a box as they come.
#[derive(Clone)]
pub struct BoxRecord {
    pub ports: Vec<PortRecord>,
    pub tables: Vec<TableRecord>,
    pub routes: Vec<Route>,
}

/// What a sound box says.
pub struct SoundBox {
    pub ports: Vec<Port>,
    tables: Vec<Table>,
    routes: Vec<Route>,
}

/// The address with 0 for every bit past the first `length`, which is at most 32.
pub fn first_bits(address: u32, length: u8) -> u32 {
    if length == 0 {
        return 0;
    }
    let past = ADDRESS_BITS - length;
    address >> past << past
}

impl Route {
    /// "a length over 32, set bits past the length, a port not in the list [...] or a domain other than its port's make the set unsound"
    fn sound(&self, ports: &[Port]) -> bool {
        if self.length > ADDRESS_BITS || first_bits(self.prefix, self.length) != self.prefix {
            return false;
        }
        match ports.get(self.port as usize) {
            Some(port) => port.domain == self.domain,
            None => false,
        }
    }

    fn matches(&self, destination: u32) -> bool {
        first_bits(destination, self.length) == self.prefix
    }
}

/// "two equal prefixes of one length": every two routes are held against each other.
fn prefixes_differ(routes: &[Route]) -> bool {
    let same = |one: &Route, other: &Route| one.length == other.length && one.prefix == other.prefix;
    routes.iter().enumerate().all(|(index, route)| routes[index + 1..].iter().all(|other| !same(route, other)))
}

impl BoxRecord {
    /// "An unsound record (read or not), too long a list, two equal prefixes of one length, a length over 32, set bits past the length, a
    /// port not in the list (the arriving one too) or a domain other than its port's make the set unsound (2)."
    pub fn sound(&self, arriving: u8) -> Option<SoundBox> {
        if self.ports.len() > MAX_BOX_PORTS || self.tables.len() > MAX_BOX_TABLES || self.routes.len() > MAX_ROUTES {
            return None;
        }
        let ports: Vec<Port> = self.ports.iter().map(PortRecord::sound).collect::<Option<_>>()?;
        let tables: Vec<Table> = self.tables.iter().map(TableRecord::sound).collect::<Option<_>>()?;
        let routes_sound = self.routes.iter().all(|route| route.sound(&ports)) && prefixes_differ(&self.routes);
        if !routes_sound || arriving as usize >= ports.len() {
            return None;
        }
        Some(SoundBox { ports, tables, routes: self.routes.clone() })
    }
}

impl SoundBox {
    /// "The longest matching prefix decides." Two that match have different lengths. The port that it leads to.
    pub fn leaving(&self, destination: u32) -> Option<&Port> {
        let matching = self.routes.iter().filter(|route| route.matches(destination));
        let route = matching.max_by_key(|route| route.length)?;
        Some(&self.ports[route.port as usize])
    }

    /// "the first table for that pair of domains"
    pub fn table(&self, from: u32, to: u32) -> Option<&Table> {
        self.tables.iter().find(|table| table.from == from && table.to == to)
    }
}
