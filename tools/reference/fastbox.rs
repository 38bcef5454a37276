// A box of many ports, written for speed: every record is checked, and the routes are gone through once.

use super::{
    cross, refuse, rows_sound, sizes_fit, Decision, Label, Port, Refusal, Renumbering, Rows, Table, FEW_PIECES, FEW_ROWS, MAX_PIECES,
    MAX_ROWS,
};

pub const MAX_PORTS: usize = 64;
pub const MAX_TABLES: usize = 8;
pub const MAX_ROUTES: usize = 256;

#[derive(Clone, Copy)]
pub struct Route {
    pub prefix: u32,
    pub length: u8,
    pub port: u8,
    pub domain: u32,
}

/// The bits of an address past a length of at most 32.
#[inline]
fn past(length: u8) -> u32 {
    u32::MAX.checked_shr(length as u32).unwrap_or(0)
}

/// The place of the route with the longest matching prefix, or none where no route matches; an error where the routes are unsound.
fn longest(routes: &[Route], ports: &[Port], destination: u32) -> Result<Option<usize>, Refusal> {
    let mut keys = [0u64; MAX_ROUTES];
    let mut found: Option<usize> = None;
    for (place, (route, key)) in routes.iter().zip(keys.iter_mut()).enumerate() {
        let unsound = route.length > 32 || route.prefix & past(route.length) != 0;
        if unsound || ports.get(route.port as usize).map_or(true, |port| port.domain != route.domain) {
            return refuse(2, 0);
        }
        *key = (route.length as u64) << 32 | route.prefix as u64;
        let matches = (destination ^ route.prefix) & !past(route.length) == 0;
        if matches && found.map_or(true, |before| routes[before].length < route.length) {
            found = Some(place);
        }
    }
    let keys = &mut keys[..routes.len()];
    keys.sort_unstable();
    if keys.windows(2).any(|two| two[0] == two[1]) {
        return refuse(2, 0);
    }
    Ok(found)
}

/// The rows of a table at the head of those that are lent, and the rest; none where there are fewer.
#[inline]
pub fn part<'a>(table: &Table, rows: &'a [u16]) -> Option<(&'a [u16], &'a [u16])> {
    rows.split_at_checked(3 * table.row_count as usize)
}

fn decide(
    ports: &[Port],
    tables: &[Table],
    rows: &[u16],
    routes: &[Route],
    arriving: u8,
    destination: u32,
    area: &[u8],
    output: &mut [u8],
    label: &mut Label,
) -> Result<u8, Refusal> {
    if !sizes_fit(area, output) {
        return refuse(1, 0);
    }
    if ports.len() > MAX_PORTS || tables.len() > MAX_TABLES || routes.len() > MAX_ROUTES || !ports.iter().all(Port::sound) {
        return refuse(2, 0);
    }
    let arriving = match ports.get(arriving as usize) {
        Some(port) => port,
        None => return refuse(2, 0),
    };
    let leaving = longest(routes, ports, destination)?.map(|place| &ports[routes[place].port as usize]);
    if tables.iter().all(Table::has_few_rows) {
        choose::<FEW_ROWS, { FEW_ROWS + 1 }, FEW_PIECES>(arriving, leaving, tables, rows, area, output, label)
    } else {
        choose::<MAX_ROWS, { MAX_ROWS + 1 }, MAX_PIECES>(arriving, leaving, tables, rows, area, output, label)
    }
}

/// Checks the tables, whose rows are lent one behind the other, and decides by the first that fits.
fn choose<const ROWS: usize, const ENDS: usize, const PIECES: usize>(
    arriving: &Port,
    leaving: Option<&Port>,
    tables: &[Table],
    rows: &[u16],
    area: &[u8],
    output: &mut [u8],
    label: &mut Label,
) -> Result<u8, Refusal> {
    let (mut order, mut other) = ([0; ROWS], [0; ROWS]);
    let mut chosen = None;
    let mut left = rows;
    for table in tables {
        let Some((own, rest)) = part(table, left) else { return refuse(2, 0) };
        let Some(rows) = table.lent(own) else { return refuse(2, 0) };
        let fits = chosen.is_none() && table.from == arriving.domain && leaving.is_some_and(|leaving| leaving.domain == table.to);
        let work = if fits { &mut order } else { &mut other };
        let Some(targets) = rows_sound(rows, &mut work[..rows.len()]) else { return refuse(2, 0) };
        if fits {
            chosen = Some((table, rows, targets));
        }
        left = rest;
    }
    if !left.is_empty() {
        return refuse(2, 0);
    }
    let renumbering = chosen.map(|(table, rows, targets)| Renumbering { table, rows: Rows { rows, targets, order: &order[..rows.len()] } });
    cross::<ENDS, PIECES>(arriving, leaving, renumbering, area, output, label)
}

/// Forwards a datagram that came in by a port of the box, or says why not. The rows of the tables are lent one behind the other.
pub fn forward_in_box(
    ports: &[Port],
    tables: &[Table],
    rows: &[u16],
    routes: &[Route],
    arriving: u8,
    destination: u32,
    silenced: bool,
    area: &[u8],
    output: &mut [u8],
) -> Decision {
    let mut decision = Decision { number: 0, icmp_type: 0, icmp_code: 0, pointer: 0, count: 0, label: Label::ALL_ZERO };
    let outcome = decide(ports, tables, rows, routes, arriving, destination, area, output, &mut decision.label);
    decision.report(outcome, silenced);
    decision
}
