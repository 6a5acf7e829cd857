//! A comparer for the tests, written from `docs/RULES.md` and from nothing else.
//!
//! The region list, the holes and the order of rows follow the rules. But which places decide a cell, whether its actions are
//! alike and whether it holds any route is not read off regions: routes are tried one by one. For each, the first clause that
//! holds it is looked for on either side, and the cell that holds it among all cells.

// Each test file is a program of its own and uses a part of this.
#![allow(dead_code)]

use std::collections::HashSet;
use std::fmt::Write;
use std::net::Ipv4Addr;

use rowlist_host::filter::{Clauses, PrefixRange, RouteAction};

/// A filter of prefix ranges.
pub type Routes = Clauses<PrefixRange, RouteAction>;

/// An address and a length, with no bit set behind the length.
#[derive(Clone, Copy, Debug, PartialEq, Eq, PartialOrd, Ord)]
pub struct Route {
    address: u32,
    length: u8,
}

impl Route {
    /// The route of this length that holds an address.
    fn new(address: u32, length: u8) -> Self {
        Self { address: address & mask(length), length }
    }

    fn is_in(self, range: PrefixRange) -> bool {
        range.low() <= self.length
            && self.length <= range.high()
            && self.address & mask(range.length()) == range.address().to_bits()
    }
}

/// The bits in front of a length.
fn mask(length: u8) -> u32 {
    u32::MAX.checked_shl(32 - u32::from(length)).unwrap_or(0)
}

/// Every kind of route there is for filters whose prefixes have at most `bits` bits: all routes of these lengths, and for longer
/// ones each address of so many bits at each length where some range of the filters begins or has just ended, and at the next.
pub fn all_routes(bits: u8, left: &Routes, right: &Routes) -> Vec<Route> {
    let mut lengths: Vec<u8> = (0..=bits + 1).collect();
    for clause in left.clauses().iter().chain(right.clauses()) {
        assert!(clause.region.length() <= bits);
        lengths.extend([clause.region.low(), clause.region.high() + 1]);
    }
    lengths.retain(|length| *length <= 32);
    lengths.sort_unstable();
    lengths.dedup();

    let mut routes = Vec::new();
    for length in lengths {
        let used = length.min(bits);
        for front in 0..1_u32 << used {
            routes.push(Route::new(front.checked_shl(32 - u32::from(used)).unwrap_or(0), length));
        }
    }
    routes
}

/// Routes of every length at the edges of the filters' prefixes: at the first address of each prefix and at the first behind it.
/// For each route there is, one of these lies in the same ranges: the one of its length at the last edge that is not above
/// its address. No prefix begins or ends between the two, and cutting bits off behind the length does not leave or enter a
/// prefix that is no longer than the length.
pub fn edge_routes(left: &Routes, right: &Routes) -> Vec<Route> {
    let mut edges = vec![0];
    for clause in left.clauses().iter().chain(right.clauses()) {
        let first = clause.region.address().to_bits();
        let last = first | !mask(clause.region.length());
        edges.push(first);
        edges.extend(last.checked_add(1));
    }
    edges.sort_unstable();
    edges.dedup();

    let mut routes = Vec::new();
    for length in 0..=32 {
        let from = routes.len();
        routes.extend(edges.iter().map(|edge| Route::new(*edge, length)));
        routes[from..].sort_unstable();
    }
    routes.dedup();
    routes
}

/// The place of the first clause that holds a route, or the number of clauses.
pub fn deciding_place(filter: &Routes, route: Route) -> usize {
    let first = filter.clauses().iter().position(|clause| route.is_in(clause.region));
    first.unwrap_or(filter.clauses().len())
}

/// The action at a deciding place.
pub fn action_at(filter: &Routes, place: usize) -> RouteAction {
    filter.clauses().get(place).map_or(filter.default(), |clause| clause.action)
}

/// Is each route of the first range in the second?
fn inside(a: PrefixRange, b: PrefixRange) -> bool {
    b.low() <= a.low()
        && a.high() <= b.high()
        && b.length() <= a.length()
        && a.address().to_bits() & mask(b.length()) == b.address().to_bits()
}

/// The range of the routes that are in both.
fn meet(a: PrefixRange, b: PrefixRange) -> Option<PrefixRange> {
    let (long, short) = if a.length() < b.length() { (b, a) } else { (a, b) };
    if long.address().to_bits() & mask(short.length()) != short.address().to_bits() {
        return None;
    }
    let low = a.low().max(b.low());
    let high = a.high().min(b.high());
    // The one thing that can be wrong with it is that no length is left.
    PrefixRange::new(long.address(), long.length(), low, high).ok()
}

/// How many regions, rows and holes there is room for.
#[derive(Clone, Copy, Debug)]
pub struct Places {
    pub regions: usize,
    pub rows: usize,
    pub holes: usize,
}

/// The places that the proved call has.
pub const PLACES: Places = Places { regions: 1024, rows: 1024, holes: 4096 };

/// Routes of one cell: what the filters do with them, and where the cell is.
#[derive(Clone, Debug, PartialEq, Eq)]
pub struct Row {
    pub left: usize,
    pub right: usize,
    pub region: usize,
    pub holes: Vec<usize>,
}

/// The outcome of a comparison.
#[derive(Clone, Debug)]
pub struct Report {
    pub regions: Vec<PrefixRange>,
    pub rows: Vec<Row>,
    /// How many cells no route is in.
    pub empty_cells: usize,
}

/// A comparison that was declined: the number of the refusal, and the part of the region list that was written.
#[derive(Clone, Debug)]
pub struct Declined {
    pub number: u32,
    pub regions: Vec<PrefixRange>,
}

/// The region list, or its beginning if there is no room for more.
fn region_list(left: &Routes, right: &Routes, places: usize) -> Result<Vec<PrefixRange>, Declined> {
    let mut list: Vec<PrefixRange> = Vec::new();
    let mut listed: HashSet<PrefixRange> = HashSet::new();
    let mut add = |list: &mut Vec<PrefixRange>, region: PrefixRange| {
        if listed.contains(&region) {
            return Ok(());
        }
        if list.len() == places {
            return Err(Declined { number: 9, regions: list.clone() });
        }
        listed.insert(region);
        list.push(region);
        Ok(())
    };

    let whole = PrefixRange::new(Ipv4Addr::UNSPECIFIED, 0, 0, 32).expect("the whole region");
    add(&mut list, whole)?;
    for clause in left.clauses().iter().chain(right.clauses()) {
        add(&mut list, clause.region)?;
    }
    let mut next = 0;
    while next < list.len() {
        for before in 0..next {
            if let Some(meet) = meet(list[next], list[before]) {
                add(&mut list, meet)?;
            }
        }
        next += 1;
    }
    Ok(list)
}

/// The biggest listed regions within the one with this number.
fn holes(list: &[PrefixRange], region: usize) -> Vec<usize> {
    let within: Vec<usize> =
        (0..list.len()).filter(|other| *other != region && inside(list[*other], list[region])).collect();
    let biggest = |hole: &usize| !within.iter().any(|other| other != hole && inside(list[*hole], list[*other]));
    within.iter().copied().filter(biggest).collect()
}

/// Compares two filters by trying these routes. There has to be one for each combination of the filters' ranges that any route
/// has; [`all_routes`] and [`edge_routes`] are such.
pub fn compare(left: &Routes, right: &Routes, routes: &[Route], places: Places) -> Result<Report, Declined> {
    let regions = region_list(left, right, places.regions.min(1024))?;
    let holes: Vec<Vec<usize>> = (0..regions.len()).map(|region| holes(&regions, region)).collect();

    // The places that decide the routes of each cell; none for a cell that no route is in.
    let mut decided: Vec<Option<(usize, usize)>> = vec![None; regions.len()];
    for route in routes {
        let held: Vec<bool> = regions.iter().map(|region| route.is_in(*region)).collect();
        let in_cell = |region: &usize| held[*region] && !holes[*region].iter().any(|hole| held[*hole]);
        let cells: Vec<usize> = (0..regions.len()).filter(in_cell).collect();
        let [cell] = cells[..] else {
            panic!("{route:?} is in the cells {cells:?}, but each route is in one");
        };
        let by = (deciding_place(left, *route), deciding_place(right, *route));
        let before = *decided[cell].get_or_insert(by);
        assert_eq!(before, by, "two routes of cell {cell} are decided at different places");
    }

    let mut rows: Vec<Row> = Vec::new();
    for (region, by) in decided.iter().enumerate() {
        if let Some((left_place, right_place)) = *by
            && action_at(left, left_place) != action_at(right, right_place)
        {
            rows.push(Row { left: left_place, right: right_place, region, holes: holes[region].clone() });
        }
    }
    rows.sort_by_key(|row| (row.left, row.right, row.region));

    if rows.len() > places.rows {
        return Err(Declined { number: 10, regions });
    }
    if rows.iter().map(|row| row.holes.len()).sum::<usize>() > places.holes {
        return Err(Declined { number: 11, regions });
    }
    let empty_cells = decided.iter().filter(|by| by.is_none()).count();
    Ok(Report { regions, rows, empty_cells })
}

/// The listing of a report, as `docs/FORMATS.md` describes it.
pub fn listing(report: &Report, left: &Routes, right: &Routes) -> String {
    let place = |place: usize, filter: &Routes| {
        if place < filter.clauses().len() { place.to_string() } else { "d".to_owned() }
    };
    let mut text = format!("rows {}\n", report.rows.len());
    for row in &report.rows {
        let region = report.regions[row.region];
        write!(text, "{} {} {region}", place(row.left, left), place(row.right, right)).expect("a string takes all");
        for hole in &row.holes {
            write!(text, " - {}", report.regions[*hole]).expect("a string takes all");
        }
        text.push('\n');
    }
    text
}

/// A line of a listing.
struct Line {
    left: usize,
    right: usize,
    region: PrefixRange,
    holes: Vec<PrefixRange>,
}

/// Reads a listing back. It has to be one.
fn lines(listing: &str, left: &Routes, right: &Routes) -> Vec<Line> {
    let mut lines = listing.strip_suffix('\n').expect("a line feed at the end").split('\n');
    let count = lines.next().and_then(|line| line.strip_prefix("rows ")).expect("the number of rows");
    let place = |word: &str, filter: &Routes| match word {
        "d" => filter.clauses().len(),
        number => number.parse().ok().filter(|place| *place < filter.clauses().len()).expect("a place"),
    };
    let region = |words: &str| {
        let (prefix, range) = words.split_once(' ').expect("prefix and lengths");
        let (address, length) = prefix.split_once('/').expect("address and prefix length");
        let (low, high) = range.split_once('-').expect("low and high");
        let number = |word: &str| word.parse().expect("a number");
        PrefixRange::new(address.parse().expect("an address"), number(length), number(low), number(high))
            .expect("a prefix range")
    };
    let read: Vec<Line> = lines
        .map(|line| {
            let mut words = line.splitn(3, ' ');
            let mut next = || words.next().expect("a word");
            let (left, right) = (place(next(), left), place(next(), right));
            let mut regions = next().split(" - ").map(region);
            Line { left, right, region: regions.next().expect("a region"), holes: regions.collect() }
        })
        .collect();
    assert_eq!(count, read.len().to_string());
    read
}

/// Does a listing say the truth of these routes? Each route that the filters treat unlike has to be in one row, which names its two
/// deciding places; no other route may be in a row, and no row may be without a route.
pub fn judge(text: &str, left: &Routes, right: &Routes, routes: &[Route]) {
    let lines = lines(text, left, right);
    let mut seen = vec![false; lines.len()];
    for route in routes {
        let in_row = |row: &usize| {
            let line = &lines[*row];
            route.is_in(line.region) && !line.holes.iter().any(|hole| route.is_in(*hole))
        };
        let rows: Vec<usize> = (0..lines.len()).filter(in_row).collect();
        let by = (deciding_place(left, *route), deciding_place(right, *route));
        if action_at(left, by.0) == action_at(right, by.1) {
            assert_eq!(rows, [], "{route:?} is treated alike");
        } else {
            let [row] = rows[..] else {
                panic!("{route:?} is treated unlike and is in the rows {rows:?}");
            };
            assert_eq!((lines[row].left, lines[row].right), by, "the deciding places of {route:?}");
            seen[row] = true;
        }
    }
    assert!(seen.iter().all(|seen| *seen), "a row without a route");
}
