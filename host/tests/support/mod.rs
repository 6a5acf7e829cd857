//! What the tests share: random numbers from fixed seeds, generated filters, and the comparison of the proved calls with the
//! package's own reader and comparer.

// Each test file is a program of its own and uses a part of this.
#![allow(dead_code)]

use std::fmt::Write;
use std::net::Ipv4Addr;
use std::thread;

use rowlist_host::filter::{
    Clause, Clauses, Filter, MOST_CLAUSES, Number, Packet, PrefixRange, RouteAction, RouteWithOrigin, Span, Verdict,
};
use rowlist_host::{LONGEST_LISTING, Refusal, check, compare};

use crate::enumerate::{self, PLACES, Report, Route, Routes};

/// Random numbers (SplitMix64).
pub struct Random(u64);

impl Random {
    pub fn new(seed: u64) -> Self {
        Self(seed)
    }

    pub fn next(&mut self) -> u64 {
        self.0 = self.0.wrapping_add(0x9E37_79B9_7F4A_7C15);
        let mut mixed = self.0;
        mixed = (mixed ^ (mixed >> 30)).wrapping_mul(0xBF58_476D_1CE4_E5B9);
        mixed = (mixed ^ (mixed >> 27)).wrapping_mul(0x94D0_49BB_1331_11EB);
        mixed ^ (mixed >> 31)
    }

    /// A number from 0 up to but not including `end`.
    pub fn below(&mut self, end: usize) -> usize {
        (self.next() % end as u64) as usize
    }

    /// A number from `low` to `high`, both counted.
    pub fn between(&mut self, low: u8, high: u8) -> u8 {
        low + self.below(usize::from(high - low) + 1) as u8
    }

    /// True once in so many times.
    pub fn once_in(&mut self, times: usize) -> bool {
        self.below(times) == 0
    }

    pub fn pick<T: Copy>(&mut self, from: &[T]) -> T {
        from[self.below(from.len())]
    }
}

pub fn hex(bytes: &[u8]) -> String {
    let mut text = String::new();
    for byte in bytes {
        write!(text, "{byte:02x}").expect("a string takes all");
    }
    text
}

/// Prints files as hexadecimal numbers if the test fails while this is there.
pub struct Shown<'a>(pub &'a [&'a [u8]]);

impl Drop for Shown<'_> {
    fn drop(&mut self) {
        if thread::panicking() {
            for file in self.0 {
                eprintln!("file {}", hex(file));
            }
        }
    }
}

pub fn range(address: u32, length: u8, low: u8, high: u8) -> PrefixRange {
    PrefixRange::new(Ipv4Addr::from_bits(address), length, low, high).expect("a prefix range")
}

pub fn clause(region: PrefixRange, action: RouteAction) -> Clause<PrefixRange, RouteAction> {
    Clause { region, action }
}

pub const ACCEPT: RouteAction = RouteAction::Accept { preference: None, med: None };

pub fn routes(clauses: Vec<Clause<PrefixRange, RouteAction>>, default: RouteAction) -> Routes {
    Clauses::new(clauses, default).expect("not too many clauses")
}

pub fn file_of(filter: &Routes) -> Vec<u8> {
    Filter::Prefix(filter.clone()).write()
}

/// A route action, most often one of a few.
pub fn some_action(random: &mut Random) -> RouteAction {
    let numbers = [None, None, Some(0), Some(100), Some(u32::MAX)];
    match random.below(6) {
        0 | 1 => RouteAction::Reject,
        2 | 3 => ACCEPT,
        _ => RouteAction::Accept { preference: random.pick(&numbers), med: random.pick(&numbers) },
    }
}

/// Where the prefixes of generated filters come from.
#[derive(Clone, Copy)]
pub enum Space {
    /// Prefixes of so many bits at most.
    Bits(u8),
    /// All prefixes. Most continue or shorten one of the filters' other prefixes, so that ranges nest and overlap.
    Full,
}

fn some_prefix(random: &mut Random, space: Space, others: &[Clause<PrefixRange, RouteAction>]) -> (u32, u8) {
    let cut = |address: u32, length: u8| (address & !u32::MAX.checked_shr(u32::from(length)).unwrap_or(0), length);
    match space {
        Space::Bits(bits) => {
            let length = random.between(0, bits);
            cut(random.next() as u32, length)
        }
        Space::Full if others.is_empty() || random.once_in(4) => {
            let length = random.between(0, 32);
            cut(random.next() as u32, length)
        }
        Space::Full => {
            let other = others[random.below(others.len())].region;
            let length = random.between(0, 32);
            let tail = if random.once_in(3) { 0 } else { random.next() as u32 };
            let tail = tail & u32::MAX.checked_shr(u32::from(other.length())).unwrap_or(0);
            cut(other.address().to_bits() | tail, length)
        }
    }
}

/// A prefix range. `others` are the clauses that it may be related to.
pub fn some_range(random: &mut Random, space: Space, others: &[Clause<PrefixRange, RouteAction>]) -> PrefixRange {
    let (address, length) = some_prefix(random, space, others);
    let top = match space {
        // Lengths mostly near to those of the prefixes.
        Space::Bits(bits) if !random.once_in(4) => (bits + 2).min(32),
        _ => 32,
    };
    let low = if random.once_in(3) { length } else { random.between(length, top.max(length)) };
    let high = match random.below(4) {
        0 => low,
        1 => 32,
        _ => random.between(low, top.max(low)),
    };
    range(address, length, low, high)
}

/// A filter with at most so many clauses.
pub fn some_filter(random: &mut Random, space: Space, most: usize) -> Routes {
    let count = random.below(most + 1);
    let mut clauses = Vec::new();
    for _ in 0..count {
        let region = some_range(random, space, &clauses);
        clauses.push(Clause { region, action: some_action(random) });
    }
    routes(clauses, some_action(random))
}

/// A filter after a few edits, as it would come out of a translation that is nearly right.
pub fn edited(random: &mut Random, space: Space, filter: &Routes) -> Routes {
    let mut clauses = filter.clauses().to_vec();
    let mut default = filter.default();
    for _ in 0..random.below(4) {
        let place = random.below(clauses.len().max(1));
        let deepest = if let Space::Bits(bits) = space { bits } else { 32 };
        match (random.below(8), clauses.get(place).copied()) {
            (0, _) => default = some_action(random),
            (1, _) if clauses.len() < MOST_CLAUSES => {
                let region = some_range(random, space, &clauses);
                clauses.insert(place, Clause { region, action: some_action(random) });
            }
            (2, Some(_)) => {
                clauses.remove(place);
            }
            (3, Some(_)) => {
                let other = random.below(clauses.len());
                clauses.swap(place, other);
            }
            (4, Some(clause)) => {
                let old = clause.region;
                let low = random.between(old.length(), old.high());
                let high = random.between(low, 32);
                clauses[place].region = range(old.address().to_bits(), old.length(), low, high);
            }
            (5, Some(_)) => clauses[place].action = some_action(random),
            // The two halves of a prefix instead of the whole, which leaves out one length at most.
            (6 | 7, Some(Clause { region: old, action })) => {
                let length = old.length() + 1;
                if length <= deepest && old.high() >= length && clauses.len() < MOST_CLAUSES {
                    let low = old.low().max(length);
                    let first = old.address().to_bits();
                    let second = first | 1 << (32 - u32::from(length));
                    clauses[place].region = range(first, length, low, old.high());
                    clauses.insert(place, Clause { region: range(second, length, low, old.high()), action });
                }
            }
            _ => {}
        }
    }
    routes(clauses, default)
}

/// A filter with few prefixes, each under the one before it or beside it, and many length ranges that overlap.
pub fn crowded(random: &mut Random) -> Routes {
    let mut prefixes: Vec<(u32, u8)> = vec![(0, 0)];
    for _ in 0..random.below(12) {
        let (address, length) = random.pick(&prefixes);
        let longer = (length + random.between(1, 3)).min(28);
        let bit = if random.once_in(2) { 1 << (32 - u32::from(longer)) } else { 0 };
        prefixes.push((address | bit, longer));
    }
    let mut clauses = Vec::new();
    for _ in 0..20 + random.below(45) {
        let (address, length) = random.pick(&prefixes);
        let low = random.between(length, 28);
        let high = random.between(low, 32);
        clauses.push(clause(range(address, length, low, high), some_action(random)));
    }
    routes(clauses, some_action(random))
}

/// Compares two filters by the proved call and by the comparer of the tests, which tries these routes. Tells the report, if the
/// comparison was not declined.
pub fn agree(left: &Routes, right: &Routes, tried: &[Route]) -> Option<Report> {
    let (left_file, right_file) = (file_of(left), file_of(right));
    let files: [&[u8]; 2] = [&left_file, &right_file];
    let _shown = Shown(&files);

    let answer = compare(&left_file, &right_file);
    match enumerate::compare(left, right, tried, PLACES) {
        Err(declined) => {
            assert_eq!(answer.map_err(|refusal| refusal.number()), Err(declined.number));
            None
        }
        Ok(report) => {
            let listing = enumerate::listing(&report, left, right);
            if listing.len() > LONGEST_LISTING {
                assert_eq!(answer, Err(Refusal::BufferTooShort));
                enumerate::judge(&listing, left, right, tried);
            } else {
                let answer = answer.expect("a listing");
                assert_eq!(answer, listing);
                enumerate::judge(&answer, left, right, tried);
            }
            Some(report)
        }
    }
}

/// Reads a file of prefix ranges as the proved comparison does: a file of another family is refused for its code.
pub fn read_routes(file: &[u8]) -> Result<Routes, Refusal> {
    if file.first().is_some_and(|code| *code != 1) {
        return Err(Refusal::OtherFamily);
    }
    match Filter::read(file) {
        Ok(Filter::Prefix(filter)) => Ok(filter),
        Ok(_) => Err(Refusal::OtherFamily),
        Err(fault) => Err(fault.refusal()),
    }
}

/// What the proved comparison should answer for two files, whatever their bytes.
pub fn expected(left: &[u8], right: &[u8]) -> Result<String, Refusal> {
    let left = read_routes(left)?;
    let right = read_routes(right)?;
    let tried = enumerate::edge_routes(&left, &right);
    match enumerate::compare(&left, &right, &tried, PLACES) {
        Err(declined) => Err(Refusal::from_number(declined.number).expect("a number of a refusal")),
        Ok(report) => {
            let listing = enumerate::listing(&report, &left, &right);
            if listing.len() > LONGEST_LISTING { Err(Refusal::BufferTooShort) } else { Ok(listing) }
        }
    }
}

/// Compares two files, whatever their bytes, by the proved call and by the comparer of the tests.
pub fn files_agree(left: &[u8], right: &[u8]) {
    let files = [left, right];
    let _shown = Shown(&files);
    assert_eq!(compare(left, right), expected(left, right));
}

/// Checks a file by the proved call and by the package's own reader. A good file has to come out of the writer and of the text
/// form as it was. Tells whether it is good.
pub fn checked(file: &[u8]) -> bool {
    let files = [file];
    let _shown = Shown(&files);
    let read = Filter::read(file);
    assert_eq!(check(file), read.as_ref().map(|_| ()).map_err(|fault| fault.refusal()));
    if let Ok(filter) = &read {
        assert_eq!(hex(&filter.write()), hex(file));
    }
    read.is_ok()
}

/// A number, often the lowest or the highest.
fn some_number<N: Number>(random: &mut Random, of: impl Fn(u64) -> N) -> N {
    match random.below(5) {
        0 => N::BOTTOM,
        1 => N::TOP,
        2 => of(random.next() % 4),
        _ => of(random.next()),
    }
}

fn some_span<N: Number>(random: &mut Random, of: impl Fn(u64) -> N) -> Span<N> {
    let (a, b) = (some_number(random, &of), some_number(random, &of));
    Span::new(a.min(b), a.max(b)).expect("a span")
}

/// A filter of any family with so many clauses.
pub fn some_file(random: &mut Random, count: usize) -> Filter {
    let any_range = |random: &mut Random| some_range(random, Space::Full, &[]);
    match random.below(3) {
        0 => {
            let mut clauses = Vec::new();
            for _ in 0..count {
                clauses.push(Clause { region: any_range(random), action: some_action(random) });
            }
            Filter::Prefix(routes(clauses, some_action(random)))
        }
        1 => {
            let mut clauses = Vec::new();
            for _ in 0..count {
                let region =
                    RouteWithOrigin { range: any_range(random), origin: some_span(random, |number| number as u32) };
                clauses.push(Clause { region, action: some_action(random) });
            }
            Filter::Origin(Clauses::new(clauses, some_action(random)).expect("not too many clauses"))
        }
        _ => {
            let verdicts = [Verdict::Reject, Verdict::Accept];
            let mut clauses = Vec::new();
            for _ in 0..count {
                let region = Packet {
                    destination: some_span(random, |number| Ipv4Addr::from_bits(number as u32)),
                    protocol: some_span(random, |number| number as u8),
                    port: some_span(random, |number| number as u16),
                };
                clauses.push(Clause { region, action: random.pick(&verdicts) });
            }
            Filter::Packet(Clauses::new(clauses, random.pick(&verdicts)).expect("not too many clauses"))
        }
    }
}

/// Two filters with many regions by few clauses, all of them rows but the whole region. On the left there are length ranges 10-12,
/// 12-14 and so on to 30-32 under 128.0.0.0/1, eleven that share a length each with the next; on the right the 8-bit prefixes
/// 200.0.0.0, 201.0.0.0 and so on, `prefixes` of them, with all lengths. The ranges and their meets make 21 regions, each of
/// which is there once more under each prefix. `more` are further ranges on the left, which should be under 0.0.0.0/1.
pub fn banded(prefixes: u8, more: &[PrefixRange]) -> (Routes, Routes) {
    let bands = (0..11).map(|band| range(128 << 24, 1, 10 + 2 * band, 12 + 2 * band));
    let left = bands.chain(more.iter().copied()).map(|region| clause(region, ACCEPT)).collect();
    let other = RouteAction::Accept { preference: None, med: Some(1) };
    let under = (0..prefixes).map(|number| range((200 + u32::from(number)) << 24, 8, 8, 32));
    let right = under.map(|region| clause(region, other)).collect();
    (routes(left, RouteAction::Reject), routes(right, RouteAction::Reject))
}
