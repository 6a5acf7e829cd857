//! The proved comparison against a comparer that enumerates routes.

mod enumerate;
mod support;

use enumerate::{PLACES, Places, Routes, all_routes, edge_routes};
use rowlist_host::filter::{Filter, PrefixRange, RouteAction};
use rowlist_host::{Refusal, compare};
use support::{ACCEPT, Random, Space, agree, banded, clause, crowded, edited, file_of, range, routes, some_filter};

/// What came up in the pairs of a test, so that it can be seen that they were worth trying.
#[derive(Debug, Default)]
struct Seen {
    pairs: usize,
    without_rows: usize,
    rows: usize,
    holes: usize,
    empty_cells: usize,
    declined: usize,
}

impl Seen {
    fn try_pair(&mut self, left: &Routes, right: &Routes, tried: &[enumerate::Route]) {
        self.pairs += 1;
        match agree(left, right, tried) {
            None => self.declined += 1,
            Some(report) => {
                self.without_rows += usize::from(report.rows.is_empty());
                self.rows += report.rows.len();
                self.holes += report.rows.iter().map(|row| row.holes.len()).sum::<usize>();
                self.empty_cells += report.empty_cells;
            }
        }
    }
}

/// Pairs of filters with prefixes of few bits, over all routes.
fn over_all_routes(seed: u64, bits: u8, pairs: usize, most: usize) -> Seen {
    let mut random = Random::new(seed);
    let mut seen = Seen::default();
    let space = Space::Bits(bits);
    for _ in 0..pairs {
        let left = some_filter(&mut random, space, most);
        let right =
            if random.once_in(3) { some_filter(&mut random, space, most) } else { edited(&mut random, space, &left) };
        seen.try_pair(&left, &right, &all_routes(bits, &left, &right));
        // The other set of routes has to do as well.
        if random.once_in(4) {
            seen.try_pair(&right, &left, &edge_routes(&left, &right));
        }
    }
    seen
}

/// Pairs of filters with any prefixes, over the routes at edges.
fn over_edges(seed: u64, pairs: usize, most: usize) -> Seen {
    let mut random = Random::new(seed);
    let mut seen = Seen::default();
    for _ in 0..pairs {
        let left = some_filter(&mut random, Space::Full, most);
        let right = if random.once_in(2) {
            some_filter(&mut random, Space::Full, most)
        } else {
            edited(&mut random, Space::Full, &left)
        };
        seen.try_pair(&left, &right, &edge_routes(&left, &right));
    }
    seen
}

#[test]
fn short_filters_of_one_to_three_bits() {
    for bits in 1..=3 {
        let seen = over_all_routes(u64::from(bits), bits, 20_000, 6);
        assert!(seen.rows > 40_000 && seen.empty_cells > 5_000 && seen.without_rows > 4_000, "{seen:?}");
    }
}

#[test]
fn filters_of_five_bits() {
    let seen = over_all_routes(11, 5, 10_000, 12);
    assert!(seen.rows > 40_000 && seen.empty_cells > 1_000 && seen.holes > 40_000, "{seen:?}");
}

#[test]
fn filters_of_eight_bits() {
    let seen = over_all_routes(12, 8, 2_000, 16);
    assert!(seen.rows > 10_000 && seen.holes > 10_000, "{seen:?}");
}

#[test]
fn short_filters_of_all_prefixes() {
    let seen = over_edges(21, 15_000, 8);
    assert!(seen.rows > 40_000 && seen.holes > 40_000 && seen.without_rows > 1_000, "{seen:?}");
}

#[test]
fn long_filters_of_all_prefixes() {
    let seen = over_edges(22, 500, 64);
    assert!(seen.rows > 20_000 && seen.holes > 20_000, "{seen:?}");
}

#[test]
fn long_filters_of_four_bits() {
    let seen = over_all_routes(23, 4, 500, 64);
    assert!(seen.rows > 10_000 && seen.empty_cells > 20_000, "{seen:?}");
}

/// Few prefixes and many length ranges: long region lists, some of them too long.
#[test]
fn crowded_filters() {
    let mut random = Random::new(24);
    let mut seen = Seen::default();
    for _ in 0..100 {
        let left = crowded(&mut random);
        let right = if random.once_in(3) { crowded(&mut random) } else { edited(&mut random, Space::Full, &left) };
        seen.try_pair(&left, &right, &edge_routes(&left, &right));
    }
    assert!(seen.rows > 3_000 && seen.declined > 2, "{seen:?}");
}

/// Every filter of one clause against every filter of two, with prefixes of two bits at most and lengths of three.
#[test]
fn every_pair_of_tiny_filters() {
    let mut ranges = Vec::new();
    for length in 0..=2 {
        for front in 0..1_u32 << length {
            for low in length..=3 {
                for high in low..=3 {
                    let address = front.checked_shl(32 - u32::from(length)).unwrap_or(0);
                    ranges.push(range(address, length, low, high));
                }
            }
        }
    }
    assert_eq!(ranges.len(), 34);
    let other = RouteAction::Accept { preference: Some(100), med: None };
    let mut seen = Seen::default();
    for one in &ranges {
        let left = routes(vec![clause(*one, RouteAction::Reject)], ACCEPT);
        for first in &ranges {
            for second in &ranges {
                let right = routes(vec![clause(*first, RouteAction::Reject), clause(*second, other)], ACCEPT);
                seen.try_pair(&left, &right, &all_routes(2, &left, &right));
            }
        }
    }
    assert!(seen.pairs == 34 * 34 * 34 && seen.empty_cells > 1_000, "{seen:?}");
}

/// 1,024 regions are compared, one more is declined with 9.
#[test]
fn region_lists_about_the_limit() {
    // 21 regions under each of 46 prefixes, 45 of these prefixes with all lengths, and the whole region make 1,012.
    for more in [0, 11, 12, 13, 14] {
        let others: Vec<PrefixRange> = (0..more).map(|number| range(number << 16, 16, 16, 16)).collect();
        let (left, right) = banded(45, &others);
        let report = agree(&left, &right, &edge_routes(&left, &right));
        if more > 12 {
            assert!(report.is_none());
            assert_eq!(compare(&file_of(&left), &file_of(&right)), Err(Refusal::NoRegionPlace));
        } else {
            let report = report.expect("a report");
            assert_eq!(report.regions.len(), 1_012 + more as usize);
            assert_eq!(report.rows.len(), 1_011 + more as usize);
        }
    }
}

fn filter(text: &str) -> Routes {
    match text.parse() {
        Ok(Filter::Prefix(filter)) => filter,
        other => panic!("{other:?}"),
    }
}

/// The worked examples of `docs/RULES.md`, with the numbers told there.
#[test]
fn worked_examples() {
    let cases = [
        (
            "family prefix \n reject 20.0.0.0/8 8-24 \n default accept",
            "family prefix \n reject 20.0.0.0/8 8-16 \n default accept",
            "rows 1\n0 d 20.0.0.0/8 8-24 - 20.0.0.0/8 8-16\n",
            3,
        ),
        (
            "family prefix \n reject 30.0.0.0/8 8-20 \n default accept",
            "family prefix \n reject 30.0.0.0/8 16-32 \n default accept",
            "rows 2\n0 d 30.0.0.0/8 8-20 - 30.0.0.0/8 16-20\nd 0 30.0.0.0/8 16-32 - 30.0.0.0/8 16-20\n",
            4,
        ),
        (
            "family prefix \n reject 0.0.0.0/0 1-1 \n default accept",
            "family prefix \n reject 0.0.0.0/1 1-1 \n reject 128.0.0.0/1 1-1 \n default accept",
            "rows 0\n",
            4,
        ),
        ("family prefix \n default reject", "family prefix \n default accept", "rows 1\nd d 0.0.0.0/0 0-32\n", 1),
    ];
    for (left, right, listing, regions) in cases {
        let (left, right) = (filter(left), filter(right));
        let report = agree(&left, &right, &edge_routes(&left, &right)).expect("a report");
        assert_eq!(enumerate::listing(&report, &left, &right), listing);
        assert_eq!(report.regions.len(), regions);
    }
}

/// The comparer of the tests with few places. The proved calls have the same number always, so this is about the comparer alone.
#[test]
fn few_places() {
    let left = filter("family prefix \n reject 30.0.0.0/8 8-20 \n default accept");
    let right = filter("family prefix \n reject 30.0.0.0/8 16-32 \n default accept");
    let tried = edge_routes(&left, &right);
    let outcome = |places| match enumerate::compare(&left, &right, &tried, places) {
        Ok(report) => (0, report.regions.len()),
        Err(declined) => (declined.number, declined.regions.len()),
    };
    assert_eq!(outcome(PLACES), (0, 4));
    assert_eq!(outcome(Places { regions: 4, rows: 2, holes: 2 }), (0, 4));
    assert_eq!(outcome(Places { regions: 3, rows: 2, holes: 2 }), (9, 3));
    assert_eq!(outcome(Places { regions: 0, rows: 0, holes: 0 }), (9, 0));
    assert_eq!(outcome(Places { regions: 4, rows: 1, holes: 0 }), (10, 4));
    assert_eq!(outcome(Places { regions: 4, rows: 2, holes: 1 }), (11, 4));
}
