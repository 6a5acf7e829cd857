//! What the proved comparison does with the buffer that it is lent.

mod enumerate;
mod support;

use enumerate::{PLACES, Routes, edge_routes};
use rowlist_host::filter::{Filter, PrefixRange};
use rowlist_host::{LONGEST_LISTING, Refusal, compare, compare_into};
use support::{Random, Shown, Space, agree, banded, edited, file_of, range, some_filter};

/// Compares with buffers of several lengths, filled with different bytes.
fn try_buffers(left: &[u8], right: &[u8], lengths: &[usize]) {
    let files = [left, right];
    let _shown = Shown(&files);
    let whole = compare(left, right);
    for length in lengths {
        for fill in [0x00, 0x5A, 0xFF] {
            let mut buffer = vec![fill; *length];
            let answer = compare_into(left, right, &mut buffer);
            match &whole {
                Ok(listing) if listing.len() <= *length => {
                    assert_eq!(answer, Ok(listing.len()));
                    let (front, rest) = buffer.split_at(listing.len());
                    assert_eq!(front, listing.as_bytes());
                    assert!(rest.iter().all(|byte| *byte == fill), "bytes behind the listing were touched");
                }
                refused => {
                    let refusal = match refused {
                        Ok(_) => Refusal::BufferTooShort,
                        Err(refusal) => *refusal,
                    };
                    assert_eq!(answer, Err(refusal));
                    assert!(buffer.iter().all(|byte| *byte == fill), "a refused call touched the buffer");
                }
            }
        }
    }
}

#[test]
fn buffers_about_the_length_of_the_listing() {
    let mut random = Random::new(41);
    for _ in 0..1_000 {
        let left = some_filter(&mut random, Space::Bits(4), 8);
        let right = edited(&mut random, Space::Bits(4), &left);
        let (left, right) = (file_of(&left), file_of(&right));
        let length = compare(&left, &right).expect("a listing").len();
        try_buffers(&left, &right, &[0, 1, length - 1, length, length + 1, length + 100]);
    }
}

/// A listing of few bytes in a buffer of every length up to its own and a bit more.
#[test]
fn buffers_of_every_length() {
    let file = |text: &str| text.parse::<Filter>().expect("a filter").write();
    let left = file("family prefix \n reject 30.0.0.0/8 8-20 \n default accept");
    let right = file("family prefix \n reject 30.0.0.0/8 16-32 \n default accept");
    try_buffers(&left, &right, &(0..100).collect::<Vec<usize>>());
    try_buffers(&left, &left, &(0..10).collect::<Vec<usize>>());
}

/// A fault of a file and a comparison declined come before a buffer that is too short, and nothing is written.
#[test]
fn other_refusals_come_first() {
    let file = |text: &str| text.parse::<Filter>().expect("a filter").write();
    let good = file("family prefix \n reject 30.0.0.0/8 8-20 \n default accept");
    let packets = file("family packet \n default accept");
    let lengths = [0, 1, 50, LONGEST_LISTING, LONGEST_LISTING + 10];
    try_buffers(&good[..5], &good, &lengths);
    try_buffers(&good, &good[..5], &lengths);
    try_buffers(&packets, &good, &lengths);
    try_buffers(&good, &packets, &lengths);
    assert_eq!(compare_into(&good, &good[..5], &mut []), Err(Refusal::Short));

    let others: Vec<PrefixRange> = (0..13).map(|number| range(number << 16, 16, 16, 16)).collect();
    let (left, right) = banded(45, &others);
    let (left, right) = (file_of(&left), file_of(&right));
    assert_eq!(compare_into(&left, &right, &mut []), Err(Refusal::NoRegionPlace));
    try_buffers(&left, &right, &lengths);
}

/// The length of the listing by the comparer of the tests.
fn listing_length(left: &Routes, right: &Routes) -> usize {
    let report = enumerate::compare(left, right, &edge_routes(left, right), PLACES).expect("a report");
    enumerate::listing(&report, left, right).len()
}

/// A range whose row has so many bytes, from 24 to 30, if a clause with two digits decides it on the left and the default on the
/// right. It shares no route with a range of another number.
fn range_for_row(length: usize, number: u32) -> PrefixRange {
    let second = (100 + number) << 16;
    let region = match length {
        24 => range(1 << 24 | second, 16, 16, 16),
        25 => range(10 << 24 | second, 16, 16, 16),
        26 => range(100 << 24 | second, 16, 16, 16),
        27 => range(100 << 24 | second | 10 << 8, 24, 24, 24),
        28 => range(100 << 24 | second | 100 << 8, 24, 24, 24),
        29 => range(100 << 24 | second | 100 << 8 | 10, 32, 32, 32),
        _ => range(100 << 24 | second | 100 << 8 | 100, 32, 32, 32),
    };
    assert_eq!("11 d \n".len() + region.to_string().len(), length);
    region
}

/// Two filters whose listing has just so many bytes.
fn listing_of(length: usize) -> (Routes, Routes) {
    let (left, right) = banded(41, &[]);
    let missing = length - listing_length(&left, &right);
    // So many rows more, which share what is missing between them; the first few have one byte more.
    let rows = missing.div_ceil(30);
    let longer = missing % rows;
    let more: Vec<PrefixRange> =
        (0..rows).map(|row| range_for_row(missing / rows + usize::from(row < longer), row as u32)).collect();
    let (left, right) = banded(41, &more);
    assert_eq!(listing_length(&left, &right), length);
    (left, right)
}

/// A listing of 65,535 bytes is written, one of 65,536 is not, however long the buffer is.
#[test]
fn the_longest_listing() {
    let (left, right) = listing_of(LONGEST_LISTING);
    assert!(agree(&left, &right, &edge_routes(&left, &right)).is_some());
    let (left, right) = (file_of(&left), file_of(&right));
    assert_eq!(compare(&left, &right).expect("a listing").len(), LONGEST_LISTING);
    let lengths = [0, LONGEST_LISTING - 1, LONGEST_LISTING, LONGEST_LISTING + 1, 200_000];
    try_buffers(&left, &right, &lengths);

    let (left, right) = listing_of(LONGEST_LISTING + 1);
    assert!(agree(&left, &right, &edge_routes(&left, &right)).is_some());
    let (left, right) = (file_of(&left), file_of(&right));
    assert_eq!(compare(&left, &right), Err(Refusal::BufferTooShort));
    try_buffers(&left, &right, &lengths);
}

/// A listing well above the limit: 1,023 rows with thousands of holes.
#[test]
fn far_too_long_a_listing() {
    let others: Vec<PrefixRange> = (0..12).map(|number| range(number << 16, 16, 16, 16)).collect();
    let (left, right) = banded(45, &others);
    let report = agree(&left, &right, &edge_routes(&left, &right)).expect("a report");
    assert_eq!(report.rows.len(), 1_023);
    assert!(listing_length(&left, &right) > 70_000);
    let (left, right) = (file_of(&left), file_of(&right));
    assert_eq!(compare(&left, &right), Err(Refusal::BufferTooShort));
    try_buffers(&left, &right, &[0, 65_535, 65_536, 200_000]);
}
