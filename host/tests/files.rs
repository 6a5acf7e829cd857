//! Files, good and damaged, through the proved calls and through the package's own reader.

mod enumerate;
mod support;

use rowlist_host::filter::Filter;
use rowlist_host::record::{FaultKind, Part};
use rowlist_host::{Refusal, compare};
use support::{Random, Space, checked, edited, expected, file_of, files_agree, read_routes, some_file, some_filter};

/// Small filters of all three families whose records have every shape: each field there and left out.
const SAMPLES: [&str; 12] = [
    "family prefix \n default reject",
    "family prefix \n reject 20.0.0.0/8 8-24 \n default accept",
    "family prefix \n accept preference 100 med 50 30.0.0.0/8 16-32 \n accept med 0 0.0.0.0/0 0-0 \n reject 0.0.0.0/1 1-1
     default accept preference 200",
    "family prefix \n accept 0.0.0.0/0 0-32 \n reject 0.0.0.0/0 1-1 \n accept preference 0 10.1.2.3/32 32-32 \n default reject",
    "family origin \n default accept med 7",
    "family origin \n accept 0.0.0.0/0 0-0 as 0-4294967295 \n reject 20.0.0.0/8 8-24 as 64512-65534 \n default reject",
    "family origin \n accept preference 1 med 2 30.0.0.0/8 16-32 as 5-5 \n reject 0.0.0.0/0 0-32 as 0-1 \n default accept",
    "family origin \n reject 128.0.0.0/1 1-1 as 23456-4294967295 \n default accept preference 3",
    "family packet \n default accept",
    "family packet \n accept 0.0.0.0-255.255.255.255 protocol 0-255 port 0-65535 \n default reject",
    "family packet \n accept 10.0.0.0-10.255.255.255 protocol 6-17 port 53-53 \n default reject",
    "family packet \n reject 0.0.0.0-9.255.255.255 protocol 0-6 port 1024-65535
     accept 192.0.2.0-255.255.255.255 protocol 17-255 port 0-1023 \n default accept",
];

fn sample(text: &str) -> Vec<u8> {
    text.parse::<Filter>().expect("a sample").write()
}

/// Every damage of one byte, every file cut short, and every byte behind the end.
fn damages(file: &[u8]) -> Vec<Vec<u8>> {
    let mut damaged = Vec::new();
    for place in 0..file.len() {
        for byte in 0..=u8::MAX {
            let mut copy = file.to_vec();
            copy[place] = byte;
            damaged.push(copy);
        }
    }
    damaged.extend((0..file.len()).map(|length| file[..length].to_vec()));
    damaged.extend((0..=u8::MAX).map(|byte| [file, &[byte]].concat()));
    damaged
}

#[test]
fn damaged_samples_are_judged_alike() {
    let mut seen = [0_usize; 20];
    for text in SAMPLES {
        let file = sample(text);
        assert!(checked(&file));
        for damaged in damages(&file) {
            checked(&damaged);
            if let Err(fault) = Filter::read(&damaged) {
                seen[fault.refusal().number() as usize] += 1;
            }
        }
    }
    assert!(seen[12..=18].iter().all(|times| *times > 10), "{seen:?}");
}

#[test]
fn damaged_samples_are_compared_alike() {
    let good = sample(SAMPLES[2]);
    let packets = sample(SAMPLES[10]);
    for text in SAMPLES {
        let file = sample(text);
        // Files of other families are refused for their code, almost whatever happens to them.
        let step = if read_routes(&file).is_ok() { 1 } else { 16 };
        for damaged in damages(&file).iter().step_by(step) {
            files_agree(damaged, &good);
            files_agree(&good, damaged);
        }
        for damaged in damages(&file).iter().step_by(16) {
            files_agree(damaged, &packets);
            files_agree(&packets, damaged);
        }
    }
}

/// Bits turned over, bytes put in, taken out and cut off.
fn damage(random: &mut Random, file: &mut Vec<u8>) {
    for _ in 0..1 + random.below(3) {
        let place = random.below(file.len().max(1));
        match (random.below(5), file.get_mut(place)) {
            (0 | 1, Some(byte)) => *byte ^= 1 << random.below(8),
            (2, Some(byte)) => *byte = random.next() as u8,
            (3, Some(_)) => {
                file.remove(place);
            }
            (4, Some(_)) if random.once_in(3) => file.truncate(place),
            _ => file.insert(place, random.next() as u8),
        }
    }
}

#[test]
fn generated_files_are_judged_alike() {
    let mut random = Random::new(31);
    let mut good = 0;
    for _ in 0..20_000 {
        let count = if random.once_in(50) { random.below(65) } else { random.below(5) };
        let mut file = some_file(&mut random, count).write();
        assert!(checked(&file));
        for _ in 0..4 {
            damage(&mut random, &mut file);
            good += usize::from(checked(&file));
        }
    }
    assert!(good > 1_000, "{good}");
}

/// Bytes that were no file before. The first two are often right, so that it does not end with them.
#[test]
fn random_bytes_are_judged_alike() {
    let mut random = Random::new(32);
    let mut good = 0;
    for _ in 0..200_000 {
        let length = random.below(24);
        let few = [0, 1, 2, 3, 4, 5, 7, 8, 10, 11, 15, 16, 24, 32, 33, 255];
        let mut file: Vec<u8> = Vec::new();
        for _ in 0..length {
            file.push(if random.once_in(4) { random.next() as u8 } else { random.pick(&few) });
        }
        if length > 1 && !random.once_in(8) {
            file[0] = random.between(1, 3);
            file[1] = random.between(0, 2);
        }
        good += usize::from(checked(&file));
    }
    assert!(good > 200, "{good}");
}

#[test]
fn generated_pairs_with_damage_are_compared_alike() {
    let mut random = Random::new(33);
    let (mut listed, mut refused) = (0, 0);
    for _ in 0..8_000 {
        let most = if random.once_in(100) { 64 } else { 6 };
        let left = some_filter(&mut random, Space::Full, most);
        let right = edited(&mut random, Space::Full, &left);
        let (mut left, mut right) = (file_of(&left), file_of(&right));
        if random.once_in(2) {
            damage(&mut random, &mut left);
        }
        if random.once_in(2) {
            damage(&mut random, &mut right);
        }
        files_agree(&left, &right);
        match expected(&left, &right) {
            Ok(_) => listed += 1,
            Err(_) => refused += 1,
        }
    }
    assert!(listed > 1_000 && refused > 1_000, "{listed} {refused}");
}

/// The left file's fault is told first, whatever the right one is like.
#[test]
fn left_before_right() {
    let good = sample(SAMPLES[1]);
    let cut = &good[..4];
    let packets = sample(SAMPLES[9]);
    assert_eq!(compare(cut, &packets), Err(Refusal::Short));
    assert_eq!(compare(&packets, cut), Err(Refusal::OtherFamily));
    assert_eq!(compare(&good, cut), Err(Refusal::Short));
    assert_eq!(compare(&good, &packets), Err(Refusal::OtherFamily));
    assert_eq!(compare(&[], &[]), Err(Refusal::Short));
}

/// Long files, up to the most clauses and the longest records.
#[test]
fn files_of_every_length() {
    let mut random = Random::new(34);
    for count in 0..=64 {
        for _ in 0..20 {
            let file = some_file(&mut random, count).write();
            assert!(checked(&file));
            if let Ok(filter) = read_routes(&file) {
                assert_eq!(filter.clauses().len(), count);
            }
        }
    }
    for count in 65..=u8::MAX {
        for code in 1..=3 {
            assert!(!checked(&[code, count]));
            assert_eq!(Filter::read(&[code, count, 0]).map_err(|fault| fault.kind), Err(FaultKind::CountAboveLimit));
        }
    }
}

/// A faulty file, and the number, part, place and cause of its fault.
type Faulty<'a> = (&'a [u8], u32, Part, usize, Option<u32>);

/// Where the package's own reader sees faults; the proved call tells their numbers alone.
#[test]
fn places_of_faults() {
    let cases: [Faulty<'_>; 26] = [
        (&[], 12, Part::Head, 0, None),
        (&[2], 12, Part::Head, 1, None),
        (&[0], 13, Part::Head, 0, None),
        (&[4, 65], 13, Part::Head, 0, None),
        (&[1, 65], 14, Part::Head, 1, None),
        (&[1, 0], 12, Part::Default, 2, None),
        (&[1, 1, 0x0B, 20], 12, Part::Clause(0), 4, None),
        (&[1, 1, 0x10, 0, 0], 15, Part::Clause(0), 2, None),
        (&[1, 0, 2, 0, 0, 0, 100], 15, Part::Default, 2, None),
        (&[1, 1, 2, 0, 0, 1], 16, Part::Clause(0), 3, None),
        (&[1, 1, 0x0F, 30, 0, 0, 0, 8, 8, 20, 0, 1], 16, Part::Clause(0), 8, None),
        (&[1, 1, 0x01, 0, 0, 0, 0], 16, Part::Clause(0), 3, None),
        (&[1, 1, 6, 40, 40], 16, Part::Clause(0), 4, None),
        (&[1, 1, 2, 40, 0, 1], 17, Part::Clause(0), 2, Some(1)),
        (&[1, 1, 3, 20, 0, 0, 1, 8, 0, 1], 17, Part::Clause(0), 2, Some(2)),
        (&[1, 1, 6, 8, 7, 0, 1], 17, Part::Clause(0), 2, Some(3)),
        (&[1, 0, 1, 0, 0], 18, Part::Default, 3, None),
        // The second record of the region.
        (&[2, 1, 0, 4, 0, 0], 15, Part::Clause(0), 3, None),
        (&[2, 1, 0, 1, 0, 0, 0, 0, 0, 0], 16, Part::Clause(0), 4, None),
        (&[2, 1, 0, 2, 255, 255, 255, 255, 0, 0], 16, Part::Clause(0), 4, None),
        (&[2, 1, 0, 3, 0, 0, 0, 2, 0, 0, 0, 1, 0, 0], 17, Part::Clause(0), 3, Some(4)),
        // A broken rule of the first record comes before anything of the second.
        (&[2, 1, 2, 40, 0xFF], 17, Part::Clause(0), 2, Some(1)),
        (&[3, 1, 0, 3, 17, 6, 0, 0, 0], 17, Part::Clause(0), 3, Some(4)),
        (&[3, 1, 0, 0, 2, 255, 255, 0, 0], 16, Part::Clause(0), 5, None),
        (&[3, 1, 0, 0, 0, 2, 0], 15, Part::Clause(0), 5, None),
        (&[3, 0, 1, 0], 18, Part::Default, 3, None),
    ];
    for (file, number, part, place, cause) in cases {
        let fault = Filter::read(file).expect_err("a fault");
        let told = (fault.refusal().number(), fault.part, fault.place, fault.rule().map(|rule| rule.cause()));
        assert_eq!(told, (number, part, place, cause), "{file:?}");
        assert!(!checked(file));
    }
}
