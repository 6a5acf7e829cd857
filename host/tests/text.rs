//! The text form: what is shown can be made again, and what is wrong is told with its line.

mod enumerate;
mod support;

use rowlist_host::check;
use rowlist_host::filter::Filter;
use support::{Random, Shown, hex, some_file};

/// Every good file comes back byte for byte.
#[test]
fn shown_and_made_again() {
    let mut random = Random::new(51);
    for round in 0..10_000 {
        let count = if round % 50 == 0 { random.below(65) } else { random.below(6) };
        let file = some_file(&mut random, count).write();
        let files: [&[u8]; 1] = [&file];
        let _shown = Shown(&files);
        assert_eq!(check(&file), Ok(()));
        let text = Filter::read(&file).expect("a good file").to_string();
        let made: Filter = text.parse().expect("what was shown can be made");
        assert_eq!(hex(&made.write()), hex(&file));
    }
}

#[test]
fn all_forms() {
    let texts = [
        "family prefix\ndefault reject\n",
        "family prefix\n0 reject 20.0.0.0/8 8-24\n1 accept preference 100 med 50 10.0.0.0/8 8-32\n2 accept med 0 0.0.0.0/0 0-0\n\
         default accept preference 4294967295\n",
        "family origin\n0 accept preference 7 20.0.0.0/8 8-24 as 64512-65534\n1 reject 0.0.0.0/0 0-32 as 0-4294967295\n\
         default accept\n",
        "family packet\n0 accept 192.0.2.0-192.0.2.255 protocol 6-6 port 80-443\n\
         1 reject 0.0.0.0-255.255.255.255 protocol 0-255 port 0-65535\ndefault accept\n",
    ];
    for text in texts {
        let filter: Filter = text.parse().expect("a filter");
        assert_eq!(filter.to_string(), text);
        assert_eq!(Filter::read(&filter.write()), Ok(filter));
    }
}

/// Empty lines, remarks, blanks and clauses without their numbers.
#[test]
fn freedoms() {
    let text = "# routes of a customer\r\n\n  family   prefix # of ours\n\treject 20.0.0.0/8 8-24#no more\n 1 accept 0.0.0.0/0 0-32\n\n\
                default accept\n# the end\n";
    let filter: Filter = text.parse().expect("a filter");
    let shown = "family prefix\n0 reject 20.0.0.0/8 8-24\n1 accept 0.0.0.0/0 0-32\ndefault accept\n";
    assert_eq!(filter.to_string(), shown);
}

#[test]
fn mistakes() {
    let cases = [
        ("", 1, "no `family` line"),
        ("# nothing\n\n", 2, "no `family` line"),
        ("default accept", 1, "`family` is wanted, not `default`"),
        ("family", 1, "the line ends where the family is wanted"),
        ("family routes", 1, "no family is called `routes`"),
        ("family prefix ranges", 1, "complete before `ranges`"),
        ("family prefix", 1, "ends without a `default` line"),
        ("family prefix\n0 reject 0.0.0.0/0 0-0\n\n", 3, "ends without a `default` line"),
        ("family prefix\ndefault accept\ndefault accept", 3, "nothing may follow"),
        ("family prefix\ndefault", 2, "the line ends where `accept` or `reject` is wanted"),
        ("family prefix\ndefault drop", 2, "`accept` or `reject` is wanted, not `drop`"),
        ("family prefix\ndefault reject med 5", 2, "complete before `med`"),
        ("family prefix\ndefault accept med", 2, "the line ends where the MED is wanted"),
        ("family prefix\ndefault accept med +5", 2, "the MED is a number, not `+5`"),
        ("family prefix\ndefault accept med 4294967296", 2, "the MED cannot be as big as 4294967296"),
        ("family prefix\ndefault accept med 1 preference 2", 2, "complete before `preference`"),
        ("family prefix\n1 reject 0.0.0.0/0 0-0\ndefault accept", 2, "this is clause 0, not 1"),
        ("family prefix\n0\ndefault accept", 2, "the line ends where `accept` or `reject` is wanted"),
        ("family prefix\n0x reject 0.0.0.0/0 0-0\ndefault accept", 2, "is a number, not `0x`"),
        ("family prefix\nreject\ndefault accept", 2, "the line ends where the prefix is wanted"),
        ("family prefix\nreject 0.0.0.0\ndefault accept", 2, "written ADDRESS/LENGTH"),
        ("family prefix\nreject 0.0.0/0 0-0\ndefault accept", 2, "`0.0.0` is no address"),
        ("family prefix\nreject 0.0.0.0/0\ndefault accept", 2, "the line ends where the length range is wanted"),
        ("family prefix\nreject 0.0.0.0/0 5\ndefault accept", 2, "written LOW-HIGH"),
        ("family prefix\nreject 0.0.0.0/0 -5\ndefault accept", 2, "the shortest length is a number, not ``"),
        ("family prefix\nreject 0.0.0.0/256 0-0\ndefault accept", 2, "the prefix length cannot be as big as 256"),
        ("family prefix\nreject 0.0.0.0/33 33-33\ndefault accept", 2, "the prefix length is above 32"),
        ("family prefix\nreject 1.0.0.0/7 8-8\ndefault accept", 2, "a bit set behind the prefix length"),
        ("family prefix\nreject 1.0.0.0/8 7-8\ndefault accept", 2, "not in order"),
        ("family prefix\nreject 1.0.0.0/8 8-33\ndefault accept", 2, "not in order"),
        ("family prefix\nreject 1.0.0.0/8 8-8 as 5-5\ndefault accept", 2, "complete before `as`"),
        ("family origin\nreject 1.0.0.0/8 8-8\ndefault accept", 2, "the line ends where `as` is wanted"),
        ("family origin\nreject 1.0.0.0/8 8-8 as 6-5\ndefault accept", 2, "low is above high"),
        ("family packet\ndefault accept med 5", 2, "complete before `med`"),
        ("family packet\nreject 0.0.0.0-1.0.0.0 port 5-5\ndefault accept", 2, "`protocol` is wanted, not `port`"),
        ("family packet\nreject 0.0.0.0-1.0.0.0 protocol 5-256 port 5-5\ndefault accept", 2, "cannot be as big as 256"),
        ("family packet\nreject 1.0.0.1-1.0.0.0 protocol 5-5 port 5-5\ndefault accept", 2, "low is above high"),
    ];
    for (text, line, problem) in cases {
        let error = text.parse::<Filter>().expect_err(text);
        assert_eq!(error.line(), line, "{text:?}: {error}");
        assert!(error.problem().contains(problem), "{text:?}: {error}");
    }
}

#[test]
fn too_many_clauses() {
    let text = |count: usize| {
        let clauses = "accept 0.0.0.0/0 0-32\n".repeat(count);
        format!("family prefix\n{clauses}default reject\n").parse::<Filter>()
    };
    assert!(text(64).is_ok());
    let error = text(65).expect_err("65 clauses");
    assert_eq!((error.line(), error.problem()), (66, "a filter has at most 64 clauses"));
}
