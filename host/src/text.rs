//! Filters as lines of text: `Display` for a [`Filter`] prints them, `FromStr` reads them. `README.md` has the form.
//!
//! Nothing here is proved.

use std::error::Error;
use std::fmt;
use std::net::Ipv4Addr;
use std::str::{FromStr, SplitWhitespace};

use crate::filter::{
    Clause, Clauses, Filter, MOST_CLAUSES, Number, Packet, PrefixRange, RouteAction, RouteWithOrigin, Span, Verdict,
};

/// A text that is no filter: the line, counted from 1, and what is wrong with it.
#[derive(Clone, Debug, PartialEq, Eq)]
pub struct TextError {
    line: usize,
    problem: String,
}

impl TextError {
    /// The line, counted from 1; the last one if something is missing at the end.
    pub fn line(&self) -> usize {
        self.line
    }

    /// What is wrong, in words.
    pub fn problem(&self) -> &str {
        &self.problem
    }
}

impl fmt::Display for TextError {
    fn fmt(&self, f: &mut fmt::Formatter<'_>) -> fmt::Result {
        write!(f, "line {}: {}", self.line, self.problem)
    }
}

impl Error for TextError {}

impl fmt::Display for Filter {
    fn fmt(&self, f: &mut fmt::Formatter<'_>) -> fmt::Result {
        writeln!(f, "family {}", self.family())?;
        match self {
            Filter::Prefix(clauses) => clauses.fmt(f),
            Filter::Origin(clauses) => clauses.fmt(f),
            Filter::Packet(clauses) => clauses.fmt(f),
        }
    }
}

impl<R: fmt::Display, A: fmt::Display + Copy> fmt::Display for Clauses<R, A> {
    /// The lines behind the first.
    fn fmt(&self, f: &mut fmt::Formatter<'_>) -> fmt::Result {
        for (place, clause) in self.clauses().iter().enumerate() {
            writeln!(f, "{place} {} {}", clause.action, clause.region)?;
        }
        writeln!(f, "default {}", self.default())
    }
}

impl FromStr for Filter {
    type Err = TextError;

    /// ```
    /// use rowlist_host::filter::Filter;
    ///
    /// let filter: Filter = "
    ///     family prefix
    ///     reject 20.0.0.0/8 8-24   # the numbers of clauses may be left out
    ///     default accept
    /// ".parse()?;
    /// assert_eq!(filter.write(), [1, 1, 0x0B, 20, 0, 0, 0, 8, 24, 0, 1]);
    /// # Ok::<(), rowlist_host::text::TextError>(())
    /// ```
    fn from_str(text: &str) -> Result<Self, TextError> {
        let mut lines = Lines::new(text);
        let Some(mut words) = lines.next() else {
            return Err(lines.wrong("no `family` line".to_owned()));
        };
        let family = words.expect("family").and_then(|()| words.next("the family"));
        let family = family.and_then(|family| words.end().map(|()| family)).map_err(|problem| lines.wrong(problem))?;
        match family {
            "prefix" => clauses(lines).map(Filter::Prefix),
            "origin" => clauses(lines).map(Filter::Origin),
            "packet" => clauses(lines).map(Filter::Packet),
            other => Err(lines.wrong(format!("no family is called `{other}`: it is `prefix`, `origin` or `packet`"))),
        }
    }
}

/// Reads the lines behind the first.
fn clauses<R: FromWords, A: FromWords + Copy>(mut lines: Lines<'_>) -> Result<Clauses<R, A>, TextError> {
    let mut read: Vec<Clause<R, A>> = Vec::new();
    while let Some(words) = lines.next() {
        match line(words, read.len()).map_err(|problem| lines.wrong(problem))? {
            Line::Clause(clause) => read.push(clause),
            Line::Default(default) => {
                if lines.next().is_some() {
                    return Err(lines.wrong("nothing may follow the `default` line".to_owned()));
                }
                return Clauses::new(read, default).map_err(|refusal| lines.wrong(refusal.meaning().to_owned()));
            }
        }
    }
    Err(lines.wrong("the text ends without a `default` line".to_owned()))
}

enum Line<R, A> {
    Clause(Clause<R, A>),
    Default(A),
}

/// Reads a line: the default, or the clause that has this place.
fn line<R: FromWords, A: FromWords>(mut words: Words<'_>, place: usize) -> Result<Line<R, A>, String> {
    if words.peek() == Some("default") {
        words.expect("default")?;
        let action = A::from_words(&mut words)?;
        words.end()?;
        return Ok(Line::Default(action));
    }
    if place == MOST_CLAUSES {
        return Err(format!("a filter has at most {MOST_CLAUSES} clauses"));
    }
    if words.peek().is_some_and(|word| word.starts_with(|first: char| first.is_ascii_digit())) {
        let told: u32 = number(words.next("the clause's number")?, "the clause's number")?;
        if usize::try_from(told) != Ok(place) {
            return Err(format!("this is clause {place}, not {told}"));
        }
    }
    let action = A::from_words(&mut words)?;
    let region = R::from_words(&mut words)?;
    words.end()?;
    Ok(Line::Clause(Clause { region, action }))
}

/// The lines of a text that are not empty, without remarks.
struct Lines<'a> {
    lines: std::iter::Enumerate<std::str::Lines<'a>>,
    /// The number of the last line given, or of the last line of the text.
    at: usize,
}

impl<'a> Lines<'a> {
    fn new(text: &'a str) -> Self {
        Self { lines: text.lines().enumerate(), at: 1 }
    }

    fn next(&mut self) -> Option<Words<'a>> {
        for (index, line) in self.lines.by_ref() {
            self.at = index + 1;
            let said = line.split_once('#').map_or(line, |(said, _remark)| said);
            let words = Words { words: said.split_whitespace() };
            if words.peek().is_some() {
                return Some(words);
            }
        }
        None
    }

    fn wrong(&self, problem: String) -> TextError {
        TextError { line: self.at, problem }
    }
}

/// The words of a line.
struct Words<'a> {
    words: SplitWhitespace<'a>,
}

impl<'a> Words<'a> {
    fn peek(&self) -> Option<&'a str> {
        self.words.clone().next()
    }

    /// The next word, which stands for `what`.
    fn next(&mut self, what: &str) -> Result<&'a str, String> {
        self.words.next().ok_or_else(|| format!("the line ends where {what} is wanted"))
    }

    /// Takes the next word, which has to be this one.
    fn expect(&mut self, wanted: &str) -> Result<(), String> {
        match self.words.next() {
            Some(word) if word == wanted => Ok(()),
            Some(word) => Err(format!("`{wanted}` is wanted, not `{word}`")),
            None => Err(format!("the line ends where `{wanted}` is wanted")),
        }
    }

    /// Takes the next word if it is this one.
    fn skip(&mut self, word: &str) -> bool {
        let there = self.peek() == Some(word);
        if there {
            self.words.next();
        }
        there
    }

    fn end(&mut self) -> Result<(), String> {
        match self.words.next() {
            None => Ok(()),
            Some(word) => Err(format!("the line is complete before `{word}`")),
        }
    }
}

/// A number without sign.
fn number<N: FromStr>(word: &str, what: &str) -> Result<N, String> {
    if word.is_empty() || !word.bytes().all(|byte| byte.is_ascii_digit()) {
        return Err(format!("{what} is a number, not `{word}`"));
    }
    word.parse().map_err(|_| format!("{what} cannot be as big as {word}"))
}

fn address(word: &str) -> Result<Ipv4Addr, String> {
    word.parse().map_err(|_| format!("`{word}` is no address in dotted form"))
}

/// Two values with a hyphen between them.
fn two<'a>(word: &'a str, what: &str) -> Result<(&'a str, &'a str), String> {
    word.split_once('-').ok_or_else(|| format!("{what} is written LOW-HIGH, not `{word}`"))
}

/// A span, whose ends are read as `end` says.
fn span<N: Number>(word: &str, what: &str, end: impl Fn(&str) -> Result<N, String>) -> Result<Span<N>, String> {
    let (low, high) = two(word, what)?;
    Span::new(end(low)?, end(high)?).map_err(|rule| format!("{what} {word}: {}", rule.meaning()))
}

/// A span of numbers behind a word that tells what they are.
fn named_span<N: Number + FromStr>(words: &mut Words<'_>, name: &str, what: &str) -> Result<Span<N>, String> {
    words.expect(name)?;
    span(words.next(what)?, what, |word| number(word, what))
}

/// What can be read from some of the words of a line.
trait FromWords: Sized {
    fn from_words(words: &mut Words<'_>) -> Result<Self, String>;
}

impl FromWords for PrefixRange {
    fn from_words(words: &mut Words<'_>) -> Result<Self, String> {
        let prefix = words.next("the prefix")?;
        let (base, length) =
            prefix.split_once('/').ok_or_else(|| format!("a prefix is written ADDRESS/LENGTH, not `{prefix}`"))?;
        let base = address(base)?;
        let length = number(length, "the prefix length")?;
        let range = words.next("the length range")?;
        let (low, high) = two(range, "the length range")?;
        let low = number(low, "the shortest length")?;
        let high = number(high, "the longest length")?;
        PrefixRange::new(base, length, low, high).map_err(|rule| format!("{prefix} {range}: {}", rule.meaning()))
    }
}

impl FromWords for RouteWithOrigin {
    fn from_words(words: &mut Words<'_>) -> Result<Self, String> {
        let range = PrefixRange::from_words(words)?;
        let origin = named_span(words, "as", "the span of AS numbers")?;
        Ok(Self { range, origin })
    }
}

impl FromWords for Packet {
    fn from_words(words: &mut Words<'_>) -> Result<Self, String> {
        let what = "the span of destination addresses";
        let destination = span(words.next(what)?, what, address)?;
        let protocol = named_span(words, "protocol", "the span of protocols")?;
        let port = named_span(words, "port", "the span of ports")?;
        Ok(Self { destination, protocol, port })
    }
}

impl FromWords for Verdict {
    fn from_words(words: &mut Words<'_>) -> Result<Self, String> {
        match words.next("`accept` or `reject`")? {
            "accept" => Ok(Verdict::Accept),
            "reject" => Ok(Verdict::Reject),
            other => Err(format!("`accept` or `reject` is wanted, not `{other}`")),
        }
    }
}

impl FromWords for RouteAction {
    fn from_words(words: &mut Words<'_>) -> Result<Self, String> {
        match Verdict::from_words(words)? {
            Verdict::Reject => Ok(RouteAction::Reject),
            Verdict::Accept => {
                let mut named = |name, what| {
                    if words.skip(name) {
                        words.next(what).and_then(|word| number(word, what)).map(Some)
                    } else {
                        Ok(None)
                    }
                };
                let preference = named("preference", "the local preference")?;
                let med = named("med", "the MED")?;
                Ok(RouteAction::Accept { preference, med })
            }
        }
    }
}
