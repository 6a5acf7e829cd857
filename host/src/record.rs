//! Filter files: bytes to filters and back, as `docs/FORMATS.md` has them.
//!
//! **Nothing here is proved.** This is ordinary Rust, written from the documents and tested against the proved call
//! [`check`](crate::check). Use it to learn *where* the fault of a refused file is, or what a good file says; whether a file is good
//! is for the proved call to say.

use std::error::Error;
use std::fmt;
use std::net::Ipv4Addr;

use crate::Refusal;
use crate::filter::{
    Clause, Clauses, Family, Filter, MOST_CLAUSES, Number, Packet, PrefixRange, RouteAction, RouteWithOrigin, Rule,
    Span, Verdict,
};

/// What is wrong with a file.
#[derive(Clone, Copy, Debug, PartialEq, Eq, Hash)]
pub enum FaultKind {
    /// 12: the file ends where a byte is wanted.
    Short,
    /// 13: no family has this code.
    OtherFamily,
    /// 14: more than 64 clauses.
    CountAboveLimit,
    /// 15: a map has a bit that is not defined.
    UndefinedBit,
    /// 16: a field equals its absent value.
    AbsentValue,
    /// 17: the numbers of a region break a rule.
    BrokenRule(Rule),
    /// 18: bytes stand behind the default.
    SpareBytes,
}

/// The part of a file that a fault is in.
#[derive(Clone, Copy, Debug, PartialEq, Eq, Hash)]
pub enum Part {
    /// The family code or the number of clauses.
    Head,
    /// The clause with this number, from 0.
    Clause(usize),
    /// The default, or what stands behind it.
    Default,
}

impl fmt::Display for Part {
    fn fmt(&self, f: &mut fmt::Formatter<'_>) -> fmt::Result {
        match self {
            Part::Head => write!(f, "head"),
            Part::Clause(number) => write!(f, "clause {number}"),
            Part::Default => write!(f, "default"),
        }
    }
}

/// The first fault of a file.
#[derive(Clone, Copy, Debug, PartialEq, Eq, Hash)]
pub struct Fault {
    /// What is wrong.
    pub kind: FaultKind,
    /// The part that it is in.
    pub part: Part,
    /// The byte that it is told at, counted from 0; the length of the file if the file is too short.
    pub place: usize,
}

impl Fault {
    /// The refusal that the proved call should tell for it.
    pub fn refusal(&self) -> Refusal {
        match self.kind {
            FaultKind::Short => Refusal::Short,
            FaultKind::OtherFamily => Refusal::OtherFamily,
            FaultKind::CountAboveLimit => Refusal::CountAboveLimit,
            FaultKind::UndefinedBit => Refusal::UndefinedBit,
            FaultKind::AbsentValue => Refusal::AbsentValue,
            FaultKind::BrokenRule(_) => Refusal::BrokenRule,
            FaultKind::SpareBytes => Refusal::SpareBytes,
        }
    }

    /// The rule that is broken, if that is the fault.
    pub fn rule(&self) -> Option<Rule> {
        match self.kind {
            FaultKind::BrokenRule(rule) => Some(rule),
            _ => None,
        }
    }
}

impl fmt::Display for Fault {
    fn fmt(&self, f: &mut fmt::Formatter<'_>) -> fmt::Result {
        write!(f, "{}, byte {}", self.part, self.place)?;
        if let Some(rule) = self.rule() {
            write!(f, ", cause {} ({})", rule.cause(), rule.meaning())?;
        }
        Ok(())
    }
}

impl Error for Fault {}

impl Filter {
    /// The filter that a file holds.
    ///
    /// ```
    /// use rowlist_host::filter::Filter;
    /// use rowlist_host::record::Part;
    ///
    /// let good = Filter::read(&[1, 1, 0x0B, 20, 0, 0, 0, 8, 24, 0, 1])?;
    /// assert_eq!(good.to_string(), "family prefix\n0 reject 20.0.0.0/8 8-24\ndefault accept\n");
    ///
    /// // Bit 4 of a prefix range is not defined.
    /// let fault = Filter::read(&[1, 1, 0x10, 0, 0]).unwrap_err();
    /// assert_eq!((fault.refusal().number(), fault.part, fault.place), (15, Part::Clause(0), 2));
    /// # Ok::<(), rowlist_host::record::Fault>(())
    /// ```
    ///
    /// # Errors
    ///
    /// The first fault of the file.
    pub fn read(file: &[u8]) -> Result<Self, Fault> {
        let mut bytes = Bytes { file, at: 0 };
        let head = |(kind, place)| Fault { kind, part: Part::Head, place };

        let code = bytes.take_byte().map_err(head)?;
        let Some(family) = Family::from_code(code) else {
            return Err(head((FaultKind::OtherFamily, 0)));
        };
        match family {
            Family::Prefix => read_clauses(bytes).map(Filter::Prefix),
            Family::Origin => read_clauses(bytes).map(Filter::Origin),
            Family::Packet => read_clauses(bytes).map(Filter::Packet),
        }
    }

    /// The one file that holds this filter.
    pub fn write(&self) -> Vec<u8> {
        let mut file = vec![self.family().code()];
        match self {
            Filter::Prefix(clauses) => write_clauses(clauses, &mut file),
            Filter::Origin(clauses) => write_clauses(clauses, &mut file),
            Filter::Packet(clauses) => write_clauses(clauses, &mut file),
        }
        file
    }
}

/// A fault whose part is not known yet: the kind and the place.
type Found = (FaultKind, usize);

/// Reads what stands behind the family code.
fn read_clauses<R: Record, A: Record + Copy>(mut bytes: Bytes<'_>) -> Result<Clauses<R, A>, Fault> {
    let within = |part| move |(kind, place)| Fault { kind, part, place };

    let place = bytes.at;
    let count = usize::from(bytes.take_byte().map_err(within(Part::Head))?);
    let too_many = within(Part::Head)((FaultKind::CountAboveLimit, place));
    if count > MOST_CLAUSES {
        return Err(too_many);
    }
    let mut clauses = Vec::with_capacity(count);
    for number in 0..count {
        let part = Part::Clause(number);
        let region = R::read(&mut bytes).map_err(within(part))?;
        let action = A::read(&mut bytes).map_err(within(part))?;
        clauses.push(Clause { region, action });
    }
    let default = A::read(&mut bytes).map_err(within(Part::Default))?;
    if bytes.at < bytes.file.len() {
        return Err(within(Part::Default)((FaultKind::SpareBytes, bytes.at)));
    }
    Clauses::new(clauses, default).map_err(|_| too_many)
}

/// Writes what stands behind the family code.
fn write_clauses<R: Record, A: Record + Copy>(filter: &Clauses<R, A>, out: &mut Vec<u8>) {
    // There are at most 64.
    out.push(filter.clauses().len() as u8);
    for clause in filter.clauses() {
        clause.region.write(out);
        clause.action.write(out);
    }
    filter.default().write(out);
}

/// The bytes of a file, and how many have been read.
struct Bytes<'a> {
    file: &'a [u8],
    at: usize,
}

impl Bytes<'_> {
    /// The next number, whole.
    fn take<N: Number>(&mut self) -> Result<N, Found> {
        let array =
            self.file.get(self.at..).and_then(|rest| rest.get(..N::WIDTH)).and_then(|field| field.try_into().ok());
        let array = array.ok_or((FaultKind::Short, self.file.len()))?;
        self.at += N::WIDTH;
        Ok(N::of_bytes(array))
    }

    fn take_byte(&mut self) -> Result<u8, Found> {
        self.take::<u8>()
    }

    /// The next map and its place. `defined` says which maps there are.
    fn take_map(&mut self, defined: impl Fn(u8) -> bool) -> Result<(u8, usize), Found> {
        let place = self.at;
        let map = self.take_byte()?;
        if !defined(map) {
            return Err((FaultKind::UndefinedBit, place));
        }
        Ok((map, place))
    }

    /// A field of a region: the next number if it is there, else the absent value.
    fn take_field<N: Number>(&mut self, there: bool, absent: N) -> Result<N, Found> {
        if !there {
            return Ok(absent);
        }
        let place = self.at;
        let number = self.take()?;
        if number == absent {
            return Err((FaultKind::AbsentValue, place));
        }
        Ok(number)
    }
}

/// Something that one or more records stand for.
trait Record: Sized {
    fn read(bytes: &mut Bytes<'_>) -> Result<Self, Found>;
    fn write(&self, out: &mut Vec<u8>);
}

/// A record being written: the place of its map, and how many fields have been considered.
struct Fields<'a> {
    out: &'a mut Vec<u8>,
    map: usize,
    bit: u8,
}

impl<'a> Fields<'a> {
    fn new(out: &'a mut Vec<u8>) -> Self {
        let map = out.len();
        out.push(0);
        Self { out, map, bit: 1 }
    }

    /// Takes the next bit of the map for a number, or leaves it 0 if there is none.
    fn put<N: Number>(&mut self, number: Option<N>) {
        if let Some(number) = number {
            self.out[self.map] |= self.bit;
            self.out.extend_from_slice(number.bytes().as_ref());
        }
        self.bit <<= 1;
    }

    /// Takes the next bit of the map for a mark that has no number.
    fn mark(&mut self) {
        self.out[self.map] |= self.bit;
        self.bit <<= 1;
    }
}

/// A number that is to be written: none if it is the absent value.
fn unless<N: Number>(number: N, absent: N) -> Option<N> {
    (number != absent).then_some(number)
}

impl Record for PrefixRange {
    fn read(bytes: &mut Bytes<'_>) -> Result<Self, Found> {
        let (map, place) = bytes.take_map(|map| map & !0b1111 == 0)?;
        let address = bytes.take_field(map & 1 != 0, Ipv4Addr::UNSPECIFIED)?;
        let length = bytes.take_field(map & 2 != 0, 0)?;
        let low = bytes.take_field(map & 4 != 0, length)?;
        let high = bytes.take_field(map & 8 != 0, low)?;
        PrefixRange::new(address, length, low, high).map_err(|rule| (FaultKind::BrokenRule(rule), place))
    }

    fn write(&self, out: &mut Vec<u8>) {
        let mut fields = Fields::new(out);
        fields.put(unless(self.address(), Ipv4Addr::UNSPECIFIED));
        fields.put(unless(self.length(), 0));
        fields.put(unless(self.low(), self.length()));
        fields.put(unless(self.high(), self.low()));
    }
}

impl<N: Number> Record for Span<N> {
    fn read(bytes: &mut Bytes<'_>) -> Result<Self, Found> {
        let (map, place) = bytes.take_map(|map| map & !0b11 == 0)?;
        let low = bytes.take_field(map & 1 != 0, N::BOTTOM)?;
        let high = bytes.take_field(map & 2 != 0, N::TOP)?;
        Span::new(low, high).map_err(|rule| (FaultKind::BrokenRule(rule), place))
    }

    fn write(&self, out: &mut Vec<u8>) {
        let mut fields = Fields::new(out);
        fields.put(unless(self.low(), N::BOTTOM));
        fields.put(unless(self.high(), N::TOP));
    }
}

impl Record for RouteWithOrigin {
    fn read(bytes: &mut Bytes<'_>) -> Result<Self, Found> {
        let range = Record::read(bytes)?;
        let origin = Record::read(bytes)?;
        Ok(Self { range, origin })
    }

    fn write(&self, out: &mut Vec<u8>) {
        self.range.write(out);
        self.origin.write(out);
    }
}

impl Record for Packet {
    fn read(bytes: &mut Bytes<'_>) -> Result<Self, Found> {
        let destination = Record::read(bytes)?;
        let protocol = Record::read(bytes)?;
        let port = Record::read(bytes)?;
        Ok(Self { destination, protocol, port })
    }

    fn write(&self, out: &mut Vec<u8>) {
        self.destination.write(out);
        self.protocol.write(out);
        self.port.write(out);
    }
}

impl Record for RouteAction {
    fn read(bytes: &mut Bytes<'_>) -> Result<Self, Found> {
        let (map, _) = bytes.take_map(|map| map & !0b111 == 0 && (map & 1 != 0 || map == 0))?;
        if map == 0 {
            return Ok(RouteAction::Reject);
        }
        let mut number = |bit| if map & bit != 0 { bytes.take().map(Some) } else { Ok(None) };
        Ok(RouteAction::Accept { preference: number(2)?, med: number(4)? })
    }

    fn write(&self, out: &mut Vec<u8>) {
        let mut fields = Fields::new(out);
        if let RouteAction::Accept { preference, med } = *self {
            fields.mark();
            fields.put(preference);
            fields.put(med);
        }
    }
}

impl Record for Verdict {
    fn read(bytes: &mut Bytes<'_>) -> Result<Self, Found> {
        let (map, _) = bytes.take_map(|map| map & !1 == 0)?;
        Ok(if map == 0 { Verdict::Reject } else { Verdict::Accept })
    }

    fn write(&self, out: &mut Vec<u8>) {
        out.push(match self {
            Verdict::Reject => 0,
            Verdict::Accept => 1,
        });
    }
}
