//! Filters as values: regions, actions, clauses. What can be made here obeys the rules of `docs/RULES.md`.

use std::fmt;
use std::net::Ipv4Addr;

use crate::Refusal;

/// The most clauses that a filter may have.
pub const MOST_CLAUSES: usize = 64;

/// A rule that the numbers of a region break.
#[derive(Clone, Copy, Debug, PartialEq, Eq, Hash)]
pub enum Rule {
    /// 1: a prefix length above 32.
    LengthAboveWidth = 1,
    /// 2: a bit of the address is set behind the prefix length.
    AddressBitAfterLength = 2,
    /// 3: low below the prefix length, high below low, or high above 32.
    LengthsOutOfOrder = 3,
    /// 4: the low number of a span above its high number.
    LowAboveHigh = 4,
}

impl Rule {
    /// The number that a refusal with 17 tells as its cause.
    pub fn cause(self) -> u32 {
        self as u32
    }

    /// What is wrong, in words.
    pub fn meaning(self) -> &'static str {
        match self {
            Rule::LengthAboveWidth => "the prefix length is above 32",
            Rule::AddressBitAfterLength => "the address has a bit set behind the prefix length",
            Rule::LengthsOutOfOrder => "the lengths are not in order: prefix length, low, high, 32",
            Rule::LowAboveHigh => "low is above high",
        }
    }
}

/// The routes under a prefix with a length from low to high.
#[derive(Clone, Copy, Debug, PartialEq, Eq, Hash)]
pub struct PrefixRange {
    address: Ipv4Addr,
    length: u8,
    low: u8,
    high: u8,
}

impl PrefixRange {
    /// A prefix range, or the first rule that it would break.
    ///
    /// # Errors
    ///
    /// [`Rule::LengthAboveWidth`], then [`Rule::AddressBitAfterLength`], then [`Rule::LengthsOutOfOrder`].
    pub fn new(address: Ipv4Addr, length: u8, low: u8, high: u8) -> Result<Self, Rule> {
        if length > 32 {
            return Err(Rule::LengthAboveWidth);
        }
        // A shift by all 32 bits leaves nothing.
        if address.to_bits().checked_shl(u32::from(length)).unwrap_or(0) != 0 {
            return Err(Rule::AddressBitAfterLength);
        }
        if low < length || high < low || high > 32 {
            return Err(Rule::LengthsOutOfOrder);
        }
        Ok(Self { address, length, low, high })
    }

    /// The address of the prefix.
    pub fn address(self) -> Ipv4Addr {
        self.address
    }

    /// The length of the prefix.
    pub fn length(self) -> u8 {
        self.length
    }

    /// The shortest length of a route.
    pub fn low(self) -> u8 {
        self.low
    }

    /// The longest length of a route.
    pub fn high(self) -> u8 {
        self.high
    }
}

impl fmt::Display for PrefixRange {
    fn fmt(&self, f: &mut fmt::Formatter<'_>) -> fmt::Result {
        write!(f, "{}/{} {}-{}", self.address, self.length, self.low, self.high)
    }
}

/// What a span counts: a protocol (`u8`), a port (`u16`), an AS number (`u32`) or an address.
pub trait Number: Copy + Ord + fmt::Display + sealed::Bytes {
    /// The lowest number.
    const BOTTOM: Self;
    /// The highest number.
    const TOP: Self;
}

pub(crate) mod sealed {
    /// A number as bytes, the highest first.
    pub trait Bytes: Sized {
        type Array: AsRef<[u8]> + for<'a> TryFrom<&'a [u8]>;
        const WIDTH: usize;
        fn of_bytes(bytes: Self::Array) -> Self;
        fn bytes(self) -> Self::Array;
    }
}

macro_rules! number {
    ($type:ty, $width:literal, $bottom:expr, $top:expr, $of_bytes:expr, $bytes:expr) => {
        impl Number for $type {
            const BOTTOM: Self = $bottom;
            const TOP: Self = $top;
        }

        impl sealed::Bytes for $type {
            type Array = [u8; $width];
            const WIDTH: usize = $width;
            fn of_bytes(bytes: Self::Array) -> Self {
                $of_bytes(bytes)
            }
            fn bytes(self) -> Self::Array {
                $bytes(self)
            }
        }
    };
}

number!(u8, 1, 0, u8::MAX, u8::from_be_bytes, u8::to_be_bytes);
number!(u16, 2, 0, u16::MAX, u16::from_be_bytes, u16::to_be_bytes);
number!(u32, 4, 0, u32::MAX, u32::from_be_bytes, u32::to_be_bytes);
number!(Ipv4Addr, 4, Ipv4Addr::UNSPECIFIED, Ipv4Addr::BROADCAST, Ipv4Addr::from, |address: Ipv4Addr| address.octets());

/// All numbers from low to high.
#[derive(Clone, Copy, Debug, PartialEq, Eq, Hash)]
pub struct Span<N> {
    low: N,
    high: N,
}

impl<N: Number> Span<N> {
    /// A span, or the rule that it would break.
    ///
    /// # Errors
    ///
    /// [`Rule::LowAboveHigh`].
    pub fn new(low: N, high: N) -> Result<Self, Rule> {
        if low > high {
            return Err(Rule::LowAboveHigh);
        }
        Ok(Self { low, high })
    }

    /// The lowest number.
    pub fn low(self) -> N {
        self.low
    }

    /// The highest number.
    pub fn high(self) -> N {
        self.high
    }
}

impl<N: Number> fmt::Display for Span<N> {
    fn fmt(&self, f: &mut fmt::Formatter<'_>) -> fmt::Result {
        write!(f, "{}-{}", self.low, self.high)
    }
}

/// The routes of a prefix range that one of some AS numbers has originated.
#[derive(Clone, Copy, Debug, PartialEq, Eq, Hash)]
pub struct RouteWithOrigin {
    /// The prefix range.
    pub range: PrefixRange,
    /// The AS numbers.
    pub origin: Span<u32>,
}

impl fmt::Display for RouteWithOrigin {
    fn fmt(&self, f: &mut fmt::Formatter<'_>) -> fmt::Result {
        write!(f, "{} as {}", self.range, self.origin)
    }
}

/// Packets, by destination, protocol and port.
#[derive(Clone, Copy, Debug, PartialEq, Eq, Hash)]
pub struct Packet {
    /// The addresses that the packets go to.
    pub destination: Span<Ipv4Addr>,
    /// The protocols.
    pub protocol: Span<u8>,
    /// The ports.
    pub port: Span<u16>,
}

impl fmt::Display for Packet {
    fn fmt(&self, f: &mut fmt::Formatter<'_>) -> fmt::Result {
        write!(f, "{} protocol {} port {}", self.destination, self.protocol, self.port)
    }
}

/// What is done with a route.
#[derive(Clone, Copy, Debug, PartialEq, Eq, Hash)]
pub enum RouteAction {
    /// It is rejected.
    Reject,
    /// It is accepted, and these numbers are set if they are there.
    Accept {
        /// The local preference.
        preference: Option<u32>,
        /// The MED.
        med: Option<u32>,
    },
}

impl fmt::Display for RouteAction {
    fn fmt(&self, f: &mut fmt::Formatter<'_>) -> fmt::Result {
        match self {
            RouteAction::Reject => write!(f, "reject"),
            RouteAction::Accept { preference, med } => {
                write!(f, "accept")?;
                if let Some(preference) = preference {
                    write!(f, " preference {preference}")?;
                }
                if let Some(med) = med {
                    write!(f, " med {med}")?;
                }
                Ok(())
            }
        }
    }
}

/// What is done with a packet.
#[derive(Clone, Copy, Debug, PartialEq, Eq, Hash)]
pub enum Verdict {
    /// It is rejected.
    Reject,
    /// It is accepted.
    Accept,
}

impl fmt::Display for Verdict {
    fn fmt(&self, f: &mut fmt::Formatter<'_>) -> fmt::Result {
        f.write_str(match self {
            Verdict::Reject => "reject",
            Verdict::Accept => "accept",
        })
    }
}

/// A region and what is done with it.
#[derive(Clone, Copy, Debug, PartialEq, Eq, Hash)]
pub struct Clause<R, A> {
    /// What the clause is about.
    pub region: R,
    /// What is done with it.
    pub action: A,
}

/// Clauses, of which the first that holds a route or packet decides, and a default.
#[derive(Clone, Debug, PartialEq, Eq, Hash)]
pub struct Clauses<R, A> {
    clauses: Vec<Clause<R, A>>,
    default: A,
}

impl<R, A: Copy> Clauses<R, A> {
    /// A filter of these clauses, tried in this order, and this default.
    ///
    /// # Errors
    ///
    /// [`Refusal::CountAboveLimit`] if there are more than [`MOST_CLAUSES`].
    pub fn new(clauses: Vec<Clause<R, A>>, default: A) -> Result<Self, Refusal> {
        if clauses.len() > MOST_CLAUSES {
            return Err(Refusal::CountAboveLimit);
        }
        Ok(Self { clauses, default })
    }

    /// The clauses, in the order in which they are tried.
    pub fn clauses(&self) -> &[Clause<R, A>] {
        &self.clauses
    }

    /// What is done where no clause decides.
    pub fn default(&self) -> A {
        self.default
    }
}

/// The kinds of filters that files hold.
#[derive(Clone, Copy, Debug, PartialEq, Eq, Hash)]
pub enum Family {
    /// Prefix ranges with route actions.
    Prefix = 1,
    /// Prefix ranges with AS numbers of the origin, and route actions.
    Origin = 2,
    /// Packets with verdicts.
    Packet = 3,
}

impl Family {
    /// The family code: the first byte of a file.
    pub fn code(self) -> u8 {
        self as u8
    }

    /// The family with this code, if there is one.
    pub fn from_code(code: u8) -> Option<Self> {
        [Family::Prefix, Family::Origin, Family::Packet].into_iter().find(|family| family.code() == code)
    }
}

impl fmt::Display for Family {
    fn fmt(&self, f: &mut fmt::Formatter<'_>) -> fmt::Result {
        f.write_str(match self {
            Family::Prefix => "prefix",
            Family::Origin => "origin",
            Family::Packet => "packet",
        })
    }
}

/// A filter of any of the three families.
#[derive(Clone, Debug, PartialEq, Eq, Hash)]
pub enum Filter {
    /// For routes.
    Prefix(Clauses<PrefixRange, RouteAction>),
    /// For routes with their origin.
    Origin(Clauses<RouteWithOrigin, RouteAction>),
    /// For packets.
    Packet(Clauses<Packet, Verdict>),
}

impl Filter {
    /// The family of the filter.
    pub fn family(&self) -> Family {
        match self {
            Filter::Prefix(_) => Family::Prefix,
            Filter::Origin(_) => Family::Origin,
            Filter::Packet(_) => Family::Packet,
        }
    }
}
