//! The numbers that the proved calls refuse with.

use std::error::Error;
use std::fmt;

/// Why a call refused. The numbers are those of `docs/REFUSALS.md`, the same in every release.
#[derive(Clone, Copy, Debug, PartialEq, Eq, PartialOrd, Ord, Hash)]
#[repr(u32)]
pub enum Refusal {
    /// 7: more clauses than places. The two calls have places for all clauses of a file, so they never tell it.
    NoPlaces = 7,
    /// 8: the regions have more than four axes. Prefix ranges have two, so comparing them never tells it.
    TooManyAxes = 8,
    /// 9: the region list would have more than 1,024 regions.
    NoRegionPlace = 9,
    /// 10: more than 1,024 rows.
    NoRowPlace = 10,
    /// 11: more than 4,096 holes in all rows together.
    NoHolePlace = 11,
    /// 12: a file ends where a byte is wanted.
    Short = 12,
    /// 13: the family code is none that the call takes.
    OtherFamily = 13,
    /// 14: more than 64 clauses.
    CountAboveLimit = 14,
    /// 15: a map has a bit that is not defined.
    UndefinedBit = 15,
    /// 16: a field equals its absent value.
    AbsentValue = 16,
    /// 17: the numbers of a region break its rules.
    BrokenRule = 17,
    /// 18: bytes stand behind the default.
    SpareBytes = 18,
    /// 19: the listing is longer than the buffer, or longer than 65,535 bytes.
    BufferTooShort = 19,
}

impl Refusal {
    /// Every refusal, by rising number.
    pub const ALL: [Refusal; 13] = [
        Refusal::NoPlaces,
        Refusal::TooManyAxes,
        Refusal::NoRegionPlace,
        Refusal::NoRowPlace,
        Refusal::NoHolePlace,
        Refusal::Short,
        Refusal::OtherFamily,
        Refusal::CountAboveLimit,
        Refusal::UndefinedBit,
        Refusal::AbsentValue,
        Refusal::BrokenRule,
        Refusal::SpareBytes,
        Refusal::BufferTooShort,
    ];

    /// The number of the refusal.
    pub fn number(self) -> u32 {
        self as u32
    }

    /// The refusal with this number, if there is one.
    pub fn from_number(number: u32) -> Option<Self> {
        Self::ALL.into_iter().find(|refusal| refusal.number() == number)
    }

    /// What it means, in words.
    pub fn meaning(self) -> &'static str {
        match self {
            Refusal::NoPlaces => "the filter has more clauses than there are places",
            Refusal::TooManyAxes => "the regions have more than four axes",
            Refusal::NoRegionPlace => "the region list would have more than 1,024 regions",
            Refusal::NoRowPlace => "there are more rows than places for them",
            Refusal::NoHolePlace => "the rows have more holes than there are places for them",
            Refusal::Short => "the file ends where a byte is wanted",
            Refusal::OtherFamily => "the family code is another one",
            Refusal::CountAboveLimit => "the file says that it has more than 64 clauses",
            Refusal::UndefinedBit => "a map has a bit that is not defined",
            Refusal::AbsentValue => "a field equals the value that it has when it is left out",
            Refusal::BrokenRule => "the numbers of a region break its rules",
            Refusal::SpareBytes => "bytes stand behind the default",
            Refusal::BufferTooShort => "the listing is longer than the buffer or than 65,535 bytes",
        }
    }
}

impl fmt::Display for Refusal {
    fn fmt(&self, f: &mut fmt::Formatter<'_>) -> fmt::Result {
        write!(f, "refused with {}: {}", self.number(), self.meaning())
    }
}

impl Error for Refusal {}

#[cfg(test)]
mod tests {
    use super::Refusal;

    #[test]
    fn numbers_go_both_ways() {
        let numbers: Vec<u32> = Refusal::ALL.iter().map(|refusal| refusal.number()).collect();
        assert_eq!(numbers, (7..=19).collect::<Vec<u32>>());
        for refusal in Refusal::ALL {
            assert_eq!(Refusal::from_number(refusal.number()), Some(refusal));
        }
        for number in [0, 6, 20, u32::MAX] {
            assert_eq!(Refusal::from_number(number), None);
        }
    }
}
