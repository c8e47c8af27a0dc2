//! The numbered refusals.

use std::error::Error;
use std::fmt;

/// Why a call was refused. The value of each case is its number in the table
/// of refusals. A later version may have more, for calls that are not there yet.
#[derive(Clone, Copy, Debug, PartialEq, Eq, Hash)]
#[non_exhaustive]
#[repr(u32)]
pub enum Reason {
    /// The map has the wrong number of bytes, or is not as long as the copy that
    /// it was to be written over or the map that was to be drawn in it.
    MapLength = 1,
    /// The disc record has a value that is not allowed, or a byte that has to be
    /// 0 is not; or no map can be drawn for the disc that was to be formatted.
    DiscRecord = 2,
    /// A zone's check byte is wrong.
    ZoneCheck = 3,
    /// The cross check bytes are wrong.
    CrossCheck = 4,
    /// A zone's chain of free fragments is broken.
    FreeChain = 5,
    /// A fragment is malformed.
    Fragment = 6,
    /// A fragment has an owner it must not have.
    Owner = 7,
    /// An id or internal number is out of range for this call. On an E+ disc
    /// `address` takes no number at all.
    NumberRange = 8,
    /// Free fragments lie side by side, so the map cannot be edited.
    TouchingHoles = 9,
    /// The object is not there.
    Absent = 10,
    /// The object is there already.
    Present = 11,
    /// The list handed in, the size or the parent zone cannot be used.
    BadRequest = 12,
    /// The room asked for is not free, or too little would be left.
    NotFree = 13,
    /// All ids are in use. The rules for maps leave no way to reach this.
    NoUnusedId = 14,
    /// All free space together is too little.
    NoRoom = 15,
    /// The position or stretch is past the end.
    PastEnd = 16,
    /// The list lent is too short for the answer.
    ListTooShort = 17,
}

/// All reasons, in the order of their numbers.
const REASONS: [Reason; 17] = [
    Reason::MapLength,
    Reason::DiscRecord,
    Reason::ZoneCheck,
    Reason::CrossCheck,
    Reason::FreeChain,
    Reason::Fragment,
    Reason::Owner,
    Reason::NumberRange,
    Reason::TouchingHoles,
    Reason::Absent,
    Reason::Present,
    Reason::BadRequest,
    Reason::NotFree,
    Reason::NoUnusedId,
    Reason::NoRoom,
    Reason::PastEnd,
    Reason::ListTooShort,
];

impl Reason {
    /// The number in the table of refusals, 1 to 17.
    pub fn number(self) -> u32 {
        self as u32
    }

    /// The reason with a number. The library answers no other than these, so
    /// any other means that something else was linked in its place.
    pub(crate) fn from_number(number: u32) -> Reason {
        match REASONS.iter().find(|reason| reason.number() == number) {
            Some(reason) => *reason,
            None => panic!("the library answered {number}, which is no refusal of the table"),
        }
    }

    fn words(self) -> &'static str {
        match self {
            Reason::MapLength => "the map's size does not fit its record, the other copy or the disc",
            Reason::DiscRecord => "the disc record has a wrong value or is followed by rubbish, or no map fits the disc",
            Reason::ZoneCheck => "the zone's check byte does not match its contents",
            Reason::CrossCheck => "the cross check bytes of all zones do not combine to 255",
            Reason::FreeChain => "the zone's chain of free fragments is broken",
            Reason::Fragment => "the zone has a fragment with a wrong length or without an end",
            Reason::Owner => "the zone has a fragment whose owner is not allowed there",
            Reason::NumberRange => "this call takes no such number on this disc",
            Reason::TouchingHoles => "the zone has free fragments side by side, so no edit is made",
            Reason::Absent => "the map has no such object",
            Reason::Present => "the map has an object with this number already",
            Reason::BadRequest => "the list of pieces, or a size of 0, cannot be used",
            Reason::NotFree => "the room asked for is in use, or a rest too small to keep is left",
            Reason::NoUnusedId => "every object number is in use",
            Reason::NoRoom => "all free space together is too little",
            Reason::PastEnd => "this lies past the end of the object or of the disc",
            Reason::ListTooShort => "the list is too short to hold the answer",
        }
    }
}

impl fmt::Display for Reason {
    fn fmt(&self, out: &mut fmt::Formatter<'_>) -> fmt::Result {
        out.write_str(self.words())
    }
}

impl Error for Reason {}

/// A refused call: why, and in which zone.
#[derive(Clone, Copy, Debug, PartialEq, Eq, Hash)]
pub struct Refusal {
    /// Why.
    pub reason: Reason,
    /// The lowest zone where refusals 3, 5, 6, 7 and 9 hold; 0 for all others.
    pub zone: u32,
}

impl fmt::Display for Refusal {
    fn fmt(&self, out: &mut fmt::Formatter<'_>) -> fmt::Result {
        let Refusal { reason, zone } = self;
        write!(out, "{reason} (refusal {}, zone {zone})", reason.number())
    }
}

impl Error for Refusal {}

#[cfg(test)]
mod tests {
    use super::*;

    #[test]
    fn each_number_has_its_own_reason_and_words() {
        for number in 1..=17 {
            let reason = Reason::from_number(number);
            assert_eq!(reason.number(), number);
            let same = |other: &&Reason| other.words() == reason.words();
            assert_eq!(REASONS.iter().filter(same).count(), 1);
            assert_eq!(reason.to_string().lines().count(), 1);
        }
    }

    #[test]
    #[should_panic(expected = "no refusal of the table")]
    fn a_number_past_the_table_is_a_panic() {
        Reason::from_number(18);
    }

    #[test]
    fn a_refusal_tells_words_number_and_zone() {
        let refusal = Refusal {
            reason: Reason::ZoneCheck,
            zone: 4,
        };
        let text = "the zone's check byte does not match its contents (refusal 3, zone 4)";
        assert_eq!(refusal.to_string(), text);
    }
}
