//! A second, independent reading of E format disc maps, written from
//! document 01 (which decides) and source documents 000 and 001.
//!
//! Everything here is the plain reading: each call checks the whole map from
//! its bytes, works on lists of fragments, and writes at the very end.

#![forbid(unsafe_code)]

pub mod case;
pub mod copies;
pub mod edit;
pub mod format;
pub mod generate;
pub mod geometry;
pub mod lines;
pub mod map;
pub mod mend;
pub mod read;

/// A numbered refusal and the zone told with it
/// (document 01, "Numbered refusals").
#[derive(Clone, Copy, Debug, PartialEq, Eq)]
pub struct Refusal {
    pub number: u32,
    pub zone: u32,
}

impl Refusal {
    /// A refusal told with zone 0.
    pub fn plain(number: u32) -> Refusal {
        Refusal { number, zone: 0 }
    }

    /// A refusal told with the zone where it was found.
    pub fn in_zone(number: u32, zone: usize) -> Refusal {
        Refusal {
            number,
            zone: zone as u32,
        }
    }
}
