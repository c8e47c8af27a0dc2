//! Safe calls to Shoalswift, a proved library for the maps of discs in Acorn's
//! E and E+ formats.
//!
//! A map is one slice: the blocks of all zones, zone 0 first. Lists are pairs
//! of entries: disc bit, then length in map bits; that of `mend_positions` has
//! one entry for each position. Any bytes and any numbers may
//! be handed in. A refused call changes no byte of map, image or list.
//!
//! ```
//! let mut map = std::fs::read("../maps/a.map").unwrap();
//! let mut given = [0; 2];
//! let claimed = shoalswift::claim(&mut map, 1, 0, &mut given).unwrap();
//! let mut list = [0; 2];
//! assert_eq!(shoalswift::list(&map, claimed.id, &mut list), Ok(claimed.pairs));
//! assert_eq!(list, given);
//! assert_eq!(
//!     shoalswift::release(&mut map, 2, &mut list).unwrap_err().reason,
//!     shoalswift::Reason::NumberRange
//! );
//! ```

#![deny(unsafe_code)]
#![warn(missing_docs)]

#[allow(unsafe_code)]
mod calls;
mod declared;
mod refusal;

pub use calls::{
    address, check, choose_copy, claim, copy_addresses, copy_over, format, format_length, free,
    geometry, list, mend, mend_positions, place, release, sweep_free, sweep_object,
};
pub use refusal::{Reason, Refusal};

/// What the disc record of an accepted map fixes.
#[derive(Clone, Copy, Debug, Default, PartialEq, Eq)]
pub struct Geometry {
    /// The bytes of a sector, and of a zone's block of the map.
    pub sector: u32,
    /// The bytes of disc behind one map bit.
    pub unit: u32,
    /// How many zones the disc has.
    pub zones: u32,
    /// The ids per zone: every id lies below `ids * zones`.
    pub ids: u32,
    /// The bytes of the disc.
    pub disc_size: u64,
}

/// Where a byte of a file lies.
#[derive(Clone, Copy, Debug, Default, PartialEq, Eq)]
pub struct Location {
    /// Its disc address.
    pub address: u64,
    /// How many bytes follow at consecutive disc addresses in the same piece,
    /// this one included.
    pub run: u64,
}

/// What a claim gave: a new object, whose pieces are in the list.
#[derive(Clone, Copy, Debug, PartialEq, Eq)]
pub struct Claimed {
    /// The id, which was unused before.
    pub id: u32,
    /// How many pairs were written: more than one where no hole was long enough.
    pub pairs: usize,
}

/// What the two copies of a disc's map come to.
#[derive(Clone, Copy, Debug, PartialEq, Eq)]
pub struct Choice<'a> {
    /// The copy that is an accepted map, the first if both are; or the refusal
    /// of the first.
    pub accepted: Result<MapCopy<'a>, Refusal>,
    /// Whether the copies are byte for byte equal; told of refused ones too.
    pub equal: bool,
}

/// A copy that is an accepted map, with its bytes.
#[derive(Clone, Copy, Debug, PartialEq, Eq)]
pub enum MapCopy<'a> {
    /// The first copy.
    First(&'a [u8]),
    /// The second copy; the first is refused.
    Second(&'a [u8]),
}

impl<'a> MapCopy<'a> {
    /// The map, whichever copy it is.
    pub fn map(self) -> &'a [u8] {
        match self {
            MapCopy::First(map) | MapCopy::Second(map) => map,
        }
    }
}

/// Where the two copies of a disc's map lie.
#[derive(Clone, Copy, Debug, Default, PartialEq, Eq)]
pub struct CopyAddresses {
    /// The disc address of the first copy.
    pub first: u64,
    /// The disc address of the second, straight after the first's bytes.
    pub second: u64,
}
