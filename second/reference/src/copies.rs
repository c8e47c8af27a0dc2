//! The second map copy (R-5 of document 02): "The map is stored twice, the second
//! straight after the first, at the address of the middle zone's first bit."

use crate::map::check;
use crate::Refusal;

/// What two copies yield.
#[derive(Clone, Copy, Debug, PartialEq, Eq)]
pub struct Choice<'a> {
    /// "the part that is an accepted map", with 1 for the first copy and 2 for the
    /// second; else "the first's refusal".
    pub chosen: Result<(u32, &'a [u8]), Refusal>,
    /// "whether they are byte for byte equal", whether or not they are accepted.
    pub equal: bool,
}

impl<'a> Choice<'a> {
    /// The part that is handed back: "an empty part" where both are refused.
    pub fn part(&self) -> &'a [u8] {
        match self.chosen {
            Ok((_, map)) => map,
            Err(_) => &[],
        }
    }
}

/// "hand back the part that is an accepted map: the first if it is accepted, else
/// the second, else the first's refusal and an empty part."
pub fn choose_copy<'a>(first: &'a [u8], second: &'a [u8]) -> Choice<'a> {
    let chosen = match check(first) {
        Ok(_) => Ok((1, first)),
        Err(refusal) => match check(second) {
            Ok(_) => Ok((2, second)),
            // What the second is refused with is nowhere told.
            Err(_) => Err(refusal),
        },
    };
    // Slices of unequal lengths are unequal, and two empty ones are equal.
    Choice {
        chosen,
        equal: first == second,
    }
}

/// "a call that writes one over the other; it answers the source's refusal first,
/// then 1 where lengths differ, and then writes nothing." What the target holds is
/// not looked at.
pub fn copy_over(source: &[u8], target: &mut [u8]) -> Result<(), Refusal> {
    check(source)?;
    if source.len() != target.len() {
        return Err(Refusal::plain(1));
    }
    target.copy_from_slice(source);
    Ok(())
}

/// The disc addresses of a map's two copies.
#[derive(Clone, Copy, Debug, PartialEq, Eq)]
pub struct Addresses {
    pub first: u64,
    pub second: u64,
}

/// Where the copies of an accepted map lie: the first "at the address of the middle
/// zone's first bit", the second "straight after" the first one's bytes. Whether
/// object 2 or the disc reaches so far is not judged.
pub fn copy_addresses(map: &[u8]) -> Result<Addresses, Refusal> {
    let geometry = check(map)?.geometry;
    let middle = geometry.middle_zone();
    let disc_bit = geometry.disc_bit(middle, geometry.first_block_bit(middle));
    let first = disc_bit as u64 * geometry.bytes_per_map_bit;
    Ok(Addresses {
        first,
        second: first + map.len() as u64,
    })
}
