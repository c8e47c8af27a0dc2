//! The calls that leave the map alone: list, free, address and sweep
//! (document 01, "The calls"; for address of document 02 too).

use crate::geometry::Edition;
use crate::map::{check, CheckedMap, Fragment};
use crate::Refusal;

/// Writes pairs into a lent list; 17 where it has too few entries. Entries
/// past the last pair are untouched.
pub fn hand_out(
    checked: &CheckedMap,
    fragments: &[Fragment],
    list: &mut [u32],
) -> Result<u64, Refusal> {
    if list.len() < 2 * fragments.len() {
        return Err(Refusal::plain(17));
    }
    for (index, fragment) in fragments.iter().enumerate() {
        let (disc_bit, length) = checked.pair(fragment);
        list[2 * index] = disc_bit;
        list[2 * index + 1] = length;
    }
    Ok(fragments.len() as u64)
}

/// The fragments of an object that must be on the map (refusal 10).
pub fn present(checked: &CheckedMap, id: u32) -> Result<Vec<Fragment>, Refusal> {
    let pieces = checked.object(id)?;
    if pieces.is_empty() {
        return Err(Refusal::plain(10));
    }
    Ok(pieces)
}

/// Lists an object's pieces in object order; answers how many pairs.
pub fn list(map: &[u8], id: u32, list: &mut [u32]) -> Result<u64, Refusal> {
    let checked = check(map)?;
    checked.geometry.id_from(1, id)?;
    let pieces = present(&checked, id)?;
    hand_out(&checked, &pieces, list)
}

/// Lists the free spans, ascending; answers how many pairs.
pub fn free(map: &[u8], list: &mut [u32]) -> Result<u64, Refusal> {
    let checked = check(map)?;
    hand_out(&checked, &checked.free(), list)
}

/// Where a byte of an object lies, and how far one may read from there.
#[derive(Clone, Copy, Debug, PartialEq, Eq)]
pub struct Location {
    /// The disc address of the byte.
    pub address: u64,
    /// "how many bytes follow at consecutive disc addresses in the same piece, the
    /// asked byte included" (R-11 of document 02).
    pub run: u64,
}

/// Turns an internal number and a position into a disc address, with the run from
/// there. "Touching pieces count as separate" (R-11 of document 02), so that the
/// run ends with the byte's own piece. "Address refuses E+ with 8, because its
/// internal numbers are another matter" (R-12).
pub fn address(map: &[u8], n: u32, position: u64) -> Result<Location, Refusal> {
    let checked = check(map)?;
    let geometry = &checked.geometry;
    if geometry.edition == Edition::EPlus {
        return Err(Refusal::plain(8));
    }
    if n >= 1 << 24 {
        return Err(Refusal::plain(8));
    }
    let id = n / 256;
    let low_byte = n % 256;
    geometry.id_from(2, id)?;
    let pieces = present(&checked, id)?;

    let start_offset = if low_byte == 0 {
        0
    } else {
        (low_byte as u128 - 1) * geometry.sector_size as u128
    };
    // The object's bytes are its pieces joined in order.
    let mut offset = start_offset + position as u128;
    for piece in &pieces {
        let first = geometry.disc_bit(piece.zone, piece.start) as u64 * geometry.bytes_per_map_bit;
        let bytes = piece.length as u64 * geometry.bytes_per_map_bit;
        if offset < bytes as u128 {
            let inside = offset as u64;
            return Ok(Location {
                address: first + inside,
                run: bytes - inside,
            });
        }
        offset -= bytes as u128;
    }
    Err(Refusal::plain(16))
}

/// Sweeps the pieces of an object.
pub fn sweep_object(
    map: &[u8],
    image: &mut [u8],
    first: u64,
    fill: u8,
    id: u32,
) -> Result<u64, Refusal> {
    let checked = check(map)?;
    checked.geometry.id_from(3, id)?;
    let pieces = present(&checked, id)?;
    sweep(&checked, &pieces, image, first, fill)
}

/// Sweeps the free spans.
pub fn sweep_free(map: &[u8], image: &mut [u8], first: u64, fill: u8) -> Result<u64, Refusal> {
    let checked = check(map)?;
    sweep(&checked, &checked.free(), image, first, fill)
}

/// Writes the fill at each address of the fragments within the stretch;
/// answers how many addresses those are.
fn sweep(
    checked: &CheckedMap,
    fragments: &[Fragment],
    image: &mut [u8],
    first: u64,
    fill: u8,
) -> Result<u64, Refusal> {
    let geometry = &checked.geometry;
    let end = first as u128 + image.len() as u128;
    if end > geometry.disc_size as u128 {
        return Err(Refusal::plain(16));
    }
    // From here on every address is at most disc_size.
    let end = end as u64;
    let mut count = 0;
    for fragment in fragments {
        let disc_bit = geometry.disc_bit(fragment.zone, fragment.start) as u64;
        let from = disc_bit * geometry.bytes_per_map_bit;
        let to = (disc_bit + fragment.length as u64) * geometry.bytes_per_map_bit;
        for address in from.max(first)..to.min(end) {
            image[(address - first) as usize] = fill;
            count += 1;
        }
    }
    Ok(count)
}
