//! A safe function around each of the library's. Every unsafe call of this
//! package is here.
//!
//! The header asks two things of a caller. Each pointer must be valid for its
//! length, and non-null and aligned where the length is 0: the pointer and
//! length of a slice are always so, and the numbers to be answered are local
//! variables. And nothing that is written may overlap anything else handed in:
//! a `&mut` slice overlaps no other slice that is borrowed at the same time.
//! The library keeps no pointer, so no borrow is used after its call. It has no
//! state and does not unwind, so calls may run on many threads at once.

use crate::declared::*;
use crate::{Choice, Claimed, CopyAddresses, Geometry, Location, MapCopy, Reason, Refusal};

/// Makes a call that answers a value and a zone: the value where its refusal
/// number is 0, and else the refusal.
fn answered<T: Default>(call: impl FnOnce(&mut T, &mut u32) -> u32) -> Result<T, Refusal> {
    let (mut value, mut zone) = (T::default(), 0);
    let number = call(&mut value, &mut zone);
    if number == 0 {
        return Ok(value);
    }
    let reason = Reason::from_number(number);
    Err(Refusal { reason, zone })
}

/// The same of a call that answers how many: pairs of entries or positions that it
/// wrote, or bytes.
fn count(call: impl FnOnce(&mut u64, &mut u32) -> u32) -> Result<usize, Refusal> {
    answered(call).map(|count| count as usize)
}

/// Checks a map. Refused: 1 to 7, as in every other call.
pub fn check(map: &[u8]) -> Result<(), Refusal> {
    let (bytes, length) = (map.as_ptr(), map.len());
    // SAFETY: the map is only read.
    answered(|(), zone| unsafe { shoalswift_check(bytes, length, zone) })
}

/// Checks a map and answers its geometry. Refused as `check`.
pub fn geometry(map: &[u8]) -> Result<Geometry, Refusal> {
    let (bytes, length) = (map.as_ptr(), map.len());
    // SAFETY: the map is only read.
    answered(|g: &mut Geometry, zone| unsafe {
        let (sector, unit, zones) = (&mut g.sector, &mut g.unit, &mut g.zones);
        let (ids, size) = (&mut g.ids, &mut g.disc_size);
        shoalswift_geometry(bytes, length, sector, unit, zones, ids, size, zone)
    })
}

/// Writes an object's pieces in object order, a pair of entries for each
/// fragment, and answers how many pairs. Refused further: 8, 10, 17.
pub fn list(map: &[u8], id: u32, list: &mut [u32]) -> Result<usize, Refusal> {
    let (bytes, length) = (map.as_ptr(), map.len());
    let (room, entries) = (list.as_mut_ptr(), list.len());
    // SAFETY: the map is only read; the list is borrowed by this call alone.
    count(|n, zone| unsafe { shoalswift_list(bytes, length, id, room, entries, n, zone) })
}

/// Writes the free spans, ascending, a pair of entries for each free fragment,
/// and answers how many pairs. Refused further: 17.
pub fn free(map: &[u8], list: &mut [u32]) -> Result<usize, Refusal> {
    let (bytes, length) = (map.as_ptr(), map.len());
    let (room, entries) = (list.as_mut_ptr(), list.len());
    // SAFETY: the map is only read; the list is borrowed by this call alone.
    count(|n, zone| unsafe { shoalswift_free(bytes, length, room, entries, n, zone) })
}

/// Where a byte of the file with internal number `n` lies, and how many bytes
/// can be read there. The file goes on at `position + run`, or that is refused
/// with 16. Refused further: 8, on an E+ disc whatever `n` is; 10, 16.
pub fn address(map: &[u8], n: u32, position: u64) -> Result<Location, Refusal> {
    let (bytes, length) = (map.as_ptr(), map.len());
    // SAFETY: the map is only read.
    answered(|found: &mut Location, zone| unsafe {
        let (at, run) = (&mut found.address, &mut found.run);
        shoalswift_address(bytes, length, n, position, at, run, zone)
    })
}

/// Writes `fill` at each address of an object within a stretch of image that
/// starts at disc address `first`, and answers how many these are.
/// Refused further: 8, 10, 16.
pub fn sweep_object(
    map: &[u8],
    image: &mut [u8],
    first: u64,
    fill: u8,
    id: u32,
) -> Result<u64, Refusal> {
    let (bytes, length) = (map.as_ptr(), map.len());
    let (to, n) = (image.as_mut_ptr(), image.len());
    // SAFETY: the map is only read; the image is borrowed by this call alone.
    answered(|count, zone| unsafe {
        shoalswift_sweep_object(bytes, length, to, n, first, fill, id, count, zone)
    })
}

/// Writes `fill` at each free address within a stretch of image that starts at
/// disc address `first`, and answers how many these are. Refused further: 16.
pub fn sweep_free(map: &[u8], image: &mut [u8], first: u64, fill: u8) -> Result<u64, Refusal> {
    let (bytes, length) = (map.as_ptr(), map.len());
    let (to, n) = (image.as_mut_ptr(), image.len());
    // SAFETY: the map is only read; the image is borrowed by this call alone.
    answered(|count, zone| unsafe {
        shoalswift_sweep_free(bytes, length, to, n, first, fill, count, zone)
    })
}

/// Frees the fragments of an ordinary object, writes its pieces in object order
/// and answers how many pairs. Refused further: 8, 9, 10, 17.
pub fn release(map: &mut [u8], id: u32, list: &mut [u32]) -> Result<usize, Refusal> {
    let (bytes, length) = (map.as_mut_ptr(), map.len());
    let (room, entries) = (list.as_mut_ptr(), list.len());
    // SAFETY: map and list are each borrowed by this call alone.
    count(|n, zone| unsafe { shoalswift_release(bytes, length, id, room, entries, n, zone) })
}

/// Gives the listed pieces to an id that is not on the map. The list is read to
/// its end. Refused further: 8, 9, 11, 12, 13.
pub fn place(map: &mut [u8], id: u32, list: &[u32]) -> Result<(), Refusal> {
    let (bytes, length) = (map.as_mut_ptr(), map.len());
    let (pieces, entries) = (list.as_ptr(), list.len());
    // SAFETY: the map is borrowed by this call alone; the list is only read.
    answered(|(), zone| unsafe { shoalswift_place(bytes, length, id, pieces, entries, zone) })
}

/// Gives room for `size` bytes to an unused id, writes its pieces in object order
/// and answers the id and how many pairs. One hole that is long enough is taken if
/// there is one; zones are tried from zone `parent` on: that one, the one below it,
/// the one above it, two below and so on. If there is none, several holes are
/// taken, the largest first. The id is the lowest unused one whose start zone is
/// that of the first hole taken, or if that has none left the lowest unused one.
/// Refused further: 9, 12 (0 bytes, or no such parent zone), 15, 17.
pub fn claim(
    map: &mut [u8],
    size: u64,
    parent: u32,
    list: &mut [u32],
) -> Result<Claimed, Refusal> {
    let (bytes, length) = (map.as_mut_ptr(), map.len());
    let (room, entries) = (list.as_mut_ptr(), list.len());
    let mut id = 0;
    // SAFETY: map and list are each borrowed by this call alone.
    let pairs = count(|n, zone| unsafe {
        shoalswift_claim(
            bytes, length, size, parent, room, entries, &mut id, n, zone,
        )
    })?;
    Ok(Claimed { id, pairs })
}

/// Chooses of the two copies of a disc's map the one that is an accepted map:
/// the first if it is accepted, else the second. Refused, as the first is, where
/// neither is: 1 to 7. Whether they are equal is told in any case.
pub fn choose_copy<'a>(first: &'a [u8], second: &'a [u8]) -> Choice<'a> {
    let (one, one_length) = (first.as_ptr(), first.len());
    let (two, two_length) = (second.as_ptr(), second.len());
    let mut equal = 0;
    // SAFETY: both copies are only read.
    let which = answered(|which: &mut u32, zone| unsafe {
        shoalswift_choose_copy(one, one_length, two, two_length, which, &mut equal, zone)
    });
    let accepted = which.map(|which| match which {
        1 => MapCopy::First(first),
        _ => MapCopy::Second(second),
    });
    Choice {
        accepted,
        equal: equal == 1,
    }
}

/// Writes an accepted map over another copy, whatever that holds. Refused: the
/// source's 1 to 7, then 1 where the lengths differ.
pub fn copy_over(source: &[u8], target: &mut [u8]) -> Result<(), Refusal> {
    let (bytes, length) = (source.as_ptr(), source.len());
    let (to, room) = (target.as_mut_ptr(), target.len());
    // SAFETY: the source is only read; the target is borrowed by this call alone.
    answered(|(), zone| unsafe { shoalswift_copy_over(bytes, length, to, room, zone) })
}

/// The disc addresses of an accepted map's two copies. Refused as `check`.
pub fn copy_addresses(map: &[u8]) -> Result<CopyAddresses, Refusal> {
    let (bytes, length) = (map.as_ptr(), map.len());
    // SAFETY: the map is only read.
    answered(|at: &mut CopyAddresses, zone| unsafe {
        let (first, second) = (&mut at.first, &mut at.second);
        shoalswift_copy_addresses(bytes, length, first, second, zone)
    })
}

/// Mends a map that is right but for zone checks, cross checks and free fragments
/// that touch: joins the touching free fragments of each zone, sets zone 0's cross
/// check so that all give 255, and sets every zone check. The map is then accepted,
/// and no edit refuses it with 9. Refused as `check` would with 3 and 4 ignored:
/// 1, 2, 5, 6, 7.
pub fn mend(map: &mut [u8]) -> Result<(), Refusal> {
    let (bytes, length) = (map.as_mut_ptr(), map.len());
    // SAFETY: the map is borrowed by this call alone.
    answered(|(), zone| unsafe { shoalswift_mend(bytes, length, zone) })
}

/// Writes the positions of the bytes that `mend` would change, ascending, an entry
/// for each, and answers how many. Refused as `mend`, further: 17.
pub fn mend_positions(map: &[u8], list: &mut [u32]) -> Result<usize, Refusal> {
    let (bytes, length) = (map.as_ptr(), map.len());
    let (room, entries) = (list.as_mut_ptr(), list.len());
    // SAFETY: the map is only read; the list is borrowed by this call alone.
    count(|n, zone| unsafe {
        shoalswift_mend_positions(bytes, length, room, entries, n, zone)
    })
}

/// Draws the map of a blank disc, whatever the buffer holds. `log2secsize` is 8 to
/// 10, `idlen` `log2secsize` + 3 to 15; `capacity` is the disc's bytes, a multiple
/// of the sector, up to 999 Mbytes (of 1,048,576 bytes). Object 2 has room for two
/// copies of the map, and for no root directory. The map is then accepted, and all
/// of the disc but object 2 is free. Refused: 2 where there is no such disc, or
/// none whose map can be drawn; then 1 where the buffer is not as long as
/// `format_length` tells.
pub fn format(
    log2secsize: u32,
    capacity: u64,
    idlen: u32,
    map: &mut [u8],
) -> Result<(), Refusal> {
    let (bytes, length) = (map.as_mut_ptr(), map.len());
    // SAFETY: the map is borrowed by this call alone.
    answered(|(), zone| unsafe {
        shoalswift_format(log2secsize, capacity, idlen, bytes, length, zone)
    })
}

/// The length of the map that `format` wants for such a disc. Refused: 2.
pub fn format_length(log2secsize: u32, capacity: u64, idlen: u32) -> Result<usize, Refusal> {
    // SAFETY: only the two numbers to be answered are written.
    count(|n, zone| unsafe {
        shoalswift_format_length(log2secsize, capacity, idlen, n, zone)
    })
}
