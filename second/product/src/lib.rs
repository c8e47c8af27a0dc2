//! The product's calls, each made from a case. No call allocates here, so that
//! it can be timed and its stack measured.

#[path = "../../../rust/src/declared.rs"]
mod declared;
mod opened;

use declared::*;
use reference::case::{Call, Case};

/// The refusal's number and zone, and up to two values; 0 where the call has fewer.
#[derive(Clone, Copy, Debug, PartialEq, Eq)]
pub struct Answer {
    pub number: u32,
    pub zone: u32,
    pub values: [u64; 2],
}

/// What every number lent holds before a call, which must write them all.
const UNWRITTEN: u64 = 0xDEAD_BEEF_DEAD_BEEF;

/// The functions of one version of the product that are made on one map. As `LINKED`
/// is made of those declared, the compiler sees that the types are today's. An
/// earlier version with other signatures cannot be compared; of address, claim, the two
/// that mend and the two that format see `opened`.
/// Those on two copies (R-5 of document 02) are none of these, as they are not timed
/// and earlier versions have none.
#[derive(Clone, Copy)]
pub struct Calls {
    check: unsafe extern "C" fn(*const u8, usize, *mut u32) -> u32,
    list: unsafe extern "C" fn(*const u8, usize, u32, *mut u32, usize, *mut u64, *mut u32) -> u32,
    free: unsafe extern "C" fn(*const u8, usize, *mut u32, usize, *mut u64, *mut u32) -> u32,
    address: unsafe extern "C" fn(*const u8, usize, u32, u64, *mut u64, *mut u64, *mut u32) -> u32,
    sweep_object: unsafe extern "C" fn(
        *const u8,
        usize,
        *mut u8,
        usize,
        u64,
        u8,
        u32,
        *mut u64,
        *mut u32,
    ) -> u32,
    sweep_free:
        unsafe extern "C" fn(*const u8, usize, *mut u8, usize, u64, u8, *mut u64, *mut u32) -> u32,
    release: unsafe extern "C" fn(*mut u8, usize, u32, *mut u32, usize, *mut u64, *mut u32) -> u32,
    place: unsafe extern "C" fn(*mut u8, usize, u32, *const u32, usize, *mut u32) -> u32,
    claim: unsafe extern "C" fn(
        *mut u8,
        usize,
        u64,
        u32,
        *mut u32,
        usize,
        *mut u32,
        *mut u64,
        *mut u32,
    ) -> u32,
    mend: unsafe extern "C" fn(*mut u8, usize, *mut u32) -> u32,
    mend_positions:
        unsafe extern "C" fn(*const u8, usize, *mut u32, usize, *mut u64, *mut u32) -> u32,
    format: unsafe extern "C" fn(u32, u64, u32, *mut u8, usize, *mut u32) -> u32,
    format_length: unsafe extern "C" fn(u32, u64, u32, *mut u64, *mut u32) -> u32,
}

impl Calls {
    /// The product as it is linked.
    pub const LINKED: Calls = Calls {
        check: shoalswift_check,
        list: shoalswift_list,
        free: shoalswift_free,
        address: shoalswift_address,
        sweep_object: shoalswift_sweep_object,
        sweep_free: shoalswift_sweep_free,
        release: shoalswift_release,
        place: shoalswift_place,
        claim: shoalswift_claim,
        mend: shoalswift_mend,
        mend_positions: shoalswift_mend_positions,
        format: shoalswift_format,
        format_length: shoalswift_format_length,
    };

    /// Makes a case's call, one on one map, on the bytes and entries lent in place of
    /// its own. Inlined, so that the frame which hands the arguments over is one.
    #[inline(always)]
    pub fn call(&self, case: &Case, map: &mut [u8], list: &mut [u32], image: &mut [u8]) -> Answer {
        let (map, map_len) = (map.as_mut_ptr(), map.len());
        let (list, list_len) = (list.as_mut_ptr(), list.len());
        let (image, image_len) = (image.as_mut_ptr(), image.len());
        let (wide, fill, id) = (case.wide, case.fill, case.number);
        let parent = case.number;
        let (log2secsize, idlen) = (case.number, case.idlen);
        let (mut zone, mut value, mut run) = (UNWRITTEN as u32, UNWRITTEN, UNWRITTEN);
        let mut new = zone;
        let (z, v, n) = (&mut zone, &mut value, &mut new);
        // SAFETY: the functions have these types; each pointer and length are a
        // slice's borrowed by this function alone, or point to a local number.
        let number = unsafe {
            match case.call {
                Call::Check => (self.check)(map, map_len, z),
                Call::List => (self.list)(map, map_len, id, list, list_len, v, z),
                Call::Free => (self.free)(map, map_len, list, list_len, v, z),
                Call::Address => (self.address)(map, map_len, id, wide, v, &mut run, z),
                Call::SweepObject => {
                    (self.sweep_object)(map, map_len, image, image_len, wide, fill, id, v, z)
                }
                Call::SweepFree => {
                    (self.sweep_free)(map, map_len, image, image_len, wide, fill, v, z)
                }
                Call::Release => (self.release)(map, map_len, id, list, list_len, v, z),
                Call::Place => (self.place)(map, map_len, id, list, list_len, z),
                Call::Claim => (self.claim)(map, map_len, wide, parent, list, list_len, n, v, z),
                Call::Mend => (self.mend)(map, map_len, z),
                Call::MendPositions => (self.mend_positions)(map, map_len, list, list_len, v, z),
                Call::Format => (self.format)(log2secsize, wide, idlen, map, map_len, z),
                Call::FormatLength => (self.format_length)(log2secsize, wide, idlen, v, z),
                _ => unreachable!("it is made on two copies"),
            }
        };
        Answer {
            number,
            zone,
            values: values(case.call, value, run, new),
        }
    }
}

/// The values of a call on one map, of the numbers lent for them. Inlined too.
#[inline(always)]
fn values(call: Call, value: u64, run: u64, new: u32) -> [u64; 2] {
    match call {
        Call::Claim => [new as u64, value],
        Call::Address => [value, run],
        _ if call.values() == 0 => [0; 2],
        _ => [value, 0],
    }
}

/// Makes a case's call by the linked product, as `Calls::call` does. Of two copies of a
/// map the second or the target is lent in place of the image.
pub fn call(case: &Case, map: &mut [u8], list: &mut [u32], image: &mut [u8]) -> Answer {
    match case.call {
        Call::ChooseCopy | Call::CopyOver | Call::CopyAddresses => {
            call_on_copies(case.call, map, image)
        }
        _ => Calls::LINKED.call(case, map, list, image),
    }
}

/// Makes a call on the first or only copy of a map and the other one. Inlined for the
/// same reason as `Calls::call`.
#[inline(always)]
fn call_on_copies(call: Call, one: &mut [u8], other: &mut [u8]) -> Answer {
    let (one, one_len) = (one.as_mut_ptr(), one.len());
    let (other, other_len) = (other.as_mut_ptr(), other.len());
    let (mut zone, mut first, mut second) = (UNWRITTEN as u32, UNWRITTEN, UNWRITTEN);
    let (mut which, mut equal) = (zone, zone);
    let (w, e, z) = (&mut which, &mut equal, &mut zone);
    // SAFETY: each pointer and length are a slice's borrowed by this function alone,
    // or point to a local number.
    let number = unsafe {
        match call {
            Call::ChooseCopy => shoalswift_choose_copy(one, one_len, other, other_len, w, e, z),
            Call::CopyOver => shoalswift_copy_over(one, one_len, other, other_len, z),
            _ => shoalswift_copy_addresses(one, one_len, &mut first, &mut second, z),
        }
    };
    let values = match call {
        Call::ChooseCopy => [which, equal].map(u64::from),
        Call::CopyOver => [0; 2],
        _ => [first, second],
    };
    Answer {
        number,
        zone,
        values,
    }
}

/// What the check tells of a record: S, B, nzones, P and disc_size.
#[derive(Clone, Copy, Debug, PartialEq, Eq)]
pub struct Told {
    pub number: u32,
    pub zone: u32,
    pub numbers: [u64; 5],
}

/// The geometry of a map.
pub fn geometry(map: &[u8]) -> Told {
    let (bytes, length) = (map.as_ptr(), map.len());
    let (mut zone, mut size) = (UNWRITTEN as u32, UNWRITTEN);
    let (mut sector, mut unit, mut zones, mut ids) = (zone, zone, zone, zone);
    let (s, u, n, p) = (&mut sector, &mut unit, &mut zones, &mut ids);
    // SAFETY: the pointer and length are a slice's, which is only read, and
    // the others point to local numbers.
    let number = unsafe { shoalswift_geometry(bytes, length, s, u, n, p, &mut size, &mut zone) };
    let [sector, unit, zones, ids] = [sector, unit, zones, ids].map(u64::from);
    Told {
        number,
        zone,
        numbers: [sector, unit, zones, ids, size],
    }
}
