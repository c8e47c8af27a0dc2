//! The sweep written plainly: check the map, then walk it again and fill what
//! is free. Bits are read one by one.

use crate::record::Record;
use crate::Refusal;

/// Writes the fill to every byte of the image that lies on a free map bit;
/// answers how many those are. The image is the stretch of disc from `first`.
pub fn sweep_free(map: &[u8], image: &mut [u8], first: u64, fill: u8) -> Result<u64, Refusal> {
    let record = Record::read(map)?;
    check_blocks(&record, map)?;
    check_zones(&record, map)?;
    record.stretch_end(first, image.len())?;

    let mut count = 0;
    for (zone, block) in map.chunks_exact(record.sector_size).enumerate() {
        count += sweep_zone(&record, zone, block, image, first, fill);
    }
    Ok(count)
}

/// The zone checks, then the cross checks (refusals 3 and 4).
fn check_blocks(record: &Record, map: &[u8]) -> Result<(), Refusal> {
    let mut cross = 0;
    for (zone, block) in map.chunks_exact(record.sector_size).enumerate() {
        if zone_check(block) != block[0] {
            return Err((3, zone as u32));
        }
        cross ^= block[3];
    }
    if cross != 255 {
        return Err((4, 0));
    }
    Ok(())
}

/// The check byte of a block: its words are added from the last to the first,
/// each with the carry of the addition before.
pub(crate) fn zone_check(block: &[u8]) -> u8 {
    let mut sum = 0u32;
    let mut carry = false;
    for word in block[4..].rchunks_exact(4) {
        let word = u32::from_le_bytes([word[0], word[1], word[2], word[3]]);
        let total = sum as u64 + word as u64 + carry as u64;
        sum = total as u32;
        carry = total >> 32 != 0;
    }
    // In word 0 the check byte counts as 0, and the carry is dropped.
    let word = u32::from_le_bytes([0, block[1], block[2], block[3]]);
    let [a, b, c, d] = sum
        .wrapping_add(word)
        .wrapping_add(carry as u32)
        .to_le_bytes();
    a ^ b ^ c ^ d
}

/// Zone by zone the fragments, the chain and the owners (refusals 6, 5, 7).
fn check_zones(record: &Record, map: &[u8]) -> Result<(), Refusal> {
    for (zone, block) in map.chunks_exact(record.sector_size).enumerate() {
        check_zone(record, zone, block).map_err(|number| (number, zone as u32))?;
    }
    Ok(())
}

/// Checks one zone; a refusal's number where it is wrong.
fn check_zone(record: &Record, zone: usize, block: &[u8]) -> Result<(), u32> {
    let mut fragments = Fragments::new(record, zone, block);
    let mut owners_right = true;
    while let Some(fragment) = fragments.next_fragment()? {
        owners_right &= owner_allowed(record, zone, &fragment);
    }
    // A link that landed on a fragment's start is no longer awaited.
    let top_bit = block[2] & 0x80 != 0;
    if !top_bit || fragments.next_free.is_some() {
        return Err(5);
    }
    if !owners_right {
        return Err(7);
    }
    Ok(())
}

/// The rules of ids, of object 2 and of the disc's end.
fn owner_allowed(record: &Record, zone: usize, fragment: &Fragment) -> bool {
    let id_allowed = match fragment.owner {
        Some(id) => id >= 1 && id < record.ids,
        None => true,
    };
    let must_be_2 = zone == record.nzones / 2 && fragment.start == record.first_bit(zone);
    let must_be_1 = record.disc_bit(zone, fragment.end) > record.disc_end();
    id_allowed
        && (!must_be_2 || fragment.owner == Some(2))
        && (!must_be_1 || fragment.owner == Some(1))
}

/// Fills the free fragments of an accepted zone; answers how many bytes.
fn sweep_zone(
    record: &Record,
    zone: usize,
    block: &[u8],
    image: &mut [u8],
    first: u64,
    fill: u8,
) -> u64 {
    let mut count = 0;
    let mut fragments = Fragments::new(record, zone, block);
    while let Ok(Some(fragment)) = fragments.next_fragment() {
        if fragment.owner.is_none() {
            let from = (record.disc_bit(zone, fragment.start) as u64) << record.log2bpmb;
            let to = (record.disc_bit(zone, fragment.end) as u64) << record.log2bpmb;
            count += fill_addresses(image, first, from, to, fill);
        }
    }
    count
}

/// Fills the disc addresses `from` to `to` as far as the image has them.
fn fill_addresses(image: &mut [u8], first: u64, from: u64, to: u64, fill: u8) -> u64 {
    let within = |address: u64| address.saturating_sub(first).min(image.len() as u64) as usize;
    let (from, to) = (within(from), within(to));
    image[from..to].fill(fill);
    (to - from) as u64
}

/// A fragment, from its first block bit to the one after its closing bit.
struct Fragment {
    start: usize,
    end: usize,
    /// The object's id; none where it is free.
    owner: Option<usize>,
}

/// Walks the fragments of a zone, and the chain of free ones along with them.
struct Fragments<'a> {
    block: &'a [u8],
    idlen: usize,
    cluster_bits: usize,
    /// Where the next fragment starts, and where the zone ends.
    start: usize,
    end: usize,
    /// Where the next free fragment must start; none at the chain's end.
    next_free: Option<usize>,
}

impl<'a> Fragments<'a> {
    fn new(record: &Record, zone: usize, block: &'a [u8]) -> Fragments<'a> {
        let free_link = u16::from_le_bytes([block[1], block[2]]) & 0x7FFF;
        Fragments {
            block,
            idlen: record.idlen,
            cluster_bits: record.cluster_bits,
            start: record.first_bit(zone),
            end: record.end_bit(),
            next_free: link_target(8, free_link as usize),
        }
    }

    /// The next fragment, none at the zone's end, or refusal 6.
    fn next_fragment(&mut self) -> Result<Option<Fragment>, u32> {
        let start = self.start;
        if start == self.end {
            return Ok(None);
        }
        if self.end - start < self.idlen + 1 {
            return Err(6);
        }
        let id = number(self.block, start, self.idlen);
        let closing = (start + self.idlen..self.end).find(|&at| bit(self.block, at));
        let end = closing.ok_or(6u32)? + 1;
        if (end - start) % self.cluster_bits != 0 {
            return Err(6);
        }

        self.start = end;
        let mut owner = Some(id);
        if self.next_free == Some(start) {
            self.next_free = link_target(start, id);
            owner = None;
        }
        Ok(Some(Fragment { start, end, owner }))
    }
}

/// Where a link leads that counts from a block bit; a link of 0 ends the chain.
fn link_target(from: usize, link: usize) -> Option<usize> {
    (link != 0).then_some(from + link)
}

/// A number of so many bits, the lowest first.
fn number(block: &[u8], start: usize, bits: usize) -> usize {
    let mut value = 0;
    for index in 0..bits {
        value |= (bit(block, start + index) as usize) << index;
    }
    value
}

/// Bit 0 of a block is the lowest bit of its first byte.
fn bit(block: &[u8], at: usize) -> bool {
    block[at / 8] >> (at % 8) & 1 == 1
}
