//! The check of a whole map: refusals 1 to 7 in their order, and the
//! fragments of each zone (document 01, "Bits, fragments, chains",
//! "Zone check and cross check", "Numbered refusals").

use crate::geometry::{reserved_bytes_are_0, DiscRecord, Edition, Geometry};
use crate::Refusal;

/// Who has a fragment: nobody, if it is on its zone's chain, or an object.
#[derive(Clone, Copy, Debug, PartialEq, Eq)]
pub enum Owner {
    Free,
    Object(u32),
}

/// One fragment of a zone. Its length is all its bits.
#[derive(Clone, Copy, Debug, PartialEq, Eq)]
pub struct Fragment {
    pub zone: usize,
    /// The block bit where it starts.
    pub start: usize,
    pub length: usize,
    pub owner: Owner,
}

impl Fragment {
    /// The block bit after its closing bit.
    pub fn end(&self) -> usize {
        self.start + self.length
    }
}

/// An accepted map, or one that is right but for its checks: its geometry and the
/// fragments of each zone, ascending.
#[derive(Clone, Debug, PartialEq, Eq)]
pub struct CheckedMap {
    pub geometry: Geometry,
    pub zones: Vec<Vec<Fragment>>,
}

impl CheckedMap {
    /// All fragments, ascending by disc bit.
    pub fn fragments(&self) -> Vec<Fragment> {
        self.zones.concat()
    }

    /// The fragments of an object in object order; none where it is absent.
    pub fn object(&self, id: u32) -> Result<Vec<Fragment>, Refusal> {
        let mut pieces = Vec::new();
        for zone in self.geometry.zones_in_object_order(id)? {
            for fragment in &self.zones[zone] {
                if fragment.owner == Owner::Object(id) {
                    pieces.push(*fragment);
                }
            }
        }
        Ok(pieces)
    }

    /// The pieces of an object that touch its next one, each with that one: it starts
    /// with the next disc bit, in the same zone or across the zone's end.
    pub fn touching_pieces(&self, id: u32) -> Result<Vec<(Fragment, Fragment)>, Refusal> {
        let disc_bit = |zone, block_bit| self.geometry.disc_bit(zone, block_bit);
        let mut touching = Vec::new();
        for two in self.object(id)?.windows(2) {
            let (piece, next) = (two[0], two[1]);
            if disc_bit(piece.zone, piece.end()) == disc_bit(next.zone, next.start) {
                touching.push((piece, next));
            }
        }
        Ok(touching)
    }

    /// The free fragments, ascending by disc bit.
    pub fn free(&self) -> Vec<Fragment> {
        let mut spans = self.fragments();
        spans.retain(|fragment| fragment.owner == Owner::Free);
        spans
    }

    /// A fragment as a pair: disc bit, length in map bits.
    pub fn pair(&self, fragment: &Fragment) -> (u32, u32) {
        let disc_bit = self.geometry.disc_bit(fragment.zone, fragment.start);
        (disc_bit as u32, fragment.length as u32)
    }
}

/// Bit 0 of a block is the lowest bit of its first byte.
pub fn bit(block: &[u8], block_bit: usize) -> bool {
    block[block_bit / 8] >> (block_bit % 8) & 1 == 1
}

/// Writes one bit of a block.
pub fn set_bit(block: &mut [u8], block_bit: usize, value: bool) {
    let mask = 1 << (block_bit % 8);
    if value {
        block[block_bit / 8] |= mask;
    } else {
        block[block_bit / 8] &= !mask;
    }
}

/// A number written lowest bit first.
pub fn number(block: &[u8], start: usize, bits: usize) -> usize {
    let mut value = 0;
    for i in 0..bits {
        if bit(block, start + i) {
            value |= 1 << i;
        }
    }
    value
}

/// Writes a number lowest bit first.
pub fn set_number(block: &mut [u8], start: usize, bits: usize, value: usize) {
    for i in 0..bits {
        set_bit(block, start + i, value >> i & 1 == 1);
    }
}

/// The zone check by 32-bit words, from the last word down to word 0.
pub fn zone_check_by_words(block: &[u8]) -> u8 {
    let mut sum: u64 = 0;
    let mut carry: u64 = 0;
    for index in (0..block.len() / 4).rev() {
        let mut bytes = [0; 4];
        bytes.copy_from_slice(&block[4 * index..4 * index + 4]);
        if index == 0 {
            // The check byte counts as 0.
            bytes[0] = 0;
        }
        let total = sum + u32::from_le_bytes(bytes) as u64 + carry;
        sum = total & 0xFFFF_FFFF;
        carry = total >> 32;
    }
    // The carry out of word 0 is dropped.
    let [a, b, c, d] = (sum as u32).to_le_bytes();
    a ^ b ^ c ^ d
}

/// The zone check by four byte columns, as source document 000 has it in C.
pub fn zone_check_by_columns(block: &[u8]) -> u8 {
    let mut column = [0u32; 4];
    let mut rover = block.len() - 4;
    while rover > 0 {
        column[0] += block[rover] as u32 + (column[3] >> 8);
        column[3] &= 0xFF;
        column[1] += block[rover + 1] as u32 + (column[0] >> 8);
        column[0] &= 0xFF;
        column[2] += block[rover + 2] as u32 + (column[1] >> 8);
        column[1] &= 0xFF;
        column[3] += block[rover + 3] as u32 + (column[2] >> 8);
        column[2] &= 0xFF;
        rover -= 4;
    }
    // The check byte is not added when its value is worked out.
    column[0] += column[3] >> 8;
    column[1] += block[1] as u32 + (column[0] >> 8);
    column[2] += block[2] as u32 + (column[1] >> 8);
    column[3] += block[3] as u32 + (column[2] >> 8);
    ((column[0] ^ column[1] ^ column[2] ^ column[3]) & 0xFF) as u8
}

/// A zone's block: its own stretch of the map.
pub fn block(map: &[u8], sector_size: usize, zone: usize) -> &[u8] {
    &map[zone * sector_size..(zone + 1) * sector_size]
}

/// A zone's block, to be written.
pub fn block_mut(map: &mut [u8], sector_size: usize, zone: usize) -> &mut [u8] {
    &mut map[zone * sector_size..(zone + 1) * sector_size]
}

/// Checks a map. Order: 1 (under 64), 2, 1, 3 over all zones, 4; then zone by
/// zone 6, 5, 7.
pub fn check(map: &[u8]) -> Result<CheckedMap, Refusal> {
    check_blocks(accepted_record(map)?, map)
}

/// Checks a map with 3 and 4 ignored (R-9 of document 02): 1 (under 64), 2, 1; then
/// zone by zone 6, 5, 7. That free fragments touch is no matter to either check.
pub fn check_but_for_checks(map: &[u8]) -> Result<CheckedMap, Refusal> {
    let geometry = accepted_record(map)?;
    has_length_of(&geometry, map)?;
    fragments_of(geometry, map)
}

/// The geometry of a map whose record is accepted: refusals 1 (under 64) and 2.
fn accepted_record(map: &[u8]) -> Result<Geometry, Refusal> {
    if map.len() < 64 {
        return Err(Refusal::plain(1));
    }
    let geometry = match Geometry::accept(&DiscRecord::read(map)) {
        Some(geometry) => geometry,
        None => return Err(Refusal::plain(2)),
    };
    if geometry.edition == Edition::E && !reserved_bytes_are_0(map) {
        return Err(Refusal::plain(2));
    }
    Ok(geometry)
}

/// Whether nothing but the reserved bytes after the disc record is wrong with a
/// map, so that only R-7 of document 02 refuses it. The version's bytes are such
/// bytes no longer: a record without version 0 is another matter.
pub fn only_reserved_bytes_are_wrong(map: &[u8]) -> bool {
    if map.len() < 64 || reserved_bytes_are_0(map) {
        return false;
    }
    let geometry = Geometry::accept(&DiscRecord::read(map));
    geometry.is_some_and(|geometry| {
        geometry.edition == Edition::E && check_blocks(geometry, map).is_ok()
    })
}

/// Checks a map whose record was accepted, from its length on.
fn check_blocks(geometry: Geometry, map: &[u8]) -> Result<CheckedMap, Refusal> {
    has_length_of(&geometry, map)?;
    checks_are_right(&geometry, map)?;
    fragments_of(geometry, map)
}

/// The length of a map whose record was accepted (refusal 1).
fn has_length_of(geometry: &Geometry, map: &[u8]) -> Result<(), Refusal> {
    if map.len() != geometry.nzones * geometry.sector_size {
        return Err(Refusal::plain(1));
    }
    Ok(())
}

/// The zone checks and the cross checks (refusals 3 and 4).
fn checks_are_right(geometry: &Geometry, map: &[u8]) -> Result<(), Refusal> {
    let mut cross_check = 0;
    for zone in 0..geometry.nzones {
        let block = block(map, geometry.sector_size, zone);
        if block[0] != zone_check_by_words(block) {
            return Err(Refusal::in_zone(3, zone));
        }
        cross_check ^= block[3];
    }
    if cross_check != 255 {
        return Err(Refusal::plain(4));
    }
    Ok(())
}

/// The fragments of all zones, zone by zone (refusals 6, 5 and 7).
fn fragments_of(geometry: Geometry, map: &[u8]) -> Result<CheckedMap, Refusal> {
    let mut zones = Vec::new();
    for zone in 0..geometry.nzones {
        let block = block(map, geometry.sector_size, zone);
        let mut fragments = walk(&geometry, zone, block)?;
        mark_free(&geometry, zone, block, &mut fragments)?;
        judge_owners(&geometry, zone, &fragments)?;
        zones.push(fragments);
    }
    Ok(CheckedMap { geometry, zones })
}

/// The fragments of a zone, all owned by their id as yet (refusal 6).
fn walk(geometry: &Geometry, zone: usize, block: &[u8]) -> Result<Vec<Fragment>, Refusal> {
    let end = geometry.end_block_bit();
    let mut fragments = Vec::new();
    let mut start = geometry.first_block_bit(zone);
    while start < end {
        if end - start < geometry.idlen + 1 {
            return Err(Refusal::in_zone(6, zone));
        }
        let id = number(block, start, geometry.idlen);
        let mut closing = start + geometry.idlen;
        while closing < end && !bit(block, closing) {
            closing += 1;
        }
        if closing == end {
            return Err(Refusal::in_zone(6, zone));
        }
        let length = closing + 1 - start;
        if length % geometry.cluster_bits != 0 {
            return Err(Refusal::in_zone(6, zone));
        }
        fragments.push(Fragment {
            zone,
            start,
            length,
            owner: Owner::Object(id as u32),
        });
        start += length;
    }
    Ok(fragments)
}

/// Follows the chain of a zone and marks its fragments free (refusal 5).
fn mark_free(
    geometry: &Geometry,
    zone: usize,
    block: &[u8],
    fragments: &mut [Fragment],
) -> Result<(), Refusal> {
    let free_link = u16::from_le_bytes([block[1], block[2]]);
    if free_link & 0x8000 == 0 {
        return Err(Refusal::in_zone(5, zone));
    }
    // FreeLink counts from block bit 8, a free fragment's id from its start.
    let mut from = 8;
    let mut link = (free_link & 0x7FFF) as usize;
    while link != 0 {
        let target = from + link;
        match fragments.iter_mut().find(|f| f.start == target) {
            Some(fragment) => fragment.owner = Owner::Free,
            None => return Err(Refusal::in_zone(5, zone)),
        }
        from = target;
        link = number(block, target, geometry.idlen);
    }
    Ok(())
}

/// The id, object 2 and disc-end rules of a zone (refusal 7).
fn judge_owners(geometry: &Geometry, zone: usize, fragments: &[Fragment]) -> Result<(), Refusal> {
    for fragment in fragments {
        if let Owner::Object(id) = fragment.owner {
            if id < 1 || id as usize >= geometry.ids() {
                return Err(Refusal::in_zone(7, zone));
            }
        }
        let last_disc_bit = geometry.disc_bit(zone, fragment.end() - 1);
        if last_disc_bit >= geometry.disc_end_bit() && fragment.owner != Owner::Object(1) {
            return Err(Refusal::in_zone(7, zone));
        }
    }
    if zone == geometry.middle_zone() && fragments[0].owner != Owner::Object(2) {
        return Err(Refusal::in_zone(7, zone));
    }
    Ok(())
}

/// Writes a zone's fragments and its chain: every allocation bit and
/// FreeLink, and nothing else. The fragments fill the zone, ascending.
pub fn write_fragments(geometry: &Geometry, block: &mut [u8], fragments: &[Fragment]) {
    let free: Vec<usize> = fragments
        .iter()
        .filter(|fragment| fragment.owner == Owner::Free)
        .map(|fragment| fragment.start)
        .collect();

    let free_link = match free.first() {
        Some(start) => start - 8,
        None => 0,
    };
    block[1..3].copy_from_slice(&(0x8000 | free_link as u16).to_le_bytes());

    for fragment in fragments {
        let id = match fragment.owner {
            Owner::Object(id) => id as usize,
            Owner::Free => match free.iter().find(|start| **start > fragment.start) {
                Some(next) => next - fragment.start,
                None => 0,
            },
        };
        for block_bit in fragment.start..fragment.end() {
            set_bit(block, block_bit, false);
        }
        set_number(block, fragment.start, geometry.idlen, id);
        set_bit(block, fragment.end() - 1, true);
    }
}
