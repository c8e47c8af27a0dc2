//! The edits: release, place and claim (document 01, "The calls", and
//! "Zone check and cross check" for the bytes they write; for claim of
//! document 02 too).

use std::cmp::Reverse;
use std::collections::{BTreeMap, BTreeSet};

use crate::geometry::Geometry;
use crate::map::{
    block_mut, check, write_fragments, zone_check_by_words, CheckedMap, Fragment, Owner,
};
use crate::read::{hand_out, present};
use crate::Refusal;

/// What an accepted claim answers: the id, and how many pairs were listed.
#[derive(Clone, Copy, Debug, PartialEq, Eq)]
pub struct Claimed {
    pub id: u32,
    pub pairs: u64,
}

/// Removes all fragments of an object; answers how many pairs were listed.
pub fn release(map: &mut [u8], id: u32, list: &mut [u32]) -> Result<u64, Refusal> {
    let checked = check(map)?;
    checked.geometry.id_from(3, id)?;
    no_free_touch(&checked)?;
    let pieces = present(&checked, id)?;
    let pairs = hand_out(&checked, &pieces, list)?;

    let touched = zones_touched(&pieces);
    for zone in &touched {
        let mut owned = owned_fragments(&checked.zones[*zone]);
        owned.retain(|fragment| fragment.owner != Owner::Object(id));
        rewrite_zone(map, &checked.geometry, *zone, &owned);
    }
    finish(map, &checked.geometry, &touched);
    Ok(pairs)
}

/// Gives the listed pieces to an absent id.
pub fn place(map: &mut [u8], id: u32, list: &[u32]) -> Result<(), Refusal> {
    let checked = check(map)?;
    checked.geometry.id_from(3, id)?;
    no_free_touch(&checked)?;
    if !checked.object(id)?.is_empty() {
        return Err(Refusal::plain(11));
    }
    let pieces = read_pieces(&checked.geometry, id, list)?;
    take(map, &checked, &pieces)
}

/// Gives room for a size in bytes to an unused id: in one piece near a parent zone (R-6
/// of document 02), or else in several (R-8). "The answer becomes a list in object
/// order for the chosen id, so 17 may be given."
pub fn claim(map: &mut [u8], size: u64, parent: u32, list: &mut [u32]) -> Result<Claimed, Refusal> {
    let checked = check(map)?;
    no_free_touch(&checked)?;
    let geometry = &checked.geometry;
    if size == 0 || parent as usize >= geometry.nzones {
        return Err(Refusal::plain(12));
    }

    let used = used_ids(&checked);
    let lowest = lowest_unused_id(geometry, &used).ok_or(Refusal::plain(14))?;

    let need = need(geometry, size);
    let taken = pieces_taken(&checked, need, parent as usize).ok_or(Refusal::plain(15))?;
    // "The id's zone for R-6 is that of the first hole taken", and "only if none is
    // left the lowest unused from 3".
    let id = lowest_unused_id_of(geometry, &used, taken[0].zone).unwrap_or(lowest);
    let pieces = in_object_order(geometry, id, &taken)?;
    let pairs = hand_out(&checked, &pieces, list)?;
    take(map, &checked, &pieces).expect("free bits, and no short leftover");
    Ok(Claimed { id, pairs })
}

/// The size of a claim rounded up to clusters, in map bits, and at least m.
pub fn need(geometry: &Geometry, size: u64) -> u128 {
    let cluster_bytes = geometry.cluster_bits as u128 * geometry.bytes_per_map_bit as u128;
    let clusters = (size as u128 + cluster_bytes - 1) / cluster_bytes;
    let rounded = clusters * geometry.cluster_bits as u128;
    rounded.max(geometry.shortest_fragment as u128)
}

/// What a claim takes of the holes, in the order in which it takes them: of one hole
/// that is long enough, or else of several (R-8 of document 02). "Refusal 15 is then
/// given exactly if all free bits together are fewer than need": nothing.
pub fn pieces_taken(checked: &CheckedMap, need: u128, parent: usize) -> Option<Vec<Fragment>> {
    let geometry = &checked.geometry;
    if let Some(hole) = hole_near(checked, need, parent) {
        return Some(vec![start_of(geometry, &hole, need as usize)]);
    }
    let holes = largest_first(checked);
    let free_bits: usize = holes.iter().map(|hole| hole.length).sum();
    if (free_bits as u128) < need {
        return None;
    }
    Some(starts_of(geometry, &holes, need as usize))
}

/// "holes largest first, the lower disc bit first among equals".
fn largest_first(checked: &CheckedMap) -> Vec<Fragment> {
    let mut holes = checked.free();
    let disc_bit = |hole: &Fragment| checked.geometry.disc_bit(hole.zone, hole.start);
    holes.sort_by_key(|hole| (Reverse(hole.length), disc_bit(hole)));
    holes
}

/// Takes holes in turn: "whole while it's no longer than what remains, then from the
/// start of the last one what remains (at least m)".
fn starts_of(geometry: &Geometry, holes: &[Fragment], need: usize) -> Vec<Fragment> {
    let mut taken = Vec::new();
    let mut remains = need;
    for hole in holes {
        // The one before was as long as what remained, and so the last.
        if remains == 0 {
            break;
        }
        if hole.length <= remains {
            taken.push(*hole);
            remains -= hole.length;
        } else {
            let length = remains.max(geometry.shortest_fragment);
            taken.push(start_of(geometry, hole, length));
            break;
        }
    }
    taken
}

/// So many bits from a hole's start, "or all of it if a leftover of 1 to m-1 bits would
/// result". The hole has that many.
fn start_of(geometry: &Geometry, hole: &Fragment, length: usize) -> Fragment {
    let leftover = hole.length - length;
    if leftover >= 1 && leftover < geometry.shortest_fragment {
        return *hole;
    }
    Fragment { length, ..*hole }
}

/// Pieces as those of an id, in its object order.
fn in_object_order(
    geometry: &Geometry,
    id: u32,
    pieces: &[Fragment],
) -> Result<Vec<Fragment>, Refusal> {
    let mut in_zone = by_zone(pieces);
    let mut ordered = Vec::new();
    for zone in geometry.zones_in_object_order(id)? {
        let mut here = in_zone.remove(&zone).unwrap_or_default();
        here.sort_by_key(|piece| piece.start);
        ordered.extend(here);
    }
    for piece in &mut ordered {
        piece.owner = Owner::Object(id);
    }
    Ok(ordered)
}

/// The first hole of length at least need: zones in the order that a parent zone
/// gives, in each of them holes ascending.
fn hole_near(checked: &CheckedMap, need: u128, parent: usize) -> Option<Fragment> {
    let is_hole =
        |fragment: &&Fragment| fragment.owner == Owner::Free && fragment.length as u128 >= need;
    for zone in checked.geometry.zones_near(parent) {
        if let Some(hole) = checked.zones[zone].iter().find(is_hole) {
            return Some(*hole);
        }
    }
    None
}

/// The ids on the map. They are gathered once, as an E+ disc may have up to 2^19 of
/// them.
fn used_ids(checked: &CheckedMap) -> BTreeSet<u32> {
    let mut used = BTreeSet::new();
    for fragment in checked.fragments() {
        if let Owner::Object(id) = fragment.owner {
            used.insert(id);
        }
    }
    used
}

/// "the lowest unused from 3".
fn lowest_unused_id(geometry: &Geometry, used: &BTreeSet<u32>) -> Option<u32> {
    (3..geometry.ids() as u32).find(|id| !used.contains(id))
}

/// "the lowest unused one from 3 whose start zone is the chosen zone" (R-6 of
/// document 02), which is that of the first hole taken; none where all of them are
/// used.
fn lowest_unused_id_of(geometry: &Geometry, used: &BTreeSet<u32>, zone: usize) -> Option<u32> {
    (3..geometry.ids() as u32)
        .filter(|id| geometry.start_zone(*id) == Ok(zone))
        .find(|id| !used.contains(id))
}

/// Refusal 9: two free fragments of a zone touch.
fn no_free_touch(checked: &CheckedMap) -> Result<(), Refusal> {
    for (zone, fragments) in checked.zones.iter().enumerate() {
        for neighbours in fragments.windows(2) {
            if neighbours[0].owner == Owner::Free && neighbours[1].owner == Owner::Free {
                return Err(Refusal::in_zone(9, zone));
            }
        }
    }
    Ok(())
}

/// Reads the list of a place, which must be right in itself for the id,
/// whatever is on the map (refusal 12).
fn read_pieces(geometry: &Geometry, id: u32, list: &[u32]) -> Result<Vec<Fragment>, Refusal> {
    let refused = Err(Refusal::plain(12));
    if list.is_empty() || list.len() % 2 != 0 {
        return refused;
    }
    let mut pieces: Vec<Fragment> = Vec::new();
    for pair in list.chunks(2) {
        let start = pair[0] as usize;
        let length = pair[1] as usize;
        if start % geometry.cluster_bits != 0 || length % geometry.cluster_bits != 0 {
            return refused;
        }
        if length < geometry.shortest_fragment {
            return refused;
        }
        if start + length > geometry.disc_bits() {
            return refused;
        }
        let zone = geometry.zone_of(start);
        if zone != geometry.zone_of(start + length - 1) {
            return refused;
        }
        pieces.push(Fragment {
            zone,
            start: geometry.block_bit(start),
            length,
            owner: Owner::Object(id),
        });
    }

    // Object order: by the place of the zone in the order, then ascending and
    // not overlapping in the zone.
    let zones = geometry.zones_in_object_order(id)?;
    let place_of = |zone: usize| zones.iter().position(|z| *z == zone);
    for neighbours in pieces.windows(2) {
        let (before, after) = (neighbours[0], neighbours[1]);
        let in_order = if before.zone == after.zone {
            before.end() <= after.start
        } else {
            place_of(before.zone) < place_of(after.zone)
        };
        if !in_order {
            return refused;
        }
    }
    Ok(pieces)
}

/// Takes the pieces out of the free bits (refusal 13) and writes them.
fn take(map: &mut [u8], checked: &CheckedMap, pieces: &[Fragment]) -> Result<(), Refusal> {
    let geometry = &checked.geometry;
    let in_zone = by_zone(pieces);
    for (zone, pieces) in &in_zone {
        let mut is_free = vec![false; geometry.end_block_bit()];
        for fragment in &checked.zones[*zone] {
            if fragment.owner == Owner::Free {
                is_free[fragment.start..fragment.end()].fill(true);
            }
        }
        for piece in pieces {
            for block_bit in piece.start..piece.end() {
                if !is_free[block_bit] {
                    return Err(Refusal::plain(13));
                }
                is_free[block_bit] = false;
            }
        }
        // What is left over between owned bits is nothing or at least m bits.
        for run in is_free.split(|free| !free) {
            if !run.is_empty() && run.len() < geometry.shortest_fragment {
                return Err(Refusal::plain(13));
            }
        }
    }

    for (zone, pieces) in &in_zone {
        let mut owned = owned_fragments(&checked.zones[*zone]);
        owned.extend(pieces);
        owned.sort_by_key(|fragment| fragment.start);
        rewrite_zone(map, geometry, *zone, &owned);
    }
    finish(map, geometry, &zones_touched(pieces));
    Ok(())
}

/// The pieces of each zone in which there are some.
fn by_zone(pieces: &[Fragment]) -> BTreeMap<usize, Vec<Fragment>> {
    let mut in_zone: BTreeMap<usize, Vec<Fragment>> = BTreeMap::new();
    for piece in pieces {
        in_zone.entry(piece.zone).or_default().push(*piece);
    }
    in_zone
}

/// An edit touches the zones in which its pairs lie; ascending.
fn zones_touched(pieces: &[Fragment]) -> Vec<usize> {
    by_zone(pieces).into_keys().collect()
}

/// The fragments of a zone that are not free.
fn owned_fragments(fragments: &[Fragment]) -> Vec<Fragment> {
    let mut owned = fragments.to_vec();
    owned.retain(|fragment| fragment.owner != Owner::Free);
    owned
}

/// Writes a zone with these owned fragments; each gap between them becomes
/// one free fragment, so that no two free ones touch.
fn rewrite_zone(map: &mut [u8], geometry: &Geometry, zone: usize, owned: &[Fragment]) {
    let mut fragments = Vec::new();
    let mut position = geometry.first_block_bit(zone);
    for fragment in owned {
        if position < fragment.start {
            fragments.push(gap(zone, position, fragment.start));
        }
        fragments.push(*fragment);
        position = fragment.end();
    }
    if position < geometry.end_block_bit() {
        fragments.push(gap(zone, position, geometry.end_block_bit()));
    }
    let block = block_mut(map, geometry.sector_size, zone);
    write_fragments(geometry, block, &fragments);
}

fn gap(zone: usize, from: usize, to: usize) -> Fragment {
    Fragment {
        zone,
        start: from,
        length: to - from,
        owner: Owner::Free,
    }
}

/// The cross check change of each touched zone, in ascending order: none for
/// one zone; 1 each for an even number; 1, 2, 3 and then 1 for an odd one.
pub fn cross_check_changes(touched: usize) -> Vec<u8> {
    if touched == 1 {
        return vec![0];
    }
    let mut changes = vec![1; touched];
    if touched % 2 == 1 {
        changes[1] = 2;
        changes[2] = 3;
    }
    changes
}

/// Changes the cross checks and writes the zone checks of the touched zones.
fn finish(map: &mut [u8], geometry: &Geometry, touched: &[usize]) {
    let changes = cross_check_changes(touched.len());
    for (zone, change) in touched.iter().zip(changes) {
        let block = block_mut(map, geometry.sector_size, *zone);
        block[3] ^= change;
        block[0] = zone_check_by_words(block);
    }
}
