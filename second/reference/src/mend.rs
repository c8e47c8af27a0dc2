//! The mender (R-9 of document 02): "We get maps with touching free fragments (9), stale
//! zone checks (3) and cross checks that don't add up (4)."

use crate::geometry::Geometry;
use crate::map::{
    block, block_mut, check_but_for_checks, write_fragments, zone_check_by_words, Fragment, Owner,
};
use crate::Refusal;

/// "joins touching free fragments in each zone, sets only zone 0's cross check, so that
/// all give 255, and sets every zone check, provided that the map is right in all other
/// ways; else it answers the refusal that the map would get with those three ignored, and
/// writes nothing."
pub fn mend(map: &mut [u8]) -> Result<(), Refusal> {
    let checked = check_but_for_checks(map)?;
    let geometry = &checked.geometry;
    for (zone, fragments) in checked.zones.iter().enumerate() {
        let block = block_mut(map, geometry.sector_size, zone);
        write_fragments(geometry, block, &joined(fragments));
    }
    set_cross_check(map, geometry);
    // Last, as a zone check is that of all other bytes of the block.
    for zone in 0..geometry.nzones {
        let block = block_mut(map, geometry.sector_size, zone);
        block[0] = zone_check_by_words(block);
    }
    Ok(())
}

/// "lists, ascending, one 32-bit number each, exactly the byte positions the mender would
/// change, with the mender's refusals, then 17 if the list is too short." A byte that
/// would be written with the value it has is not changed. Answers how many there are.
pub fn mend_positions(map: &[u8], list: &mut [u32]) -> Result<u64, Refusal> {
    let mut mended = map.to_vec();
    mend(&mut mended)?;
    let mut positions = Vec::new();
    for at in 0..map.len() {
        if mended[at] != map[at] {
            positions.push(at as u32);
        }
    }
    if list.len() < positions.len() {
        return Err(Refusal::plain(17));
    }
    list[..positions.len()].copy_from_slice(&positions);
    Ok(positions.len() as u64)
}

/// The fragments of a zone, each row of touching free ones as one.
fn joined(fragments: &[Fragment]) -> Vec<Fragment> {
    let mut joined: Vec<Fragment> = Vec::new();
    for fragment in fragments {
        match joined.last_mut() {
            Some(before) if before.owner == Owner::Free && fragment.owner == Owner::Free => {
                before.length += fragment.length;
            }
            _ => joined.push(*fragment),
        }
    }
    joined
}

/// "sets only zone 0's cross check, so that all give 255", whichever was the wrong one.
fn set_cross_check(map: &mut [u8], geometry: &Geometry) {
    let mut others = 0;
    for zone in 1..geometry.nzones {
        others ^= block(map, geometry.sector_size, zone)[3];
    }
    block_mut(map, geometry.sector_size, 0)[3] = others ^ 255;
}
