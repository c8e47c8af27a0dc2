//! Formatting a blank disc (R-13 of document 02): "Given log2secsize, capacity in bytes,
//! and idlen, choose bytes per map bit from source document 001's table".

use std::ops::Range;

use crate::geometry::{DiscRecord, Edition, Geometry, MOST_ZONES};
use crate::map::{block_mut, write_fragments, zone_check_by_words, Fragment, Owner};
use crate::Refusal;

/// "Mbytes (of 1,048,576 bytes)".
pub const MBYTE: u64 = 1_048_576;

/// Source document 001's table: a limit, which is included, and the logarithm of the bytes
/// per map bit: "up to 124 Mbytes (of 1,048,576 bytes) 256, up to 249 gives 512, up to 499
/// gives 1024, up to 999 gives 2048".
pub const TABLE: [(u64, u8); 4] = [
    (124 * MBYTE, 8),
    (249 * MBYTE, 9),
    (499 * MBYTE, 10),
    (999 * MBYTE, 11),
];

/// "Use zone_spare 32".
const ZONE_SPARE: u16 = 32;

/// A disc that can be formatted: its record, and what is drawn beside free stretches, in
/// disc bits.
#[derive(Clone, Debug, PartialEq, Eq)]
pub struct Blank {
    pub record: DiscRecord,
    pub geometry: Geometry,
    pub object_2: Range<usize>,
    /// Empty where the map has none.
    pub overhang: Range<usize>,
}

/// Writes the map of a blank disc, whatever the buffer holds. "A map buffer of the wrong
/// length is refused with 1, after every 2", and "the lent map buffer is untouched by a
/// refusal".
pub fn format(log2secsize: u32, capacity: u64, idlen: u32, map: &mut [u8]) -> Result<(), Refusal> {
    let blank = blank(log2secsize, capacity, idlen).ok_or(Refusal::plain(2))?;
    if map.len() != blank.map_bytes() {
        return Err(Refusal::plain(1));
    }
    map.copy_from_slice(&draw(&blank));
    Ok(())
}

/// The length of the buffer that `format` wants, with its 2.
pub fn format_length(log2secsize: u32, capacity: u64, idlen: u32) -> Result<u64, Refusal> {
    let blank = blank(log2secsize, capacity, idlen).ok_or(Refusal::plain(2))?;
    Ok(blank.map_bytes() as u64)
}

impl Blank {
    /// The blocks of all zones.
    fn map_bytes(&self) -> usize {
        self.geometry.nzones * self.geometry.sector_size
    }
}

/// What is to be drawn; nothing where it is refused with 2.
pub fn blank(log2secsize: u32, capacity: u64, idlen: u32) -> Option<Blank> {
    let record = record(log2secsize, capacity, idlen)?;
    let geometry = Geometry::accept(&record)?;
    let object_2 = object_2(&geometry);
    let overhang = overhang(&geometry);
    // "If object 2 and the overhang can't both be drawn, refuse with 2." They may touch.
    let meet = object_2.start < overhang.end && overhang.start < object_2.end;
    if !overhang.is_empty() && meet {
        return None;
    }
    Some(Blank {
        record,
        geometry,
        object_2,
        overhang,
    })
}

/// The record with "the fewest zones that cover the capacity within the record's ranges
/// for version 0, refusing with 2 if there's no such number": the first that document 01
/// accepts, which judges log2secsize, idlen and P*nzones too.
fn record(log2secsize: u32, capacity: u64, idlen: u32) -> Option<DiscRecord> {
    let log2bpmb = log2_bytes_per_map_bit(capacity)?;
    let of_zones = |nzones: usize| {
        Some(DiscRecord {
            log2secsize: u8::try_from(log2secsize).ok()?,
            idlen: u8::try_from(idlen).ok()?,
            log2bpmb,
            nzones: nzones as u16,
            zone_spare: ZONE_SPARE,
            disc_size: u32::try_from(capacity).ok()?,
            size_high: 0,
            version: Edition::E.version(),
        })
    };
    (1..=MOST_ZONES)
        .filter_map(of_zones)
        .find(|record| Geometry::accept(record).is_some())
}

/// The first row of the table that the capacity is not above: "limits included; above
/// that, or if it's 0 or no multiple of the sector, refuse with 2". The record's own
/// ranges have the last two.
fn log2_bytes_per_map_bit(capacity: u64) -> Option<u8> {
    let row = TABLE.iter().find(|(limit, _)| capacity <= *limit);
    row.map(|(_, log2bpmb)| *log2bpmb)
}

/// "object 2 at the middle zone, as short as m, k and two map copies allow": from the
/// zone's first bit on, at least m bits, and as many whole clusters as both copies take.
fn object_2(geometry: &Geometry) -> Range<usize> {
    let (k, m) = (geometry.cluster_bits, geometry.shortest_fragment);
    let copies = 2 * geometry.nzones * geometry.sector_size;
    let bits = copies.div_ceil(geometry.bytes_per_map_bit as usize);
    let length = bits.div_ceil(k) * k;
    let middle = geometry.middle_zone();
    let start = geometry.disc_bit(middle, geometry.first_block_bit(middle));
    start..start + length.max(m)
}

/// "the map's overhang, if any, in object 1 (reaching back to m bits if shorter)": by
/// document 01 "Every disc bit from disc_size div B onward is owned by 1".
fn overhang(geometry: &Geometry) -> Range<usize> {
    let (start, end) = (geometry.disc_end_bit(), geometry.disc_bits());
    if start == end {
        return end..end;
    }
    start.min(end - geometry.shortest_fragment)..end
}

/// Draws the map: "cross checks 255 in zone 0 and 0 elsewhere, zone checks and links by
/// document 01, and bytes not named here 0".
fn draw(blank: &Blank) -> Vec<u8> {
    let geometry = &blank.geometry;
    let mut map = vec![0; blank.map_bytes()];
    blank.record.write(&mut map);
    map[3] = 255;
    for zone in 0..geometry.nzones {
        let fragments = without_short_stretches(geometry, stretches(blank, zone));
        let block = block_mut(&mut map, geometry.sector_size, zone);
        write_fragments(geometry, block, &fragments);
        block[0] = zone_check_by_words(block);
    }
    map
}

/// The longest stretches of one owner in a zone, ascending, bit by bit.
fn stretches(blank: &Blank, zone: usize) -> Vec<Fragment> {
    let geometry = &blank.geometry;
    let mut stretches: Vec<Fragment> = Vec::new();
    for block_bit in geometry.first_block_bit(zone)..geometry.end_block_bit() {
        let disc_bit = geometry.disc_bit(zone, block_bit);
        let owner = if blank.object_2.contains(&disc_bit) {
            Owner::Object(2)
        } else if blank.overhang.contains(&disc_bit) {
            Owner::Object(1)
        } else {
            Owner::Free
        };
        match stretches.last_mut() {
            Some(before) if before.owner == owner => before.length += 1,
            _ => stretches.push(Fragment {
                zone,
                start: block_bit,
                length: 1,
                owner,
            }),
        }
    }
    stretches
}

/// The fragments of a zone: "each other stretch one free fragment", but that "A stretch
/// shorter than m goes to object 2 if it directly follows object 2, else to the overhang
/// it precedes." It makes that one's fragment longer.
fn without_short_stretches(geometry: &Geometry, stretches: Vec<Fragment>) -> Vec<Fragment> {
    let mut fragments: Vec<Fragment> = Vec::new();
    // A short stretch that waits for the overhang after it.
    let mut waiting = 0;
    for stretch in stretches {
        let short = stretch.length < geometry.shortest_fragment;
        if stretch.owner != Owner::Free || !short {
            fragments.push(Fragment {
                start: stretch.start - waiting,
                length: stretch.length + waiting,
                ..stretch
            });
            waiting = 0;
            continue;
        }
        match fragments.last_mut() {
            Some(before) if before.owner == Owner::Object(2) => before.length += stretch.length,
            _ => waiting = stretch.length,
        }
    }
    assert_eq!(
        waiting, 0,
        "a short stretch is beside object 2 or the overhang"
    );
    fragments
}
