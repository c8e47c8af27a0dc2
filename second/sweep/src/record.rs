//! The disc record: its fields, its ranges and what follows from them
//! (document 01, "The disc record and its ranges"; of document 02).

use crate::Refusal;

/// An accepted disc record.
#[derive(Clone, Copy, Debug)]
pub struct Record {
    /// S, the bytes of a zone's block.
    pub sector_size: usize,
    pub log2bpmb: u32,
    pub idlen: usize,
    pub nzones: usize,
    /// k, the map bits of a cluster: a power of two.
    pub cluster_bits: usize,
    /// Z, the allocation bits of every zone but zone 0.
    pub zone_bits: usize,
    /// P*nzones; every id lies below it.
    pub ids: usize,
    pub disc_size: u64,
}

impl Record {
    /// Reads and judges the record of a map, and the map's length by it
    /// (refusals 1 and 2).
    pub fn read(map: &[u8]) -> Result<Record, Refusal> {
        let head: &[u8; 64] = map.first_chunk().ok_or((1, 0))?;
        let limits = Limits::of(head).ok_or((2, 0))?;
        let record = Record::accept(head, &limits).ok_or((2, 0))?;
        if map.len() != record.nzones * record.sector_size {
            return Err((1, 0));
        }
        Ok(record)
    }

    /// The record in zone 0's first 64 bytes, if it is inside its ranges.
    fn accept(head: &[u8; 64], limits: &Limits) -> Option<Record> {
        let (log2secsize, idlen, log2bpmb) = (head[4], head[8], head[9]);
        let zone_spare = u16::from_le_bytes([head[14], head[15]]) as usize;
        let disc_size = u32::from_le_bytes([head[20], head[21], head[22], head[23]]) as u64;
        let in_range = (8..=10).contains(&log2secsize)
            && (log2secsize + 3..=limits.idlen).contains(&idlen)
            && (7..=12).contains(&log2bpmb)
            && limits.nzones >= 1
            && zone_spare >= 32;
        if !in_range {
            return None;
        }

        let (idlen, nzones) = (idlen as usize, limits.nzones);
        let sector_size = 1usize << log2secsize;
        let cluster_bits = 1usize << log2secsize.saturating_sub(log2bpmb);
        let zone_bits = (8 * sector_size).checked_sub(zone_spare)?;
        let shortest_fragment = (idlen + 1).next_multiple_of(cluster_bits);
        let ids = zone_bits / (idlen + 1) * nzones;
        let fits = zone_bits % cluster_bits == 0
            && zone_bits >= 480 + shortest_fragment
            && ids <= 1 << idlen
            && disc_size > 0
            && disc_size % sector_size as u64 == 0
            && disc_size <= ((nzones * zone_bits - 480) as u64) << log2bpmb;
        fits.then_some(Record {
            sector_size,
            log2bpmb: log2bpmb as u32,
            idlen,
            nzones,
            cluster_bits,
            zone_bits,
            ids,
            disc_size,
        })
    }

    /// The block bit of a zone's first allocation bit.
    pub fn first_bit(&self, zone: usize) -> usize {
        if zone == 0 {
            512
        } else {
            32
        }
    }

    /// The block bit after a zone's last allocation bit.
    pub fn end_bit(&self) -> usize {
        32 + self.zone_bits
    }

    /// The disc bit of a block bit of a zone.
    pub fn disc_bit(&self, zone: usize, block_bit: usize) -> usize {
        zone * self.zone_bits + block_bit - 512
    }

    /// The first disc bit that object 1 must own, as it must all after it.
    pub fn disc_end(&self) -> usize {
        (self.disc_size >> self.log2bpmb) as usize
    }

    /// The end of a stretch of the image (refusal 16 where it is past the
    /// disc's).
    pub fn stretch_end(&self, first: u64, length: usize) -> Result<u64, Refusal> {
        match first.checked_add(length as u64) {
            Some(end) if end <= self.disc_size => Ok(end),
            _ => Err((16, 0)),
        }
    }
}

/// What the format version decides.
struct Limits {
    /// The longest id.
    idlen: u8,
    /// The number of zones, which no field can give above its range: 255 in a byte
    /// (R-4 of document 02: "Raise nzones from 127 to 255"), 65,535 in two.
    /// The sector size does not matter to it.
    nzones: usize,
}

impl Limits {
    /// By zone 0's first 64 bytes. R-12 counts the record's bytes, from byte 4 on:
    /// "a high byte for nzones at record offset 42, a format version of 4 bytes at
    /// 44", and in E+ "record bytes 36 to 39, the high half of the size, must be
    /// 0". Nothing for such a size, for rubbish, or for an unknown version.
    fn of(head: &[u8; 64]) -> Option<Limits> {
        let (low, high) = (head[13], head[46]);
        match (&head[48..52], &head[40..44]) {
            ([0, 0, 0, 0], _) if !dirty(head) => Some(Limits {
                idlen: 15,
                nzones: low as usize,
            }),
            ([1, 0, 0, 0], [0, 0, 0, 0]) => Some(Limits {
                idlen: 19,
                nzones: low as usize + 256 * high as usize,
            }),
            _ => None,
        }
    }
}

/// Whether there is rubbish after the record. It has 32 bytes, from byte 4 on, so
/// that 28 of the 64 are left, and R-7 of document 02 says: "Source document 001
/// says the 28 bytes after the 32-byte record are 0", "A map with any of block
/// bytes 36 to 63 of zone 0 not 0 is refused with 2". By R-12 that "holds for
/// version 0 only".
fn dirty(head: &[u8; 64]) -> bool {
    !head.ends_with(&[0; 28])
}
