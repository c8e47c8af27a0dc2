//! The disc record, its ranges and the numbers derived from them
//! (document 01, "The disc record and its ranges"), the reserved bytes after it
//! (R-7 of document 02), and its two editions.

use std::ops::Range;

use crate::Refusal;

/// The disc record starts at byte 4 of zone 0.
pub const DISC_RECORD: usize = 4;

/// Block bytes 36 to 63 of zone 0: "the first 32 bytes are a disc record describing
/// the disc, the other 28 bytes are 0, being reserved" (source document 001). On
/// E+ discs they belong to the record.
pub const RESERVED: Range<usize> = DISC_RECORD + 32..DISC_RECORD + 60;

/// Block bytes 40 to 43 of zone 0: "record bytes 36 to 39, the high half of the
/// size" (R-12 of document 02).
pub const SIZE_HIGH: Range<usize> = DISC_RECORD + 36..DISC_RECORD + 40;

/// Block byte 46 of zone 0: "a high byte for nzones at record offset 42".
pub const NZONES_HIGH: usize = DISC_RECORD + 42;

/// Block bytes 48 to 51 of zone 0: "a format version of 4 bytes at 44".
pub const VERSION: Range<usize> = DISC_RECORD + 44..DISC_RECORD + 48;

/// Block bytes 5 to 7, 10 to 12, 16 to 19 and 24 to 35 of zone 0, the bytes of the
/// 32-byte record that document 01 does not name: "Other fields are carried and not
/// judged."
pub const CARRIED: [Range<usize>; 4] = [
    DISC_RECORD + 1..DISC_RECORD + 4,
    DISC_RECORD + 6..DISC_RECORD + 9,
    DISC_RECORD + 12..DISC_RECORD + 16,
    DISC_RECORD + 20..DISC_RECORD + 32,
];

/// Zone 0 has this many allocation bits fewer than every other zone.
pub const ZONE_0_SHORTFALL: usize = 480;

/// The most zones of a disc that is not E+: "Raise nzones from 127 to 255" (R-4 of
/// document 02).
pub const MOST_ZONES: usize = 255;

/// The bytes of the largest map of such a disc: so many blocks of 1,024 bytes.
pub const LARGEST_MAP: usize = MOST_ZONES * 1_024;

/// "Take version 1 as E+ and 0 as what we have" (R-12 of document 02).
#[derive(Clone, Copy, Debug, PartialEq, Eq)]
pub enum Edition {
    E,
    EPlus,
}

impl Edition {
    /// "others are refused with 2": nothing for them. All four bytes count.
    pub fn of_version(version: u32) -> Option<Edition> {
        match version {
            0 => Some(Edition::E),
            1 => Some(Edition::EPlus),
            _ => None,
        }
    }

    /// The version that stands for it.
    pub fn version(self) -> u32 {
        match self {
            Edition::E => 0,
            Edition::EPlus => 1,
        }
    }

    /// "idlen from log2secsize+3 to 15", and "idlen up to 19 (version 1 only)".
    pub fn longest_id(self) -> u8 {
        match self {
            Edition::E => 15,
            Edition::EPlus => 19,
        }
    }

    /// "For E+ nzones may be 1 to 65,535".
    pub fn most_zones(self) -> usize {
        match self {
            Edition::E => MOST_ZONES,
            Edition::EPlus => 65_535,
        }
    }
}

/// The fields of the disc record that are judged.
#[derive(Clone, Copy, Debug, PartialEq, Eq)]
pub struct DiscRecord {
    pub log2secsize: u8,
    pub idlen: u8,
    pub log2bpmb: u8,
    pub nzones: u16,
    pub zone_spare: u16,
    pub disc_size: u32,
    /// The high half of the size, which no edition allows to be other than 0: one
    /// by R-7 of document 02, one by R-12.
    pub size_high: u32,
    /// The format version.
    pub version: u32,
}

impl DiscRecord {
    /// Reads the record of a map of at least 64 bytes. In version 0 the high byte
    /// of nzones is a reserved byte, and nzones is the low one alone.
    pub fn read(map: &[u8]) -> DiscRecord {
        let record = &map[DISC_RECORD..DISC_RECORD + 60];
        let two_bytes = |at: usize| u16::from_le_bytes([record[at], record[at + 1]]);
        let four_bytes = |at: usize| two_bytes(at) as u32 | (two_bytes(at + 2) as u32) << 16;
        let version = four_bytes(44);
        let nzones_high = if version == 0 { 0 } else { record[42] };
        DiscRecord {
            log2secsize: record[0],
            idlen: record[4],
            log2bpmb: record[5],
            nzones: u16::from_le_bytes([record[9], nzones_high]),
            zone_spare: two_bytes(10),
            disc_size: four_bytes(16),
            size_high: four_bytes(36),
            version,
        }
    }

    /// Whether each field by itself is inside its range for an edition. The high
    /// half of the size is judged here for E+ alone, and among the reserved bytes
    /// for version 0.
    fn fields_in_range(&self, edition: Edition) -> bool {
        (8..=10).contains(&self.log2secsize)
            && (self.log2secsize + 3..=edition.longest_id()).contains(&self.idlen)
            && (7..=12).contains(&self.log2bpmb)
            && (1..=edition.most_zones()).contains(&(self.nzones as usize))
            && self.zone_spare >= 32
            && (edition == Edition::E || self.size_high == 0)
    }

    /// Writes the judged fields into a map; the carried ones stay, and in version 0
    /// the byte where the high one of nzones would be.
    pub fn write(&self, map: &mut [u8]) {
        let record = &mut map[DISC_RECORD..DISC_RECORD + 60];
        let [nzones, nzones_high] = self.nzones.to_le_bytes();
        record[0] = self.log2secsize;
        record[4] = self.idlen;
        record[5] = self.log2bpmb;
        record[9] = nzones;
        record[10..12].copy_from_slice(&self.zone_spare.to_le_bytes());
        record[16..20].copy_from_slice(&self.disc_size.to_le_bytes());
        record[36..40].copy_from_slice(&self.size_high.to_le_bytes());
        record[44..48].copy_from_slice(&self.version.to_le_bytes());
        if self.version == 0 {
            assert_eq!(nzones_high, 0, "version 0 has a byte for nzones");
        } else {
            record[42] = nzones_high;
        }
    }
}

/// The rule of R-7 of document 02, on a map of at least 64 bytes: "A map with any
/// of block bytes 36 to 63 of zone 0 not 0 is refused with 2 from now on, judged
/// after the other fields." R-12: it "then holds for version 0 only".
pub fn reserved_bytes_are_0(map: &[u8]) -> bool {
    map[RESERVED].iter().all(|byte| *byte == 0)
}

/// An accepted disc record with the numbers derived from it.
#[derive(Clone, Copy, Debug, PartialEq, Eq)]
pub struct Geometry {
    pub edition: Edition,
    /// S, the bytes of a sector and of a zone's block.
    pub sector_size: usize,
    /// B, the bytes of disc behind one map bit.
    pub bytes_per_map_bit: u64,
    /// k, the map bits of a cluster.
    pub cluster_bits: usize,
    /// Z, the allocation bits of every zone but zone 0.
    pub zone_bits: usize,
    /// m, the length of the shortest fragment.
    pub shortest_fragment: usize,
    /// P, the ids per zone.
    pub ids_per_zone: usize,
    pub idlen: usize,
    pub nzones: usize,
    pub disc_size: u64,
}

impl Geometry {
    /// Judges a record; nothing where it is outside its ranges.
    pub fn accept(record: &DiscRecord) -> Option<Geometry> {
        let edition = Edition::of_version(record.version)?;
        if !record.fields_in_range(edition) {
            return None;
        }

        let sector_size: i64 = 1 << record.log2secsize;
        let bytes_per_map_bit: i64 = 1 << record.log2bpmb;
        let cluster_bits = if bytes_per_map_bit < sector_size {
            sector_size / bytes_per_map_bit
        } else {
            1
        };
        let idlen = record.idlen as i64;
        let nzones = record.nzones as i64;
        let disc_size = record.disc_size as i64;
        let zone_bits = 8 * sector_size - record.zone_spare as i64;
        // idlen + 1 rounded up to a multiple of k.
        let shortest_fragment = (idlen + 1 + cluster_bits - 1) / cluster_bits * cluster_bits;

        if zone_bits % cluster_bits != 0 {
            return None;
        }
        if zone_bits - 480 < shortest_fragment {
            return None;
        }
        // The divisor is idlen + 1, not rounded to clusters.
        let ids_per_zone = zone_bits / (idlen + 1);
        if ids_per_zone * nzones > 1 << idlen {
            return None;
        }
        if disc_size <= 0
            || disc_size % sector_size != 0
            || disc_size > (nzones * zone_bits - 480) * bytes_per_map_bit
        {
            return None;
        }

        Some(Geometry {
            edition,
            sector_size: sector_size as usize,
            bytes_per_map_bit: bytes_per_map_bit as u64,
            cluster_bits: cluster_bits as usize,
            zone_bits: zone_bits as usize,
            shortest_fragment: shortest_fragment as usize,
            ids_per_zone: ids_per_zone as usize,
            idlen: idlen as usize,
            nzones: nzones as usize,
            disc_size: disc_size as u64,
        })
    }

    /// P*nzones: every id lies below this number.
    pub fn ids(&self) -> usize {
        self.ids_per_zone * self.nzones
    }

    /// The block bit of a zone's first allocation bit.
    pub fn first_block_bit(&self, zone: usize) -> usize {
        if zone == 0 {
            512
        } else {
            32
        }
    }

    /// The block bit after a zone's last allocation bit.
    pub fn end_block_bit(&self) -> usize {
        32 + self.zone_bits
    }

    /// The disc bit of a zone's block bit.
    pub fn disc_bit(&self, zone: usize, block_bit: usize) -> usize {
        zone * self.zone_bits + block_bit - 512
    }

    /// How many disc bits the whole map has.
    pub fn disc_bits(&self) -> usize {
        self.nzones * self.zone_bits - ZONE_0_SHORTFALL
    }

    /// The zone in which a disc bit of the map lies.
    pub fn zone_of(&self, disc_bit: usize) -> usize {
        (disc_bit + ZONE_0_SHORTFALL) / self.zone_bits
    }

    /// The block bit of a disc bit, in the zone where it lies.
    pub fn block_bit(&self, disc_bit: usize) -> usize {
        disc_bit + 512 - self.zone_of(disc_bit) * self.zone_bits
    }

    /// The first disc bit that must be owned by 1, as must all after it.
    pub fn disc_end_bit(&self) -> usize {
        (self.disc_size / self.bytes_per_map_bit) as usize
    }

    /// The zone whose first fragment is owned by 2.
    pub fn middle_zone(&self) -> usize {
        self.nzones / 2
    }

    /// The start zone of an id from 1 to P*nzones - 1; any other is refused
    /// with 8 (document 01, "Bits, fragments, chains", object order).
    pub fn start_zone(&self, id: u32) -> Result<usize, Refusal> {
        self.id_from(1, id)?;
        if id == 2 {
            Ok(self.middle_zone())
        } else {
            Ok(id as usize / self.ids_per_zone)
        }
    }

    /// Refuses with 8 an id outside `lowest` to P*nzones - 1.
    pub fn id_from(&self, lowest: u32, id: u32) -> Result<(), Refusal> {
        if id < lowest || id as usize >= self.ids() {
            return Err(Refusal::plain(8));
        }
        Ok(())
    }

    /// All zones in the object order of an id: its start zone, then later
    /// zones, then from zone 0.
    pub fn zones_in_object_order(&self, id: u32) -> Result<Vec<usize>, Refusal> {
        let start = self.start_zone(id)?;
        Ok((start..self.nzones).chain(0..start).collect())
    }

    /// All zones in the order in which a claim with a parent zone tries them: "tries
    /// it, then one below, one above, two below and so on, skipping zones that don't
    /// exist" (R-6 of document 02).
    pub fn zones_near(&self, parent: usize) -> Vec<usize> {
        let mut zones = vec![parent];
        for distance in 1..self.nzones {
            if distance <= parent {
                zones.push(parent - distance);
            }
            if parent + distance < self.nzones {
                zones.push(parent + distance);
            }
        }
        zones
    }
}
