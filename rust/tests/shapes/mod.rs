//! Discs by their records, and the maps of fresh ones, made here and not by the
//! library.

/// The judged fields of a disc record.
#[derive(Clone, Copy)]
pub struct Shape {
    log2secsize: u8,
    idlen: u8,
    log2bpmb: u8,
    pub nzones: u16,
    zone_spare: u16,
    pub disc_size: u32,
    version: u8,
}

pub const FLOPPY: Shape = Shape {
    log2secsize: 10,
    idlen: 15,
    log2bpmb: 7,
    nzones: 1,
    zone_spare: 1312,
    disc_size: 819_200,
    version: 0,
};

/// Clusters of 4 map bits; the last 64 map bits lie past the disc's end.
pub const HARD_DISC_512: Shape = Shape {
    log2secsize: 9,
    idlen: 12,
    log2bpmb: 7,
    nzones: 5,
    zone_spare: 32,
    disc_size: (5 * 4064 - 480 - 64) * 128,
    version: 0,
};

/// One map bit for each sector; the disc ends where its map does.
pub const HARD_DISC_256: Shape = Shape {
    log2secsize: 8,
    idlen: 11,
    log2bpmb: 8,
    nzones: 5,
    zone_spare: 32,
    disc_size: (5 * 2016 - 480) * 256,
    version: 0,
};

/// As many zones as there can be in version 0 (document 02, R-4).
pub const DRIVE_OF_255_ZONES: Shape = Shape {
    log2secsize: 8,
    idlen: 15,
    log2bpmb: 8,
    nzones: 255,
    zone_spare: 32,
    disc_size: (255 * 2016 - 480) * 256,
    version: 0,
};

/// E+ (document 02, R-12), with the longest ids: 100 in a zone, so that those of
/// the higher zones have 17 bits.
pub const PLUS_OF_1000_ZONES: Shape = Shape {
    log2secsize: 8,
    idlen: 19,
    log2bpmb: 9,
    nzones: 1000,
    zone_spare: 32,
    disc_size: (1000 * 2016 - 480) * 512,
    version: 1,
};

impl Shape {
    pub fn sector(&self) -> usize {
        1 << self.log2secsize
    }

    pub fn bytes_per_map_bit(&self) -> usize {
        1 << self.log2bpmb
    }

    pub fn zones(&self) -> usize {
        self.nzones as usize
    }

    pub fn zone_bits(&self) -> usize {
        8 * self.sector() - self.zone_spare as usize
    }

    /// The shortest fragment: idlen + 1 map bits in whole clusters.
    pub fn shortest(&self) -> usize {
        let cluster = (self.sector() / self.bytes_per_map_bit()).max(1);
        (self.idlen as usize + 1).div_ceil(cluster) * cluster
    }

    pub fn ids_per_zone(&self) -> u32 {
        self.zone_bits() as u32 / (self.idlen as u32 + 1)
    }

    /// The first allocation bit of a zone, in its block.
    fn first_block_bit(&self, zone: usize) -> usize {
        if zone == 0 {
            512
        } else {
            32
        }
    }

    /// The first disc bit of a zone.
    pub fn first_disc_bit(&self, zone: usize) -> usize {
        zone * self.zone_bits() + self.first_block_bit(zone) - 512
    }

    /// The block bit in the last zone where object 1 takes over.
    fn disc_end(&self) -> usize {
        let end = self.disc_size as usize / self.bytes_per_map_bit();
        end + 512 - (self.zones() - 1) * self.zone_bits()
    }

    /// Object 2 holds two copies of the map and a directory of 2,048 bytes.
    fn system_bits(&self) -> usize {
        (2 * self.zones() * self.sector() + 2048).div_ceil(self.sector()) * self.sector()
            / self.bytes_per_map_bit()
    }

    /// Object 2 starts in the middle zone. A hard disc has its boot block in
    /// zone 0, in object 2 too.
    fn system_bits_of_zone(&self, zone: usize) -> usize {
        if zone == self.zones() / 2 {
            self.system_bits()
        } else if zone == 0 {
            self.shortest().max(4096 / self.bytes_per_map_bit())
        } else {
            0
        }
    }
}

/// Writes a fragment: its id, lowest bit first, and the closing bit.
fn draw(block: &mut [u8], start: usize, end: usize, idlen: u8, id: usize) {
    for bit in 0..idlen as usize {
        if id >> bit & 1 == 1 {
            block[(start + bit) / 8] |= 1 << ((start + bit) % 8);
        }
    }
    block[(end - 1) / 8] |= 1 << ((end - 1) % 8);
}

fn zone_check(block: &[u8]) -> u8 {
    let (mut sum, mut carry) = (0u64, 0);
    for index in (0..block.len() / 4).rev() {
        let mut word: [u8; 4] = block[4 * index..4 * index + 4].try_into().unwrap();
        if index == 0 {
            word[0] = 0;
        }
        sum += u32::from_le_bytes(word) as u64 + carry;
        carry = sum >> 32;
        sum &= 0xFFFF_FFFF;
    }
    (sum as u32).to_le_bytes().iter().fold(0, |all, b| all ^ b)
}

fn write_record(map: &mut [u8], shape: &Shape) {
    map[4] = shape.log2secsize;
    map[8] = shape.idlen;
    map[9] = shape.log2bpmb;
    let [low, high] = shape.nzones.to_le_bytes();
    map[13] = low;
    map[46] = high;
    map[48] = shape.version;
    map[14..16].copy_from_slice(&shape.zone_spare.to_le_bytes());
    map[20..24].copy_from_slice(&shape.disc_size.to_le_bytes());
    map[26..36].copy_from_slice(b"BenchDisc0");
}

/// A zone of a fresh disc: object 2 where it belongs, then free room, then
/// object 1 past the disc's end.
fn draw_zone(block: &mut [u8], shape: &Shape, zone: usize) {
    let end = 32 + shape.zone_bits();
    let mut start = shape.first_block_bit(zone);
    let system = shape.system_bits_of_zone(zone);
    if system > 0 {
        draw(block, start, start + system, shape.idlen, 2);
        start += system;
    }
    let mut free_end = end;
    if zone == shape.zones() - 1 && shape.disc_end() < end {
        free_end = shape.disc_end();
        draw(block, free_end, end, shape.idlen, 1);
    }
    draw(block, start, free_end, shape.idlen, 0);
    let link = 0x8000 | (start - 8) as u16;
    block[1..3].copy_from_slice(&link.to_le_bytes());
}

/// The map of a fresh disc.
pub fn fresh_map(shape: &Shape) -> Vec<u8> {
    let mut map = vec![0; shape.zones() * shape.sector()];
    write_record(&mut map, shape);
    let mut cross = 255;
    for zone in (0..shape.zones()).rev() {
        let block = &mut map[zone * shape.sector()..][..shape.sector()];
        draw_zone(block, shape, zone);
        block[3] = if zone == 0 { cross } else { (17 * zone) as u8 };
        cross ^= block[3];
        block[0] = zone_check(block);
    }
    map
}
