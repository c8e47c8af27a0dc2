//! The maps that are measured and the calls made on them.

use reference::case::{Call, Case};
use reference::generate::{build, record_of_zones, worn, Rng};
use reference::geometry::{DiscRecord, Edition, Geometry, MOST_ZONES};
use reference::map::{check, Owner};

/// The numbers of zones of 1,024-byte blocks measured. `MOST_ZONES` and `E_PLUS`
/// are measured with blocks of 256 bytes.
const ZONES: [u16; 5] = [1, 2, 8, 32, 127];

/// The zones of the E+ map (R-12 of document 02).
const E_PLUS: u16 = 1_000;

/// 127 zones of 1,024-byte blocks leave 258 ids a zone, hence 4,128 of the
/// 8,192 bits. All sizes spare the same, so that their zones can be compared.
const ZONE_SPARE: u16 = 4_064;

/// Owned fragments and holes are up to this long, in map bits, and at least as
/// long as the shortest. A group of one to three fragments is followed by one
/// hole, so that half of the space is used.
const OWNED: usize = 64;
const HOLE: usize = 144;

/// The last zone ends with a hole longer than all others.
const LONG_HOLE: usize = 320;

/// Longer than every hole but that one, so that a claim near zone 0 must look
/// everywhere.
const CLAIMED_BITS: u64 = 200;

/// On a crowded map a group is followed by a hole of up to this many bits, in every zone,
/// so that about a fifth of the space is free.
const CROWDED_HOLE: usize = 32;

/// The length of object 2's fragment.
const OBJECT_2: usize = 32;

/// These owned fragments of each zone belong to one object, which is the one
/// listed, released and placed: it touches every zone.
const SPREAD: [usize; 2] = [8, 20];

/// The same with 256-byte blocks. Zone 0 has 1,536 bits there, so at least seven
/// owned fragments: one for every `OWNED + HOLE` bits, and the last.
const SPREAD_IN_SMALL: [usize; 2] = [2, 5];

/// The bytes of disc image that are swept, from the middle of the disc.
pub const WINDOW: usize = 1 << 20;

/// How a map is made.
#[derive(Clone, Copy)]
enum Layout {
    /// Objects are numbered from the first number of the zone where they lie.
    ByZone,
    /// The same fragments, numbered from 3 upward without a gap, as a disc filled by
    /// claims had them before R-6 of document 02.
    Packed,
    /// By zone, with short holes only, of which a claim takes many.
    Crowded,
}

impl Layout {
    /// The longest hole but for the one at the end of the last zone.
    fn hole(self) -> usize {
        match self {
            Layout::ByZone | Layout::Packed => HOLE,
            Layout::Crowded => CROWDED_HOLE,
        }
    }

    /// That one.
    fn last_hole(self) -> usize {
        match self {
            Layout::ByZone | Layout::Packed => LONG_HOLE,
            Layout::Crowded => CROWDED_HOLE,
        }
    }
}

/// The calls measured, in the order of their columns.
pub const NAMES: [&str; 12] = [
    "check",
    "list",
    "free",
    "sweep_free",
    "release",
    "place",
    "claim",
    "claim, near",
    "claim, packed",
    "claim, split",
    "mend",
    "mend_positions",
];

/// The maps of one size, and the calls to be measured on them.
pub struct Size {
    pub zones: usize,
    pub map_bytes: usize,
    /// The fragments of all maps together.
    pub fragments: usize,
    /// The free map bits of all maps together.
    free_bits: usize,
    disc_bits: usize,
    /// For each name a call on every map.
    pub cases: [Vec<Case>; NAMES.len()],
}

impl Size {
    /// Small maps are several, with as many zones together as the largest
    /// has: a processor learns the branches of one small map by heart, and
    /// the rounds would then show a speed that no single call has.
    fn new(nzones: u16) -> Size {
        Size::with_maps(record(nzones), ZONES[ZONES.len() - 1] / nzones)
    }

    /// One map of the most zones of version 0, in blocks of 256 bytes.
    fn most_zones() -> Size {
        let record = DiscRecord {
            log2secsize: 8,
            zone_spare: 32,
            ..record(MOST_ZONES as u16)
        };
        Size::with_maps(whole_disc(record), 1)
    }

    /// One map of an E+ disc, in blocks of 256 bytes and with the longest id.
    fn e_plus() -> Size {
        Size::with_maps(record_of_zones(8, E_PLUS, Edition::EPlus), 1)
    }

    fn with_maps(record: DiscRecord, maps: u16) -> Size {
        let geometry = accepted(&record);
        let mut size = Size {
            zones: geometry.nzones,
            map_bytes: geometry.nzones * geometry.sector_size,
            fragments: 0,
            free_bits: 0,
            disc_bits: geometry.disc_bits(),
            cases: Default::default(),
        };
        for seed in 0..maps {
            size.add_map(&record, &geometry, seed as u64);
        }
        size
    }

    fn add_map(&mut self, record: &DiscRecord, geometry: &Geometry, seed: u64) {
        let make = |layout| make_map(record, geometry, seed, layout);
        let map = make(Layout::ByZone);
        let checked = check(&map).expect("a valid map");
        self.fragments += checked.fragments().len();
        self.free_bits += free_bits(&map);
        let calls = calls(
            geometry,
            &map,
            &make(Layout::Packed),
            &make(Layout::Crowded),
        );
        for (column, case) in self.cases.iter_mut().zip(calls) {
            column.push(case);
        }
    }

    /// How many maps there are.
    pub fn maps(&self) -> usize {
        self.cases[0].len()
    }

    pub fn used_percent(&self) -> usize {
        100 - 100 * self.free_bits / (self.maps() * self.disc_bits)
    }
}

/// All sizes, in the order of their rows.
pub fn sizes() -> Vec<Size> {
    let mut sizes: Vec<Size> = ZONES.into_iter().map(Size::new).collect();
    sizes.extend([Size::most_zones(), Size::e_plus()]);
    sizes
}

/// The record of a disc with so many zones.
fn record(nzones: u16) -> DiscRecord {
    whole_disc(DiscRecord {
        log2secsize: 10,
        idlen: 15,
        log2bpmb: 10,
        nzones,
        zone_spare: ZONE_SPARE,
        disc_size: 0,
        size_high: 0,
        version: 0,
    })
}

/// The record with a disc size by which every bit of the map stands for a part
/// of the disc.
fn whole_disc(record: DiscRecord) -> DiscRecord {
    let zone_bits = (8 << record.log2secsize) - record.zone_spare as u32;
    DiscRecord {
        disc_size: (record.nzones as u32 * zone_bits - 480) << record.log2bpmb,
        ..record
    }
}

fn accepted(record: &DiscRecord) -> Geometry {
    Geometry::accept(record).expect("a record inside its ranges")
}

/// A map of the largest size with 1,024-byte blocks.
pub fn hard_disc(seed: u64) -> Vec<u8> {
    let record = record(ZONES[ZONES.len() - 1]);
    make_map(&record, &accepted(&record), seed, Layout::ByZone)
}

/// The same fragments by zone and packed, if the seed is the same.
fn make_map(record: &DiscRecord, geometry: &Geometry, seed: u64, layout: Layout) -> Vec<u8> {
    let mut rng = Rng::new(seed);
    let mut next_id = 3;
    let mut zones = Vec::new();
    for zone in 0..geometry.nzones {
        if let Layout::ByZone | Layout::Crowded = layout {
            next_id = 3.max((zone * geometry.ids_per_zone) as u32);
        }
        zones.push(make_zone(&mut rng, geometry, zone, layout, &mut next_id));
    }
    build(record, &zones)
}

/// The free map bits of a valid map.
fn free_bits(map: &[u8]) -> usize {
    let free = check(map).expect("a valid map").free();
    free.iter().map(|hole| hole.length).sum()
}

/// The fragments of a zone: owner and length.
fn make_zone(
    rng: &mut Rng,
    geometry: &Geometry,
    zone: usize,
    layout: Layout,
    next_id: &mut u32,
) -> Vec<(Owner, usize)> {
    let mut parts = Vec::new();
    let mut room = geometry.end_block_bit() - geometry.first_block_bit(zone);
    if zone == geometry.middle_zone() {
        parts.push((Owner::Object(2), OBJECT_2));
        room -= OBJECT_2;
    }
    let last = zone + 1 == geometry.nzones;
    if last {
        room -= layout.last_hole();
    }

    let mut owned = 0;
    let shortest = geometry.shortest_fragment;
    // A whole group must fit, with a fragment after it for what is left.
    while room >= 3 * OWNED + layout.hole() + shortest {
        for _ in 0..rng.between(1, 3) {
            parts.push((
                owner(geometry, owned, next_id),
                rng.between(shortest, OWNED),
            ));
            room -= parts[parts.len() - 1].1;
            owned += 1;
        }
        let hole = rng.between(shortest, layout.hole());
        parts.push((Owner::Free, hole));
        room -= hole;
    }
    parts.push((owner(geometry, owned, next_id), room));
    if last {
        parts.push((Owner::Free, layout.last_hole()));
    }
    parts
}

/// The owner of a zone's owned fragment with this index.
fn owner(geometry: &Geometry, index: usize, next_id: &mut u32) -> Owner {
    if spread(geometry).contains(&index) {
        return Owner::Object(spread_id(geometry));
    }
    *next_id += 1;
    Owner::Object(*next_id - 1)
}

/// Which owned fragments of each zone belong to the spread object.
fn spread(geometry: &Geometry) -> [usize; 2] {
    match geometry.sector_size {
        256 => SPREAD_IN_SMALL,
        _ => SPREAD,
    }
}

/// The spread object has the middle zone's last number, so that its pieces
/// go round past the last zone. No other object comes up to it.
fn spread_id(geometry: &Geometry) -> u32 {
    ((geometry.middle_zone() + 1) * geometry.ids_per_zone - 1) as u32
}

/// A call about the spread object, with room for every fragment there can be.
fn case(geometry: &Geometry, call: Call, map: &[u8]) -> Case {
    let mut case = Case::new(call, map);
    case.number = spread_id(geometry);
    case.list = vec![0; 2 * geometry.ids()];
    case
}

/// The calls on a map, in the order of their names.
fn calls(geometry: &Geometry, map: &[u8], packed: &[u8], crowded: &[u8]) -> [Case; NAMES.len()] {
    let mut sweep = case(geometry, Call::SweepFree, map);
    sweep.fill = 0xFF;
    sweep.wide = (geometry.disc_size - WINDOW as u64) / 2;

    let release = case(geometry, Call::Release, map);
    let released = release.run();
    let pieces = spread(geometry).len() * geometry.nzones;
    assert_eq!(released.values[0], pieces as u64, "a zone lacks a piece");
    let mut place = case(geometry, Call::Place, &released.map);
    place.list = released.list[..2 * pieces].to_vec();

    // The hole is in the last zone.
    let claim_near = claim(geometry, map, geometry.nzones as u32 - 1);
    let [mend, positions] = mends(map);
    [
        case(geometry, Call::Check, map),
        case(geometry, Call::List, map),
        case(geometry, Call::Free, map),
        sweep,
        release,
        place,
        claim(geometry, map, 0),
        claim_near,
        claim(geometry, packed, 0),
        split(geometry, crowded),
        mend,
        positions,
    ]
}

/// A claim of the disc's last hole, near a zone.
fn claim(geometry: &Geometry, map: &[u8], parent: u32) -> Case {
    let mut claim = case(geometry, Call::Claim, map);
    claim.number = parent;
    claim.wide = CLAIMED_BITS * geometry.bytes_per_map_bit;
    let start = claim.run().list[0] as usize;
    assert_eq!(start, geometry.disc_bits() - LONG_HOLE, "another hole");
    claim
}

/// A claim of half of what is free on a crowded map.
fn split(geometry: &Geometry, crowded: &[u8]) -> Case {
    let mut split = case(geometry, Call::Claim, crowded);
    split.number = 0;
    split.wide = free_bits(crowded) as u64 / 2 * geometry.bytes_per_map_bit;
    let pieces = split.run().values[1] as usize;
    assert!(pieces > 2 * geometry.nzones, "few pieces");
    split
}

/// The calls that mend (R-9 of document 02), on a map in the worst order, in which every
/// zone has something to join: with room for every byte there is.
fn mends(map: &[u8]) -> [Case; 2] {
    let worn = worn(map);
    let mend = Case::new(Call::Mend, &worn);
    // But for a cross check it is the map as it was.
    assert!(check(&mend.run().map) == check(map), "not mended");
    let mut positions = Case::new(Call::MendPositions, &worn);
    positions.list = vec![0; map.len()];
    [mend, positions]
}
