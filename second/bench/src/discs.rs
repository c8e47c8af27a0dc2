//! The discs whose free space is swept: 800K floppies of several kinds, and
//! hard discs.

use std::ops::Range;

use reference::case::{Call, Case};
use reference::generate::{build, Rng, FLOPPY};
use reference::geometry::{DiscRecord, Geometry};
use reference::map::{check, CheckedMap, Owner};

use crate::maps::{hard_disc, WINDOW};

/// How many maps a row has. A processor learns the branches of a few small
/// maps by heart: with 16 floppies a sweep took up to a quarter less time.
const FLOPPIES: u64 = 127;
const HARD_DISCS: u64 = 16;

/// The stretches into which a floppy is cut for the second time.
const CUT: usize = 65_536;

/// What is on a floppy.
#[derive(Clone, Copy)]
enum Contents {
    Empty,
    OneObject,
    ManyObjects,
    HalfFull,
    Scattered,
}

/// The byte that is written.
pub const FILL: u8 = 0xFF;

/// The free space of one disc, to be swept in one or several calls.
pub struct Sweep {
    pub map: Vec<u8>,
    /// The bytes of image in all calls together, and in each; the last call
    /// may have fewer.
    pub length: usize,
    pub stretch: usize,
    pub parts: Vec<Part>,
}

/// One call of a sweep.
pub struct Part {
    /// The call without the map and the image.
    pub case: Case,
    /// The free bytes of the stretch, counted from its start.
    pub free: Vec<Range<usize>>,
}

/// A row of the table: sweeps of the same kind.
pub struct Row {
    pub name: &'static str,
    pub calls: usize,
    /// The mean of all maps.
    pub fragments: usize,
    pub free_bytes: usize,
    pub sweeps: Vec<Sweep>,
}

/// All rows, in their order.
pub fn rows() -> Vec<Row> {
    let whole = FLOPPY.disc_size as usize;
    let mut rows = Vec::new();
    for (name, contents) in [
        ("800K, empty", Contents::Empty),
        ("800K, full, one object", Contents::OneObject),
        ("800K, full, 60 objects", Contents::ManyObjects),
        ("800K, half full", Contents::HalfFull),
        ("800K, every other 2 KiB free", Contents::Scattered),
    ] {
        let cut = |stretch| move |seed| Sweep::new(floppy(contents, seed), 0, whole, stretch);
        rows.push(row(name, FLOPPIES, cut(whole)));
        rows.push(row(name, FLOPPIES, cut(CUT)));
    }
    rows.push(row("hard disc, 127 zones", HARD_DISCS, |seed| {
        let map = hard_disc(seed);
        let disc_size = DiscRecord::read(&map).disc_size as u64;
        Sweep::new(map, (disc_size - WINDOW as u64) / 2, WINDOW, WINDOW)
    }));
    rows
}

fn row(name: &'static str, maps: u64, make: impl Fn(u64) -> Sweep) -> Row {
    let sweeps: Vec<Sweep> = (0..maps).map(make).collect();
    let mean = |of: fn(&Sweep) -> usize| sweeps.iter().map(of).sum::<usize>() / sweeps.len();
    Row {
        name,
        calls: sweeps[0].parts.len(),
        fragments: mean(|sweep| checked(&sweep.map).fragments().len()),
        free_bytes: mean(Sweep::free_bytes),
        sweeps,
    }
}

impl Sweep {
    fn new(map: Vec<u8>, first: u64, length: usize, stretch: usize) -> Sweep {
        let checked = checked(&map);
        let part = |from| {
            let mut case = Case::new(Call::SweepFree, &[]);
            case.fill = FILL;
            case.wide = first + from as u64;
            let free = spans(&checked, case.wide, stretch.min(length - from));
            Part { case, free }
        };
        let parts = (0..length).step_by(stretch).map(part).collect();
        Sweep {
            map,
            length,
            stretch,
            parts,
        }
    }

    fn free_bytes(&self) -> usize {
        let spans = self.parts.iter().flat_map(|part| &part.free);
        spans.map(|span| span.len()).sum()
    }
}

fn checked(map: &[u8]) -> CheckedMap {
    check(map).expect("a valid map")
}

/// The free bytes of a stretch of disc, counted from its start.
fn spans(checked: &CheckedMap, first: u64, length: usize) -> Vec<Range<usize>> {
    let bytes = checked.geometry.bytes_per_map_bit;
    let within =
        |disc_bit: u64| (disc_bit * bytes).saturating_sub(first).min(length as u64) as usize;
    let pairs = checked.free().into_iter().map(|hole| checked.pair(&hole));
    pairs
        .map(|(from, bits)| within(from as u64)..within(from as u64 + bits as u64))
        .filter(|span| !span.is_empty())
        .collect()
}

/// A floppy's map. Object 2 has 4 KiB, the map twice and the root directory,
/// but for the scattered floppy, whose fragments are all the shortest.
fn floppy(contents: Contents, seed: u64) -> Vec<u8> {
    let geometry = Geometry::accept(&FLOPPY).expect("a record inside its ranges");
    let mut rng = Rng::new(seed);
    let (m, all) = (geometry.shortest_fragment, geometry.disc_bits());
    let rest = all - 2 * m;
    let mut parts = vec![(Owner::Object(2), 2 * m)];
    match contents {
        Contents::Empty => parts.push((Owner::Free, rest)),
        Contents::OneObject => parts.extend(objects(&mut rng, &geometry, rest, 1)),
        Contents::ManyObjects => parts.extend(objects(&mut rng, &geometry, rest, 60)),
        Contents::HalfFull => parts.extend(half_full(&mut rng, &geometry, rest)),
        Contents::Scattered => parts = scattered(&mut rng, &geometry),
    }
    build(&FLOPPY, &[parts])
}

/// So many objects of one fragment each, with any ids.
fn objects(rng: &mut Rng, geometry: &Geometry, bits: usize, count: usize) -> Vec<(Owner, usize)> {
    let lengths = lengths(rng, geometry, bits, count);
    ids(rng, geometry, count).into_iter().zip(lengths).collect()
}

/// 20 holes and 40 owned fragments; after each hole come one to three.
fn half_full(rng: &mut Rng, geometry: &Geometry, bits: usize) -> Vec<(Owner, usize)> {
    let free = geometry.disc_bits() / 2;
    let mut owned = objects(rng, geometry, bits - free, 40);
    let holes = lengths(rng, geometry, free, 20);
    let mut parts = Vec::new();
    for (index, hole) in holes.iter().enumerate() {
        parts.push((Owner::Free, *hole));
        // The holes still to come must find one to three each, too.
        let after = holes.len() - 1 - index;
        let least = owned.len().saturating_sub(3 * after).max(1);
        let most = (owned.len() - after).min(3);
        parts.extend(owned.drain(..rng.between(least, most)));
    }
    parts
}

/// 200 owned fragments and 200 holes in turn, all of the shortest length.
fn scattered(rng: &mut Rng, geometry: &Geometry) -> Vec<(Owner, usize)> {
    let m = geometry.shortest_fragment;
    let mut owners = ids(rng, geometry, geometry.disc_bits() / m / 2);
    owners[0] = Owner::Object(2);
    let pair = |owner| [(owner, m), (Owner::Free, m)];
    owners.into_iter().flat_map(pair).collect()
}

/// Different ids from 3, in any order.
fn ids(rng: &mut Rng, geometry: &Geometry, count: usize) -> Vec<Owner> {
    let mut ids: Vec<u32> = (3..geometry.ids() as u32).collect();
    for index in 0..count {
        let other = rng.between(index, ids.len() - 1);
        ids.swap(index, other);
    }
    ids[..count].iter().map(|id| Owner::Object(*id)).collect()
}

/// So many lengths that fill the bits, each at least m and whole clusters.
fn lengths(rng: &mut Rng, geometry: &Geometry, bits: usize, count: usize) -> Vec<usize> {
    let (k, m) = (geometry.cluster_bits, geometry.shortest_fragment);
    let spare = (bits - count * m) / k;
    let mut cuts: Vec<usize> = (1..count).map(|_| rng.below(spare + 1)).collect();
    cuts.extend([0, spare]);
    cuts.sort();
    cuts.windows(2)
        .map(|pair| m + k * (pair[1] - pair[0]))
        .collect()
}
