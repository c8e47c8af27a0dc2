//! Wipes one object in a disc image and gives its room back in the map.
//!
//!     wipe MAP IMAGE ID FILL
//!
//! ID and FILL are decimal. Nothing is written before every call was accepted
//! and the image holds the whole object. Then only the object's pieces are
//! written, in place, synced and read back; then the map, in the same way.
//! Exit status: 0 done, 1 refused, 2 anything else.

mod failure;

use std::env;
use std::fs::{self, File};
use std::io::{self, Read, Seek, SeekFrom, Write};
use std::process::ExitCode;

use failure::{of, status, Failure};
use shoalswift::{free, geometry, list, release, sweep_object, Reason, Refusal};

/// How much of a piece is held in memory at a time.
const WINDOW: u64 = 1 << 20;

struct Arguments {
    map: String,
    image: String,
    id: u32,
    fill: u8,
}

fn arguments() -> Option<Arguments> {
    let given: Vec<String> = env::args().skip(1).collect();
    let [map, image, id, fill] = given.as_slice() else {
        return None;
    };
    Some(Arguments {
        map: map.clone(),
        image: image.clone(),
        id: id.parse().ok()?,
        fill: fill.parse().ok()?,
    })
}

/// Calls with a small list, then with longer ones while it is too short. A
/// refused call changes nothing, so it can be made again.
fn with_room(
    mut call: impl FnMut(&mut [u32]) -> Result<usize, Refusal>,
) -> Result<Vec<u32>, Refusal> {
    let mut entries = vec![0; 4];
    loop {
        match call(&mut entries) {
            Ok(pairs) => {
                entries.truncate(2 * pairs);
                return Ok(entries);
            }
            Err(refusal) if refusal.reason == Reason::ListTooShort => {
                entries.resize(2 * entries.len(), 0);
            }
            Err(refusal) => return Err(refusal),
        }
    }
}

/// What releasing the object does, found out on a copy of the map.
struct Plan {
    /// The bytes of disc behind a map bit.
    unit: u64,
    pieces: Vec<u32>,
    free_before: Vec<u32>,
    free_after: Vec<u32>,
    map_after: Vec<u8>,
}

fn plan(map: &[u8], id: u32) -> Result<Plan, Refusal> {
    let unit = geometry(map)?.unit as u64;
    let pieces = with_room(|entries| list(map, id, entries))?;
    let free_before = with_room(|entries| free(map, entries))?;
    let mut map_after = map.to_vec();
    with_room(|entries| release(&mut map_after, id, entries))?;
    let free_after = with_room(|entries| free(&map_after, entries))?;
    Ok(Plan {
        unit,
        pieces,
        free_before,
        free_after,
        map_after,
    })
}

/// The disc addresses of each pair: its first, and the one after its last.
fn stretches(pairs: &[u32], unit: u64) -> Vec<(u64, u64)> {
    let stretch = |pair: &[u32]| {
        let (bit, length) = (pair[0] as u64, pair[1] as u64);
        (bit * unit, (bit + length) * unit)
    };
    pairs.chunks(2).map(stretch).collect()
}

/// A piece cut into windows: where each starts, and its bytes.
fn windows((first, end): (u64, u64)) -> impl Iterator<Item = (u64, usize)> {
    let starts = (first..end).step_by(WINDOW as usize);
    starts.map(move |at| (at, (end - at).min(WINDOW) as usize))
}

/// Writes bytes into a file where they belong, and nothing else of it.
fn put(file: &mut File, at: u64, bytes: &[u8]) -> io::Result<()> {
    file.seek(SeekFrom::Start(at))?;
    file.write_all(bytes)
}

/// Reads a place of a file again, and fails where it holds other bytes.
fn must_hold(file: &mut File, at: u64, bytes: &[u8]) -> io::Result<()> {
    let mut found = vec![0; bytes.len()];
    file.seek(SeekFrom::Start(at))?;
    file.read_exact(&mut found)?;
    if found != bytes {
        let text = format!("other bytes than those written are read at {at}");
        return Err(io::Error::new(io::ErrorKind::InvalidData, text));
    }
    Ok(())
}

fn open(path: &str) -> io::Result<File> {
    File::options().read(true).write(true).open(path)
}

/// Overwrites the pieces in the image and answers how many bytes.
fn wipe_image(wanted: &Arguments, map: &[u8], pieces: &[(u64, u64)]) -> Result<u64, Failure> {
    let path = &wanted.image;
    let mut image = of(path, open(path))?;
    // The end is looked for, since a device has no length to ask for. Room
    // must not be given back while the old bytes may lie elsewhere.
    let end = of(path, image.seek(SeekFrom::End(0)))?;
    if pieces.iter().any(|piece| piece.1 > end) {
        let text = "the image ends before the object does";
        return Err(Failure::File(format!("{path}: {text}")));
    }
    let mut count = 0;
    for (at, length) in pieces.iter().copied().flat_map(windows) {
        let mut bytes = vec![!wanted.fill; length];
        let swept = sweep_object(map, &mut bytes, at, wanted.fill, wanted.id)?;
        assert_eq!(
            swept, length as u64,
            "every byte of a piece is the object's"
        );
        of(path, put(&mut image, at, &bytes))?;
        count += swept;
    }
    of(path, image.sync_all())?;
    for (at, length) in pieces.iter().copied().flat_map(windows) {
        of(path, must_hold(&mut image, at, &vec![wanted.fill; length]))?;
    }
    Ok(count)
}

/// Writes the map, which has kept its length.
fn write_map(path: &str, map: &[u8]) -> io::Result<()> {
    let mut file = open(path)?;
    put(&mut file, 0, map)?;
    file.sync_all()?;
    must_hold(&mut file, 0, map)
}

fn print_pairs(title: &str, pairs: &[u32], unit: u64) {
    let stretches = stretches(pairs, unit);
    let bytes: u64 = stretches.iter().map(|(first, end)| end - first).sum();
    println!("{title}: {} in all, {bytes} bytes", stretches.len());
    for (pair, (first, end)) in pairs.chunks(2).zip(stretches) {
        let (bit, length, last) = (pair[0], pair[1], end - 1);
        println!("  disc bit {bit}, {length} map bits, bytes {first} to {last}");
    }
}

fn wipe(wanted: &Arguments) -> Result<(), Failure> {
    let map = of(&wanted.map, fs::read(&wanted.map))?;
    let plan = plan(&map, wanted.id)?;
    // The image first: if the map cannot be written, the object is still
    // listed and can be wiped again.
    let count = wipe_image(wanted, &map, &stretches(&plan.pieces, plan.unit))?;
    of(&wanted.map, write_map(&wanted.map, &plan.map_after))?;
    let title = format!("pieces of object {}", wanted.id);
    print_pairs(&title, &plan.pieces, plan.unit);
    println!("wrote {count} bytes of {}", wanted.fill);
    print_pairs("free before", &plan.free_before, plan.unit);
    print_pairs("free after", &plan.free_after, plan.unit);
    Ok(())
}

fn main() -> ExitCode {
    let Some(wanted) = arguments() else {
        eprintln!("usage: wipe MAP IMAGE ID FILL (FILL from 0 to 255)");
        return ExitCode::from(2);
    };
    status(&wanted.map, wipe(&wanted))
}
