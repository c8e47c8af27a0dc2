//! Copies a file out of a disc image, run by run.
//!
//!     copy MAP IMAGE NUMBER FILE
//!
//! NUMBER is the file's internal number, in hexadecimal. From its first byte to
//! the end of its object everything is copied: the map does not know how long
//! the file is. FILE must not be there yet, and is made only if every call was
//! accepted and the image holds all of that.
//! Exit status: 0 done, 1 refused, 2 anything else.

mod failure;

use std::env;
use std::fs::{self, File};
use std::io::{self, Read, Seek, SeekFrom};
use std::process::ExitCode;

use failure::{of, status, Failure};
use shoalswift::{address, Location, Reason, Refusal};

struct Arguments {
    map: String,
    image: String,
    number: u32,
    file: String,
}

fn arguments() -> Option<Arguments> {
    let given: Vec<String> = env::args().skip(1).collect();
    let [map, image, number, file] = given.as_slice() else {
        return None;
    };
    Some(Arguments {
        map: map.clone(),
        image: image.clone(),
        number: u32::from_str_radix(number, 16).ok()?,
        file: file.clone(),
    })
}

/// Where the file's bytes lie, a run for each piece: each question takes up
/// where the last run ended, until the object has ended.
fn runs(map: &[u8], number: u32) -> Result<Vec<Location>, Refusal> {
    let mut position = 0;
    let mut found = Vec::new();
    loop {
        match address(map, number, position) {
            Ok(location) => {
                position += location.run;
                found.push(location);
            }
            Err(refusal) if refusal.reason == Reason::PastEnd && position > 0 => return Ok(found),
            Err(refusal) => return Err(refusal),
        }
    }
}

/// Copies one run to the end of a file.
fn copy_run(image: &mut File, to: &mut File, run: &Location) -> io::Result<()> {
    image.seek(SeekFrom::Start(run.address))?;
    let copied = io::copy(&mut image.take(run.run), to)?;
    if copied < run.run {
        return Err(io::ErrorKind::UnexpectedEof.into());
    }
    Ok(())
}

fn copy(wanted: &Arguments) -> Result<(), Failure> {
    let map = of(&wanted.map, fs::read(&wanted.map))?;
    let runs = runs(&map, wanted.number)?;
    let mut image = of(&wanted.image, File::open(&wanted.image))?;
    let end = of(&wanted.image, image.seek(SeekFrom::End(0)))?;
    if runs.iter().any(|run| run.address + run.run > end) {
        let text = "the image ends before the object does";
        return Err(Failure::File(format!("{}: {text}", wanted.image)));
    }
    let mut to = of(&wanted.file, File::create_new(&wanted.file))?;
    let both = format!("{} to {}", wanted.image, wanted.file);
    for run in &runs {
        of(&both, copy_run(&mut image, &mut to, run))?;
        println!("{} bytes from {}", run.run, run.address);
    }
    of(&wanted.file, to.sync_all())?;
    let bytes: u64 = runs.iter().map(|run| run.run).sum();
    println!("copied {bytes} bytes of {:#08x}", wanted.number);
    Ok(())
}

fn main() -> ExitCode {
    let Some(wanted) = arguments() else {
        eprintln!("usage: copy MAP IMAGE NUMBER FILE (NUMBER in hexadecimal)");
        return ExitCode::from(2);
    };
    status(&wanted.map, copy(&wanted))
}
