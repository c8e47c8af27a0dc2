//! Runs many calls through the product and through the reference; every
//! answer and every lent byte must agree, and so must the geometry of every
//! map. Sweeps of free space are made by the two programs of `sweep` too. Each
//! accepted claim is released again, and its list placed where it was made. Each map is
//! mended, and what it becomes is read, mended again and edited. Discs are formatted, and
//! their maps read and edited.
//!
//! SEEDS names the seeds: `N` for 0 to N-1, or `A..B` for A to B-1. If TRACE
//! is set, each call is named before it is made, to find one that never
//! returns. If MAP_LINES names the product's small program, that is run on the
//! first map of some of the seeds. A few large maps of E+ discs, and a set of discs to
//! format, are compared in every run.

use std::env;
use std::process::ExitCode;

mod claims;
mod copies;
mod formats;
mod large;
mod mends;
mod pieces;
mod program;

use claims::Claims;
use copies::Copies;
use formats::Formats;
use mends::Mends;
use pieces::Pieces;
use product::Told;
use program::Program;
use reference::case::{Call, Case, Outcome, CALLS};
use reference::generate::{
    play, play_addresses, play_claims, play_copies, play_formats, play_mends, play_pieces, Sizes,
};
use reference::geometry::{DiscRecord, LARGEST_MAP};
use reference::map::{check, only_reserved_bytes_are_wrong, CheckedMap};

/// Guard bytes or entries before and after what is lent.
const GUARD: usize = 72;

/// One seed in so many has its first map listed by the small program.
const LISTED: u64 = 20;

/// A lent slice with a guard on both sides.
struct Lent<T> {
    all: Vec<T>,
    from: usize,
    length: usize,
    guard: T,
}

impl<T: Copy + PartialEq> Lent<T> {
    /// `shift` moves the slice, so that maps start at every alignment.
    fn new(contents: &[T], guard: T, shift: usize) -> Lent<T> {
        let from = GUARD + shift;
        let mut all = vec![guard; from];
        all.extend_from_slice(contents);
        all.extend_from_slice(&[guard; GUARD]);
        Lent {
            all,
            from,
            length: contents.len(),
            guard,
        }
    }

    fn slice(&mut self) -> &mut [T] {
        &mut self.all[self.from..self.from + self.length]
    }

    fn contents(&self) -> Vec<T> {
        self.all[self.from..self.from + self.length].to_vec()
    }

    fn guard_kept(&self) -> bool {
        let after = self.from + self.length;
        self.all[..self.from].iter().all(|item| *item == self.guard)
            && self.all[after..].iter().all(|item| *item == self.guard)
    }
}

/// Runs a case through the product. Answers the outcome, and whether every
/// guard was kept.
fn run_product(case: &Case, shift: usize) -> (Outcome, bool) {
    let mut map = Lent::new(&case.map, 0xA5, shift);
    let mut list = Lent::new(&case.list, 0xA5A5_5A5A, 0);
    let mut image = Lent::new(&case.image, 0x5A, shift);
    let answer = product::call(case, map.slice(), list.slice(), image.slice());
    let outcome = Outcome {
        number: answer.number,
        zone: answer.zone,
        values: answer.values[..case.call.values()].to_vec(),
        map: map.contents(),
        list: list.contents(),
        image: image.contents(),
    };
    let kept = map.guard_kept() && list.guard_kept() && image.guard_kept();
    (outcome, kept)
}

type SweepFree = fn(&[u8], &mut [u8], u64, u8) -> Result<u64, sweep::Refusal>;

/// The programs that do nothing but sweep free space.
const SWEEPS: [(&str, SweepFree); 2] = [
    ("simple", sweep::simple::sweep_free),
    ("fast", sweep::fast::sweep_free),
];

/// Runs a sweep of free space through one of those.
fn run_sweep(case: &Case, program: SweepFree) -> Outcome {
    let mut image = case.image.clone();
    let answer = program(&case.map, &mut image, case.wide, case.fill);
    let (number, zone) = answer.err().unwrap_or((0, 0));
    Outcome {
        number,
        zone,
        values: vec![answer.unwrap_or(0)],
        map: case.map.clone(),
        list: case.list.clone(),
        image,
    }
}

/// What the reference's own check tells of a map's record.
fn geometry(map: &[u8]) -> Told {
    match check(map) {
        Ok(CheckedMap { geometry: g, .. }) => Told {
            number: 0,
            zone: 0,
            numbers: [
                g.sector_size as u64,
                g.bytes_per_map_bit,
                g.nzones as u64,
                g.ids_per_zone as u64,
                g.disc_size,
            ],
        },
        Err(refusal) => Told {
            number: refusal.number,
            zone: refusal.zone,
            numbers: [0; 5],
        },
    }
}

/// One difference, described, and how much was lent in its case.
struct Difference {
    size: usize,
    text: String,
}

/// How many bytes are lent to a case.
fn lent(case: &Case) -> usize {
    case.map.len() + 4 * case.list.len() + case.image.len()
}

/// The first place where two slices differ.
fn first_difference<T: PartialEq + std::fmt::Debug>(
    name: &str,
    names: [&str; 2],
    [ours, theirs]: [&[T]; 2],
) -> String {
    for index in 0..ours.len() {
        if ours[index] != theirs[index] {
            return format!(
                "  {name} differs first at {index}: {} {:?}, {} {:?}\n",
                names[0], ours[index], names[1], theirs[index]
            );
        }
    }
    String::new()
}

fn describe(
    of: &str,
    step: u64,
    case: &Case,
    names: [&str; 2],
    outcomes: [&Outcome; 2],
    kept: bool,
) -> String {
    let mut text = format!("{of}, call {step} of it: {}\n", case.call.name());
    text += &format!(
        "  id, n, parent or log2secsize {}, position, first address, size or capacity {}, idlen {}, fill {}\n",
        case.number, case.wide, case.idlen, case.fill
    );
    text += &format!(
        "  map of {} bytes, list of {} entries, image of {} bytes\n",
        case.map.len(),
        case.list.len(),
        case.image.len()
    );
    if case.call == Call::Place {
        text += &format!("  list {:?}\n", case.list);
    }
    for (who, outcome) in names.into_iter().zip(outcomes) {
        text += &format!(
            "  {who}: number {}, zone {}, values {:?}\n",
            outcome.number, outcome.zone, outcome.values
        );
    }
    text += &first_difference("map", names, outcomes.map(|outcome| &outcome.map[..]));
    text += &first_difference("list", names, outcomes.map(|outcome| &outcome.list[..]));
    text += &first_difference("image", names, outcomes.map(|outcome| &outcome.image[..]));
    if !kept {
        text += "  the product wrote outside what it was lent\n";
    }
    text
}

/// The seeds named by SEEDS.
fn seeds() -> Result<std::ops::Range<u64>, String> {
    let text = env::var("SEEDS").unwrap_or("40000".to_string());
    let wrong = |_| format!("SEEDS is `{text}`, not a number or a range A..B");
    match text.split_once("..") {
        Some((from, to)) => Ok(from.parse().map_err(wrong)?..to.parse().map_err(wrong)?),
        None => Ok(0..text.parse().map_err(wrong)?),
    }
}

/// What was compared so far, and what differed.
struct Tally {
    /// By call and by number.
    compared: [[u64; 18]; CALLS.len() + 1],
    /// Geometries, by number. Each map that comes up has its own told once.
    geometries: [u64; 18],
    /// Accepted maps of more than 127 zones (R-4 of document 02).
    many_zones: u64,
    /// Maps with a dirty record, right in every other way (R-7 of document 02).
    dirty_records: u64,
    /// Accepted maps of E+ discs, and accepted ones of more than 255 zones (R-12 of
    /// document 02).
    e_plus: u64,
    above_255_zones: u64,
    /// Answered addresses where the object's next piece starts with the disc bit at
    /// which the run ends, and those of them where it does so in the next zone (R-11
    /// of document 02).
    touching: u64,
    touching_across_zones: u64,
    claims: Claims,
    pieces: Pieces,
    copies: Copies,
    mends: Mends,
    formats: Formats,
    /// Accepted claims that were released, and whose list was placed.
    undone: u64,
    last_map: Vec<u8>,
    trace: bool,
    differences: u64,
    smallest: Option<Difference>,
}

impl Tally {
    fn new(trace: bool) -> Tally {
        Tally {
            compared: [[0; 18]; CALLS.len() + 1],
            geometries: [0; 18],
            many_zones: 0,
            dirty_records: 0,
            e_plus: 0,
            above_255_zones: 0,
            touching: 0,
            touching_across_zones: 0,
            claims: Claims::default(),
            pieces: Pieces::default(),
            copies: Copies::default(),
            mends: Mends::default(),
            formats: Formats::default(),
            undone: 0,
            last_map: Vec::new(),
            trace,
            differences: 0,
            smallest: None,
        }
    }

    /// Names a call before it is made.
    fn trace(&self, of: &str, step: u64, case: &Case) {
        if self.trace {
            eprintln!("{of}, call {step} of it: {}", case.call.name());
        }
    }

    fn compare(&mut self, of: &str, step: u64, case: &Case, ours: &Outcome) {
        let (theirs, kept) = run_product(case, (step % 8) as usize);
        self.compared[case.call as usize][ours.number as usize] += 1;
        if *ours != theirs || !kept {
            let names = ["reference", "product"];
            self.differ(lent(case), || {
                describe(of, step, case, names, [ours, &theirs], kept)
            });
        }
        if case.call == Call::SweepFree {
            self.compare_sweeps(of, step, case, &theirs);
        }
        if case.call == Call::Address && ours.number == 0 {
            self.count_touching(case, ours);
        }
    }

    /// Makes a call by both, and answers the reference's outcome.
    fn make(&mut self, of: &str, step: u64, case: &Case) -> Outcome {
        self.trace(of, step, case);
        let ours = case.run();
        self.compare(of, step, case, &ours);
        ours
    }

    /// Mends a map, whether or not it is accepted (R-9 of document 02), and lists what
    /// that changes, with as much room as is needed and with an entry less. The positions
    /// are those of the bytes that differ between the map before and after.
    fn compare_mends(&mut self, of: &str, step: u64, map: &[u8]) {
        let of = format!("{of}, mending the map of call {step}");
        let mended = self.make(&of, 0, &Case::new(Call::Mend, map));
        self.mends.count(map, &mended);
        let changed = mends::changed(map, &mended.map);
        let refused = (mended.number, mended.zone);
        let all = mends::positions(map, changed.len());
        let listed = self.make(&of, 1, &all);
        let told = (listed.number, listed.zone);
        if told != refused || listed.list != changed || listed.values != [changed.len() as u64] {
            self.differ(lent(&all), || format!("{of}: other positions\n"));
        }
        if changed.is_empty() {
            return;
        }
        let short = mends::positions(map, changed.len() - 1);
        if self.make(&of, 2, &short).number != 17 {
            self.differ(lent(&short), || format!("{of}: an entry too few\n"));
        }
        self.compare_mended(&of, &mended.map);
    }

    /// "a mended map is accepted, and mending twice is mending once", and edits of it are
    /// accepted.
    fn compare_mended(&mut self, of: &str, mended: &[u8]) {
        for (case, step) in mends::readings(mended).iter().zip(3..) {
            let outcome = self.make(of, step, case);
            if outcome.number != 0 || outcome.map != mended {
                self.differ(lent(case), || format!("{of}, {step}: not in order\n"));
            }
        }
        for (case, step) in mends::edits(mended).iter().zip(20..) {
            let outcome = self.make(of, step, case);
            self.mends.edits += u64::from(outcome.number == 0);
            if outcome.number != 0 {
                self.differ(lent(case), || format!("{of}, {step}: an edit refused\n"));
            }
        }
    }

    /// The discs that are formatted in every run (R-13 of document 02).
    fn compare_discs(&mut self) {
        for disc in formats::discs() {
            let of = format!("{disc:?}");
            for (case, step) in formats::calls(&disc).iter().zip(0..) {
                let outcome = self.make(&of, step, case);
                self.compare_formatted(&of, step, case, &outcome);
            }
        }
    }

    /// Counts a format. "The drawn map must be accepted and list exactly these owners", and
    /// a claim on it is undone.
    fn compare_formatted(&mut self, of: &str, step: u64, case: &Case, ours: &Outcome) {
        self.formats.count(case, ours);
        if case.call != Call::Format || ours.number != 0 {
            return;
        }
        let of = format!("{of}, the map of call {step}");
        for (case, step) in formats::readings(&ours.map).iter().zip(0..) {
            let outcome = self.make(&of, step, case);
            if !formats::is_in_order(case, &outcome) {
                self.differ(lent(case), || format!("{of}, {step}: not in order\n"));
            }
        }
        let claim = formats::claim(&ours.map);
        let claimed = self.make(&of, 20, &claim);
        self.compare_undone(&of, 20, &claim, &claimed);
    }

    /// "An accepted place or claim followed at once by its release, again with room" gives
    /// every byte back, and the same list. That list, placed on the map as it was before
    /// the claim, gives the map as it was after it. Both calls are compared too.
    fn compare_undone(&mut self, of: &str, step: u64, case: &Case, ours: &Outcome) {
        if case.call != Call::Claim || ours.number != 0 {
            return;
        }
        self.undone += 1;
        let of = format!("{of}, after call {step}");
        let pairs = &ours.list[..2 * ours.values[1] as usize];
        let call = |call, map: &[u8], list| Case {
            number: ours.values[0] as u32,
            list,
            ..Case::new(call, map)
        };
        let release = call(Call::Release, &ours.map, vec![0; pairs.len()]);
        let place = call(Call::Place, &case.map, pairs.to_vec());
        for (case, map, step) in [(release, &case.map, 0), (place, &ours.map, 1)] {
            self.trace(&of, step, &case);
            let outcome = case.run();
            self.compare(&of, step, &case, &outcome);
            if outcome.number != 0 || outcome.list != pairs || outcome.map != *map {
                let text = format!("{of}, {} of it: not undone\n", case.call.name());
                self.differ(lent(&case), || text);
            }
        }
    }

    /// Counts an answered address if the object's next piece touches the asked one.
    fn count_touching(&mut self, case: &Case, ours: &Outcome) {
        let checked = check(&case.map).expect("a map that was accepted");
        let touching = checked.touching_pieces(case.number / 256);
        let run_end = ours.values[0] + ours.values[1];
        for (piece, next) in touching.expect("an id that was accepted") {
            let (disc_bit, _) = checked.pair(&next);
            if disc_bit as u64 * checked.geometry.bytes_per_map_bit == run_end {
                self.touching += 1;
                self.touching_across_zones += u64::from(piece.zone != next.zone);
            }
        }
    }

    /// Holds the two programs of `sweep` against the product.
    fn compare_sweeps(&mut self, of: &str, step: u64, case: &Case, theirs: &Outcome) {
        for (name, program) in SWEEPS {
            let ours = run_sweep(case, program);
            if ours != *theirs {
                let names = [name, "product"];
                self.differ(lent(case), || {
                    describe(of, step, case, names, [&ours, theirs], true)
                });
            }
        }
    }

    /// Answers the geometry where the map is another than in the step before.
    fn compare_geometry(&mut self, of: &str, step: u64, map: &[u8]) -> Option<Told> {
        if step > 0 && map == self.last_map {
            return None;
        }
        self.last_map = map.to_vec();
        let ours = geometry(map);
        let mut lent = Lent::new(map, 0xA5, (step % 8) as usize);
        let theirs = product::geometry(lent.slice());
        self.geometries[ours.number as usize] += 1;
        if ours != theirs || lent.contents() != map || !lent.guard_kept() {
            let of = format!("{of}, the map of call {step} of it: geometry\n");
            let text = format!("{of}  reference: {ours:?}\n  product: {theirs:?}\n");
            self.differ(map.len(), || text);
        }
        Some(ours)
    }

    /// Counts a generated map by what requests of document 02 brought.
    fn count(&mut self, map: &[u8], told: &Told) {
        let nzones = told.numbers[2];
        self.many_zones += u64::from(nzones > 127);
        self.above_255_zones += u64::from(nzones > 255);
        self.e_plus += u64::from(told.number == 0 && DiscRecord::read(map).version == 1);
        self.dirty_records += u64::from(only_reserved_bytes_are_wrong(map));
    }

    /// The calls on the large maps, which are not counted as generated ones.
    fn compare_large(&mut self) {
        for (of, cases) in large::maps() {
            for (case, step) in cases.iter().zip(0..) {
                self.trace(&of, step, case);
                self.compare_geometry(&of, step, &case.map);
                self.compare(&of, step, case, &case.run());
            }
        }
    }

    /// Keeps the difference with the least lent, which is easiest to look at.
    fn differ(&mut self, size: usize, text: impl FnOnce() -> String) {
        self.differences += 1;
        if !matches!(&self.smallest, Some(other) if other.size <= size) {
            let text = text();
            self.smallest = Some(Difference { size, text });
        }
    }

    fn print_table(&self) {
        print!("{:15}", "call");
        for number in 0..18 {
            print!("{number:>7}");
        }
        println!("{:>9}", "all");
        print_row("geometry", &self.geometries);
        for call in CALLS {
            print_row(call.name(), &self.compared[call as usize]);
        }
    }

    fn print_counts(&self) {
        let swept: u64 = self.compared[Call::SweepFree as usize].iter().sum();
        println!("{swept} sweeps of free space made by simple and fast too");
        println!(
            "{} accepted maps of more than 127 zones, {} of more than 255",
            self.many_zones, self.above_255_zones
        );
        println!("{} accepted maps of E+ discs", self.e_plus);
        println!(
            "{} maps with a dirty record, right in every other way",
            self.dirty_records
        );
        println!(
            "{} addresses answered where the next piece touches at the run's end, \
             {} of them across a zone's end",
            self.touching, self.touching_across_zones
        );
        self.claims.print();
        self.pieces.print();
        println!(
            "{} accepted claims released, and their lists placed",
            self.undone
        );
        self.copies.print();
        self.mends.print();
        self.formats.print();
    }

    /// What is wrong with the whole run, in lines; none where all agree and
    /// everything was reached.
    fn complaints(&self) -> Vec<String> {
        let mut lines = Vec::new();
        if let Some(difference) = &self.smallest {
            let first = format!("{} calls differ; the smallest:", self.differences);
            lines.push(format!("{first}\n{}", difference.text.trim_end()));
        }
        for call in CALLS {
            if self.compared[call as usize].iter().sum::<u64>() == 0 {
                lines.push(format!("{} was never called", call.name()));
            }
        }
        for number in (1..=17).filter(|number| *number != 14) {
            if self.compared.iter().map(|row| row[number]).sum::<u64>() == 0 {
                lines.push(format!("refusal {number} was never reached"));
            }
        }
        for number in (0..=7).filter(|number| self.geometries[*number] == 0) {
            lines.push(format!("no geometry was answered with {number}"));
        }
        lines.extend(self.never_counted());
        lines.extend(self.claims.complaints());
        lines.extend(self.pieces.complaints());
        lines.extend(self.copies.complaints(&self.compared));
        lines.extend(self.mends.complaints(&self.compared));
        lines.extend(self.formats.complaints(&self.compared));
        lines
    }

    /// What the counts of document 02's requests lack.
    fn never_counted(&self) -> Vec<String> {
        let mut lines = Vec::new();
        for (count, complaint) in [
            (
                self.dirty_records,
                "no map had a dirty record and was right in every other way",
            ),
            (self.e_plus, "no map of an E+ disc was accepted"),
            (
                self.above_255_zones,
                "no map of more than 255 zones was accepted",
            ),
            (
                self.touching,
                "no address was answered where the next piece touches at the run's end",
            ),
            (
                self.touching_across_zones,
                "no address was answered where the next piece touches across a zone's end",
            ),
        ] {
            if count == 0 {
                lines.push(complaint.to_string());
            }
        }
        lines
    }
}

fn print_row(name: &str, counts: &[u64; 18]) {
    print!("{name:15}");
    for count in counts {
        print!("{count:>7}");
    }
    println!("{:>9}", counts.iter().sum::<u64>());
}

/// Compares the large maps, the discs to format, every call of the seeds, and some maps
/// through the small program.
fn compare(seeds: std::ops::Range<u64>, program: &mut Option<Program>) -> Tally {
    let sizes = Sizes {
        map: LARGEST_MAP,
        list: 200_000,
        image: 65_536,
    };
    let mut tally = Tally::new(env::var_os("TRACE").is_some());
    tally.compare_large();
    tally.compare_discs();
    for seed in seeds {
        let of = format!("seed {seed}");
        let mut step = 0;
        let mut visit = |case: &Case, ours: &Outcome| {
            tally.trace(&of, step, case);
            if let (Some(program), 0, 0) = (program.as_mut(), step, seed % LISTED) {
                let name = format!("the first map of {of}");
                let told = program.compare(&name, &case.map);
                told.expect("the small program runs");
            }
            // What a disc is formatted in is no map yet.
            let map = (!case.call.formats()).then_some(&case.map);
            if let Some(told) = map.and_then(|map| tally.compare_geometry(&of, step, map)) {
                tally.count(&case.map, &told);
                tally.compare_mends(&of, step, &case.map);
            }
            tally.compare(&of, step, case, ours);
            tally.compare_undone(&of, step, case, ours);
            tally.claims.count(case, ours);
            tally.pieces.count(case, ours);
            tally.copies.count(case, ours);
            tally.compare_formatted(&of, step, case, ours);
            step += 1;
        };
        play(seed, &sizes, &mut visit);
        play_addresses(seed, &sizes, &mut visit);
        play_claims(seed, &sizes, &mut visit);
        play_pieces(seed, &sizes, &mut visit);
        play_copies(seed, &sizes, &mut visit);
        play_mends(seed, &sizes, &mut visit);
        play_formats(seed, &sizes, &mut visit);
    }
    tally
}

fn main() -> ExitCode {
    let seeds = match seeds() {
        Ok(seeds) => seeds,
        Err(text) => {
            eprintln!("{text}");
            return ExitCode::from(2);
        }
    };
    let mut program = env::var("MAP_LINES").ok().map(|path| Program {
        path,
        runs: 0,
        differences: 0,
    });
    if let Some(program) = &mut program {
        program.compare_fixed().expect("the small program runs");
    }

    let tally = compare(seeds.clone(), &mut program);
    let all: u64 = tally.compared.iter().flatten().sum();
    println!("seeds {}..{}: {all} calls compared", seeds.start, seeds.end);
    tally.print_table();
    tally.print_counts();

    let complaints = tally.complaints();
    for complaint in &complaints {
        println!("{complaint}");
    }
    let mut good = complaints.is_empty();
    if let Some(program) = &program {
        println!("{} maps listed by the small program", program.runs);
        good &= program.differences == 0;
    }
    if good {
        println!("every answer and every lent byte agree");
        ExitCode::SUCCESS
    } else {
        ExitCode::FAILURE
    }
}
