//! Discs that are formatted in every run, and how often each way of formatting came up
//! (R-13 of document 02). What is drawn is read from the map, and why a disc is refused from
//! its numbers.
//!
//! Two things never come up. No disc is refused for the record's 255 zones: the table's
//! rows end with at most 511,488 map bits, which 254 zones of the shortest blocks hold, and
//! an idlen below 15 allows at most 122 zones. And object 2 is never as far as the
//! overhang for that one's reaching back: it has m bits where there are one or two zones,
//! and these have at least 1,536.

use reference::case::{Call, Case, Outcome};
use reference::format::{format_length, MBYTE, TABLE};
use reference::generate::DiscToFormat;
use reference::map::{check, CheckedMap, Fragment, Owner};

/// The two calls, whose refusals are all to be reached.
const CALLS_THAT_FORMAT: [Call; 2] = [Call::Format, Call::FormatLength];

#[derive(Default)]
pub struct Formats {
    /// Refused with 2 for one number that is outside its range, all else being right.
    log2secsize: u64,
    idlen: u64,
    nothing: u64,
    no_multiple: u64,
    above_the_table: u64,
    /// Refused with 2 for P*nzones, and as object 2 and the overhang meet in the only zone
    /// or in the second.
    too_many_ids: u64,
    meet_in_one_zone: u64,
    meet_in_two: u64,
    /// Refused with 1.
    other_length: u64,
    /// Accepted, by the row of the table.
    rows: [u64; TABLE.len()],
    /// Accepted with one zone, with two and with more.
    zones: [u64; 3],
    /// Drawn without an overhang, and with one that reaches back to m bits.
    no_overhang: u64,
    reaching_back: u64,
    /// Drawn with a last zone that is all object 1's: for a part bit at its start, and for a
    /// short stretch before the overhang.
    part_bit_at_start: u64,
    stretch_before_overhang: u64,
    /// Drawn with a short stretch after object 2, and with nothing between that and the
    /// overhang.
    stretch_after_object_2: u64,
    touching: u64,
    /// Object 2 is longer than m, as both copies take more.
    long_object_2: u64,
    /// The disc ends within a map bit.
    part_bit: u64,
}

impl Formats {
    pub fn count(&mut self, case: &Case, ours: &Outcome) {
        match (case.call, ours.number) {
            (Call::Format, 0) => self.count_drawn(&check(&ours.map).expect("an accepted map")),
            (Call::Format, 1) => self.other_length += 1,
            (Call::Format, _) => self.count_refused(case.number, case.wide, case.idlen),
            _ => {}
        }
    }

    /// Counts a disc that is refused with 2, if one reason is enough for it. A longer id
    /// allows more zones, and its m is no shorter: what it can have was refused for P*nzones,
    /// and what it cannot, as object 2 and the overhang meet.
    fn count_refused(&mut self, log2secsize: u32, capacity: u64, idlen: u32) {
        let accepted = |log2secsize, capacity, idlen| {
            let length = format_length(log2secsize, capacity, idlen);
            u64::from(length.is_ok())
        };
        if !(8..=10).contains(&log2secsize) {
            let others = (8..=10).map(|other| accepted(other, capacity, idlen));
            self.log2secsize += others.max().unwrap_or(0);
            return;
        }
        if !(log2secsize + 3..=15).contains(&idlen) {
            self.idlen += accepted(log2secsize, capacity, 15);
            return;
        }
        let whole = capacity >> log2secsize << log2secsize;
        let one_zone = 256 * ((8 << log2secsize) - 512);
        if capacity == 0 {
            self.nothing += 1;
        } else if capacity != whole {
            self.no_multiple += accepted(log2secsize, whole, idlen);
        } else if capacity > 999 * MBYTE {
            self.above_the_table += 1;
        } else if accepted(log2secsize, capacity, 15) == 1 {
            self.too_many_ids += 1;
        } else if capacity <= one_zone {
            self.meet_in_one_zone += 1;
        } else {
            self.meet_in_two += 1;
        }
    }

    fn count_drawn(&mut self, checked: &CheckedMap) {
        let geometry = &checked.geometry;
        let m = geometry.shortest_fragment;
        let unit = geometry.bytes_per_map_bit;
        let row = TABLE.iter().position(|(_, log2bpmb)| unit == 1 << log2bpmb);
        self.rows[row.expect("a row of the table")] += 1;
        self.zones[geometry.nzones.min(3) - 1] += 1;
        let (disc_end, end) = (geometry.disc_end_bit(), geometry.disc_bits());
        self.no_overhang += u64::from(disc_end == end);
        self.reaching_back += u64::from(disc_end < end && end - disc_end < m);
        self.part_bit += u64::from(geometry.disc_size % unit != 0);

        let last = &checked.zones[geometry.nzones - 1];
        let first_bit = geometry.disc_bit(last[0].zone, last[0].start);
        let whole_zone = last[0].owner == Owner::Object(1);
        self.part_bit_at_start += u64::from(whole_zone && disc_end == first_bit);
        self.stretch_before_overhang += u64::from(whole_zone && disc_end > first_bit);

        let middle = &checked.zones[geometry.middle_zone()];
        let copies = 2 * (geometry.nzones * geometry.sector_size) as u64;
        let shortest = m.max(copies.div_ceil(unit) as usize);
        let meets = |part: &&Fragment| part.owner == Owner::Object(1);
        let touches = middle.get(1).filter(meets).is_some();
        self.stretch_after_object_2 += u64::from(middle[0].length > shortest);
        self.touching += u64::from(touches && middle[0].length == shortest);
        self.long_object_2 += u64::from(shortest > m);
    }

    pub fn print(&self) {
        println!(
            "discs refused for log2secsize alone {}, for idlen {}, for 0 bytes {}, for no multiple of the sector {}, as \
             they are above the table {}, for their ids {}, as object 2 and the overhang meet in one zone {}, in two {}; \
             for the buffer's length {}",
            self.log2secsize,
            self.idlen,
            self.nothing,
            self.no_multiple,
            self.above_the_table,
            self.too_many_ids,
            self.meet_in_one_zone,
            self.meet_in_two,
            self.other_length
        );
        let ([first, second, third, fourth], [one, two, more]) = (self.rows, self.zones);
        println!(
            "discs formatted by the table's rows {first}, {second}, {third}, {fourth}; with one zone {one}, with two {two}, \
             with more {more}; with room for copies longer than m {}",
            self.long_object_2
        );
        println!(
            "discs formatted without an overhang {}, with one that reaches back {}, with one of a whole zone for a part \
             bit {}, for a short stretch {}; with a short stretch after object 2 {}, where the overhang touches that {}; \
             with a part bit {}",
            self.no_overhang,
            self.reaching_back,
            self.part_bit_at_start,
            self.stretch_before_overhang,
            self.stretch_after_object_2,
            self.touching,
            self.part_bit
        );
    }

    /// What was never reached, in lines. The calls are counted by call and number.
    pub fn complaints(&self, compared: &[[u64; 18]]) -> Vec<String> {
        let mut lines = Vec::new();
        for (count, what) in self.refusals().into_iter().chain(self.drawings()) {
            if count == 0 {
                lines.push(what.to_string());
            }
        }
        for (count, (limit, _)) in self.rows.iter().zip(TABLE) {
            if *count == 0 {
                lines.push(format!("no disc of the row up to {limit} was formatted"));
            }
        }
        for call in CALLS_THAT_FORMAT {
            for number in [vec![0], call.refusals()].concat() {
                if compared[call as usize][number as usize] == 0 {
                    lines.push(format!("{} was never answered with {number}", call.name()));
                }
            }
        }
        lines
    }

    fn refusals(&self) -> [(u64, &'static str); 9] {
        [
            (self.log2secsize, "no disc was refused for log2secsize"),
            (self.idlen, "no disc was refused for idlen"),
            (self.nothing, "no disc of 0 bytes was refused"),
            (self.no_multiple, "no disc was refused for its sectors"),
            (self.above_the_table, "no disc was above the table"),
            (self.too_many_ids, "no disc was refused for P*nzones"),
            (self.meet_in_one_zone, "no objects met in one zone"),
            (self.meet_in_two, "no objects met in two zones"),
            (self.other_length, "no buffer had another length"),
        ]
    }

    fn drawings(&self) -> [(u64, &'static str); 11] {
        let [one, two, more] = self.zones;
        [
            (one, "no disc of one zone was formatted"),
            (two, "no disc of two zones was formatted"),
            (more, "no disc of more than two zones was formatted"),
            (self.long_object_2, "no object 2 was longer than m"),
            (self.no_overhang, "no map was without an overhang"),
            (self.reaching_back, "no overhang reached back"),
            (self.part_bit_at_start, "no part bit started a zone"),
            (
                self.stretch_before_overhang,
                "no short stretch was before an overhang",
            ),
            (
                self.stretch_after_object_2,
                "no short stretch was after object 2",
            ),
            (self.touching, "no overhang touched object 2"),
            (self.part_bit, "no disc ended within a map bit"),
        ]
    }
}

/// The sectors, each with its shortest id and the longest, and the most zones by the
/// shortest.
const KINDS: [(u32, u32, u64); 3] = [(8, 11, 12), (9, 12, 13), (10, 13, 14)];

/// Discs for every run: each cluster around the edges of few zones; the table's limits;
/// discs of part bits; and those that are refused for each reason there is.
pub fn discs() -> Vec<DiscToFormat> {
    let mut discs = Vec::new();
    for (log2secsize, shortest, most) in KINDS {
        let (zone, k) = ((8 << log2secsize) - 32, 1 << (log2secsize - 8));
        let of_bits = |idlen, bits: u64| DiscToFormat {
            log2secsize,
            idlen,
            capacity: 256 * bits,
        };
        for edge in [0, zone - 480, 2 * zone - 480, 3 * zone - 480] {
            for idlen in [shortest, 15] {
                let first = edge.max(20) - 20;
                let clusters = (0..=60 / k).map(|cluster| first + k * cluster);
                discs.extend(clusters.map(|bits| of_bits(idlen, bits)));
            }
        }
        let whole = most * zone - 480;
        discs.extend([whole - k, whole, whole + k].map(|bits| of_bits(shortest, bits)));
        discs.extend(limits(log2secsize));
    }
    discs.extend(part_bits());
    discs.extend(outside());
    discs
}

/// A sector around each limit of the table, with the longest id and one that is too short.
fn limits(log2secsize: u32) -> Vec<DiscToFormat> {
    let mut discs = Vec::new();
    let sector = 1 << log2secsize;
    for (limit, _) in TABLE {
        for (capacity, idlen) in [(limit, 14), (limit, 15), (limit + sector, 15)] {
            discs.push(DiscToFormat {
                log2secsize,
                idlen,
                capacity,
            });
        }
    }
    discs
}

/// A part bit at the start of a zone, with some bits before it there, and at the map's end.
fn part_bits() -> Vec<DiscToFormat> {
    let mut discs = Vec::new();
    for (log2secsize, log2bpmb, zones) in [(8, 9, 127), (9, 11, 63), (10, 11, 32)] {
        let bits: u64 = zones * ((8 << log2secsize) - 32) - 480;
        for bits in [bits - 1, bits, bits + 9] {
            discs.push(DiscToFormat {
                log2secsize,
                idlen: 15,
                capacity: (bits << log2bpmb) + (1 << log2secsize),
            });
        }
    }
    discs
}

/// Numbers out of range, just so, far, and with lower bits that are inside.
fn outside() -> Vec<DiscToFormat> {
    let disc = |log2secsize, idlen, capacity| DiscToFormat {
        log2secsize,
        idlen,
        capacity,
    };
    let mut discs = Vec::new();
    let floppy = 819_200;
    for log2secsize in [0, 7, 11, 40, 264, (1 << 31) + 8, u32::MAX - 7, u32::MAX] {
        discs.push(disc(log2secsize, 15, floppy));
    }
    for idlen in [0, 10, 16, 47, 271, (1 << 31) + 15, u32::MAX - 16, u32::MAX] {
        discs.push(disc(8, idlen, floppy));
    }
    for capacity in [
        0,
        1,
        floppy - 1,
        floppy + 128,
        1_000 * MBYTE,
        (1 << 32) + floppy,
        (1 << 63) + floppy,
        u64::MAX - 255,
        u64::MAX,
    ] {
        discs.push(disc(8, 15, capacity));
    }
    discs
}

/// Both calls on a disc: the length, and the format in a buffer of that length, of a byte
/// and of a block more, of a byte less, and in none. A refused disc has any buffer.
pub fn calls(disc: &DiscToFormat) -> Vec<Case> {
    let length = disc.case(Call::FormatLength, &[]);
    let told = length.run();
    let lengths = match told.number {
        0 => {
            let whole = told.values[0] as usize;
            let block = 1 << disc.log2secsize;
            vec![whole, whole + 1, whole + block, whole - 1, 0]
        }
        _ => vec![0, 512],
    };
    let buffer = |length: usize| -> Vec<u8> { (0..length).map(|at| !(at % 253) as u8).collect() };
    let mut cases = vec![length];
    cases.extend(
        lengths
            .into_iter()
            .map(|length| disc.case(Call::Format, &buffer(length))),
    );
    cases
}

/// Calls that a formatted map is left alone by: a check, its objects and free spans, and
/// mending it.
pub fn readings(map: &[u8]) -> Vec<Case> {
    let nzones = check(map).map_or(1, |checked| checked.geometry.nzones);
    let listed = |call, id, entries| {
        let mut case = Case::new(call, map);
        case.number = id;
        case.list = vec![0; entries];
        case
    };
    vec![
        Case::new(Call::Check, map),
        listed(Call::List, 1, 2),
        listed(Call::List, 2, 2),
        listed(Call::Free, 0, 2 * nzones),
        Case::new(Call::Mend, map),
    ]
}

/// A claim in the first hole of a formatted map, if it has one.
pub fn claim(map: &[u8]) -> Case {
    let mut case = Case::new(Call::Claim, map);
    case.wide = 1;
    case.list = vec![0; 2];
    case
}

/// Whether a reading of a formatted map is what the request asks for: accepted, but that
/// there may be no object 1, and nothing written.
pub fn is_in_order(case: &Case, outcome: &Outcome) -> bool {
    let no_overhang = (case.call, case.number, outcome.number) == (Call::List, 1, 10);
    (outcome.number == 0 || no_overhang) && outcome.map == case.map
}
