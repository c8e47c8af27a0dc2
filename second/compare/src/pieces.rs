//! How often each way of a claim in several pieces came up (R-8 of document 02). All of
//! it is read from the map before the claim and the list it answered.

use std::cmp::Reverse;
use std::collections::{BTreeMap, BTreeSet};

use reference::case::{Call, Case, Outcome};
use reference::edit::need;
use reference::map::check;

/// Accepted claims by their pieces, those of several by more, and refused ones.
#[derive(Default)]
pub struct Pieces {
    /// In one piece; in several of one zone, of two, of three or more.
    one_piece: u64,
    one_zone: u64,
    two_zones: u64,
    more_zones: u64,
    /// The list goes on from zone 0 after a later zone.
    wrapped: u64,
    /// The last hole taken is as long as what remained.
    rest_0: u64,
    /// Fewer than m bits remained for it.
    rest_below_m: u64,
    /// It is all taken, as too little would be left over.
    leftover: u64,
    /// A part of it is taken.
    cut: u64,
    /// Another hole as long as it is not taken.
    some_of_equal: u64,
    /// The id is none of the first hole's zone, as none was left there.
    other_ids: u64,
    /// Refused with 15 and with 17.
    too_few_bits: u64,
    too_few_entries: u64,
}

/// A hole of which something was taken.
struct Taken {
    start: u32,
    hole: u32,
    piece: u32,
}

impl Pieces {
    pub fn count(&mut self, case: &Case, ours: &Outcome) {
        if case.call != Call::Claim {
            return;
        }
        match ours.number {
            0 if ours.values[1] == 1 => self.one_piece += 1,
            0 => self.count_several(case, ours),
            15 => self.too_few_bits += 1,
            17 => self.too_few_entries += 1,
            _ => {}
        }
    }

    fn count_several(&mut self, case: &Case, ours: &Outcome) {
        let checked = check(&case.map).expect("a map that was accepted");
        let geometry = &checked.geometry;
        let mut holes: BTreeMap<u32, u32> = checked
            .free()
            .iter()
            .map(|hole| checked.pair(hole))
            .collect();
        let pairs = ours.list[..2 * ours.values[1] as usize].chunks(2);
        let zone_of = |disc_bit: u32| geometry.zone_of(disc_bit as usize);

        let zones: BTreeSet<usize> = pairs.clone().map(|pair| zone_of(pair[0])).collect();
        match zones.len() {
            1 => self.one_zone += 1,
            2 => self.two_zones += 1,
            _ => self.more_zones += 1,
        }
        let ascending = pairs.clone().is_sorted_by_key(|pair| pair[0]);
        self.wrapped += u64::from(!ascending);

        let mut taken = Vec::new();
        for pair in pairs {
            let (start, piece) = (pair[0], pair[1]);
            let hole = holes.remove(&start).expect("a piece at a hole's start");
            taken.push(Taken { start, hole, piece });
        }
        taken.sort_by_key(|taken| (Reverse(taken.hole), taken.start));
        let last = taken.pop().expect("several pieces");
        let before: u32 = taken.iter().map(|taken| taken.piece).sum();
        let rest = need(geometry, case.wide) as u32 - before;
        let m = geometry.shortest_fragment as u32;
        self.rest_0 += u64::from(last.hole == rest);
        self.rest_below_m += u64::from(rest < m);
        self.leftover += u64::from(last.piece == last.hole && last.hole > rest.max(m));
        self.cut += u64::from(last.piece < last.hole);
        let equal = holes.values().any(|length| *length == last.hole);
        self.some_of_equal += u64::from(equal);
        let start_zone = geometry.start_zone(ours.values[0] as u32);
        self.other_ids += u64::from(start_zone != Ok(zone_of(taken[0].start)));
    }

    pub fn print(&self) {
        println!(
            "claims accepted in one piece {}, in several of one zone {}, of two {}, of more {}; {} of those in \
             several with an order that goes round, {} with an id of another zone than the first hole's",
            self.one_piece,
            self.one_zone,
            self.two_zones,
            self.more_zones,
            self.wrapped,
            self.other_ids
        );
        println!(
            "the last hole was as long as the rest {} times, cut {}, all taken for its leftover {}; the rest was \
             below m {} times, and another hole as long was left {}",
            self.rest_0, self.cut, self.leftover, self.rest_below_m, self.some_of_equal
        );
        println!(
            "claims refused with 15 {}, with 17 {}",
            self.too_few_bits, self.too_few_entries
        );
    }

    /// What was never reached, in lines.
    pub fn complaints(&self) -> Vec<String> {
        let mut lines = Vec::new();
        for (count, what) in [
            (self.one_piece, "was in one piece"),
            (self.one_zone, "had several pieces in one zone"),
            (self.two_zones, "had pieces in two zones"),
            (self.more_zones, "had pieces in three zones or more"),
            (self.wrapped, "had a list that goes round"),
            (self.rest_0, "ended with a whole hole as long as the rest"),
            (self.rest_below_m, "had a rest below m"),
            (self.leftover, "took the last hole for its leftover"),
            (self.cut, "took a part of the last hole"),
            (self.some_of_equal, "took some of the holes of one length"),
            (self.other_ids, "was given an id of another zone, in pieces"),
            (self.too_few_bits, "was refused with 15"),
            (self.too_few_entries, "was refused with 17"),
        ] {
            if count == 0 {
                lines.push(format!("no claim {what}"));
            }
        }
        lines
    }
}
