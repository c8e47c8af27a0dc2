//! How often each way of mending a map came up (R-9 of document 02). All of it is read
//! from the map before and after it.

use reference::case::{Call, Case, Outcome};
use reference::generate::objects;
use reference::map::{
    block, check, check_but_for_checks, zone_check_by_words, CheckedMap, Fragment, Owner,
};

/// The calls that mend, whose refusals are all to be reached.
const CALLS_THAT_MEND: [Call; 2] = [Call::Mend, Call::MendPositions];

/// Of how many objects of a mended map the pieces are listed.
const LISTED: usize = 3;

#[derive(Default)]
pub struct Mends {
    /// Maps that stay as they are, and those that have 3, 4 or 9 alone, or all of these.
    in_order: u64,
    zone_check_alone: u64,
    cross_check_alone: u64,
    touching_alone: u64,
    all_together: u64,
    /// Three touching free fragments or more in a row.
    three_in_a_row: u64,
    /// Touching ones at a zone's start, and at its end.
    at_start: u64,
    at_end: u64,
    /// Free fragments on both sides of a zone's end, and some that touch in one of the
    /// two zones.
    across: u64,
    /// A wrong zone check that comes out equal by chance.
    equal_check: u64,
    /// Refused with 5, 6 or 7, where a check tells 3 or 4.
    behind_checks: u64,
    /// Accepted edits of maps that were mended.
    pub edits: u64,
}

/// What is wrong with a map, of that which can be mended.
struct Faults {
    zone_check: bool,
    cross_check: bool,
    touching: bool,
}

impl Mends {
    /// Counts a map by what the mender answered and left.
    pub fn count(&mut self, map: &[u8], mended: &Outcome) {
        let Ok(checked) = check_but_for_checks(map) else {
            let hidden = check(map).is_err_and(|refusal| matches!(refusal.number, 3 | 4));
            self.behind_checks += u64::from(hidden && mended.number > 4);
            return;
        };
        self.in_order += u64::from(mended.map == map);
        let Faults {
            zone_check,
            cross_check,
            touching,
        } = faults(map, &checked);
        match (zone_check, cross_check, touching) {
            (true, false, false) => self.zone_check_alone += 1,
            (false, true, false) => self.cross_check_alone += 1,
            (false, false, true) => self.touching_alone += 1,
            (true, true, true) => self.all_together += 1,
            _ => {}
        }
        self.count_rows(&checked);
        let equal = |zone: &usize| {
            let size = checked.geometry.sector_size;
            let (before, after) = (block(map, size, *zone), block(&mended.map, size, *zone));
            before[0] != zone_check_by_words(before) && before[0] == after[0]
        };
        self.equal_check += u64::from((0..checked.zones.len()).any(|zone| equal(&zone)));
    }

    fn count_rows(&mut self, checked: &CheckedMap) {
        let zones = &checked.zones;
        let three = |zone: &Vec<Fragment>| zone.windows(3).any(all_free);
        let first = |zone: &Vec<Fragment>| zone.len() > 1 && all_free(&zone[..2]);
        let last = |zone: &Vec<Fragment>| zone.len() > 1 && all_free(&zone[zone.len() - 2..]);
        let across = |two: &[Vec<Fragment>]| {
            let (before, after) = (&two[0], &two[1]);
            let meet = [before[before.len() - 1], after[0]];
            all_free(&meet) && (last(before) || first(after))
        };
        self.three_in_a_row += u64::from(zones.iter().any(three));
        self.at_start += u64::from(zones.iter().any(first));
        self.at_end += u64::from(zones.iter().any(last));
        self.across += u64::from(zones.windows(2).any(across));
    }

    pub fn print(&self) {
        println!(
            "maps mended with 3 alone {}, with 4 alone {}, with 9 alone {}, with all of these {}; {} in order",
            self.zone_check_alone,
            self.cross_check_alone,
            self.touching_alone,
            self.all_together,
            self.in_order
        );
        println!(
            "maps mended with three free fragments in a row {}, with a row at a zone's start {}, at its end {}, with \
             one that touches a free fragment of the next zone {}; {} with a wrong zone check that is the new one",
            self.three_in_a_row, self.at_start, self.at_end, self.across, self.equal_check
        );
        println!(
            "{} maps not mended for 5, 6 or 7 where a check tells 3 or 4; {} edits of mended maps accepted",
            self.behind_checks, self.edits
        );
    }

    /// What was never reached, in lines. The calls are counted by call and number.
    pub fn complaints(&self, compared: &[[u64; 18]]) -> Vec<String> {
        let mut lines = Vec::new();
        for (count, what) in [
            (self.in_order, "no map to mend was in order"),
            (self.zone_check_alone, "no map was mended for 3 alone"),
            (self.cross_check_alone, "no map was mended for 4 alone"),
            (self.touching_alone, "no map was mended for 9 alone"),
            (self.all_together, "no map was mended for 3, 4 and 9"),
            (self.three_in_a_row, "no map had three in a row to join"),
            (self.at_start, "no map had a row at a zone's start"),
            (self.at_end, "no map had a row at a zone's end"),
            (self.across, "no row touched one of the next zone"),
            (self.equal_check, "no wrong zone check was the new one"),
            (self.behind_checks, "no map had 5, 6 or 7 behind 3 or 4"),
            (self.edits, "no edit of a mended map was accepted"),
        ] {
            if count == 0 {
                lines.push(what.to_string());
            }
        }
        for call in CALLS_THAT_MEND {
            for number in [vec![0], call.refusals()].concat() {
                if compared[call as usize][number as usize] == 0 {
                    lines.push(format!("{} was never answered with {number}", call.name()));
                }
            }
        }
        lines
    }
}

fn all_free(fragments: &[Fragment]) -> bool {
    let free = |fragment: &Fragment| fragment.owner == Owner::Free;
    fragments.iter().all(free)
}

fn faults(map: &[u8], checked: &CheckedMap) -> Faults {
    let blocks = || map.chunks_exact(checked.geometry.sector_size);
    let touch = |zone: &Vec<Fragment>| zone.windows(2).any(all_free);
    Faults {
        zone_check: blocks().any(|block| block[0] != zone_check_by_words(block)),
        cross_check: blocks().fold(0, |all, block| all ^ block[3]) != 255,
        touching: checked.zones.iter().any(touch),
    }
}

/// The positions of the bytes that a mend changed.
pub fn changed(before: &[u8], after: &[u8]) -> Vec<u32> {
    let differ = |at: &usize| before[*at] != after[*at];
    let positions = (0..before.len()).filter(differ);
    positions.map(|at| at as u32).collect()
}

/// The second call with so much room.
pub fn positions(map: &[u8], entries: usize) -> Case {
    let mut case = Case::new(Call::MendPositions, map);
    case.list = vec![u32::MAX; entries];
    case
}

/// Calls that a mended map must be left alone by: a check; mending it again, and that
/// there is nothing to list; its free spans, and the pieces of a few objects.
pub fn readings(mended: &[u8]) -> Vec<Case> {
    let mut cases = vec![
        Case::new(Call::Check, mended),
        Case::new(Call::Mend, mended),
    ];
    cases.push(positions(mended, 0));
    let Ok(checked) = check(mended) else {
        return cases;
    };
    let mut free = Case::new(Call::Free, mended);
    free.list = vec![0; 2 * checked.free().len()];
    cases.push(free);
    for id in objects(&checked).into_iter().rev().take(LISTED) {
        cases.push(listed(Call::List, &checked, mended, id));
    }
    cases
}

/// Edits of a mended map: the release of an ordinary object, if there is one, and a claim
/// in the first hole, if there is one.
pub fn edits(mended: &[u8]) -> Vec<Case> {
    let mut cases = Vec::new();
    let Ok(checked) = check(mended) else {
        return cases;
    };
    if let Some(id) = objects(&checked).into_iter().find(|id| *id >= 3) {
        cases.push(listed(Call::Release, &checked, mended, id));
    }
    if !checked.free().is_empty() {
        let mut claim = Case::new(Call::Claim, mended);
        claim.wide = 1;
        claim.list = vec![0; 2];
        cases.push(claim);
    }
    cases
}

/// A call on an object of the map, with room for all its pieces.
fn listed(call: Call, checked: &CheckedMap, map: &[u8], id: u32) -> Case {
    let pieces = checked.object(id).expect("an id on the map");
    let mut case = Case::new(call, map);
    case.number = id;
    case.list = vec![0; 2 * pieces.len()];
    case
}
