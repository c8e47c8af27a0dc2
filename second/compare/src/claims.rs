//! How often each way of a claim with a parent zone came up (R-6 of document 02). It
//! counts claims of one hole only: of several the parent decides nothing.

use reference::case::{Call, Case, Outcome};
use reference::edit::need;
use reference::map::{check, CheckedMap, Owner};

/// Accepted claims, but for the last number.
#[derive(Default)]
pub struct Claims {
    /// The hole is in the parent zone, in a zone below it, in a zone above it.
    in_parent: u64,
    below: u64,
    above: u64,
    /// It is below, and as far above there is one long enough too.
    as_far_above: u64,
    /// The id is none of the hole's zone, as none was left there.
    other_ids: u64,
    /// Refused with 12, and not for 0 bytes.
    no_such_parent: u64,
}

impl Claims {
    pub fn count(&mut self, case: &Case, ours: &Outcome) {
        if case.call != Call::Claim {
            return;
        }
        match ours.number {
            0 if ours.values[1] == 1 => self.count_accepted(case, ours),
            12 => self.no_such_parent += u64::from(case.wide != 0),
            _ => {}
        }
    }

    fn count_accepted(&mut self, case: &Case, ours: &Outcome) {
        let checked = check(&case.map).expect("a map that was accepted");
        let geometry = &checked.geometry;
        let parent = case.number as usize;
        let id = ours.values[0] as u32;
        let zone = geometry.zone_of(ours.list[0] as usize);
        self.in_parent += u64::from(zone == parent);
        self.above += u64::from(zone > parent);
        if zone < parent {
            self.below += 1;
            let mirrored = parent + (parent - zone);
            let found = has_hole(&checked, mirrored, need(geometry, case.wide));
            self.as_far_above += u64::from(found);
        }
        let of_zone = geometry.start_zone(id) == Ok(zone);
        self.other_ids += u64::from(!of_zone);
    }

    pub fn print(&self) {
        println!(
            "claims accepted with the hole in the parent zone {}, below it {}, above it {}; {} of those below \
             where one as far above was long enough too",
            self.in_parent, self.below, self.above, self.as_far_above
        );
        println!(
            "{} claims accepted with an id of another zone than the hole's, as that had none left",
            self.other_ids
        );
        println!(
            "{} claims refused with 12 for the parent zone alone",
            self.no_such_parent
        );
    }

    /// What was never reached, in lines.
    pub fn complaints(&self) -> Vec<String> {
        let mut lines = Vec::new();
        for (count, complaint) in [
            (self.in_parent, "no claim had its hole in the parent zone"),
            (self.below, "no claim had its hole below the parent zone"),
            (self.above, "no claim had its hole above the parent zone"),
            (
                self.as_far_above,
                "no claim had a hole below its parent zone and another as far above",
            ),
            (
                self.other_ids,
                "no claim was given an id of another zone than the hole's",
            ),
            (
                self.no_such_parent,
                "no claim was refused for its parent zone alone",
            ),
        ] {
            if count == 0 {
                lines.push(complaint.to_string());
            }
        }
        lines
    }
}

/// Whether a zone is there and has a hole of length at least need.
fn has_hole(checked: &CheckedMap, zone: usize, need: u128) -> bool {
    let mut fragments = checked.zones.get(zone).into_iter().flatten();
    fragments.any(|fragment| fragment.owner == Owner::Free && fragment.length as u128 >= need)
}
