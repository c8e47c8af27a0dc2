//! How often each outcome of the calls on two copies came up (R-5 of document 02).

use reference::case::{Call, Case, Outcome};
use reference::map::check;

/// The calls on copies, whose refusals are all to be reached.
const CALLS_ON_COPIES: [Call; 3] = [Call::ChooseCopy, Call::CopyOver, Call::CopyAddresses];

/// Which copy is chosen, 0 for none, and whether they are equal. The second is chosen
/// where the first is refused, so that the two are not equal then.
const CHOICES: [(&str, usize, usize); 5] = [
    ("no first copy was chosen of unequal ones", 1, 0),
    ("no first copy was chosen of equal ones", 1, 1),
    ("no second copy was chosen", 2, 0),
    ("no unequal copies were both refused", 0, 0),
    ("no equal copies were both refused", 0, 1),
];

#[derive(Default)]
pub struct Copies {
    /// By which copy was chosen, and by whether they are equal.
    choices: [[u64; 2]; 3],
    /// Copies of an accepted source that were refused, as the lengths differ.
    other_lengths: u64,
}

impl Copies {
    pub fn count(&mut self, case: &Case, ours: &Outcome) {
        match case.call {
            Call::ChooseCopy => {
                let [which, equal] = [0, 1].map(|index| ours.values[index] as usize);
                self.choices[which][equal] += 1;
            }
            Call::CopyOver => {
                let accepted = ours.number == 1 && check(&case.map).is_ok();
                self.other_lengths += u64::from(accepted);
            }
            _ => {}
        }
    }

    pub fn print(&self) {
        let [neither, first, second] = self.choices;
        println!(
            "the first of two copies chosen {} times, {} of them of equal ones; the second {}; \
             neither {}, {} of them of equal ones",
            first[0] + first[1],
            first[1],
            second[0] + second[1],
            neither[0] + neither[1],
            neither[1]
        );
        println!(
            "{} accepted maps not copied over another, as the lengths differ",
            self.other_lengths
        );
    }

    /// What was never reached, in lines. The calls are counted by call and number.
    pub fn complaints(&self, compared: &[[u64; 18]]) -> Vec<String> {
        let mut lines = Vec::new();
        for (complaint, which, equal) in CHOICES {
            if self.choices[which][equal] == 0 {
                lines.push(complaint.to_string());
            }
        }
        if self.other_lengths == 0 {
            lines.push("no accepted map had another length than its target".to_string());
        }
        for call in CALLS_ON_COPIES {
            for number in call.refusals() {
                if compared[call as usize][number as usize] == 0 {
                    lines.push(format!("{} was never refused with {number}", call.name()));
                }
            }
        }
        lines
    }
}
