//! Cases from a fixed range of seeds.

use std::collections::BTreeMap;

use reference::case::{Call, Case, Outcome};
use reference::generate::{play, play_mends, Sizes};

/// The largest map the seeds are played with. The larger ones there are would
/// take up most of what is stored; some are written out, in `zones`.
const LARGEST_MAP: usize = 32_768;

/// A small case for each call and each of its refusals, and a few accepted
/// ones of each call, one of them large. Claims of 0 bytes and those without a parent
/// zone (R-6 of document 02) are refused with the same number, and counted apart, as are
/// those accepted in one piece and in several.
pub fn from_seeds(sizes: &Sizes) -> Vec<Case> {
    let sizes = &Sizes {
        map: LARGEST_MAP,
        ..*sizes
    };
    let mut taken = Vec::new();
    let mut times: BTreeMap<(Call, u32, bool), usize> = BTreeMap::new();
    let mut larger: BTreeMap<Call, usize> = BTreeMap::new();
    let apart = |case: &Case, outcome: &Outcome| match (case.call, outcome.number) {
        (Call::Claim, 12) => case.wide != 0,
        (Call::Claim, 0) => outcome.values[1] > 1,
        _ => false,
    };
    for seed in 1_000..3_000 {
        // At most two cases of a seed, so that the maps differ.
        let mut of_seed = 0;
        play(seed, sizes, &mut |case: &Case, outcome: &Outcome| {
            let bytes = case.bytes().len();
            let kind = (case.call, outcome.number, apart(case, outcome));
            let wanted = if outcome.number == 0 { 4 } else { 1 };
            let count = times.entry(kind).or_insert(0);
            let small = bytes <= 3_200 && *count < wanted;
            let large = outcome.number == 0
                && (8_000..16_000).contains(&bytes)
                && larger.get(&case.call).copied().unwrap_or(0) < 1;
            if of_seed < 2 && (small || large) {
                if small {
                    *count += 1;
                } else {
                    *larger.entry(case.call).or_insert(0) += 1;
                }
                of_seed += 1;
                taken.push(case.clone());
            }
        });
    }
    taken
}

/// A small case for each refusal of the two calls that mend a map (R-9 of document 02),
/// and a few accepted ones of each that change something.
pub fn mends_from_seeds(sizes: &Sizes) -> Vec<Case> {
    let mut taken = Vec::new();
    let mut times: BTreeMap<(Call, u32), usize> = BTreeMap::new();
    for seed in 1_000..3_000 {
        // One case of a seed, so that the maps differ.
        let mut of_seed = 0;
        play_mends(seed, sizes, &mut |case: &Case, outcome: &Outcome| {
            let in_order = outcome.number == 0
                && outcome.map == case.map
                && outcome.values.iter().all(|value| *value == 0);
            let wanted = if outcome.number == 0 { 3 } else { 1 };
            let count = times.entry((case.call, outcome.number)).or_insert(0);
            // No bytes at all are written out.
            let small = !case.map.is_empty() && case.bytes().len() <= 1_600;
            if case.call.mends() && !in_order && small && *count < wanted && of_seed < 1 {
                *count += 1;
                of_seed += 1;
                taken.push(case.clone());
            }
        });
    }
    taken
}
