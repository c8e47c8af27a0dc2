//! One call, made by the product, an earlier build of it or the reference.

use product::{Answer, Calls};
use reference::case::{Call, Case};
use reference::{edit, format, map, mend, read, Refusal};

use crate::maps::WINDOW;

/// What a call is lent. The same bytes serve every round, as new ones would
/// have to be fetched into memory during the call.
#[derive(Clone, Debug, PartialEq, Eq)]
pub struct Lent {
    pub map: Vec<u8>,
    pub list: Vec<u32>,
    pub image: Vec<u8>,
}

impl Lent {
    /// Only a sweep is lent an image. No case holds one, as those of many
    /// maps would be large.
    pub fn new(case: &Case) -> Lent {
        let sweeps = case.call.writes_image();
        Lent {
            map: case.map.clone(),
            list: case.list.clone(),
            image: vec![0; if sweeps { WINDOW } else { 0 }],
        }
    }

    /// Makes everything as it is before the call. The case may be another one
    /// of the same call and size.
    pub fn reset(&mut self, case: &Case) {
        self.map.copy_from_slice(&case.map);
        self.list.copy_from_slice(&case.list);
        self.image.fill(0);
    }
}

/// Who makes a call.
pub enum Side {
    /// The product as it is linked, or an earlier build. Both are called in
    /// the same way, so that nothing but their code and its place differs.
    Library(Calls),
    Reference,
}

impl Side {
    pub fn call(&self, case: &Case, lent: &mut Lent) -> Answer {
        match self {
            Side::Library(calls) => {
                calls.call(case, &mut lent.map, &mut lent.list, &mut lent.image)
            }
            Side::Reference => reference(case, lent),
        }
    }
}

/// All who make each call, in the order of a round: the product first and the
/// reference last, between them the earlier build if there is one.
pub fn sides(before: Option<Calls>) -> Vec<Side> {
    let mut sides = vec![Side::Library(Calls::LINKED)];
    sides.extend(before.map(Side::Library));
    sides.push(Side::Reference);
    sides
}

/// The call as the reference makes it.
fn reference(case: &Case, lent: &mut Lent) -> Answer {
    let (map, list) = (&mut lent.map, &mut lent.list);
    let (wide, fill, id) = (case.wide, case.fill, case.number);
    let one = |answer: Result<u64, Refusal>| answer.map(|value| [value, 0]);
    let answer = match case.call {
        Call::Check => map::check(map).map(|_| [0; 2]),
        Call::List => one(read::list(map, id, list)),
        Call::Free => one(read::free(map, list)),
        Call::SweepFree => one(read::sweep_free(map, &mut lent.image, wide, fill)),
        Call::Release => one(edit::release(map, id, list)),
        Call::Place => edit::place(map, id, list).map(|_| [0; 2]),
        Call::Claim => edit::claim(map, wide, case.number, list)
            .map(|claimed| [claimed.id as u64, claimed.pairs]),
        Call::Mend => mend::mend(map).map(|_| [0; 2]),
        Call::MendPositions => one(mend::mend_positions(map, list)),
        Call::Format => format::format(case.number, wide, case.idlen, map).map(|_| [0; 2]),
        Call::Address | Call::SweepObject | Call::FormatLength => unreachable!("not measured"),
        Call::ChooseCopy | Call::CopyOver | Call::CopyAddresses => unreachable!("not measured"),
    };
    let (number, zone, values) = match answer {
        Ok(values) => (0, 0, values),
        Err(refusal) => (refusal.number, refusal.zone, [0; 2]),
    };
    Answer {
        number,
        zone,
        values,
    }
}
