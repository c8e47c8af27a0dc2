//! One call with all it is lent, what came of it, and the stored forms.

use std::fmt::Display;

use crate::{copies, edit, format, map, mend, read, Refusal};

/// The calls, numbered as in a stored case.
#[derive(Clone, Copy, Debug, PartialEq, Eq, PartialOrd, Ord)]
pub enum Call {
    Check = 1,
    List,
    Free,
    Address,
    SweepObject,
    SweepFree,
    Release,
    Place,
    Claim,
    ChooseCopy,
    CopyOver,
    CopyAddresses,
    Mend,
    MendPositions,
    Format,
    FormatLength,
}

pub const CALLS: [Call; 16] = [
    Call::Check,
    Call::List,
    Call::Free,
    Call::Address,
    Call::SweepObject,
    Call::SweepFree,
    Call::Release,
    Call::Place,
    Call::Claim,
    Call::ChooseCopy,
    Call::CopyOver,
    Call::CopyAddresses,
    Call::Mend,
    Call::MendPositions,
    Call::Format,
    Call::FormatLength,
];

/// Those of document 01, which are made on one map. The others are about a map's two
/// copies (R-5 of document 02), mend a map, or make a new one.
pub const CALLS_ON_ONE_MAP: &[Call] = CALLS.split_at(9).0;

impl Call {
    pub fn name(self) -> &'static str {
        match self {
            Call::Check => "check",
            Call::List => "list",
            Call::Free => "free",
            Call::Address => "address",
            Call::SweepObject => "sweep_object",
            Call::SweepFree => "sweep_free",
            Call::Release => "release",
            Call::Place => "place",
            Call::Claim => "claim",
            Call::ChooseCopy => "choose_copy",
            Call::CopyOver => "copy_over",
            Call::CopyAddresses => "copy_addresses",
            Call::Mend => "mend",
            Call::MendPositions => "mend_positions",
            Call::Format => "format",
            Call::FormatLength => "format_length",
        }
    }

    /// The refusals that document 01's table allows the call, 14 left out, for claim
    /// R-8 of document 02, for the calls on copies R-5, for those that mend R-9, and for
    /// the last two R-13.
    pub fn refusals(self) -> Vec<u32> {
        let of_the_map: &[u32] = match self {
            Call::Format => &[1, 2],
            Call::FormatLength => &[2],
            _ if self.mends() => &[1, 2, 5, 6, 7],
            _ => &[1, 2, 3, 4, 5, 6, 7],
        };
        let mut numbers = of_the_map.to_vec();
        numbers.extend_from_slice(match self {
            Call::Check => &[],
            Call::List => &[8, 10, 17],
            Call::Free => &[17],
            Call::Address => &[8, 10, 16],
            Call::SweepObject => &[8, 10, 16],
            Call::SweepFree => &[16],
            Call::Release => &[8, 9, 10, 17],
            Call::Place => &[8, 9, 11, 12, 13],
            Call::Claim => &[9, 12, 15, 17],
            Call::ChooseCopy | Call::CopyOver | Call::CopyAddresses => &[],
            Call::Mend => &[],
            Call::MendPositions => &[17],
            Call::Format | Call::FormatLength => &[],
        });
        numbers
    }

    /// Whether it mends a map, or tells what that would change (R-9 of document 02).
    pub fn mends(self) -> bool {
        matches!(self, Call::Mend | Call::MendPositions)
    }

    /// Whether it makes the map of a blank disc, or tells how long that is.
    pub fn formats(self) -> bool {
        matches!(self, Call::Format | Call::FormatLength)
    }

    /// How many numbers it answers besides the refusal's number and zone.
    pub fn values(self) -> usize {
        match self {
            Call::Check | Call::Place | Call::CopyOver | Call::Mend | Call::Format => 0,
            Call::Address | Call::Claim | Call::ChooseCopy | Call::CopyAddresses => 2,
            _ => 1,
        }
    }

    /// How many of them, the first ones, are 0 where it is refused: all, but that
    /// whether two copies are equal is told of refused ones too.
    pub fn zeros(self) -> usize {
        match self {
            Call::ChooseCopy => 1,
            _ => self.values(),
        }
    }

    pub fn writes_list(self) -> bool {
        matches!(
            self,
            Call::List | Call::Free | Call::Release | Call::Claim | Call::MendPositions
        )
    }

    pub fn writes_map(self) -> bool {
        matches!(
            self,
            Call::Release | Call::Place | Call::Claim | Call::Mend | Call::Format
        )
    }

    pub fn writes_image(self) -> bool {
        matches!(self, Call::SweepObject | Call::SweepFree)
    }

    /// Whether it writes the map copy that is lent in place of an image.
    pub fn writes_copy(self) -> bool {
        self == Call::CopyOver
    }
}

/// A call with its arguments and the bytes and entries lent to it.
#[derive(Clone, Debug, PartialEq, Eq)]
pub struct Case {
    pub call: Call,
    pub fill: u8,
    /// The id, an internal number n, a claim's parent zone, or log2secsize of a disc to
    /// format.
    pub number: u32,
    /// The position, first disc address, size, or the capacity of a disc to format.
    pub wide: u64,
    /// The idlen of a disc to format, and else 0.
    pub idlen: u32,
    /// The map. Of two copies the first, or the source. Where a disc is formatted the
    /// buffer that is lent for it.
    pub map: Vec<u8>,
    /// The room lent for pairs or positions, with its old contents, or the list handed in.
    pub list: Vec<u32>,
    /// The image. Of two copies the second, or the target.
    pub image: Vec<u8>,
}

/// What a call answered, and everything lent as it was left.
#[derive(Clone, Debug, PartialEq, Eq)]
pub struct Outcome {
    /// The refusal's number, or 0 where accepted.
    pub number: u32,
    pub zone: u32,
    pub values: Vec<u64>,
    pub map: Vec<u8>,
    pub list: Vec<u32>,
    pub image: Vec<u8>,
}

impl Case {
    /// A call on a map, with no other argument yet.
    pub fn new(call: Call, map: &[u8]) -> Case {
        Case {
            call,
            fill: 0,
            number: 0,
            wide: 0,
            idlen: 0,
            map: map.to_vec(),
            list: Vec::new(),
            image: Vec::new(),
        }
    }

    /// The format of a disc in a lent buffer, or the question for its length, which is
    /// lent none (R-13 of document 02).
    pub fn formatting(
        call: Call,
        log2secsize: u32,
        capacity: u64,
        idlen: u32,
        buffer: &[u8],
    ) -> Case {
        Case {
            number: log2secsize,
            wide: capacity,
            idlen,
            ..Case::new(call, buffer)
        }
    }

    /// Runs the call on copies of all it is lent.
    pub fn run(&self) -> Outcome {
        let mut map = self.map.clone();
        let mut list = self.list.clone();
        let mut image = self.image.clone();
        let (refusal, values) = match self.call {
            Call::ChooseCopy => chosen(&map, &image),
            _ => match self.answer(&mut map, &mut list, &mut image) {
                Ok(values) => (None, values),
                Err(refusal) => (Some(refusal), vec![0; self.call.values()]),
            },
        };
        let (number, zone) = refusal.map_or((0, 0), |refusal| (refusal.number, refusal.zone));
        Outcome {
            number,
            zone,
            values,
            map,
            list,
            image,
        }
    }

    /// Runs the call on what is lent here, and answers its values.
    fn answer(
        &self,
        map: &mut [u8],
        list: &mut [u32],
        image: &mut [u8],
    ) -> Result<Vec<u64>, Refusal> {
        let (id, wide, fill) = (self.number, self.wide, self.fill);
        let parent = self.number;
        let (log2secsize, capacity, idlen) = (self.number, self.wide, self.idlen);
        let one = |answer: Result<u64, Refusal>| answer.map(|value| vec![value]);
        match self.call {
            Call::Check => map::check(map).map(|_| vec![]),
            Call::List => one(read::list(map, id, list)),
            Call::Free => one(read::free(map, list)),
            Call::Address => {
                read::address(map, id, wide).map(|location| vec![location.address, location.run])
            }
            Call::SweepObject => one(read::sweep_object(map, image, wide, fill, id)),
            Call::SweepFree => one(read::sweep_free(map, image, wide, fill)),
            Call::Release => one(edit::release(map, id, list)),
            Call::Place => edit::place(map, id, list).map(|_| vec![]),
            Call::Claim => edit::claim(map, wide, parent, list)
                .map(|claimed| vec![claimed.id as u64, claimed.pairs]),
            Call::ChooseCopy => unreachable!("it has a value where it is refused"),
            Call::CopyOver => copies::copy_over(map, image).map(|_| vec![]),
            Call::CopyAddresses => {
                copies::copy_addresses(map).map(|copies| vec![copies.first, copies.second])
            }
            Call::Mend => mend::mend(map).map(|_| vec![]),
            Call::MendPositions => one(mend::mend_positions(map, list)),
            Call::Format => format::format(log2secsize, capacity, idlen, map).map(|_| vec![]),
            Call::FormatLength => one(format::format_length(log2secsize, capacity, idlen)),
        }
    }

    /// The stored form: a head of 32 bytes, the map, the list, the image.
    pub fn bytes(&self) -> Vec<u8> {
        let mut bytes = vec![self.call as u8, self.fill, 0, 0];
        bytes.extend_from_slice(&self.number.to_le_bytes());
        bytes.extend_from_slice(&self.wide.to_le_bytes());
        bytes.extend_from_slice(&(self.map.len() as u32).to_le_bytes());
        bytes.extend_from_slice(&(self.list.len() as u32).to_le_bytes());
        bytes.extend_from_slice(&(self.image.len() as u32).to_le_bytes());
        bytes.extend_from_slice(&self.idlen.to_le_bytes());
        bytes.extend_from_slice(&self.map);
        for entry in &self.list {
            bytes.extend_from_slice(&entry.to_le_bytes());
        }
        bytes.extend_from_slice(&self.image);
        bytes
    }

    /// The line stored for an outcome of this case, without its newline.
    pub fn line(&self, outcome: &Outcome) -> String {
        let mut line = format!("{} {} {}", self.call.name(), outcome.number, outcome.zone);
        for value in &outcome.values {
            line += &format!(" {value}");
        }
        if self.call.writes_list() {
            line += &changed("list", &self.list, &outcome.list);
        }
        if self.call.writes_map() {
            line += &changed("map", &self.map, &outcome.map);
        }
        if self.call.writes_image() {
            line += &changed_runs(&self.image, &outcome.image);
        }
        if self.call.writes_copy() {
            line += &changed("copy", &self.image, &outcome.image);
        }
        line
    }
}

/// The first copy's refusal where both are refused, and the values: 1 for the first, 2
/// for the second or 0, and 1 where they are equal.
fn chosen(first: &[u8], second: &[u8]) -> (Option<Refusal>, Vec<u64>) {
    let choice = copies::choose_copy(first, second);
    let which = choice.chosen.map_or(0, |(which, _)| which);
    let values = vec![which as u64, choice.equal as u64];
    (choice.chosen.err(), values)
}

/// A name, and each changed entry or byte.
fn changed<T: PartialEq + Display>(name: &str, before: &[T], after: &[T]) -> String {
    let mut text = format!(" {name}");
    for (index, (old, new)) in before.iter().zip(after).enumerate() {
        if new != old {
            text += &format!(" {index}={new}");
        }
    }
    text
}

/// Each longest run of changed bytes of an image.
fn changed_runs(before: &[u8], after: &[u8]) -> String {
    let mut text = " image".to_string();
    let mut index = 0;
    while index < before.len() {
        if after[index] == before[index] {
            index += 1;
            continue;
        }
        let from = index;
        while index < before.len() && after[index] != before[index] {
            index += 1;
        }
        text += &format!(" {from}..{index}");
    }
    text
}
