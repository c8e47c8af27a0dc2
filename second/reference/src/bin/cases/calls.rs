//! The written-out cases: one method for each call, and what is expected of
//! its answer by documents 01 and 02. The expectation is this reading's own, so a slip
//! in the library is found when the cases are written.

use reference::case::{Call, Case, Outcome};

/// What entries of a lent list hold before the call.
const OLD_ENTRY: u32 = 0xCCCC_CCCC;

/// What a lent image holds before the call, and the fill of its sweep.
const OLD_BYTE: u8 = 0x11;
const FILL: u8 = 0xEE;

/// A group of cases about one subject, with its name.
pub type Group = (&'static str, fn(&mut Cases));

/// Lists the groups of a module under their functions' names.
macro_rules! groups {
    ($($name:ident),* $(,)?) => {
        pub const GROUPS: &[crate::calls::Group] = &[$((stringify!($name), $name)),*];
    };
}
pub(crate) use groups;

/// The written-out cases so far.
pub struct Cases(pub Vec<Case>);

impl Cases {
    pub fn add(&mut self, case: Case) -> Answer {
        let outcome = case.run();
        self.0.push(case.clone());
        Answer { case, outcome }
    }

    pub fn check(&mut self, map: &[u8]) -> Answer {
        self.add(Case::new(Call::Check, map))
    }

    pub fn list(&mut self, map: &[u8], id: u32, entries: usize) -> Answer {
        let mut case = Case::new(Call::List, map);
        case.number = id;
        case.list = vec![OLD_ENTRY; entries];
        self.add(case)
    }

    pub fn free(&mut self, map: &[u8], entries: usize) -> Answer {
        let mut case = Case::new(Call::Free, map);
        case.list = vec![OLD_ENTRY; entries];
        self.add(case)
    }

    pub fn address(&mut self, map: &[u8], n: u32, position: u64) -> Answer {
        let mut case = Case::new(Call::Address, map);
        case.number = n;
        case.wide = position;
        self.add(case)
    }

    pub fn sweep_object(&mut self, map: &[u8], id: u32, first: u64, length: usize) -> Answer {
        let mut case = Case::new(Call::SweepObject, map);
        case.number = id;
        case.wide = first;
        case.fill = FILL;
        case.image = vec![OLD_BYTE; length];
        self.add(case)
    }

    pub fn sweep_free(&mut self, map: &[u8], first: u64, length: usize) -> Answer {
        let mut case = Case::new(Call::SweepFree, map);
        case.wide = first;
        case.fill = FILL;
        case.image = vec![OLD_BYTE; length];
        self.add(case)
    }

    pub fn release(&mut self, map: &[u8], id: u32, entries: usize) -> Answer {
        let mut case = Case::new(Call::Release, map);
        case.number = id;
        case.list = vec![OLD_ENTRY; entries];
        self.add(case)
    }

    pub fn place(&mut self, map: &[u8], id: u32, list: &[u32]) -> Answer {
        let mut case = Case::new(Call::Place, map);
        case.number = id;
        case.list = list.to_vec();
        self.add(case)
    }

    /// A claim with room for one pair and, where the size is odd, an entry more, which
    /// is to stay as it is.
    pub fn claim(&mut self, map: &[u8], size: u64, parent: u32) -> Answer {
        let spare = (size % 2) as usize;
        self.claim_in(map, size, parent, 2 + spare)
    }

    /// A claim with room of so many entries (R-8 of document 02).
    pub fn claim_in(&mut self, map: &[u8], size: u64, parent: u32, entries: usize) -> Answer {
        let mut case = Case::new(Call::Claim, map);
        case.wide = size;
        case.number = parent;
        case.list = vec![OLD_ENTRY; entries];
        self.add(case)
    }

    pub fn choose_copy(&mut self, first: &[u8], second: &[u8]) -> Answer {
        let mut case = Case::new(Call::ChooseCopy, first);
        case.image = second.to_vec();
        self.add(case)
    }

    pub fn copy_over(&mut self, source: &[u8], target: &[u8]) -> Answer {
        let mut case = Case::new(Call::CopyOver, source);
        case.image = target.to_vec();
        self.add(case)
    }

    pub fn copy_addresses(&mut self, map: &[u8]) -> Answer {
        self.add(Case::new(Call::CopyAddresses, map))
    }

    pub fn mend(&mut self, map: &[u8]) -> Answer {
        self.add(Case::new(Call::Mend, map))
    }

    pub fn mend_positions(&mut self, map: &[u8], entries: usize) -> Answer {
        let mut case = Case::new(Call::MendPositions, map);
        case.list = vec![OLD_ENTRY; entries];
        self.add(case)
    }

    pub fn format(&mut self, log2secsize: u32, capacity: u64, idlen: u32, buffer: &[u8]) -> Answer {
        let call = Call::Format;
        self.add(Case::formatting(call, log2secsize, capacity, idlen, buffer))
    }

    pub fn format_length(&mut self, log2secsize: u32, capacity: u64, idlen: u32) -> Answer {
        let call = Call::FormatLength;
        self.add(Case::formatting(call, log2secsize, capacity, idlen, &[]))
    }
}

/// A case as the library answered it.
pub struct Answer {
    case: Case,
    outcome: Outcome,
}

impl Answer {
    /// The case's number (0 is accepted) and the zone told.
    #[track_caller]
    pub fn told(&self, number: u32, zone: u32) {
        let told = (self.outcome.number, self.outcome.zone);
        assert_eq!(told, (number, zone), "{}", self.case.line(&self.outcome));
        if number != 0 {
            self.nothing_else();
        }
    }

    /// "A refusal answers its number and zone, any other number 0, and writes
    /// nothing." Whether two copies are equal is told all the same.
    #[track_caller]
    fn nothing_else(&self) {
        let (case, outcome) = (&self.case, &self.outcome);
        let zeros = &outcome.values[..case.call.zeros()];
        assert!(zeros.iter().all(|value| *value == 0));
        assert!(outcome.map == case.map);
        assert!(outcome.list == case.list);
        assert!(outcome.image == case.image);
    }

    /// The case's number, told with zone 0.
    #[track_caller]
    pub fn gives(&self, number: u32) {
        self.told(number, 0);
    }

    /// Accepted; answers the map as it was left.
    #[track_caller]
    pub fn done(self) -> Vec<u8> {
        self.gives(0);
        self.outcome.map
    }

    /// Accepted with these numbers; answers the map as it was left.
    #[track_caller]
    pub fn answers(self, values: &[u64]) -> Vec<u8> {
        self.gives(0);
        assert_eq!(self.outcome.values, values);
        self.outcome.map
    }

    /// Accepted with these pairs; answers the map as it was left.
    #[track_caller]
    pub fn pairs(self, pairs: &[u32]) -> Vec<u8> {
        self.gives(0);
        assert_eq!(self.outcome.values, [pairs.len() as u64 / 2]);
        assert_eq!(&self.outcome.list[..pairs.len()], pairs);
        self.outcome.map
    }

    /// A claim is accepted with this id and these pairs, and no entry past them is
    /// written; answers the map as it was left.
    #[track_caller]
    pub fn claims(self, id: u32, pairs: &[u32]) -> Vec<u8> {
        self.gives(0);
        assert_eq!(self.outcome.values, [id as u64, pairs.len() as u64 / 2]);
        let (listed, past) = self.outcome.list.split_at(pairs.len());
        assert_eq!(listed, pairs);
        assert!(past.iter().all(|entry| *entry == OLD_ENTRY));
        self.outcome.map
    }

    /// One of two copies is accepted and handed back, the first as 1 or the second as
    /// 2, and they are equal or not.
    #[track_caller]
    pub fn hands_back(self, which: u64, equal: bool) {
        self.answers(&[which, equal as u64]);
    }

    /// Both of two copies are refused, which tells the first's number and zone, and
    /// they are equal or not.
    #[track_caller]
    pub fn neither(self, number: u32, zone: u32, equal: bool) {
        self.told(number, zone);
        assert_eq!(self.outcome.values, [0, equal as u64]);
    }

    /// A mend or a format is accepted and leaves this map.
    #[track_caller]
    pub fn leaves(self, map: &[u8]) {
        assert!(self.done() == map);
    }

    /// Positions are answered, and no entry past them is written.
    #[track_caller]
    pub fn lists(self, positions: &[u32]) {
        self.gives(0);
        assert_eq!(self.outcome.values, [positions.len() as u64]);
        let (listed, past) = self.outcome.list.split_at(positions.len());
        assert_eq!(listed, positions);
        assert!(past.iter().all(|entry| *entry == OLD_ENTRY));
    }

    /// The target is the source now.
    #[track_caller]
    pub fn copied(self) {
        self.gives(0);
        assert!(self.outcome.map == self.case.map);
        assert!(self.outcome.image == self.case.map);
    }
}
