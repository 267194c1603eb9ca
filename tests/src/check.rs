//! Runs a case in the library and compares the returned number and every byte of every lent slice with what is due.

use crate::case::Case;
use crate::export::Slice;
use crate::guarded::Region;
use crate::inclusion::Search;
use crate::layout::{put, STANDINGS};
use crate::sheet::Part;

/// The most slices that a call is lent, and room for each: a line at random has slices of up to 300,000 bytes.
const REGIONS: usize = 6;
const ROOM: usize = 320_000;

/// What is due: the returned number, what each slice holds afterwards, and what that is called.
pub struct Due {
    pub returned: u32,
    pub slices: Vec<Slice>,
    pub outcome: Outcome,
}

#[derive(Clone, Debug, PartialEq, Eq)]
pub enum Outcome {
    /// The answer's numbers but for the leading 0.
    Given(Vec<usize>),
    Refused(usize, Part),
    AnswerTooShort,
}

/// A fault that the self-test puts into what a call left: the checks must find it.
#[derive(Clone, Copy, Debug)]
pub enum Damage {
    Returned,
    /// One byte of a slice, or near it, counted from the slice's start.
    Slice(usize, isize),
    /// What a comparison's answer says of waits and ends.
    Standings(WrongStandings),
}

/// One of the four numbers is one more, the two sheets' are exchanged, or all are what the lent slice held before the call.
#[derive(Clone, Copy, Debug, PartialEq, Eq, PartialOrd, Ord)]
pub enum WrongStandings {
    FirstWaits,
    FirstEnds,
    SecondWaits,
    SecondEnds,
    Exchanged,
    LeftOver,
}

impl WrongStandings {
    pub const ALL: [Self; 6] =
        [Self::FirstWaits, Self::FirstEnds, Self::SecondWaits, Self::SecondEnds, Self::Exchanged, Self::LeftOver];

    /// Puts the fault into the bytes of the four numbers.
    fn put(self, numbers: &mut [u8], before: &[u8]) {
        match self {
            Self::Exchanged => numbers.rotate_left(numbers.len() / 2),
            Self::LeftOver => numbers.copy_from_slice(before),
            number => numbers[8 * number as usize] += 1,
        }
    }
}

pub struct Checker {
    regions: Vec<Region>,
    pub search: Search,
}

impl Default for Checker {
    fn default() -> Self {
        Self::with_room(ROOM)
    }
}

impl Checker {
    /// So many bytes for each slice.
    pub fn with_room(bytes: usize) -> Self {
        let regions = (0..REGIONS).map(|_| Region::new(bytes)).collect();
        Checker { regions, search: Search::default() }
    }

    /// What the independent implementation says of a case. An answer slice that is too short is judged before everything else.
    pub fn due(&mut self, case: &Case) -> Due {
        let mut slices = case.slices.clone();
        let Some((Slice::Bytes(answer), lent)) = slices.split_last_mut() else {
            unreachable!("the answer slice is the last, of bytes")
        };
        let Some(answer) = answer.get_mut(..case.export.answer_bytes) else {
            return Due { returned: 0, slices, outcome: Outcome::AnswerTooShort };
        };
        let told = (case.export.due)(&case.numbers, lent, &mut self.search);
        put(answer, &told);
        let outcome = told.map_or_else(|refusal| Outcome::Refused(refusal.number, refusal.part), Outcome::Given);
        Due { returned: 1, slices, outcome }
    }

    /// Runs the case; the error says what differs.
    pub fn check(&mut self, case: &Case) -> Result<Outcome, String> {
        let due = self.due(case);
        let returned = self.call(case);
        self.compare(case, &due, returned).map(|()| due.outcome)
    }

    /// The same, where the call alone is made by `made`, which calls what it is given.
    pub fn check_as(&mut self, case: &Case, made: impl FnOnce(&mut dyn FnMut())) -> Result<Outcome, String> {
        let due = self.due(case);
        self.lend(case);
        let mut returned = u32::MAX;
        made(&mut || returned = (case.export.call)(&case.numbers, &mut self.regions[..case.slices.len()]));
        self.compare(case, &due, returned).map(|()| due.outcome)
    }

    /// Runs the case and damages what it left. Answers None where that changes nothing, else whether the damage was found.
    pub fn check_damaged(&mut self, case: &Case, damage: Damage) -> Option<bool> {
        let due = self.due(case);
        let mut returned = self.call(case);
        match damage {
            Damage::Returned => returned ^= 1,
            Damage::Slice(slice, at) if !self.regions[slice].damage(at) => return None,
            Damage::Slice(..) => {}
            Damage::Standings(wrong) => {
                let region = &mut self.regions[case.slices.len() - 1];
                let numbers = region.lent_mut().get_mut(STANDINGS).filter(|_| case.export.name == "compare")?;
                let right = numbers.to_vec();
                wrong.put(numbers, case.answer().get(STANDINGS)?);
                if numbers == right {
                    return None;
                }
            }
        }
        let found = self.compare(case, &due, returned).is_err();
        if let Damage::Slice(slice, at) = damage {
            self.regions[slice].damage(at);
        }
        Some(found)
    }

    /// Lends the slices and calls the library.
    fn call(&mut self, case: &Case) -> u32 {
        self.lend(case);
        (case.export.call)(&case.numbers, &mut self.regions[..case.slices.len()])
    }

    fn lend(&mut self, case: &Case) {
        for ((region, slice), &placement) in self.regions.iter_mut().zip(&case.slices).zip(&case.placements) {
            slice.lend(region, placement);
        }
        if let Some([one, other]) = case.export.readable.filter(|_| case.shared) {
            let address = self.regions[one].address();
            self.regions[other].lend_that_of(address);
        }
    }

    fn compare(&self, case: &Case, due: &Due, returned: u32) -> Result<(), String> {
        if returned != due.returned {
            return Err(format!("returned {returned}, not {}", due.returned));
        }
        for ((region, slice), name) in self.regions.iter().zip(&due.slices).zip(case.names()) {
            slice.verify(region).map_err(|fault| format!("{name}: {fault}"))?;
        }
        Ok(())
    }

    /// Compares every canary of all regions.
    pub fn sweep(&self) -> Result<(), String> {
        self.regions.iter().try_for_each(Region::sweep)
    }
}
