//! A packed sheet, which is a family of DFAs in bytes, and the refusals that reading one can give.

/// The largest count of letters, of leading states and of progress states.
pub const MOST: usize = 32;

/// What a refusal concerns, with its number in the answer slice; no answer there has the seconds (F-5).
#[derive(Clone, Copy, Debug, PartialEq, Eq, PartialOrd, Ord)]
pub enum Part {
    First = 0,
    Second = 1,
    Opening = 2,
    Loop = 3,
    Out = 4,
    Work = 5,
    Cursor = 6,
    Seconds = 7,
}

impl Part {
    /// Its name in 01; that of the seconds is in F-5.
    pub fn name(self) -> &'static str {
        match self {
            Part::First => "first",
            Part::Second => "second",
            Part::Opening => "opening",
            Part::Loop => "loop",
            Part::Out => "out",
            Part::Work => "work",
            Part::Cursor => "cursor",
            Part::Seconds => "seconds",
        }
    }
}

#[derive(Clone, Copy, Debug, PartialEq, Eq)]
pub struct Refusal {
    pub number: usize,
    pub part: Part,
    pub place: usize,
}

/// A sheet whose bytes are all in order.
pub struct Sheet<'a> {
    bytes: &'a [u8],
    pub letters: usize,
    pub states: usize,
    /// Where each state's progress automaton starts.
    starts: [usize; MOST],
}

/// The next states, state by state and letter by letter, and the marks (none for the leading automaton).
#[derive(Clone, Copy)]
pub struct Automaton<'a> {
    pub next: &'a [u8],
    pub marks: &'a [u8],
}

impl<'a> Sheet<'a> {
    /// Judges the bytes in stages: two bytes, s, n, room for the sizes, each size, the whole length, then byte by byte.
    pub fn read(bytes: &'a [u8], part: Part) -> Result<Self, Refusal> {
        let refuse = |number, place| Err(Refusal { number, part, place });
        let &[letters, states, ref rest @ ..] = bytes else {
            return refuse(1, bytes.len());
        };
        if !is_count(letters) {
            return refuse(2, 0);
        }
        if !is_count(states) {
            return refuse(3, 1);
        }
        let (letters, states) = (letters as usize, states as usize);
        let Some(sizes) = rest.get(..states) else {
            return refuse(1, bytes.len());
        };
        if let Some(state) = sizes.iter().position(|&size| !is_count(size)) {
            return refuse(4, 2 + state);
        }
        let mut starts = [0; MOST];
        let mut end = 2 + states + states * letters;
        for (start, &size) in starts.iter_mut().zip(sizes) {
            *start = end;
            end += size as usize * (letters + 1);
        }
        if bytes.len() != end {
            return refuse(1, bytes.len());
        }
        let sheet = Sheet { bytes, letters, states, starts };
        match sheet.first_fault() {
            Some((number, place)) => refuse(number, place),
            None => Ok(sheet),
        }
    }

    /// The first byte that is no next state (5) or no mark (6), if there is one.
    fn first_fault(&self) -> Option<(usize, usize)> {
        let beyond = |from: usize, count: usize, limit: usize| {
            let fault = self.bytes[from..from + count].iter().position(|&byte| byte as usize >= limit);
            fault.map(|at| from + at)
        };
        if let Some(place) = beyond(2 + self.states, self.states * self.letters, self.states) {
            return Some((5, place));
        }
        for state in 0..self.states {
            let (start, size) = (self.starts[state], self.size(state));
            let marks = start + size * self.letters;
            if let Some(place) = beyond(start, size * self.letters, size) {
                return Some((5, place));
            }
            if let Some(place) = beyond(marks, size, 2) {
                return Some((6, place));
            }
        }
        None
    }

    /// How many states the progress automaton of a leading state has.
    pub fn size(&self, state: usize) -> usize {
        self.bytes[2 + state] as usize
    }

    pub fn largest_size(&self) -> usize {
        (0..self.states).map(|state| self.size(state)).max().unwrap_or(0)
    }

    pub fn leading(&self) -> Automaton<'a> {
        let start = 2 + self.states;
        Automaton { next: &self.bytes[start..start + self.states * self.letters], marks: &[] }
    }

    pub fn progress(&self, state: usize) -> Automaton<'a> {
        let size = self.size(state);
        let (next, rest) = self.bytes[self.starts[state]..].split_at(size * self.letters);
        Automaton { next, marks: &rest[..size] }
    }
}

fn is_count(byte: u8) -> bool {
    (1..=MOST as u8).contains(&byte)
}
