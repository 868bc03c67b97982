//! Which ports have something to do in which of the coming ticks.

/// The tick of what is not going to happen.
pub const NEVER: u64 = u64::MAX;

/// How far ahead an agenda reaches: beyond every length (255) and every wire (1,023).
const AHEAD: usize = 1_024;
const WORD: usize = u64::BITS as usize;

/// A wheel of the ticks from now on. Nothing of an earlier tick may be left on it.
pub struct Agenda {
    /// The ports of each tick, by the tick's rest by `AHEAD`.
    ports: Vec<Set>,
    /// A bit for each of these that is not empty.
    busy: [u64; AHEAD / WORD],
}

impl Agenda {
    pub fn new() -> Agenda {
        Agenda { ports: vec![Set::default(); AHEAD], busy: [0; AHEAD / WORD] }
    }

    pub fn insert(&mut self, tick: u64, port: usize) {
        let place = tick as usize % AHEAD;
        self.ports[place].insert(port);
        self.busy[place / WORD] |= 1 << (place % WORD);
    }

    /// Takes off the ports of this tick.
    pub fn take(&mut self, tick: u64) -> Set {
        let place = tick as usize % AHEAD;
        self.busy[place / WORD] &= !(1 << (place % WORD));
        std::mem::take(&mut self.ports[place])
    }

    /// The first tick from `from` on that has ports.
    pub fn next(&self, from: u64) -> u64 {
        let start = from as usize % AHEAD;
        let in_first = self.busy[start / WORD] >> (start % WORD);
        if in_first != 0 {
            return from + u64::from(in_first.trailing_zeros());
        }
        // The rest of the first word, all others, and the first word once more from its beginning.
        let mut ahead = WORD - start % WORD;
        for word in start / WORD + 1..=start / WORD + self.busy.len() {
            let busy = self.busy[word % self.busy.len()];
            if busy != 0 {
                return from + ahead as u64 + u64::from(busy.trailing_zeros());
            }
            ahead += WORD;
        }
        NEVER
    }
}

impl Default for Agenda {
    fn default() -> Self {
        Agenda::new()
    }
}

/// A set of ports, of which there are at most 64. As an iterator it gives them in rising number.
#[derive(Clone, Copy, Default)]
pub struct Set(u64);

impl Set {
    pub fn insert(&mut self, port: usize) {
        self.0 |= 1 << port;
    }
}

impl Iterator for Set {
    type Item = usize;

    fn next(&mut self) -> Option<usize> {
        if self.0 == 0 {
            return None;
        }
        let port = self.0.trailing_zeros() as usize;
        self.0 &= self.0 - 1;
        Some(port)
    }
}
