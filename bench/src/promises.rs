//! What a port promises, and what memory the promises need.

use crate::net::Flow;
use crate::{CLASSES, MILLION};

/// The sums over the flows of each class at one port.
#[derive(Clone, Copy, Default)]
pub struct Load {
    bursts: [u64; CLASSES],
    rates: [u64; CLASSES],
    longest: [u64; CLASSES],
    rate: u64,
    burst: u64,
}

/// What a port promises each class; 0 where no flow of the class goes over it, since nothing asks for it there.
pub type Promises = [u64; CLASSES];

impl Load {
    pub fn add(&mut self, flow: &Flow) {
        let class = flow.class;
        self.bursts[class] += flow.burst;
        self.rates[class] += flow.rate;
        self.longest[class] = self.longest[class].max(flow.longest);
        self.rate += flow.rate;
        self.burst += flow.burst;
    }

    /// The rates of all flows over the port together.
    pub fn rate(&self) -> u64 {
        self.rate
    }

    /// What the queues of the port need together.
    pub fn need(&self) -> u64 {
        self.burst
    }

    /// Asked only where the rates are at most all of the port.
    pub fn promises(&self) -> Promises {
        let mut long = [0; CLASSES];
        for class in (1..CLASSES).rev() {
            long[class - 1] = self.longest[class].max(long[class]);
        }
        let mut promises = [0; CLASSES];
        let (mut bursts, mut before) = (0, 0);
        for class in 0..CLASSES {
            if self.rates[class] == 0 {
                continue;
            }
            bursts += self.bursts[class];
            promises[class] = (long[class] + bursts) * MILLION / (MILLION - before);
            before += self.rates[class];
        }
        promises
    }
}

/// The sums over the flows that share the regulator before port `to`, seen from the port that they come from.
#[derive(Clone, Copy)]
pub struct Onward {
    pub to: usize,
    pub class: usize,
    bursts: u64,
    rates: u64,
}

impl Onward {
    pub fn new(to: usize, class: usize) -> Onward {
        Onward { to, class, bursts: 0, rates: 0 }
    }

    pub fn with(mut self, flow: &Flow) -> Onward {
        self.bursts += flow.burst;
        self.rates += flow.rate;
        self
    }

    pub fn serves(&self, to: usize, class: usize) -> bool {
        self.to == to && self.class == class
    }

    /// What the regulator needs; `promises` are those of the port that the flows come from.
    pub fn need(&self, promises: &Promises) -> u64 {
        self.bursts + (self.rates * promises[self.class]).div_ceil(MILLION)
    }
}
