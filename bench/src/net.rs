//! Nets, flows and roads.

use crate::LONGEST_ROAD;
use std::ops::Deref;

#[derive(Clone, Copy, Debug)]
pub struct Port {
    /// The switch that it stands on.
    pub switch: usize,
    /// The switch where its wire ends.
    pub ends: usize,
    /// Ticks that its wire takes.
    pub wire: u64,
}

#[derive(Clone, Debug, Default)]
pub struct Net {
    pub ports: Vec<Port>,
    /// The memory of each switch, in ticks.
    pub memories: Vec<u64>,
}

#[derive(Clone, Debug)]
pub struct Flow {
    pub class: usize,
    pub longest: u64,
    pub burst: u64,
    pub rate: u64,
    pub deadline: u64,
    pub road: Road,
}

impl Flow {
    pub fn first_port(&self) -> usize {
        self.road[0] as usize
    }

    pub fn ports(&self) -> impl DoubleEndedIterator<Item = usize> + '_ {
        self.road.iter().map(|&port| port as usize)
    }

    /// Each pair of ports that follow each other on the road.
    pub fn hops(&self) -> impl Iterator<Item = (usize, usize)> + '_ {
        self.ports().zip(self.ports().skip(1))
    }
}

/// The ports of a road in their order; read as a slice.
#[derive(Clone, Copy, Debug, Default)]
pub struct Road {
    ports: [u8; LONGEST_ROAD],
    length: usize,
}

impl Road {
    pub fn push(&mut self, port: u8) {
        self.ports[self.length] = port;
        self.length += 1;
    }
}

impl Deref for Road {
    type Target = [u8];

    fn deref(&self) -> &[u8] {
        &self.ports[..self.length]
    }
}
