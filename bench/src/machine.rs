//! The machine of ports: regulators, queues and ports, and the phases of a tick that `ports` and `evening` share.
//!
//! Nothing is looked at before its tick: a port when its last bit leaves, a regulator when its first packet may pass.

use crate::admission::Admission;
use crate::agenda::{Agenda, Set, NEVER};
use crate::{CLASSES, EDGE_ROOM, MILLION};
use std::cmp::Reverse;
use std::collections::{BinaryHeap, VecDeque};

/// A packet on its way; `stop` says of which flow it is and how far it has come.
#[derive(Clone, Copy)]
pub struct Packet {
    pub stop: usize,
    pub length: u64,
    /// The tick in which it passed the edge.
    pub entered: u64,
}

/// One port of the road of one flow. The stops of a flow follow each other.
pub struct Stop {
    /// The flow's place in the order of admission.
    pub flow: usize,
    /// Whether it is the last of its road.
    pub last: bool,
    regulator: usize,
    level: Level,
}

/// What a flow may send at one port, in millionths of a tick.
struct Level {
    burst: u64,
    rate: u64,
    deficit: u64,
    last: u64,
}

impl Level {
    fn deficit_at(&self, tick: u64) -> u64 {
        self.deficit.saturating_sub(self.rate * (tick - self.last))
    }

    fn may_pass(&self, tick: u64, length: u64) -> bool {
        self.deficit_at(tick) + MILLION * length <= self.burst
    }

    fn pass(&mut self, tick: u64, length: u64) {
        self.deficit = self.deficit_at(tick) + MILLION * length;
        self.last = tick;
    }

    /// The first tick at which a packet may pass.
    fn first_tick(&self, length: u64) -> u64 {
        let shortfall = (self.deficit + MILLION * length).saturating_sub(self.burst);
        self.last + shortfall.div_ceil(self.rate)
    }
}

/// What a regulator stands behind.
#[derive(Clone, Copy, PartialEq, Eq)]
pub enum Place {
    Edge,
    Inside { from: usize, room: u64 },
}

/// A line of waiting packets, all for the queue of one class at one port.
pub struct Regulator {
    pub place: Place,
    pub port: usize,
    pub class: usize,
    /// The highest fill: packets at an edge, ticks inside.
    pub highest: u64,
    line: VecDeque<Packet>,
    fill: u64,
    /// How many packets, from the first on, are known to pass in this tick.
    passing: usize,
    touched: bool,
}

#[derive(Default)]
struct Port {
    switch: usize,
    queues: [VecDeque<Packet>; CLASSES],
    /// A bit for each class that has a packet waiting.
    waiting: u8,
    sending: Option<Packet>,
    store: Store,
}

/// The fill of a memory, now and at its highest.
#[derive(Clone, Copy, Default)]
struct Store {
    fill: u64,
    highest: u64,
}

impl Store {
    fn measure(&mut self) {
        self.highest = self.highest.max(self.fill);
    }
}

pub struct Machine {
    ports: Vec<Port>,
    switches: Vec<Store>,
    stops: Vec<Stop>,
    /// The first stop of each flow.
    first_stops: Vec<usize>,
    /// In the order of phase 3: the edges by flow, then those inside by the port before, class and port.
    regulators: Vec<Regulator>,
    /// The ports whose last bit leaves, by tick.
    leaves: Agenda,
    /// When the first packet of a regulator with a line may pass, if this was not yet.
    alarms: BinaryHeap<Reverse<(u64, usize)>>,
    /// The regulators to be looked at in this tick.
    ready: Vec<usize>,
    /// The regulators that something came to in this tick.
    touched: Vec<usize>,
    /// The ports that may take something in this tick.
    woken: Set,
    /// The ports at or before which memory was filled in this tick.
    filled: Set,
}

impl Machine {
    pub fn new(admission: &Admission) -> Machine {
        let net = &admission.net;
        let mut insides: Vec<_> = admission.insides().collect();
        insides.sort_by_key(|inside| (inside.from, inside.class, inside.to));
        let edges = admission.flows.iter().map(|admitted| {
            let flow = &admitted.flow;
            Regulator::new(Place::Edge, flow.first_port(), flow.class)
        });
        let inside = insides.iter().map(|inside| {
            let place = Place::Inside { from: inside.from, room: inside.room };
            Regulator::new(place, inside.to, inside.class)
        });
        let regulators = edges.chain(inside).collect();

        let mut stops = Vec::new();
        let mut first_stops = Vec::new();
        for (place, admitted) in admission.flows.iter().enumerate() {
            let flow = &admitted.flow;
            first_stops.push(stops.len());
            let before = std::iter::once(None).chain(flow.ports().map(Some));
            for (hop, (port, before)) in flow.ports().zip(before).enumerate() {
                let regulator = before.map_or(place, |before| {
                    let key = (before, flow.class, port);
                    let found = insides.binary_search_by_key(&key, |inside| (inside.from, inside.class, inside.to));
                    admission.flows.len() + found.expect("a regulator for each hop")
                });
                let level = Level { burst: MILLION * flow.burst, rate: flow.rate, deficit: 0, last: 0 };
                stops.push(Stop { flow: place, last: hop + 1 == flow.road.len(), regulator, level });
            }
        }
        Machine {
            ports: net.ports.iter().map(|port| Port { switch: port.switch, ..Port::default() }).collect(),
            switches: vec![Store::default(); net.memories.len()],
            stops,
            first_stops,
            regulators,
            leaves: Agenda::new(),
            alarms: BinaryHeap::new(),
            ready: Vec::new(),
            touched: Vec::new(),
            woken: Set::default(),
            filled: Set::default(),
        }
    }

    pub fn stop(&self, number: usize) -> &Stop {
        &self.stops[number]
    }

    pub fn stop_of(&self, flow: usize, hop: usize) -> usize {
        self.first_stops[flow] + hop
    }

    pub fn regulators(&self) -> &[Regulator] {
        &self.regulators
    }

    pub fn highest_of_port(&self, port: usize) -> u64 {
        self.ports[port].store.highest
    }

    pub fn highest_of_switch(&self, switch: usize) -> u64 {
        self.switches[switch].highest
    }

    /// The first tick, of those from `from` on, in which something leaves or passes if nothing comes before.
    pub fn next(&self, from: u64) -> u64 {
        let alarm = self.alarms.peek().map_or(NEVER, |&Reverse((tick, _))| tick);
        alarm.min(self.leaves.next(from))
    }

    /// Phase 1. `left` is told each port, in rising number, and the packet that leaves it.
    pub fn leave(&mut self, tick: u64, mut left: impl FnMut(usize, Packet, &Stop)) {
        for port in self.leaves.take(tick) {
            let packet = self.ports[port].sending.take().expect("a packet that is being sent");
            self.woken.insert(port);
            left(port, packet, &self.stops[packet.stop]);
        }
    }

    /// Phase 2, from a source. Says whether there is room at the edge: refusal 9 if not.
    pub fn come_from_source(&mut self, tick: u64, stop: usize, length: u64) -> bool {
        let edge = self.stops[stop].regulator;
        if self.regulators[edge].line.len() >= EDGE_ROOM {
            self.settle(tick, edge);
            if self.regulators[edge].line.len() - self.regulators[edge].passing >= EDGE_ROOM {
                return false;
            }
        }
        self.put(edge, Packet { stop, length, entered: tick });
        true
    }

    /// Phase 2, from another port of the whole net: there is always room.
    pub fn come_from_port(&mut self, packet: Packet) {
        let regulator = self.stops[packet.stop].regulator;
        let port = self.regulators[regulator].port;
        self.regulators[regulator].fill += packet.length;
        self.switches[self.ports[port].switch].fill += packet.length;
        self.filled.insert(port);
        self.put(regulator, packet);
    }

    /// Phase 2, from another port of an unknown world. Says whether there is room: refusal 6 if not.
    pub fn try_come_from_port(&mut self, packet: Packet) -> bool {
        let regulator = &self.regulators[self.stops[packet.stop].regulator];
        let fits = match regulator.place {
            Place::Edge => true,
            Place::Inside { room, .. } => regulator.fill + packet.length <= room,
        };
        if fits {
            self.come_from_port(packet);
        }
        fits
    }

    /// Puts a packet behind a regulator.
    fn put(&mut self, number: usize, packet: Packet) {
        let regulator = &mut self.regulators[number];
        if regulator.line.is_empty() {
            self.ready.push(number);
        }
        regulator.line.push_back(packet);
        if !regulator.touched {
            regulator.touched = true;
            self.touched.push(number);
        }
    }

    /// Finds out which packets pass a regulator in this tick. What comes behind them can only add to them.
    fn settle(&mut self, tick: u64, number: usize) {
        let regulator = &mut self.regulators[number];
        while let Some(packet) = regulator.line.get(regulator.passing) {
            let level = &mut self.stops[packet.stop].level;
            if !level.may_pass(tick, packet.length) {
                break;
            }
            level.pass(tick, packet.length);
            regulator.passing += 1;
        }
    }

    /// Phase 3.
    pub fn pass(&mut self, tick: u64) {
        while let Some(&Reverse((alarm, number))) = self.alarms.peek() {
            if alarm > tick {
                break;
            }
            self.alarms.pop();
            self.ready.push(number);
        }
        let mut ready = std::mem::take(&mut self.ready);
        ready.sort_unstable();
        for number in ready.drain(..) {
            self.settle(tick, number);
            self.pass_one(tick, number);
        }
        self.ready = ready;
    }

    /// Lets pass what is settled to pass, and sets the alarm for what is first then.
    fn pass_one(&mut self, tick: u64, number: usize) {
        let regulator = &mut self.regulators[number];
        let port = &mut self.ports[regulator.port];
        if regulator.passing > 0 {
            self.woken.insert(regulator.port);
            self.filled.insert(regulator.port);
            port.waiting |= 1 << regulator.class;
        }
        let mut passed = 0;
        for mut packet in regulator.line.drain(..regulator.passing) {
            passed += packet.length;
            if regulator.place == Place::Edge {
                packet.entered = tick;
            }
            port.queues[regulator.class].push_back(packet);
        }
        port.store.fill += passed;
        match regulator.place {
            Place::Edge => self.switches[port.switch].fill += passed,
            Place::Inside { .. } => regulator.fill -= passed,
        }
        regulator.passing = 0;
        if let Some(first) = regulator.line.front() {
            let alarm = self.stops[first.stop].level.first_tick(first.length);
            self.alarms.push(Reverse((alarm, number)));
        }
    }

    /// Phase 4. Only a port that something left or passed into in this tick can have something to take.
    pub fn take(&mut self, tick: u64) {
        for number in std::mem::take(&mut self.woken) {
            let port = &mut self.ports[number];
            if port.sending.is_some() || port.waiting == 0 {
                continue;
            }
            let class = port.waiting.trailing_zeros() as usize;
            let queue = &mut port.queues[class];
            let packet = queue.pop_front().expect("a packet that waits");
            if queue.is_empty() {
                port.waiting &= !(1 << class);
            }
            port.store.fill -= packet.length;
            self.switches[port.switch].fill -= packet.length;
            port.sending = Some(packet);
            self.leaves.insert(tick + packet.length, number);
        }
    }

    /// After phase 4: the fills. Only what something came to in this tick can be fuller than before.
    pub fn measure(&mut self) {
        for number in self.touched.drain(..) {
            let regulator = &mut self.regulators[number];
            let fill = match regulator.place {
                Place::Edge => regulator.line.len() as u64,
                Place::Inside { .. } => regulator.fill,
            };
            regulator.highest = regulator.highest.max(fill);
            regulator.touched = false;
        }
        for number in std::mem::take(&mut self.filled) {
            let port = &mut self.ports[number];
            port.store.measure();
            self.switches[port.switch].measure();
        }
    }
}

impl Regulator {
    fn new(place: Place, port: usize, class: usize) -> Regulator {
        Regulator { place, port, class, highest: 0, line: VecDeque::new(), fill: 0, passing: 0, touched: false }
    }
}
