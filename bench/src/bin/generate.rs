//! `generate SEED KIND [SIZE]` prints one random input for the program KIND (`admit`, `ports` or `evening`).
//!
//! SIZE is about how many packets the script has, or how many flows are offered to `admit`; without it the seed decides.

use std::io::{self, Write};
use twin::admission::Admission;
use twin::net::{Flow, Net, Port, Road};
use twin::program::Program;
use twin::{LAST_CLOCK, LONGEST_ROAD, MILLION, MOST_PORTS};

const MOST_MEMORY: u64 = 1_048_576;
const MOST_TICKS: u64 = u32::MAX as u64;

fn main() -> io::Result<()> {
    let arguments: Vec<String> = std::env::args().skip(1).collect();
    let Some((seed, program, size)) = understand(&arguments) else {
        eprintln!("usage: generate SEED admit|ports|evening [SIZE]");
        std::process::exit(2);
    };
    let mut maker = Maker::new(seed, program);
    maker.make(size);
    io::stdout().lock().write_all(&maker.bytes)
}

fn understand(arguments: &[String]) -> Option<(u64, Program, Option<u64>)> {
    let seed = arguments.first()?.parse().ok()?;
    let program = match arguments.get(1)?.as_str() {
        "admit" => Program::Admit,
        "ports" => Program::Ports,
        "evening" => Program::Evening,
        _ => return None,
    };
    let size = match arguments.get(2) {
        Some(size) => Some(size.parse().ok()?),
        None => None,
    };
    Some((seed, program, size))
}

/// A small generator of numbers (xorshift with a multiplication at the end).
struct Chance(u64);

impl Chance {
    fn new(seed: u64, program: Program) -> Chance {
        let mixed = seed.wrapping_mul(4).wrapping_add(program as u64 + 1).wrapping_mul(0x9e37_79b9_7f4a_7c15);
        let mut chance = Chance(if mixed == 0 { 1 } else { mixed });
        for _ in 0..8 {
            chance.next();
        }
        chance
    }

    fn next(&mut self) -> u64 {
        self.0 ^= self.0 >> 12;
        self.0 ^= self.0 << 25;
        self.0 ^= self.0 >> 27;
        self.0.wrapping_mul(0x2545_f491_4f6c_dd1d)
    }

    /// From 0 to `end` - 1; 0 if there is no such number.
    fn below(&mut self, end: u64) -> u64 {
        if end == 0 {
            return 0;
        }
        ((u128::from(self.next()) * u128::from(end)) >> 64) as u64
    }

    /// From `least` to `most`.
    fn within(&mut self, least: u64, most: u64) -> u64 {
        least + self.below(most.saturating_sub(least) + 1)
    }

    fn percent(&mut self, chance: u64) -> bool {
        self.below(100) < chance
    }

    fn pick<'a, T>(&mut self, things: &'a [T]) -> &'a T {
        &things[self.below(things.len() as u64) as usize]
    }

    /// About `number`: the same, or one or a few more or less.
    fn near(&mut self, number: u64) -> u64 {
        match self.below(6) {
            0 => number.saturating_sub(1),
            1 => number.saturating_sub(self.within(1, 9)),
            2 => number + 1,
            3 => number + self.within(1, 20),
            _ => number,
        }
    }
}

/// How large the numbers of an input are.
#[derive(Clone, Copy, PartialEq, Eq)]
enum Scale {
    Small,
    Middle,
    Large,
}

struct Maker {
    chance: Chance,
    program: Program,
    scale: Scale,
    /// In how many of a hundred records a damaged one goes before.
    damage: u64,
    bytes: Vec<u8>,
    /// How many flow numbers are taken.
    numbers: u64,
    own: usize,
    /// Whether there are about as many flows as can be admitted at all.
    crowd: bool,
}

/// One packet of the script.
#[derive(Clone, Copy)]
struct Event {
    tick: u64,
    number: u64,
    length: u64,
    port: u8,
}

impl Maker {
    fn new(seed: u64, program: Program) -> Maker {
        let mut chance = Chance::new(seed, program);
        let scale = *chance.pick(&[Scale::Small, Scale::Small, Scale::Middle, Scale::Large]);
        let damage = *chance.pick(&[0, 0, 0, 1, 3, 10]);
        let crowd = chance.percent(4);
        Maker { chance, program, scale, damage, bytes: Vec::new(), numbers: 0, own: 0, crowd }
    }

    fn make(&mut self, size: Option<u64>) {
        if self.chance.percent(1) {
            return self.noise();
        }
        let mut net = self.net();
        self.own = self.own_switch(&net);
        let mut flows = self.flows(&net, size);
        self.set_bounds(&mut net, &mut flows);
        let hopeful = self.hopeful(&net, &flows);
        if self.program == Program::Ports {
            self.before(&[5]);
            self.before(&[5, 0, 0]);
            self.put(&[5, self.own as u8]);
        }
        self.put_net(&net);
        let mut flows = self.put_flows(flows);
        if self.chance.percent(80) {
            let mut hopeful = hopeful.into_iter();
            flows.retain(|_| hopeful.next() == Some(true));
        }
        if self.program != Program::Admit {
            self.script(&net, &flows, size);
        } else if self.chance.percent(10) {
            self.put_packet(0, 1, 0);
            self.put_tick(1);
        }
        self.cut();
    }

    /// Bytes without much sense.
    fn noise(&mut self) {
        for _ in 0..self.chance.below(40) {
            let byte = *self.chance.pick(&[0, 0, 0, 1, 2, 3, 4, 5, 6, 255]);
            self.bytes.push(byte);
        }
    }

    // Nets

    fn net(&mut self) -> Net {
        let count = match self.chance.below(20) {
            0 => self.chance.below(2),
            1..=9 => self.chance.within(2, 8),
            10..=15 => self.chance.within(3, 20),
            _ => self.chance.within(16, MOST_PORTS as u64),
        };
        let mut ports = match self.chance.below(10) {
            0..=4 => self.ring(count),
            5..=6 => self.two_rings(count),
            7 => self.line(count),
            _ => self.tangle(count),
        };
        if self.chance.percent(5) {
            for port in &mut ports {
                port.ends = port.switch;
            }
        }
        let named = ports.iter().flat_map(|port| [port.switch, port.ends]).max().map_or(0, |highest| highest + 1);
        let more = if self.chance.percent(20) { self.chance.below(4) } else { 0 };
        let switches = named + more as usize;
        Net { ports, memories: vec![MOST_MEMORY; switches.min(255)] }
    }

    fn wire(&mut self) -> u64 {
        match self.chance.below(10) {
            0..=3 => 0,
            4..=8 => self.chance.below(12),
            _ if self.scale == Scale::Small => self.chance.below(40),
            _ => self.chance.within(900, 1_023),
        }
    }

    fn port(&mut self, switch: u64, ends: u64) -> Port {
        Port { switch: switch as usize, ends: ends as usize, wire: self.wire() }
    }

    fn ring(&mut self, count: u64) -> Vec<Port> {
        (0..count).map(|port| self.port(port, (port + 1) % count)).collect()
    }

    /// A ring of switches with a port each way, and maybe one port left over.
    fn two_rings(&mut self, count: u64) -> Vec<Port> {
        let switches = (count / 2).max(1);
        (0..count)
            .map(|port| {
                let switch = port % switches;
                let step = if port < switches { 1 } else { switches - 1 };
                self.port(switch, (switch + step) % switches)
            })
            .collect()
    }

    fn line(&mut self, count: u64) -> Vec<Port> {
        (0..count).map(|port| self.port(port, port + 1)).collect()
    }

    fn tangle(&mut self, count: u64) -> Vec<Port> {
        let most = if self.chance.percent(10) { 255 } else { 1 + count / 3 };
        let switches = self.chance.within(1, most);
        (0..count)
            .map(|_| {
                let (switch, ends) = (self.chance.below(switches), self.chance.below(switches));
                self.port(switch, ends)
            })
            .collect()
    }

    /// The switch that `ports` is: mostly one with ports.
    fn own_switch(&mut self, net: &Net) -> usize {
        match self.chance.below(30) {
            0 => self.chance.below(256) as usize,
            1 => self.chance.below(net.memories.len() as u64) as usize,
            _ if net.ports.is_empty() => 0,
            _ => self.chance.pick(&net.ports).switch,
        }
    }

    // Flows

    fn flows(&mut self, net: &Net, size: Option<u64>) -> Vec<Flow> {
        if net.ports.is_empty() {
            return Vec::new();
        }
        let count = match self.chance.below(10) {
            _ if self.crowd => self.chance.within(250, 275),
            0 => self.chance.below(3),
            1..=6 => self.chance.within(2, 16),
            _ => self.chance.within(10, 80),
        };
        let count = match (self.program, size) {
            (Program::Admit, Some(size)) => size,
            _ => count,
        };
        let classes = *self.chance.pick(&[1, 1, 2, 3, 8]);
        let same_bursts = self.chance.percent(20);
        let first = self.chance.below(8);
        let mut rates = vec![0; net.ports.len()];
        let mut flows: Vec<Flow> = Vec::new();
        for _ in 0..count {
            let road = self.road(net);
            let class = (first + self.chance.below(classes)) as usize % 8;
            let (mut longest, mut burst) = self.burst();
            if self.crowd {
                burst = burst.min(longest + 8);
            }
            if let (true, Some(before)) = (same_bursts, flows.last()) {
                (longest, burst) = (before.longest, before.burst);
            }
            let most = road.iter().map(|&port| rates[port as usize]).max().unwrap_or(0);
            let rate = self.rate(MILLION.saturating_sub(most));
            for &port in road.iter() {
                rates[port as usize] = (rates[port as usize] + rate).min(MILLION);
            }
            flows.push(Flow { class, longest, burst, rate, deadline: MOST_TICKS, road });
        }
        flows
    }

    fn burst(&mut self) -> (u64, u64) {
        let longest = match (self.scale, self.chance.below(10)) {
            (_, 0) => 1,
            (Scale::Large, 1..=3) => 255,
            (Scale::Large, _) => self.chance.within(1, 255),
            (Scale::Middle, _) => self.chance.within(1, 64),
            (Scale::Small, _) => self.chance.within(1, 12),
        };
        let burst = match (self.scale, self.chance.below(10)) {
            (_, 0..=3) => longest,
            (_, 4..=5) => longest + self.chance.below(longest),
            (Scale::Large, 6) => self.chance.within(60_000, 65_535),
            (Scale::Large, _) => self.chance.within(longest, 4_000),
            _ => longest * self.chance.within(1, 6) + self.chance.below(2),
        };
        (longest, burst)
    }

    /// A rate where `left` is not yet taken.
    fn rate(&mut self, left: u64) -> u64 {
        let rate = match self.chance.below(20) {
            _ if self.crowd => self.chance.within(1, 3_000),
            0 => self.chance.near(left),
            1..=2 => left,
            3..=6 => left / 2,
            7..=8 => left / 3,
            9 => self.chance.within(1, 30),
            10 => *self.chance.pick(&[100_000, 125_000, 200_000, 250_000, 333_333, 500_000]),
            11..=15 => self.chance.within(1, left.max(1) / 3 + 1),
            _ => self.chance.within(1, left.max(1) / 8 + 1),
        };
        rate.clamp(1, MILLION)
    }

    /// A walk through the net that passes no port twice.
    fn road(&mut self, net: &Net) -> Road {
        let length = match self.chance.below(10) {
            0..=1 => 1,
            2..=7 => self.chance.within(2, 5),
            _ => self.chance.within(3, LONGEST_ROAD as u64),
        };
        let mut road = Road::default();
        let mut here = self.chance.below(net.ports.len() as u64) as usize;
        loop {
            road.push(here as u8);
            let ends = net.ports[here].ends;
            let onward = |port: &usize| net.ports[*port].switch == ends && !road.contains(&(*port as u8));
            let next: Vec<usize> = (0..net.ports.len()).filter(onward).collect();
            if next.is_empty() || road.len() as u64 == length {
                return road;
            }
            here = *self.chance.pick(&next);
        }
    }

    /// Deadlines and memories near what the flows are due and need, found by admitting them all.
    fn set_bounds(&mut self, net: &mut Net, flows: &mut [Flow]) {
        let mut admission = Admission::new(net.clone());
        let tight = if self.crowd { 0 } else { *self.chance.pick(&[0, 0, 0, 8]) };
        for (number, flow) in flows.iter_mut().enumerate() {
            let tight = self.chance.percent(tight);
            if admission.admit(number as u64, flow.clone()).is_ok() && tight {
                let due = admission.flows.last().map_or(0, |admitted| admitted.due);
                flow.deadline = self.chance.near(due).min(MOST_TICKS);
            }
        }
        let strict = *self.chance.pick(&[0, 0, 10, 50, 100]);
        let exact = self.chance.percent(60);
        for admitted in &admission.flows {
            let flow = &mut flows[admitted.number as usize];
            if flow.deadline == MOST_TICKS && self.chance.percent(strict) {
                let bound = if exact { admitted.due } else { self.chance.near(admitted.due) };
                flow.deadline = bound.min(MOST_TICKS);
            }
        }
        let strict = *self.chance.pick(&[0, 50, 100, 100]);
        let exact = self.chance.percent(60);
        let modest = self.program == Program::Evening && net.memories.len() > 4;
        for (memory, &need) in net.memories.iter_mut().zip(admission.needs()) {
            *memory = if self.chance.percent(strict) {
                let bound = if exact { need } else { self.chance.near(need) };
                bound.min(MOST_MEMORY)
            } else if modest {
                (need + self.chance.below(1_000)).min(MOST_MEMORY)
            } else {
                MOST_MEMORY
            };
        }
    }

    /// For each flow whether it will be admitted if nothing is damaged.
    fn hopeful(&self, net: &Net, flows: &[Flow]) -> Vec<bool> {
        let mut admission = Admission::new(net.clone());
        (0..).zip(flows).map(|(number, flow)| admission.admit(number, flow.clone()).is_ok()).collect()
    }

    // Records

    /// Puts a record, and sometimes a damaged one before it.
    fn put(&mut self, record: &[u8]) {
        if self.chance.percent(self.damage) {
            let damaged = self.damaged(record);
            self.raw(&damaged);
        }
        self.raw(record);
    }

    /// Sometimes puts a record that has no place here.
    fn before(&mut self, record: &[u8]) {
        if self.chance.percent(self.damage) {
            self.raw(record);
        }
    }

    fn raw(&mut self, record: &[u8]) {
        self.bytes.extend((record.len() as u16).to_be_bytes());
        self.bytes.extend(record);
        if record.first() == Some(&1) {
            self.numbers += 1;
        }
    }

    fn damaged(&mut self, record: &[u8]) -> Vec<u8> {
        let mut record = record.to_vec();
        let place = self.chance.below(record.len() as u64) as usize;
        match self.chance.below(8) {
            0 => record.truncate(place),
            1 => record.push(self.chance.below(256) as u8),
            2 => record[0] = self.chance.below(8) as u8,
            3..=4 => record[place] = self.chance.below(256) as u8,
            5 => record[place] = *self.chance.pick(&[0, 1, 4, 7, 8, 16, 17, 64, 65, 255]),
            6 => record[place] = record[place].wrapping_add(1),
            _ => record[place] ^= 1 << self.chance.below(8),
        }
        record
    }

    /// Sometimes the input ends inside its last records.
    fn cut(&mut self) {
        if self.chance.percent(3 + self.damage) {
            let most = self.bytes.len().min(40) as u64;
            let less = self.chance.below(most + 1) as usize;
            self.bytes.truncate(self.bytes.len() - less);
        } else if self.chance.percent(2 + self.damage) {
            let tail: &[&[u8]] = &[
                &[0],
                &[0, 1],
                &[0, 5, 3, 0, 0, 5],
                &[0, 6, 3, 0, 0, 1, 0],
                &[0, 9, 4, 0, 0, 0, 3],
                &[0, 9, 4, 0, 0, 0, 3, 7],
                &[0, 3, 5, 0],
                &[1, 0, 2, 0, 0],
                &[0, 99, 1, 0, 5, 0, 5, 0, 0, 0, 1, 0, 0, 0, 99, 1, 0],
            ];
            let tail = *self.chance.pick(tail);
            self.bytes.extend(tail);
        }
    }

    fn put_net(&mut self, net: &Net) {
        let record = net_record(net);
        self.before(&[1, 0, 0, 0]);
        self.before(&[3, 0, 0, 1]);
        self.before(&[4, 0, 0, 0, 1]);
        if self.chance.percent(3) {
            let mut large = net.clone();
            large.memories = vec![MOST_MEMORY; net.memories.len().max(4) + self.chance.below(2) as usize];
            let record = net_record(&large);
            self.put(&record);
            if self.program != Program::Evening {
                return;
            }
        }
        if self.chance.percent(self.damage) {
            let mut wrong = record.clone();
            let at = 2 + 4 * net.ports.len();
            wrong[at] = wrong[at].wrapping_sub(1);
            self.raw(&wrong);
        }
        self.put(&record);
    }

    /// Puts the flows, and gives them back with their numbers.
    fn put_flows(&mut self, flows: Vec<Flow>) -> Vec<(u64, Flow)> {
        if self.chance.below(400) == 0 {
            for _ in 0..65_530 {
                self.raw(&[1]);
            }
        }
        let mut numbered = Vec::new();
        for flow in flows {
            if self.chance.percent(self.damage) {
                let number = self.chance.below(self.numbers + 2);
                self.put_packet(number, 0, 0);
            }
            if self.chance.percent(self.damage) {
                self.wrong_flow(&flow);
            }
            let record = flow_record(&flow);
            self.put(&record);
            numbered.push((self.numbers - 1, flow));
        }
        if self.chance.percent(self.damage) {
            self.put_tick(0);
        }
        numbered
    }

    /// A flow with one number at or past an end of its range.
    fn wrong_flow(&mut self, flow: &Flow) {
        let mut record = flow_record(flow);
        match self.chance.below(8) {
            0 => record[1] = 8,
            1 => record[2] = 0,
            2 => record[3..5].copy_from_slice(&(flow.longest as u16 - 1).to_be_bytes()),
            3 => record[5..9].copy_from_slice(&(MILLION as u32 + 1).to_be_bytes()),
            4 => record[5..9].copy_from_slice(&0u32.to_be_bytes()),
            5 => record[13] = *self.chance.pick(&[0, 17]),
            6 => record.extend([record[14]; 1]),
            _ => {
                let last = record.len() - 1;
                record[last] = self.chance.below(66) as u8;
            }
        }
        if record.len() > 14 + flow.road.len() {
            record[13] += 1;
        }
        self.raw(&record);
    }

    fn put_packet(&mut self, number: u64, length: u64, port: u8) {
        let [high, low] = (number as u16).to_be_bytes();
        let record = [3, high, low, length as u8, port];
        let end = if self.program == Program::Ports { 5 } else { 4 };
        self.put(&record[..end]);
    }

    fn put_tick(&mut self, count: u64) {
        let [a, b, c, d] = (count as u32).to_be_bytes();
        self.put(&[4, a, b, c, d]);
    }

    // Scripts

    fn script(&mut self, net: &Net, flows: &[(u64, Flow)], size: Option<u64>) {
        if size.is_some() {
            self.damage = 0;
        }
        let packets = size.unwrap_or_else(|| *self.chance.pick(&[20, 100, 400, 400, 2_000]));
        let mut events = self.events(net, flows, packets);
        events.sort_by_key(|event| event.tick);
        let mut clock = 0;
        for event in &events {
            self.advance(event.tick - clock);
            clock = event.tick;
            if self.chance.percent(self.damage / 2) {
                self.wrong_packet(net, event);
            }
            self.put_packet(event.number, event.length, event.port);
            if self.chance.percent(self.damage / 3) {
                self.put_tick(0);
            }
            if self.chance.percent(self.damage / 3) {
                if let Some((_, flow)) = flows.first() {
                    self.put(&flow_record(flow));
                }
            }
        }
        clock += self.ending();
        if self.chance.percent(3) {
            self.last_clock(clock, events.first());
        }
    }

    fn events(&mut self, net: &Net, flows: &[(u64, Flow)], packets: u64) -> Vec<Event> {
        let mut stops = self.stops(net, flows);
        let mut events = Vec::new();
        if stops.is_empty() {
            return events;
        }
        let mut span = match self.scale {
            Scale::Small => self.chance.within(1, 300),
            Scale::Middle => self.chance.within(1, 3_000),
            Scale::Large => self.chance.within(1, 60_000),
        };
        if packets > 5_000 || self.chance.percent(50) {
            span = fitting_span(&mut stops, packets);
        }
        if stops.is_empty() {
            return events;
        }
        let mood = self.chance.below(5);
        while (events.len() as u64) < packets {
            let together = self.chance.below(span);
            let kind = if mood == 0 { 0 } else { self.chance.below(12) };
            for &(number, flow, port) in &stops {
                if mood != 0 && self.chance.percent(40) {
                    continue;
                }
                let alone = self.chance.below(span);
                let put = Event { tick: together, number, length: flow.longest, port };
                match kind {
                    0..=3 => self.whole_burst(&mut events, put, flow),
                    4 => self.whole_burst(&mut events, Event { tick: alone, ..put }, flow),
                    5..=7 => self.steady(&mut events, Event { tick: alone, ..put }, flow, packets),
                    8 => self.steady(&mut events, put, flow, packets),
                    9 if self.chance.percent(20) => self.flood(&mut events, put, flow),
                    _ => self.stray(&mut events, Event { tick: alone, ..put }, flow),
                }
                if events.len() as u64 >= 2 * packets {
                    break;
                }
            }
            // Rarely all are passed over; a single packet brings the end nearer.
            let &(number, flow, port) = self.chance.pick(&stops);
            self.stray(&mut events, Event { tick: together, number, length: flow.longest, port }, flow);
        }
        events
    }

    /// Where packets of each flow may come to: in `ports` any port of this switch, in `evening` the edge.
    fn stops<'a>(&mut self, net: &Net, flows: &'a [(u64, Flow)]) -> Vec<(u64, &'a Flow, u8)> {
        let program = self.program;
        let own = self.own;
        flows
            .iter()
            .flat_map(|(number, flow)| {
                flow.road
                    .iter()
                    .enumerate()
                    .filter(move |(hop, &port)| match program {
                        Program::Ports => net.ports[port as usize].switch == own,
                        _ => *hop == 0,
                    })
                    .map(move |(_, &port)| (*number, flow, port))
            })
            .collect()
    }

    /// As much at once as the burst allows, and sometimes a packet more.
    fn whole_burst(&mut self, events: &mut Vec<Event>, event: Event, flow: &Flow) {
        let mut rest = flow.burst;
        let most = if self.scale == Scale::Large { 120 } else { 24 };
        for _ in 0..most {
            let length = if self.chance.percent(80) { flow.longest } else { self.chance.within(1, flow.longest) };
            let length = length.min(rest);
            if length == 0 {
                break;
            }
            rest -= length;
            events.push(Event { length, ..event });
        }
        if self.chance.percent(30) {
            let length = self.chance.within(1, flow.longest);
            events.push(Event { length, ..event });
        }
    }

    /// Packets at exactly the rate, perhaps after a burst, perhaps with one a tick too early.
    fn steady(&mut self, events: &mut Vec<Event>, event: Event, flow: &Flow, packets: u64) {
        if self.chance.percent(50) {
            self.whole_burst(events, event, flow);
        }
        let length = if self.chance.percent(70) { flow.longest } else { self.chance.within(1, flow.longest) };
        let count = self.chance.within(1, (packets / 8).clamp(4, 200));
        let most = match self.scale {
            Scale::Small => 3_000,
            _ => 1_000_000,
        };
        for step in 1..=count {
            let after = (step * length * MILLION).div_ceil(flow.rate);
            if after > most {
                break;
            }
            let early = u64::from(self.chance.percent(3));
            events.push(Event { tick: event.tick + after - early, length, ..event });
        }
    }

    /// More at once than an edge or a regulator has room for.
    fn flood(&mut self, events: &mut Vec<Event>, event: Event, flow: &Flow) {
        for _ in 0..self.chance.within(60, 140) {
            let length = if self.chance.percent(70) { 1 } else { self.chance.within(1, flow.longest) };
            events.push(Event { length, ..event });
        }
    }

    fn stray(&mut self, events: &mut Vec<Event>, event: Event, flow: &Flow) {
        let length = self.chance.within(1, flow.longest);
        events.push(Event { length, ..event });
    }

    /// A packet that 8 refuses, or a port that is none.
    fn wrong_packet(&mut self, net: &Net, like: &Event) {
        let some_port = self.chance.below(net.ports.len() as u64 + 1) as u8;
        match self.chance.below(6) {
            0 => self.put_packet(like.number, 0, like.port),
            1 => self.put_packet(like.number, 255, like.port),
            2 => self.put_packet(self.numbers + like.number, like.length, like.port),
            3 => self.put_packet(like.number, like.length + 1, like.port),
            4 => self.put_packet(like.number, like.length, some_port),
            _ => self.put_packet(65_535, like.length, some_port),
        }
    }

    /// Lets `ticks` go by, in one record or in several.
    fn advance(&mut self, mut ticks: u64) {
        while ticks > 0 {
            let count = match self.chance.below(8) {
                0 => 1,
                1 => self.chance.within(0, ticks.min(3)),
                2 => self.chance.within(1, ticks),
                _ => ticks,
            };
            self.put_tick(count);
            ticks -= count;
        }
    }

    fn ending(&mut self) -> u64 {
        let ticks = match self.chance.below(10) {
            0 => 0,
            1 => self.chance.below(10),
            2..=5 => self.chance.below(500),
            6..=7 => self.chance.within(1_000, 9_000),
            _ if self.scale == Scale::Small => 1_000,
            8 => 1_000_000,
            _ => MOST_TICKS,
        };
        self.advance(ticks);
        ticks
    }

    /// Goes on to the last clock, or to just before or past it.
    fn last_clock(&mut self, clock: u64, event: Option<&Event>) {
        let mut rest = LAST_CLOCK - clock;
        while rest > MOST_TICKS {
            self.put_tick(MOST_TICKS);
            rest -= MOST_TICKS;
        }
        let early = self.chance.below(3);
        self.put_tick(rest.saturating_sub(early));
        if let Some(&Event { number, length, port, .. }) = event {
            self.put_packet(number, length, port);
        }
        for count in [early + 1, 0, MOST_TICKS, early, 1] {
            self.put_tick(count);
        }
    }
}

/// The ticks that most flows need for their part of the packets. Flows that need very much longer are left out.
fn fitting_span(stops: &mut Vec<(u64, &Flow, u8)>, packets: u64) -> u64 {
    let each = packets / stops.len() as u64 + 1;
    let needed = |flow: &Flow| each * flow.longest * MILLION / flow.rate + 1;
    let mut all: Vec<u64> = stops.iter().map(|(_, flow, _)| needed(flow)).collect();
    all.sort_unstable();
    let middle = all[all.len() / 2].min(1 << 30);
    stops.retain(|(_, flow, _)| needed(flow) <= 8 * middle);
    middle
}

fn net_record(net: &Net) -> Vec<u8> {
    let mut record = vec![2, net.ports.len() as u8];
    for port in &net.ports {
        record.extend([port.switch as u8, port.ends as u8]);
        record.extend((port.wire as u16).to_be_bytes());
    }
    record.push(net.memories.len() as u8);
    record.extend(net.memories.iter().flat_map(|&memory| (memory as u32).to_be_bytes()));
    record
}

fn flow_record(flow: &Flow) -> Vec<u8> {
    let mut record = vec![1, flow.class as u8, flow.longest as u8];
    record.extend((flow.burst as u16).to_be_bytes());
    record.extend((flow.rate as u32).to_be_bytes());
    record.extend((flow.deadline as u32).to_be_bytes());
    record.push(flow.road.len() as u8);
    record.extend(flow.road.iter());
    record
}
