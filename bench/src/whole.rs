//! The whole net, as `evening` plays it: packets go from port to port over the wires.

use crate::admission::Admission;
use crate::agenda::Agenda;
use crate::machine::{Machine, Packet};
use crate::printing::Printer;
use crate::program::{Arrival, Refusal, Tally};
use std::collections::VecDeque;
use std::ops::Range;

pub struct WholeNet {
    pub machine: Machine,
    wires: Wires,
}

/// What is on the wires, each wire that of the port with the same number.
struct Wires {
    ticks: Vec<u64>,
    /// The packets on each wire, in their order.
    packets: Vec<VecDeque<Packet>>,
    /// The wires with a packet that reaches the end, by tick. On one wire no two do so in the same tick.
    ends: Agenda,
}

impl Wires {
    fn new(admission: &Admission) -> Wires {
        let ports = &admission.net.ports;
        Wires {
            ticks: ports.iter().map(|port| port.wire).collect(),
            packets: vec![VecDeque::new(); ports.len()],
            ends: Agenda::new(),
        }
    }

    fn put(&mut self, tick: u64, port: usize, packet: Packet) {
        self.packets[port].push_back(packet);
        self.ends.insert(tick + self.ticks[port], port);
    }

    /// Takes off what reaches the end of each wire in this tick, in rising number of the ports.
    fn arrive(&mut self, tick: u64, mut arrived: impl FnMut(Packet)) {
        for port in self.ends.take(tick) {
            arrived(self.packets[port].pop_front().expect("a packet on the wire"));
        }
    }
}

impl WholeNet {
    pub fn new(admission: &Admission) -> WholeNet {
        WholeNet { machine: Machine::new(admission), wires: Wires::new(admission) }
    }

    /// Plays these ticks, the first of them with the arrivals of the script.
    pub fn play(&mut self, ticks: Range<u64>, script: &mut Vec<Arrival>, tallies: &mut [Tally], printer: &mut Printer) {
        let mut tick = if script.is_empty() { self.next(ticks.start) } else { ticks.start };
        while tick < ticks.end {
            self.machine.leave(tick, |port, packet, _| self.wires.put(tick, port, packet));
            self.come_from_wires(tick, tallies);
            self.come_from_sources(tick, script, tallies, printer);
            self.machine.pass(tick);
            self.machine.take(tick);
            self.machine.measure();
            tick = self.next(tick + 1);
        }
    }

    fn next(&self, from: u64) -> u64 {
        self.machine.next(from).min(self.wires.ends.next(from))
    }

    fn come_from_wires(&mut self, tick: u64, tallies: &mut [Tally]) {
        let machine = &mut self.machine;
        self.wires.arrive(tick, |packet| {
            let stop = machine.stop(packet.stop);
            if stop.last {
                tallies[stop.flow].deliver(tick - packet.entered);
            } else {
                machine.come_from_port(Packet { stop: packet.stop + 1, ..packet });
            }
        });
    }

    fn come_from_sources(
        &mut self,
        tick: u64,
        script: &mut Vec<Arrival>,
        tallies: &mut [Tally],
        printer: &mut Printer,
    ) {
        for arrival in script.drain(..) {
            let tally = &mut tallies[arrival.flow];
            let stop = self.machine.stop_of(arrival.flow, 0);
            let room = self.machine.come_from_source(tick, stop, arrival.length);
            let refusal = (!room).then_some(Refusal::Edge { flow: tally.number });
            tally.judge(arrival.record, refusal, printer);
        }
    }
}
