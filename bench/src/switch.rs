//! One switch of the net, as `ports` plays it: the script gives all arrivals, and what is sent is printed.

use crate::admission::Admission;
use crate::machine::{Machine, Packet};
use crate::printing::Printer;
use crate::program::{Arrival, Refusal, Tally};
use std::ops::Range;

pub struct OneSwitch {
    pub machine: Machine,
}

impl OneSwitch {
    pub fn new(admission: &Admission) -> OneSwitch {
        OneSwitch { machine: Machine::new(admission) }
    }

    /// Plays these ticks, the first of them with the arrivals of the script.
    pub fn play(&mut self, ticks: Range<u64>, script: &mut Vec<Arrival>, tallies: &mut [Tally], printer: &mut Printer) {
        let mut tick = if script.is_empty() { self.machine.next(ticks.start) } else { ticks.start };
        while tick < ticks.end {
            self.leave(tick, tallies, printer);
            self.come(tick, script, tallies, printer);
            self.machine.pass(tick);
            self.machine.take(tick);
            self.machine.measure();
            tick = self.machine.next(tick + 1);
        }
    }

    fn leave(&mut self, tick: u64, tallies: &mut [Tally], printer: &mut Printer) {
        self.machine.leave(tick, |port, packet, stop| {
            let tally = &mut tallies[stop.flow];
            tally.delivered += 1;
            printer.sends(tick, port, tally.number, packet.length);
        });
    }

    fn come(&mut self, tick: u64, script: &mut Vec<Arrival>, tallies: &mut [Tally], printer: &mut Printer) {
        for arrival in script.drain(..) {
            let tally = &mut tallies[arrival.flow];
            let stop = self.machine.stop_of(arrival.flow, arrival.hop);
            let refusal = if arrival.hop == 0 {
                let room = self.machine.come_from_source(tick, stop, arrival.length);
                (!room).then_some(Refusal::Edge { flow: tally.number })
            } else {
                let packet = Packet { stop, length: arrival.length, entered: tick };
                let room = self.machine.try_come_from_port(packet);
                (!room).then_some(Refusal::Regulator { flow: tally.number })
            };
            tally.judge(arrival.record, refusal, printer);
        }
    }
}
