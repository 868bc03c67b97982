//! The printed lines.

use crate::admission::{Admission, Denial, Inside};
use crate::machine::{Machine, Place};
use crate::net::Net;
use crate::program::{Refusal, Tally};
use crate::EDGE_ROOM;
use std::fmt;
use std::io::{self, Write};

/// How much is gathered before it is written.
const ENOUGH: usize = 1 << 16;

/// What a record is called in its line.
#[derive(Clone, Copy, Debug, PartialEq, Eq)]
pub enum Name {
    Flow(u64),
    Net,
    Record(u64),
}

impl fmt::Display for Name {
    fn fmt(&self, line: &mut fmt::Formatter) -> fmt::Result {
        match self {
            Name::Flow(number) => write!(line, "flow {number}"),
            Name::Net => write!(line, "net"),
            Name::Record(number) => write!(line, "record {number}"),
        }
    }
}

impl fmt::Display for Refusal {
    fn fmt(&self, line: &mut fmt::Formatter) -> fmt::Result {
        match self {
            Refusal::Reading(fault) => write!(line, "{}: byte {}", fault.number, fault.byte),
            Refusal::Admission(Denial::Rate { port }) => write!(line, "4: port {port}"),
            Refusal::Admission(Denial::Late { flow }) => write!(line, "5: flow {flow}"),
            Refusal::Admission(Denial::Memory { switch }) => write!(line, "6: switch {switch}"),
            Refusal::Admission(Denial::Full) => write!(line, "7"),
            Refusal::Regulator { flow } => write!(line, "6: flow {flow}"),
            Refusal::NoFlow { flow } | Refusal::Misfit { flow, .. } => write!(line, "8: flow {flow}"),
            Refusal::Edge { flow } => write!(line, "9: flow {flow}"),
            Refusal::Clock => write!(line, "10"),
            Refusal::Memories => write!(line, "11"),
        }
    }
}

/// Gathers the lines in one buffer. As long as flows may still be admitted, dues may still change: all lines are held
/// back, and only the places of the lines with dues are kept.
pub struct Printer<'a> {
    out: &'a mut dyn Write,
    text: Vec<u8>,
    /// Where in the text the lines of the admitted flows belong, in their order.
    gaps: Vec<usize>,
    holds: bool,
    /// What became of the writing so far.
    written: io::Result<()>,
}

impl<'a> Printer<'a> {
    pub fn new(out: &'a mut dyn Write) -> Self {
        Printer { out, text: Vec::with_capacity(2 * ENOUGH), gaps: Vec::new(), holds: true, written: Ok(()) }
    }

    /// Writes out what was held back, with the dues as they are now. Nothing is held back from here on.
    pub fn release(&mut self, admission: Option<&Admission>) {
        self.holds = false;
        let held = std::mem::take(&mut self.text);
        let gaps = std::mem::take(&mut self.gaps);
        let mut written = 0;
        for (place, gap) in gaps.into_iter().enumerate() {
            self.text.extend_from_slice(&held[written..gap]);
            written = gap;
            if let Some(admission) = admission {
                self.dues(admission, place);
            }
        }
        self.text.extend_from_slice(&held[written..]);
    }

    /// Writes the rest, and says whether all could be written.
    pub fn finish(mut self) -> io::Result<()> {
        self.write();
        self.written?;
        self.out.flush()
    }

    fn write(&mut self) {
        if self.written.is_ok() {
            self.written = self.out.write_all(&self.text);
        }
        self.text.clear();
    }

    fn line(&mut self, line: fmt::Arguments) {
        self.text.write_fmt(line).expect("memory can be written");
        self.end_line();
    }

    fn end_line(&mut self) {
        self.text.push(b'\n');
        if self.text.len() >= ENOUGH && !self.holds {
            self.write();
        }
    }

    pub fn net(&mut self, net: &Net) {
        self.line(format_args!("net: {} ports, {} switches", net.ports.len(), net.memories.len()))
    }

    /// The place of the line of an admitted flow; the line itself comes with the release.
    pub fn admitted(&mut self) {
        self.gaps.push(self.text.len());
    }

    fn dues(&mut self, admission: &Admission, place: usize) {
        let admitted = &admission.flows[place];
        let dues: Vec<_> = admission.dues(&admitted.flow).collect();
        let due = dues.last().map_or(0, |&(_, due)| due);
        let ports: Vec<_> = dues.iter().map(|(port, due)| format!("port {port} {due}")).collect();
        self.line(format_args!("flow {}: due {due}: {}", admitted.number, ports.join(", ")))
    }

    pub fn refused(&mut self, name: Name, refusal: &Refusal) {
        self.line(format_args!("{name}: refused {refusal}"))
    }

    /// By far the most frequent line, hence without the machinery of formatting.
    pub fn sends(&mut self, tick: u64, port: usize, flow: u64, length: u64) {
        let parts = [("tick ", tick), (": port ", port as u64), (" sends flow ", flow), (" length ", length)];
        for (words, number) in parts {
            self.text.extend_from_slice(words.as_bytes());
            self.number(number);
        }
        self.end_line();
    }

    fn number(&mut self, mut number: u64) {
        let mut digits = [0; 20];
        let mut start = digits.len();
        loop {
            start -= 1;
            digits[start] = b'0' + (number % 10) as u8;
            number /= 10;
            if number == 0 {
                break;
            }
        }
        self.text.extend_from_slice(&digits[start..]);
    }

    pub fn clock(&mut self, clock: u64) {
        self.line(format_args!("clock {clock}"))
    }

    pub fn refused_records(&mut self, no_flow: u64, other: u64) {
        self.line(format_args!("refused: {no_flow} packets of no flow, {other} other records"))
    }

    /// The closing lines between the first and the last. `own` is the switch that `ports` is; `evening` is none.
    pub fn closing(&mut self, admission: &Admission, machine: &Machine, tallies: &[Tally], own: Option<usize>) {
        let net = &admission.net;
        let shown = |switch: usize| own.is_none_or(|own| own == switch);
        let at_shown = |port: usize| shown(net.ports[port].switch);
        for tally in tallies {
            self.tally(tally, own.is_none());
        }
        for (admitted, edge) in admission.flows.iter().zip(machine.regulators()) {
            if at_shown(edge.port) {
                self.line(format_args!("edge {}: highest {} of {EDGE_ROOM} packets", admitted.number, edge.highest));
            }
        }
        for port in (0..net.ports.len()).filter(|&port| at_shown(port)) {
            let highest = machine.highest_of_port(port);
            self.line(format_args!("port {port}: highest {highest} of {}", admission.room(port)));
        }
        for (inside, highest) in insides(machine).into_iter().filter(|(inside, _)| at_shown(inside.to)) {
            let Inside { from, to, class, room } = inside;
            self.line(format_args!("port {to} from {from} class {class}: highest {highest} of {room}"));
        }
        for (switch, memory) in net.memories.iter().enumerate().filter(|&(switch, _)| shown(switch)) {
            let highest = machine.highest_of_switch(switch);
            self.line(format_args!("switch {switch}: highest {highest} of {memory}"));
        }
    }

    fn tally(&mut self, tally: &Tally, whole: bool) {
        let Tally { number, packets, refused, delivered, longest, shortest } = tally;
        let counts = format!("flow {number}: packets {packets}, refused {refused}, delivered {delivered}");
        match (whole, delivered) {
            (false, _) => self.line(format_args!("{counts}")),
            (true, 0) => self.line(format_args!("{counts}, longest - shortest -")),
            (true, _) => self.line(format_args!("{counts}, longest {longest}, shortest {shortest}")),
        }
    }
}

/// The regulators inside with their highest fill, by port, port before and class.
fn insides(machine: &Machine) -> Vec<(Inside, u64)> {
    let mut insides: Vec<_> = machine
        .regulators()
        .iter()
        .filter_map(|regulator| match regulator.place {
            Place::Edge => None,
            Place::Inside { from, room } => {
                let inside = Inside { from, to: regulator.port, class: regulator.class, room };
                Some((inside, regulator.highest))
            }
        })
        .collect();
    insides.sort_by_key(|(inside, _)| (inside.to, inside.from, inside.class));
    insides
}
