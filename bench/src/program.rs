//! What the three programs do with a row of records.

use crate::admission::{Admission, Denial};
use crate::machine::Machine;
use crate::printing::{Name, Printer};
use crate::reading::{self, Fault, Record, Records};
use crate::switch::OneSwitch;
use crate::whole::WholeNet;
use crate::{LAST_CLOCK, MEMORY_OF_ALL};
use std::io::{self, Read, Write};
use std::ops::Range;

#[derive(Clone, Copy, Debug, PartialEq, Eq)]
pub enum Program {
    Admit,
    Ports,
    Evening,
}

/// Why a record is refused.
#[derive(Clone, Copy, Debug, PartialEq, Eq)]
pub enum Refusal {
    /// 1, 2 and 3
    Reading(Fault),
    /// 4 to 7, of flows
    Admission(Denial),
    /// 6, of packets
    Regulator { flow: u64 },
    /// 8, of no admitted flow
    NoFlow { flow: u64 },
    /// 8, of an admitted flow
    Misfit { flow: u64, place: usize },
    /// 9
    Edge { flow: u64 },
    /// 10
    Clock,
    /// 11
    Memories,
}

impl From<Fault> for Refusal {
    fn from(fault: Fault) -> Refusal {
        Refusal::Reading(fault)
    }
}

impl From<Denial> for Refusal {
    fn from(denial: Denial) -> Refusal {
        Refusal::Admission(denial)
    }
}

/// A packet of the script that waits for its tick.
pub struct Arrival {
    pub record: u64,
    /// The flow's place in the order of admission.
    pub flow: usize,
    /// Which port of its road the packet comes to.
    pub hop: usize,
    pub length: u64,
}

/// The counts of one admitted flow.
pub struct Tally {
    /// The flow number.
    pub number: u64,
    pub packets: u64,
    pub refused: u64,
    pub delivered: u64,
    pub longest: u64,
    pub shortest: u64,
}

impl Tally {
    fn new(number: u64) -> Tally {
        Tally { number, packets: 0, refused: 0, delivered: 0, longest: 0, shortest: u64::MAX }
    }

    pub fn deliver(&mut self, ticks: u64) {
        self.delivered += 1;
        self.longest = self.longest.max(ticks);
        self.shortest = self.shortest.min(ticks);
    }

    /// Counts a packet whose tick is played, and prints its refusal if it has one.
    pub fn judge(&mut self, record: u64, refusal: Option<Refusal>, printer: &mut Printer) {
        match refusal {
            None => self.packets += 1,
            Some(refusal) => {
                self.refused += 1;
                printer.refused(Name::Record(record), &refusal);
            }
        }
    }
}

/// Where a program stands.
enum Stage {
    NoSwitch,
    NoNet,
    /// `admit` stays here for good.
    Standstill(Admission),
    Running(Admission, Player),
}

/// What plays the ticks.
enum Player {
    Nothing,
    Switch(Box<OneSwitch>),
    Whole(Box<WholeNet>),
}

impl Player {
    fn new(program: Program, plays: bool, admission: &Admission) -> Player {
        match program {
            Program::Ports if plays => Player::Switch(Box::new(OneSwitch::new(admission))),
            Program::Evening if plays => Player::Whole(Box::new(WholeNet::new(admission))),
            _ => Player::Nothing,
        }
    }

    fn machine(&self) -> Option<&Machine> {
        match self {
            Player::Nothing => None,
            Player::Switch(switch) => Some(&switch.machine),
            Player::Whole(whole) => Some(&whole.machine),
        }
    }

    fn play(&mut self, ticks: Range<u64>, script: &mut Vec<Arrival>, tallies: &mut [Tally], printer: &mut Printer) {
        match self {
            Player::Nothing => (),
            Player::Switch(switch) => switch.play(ticks, script, tallies, printer),
            Player::Whole(whole) => whole.play(ticks, script, tallies, printer),
        }
    }
}

struct Session<'a> {
    program: Program,
    plays: bool,
    printer: Printer<'a>,
    stage: Stage,
    /// The switch that `ports` is.
    own: Option<usize>,
    /// How many flow numbers are taken.
    numbers: u64,
    clock: u64,
    script: Vec<Arrival>,
    tallies: Vec<Tally>,
    packets_of_no_flow: u64,
    other_records: u64,
}

/// Runs a program over its whole input. `plays` is false with the option `--no-play`.
pub fn run(program: Program, plays: bool, input: &[u8], out: &mut dyn Write) -> io::Result<()> {
    let mut session = Session {
        program,
        plays,
        printer: Printer::new(out),
        stage: if program == Program::Ports { Stage::NoSwitch } else { Stage::NoNet },
        own: None,
        numbers: 0,
        clock: 0,
        script: Vec::new(),
        tallies: Vec::new(),
        packets_of_no_flow: 0,
        other_records: 0,
    };
    for record in Records::new(input) {
        session.record(&record);
    }
    session.close()
}

/// The whole of a program: arguments, standard input, standard output.
pub fn main(program: Program) -> io::Result<()> {
    let mut plays = true;
    for argument in std::env::args().skip(1) {
        if argument != "--no-play" || program == Program::Admit {
            eprintln!("unknown option: {argument}");
            std::process::exit(2);
        }
        plays = false;
    }
    let mut input = Vec::new();
    io::stdin().lock().read_to_end(&mut input)?;
    run(program, plays, &input, &mut io::stdout().lock())
}

impl Session<'_> {
    fn record(&mut self, record: &Record) {
        let name = self.name(record);
        if let Err(refusal) = self.deal_with(record, name) {
            self.count(&refusal);
            self.printer.refused(name, &refusal);
        }
    }

    /// By its first byte alone. A flow number is taken whatever becomes of the record.
    fn name(&mut self, record: &Record) -> Name {
        match record.kind() {
            Some(1) => {
                self.numbers += 1;
                Name::Flow(self.numbers - 1)
            }
            Some(2) => Name::Net,
            _ => Name::Record(record.number),
        }
    }

    fn count(&mut self, refusal: &Refusal) {
        match refusal {
            Refusal::NoFlow { .. } => self.packets_of_no_flow += 1,
            Refusal::Misfit { place, .. } => self.tallies[*place].refused += 1,
            _ => self.other_records += 1,
        }
    }

    fn deal_with(&mut self, record: &Record, name: Name) -> Result<(), Refusal> {
        let script = self.program != Program::Admit;
        match (record.kind(), &self.stage, name) {
            (Some(5), Stage::NoSwitch, _) => self.switch(record),
            (Some(2), Stage::NoNet, _) => self.net(record),
            (Some(1), Stage::Standstill(_), Name::Flow(number)) => self.flow(record, number),
            (Some(3), Stage::Standstill(_) | Stage::Running(..), _) if script => self.packet(record),
            (Some(4), Stage::Standstill(_) | Stage::Running(..), _) if script => self.tick(record),
            _ => Err(Fault::shape(0).into()),
        }
    }

    fn switch(&mut self, record: &Record) -> Result<(), Refusal> {
        self.own = Some(record.read(reading::switch)?);
        self.stage = Stage::NoNet;
        Ok(())
    }

    fn net(&mut self, record: &Record) -> Result<(), Refusal> {
        let net = record.read(|bytes| reading::net(bytes, self.own))?;
        if self.program == Program::Evening && net.memories.iter().sum::<u64>() > MEMORY_OF_ALL {
            return Err(Refusal::Memories);
        }
        self.printer.net(&net);
        self.stage = Stage::Standstill(Admission::new(net));
        Ok(())
    }

    fn flow(&mut self, record: &Record, number: u64) -> Result<(), Refusal> {
        if let Stage::Standstill(admission) = &mut self.stage {
            let flow = record.read(|bytes| reading::flow(bytes, &admission.net))?;
            admission.admit(number, flow)?;
            self.printer.admitted();
            self.tallies.push(Tally::new(number));
        }
        Ok(())
    }

    fn packet(&mut self, record: &Record) -> Result<(), Refusal> {
        let arrival = self.judge_packet(record)?;
        self.end_standstill();
        if self.plays {
            self.script.push(arrival);
        }
        Ok(())
    }

    /// Reads a packet and tests it for 8.
    fn judge_packet(&self, record: &Record) -> Result<Arrival, Refusal> {
        let admission = match &self.stage {
            Stage::Standstill(admission) | Stage::Running(admission, _) => admission,
            Stage::NoSwitch | Stage::NoNet => return Err(Fault::shape(0).into()),
        };
        let packet = match self.own {
            Some(_) => record.read(|bytes| reading::packet_with_port(bytes, &admission.net))?,
            None => record.read(reading::packet)?,
        };
        let number = u64::from(packet.flow);
        let Some(place) = admission.place(packet.flow) else {
            return Err(Refusal::NoFlow { flow: number });
        };
        let flow = &admission.flows[place].flow;
        let length = u64::from(packet.length);
        let hop = match packet.port {
            None => Some(0),
            Some(port) if self.own != Some(admission.net.ports[port].switch) => None,
            Some(port) => flow.ports().position(|on_road| on_road == port),
        };
        match hop {
            Some(hop) if length > 0 && length <= flow.longest => {
                Ok(Arrival { record: record.number, flow: place, hop, length })
            }
            _ => Err(Refusal::Misfit { flow: number, place }),
        }
    }

    fn tick(&mut self, record: &Record) -> Result<(), Refusal> {
        let count = record.read(reading::tick)?;
        let end = self.clock + count;
        if end > LAST_CLOCK {
            return Err(Refusal::Clock);
        }
        if count > 0 {
            self.end_standstill();
            if let Stage::Running(_, player) = &mut self.stage {
                player.play(self.clock..end, &mut self.script, &mut self.tallies, &mut self.printer);
            }
            self.clock = end;
        }
        Ok(())
    }

    /// From here on no flow is known: all dues can be printed, and the machine can be built.
    fn end_standstill(&mut self) {
        if let Stage::Running(..) = self.stage {
            return;
        }
        self.stage = match std::mem::replace(&mut self.stage, Stage::NoNet) {
            Stage::Standstill(admission) => {
                self.printer.release(Some(&admission));
                let player = Player::new(self.program, self.plays, &admission);
                Stage::Running(admission, player)
            }
            other => other,
        };
    }

    /// The end of the input.
    fn close(mut self) -> io::Result<()> {
        self.end_standstill();
        self.printer.release(None);
        if self.program != Program::Admit {
            self.printer.clock(self.clock);
            if let Stage::Running(admission, player) = &self.stage {
                if let Some(machine) = player.machine() {
                    self.printer.closing(admission, machine, &self.tallies, self.own);
                }
            }
            self.printer.refused_records(self.packets_of_no_flow, self.other_records);
        }
        self.printer.finish()
    }
}
