//! The row of records, and how the bytes of each are read.

use crate::net::{Flow, Net, Port, Road};
use crate::{CLASSES, LONGEST_ROAD, MILLION, MOST_PORTS};

const LONGEST_WIRE: u64 = 1_023;
const MOST_MEMORY: u64 = 1_048_576;

/// A fault of reading: its number (1, 2 or 3) and the offset of its byte.
#[derive(Clone, Copy, Debug, PartialEq, Eq)]
pub struct Fault {
    pub number: u8,
    pub byte: usize,
}

impl Fault {
    pub fn shape(byte: usize) -> Fault {
        Fault { number: 1, byte }
    }

    fn range(byte: usize) -> Fault {
        Fault { number: 2, byte }
    }

    fn road(byte: usize) -> Fault {
        Fault { number: 3, byte }
    }
}

/// The records of the input, one after the other.
pub struct Records<'a> {
    rest: &'a [u8],
    count: u64,
}

impl<'a> Records<'a> {
    pub fn new(input: &'a [u8]) -> Self {
        Records { rest: input, count: 0 }
    }
}

impl<'a> Iterator for Records<'a> {
    type Item = Record<'a>;

    fn next(&mut self) -> Option<Record<'a>> {
        let (bytes, rest, cut) = match self.rest {
            [] => return None,
            [_] => (&[][..], &[][..], true),
            [high, low, rest @ ..] => {
                let length = u16::from_be_bytes([*high, *low]) as usize;
                if length > rest.len() {
                    (rest, &[][..], true)
                } else {
                    (&rest[..length], &rest[length..], false)
                }
            }
        };
        let number = self.count;
        self.rest = rest;
        self.count += 1;
        Some(Record { number, bytes, cut })
    }
}

/// One record without its length; `cut` if the input ends inside it.
#[derive(Clone, Copy)]
pub struct Record<'a> {
    pub number: u64,
    bytes: &'a [u8],
    cut: bool,
}

impl Record<'_> {
    pub fn kind(&self) -> Option<u8> {
        self.bytes.first().copied()
    }

    /// Reads the fields after the kind. A byte too many is a fault, and so is the end of the input.
    pub fn read<T>(&self, fields: impl FnOnce(&mut Bytes) -> Result<T, Fault>) -> Result<T, Fault> {
        let mut bytes = Bytes { all: self.bytes, at: 1 };
        let content = fields(&mut bytes)?;
        if self.cut || bytes.at < self.bytes.len() {
            return Err(Fault::shape(bytes.at));
        }
        Ok(content)
    }
}

/// The bytes of a record while it is read.
pub struct Bytes<'a> {
    all: &'a [u8],
    at: usize,
}

impl Bytes<'_> {
    /// A number of `N` bytes, whatever its value.
    fn number<const N: usize>(&mut self) -> Result<u64, Fault> {
        match self.all.get(self.at..self.at + N) {
            Some(bytes) => {
                self.at += N;
                Ok(bytes.iter().fold(0, |sum, &byte| sum << 8 | u64::from(byte)))
            }
            None => Err(Fault::shape(self.all.len())),
        }
    }

    /// A number of `N` bytes from `least` to `most`.
    fn within<const N: usize>(&mut self, least: u64, most: u64) -> Result<u64, Fault> {
        let place = self.at;
        let number = self.number::<N>()?;
        if number < least || number > most {
            return Err(Fault::range(place));
        }
        Ok(number)
    }
}

/// Kind 5: the switch that the program `ports` is.
pub fn switch(bytes: &mut Bytes) -> Result<usize, Fault> {
    Ok(bytes.number::<1>()? as usize)
}

/// Kind 2. `own` is the switch that the program is, if it is one.
pub fn net(bytes: &mut Bytes, own: Option<usize>) -> Result<Net, Fault> {
    let count = bytes.within::<1>(0, MOST_PORTS as u64)?;
    let ports = (0..count).map(|_| port(bytes)).collect::<Result<Vec<_>, _>>()?;
    let named = ports.iter().flat_map(|port| [port.switch, port.ends]).chain(own);
    let least = named.max().map_or(0, |highest| highest + 1);
    let switches = bytes.within::<1>(least as u64, 255)?;
    let memories = (0..switches).map(|_| bytes.within::<4>(0, MOST_MEMORY)).collect::<Result<Vec<_>, _>>()?;
    Ok(Net { ports, memories })
}

fn port(bytes: &mut Bytes) -> Result<Port, Fault> {
    Ok(Port {
        switch: bytes.number::<1>()? as usize,
        ends: bytes.number::<1>()? as usize,
        wire: bytes.within::<2>(0, LONGEST_WIRE)?,
    })
}

/// Kind 1.
pub fn flow(bytes: &mut Bytes, net: &Net) -> Result<Flow, Fault> {
    let class = bytes.within::<1>(0, CLASSES as u64 - 1)? as usize;
    let longest = bytes.within::<1>(1, 255)?;
    let burst = bytes.within::<2>(longest, 65_535)?;
    let rate = bytes.within::<4>(1, MILLION)?;
    let deadline = bytes.number::<4>()?;
    let road = road(bytes, net)?;
    Ok(Flow { class, longest, burst, rate, deadline, road })
}

fn road(bytes: &mut Bytes, net: &Net) -> Result<Road, Fault> {
    let length = bytes.within::<1>(1, LONGEST_ROAD as u64)?;
    let mut road = Road::default();
    for _ in 0..length {
        let place = bytes.at;
        let port = bytes.number::<1>()? as u8;
        let Some(here) = net.ports.get(port as usize) else {
            return Err(Fault::range(place));
        };
        let joins = road.last().is_none_or(|&before| net.ports[before as usize].ends == here.switch);
        if road.contains(&port) || !joins {
            return Err(Fault::road(place));
        }
        road.push(port);
    }
    Ok(road)
}

/// Kind 3 as it stands in the record. Only `ports` has the port by which the packet goes on.
pub struct Packet {
    pub flow: u16,
    pub length: u8,
    pub port: Option<usize>,
}

/// Kind 3 in `evening`.
pub fn packet(bytes: &mut Bytes) -> Result<Packet, Fault> {
    let flow = bytes.number::<2>()? as u16;
    let length = bytes.number::<1>()? as u8;
    Ok(Packet { flow, length, port: None })
}

/// Kind 3 in `ports`.
pub fn packet_with_port(bytes: &mut Bytes, net: &Net) -> Result<Packet, Fault> {
    let packet = packet(bytes)?;
    let place = bytes.at;
    let port = bytes.number::<1>()? as usize;
    if port >= net.ports.len() {
        return Err(Fault::range(place));
    }
    Ok(Packet { port: Some(port), ..packet })
}

/// Kind 4: how many ticks are to be played.
pub fn tick(bytes: &mut Bytes) -> Result<u64, Fault> {
    bytes.number::<4>()
}
