#![allow(dead_code)]

use twin::program::{run, Program};

/// Bytes from hexadecimal text.
pub fn hex(text: &str) -> Vec<u8> {
    text.split_whitespace().map(|byte| u8::from_str_radix(byte, 16).expect("a byte")).collect()
}

/// Lines from text that is indented as the tests are.
pub fn lines(text: &str) -> String {
    text.lines().map(str::trim).filter(|line| !line.is_empty()).map(|line| format!("{line}\n")).collect()
}

pub fn output(program: Program, plays: bool, input: &[u8]) -> String {
    let mut out = Vec::new();
    run(program, plays, input, &mut out).expect("memory can be written");
    String::from_utf8(out).expect("ASCII")
}

#[track_caller]
pub fn prints(program: Program, input: &[u8], expected: &str) {
    assert_eq!(output(program, true, input), lines(expected));
}

pub fn record(bytes: &[u8]) -> Vec<u8> {
    [&(bytes.len() as u16).to_be_bytes(), bytes].concat()
}

pub fn net(ports: &[(u8, u8, u16)], memories: &[u32]) -> Vec<u8> {
    let mut bytes = vec![2, ports.len() as u8];
    for &(switch, ends, wire) in ports {
        bytes.extend([switch, ends]);
        bytes.extend(wire.to_be_bytes());
    }
    bytes.push(memories.len() as u8);
    bytes.extend(memories.iter().flat_map(|memory| memory.to_be_bytes()));
    record(&bytes)
}

pub fn flow(class: u8, longest: u8, burst: u16, rate: u32, deadline: u32, road: &[u8]) -> Vec<u8> {
    let mut bytes = vec![1, class, longest];
    bytes.extend(burst.to_be_bytes());
    bytes.extend(rate.to_be_bytes());
    bytes.extend(deadline.to_be_bytes());
    bytes.push(road.len() as u8);
    bytes.extend(road);
    record(&bytes)
}

pub fn packet(flow: u16, length: u8) -> Vec<u8> {
    let [high, low] = flow.to_be_bytes();
    record(&[3, high, low, length])
}

pub fn packet_at(flow: u16, length: u8, port: u8) -> Vec<u8> {
    let [high, low] = flow.to_be_bytes();
    record(&[3, high, low, length, port])
}

pub fn tick(count: u32) -> Vec<u8> {
    record(&[&[4][..], &count.to_be_bytes()].concat())
}

pub fn switch(number: u8) -> Vec<u8> {
    record(&[5, number])
}
