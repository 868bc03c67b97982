//! Rules that are easy to get wrong, by hand.

mod common;

use common::*;
use twin::program::Program::{self, Admit, Evening, Ports};

/// One port on switch 0, with much memory.
fn one_port() -> Vec<u8> {
    net(&[(0, 0, 0)], &[1_000_000])
}

/// A flow of class 0 over port 0.
fn plain(longest: u8, burst: u16, rate: u32) -> Vec<u8> {
    flow(0, longest, burst, rate, u32::MAX, &[0])
}

/// Only the lines that begin so.
fn begin(program: Program, input: &[Vec<u8>], start: &str) -> String {
    let printed = output(program, true, &input.concat());
    printed.lines().filter(|line| line.starts_with(start)).map(|line| format!("{line}\n")).collect()
}

fn refusals(program: Program, input: &[Vec<u8>]) -> String {
    let printed = output(program, true, &input.concat());
    printed.lines().filter(|line| line.contains(": refused ")).map(|line| format!("{line}\n")).collect()
}

#[test]
fn the_end_inside_a_record() {
    let whole = [one_port(), plain(5, 5, 1)].concat();
    let start = one_port().len();
    // Every end inside the flow: inside the length, inside the record, never complete.
    for end in start + 1..whole.len() {
        let there = end - start;
        let line = match there {
            1 | 2 => "record 1: refused 1: byte 0".to_string(),
            _ => format!("flow 0: refused 1: byte {}", there - 2),
        };
        prints(Admit, &whole[..end], &format!("net: 1 ports, 1 switches\n{line}"));
    }
    // Complete, but the length says more.
    let mut longer = plain(5, 5, 1);
    longer[1] += 1;
    prints(Admit, &[one_port(), longer].concat(), "net: 1 ports, 1 switches\nflow 0: refused 1: byte 15");
    // A byte too many, and the length says still more.
    let mut longer = plain(5, 5, 1);
    longer[1] += 2;
    longer.push(7);
    prints(Admit, &[one_port(), longer].concat(), "net: 1 ports, 1 switches\nflow 0: refused 1: byte 15");
    // A fault in what is there comes first.
    prints(Admit, &[one_port(), vec![0, 15, 1, 0, 0]].concat(), "net: 1 ports, 1 switches\nflow 0: refused 2: byte 2");
    prints(
        Admit,
        &[one_port(), vec![0, 15, 3, 0, 0]].concat(),
        "net: 1 ports, 1 switches\nrecord 1: refused 1: byte 0",
    );
    prints(Admit, &[0, 1], "record 0: refused 1: byte 0");
    prints(Admit, &[0, 0], "record 0: refused 1: byte 0");
    prints(Admit, &[0, 0, 0], "record 0: refused 1: byte 0\nrecord 1: refused 1: byte 0");
}

#[test]
fn a_cut_net_is_refused_by_1_not_11() {
    let mut large = net(&[], &[1_048_576; 5]);
    assert_eq!(refusals(Evening, &[large.clone()]), "net: refused 11\n");
    large[1] += 1;
    assert_eq!(refusals(Evening, &[large]), "net: refused 1: byte 23\n");
    assert_eq!(refusals(Evening, &[net(&[], &[1_048_576; 4])]), "");
    assert_eq!(refusals(Evening, &[net(&[], &[1_048_576, 1_048_576, 1_048_576, 1_048_576, 1])]), "net: refused 11\n");
    assert_eq!(refusals(Admit, &[net(&[], &[1_048_576; 5])]), "");
    assert_eq!(refusals(Ports, &[switch(0), net(&[], &[1_048_576; 5])]), "");
}

#[test]
fn a_cut_tick_plays_nothing() {
    let input = [one_port(), plain(5, 5, 1), packet(0, 5), vec![0, 6, 4, 0, 0, 0, 9]];
    let printed = output(Evening, true, &input.concat());
    assert!(printed.contains("record 3: refused 1: byte 5\nclock 0\nflow 0: packets 0, refused 0, delivered 0"));
}

#[test]
fn faults_of_nets() {
    let fault = |program, bytes: &[u8]| refusals(program, &[record(bytes)]);
    assert_eq!(fault(Admit, &[2]), "net: refused 1: byte 1\n");
    assert_eq!(fault(Admit, &[2, 65]), "net: refused 2: byte 1\n");
    assert_eq!(fault(Admit, &[2, 1, 0, 0, 4, 0]), "net: refused 2: byte 4\n");
    assert_eq!(fault(Admit, &[2, 1, 0, 0, 4]), "net: refused 1: byte 5\n");
    assert_eq!(fault(Admit, &[2, 1, 0, 0, 3, 255]), "net: refused 1: byte 6\n");
    assert_eq!(fault(Admit, &[2, 1, 0, 0, 3, 255, 0]), "net: refused 2: byte 6\n");
    assert_eq!(fault(Admit, &[2, 1, 0, 1, 3, 255, 1]), "net: refused 2: byte 6\n");
    assert_eq!(fault(Admit, &[2, 1, 0, 1, 3, 255, 2]), "net: refused 1: byte 7\n");
    assert_eq!(fault(Admit, &[2, 1, 255, 0, 0, 0, 255]), "net: refused 2: byte 6\n");
    assert_eq!(fault(Admit, &[2, 1, 0, 0, 0, 0, 1, 0, 16, 0, 1]), "net: refused 2: byte 7\n");
    assert_eq!(fault(Admit, &[2, 1, 0, 0, 0, 0, 1, 0, 16, 0, 0, 9]), "net: refused 1: byte 11\n");
    prints(Admit, &record(&[2, 0, 0]), "net: 0 ports, 0 switches");
    // The own switch must be one of the net.
    assert_eq!(refusals(Ports, &[switch(1), net(&[], &[5])]), "net: refused 2: byte 2\n");
    assert_eq!(refusals(Ports, &[switch(1), net(&[], &[5, 5])]), "");
    assert_eq!(refusals(Ports, &[switch(255), net(&[], &[5; 255])]), "net: refused 2: byte 2\n");
}

#[test]
fn faults_of_flows() {
    let three = net(&[(0, 1, 0), (1, 0, 0), (2, 2, 0)], &[10_000; 3]);
    let fault = |bytes: Vec<u8>| refusals(Admit, &[three.clone(), bytes]);
    assert_eq!(fault(flow(8, 0, 0, 0, 0, &[])), "flow 0: refused 2: byte 1\n");
    assert_eq!(fault(flow(7, 0, 0, 0, 0, &[])), "flow 0: refused 2: byte 2\n");
    assert_eq!(fault(flow(7, 5, 4, 0, 0, &[])), "flow 0: refused 2: byte 3\n");
    assert_eq!(fault(flow(7, 5, 5, 0, 0, &[])), "flow 0: refused 2: byte 5\n");
    assert_eq!(fault(flow(7, 5, 5, 1_000_001, 0, &[])), "flow 0: refused 2: byte 5\n");
    assert_eq!(fault(flow(7, 5, 5, 1_000_000, 0, &[])), "flow 0: refused 2: byte 13\n");
    assert_eq!(fault(flow(7, 5, 5, 1, 9, &[0; 17])), "flow 0: refused 2: byte 13\n");
    assert_eq!(fault(flow(7, 5, 5, 1, 9, &[3])), "flow 0: refused 2: byte 14\n");
    assert_eq!(fault(flow(7, 5, 5, 1, 9, &[0, 0])), "flow 0: refused 3: byte 15\n");
    assert_eq!(fault(flow(7, 5, 5, 1, 9, &[0, 2])), "flow 0: refused 3: byte 15\n");
    assert_eq!(fault(flow(7, 5, 5, 1, 9, &[0, 3])), "flow 0: refused 2: byte 15\n");
    assert_eq!(fault(flow(7, 5, 5, 1, 9, &[0, 1, 0, 9])), "flow 0: refused 3: byte 16\n");
    // The wire of port 2 ends on its own switch, but a port is on a road only once.
    assert_eq!(fault(flow(7, 5, 5, 1, 9, &[2, 2])), "flow 0: refused 3: byte 15\n");
    assert_eq!(fault(record(&[1, 7, 5, 0, 5, 0, 0, 0])), "flow 0: refused 1: byte 8\n");
    assert_eq!(fault(record(&[1, 7, 5, 0, 5, 0, 0, 0, 1, 0, 0, 0, 9, 2, 0])), "flow 0: refused 1: byte 15\n");
    assert_eq!(fault(record(&[1, 7, 5, 0, 5, 0, 0, 0, 1, 0, 0, 0, 9, 1, 0, 0])), "flow 0: refused 1: byte 15\n");
}

#[test]
fn known_kinds_and_flow_numbers() {
    // A flow before the net, one with a fault, one too much for the port, one of one byte: all take numbers.
    let input = [
        plain(5, 5, 1),
        record(&[1]),
        record(&[6]),
        tick(3),
        record(&[]),
        one_port(),
        one_port(),
        plain(0, 5, 1),
        plain(5, 5, 1_000_000),
        plain(5, 5, 1),
        switch(0),
        packet(3, 1),
        tick(0),
        plain(5, 5, 1),
    ];
    let lines = "flow 0: refused 1: byte 0
        flow 1: refused 1: byte 0
        record 2: refused 1: byte 0
        record 3: refused 1: byte 0
        record 4: refused 1: byte 0
        net: 1 ports, 1 switches
        net: refused 1: byte 0
        flow 2: refused 2: byte 2
        flow 3: due 5: port 0 5
        flow 4: refused 4: port 0
        record 10: refused 1: byte 0
        ";
    prints(
        Admit,
        &input.concat(),
        &format!(
            "{lines}
        record 11: refused 1: byte 0
        record 12: refused 1: byte 0
        flow 5: refused 4: port 0"
        ),
    );
    prints(
        Evening,
        &input.concat(),
        &format!(
            "{lines}
        flow 5: refused 1: byte 0
        clock 0
        flow 3: packets 0, refused 0, delivered 0, longest - shortest -
        edge 3: highest 0 of 64 packets
        port 0: highest 0 of 5
        switch 0: highest 0 of 1000000
        refused: 0 packets of no flow, 10 other records"
        ),
    );
}

#[test]
fn ports_wants_its_switch_first() {
    let input = [one_port(), record(&[5]), record(&[5, 0, 0]), switch(0), switch(0), record(&[2]), one_port()];
    prints(
        Ports,
        &input.concat(),
        "net: refused 1: byte 0
         record 1: refused 1: byte 1
         record 2: refused 1: byte 2
         record 4: refused 1: byte 0
         net: refused 1: byte 1
         net: 1 ports, 1 switches
         clock 0
         port 0: highest 0 of 0
         switch 0: highest 0 of 1000000
         refused: 0 packets of no flow, 5 other records",
    );
    prints(
        Ports,
        &[],
        "clock 0
         refused: 0 packets of no flow, 0 other records",
    );
}

#[test]
fn what_ends_standstill() {
    // Refused packets, refused ticks and ticks of 0 do not end it.
    let input = [
        one_port(),
        packet(0, 1),
        plain(5, 5, 1),
        packet(0, 6),
        packet(0, 0),
        packet(1, 1),
        tick(0),
        record(&[3, 0, 0]),
        plain(5, 5, 1),
        packet(1, 1),
        plain(5, 5, 1),
    ];
    prints(
        Evening,
        &input.concat(),
        "net: 1 ports, 1 switches
         record 1: refused 8: flow 0
         flow 0: due 10: port 0 10
         record 3: refused 8: flow 0
         record 4: refused 8: flow 0
         record 5: refused 8: flow 1
         record 7: refused 1: byte 3
         flow 1: due 10: port 0 10
         flow 2: refused 1: byte 0
         clock 0
         flow 0: packets 0, refused 2, delivered 0, longest - shortest -
         flow 1: packets 0, refused 0, delivered 0, longest - shortest -
         edge 0: highest 0 of 64 packets
         edge 1: highest 0 of 64 packets
         port 0: highest 0 of 10
         switch 0: highest 0 of 1000000
         refused: 2 packets of no flow, 2 other records",
    );
    let input = [one_port(), tick(1), plain(5, 5, 1)];
    assert_eq!(refusals(Evening, &input), "flow 0: refused 1: byte 0\n");
}

#[test]
fn the_order_of_tests() {
    // Too much for ports 0 and 1: the lowest is named, though the road comes to it last.
    let ring = |memory| net(&[(0, 1, 0), (1, 0, 0)], &[memory, memory]);
    let both = |deadline| flow(0, 5, 5, 600_000, deadline, &[1, 0]);
    assert_eq!(refusals(Admit, &[ring(100), both(100), both(0)]), "flow 1: refused 4: port 0\n");
    // Late before memory; the first late flow is the old one.
    let small = |deadline| flow(0, 5, 5, 1, deadline, &[1, 0]);
    assert_eq!(refusals(Admit, &[ring(0), small(9)]), "flow 0: refused 5: flow 0\n");
    assert_eq!(refusals(Admit, &[ring(0), small(10)]), "flow 0: refused 6: switch 0\n");
    assert_eq!(refusals(Admit, &[ring(100), small(19), small(0)]), "flow 1: refused 5: flow 0\n");
    assert_eq!(refusals(Admit, &[ring(100), small(20), small(19)]), "flow 1: refused 5: flow 1\n");
    // Switch 0: port 0 needs 5, its regulator 5 + 5 / 1,000,000 rounded up. Switch 1: port 1 needs 5.
    assert_eq!(refusals(Admit, &[net(&[(0, 1, 0), (1, 0, 0)], &[11, 5]), small(10)]), "");
    assert_eq!(refusals(Admit, &[net(&[(0, 1, 0), (1, 0, 0)], &[10, 4]), small(10)]), "flow 0: refused 6: switch 0\n");
    assert_eq!(refusals(Admit, &[net(&[(0, 1, 0), (1, 0, 0)], &[11, 4]), small(10)]), "flow 0: refused 6: switch 1\n");
}

#[test]
fn at_most_256_flows() {
    let mut input = vec![net(&[(0, 0, 0)], &[1_048_576])];
    input.extend((0..256).map(|_| flow(0, 1, 1, 1, 256, &[0])));
    // 7 comes before 4 and 5, reading before 7.
    input.push(flow(0, 1, 1, 1_000_000, 0, &[0]));
    input.push(flow(0, 1, 1, 1_000_000, 0, &[1]));
    assert_eq!(refusals(Admit, &input), "flow 256: refused 7\nflow 257: refused 2: byte 14\n");
}

#[test]
fn great_dues() {
    // Class 0 leaves a millionth of the port: class 1 is promised 2 * 65,535 * 1,000,000.
    let input = [
        one_port(),
        flow(0, 255, 65_535, 999_999, u32::MAX, &[0]),
        flow(1, 255, 65_535, 1, u32::MAX, &[0]),
        flow(1, 1, 1, 1, u32::MAX, &[0]),
    ];
    assert_eq!(refusals(Admit, &input), "flow 1: refused 5: flow 1\nflow 2: refused 5: flow 2\n");
    let input = [one_port(), flow(0, 1, 1, 999_999, 1, &[0]), flow(1, 1, 3_000, 1, u32::MAX, &[0])];
    assert_eq!(refusals(Admit, &input), "flow 1: refused 5: flow 0\n");
    let input = [one_port(), flow(0, 1, 1, 999_999, 2, &[0]), flow(1, 1, 3_000, 1, 3_001_000_000, &[0])];
    assert_eq!(begin(Admit, &input, "flow 1"), "flow 1: due 3001000000: port 0 3001000000\n");
}

#[test]
fn a_full_port_has_no_class_behind_it() {
    let input =
        [one_port(), flow(3, 5, 5, 1_000_000, 100, &[0]), flow(4, 1, 1, 1, 100, &[0]), flow(0, 1, 1, 1, 100, &[0])];
    prints(
        Admit,
        &input.concat(),
        "net: 1 ports, 1 switches
         flow 0: due 5: port 0 5
         flow 1: refused 4: port 0
         flow 2: refused 4: port 0",
    );
}

#[test]
fn the_last_clock() {
    let mut input = vec![one_port(), plain(1, 1, 1)];
    input.extend((0..256).map(|_| tick(u32::MAX)));
    input.push(packet(0, 1));
    input.push(tick(257));
    input.push(tick(0));
    input.push(tick(256));
    input.push(tick(0));
    input.push(tick(1));
    input.push(packet(0, 1));
    prints(
        Evening,
        &input.concat(),
        "net: 1 ports, 1 switches
         flow 0: due 1: port 0 1
         record 259: refused 10
         record 263: refused 10
         clock 1099511627776
         flow 0: packets 1, refused 0, delivered 1, longest 1, shortest 1
         edge 0: highest 0 of 64 packets
         port 0: highest 0 of 1
         switch 0: highest 0 of 1000000
         refused: 0 packets of no flow, 2 other records",
    );
}

#[test]
fn a_long_wait() {
    // The second packet waits 255,000,000 ticks at the edge.
    let input = [one_port(), plain(255, 255, 1), packet(0, 255), packet(0, 255), tick(255_000_255), tick(1)];
    let printed = begin(Evening, &input, "flow 0: packets");
    assert_eq!(printed, "flow 0: packets 2, refused 0, delivered 2, longest 255, shortest 255\n");
    let printed = begin(Evening, &input[..5], "flow 0: packets");
    assert_eq!(printed, "flow 0: packets 2, refused 0, delivered 1, longest 255, shortest 255\n");
}

#[test]
fn the_edge_has_room_for_64() {
    // A burst of 3 passes at once, 64 wait, the next is refused. A tick later one more may pass.
    let mut input = vec![one_port(), plain(1, 3, 1_000_000)];
    input.extend((0..68).map(|_| packet(0, 1)));
    input.push(tick(1));
    input.extend((0..2).map(|_| packet(0, 1)));
    input.push(tick(1));
    assert_eq!(refusals(Evening, &input), "record 69: refused 9: flow 0\nrecord 72: refused 9: flow 0\n");
    assert_eq!(begin(Evening, &input, "edge"), "edge 0: highest 64 of 64 packets\n");
    assert_eq!(
        begin(Evening, &input, "flow 0: packets"),
        "flow 0: packets 68, refused 2, delivered 1, longest 1, shortest 1\n"
    );
    assert_eq!(begin(Evening, &input, "port"), "port 0: highest 2 of 3\n");
}

#[test]
fn any_number_may_come_and_pass_in_one_tick() {
    let mut input = vec![one_port(), plain(1, 200, 1)];
    input.extend((0..265).map(|_| packet(0, 1)));
    input.push(tick(1));
    assert_eq!(refusals(Evening, &input), "record 266: refused 9: flow 0\n");
    assert_eq!(begin(Evening, &input, "port"), "port 0: highest 199 of 200\n");
}

#[test]
fn lines_of_a_tick() {
    // Packets refused by 9 and 6 stand at the tick, in the order of the script, after what is sent.
    let mut input = vec![
        switch(1),
        net(&[(0, 1, 0), (1, 1, 0)], &[1_000, 1_000]),
        flow(0, 5, 5, 250_000, 1_000, &[0, 1]),
        flow(0, 1, 1, 1, 1_000, &[1]),
        packet_at(1, 1, 1),
        tick(1),
        packet_at(0, 5, 1),
        packet_at(0, 5, 1),
        packet_at(9, 5, 1),
        packet_at(0, 5, 0),
    ];
    input.extend((0..65).map(|_| packet_at(1, 1, 1)));
    input.push(packet_at(0, 5, 1));
    input.push(tick(1));
    prints(
        Ports,
        &input.concat(),
        "net: 2 ports, 2 switches
         flow 0: due 11: port 0 5, port 1 11
         flow 1: due 6: port 1 6
         record 8: refused 8: flow 9
         record 9: refused 8: flow 0
         tick 1: port 1 sends flow 1 length 1
         record 7: refused 6: flow 0
         record 74: refused 9: flow 1
         record 75: refused 6: flow 0
         clock 2
         flow 0: packets 1, refused 3, delivered 0
         flow 1: packets 65, refused 1, delivered 1
         edge 1: highest 64 of 64 packets
         port 1: highest 0 of 6
         port 1 from 0 class 0: highest 0 of 7
         switch 1: highest 0 of 1000
         refused: 1 packets of no flow, 0 other records",
    );
}

#[test]
fn wires_of_0_ticks_and_the_order_of_passing() {
    // Flow 1 comes from its source at tick 2, flow 0 over a wire of 0 ticks in the same tick: edges pass first.
    let input = [
        net(&[(0, 1, 0), (1, 1, 3)], &[1_000, 1_000]),
        flow(0, 2, 2, 500_000, 1_000, &[0, 1]),
        flow(0, 4, 4, 250_000, 1_000, &[1]),
        packet(0, 2),
        tick(2),
        packet(1, 4),
        tick(9),
        tick(1),
    ];
    assert_eq!(
        begin(Evening, &input, "flow"),
        lines(
            "flow 0: due 8: port 0 2, port 1 8
             flow 1: due 6: port 1 6
             flow 0: packets 1, refused 0, delivered 1, longest 11, shortest 11
             flow 1: packets 1, refused 0, delivered 1, longest 7, shortest 7"
        )
    );
    assert_eq!(
        begin(Evening, &input[..7], "flow 0: packets"),
        "flow 0: packets 1, refused 0, delivered 0, longest - shortest -\n"
    );
}

#[test]
fn dues_wait_for_all_flows() {
    let mut input = vec![one_port()];
    input.extend((0..3).map(|_| plain(5, 5, 1)));
    input.insert(2, record(&[9]));
    prints(
        Admit,
        &input.concat(),
        "net: 1 ports, 1 switches
         flow 0: due 15: port 0 15
         record 2: refused 1: byte 0
         flow 1: due 15: port 0 15
         flow 2: due 15: port 0 15",
    );
}

#[test]
fn numbers_past_65535() {
    let mut input = vec![one_port(), plain(5, 5, 1)];
    input.extend((0..65_535).map(|_| record(&[1])));
    input.push(plain(4, 4, 1));
    input.push(packet(0, 5));
    input.push(packet(65_535, 1));
    input.push(tick(1));
    let printed = output(Evening, true, &input.concat());
    assert!(printed
        .contains("flow 65535: refused 1: byte 1\nflow 65536: due 9: port 0 9\nrecord 65539: refused 8: flow 65535\n"));
    assert!(printed.contains("\nflow 65536: packets 0, refused 0, delivered 0, longest - shortest -\n"));
}

#[test]
fn nothing_is_played_without_play() {
    let mut input = vec![one_port(), plain(1, 1, 1)];
    input.extend((0..70).map(|_| packet(0, 1)));
    input.extend([packet(0, 2), tick(9), plain(1, 1, 1), tick(u32::MAX)]);
    input.extend((0..256).map(|_| tick(u32::MAX)));
    assert_eq!(
        output(Evening, false, &input.concat()),
        lines(
            "net: 1 ports, 1 switches
             flow 0: due 1: port 0 1
             record 72: refused 8: flow 0
             flow 1: refused 1: byte 0
             record 331: refused 10
             clock 1099511627529
             refused: 0 packets of no flow, 2 other records"
        )
    );
}
