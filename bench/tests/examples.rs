//! The examples at the end of FORMATS.md and the worked examples of MODEL.md.

mod common;

use common::*;
use twin::program::Program::{Admit, Evening, Ports};

const RING: &str = "00 1b 02 03 00 01 00 02 01 02 00 02 02 00 00 02 03 00 00 03 e8 00 00 03 e8 00 00 03 e8";

#[test]
fn evening_on_a_ring() {
    let input = hex("00 1b   02 03 00 01 00 02 01 02 00 02 02 00 00 02 03 00 00 03 e8 00 00 03 e8 00 00 03 e8
         00 10   01 00 05 00 05 00 06 1a 80 00 00 00 64 02 00 01
         00 10   01 00 05 00 05 00 06 1a 80 00 00 00 64 02 01 02
         00 10   01 00 05 00 05 00 06 1a 80 00 00 00 64 02 02 00
         00 04   03 00 00 05
         00 05   04 00 00 00 07
         00 04   03 00 01 05
         00 04   03 00 01 06
         00 04   03 00 07 05
         00 05   04 00 00 00 21");
    prints(
        Evening,
        &input,
        "net: 3 ports, 3 switches
         flow 0: due 22: port 0 10, port 1 22
         flow 1: due 22: port 1 10, port 2 22
         flow 2: due 22: port 2 10, port 0 22
         record 7: refused 8: flow 1
         record 8: refused 8: flow 7
         clock 40
         flow 0: packets 1, refused 0, delivered 1, longest 19, shortest 19
         flow 1: packets 1, refused 1, delivered 1, longest 14, shortest 14
         flow 2: packets 0, refused 0, delivered 0, longest - shortest -
         edge 0: highest 0 of 64 packets
         edge 1: highest 0 of 64 packets
         edge 2: highest 0 of 64 packets
         port 0: highest 0 of 10
         port 1: highest 5 of 10
         port 2: highest 0 of 10
         port 0 from 2 class 0: highest 0 of 9
         port 1 from 0 class 0: highest 0 of 9
         port 2 from 1 class 0: highest 0 of 9
         switch 0: highest 0 of 1000
         switch 1: highest 5 of 1000
         switch 2: highest 0 of 1000
         refused: 1 packets of no flow, 0 other records",
    );
    assert_eq!(
        output(Evening, false, &input),
        lines(
            "net: 3 ports, 3 switches
             flow 0: due 22: port 0 10, port 1 22
             flow 1: due 22: port 1 10, port 2 22
             flow 2: due 22: port 2 10, port 0 22
             record 7: refused 8: flow 1
             record 8: refused 8: flow 7
             clock 40
             refused: 1 packets of no flow, 0 other records"
        )
    );
}

#[test]
fn ports_with_two_flows_behind_one_regulator() {
    let input = hex("00 02   05 01
         00 13   02 02 00 01 00 00 01 01 00 00 02 00 00 03 e8 00 00 03 e8
         00 10   01 00 05 00 05 00 03 d0 90 00 00 03 e8 02 00 01
         00 10   01 00 03 00 03 00 03 d0 90 00 00 03 e8 02 00 01
         00 05   03 00 00 05 01
         00 05   03 00 01 03 01
         00 05   03 00 00 05 01
         00 05   04 00 00 00 08
         00 05   03 00 00 05 01
         00 05   03 00 01 03 01
         00 05   04 00 00 00 1e");
    prints(
        Ports,
        &input,
        "net: 2 ports, 2 switches
         flow 0: due 16: port 0 8, port 1 16
         flow 1: due 16: port 0 8, port 1 16
         record 6: refused 6: flow 0
         tick 5: port 1 sends flow 0 length 5
         tick 8: port 1 sends flow 1 length 3
         tick 25: port 1 sends flow 0 length 5
         tick 28: port 1 sends flow 1 length 3
         clock 38
         flow 0: packets 2, refused 1, delivered 2
         flow 1: packets 2, refused 0, delivered 2
         port 1: highest 3 of 8
         port 1 from 0 class 0: highest 8 of 12
         switch 1: highest 8 of 1000
         refused: 0 packets of no flow, 0 other records",
    );
}

#[test]
fn cut_input() {
    let ring = hex(RING);
    prints(Admit, &ring[..ring.len() - 1], "net: refused 1: byte 26");
    let input = [ring, hex("00 05 03 00 00 05")].concat();
    let printed = output(Evening, true, &input);
    assert!(printed.contains("\nrecord 1: refused 1: byte 4\n"));
    assert!(printed.ends_with("\nrefused: 0 packets of no flow, 1 other records\n"));
    prints(Admit, &[0], "record 0: refused 1: byte 0");
    prints(Admit, &[], "");
    prints(
        Evening,
        &[0],
        "record 0: refused 1: byte 0
         clock 0
         refused: 0 packets of no flow, 1 other records",
    );
}

#[test]
fn two_classes_at_one_port() {
    let input = [net(&[(0, 0, 0)], &[1000]), flow(0, 3, 3, 400_000, 100, &[0]), flow(1, 4, 5, 500_000, 100, &[0])];
    prints(
        Admit,
        &input.concat(),
        "net: 1 ports, 1 switches
         flow 0: due 7: port 0 7
         flow 1: due 13: port 0 13",
    );
}

#[test]
fn a_regulator_at_work() {
    let input = [net(&[(0, 0, 0)], &[1000]), flow(0, 3, 4, 250_000, 1000, &[0]), packet(0, 3), packet(0, 3), tick(12)];
    // The second passes at 8 and has left at 11.
    prints(
        Evening,
        &input.concat(),
        "net: 1 ports, 1 switches
         flow 0: due 4: port 0 4
         clock 12
         flow 0: packets 2, refused 0, delivered 2, longest 3, shortest 3
         edge 0: highest 1 of 64 packets
         port 0: highest 0 of 4
         switch 0: highest 0 of 1000
         refused: 0 packets of no flow, 0 other records",
    );
    let shorter = output(Evening, true, &[&input[..4].concat()[..], &tick(11)].concat());
    assert!(shorter.contains("flow 0: packets 2, refused 0, delivered 1, longest 3, shortest 3\n"));
}

#[test]
fn too_much_for_a_port_and_too_late() {
    let ring = hex(RING);
    let flows = |rate, last| {
        [flow(0, 5, 5, rate, 100, &[0, 1]), flow(0, 5, 5, rate, 100, &[1, 2]), flow(0, 5, 5, rate, last, &[2, 0])]
            .concat()
    };
    prints(
        Admit,
        &[ring.clone(), flows(600_000, 100)].concat(),
        "net: 3 ports, 3 switches
         flow 0: due 12: port 0 5, port 1 12
         flow 1: refused 4: port 1
         flow 2: refused 4: port 0",
    );
    prints(
        Admit,
        &[ring, flows(400_000, 21)].concat(),
        "net: 3 ports, 3 switches
         flow 0: due 17: port 0 5, port 1 17
         flow 1: due 17: port 1 10, port 2 17
         flow 2: refused 5: flow 2",
    );
}

#[test]
fn an_idle_port() {
    let input = [
        switch(0),
        net(&[(0, 0, 0)], &[1000]),
        flow(0, 4, 4, 250_000, 1000, &[0]),
        tick(9),
        packet_at(0, 4, 0),
        tick(5),
    ];
    prints(
        Ports,
        &input.concat(),
        "net: 1 ports, 1 switches
         flow 0: due 4: port 0 4
         tick 13: port 0 sends flow 0 length 4
         clock 14
         flow 0: packets 1, refused 0, delivered 1
         edge 0: highest 0 of 64 packets
         port 0: highest 0 of 4
         switch 0: highest 0 of 1000
         refused: 0 packets of no flow, 0 other records",
    );
}
