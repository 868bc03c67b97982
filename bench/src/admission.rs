//! Which flows are admitted.

use crate::net::{Flow, Net};
use crate::promises::{Load, Onward, Promises};
use crate::{CLASSES, LONGEST_ROAD, MILLION, MOST_FLOWS};

/// The first test that fails, and its place.
#[derive(Clone, Copy, Debug, PartialEq, Eq)]
pub enum Denial {
    /// 7
    Full,
    /// 4
    Rate { port: usize },
    /// 5
    Late { flow: u64 },
    /// 6
    Memory { switch: usize },
}

pub struct Admitted {
    /// The flow number.
    pub number: u64,
    pub flow: Flow,
    pub due: u64,
}

/// All that admission keeps of one port.
#[derive(Default)]
struct Site {
    load: Load,
    promises: Promises,
    /// The admitted flows over the port, by their place in the order of admission.
    flows: Vec<u8>,
    /// The regulators that packets sent by this port come to.
    onward: Vec<Onward>,
}

pub struct Admission {
    pub net: Net,
    pub flows: Vec<Admitted>,
    sites: Vec<Site>,
    /// What each switch needs.
    needs: Vec<u64>,
    /// For each flow number up to the last admitted one, its place in the order of admission.
    places: Vec<Option<u8>>,
}

/// A regulator inside the net, with what is set aside for it.
#[derive(Clone, Copy, PartialEq, Eq)]
pub struct Inside {
    pub from: usize,
    pub to: usize,
    pub class: usize,
    pub room: u64,
}

impl Admission {
    pub fn new(net: Net) -> Admission {
        Admission {
            sites: net.ports.iter().map(|_| Site::default()).collect(),
            needs: vec![0; net.memories.len()],
            flows: Vec::new(),
            places: Vec::new(),
            net,
        }
    }

    /// Admits the flow, or says why not and leaves all as it was.
    pub fn admit(&mut self, number: u64, flow: Flow) -> Result<(), Denial> {
        self.test(number, &flow)?;
        self.enter(number, flow);
        Ok(())
    }

    fn test(&self, number: u64, flow: &Flow) -> Result<(), Denial> {
        if self.flows.len() >= MOST_FLOWS {
            return Err(Denial::Full);
        }
        let overfull = |port: &usize| self.sites[*port].load.rate() + flow.rate > MILLION;
        if let Some(port) = flow.ports().filter(overfull).min() {
            return Err(Denial::Rate { port });
        }
        let mut promises = [[0; CLASSES]; LONGEST_ROAD];
        for (port, promises) in flow.ports().zip(&mut promises) {
            let mut load = self.sites[port].load;
            load.add(flow);
            *promises = load.promises();
        }
        let promises = &promises[..flow.road.len()];
        self.test_dues(number, flow, promises)?;
        self.test_needs(flow, promises)
    }

    /// `promises` are those of the ports of the new flow's road, with the new flow; all others stay as they are.
    fn test_dues(&self, number: u64, flow: &Flow, promises: &[Promises]) -> Result<(), Denial> {
        let mut later = [0; MOST_FLOWS];
        for (port, promises) in flow.ports().zip(promises) {
            let site = &self.sites[port];
            for &place in &site.flows {
                let class = self.flows[place as usize].flow.class;
                later[place as usize] += promises[class] - site.promises[class];
            }
        }
        let late = |(old, later): &(&Admitted, &u64)| old.due + *later > old.flow.deadline;
        if let Some((old, _)) = self.flows.iter().zip(&later).find(late) {
            return Err(Denial::Late { flow: old.number });
        }
        let due = promises.iter().map(|promises| promises[flow.class]).sum::<u64>() + self.wires(flow);
        if due > flow.deadline {
            return Err(Denial::Late { flow: number });
        }
        Ok(())
    }

    fn test_needs(&self, flow: &Flow, promises: &[Promises]) -> Result<(), Denial> {
        let switch_of = |port: usize| self.net.ports[port].switch;
        let mut more = [0; 256];
        for (place, (port, promises)) in flow.ports().zip(promises).enumerate() {
            more[switch_of(port)] += flow.burst;
            let mut next = flow.road.get(place + 1).map(|&next| next as usize);
            for old in &self.sites[port].onward {
                let mut onward = *old;
                if next.is_some_and(|next| old.serves(next, flow.class)) {
                    onward = old.with(flow);
                    next = None;
                }
                more[switch_of(old.to)] += onward.need(promises) - old.need(&self.sites[port].promises);
            }
            if let Some(next) = next {
                more[switch_of(next)] += Onward::new(next, flow.class).with(flow).need(promises);
            }
        }
        let needs = self.needs.iter().zip(&more).map(|(need, more)| need + more);
        match needs.zip(&self.net.memories).position(|(need, &memory)| need > memory) {
            Some(switch) => Err(Denial::Memory { switch }),
            None => Ok(()),
        }
    }

    /// Takes in a flow that has stood all tests.
    fn enter(&mut self, number: u64, flow: Flow) {
        let place = self.flows.len() as u8;
        for port in flow.ports() {
            let site = &mut self.sites[port];
            site.load.add(&flow);
            site.promises = site.load.promises();
            site.flows.push(place);
        }
        for (port, next) in flow.hops() {
            let onward = &mut self.sites[port].onward;
            match onward.iter_mut().find(|onward| onward.serves(next, flow.class)) {
                Some(onward) => *onward = onward.with(&flow),
                None => onward.push(Onward::new(next, flow.class).with(&flow)),
            }
        }
        if number <= u64::from(u16::MAX) {
            self.places.resize(number as usize, None);
            self.places.push(Some(place));
        }
        self.flows.push(Admitted { number, flow, due: 0 });
        self.sum_up();
    }

    /// Dues and needs from the sums; at most 256 flows are ever entered.
    fn sum_up(&mut self) {
        for place in 0..self.flows.len() {
            self.flows[place].due = self.dues(&self.flows[place].flow).last().map_or(0, |(_, due)| due);
        }
        self.needs.fill(0);
        for (port, site) in self.net.ports.iter().zip(&self.sites) {
            self.needs[port.switch] += site.load.need();
            for onward in &site.onward {
                self.needs[self.net.ports[onward.to].switch] += onward.need(&site.promises);
            }
        }
    }

    /// The ticks of the wires between the ports of the road.
    fn wires(&self, flow: &Flow) -> u64 {
        flow.hops().map(|(port, _)| self.net.ports[port].wire).sum()
    }

    /// Each port of the road with the due up to it.
    pub fn dues<'a>(&'a self, flow: &'a Flow) -> impl Iterator<Item = (usize, u64)> + 'a {
        let mut due = 0;
        let mut wire = 0;
        flow.ports().map(move |port| {
            due += wire + self.sites[port].promises[flow.class];
            wire = self.net.ports[port].wire;
            (port, due)
        })
    }

    /// The place in the order of admission of the flow of this number, if it is admitted.
    pub fn place(&self, number: u16) -> Option<usize> {
        self.places.get(number as usize).copied().flatten().map(usize::from)
    }

    /// What each switch needs.
    pub fn needs(&self) -> &[u64] {
        &self.needs
    }

    /// The rates of the flows over a port together.
    pub fn rate(&self, port: usize) -> u64 {
        self.sites[port].load.rate()
    }

    /// What is set aside for the queues of a port.
    pub fn room(&self, port: usize) -> u64 {
        self.sites[port].load.need()
    }

    /// The regulators inside that some flow goes through, in no special order.
    pub fn insides(&self) -> impl Iterator<Item = Inside> + '_ {
        self.sites.iter().enumerate().flat_map(|(from, site)| {
            site.onward.iter().map(move |onward| Inside {
                from,
                to: onward.to,
                class: onward.class,
                room: onward.need(&site.promises),
            })
        })
    }
}
