//! Tests of the reference against sentences of the document, and all machines together in a hall whose network
//! loses, repeats and reorders. `rustc --edition 2024 -O --test tests.rs -o target/tests && target/tests`
#[path = "reference.rs"]
mod reference;
#[path = "scripts.rs"]
mod scripts;

use reference::*;
use scripts::{Random, flow_of, order_close, order_ticks, raw_packet};
use std::collections::{HashMap, HashSet};

#[test]
fn when_buckets_double_a_flow_stays_or_moves_up() {
    let mut random = Random(1);
    for _ in 0..10_000 {
        let flow = Flow { src: random.next() as u32, dst: 0, sport: random.next() as u16, dport: 0, protocol: UDP };
        let mut buckets = 16;
        while buckets < 65_536 {
            let (old, new) = (u32::from(flow.bucket(buckets)), u32::from(flow.bucket(2 * buckets)));
            assert!(new == old || new == old + buckets);
            buckets *= 2;
        }
    }
    // The sum 65,535 stays 65,535, with and without a carry.
    for src in [0x0000_ffff - 17, 0xffff_0000 - 17] {
        assert_eq!(Flow { src, dst: 0, sport: 0, dport: 0, protocol: UDP }.bucket(65_536), 65_535);
    }
    // 1 + 17 = 18 is 0b1_0010; turned, its lowest bits are 0 and the bit of 16 is the bit of 2^11.
    assert_eq!(Flow { src: 1, dst: 9, sport: 0, dport: 9, protocol: UDP }.bucket(65_536), 1 << 11 | 1 << 14);
}

#[test]
fn an_assignment_is_even_and_moves_no_more_than_it_has_to() {
    let mut random = Random(2);
    for _ in 0..300 {
        let buckets = 16usize << random.below(4);
        let mut servers: Vec<u8> = vec![random.next() as u8];
        let mut now = assign(&vec![None; buckets], &servers);
        for _ in 0..20 {
            let server = random.below(12) as u8 * 20;
            match servers.binary_search(&server) {
                Ok(at) if servers.len() > 1 => drop(servers.remove(at)),
                Ok(_) => continue,
                Err(at) => servers.insert(at, server),
            }
            let next = assign(&now.iter().copied().map(Some).collect::<Vec<_>>(), &servers);
            let count = |of: &[u8], server: u8| of.iter().filter(|&&s| s == server).count();
            let counts: Vec<usize> = servers.iter().map(|&server| count(&next, server)).collect();
            assert!(counts.iter().max().unwrap() - counts.iter().min().unwrap() <= 1);
            assert_eq!(counts.iter().sum::<usize>(), buckets);
            // The most that can stay: each server up to the share, and one more for those that have it.
            let share = buckets / servers.len();
            let stay: usize = servers.iter().map(|&server| count(&now, server).min(share)).sum();
            let above =
                servers.iter().filter(|&&server| count(&now, server) > share).count().min(buckets % servers.len());
            let stayed = now.iter().zip(&next).filter(|(now, next)| now == next).count();
            assert_eq!(stayed, stay + above);
            now = next;
        }
    }
}

/// The picture: a packet by a balancer that knows place 5, its session open nowhere.
#[test]
fn the_picture_of_a_chain() {
    let flow = flow_of(3, 16, &mut Random(3)).unwrap();
    let raw = raw_packet(&flow, true, false, 0, &[]);
    // Place 1 of all buckets is at server 1, so that 2 and 9 have their places by messages alone. Another
    // session keeps place 4 from being forgotten.
    let mut servers: HashMap<u8, Server> = [2, 9].map(|number| (number, Server::new(number, 16, &[1]))).into();
    let link = |place, server| Link { place, server };
    servers
        .get_mut(&2)
        .unwrap()
        .hear(Machine::Controller, &Control::Stand { bucket: 3, place: 4, before: None }.message());
    let other = Flow { dport: 1, ..flow };
    let opens = packet_message(3, 4, Way::Asked(link(4, 2)), true, &raw_packet(&other, true, false, 0, &[]));
    assert!(matches!(servers.get_mut(&2).unwrap().hear(Machine::Server(2), &opens)[..], [(To::Table, _)]));
    for (server, control) in [
        (9, Control::Stand { bucket: 3, place: 5, before: Some(link(4, 2)) }),
        (2, Control::BehindYou { bucket: 3, place: 4, after: link(5, 9) }),
        (2, Control::Stand { bucket: 3, place: 7, before: Some(link(5, 9)) }),
        (9, Control::BehindYou { bucket: 3, place: 5, after: link(7, 2) }),
    ] {
        let sent = servers.get_mut(&server).unwrap().hear(Machine::Controller, &control.message());
        assert_eq!(sent, vec![(To::Controller, control.answer())]);
    }
    let ways = [
        (5, Way::Up),
        (7, Way::Up),
        (5, Way::Down(link(7, 2))),
        (4, Way::Down(link(7, 2))),
        (7, Way::Asked(link(7, 2))),
    ];
    let at = [9, 2, 9, 2, 2];
    let message = |n: usize| packet_message(3, ways[n].0, ways[n].1, true, &raw);
    for n in 0..5 {
        let from = if n == 0 { Machine::Balancer(0) } else { Machine::Server(at[n - 1]) };
        let sent = servers.get_mut(&at[n]).unwrap().hear(from, &message(n));
        let expected = if n == 4 { (To::Table, raw.clone()) } else { (To::Server(at[n + 1]), message(n + 1)) };
        assert_eq!(sent, vec![expected]);
    }
}

// ------------------------------------------------------------------------------------------------
// The hall

const BUCKETS: u32 = 16;
const SERVERS: u8 = 4;
const BALANCERS: u16 = 2;

struct Hall {
    random: Random,
    balancers: Vec<Balancer>,
    servers: Vec<Server>,
    controller: Controller,
    /// What is on its way: from, to, bytes.
    network: Vec<(Machine, To, Vec<u8>)>,
    /// Sessions that got a packet, by raw packet.
    delivered: Vec<Vec<u8>>,
    refused: Vec<u8>,
    put_off: usize,
}

impl Hall {
    fn new(seed: u64) -> Hall {
        let first = [0, 1];
        Hall {
            random: Random(seed),
            balancers: (0..BALANCERS).map(|_| Balancer::new(BUCKETS, &first)).collect(),
            servers: (0..SERVERS).map(|number| Server::new(number, BUCKETS, &first)).collect(),
            controller: Controller::new(BUCKETS, BALANCERS, &first),
            network: vec![],
            delivered: vec![],
            refused: vec![],
            put_off: 0,
        }
    }

    fn give(&mut self, from: Machine, to: To, bytes: &[u8]) {
        let (me, sent) = match to {
            To::Balancer(number) => (Machine::Balancer(number), self.balancers[usize::from(number)].hear(from, bytes)),
            To::Server(number) => (Machine::Server(number), self.servers[usize::from(number)].hear(from, bytes)),
            To::Controller => (Machine::Controller, self.controller.hear(from, bytes)),
            To::Table => return self.delivered.push(bytes.to_vec()),
            To::Client => return self.refused.push(bytes[1]),
            To::Operator => {
                assert_eq!((bytes[0], bytes[1]), (KIND_REFUSED, 10), "only what is put off is reported");
                self.put_off += 1;
                return;
            }
        };
        self.network.extend(sent.into_iter().map(|(to, bytes)| (me, to, bytes)));
    }

    fn ticks(&mut self, count: u32) {
        let order = order_ticks(count);
        self.give(Machine::Operator, To::Controller, &order);
        for number in 0..SERVERS {
            self.give(Machine::Operator, To::Server(number), &order);
        }
    }

    /// Something on its way arrives: perhaps lost, perhaps to come again.
    fn arrive(&mut self, unreliable: bool) {
        if self.network.is_empty() {
            return;
        }
        let at = self.random.index(self.network.len());
        let reliable_to = matches!(self.network[at].1, To::Table | To::Client | To::Operator);
        let (from, to, bytes) = if unreliable && !reliable_to && self.random.chance(1, 8) {
            self.network[at].clone()
        } else {
            self.network.swap_remove(at)
        };
        if unreliable && !reliable_to && self.random.chance(1, 10) {
            return;
        }
        self.give(from, to, &bytes);
    }

    fn drain(&mut self) {
        while !self.network.is_empty() {
            self.arrive(false);
        }
    }

    fn open(&self) -> Vec<Flow> {
        self.servers.iter().flat_map(|server| server.sessions.keys().map(|key| key.flow)).collect()
    }
}

#[test]
fn no_session_is_opened_twice_or_cut_off() {
    let (mut handovers, mut put_off, mut forgotten) = (0, 0, 0);
    for seed in 0..40 {
        let mut hall = Hall::new(seed);
        let flows: Vec<Flow> = (0..24).filter_map(|n| flow_of(n % 5, BUCKETS, &mut hall.random)).collect();
        // In every other run sessions are hardly ever closed, so that chains grow long.
        let closes = [4, 60][(seed % 2) as usize];
        for step in 0..8000 {
            match hall.random.below(100) {
                0..=24 => {
                    let flow = hall.random.pick(&flows);
                    let syn = hall.random.chance(1, 2);
                    let packet = raw_packet(&flow, syn, !syn, 0, &[]);
                    let balancer = hall.random.below(u64::from(BALANCERS)) as u16;
                    hall.give(Machine::Client, To::Balancer(balancer), &packet);
                }
                25..=28 if hall.random.chance(4, closes) => {
                    let flow = hall.random.pick(&flows);
                    for number in 0..SERVERS {
                        hall.give(Machine::Operator, To::Server(number), &order_close(&flow));
                    }
                }
                29..=30 if step < 7000 => {
                    let server = hall.random.below(u64::from(SERVERS)) as u8;
                    let listed = hall.controller.servers.contains(&server);
                    if !listed || hall.controller.servers.len() > 1 {
                        hall.give(
                            Machine::Operator,
                            To::Controller,
                            &[if listed { KIND_REMOVE } else { KIND_ADD }, server],
                        );
                    }
                }
                31..=34 => {
                    let count = 1 + hall.random.below(9) as u32;
                    hall.ticks(count);
                }
                _ => (0..4).for_each(|_| hall.arrive(true)),
            }
            let open = hall.open();
            assert_eq!(
                open.len(),
                open.iter().collect::<HashSet<_>>().len(),
                "seed {seed}, step {step}: a session is open twice"
            );
        }

        // The network is good from now on: every session gets what is sent by any balancer.
        hall.drain();
        for balancer in 0..BALANCERS {
            for flow in hall.open() {
                hall.delivered.clear();
                let packet = raw_packet(&flow, false, true, 0, &[]);
                hall.give(Machine::Client, To::Balancer(balancer), &packet);
                hall.drain();
                assert_eq!(hall.delivered, vec![packet], "seed {seed}: a session is cut off");
            }
        }
        // When all sessions are closed, all chains come down to one place at the assigned server.
        for flow in hall.open() {
            for number in 0..SERVERS {
                hall.give(Machine::Operator, To::Server(number), &order_close(&flow));
            }
        }
        for _ in 0..200 {
            hall.ticks(16);
            hall.drain();
        }
        for (number, bucket) in (0..).zip(&hall.controller.buckets) {
            let [link] = bucket.chain[..] else { panic!("seed {seed}: chain of {number} is {:?}", bucket.chain) };
            assert_eq!(link.server, bucket.assigned);
            assert!(bucket.untold.is_empty() && bucket.handover == Handover::Idle);
            assert!(hall.balancers.iter().all(|balancer| balancer.links[number] == link));
            let standing: usize = hall.servers.iter().map(|server| server.buckets[number].standing.len()).sum();
            assert_eq!(standing, 1);
            assert!(hall.servers.iter().all(|server| server.buckets[number].farewells.is_empty()));
        }

        // No copy of what a machine said is refused: only packets that may not open a session are.
        assert!(hall.refused.iter().all(|&number| number == 0));
        use Outcome::*;
        let mut outcomes = hall.controller.outcomes.clone();
        hall.servers.iter().for_each(|server| outcomes.add(&server.outcomes));
        hall.balancers.iter().for_each(|balancer| outcomes.add(&balancer.outcomes));
        for outcome in [Refused1, Refused2, Refused3, Refused5, Refused6, Refused7, Refused8, Refused9, Refused10] {
            assert_eq!(outcomes.of(outcome), 0, "seed {seed}: {outcome:?}");
        }
        handovers += outcomes.of(HandoverDone);
        put_off += hall.put_off;
        forgotten += outcomes.of(PlaceForgotten);
    }
    println!("{handovers} handovers, {put_off} put off, {forgotten} places forgotten");
    assert!(handovers > 1000 && forgotten > 1000);
}
