//! Nanoseconds for each packet and each handover, by the reference and, with `--cfg proved`, by the proved
//! machines, from the same scripts. The time of the set-up, a script of its own, is taken off; of several runs
//! the best counts.
#[path = "../clock.rs"]
mod clock;
#[path = "reference.rs"]
mod reference;
#[path = "scripts.rs"]
mod scripts;

use clock::now;
use reference::*;
use scripts::{Random, order_close, raw_packet};

#[cfg(proved)]
unsafe extern "C" {
    // The allocator that the function takes first has no bytes, so nothing is passed for it.
    fn play_machine(script: *const u8, script_len: usize, out: *mut u8, out_len: usize) -> usize;
}

const BUCKETS: u32 = 65_536;
const SESSIONS: usize = 60_000;
const PACKETS: usize = 60_000;
const RUNS: usize = 5;

/// A set-up and the whole script, which begins with it, and how many things are measured.
struct Bench {
    name: &'static str,
    set_up: Vec<u8>,
    whole: Vec<u8>,
    count: usize,
}

fn main() {
    println!("{:<48} {:>10} {:>10}", "ns for each", "reference", "proved");
    for make in [balancer, delivered, forwarded, forwarded_from_forgotten, opened, closed, controller] {
        let bench = make();
        let mut out = vec![];
        play_into(&bench.whole, &mut out);
        let mut proved_out = vec![1u8; out.len() + 64];
        // Taken in turns, so that what else the machine does falls on all alike.
        let (mut reference, mut proved) = (Best::new(), Best::new());
        for _ in 0..RUNS {
            reference.run(&bench, |script| {
                out.clear();
                play_into(script, &mut out);
            });
            proved.run(&bench, |script| play_proved(script, &mut proved_out));
        }
        let proved = if cfg!(proved) { format!("{:.1}", proved.ns(&bench)) } else { "-".to_string() };
        println!("{:<48} {:>10.1} {proved:>10}", bench.name, reference.ns(&bench));
    }
}

/// The best times so far of a bench's set-up and of its whole script.
struct Best {
    set_up: i64,
    whole: i64,
}

impl Best {
    fn new() -> Best {
        Best { set_up: i64::MAX, whole: i64::MAX }
    }

    fn run(&mut self, bench: &Bench, mut play: impl FnMut(&[u8])) {
        let mut time = |script: &[u8]| {
            let start = now();
            play(script);
            now() - start
        };
        self.set_up = self.set_up.min(time(&bench.set_up));
        self.whole = self.whole.min(time(&bench.whole));
    }

    fn ns(&self, bench: &Bench) -> f64 {
        (self.whole - self.set_up) as f64 / bench.count as f64
    }
}

#[cfg(proved)]
fn play_proved(script: &[u8], out: &mut [u8]) {
    let written = unsafe { play_machine(script.as_ptr(), script.len(), out.as_mut_ptr(), out.len()) };
    assert!(written <= out.len(), "more was written than there is room for");
}

#[cfg(not(proved))]
fn play_proved(_script: &[u8], _out: &mut [u8]) {}

// ------------------------------------------------------------------------------------------------
// The scripts

fn random_flow(random: &mut Random) -> Flow {
    let src = random.next() as u32;
    Flow { src, dst: 0x0a00_0001, sport: random.next() as u16, dport: 443, protocol: random.pick(&[TCP, UDP]) }
}

/// A packet of 64 bytes or a few less, that may open a session.
fn packet_of(flow: &Flow) -> Vec<u8> {
    raw_packet(flow, true, false, 0, &[7; 24])
}

fn hear(script: &mut Vec<u8>, from: Machine, bytes: &[u8]) {
    Step::Hear(from, bytes).put(script);
}

fn balancer() -> Bench {
    let mut random = Random(1);
    let set_up = Header { kind: 1, number: 0, buckets: BUCKETS, balancers: 1, servers: (0..16).collect() }.bytes();
    let packets: Vec<Vec<u8>> = (0..4096).map(|_| packet_of(&random_flow(&mut random))).collect();
    let mut whole = set_up.clone();
    for _ in 0..PACKETS {
        let at = random.index(packets.len());
        hear(&mut whole, Machine::Client, &packets[at]);
    }
    Bench { name: "balancer: a packet sent on", set_up, whole, count: PACKETS }
}

const SERVER: u8 = 0;

fn asked(flow: &Flow) -> Vec<u8> {
    packet_message(flow.bucket(BUCKETS), 1, Way::Asked(Link { place: 1, server: SERVER }), true, &packet_of(flow))
}

fn up(flow: &Flow) -> Vec<u8> {
    packet_message(flow.bucket(BUCKETS), 1, Way::Up, true, &packet_of(flow))
}

/// A server that has all buckets, with so many sessions open.
fn with_sessions(count: usize, random: &mut Random) -> (Vec<u8>, Vec<Flow>) {
    let mut script = Header { kind: 2, number: SERVER, buckets: BUCKETS, balancers: 1, servers: vec![SERVER] }.bytes();
    let flows: Vec<Flow> = (0..count).map(|_| random_flow(random)).collect();
    for flow in &flows {
        hear(&mut script, Machine::Server(SERVER), &asked(flow));
    }
    (script, flows)
}

fn delivered() -> Bench {
    let mut random = Random(2);
    let (set_up, flows) = with_sessions(SESSIONS, &mut random);
    let mut whole = set_up.clone();
    for _ in 0..PACKETS {
        let flow = random.pick(&flows);
        hear(&mut whole, Machine::Balancer(0), &up(&flow));
    }
    Bench { name: "server, 60,000 sessions: a packet delivered", set_up, whole, count: PACKETS }
}

/// Each bucket is told of a place after; those without a session are forgotten.
fn told_of_place_after(script: &mut Vec<u8>) {
    for bucket in 0..=(BUCKETS - 1) as u16 {
        let behind = Control::BehindYou { bucket, place: 1, after: Link { place: 2, server: 1 } };
        hear(script, Machine::Controller, &behind.message());
    }
}

fn forwarded() -> Bench {
    let mut random = Random(3);
    let (mut set_up, flows) = with_sessions(SESSIONS, &mut random);
    told_of_place_after(&mut set_up);
    let mut whole = set_up.clone();
    for _ in 0..PACKETS {
        // Another session of a bucket whose place still stands.
        let flow = Flow { dport: 80, ..random.pick(&flows) };
        hear(&mut whole, Machine::Balancer(0), &up(&flow));
    }
    Bench { name: "server, 60,000 sessions: a packet forwarded", set_up, whole, count: PACKETS }
}

fn forwarded_from_forgotten() -> Bench {
    let mut random = Random(4);
    let (mut set_up, flows) = with_sessions(SESSIONS, &mut random);
    told_of_place_after(&mut set_up);
    let stands: std::collections::HashSet<u16> = flows.iter().map(|flow| flow.bucket(BUCKETS)).collect();
    let mut forgotten = vec![];
    while forgotten.len() < 4096 {
        let flow = random_flow(&mut random);
        if !stands.contains(&flow.bucket(BUCKETS)) {
            forgotten.push(flow);
        }
    }
    let mut whole = set_up.clone();
    for _ in 0..PACKETS {
        let flow = random.pick(&forgotten);
        hear(&mut whole, Machine::Balancer(0), &up(&flow));
    }
    Bench { name: "  forwarded from a forgotten place, with a hint", set_up, whole, count: PACKETS }
}

fn opened() -> Bench {
    let mut random = Random(5);
    // As many below 60,000 as above.
    let count = 2 * (MOST_SESSIONS - SESSIONS);
    let (set_up, _) = with_sessions(MOST_SESSIONS - count, &mut random);
    let mut whole = set_up.clone();
    for _ in 0..count {
        hear(&mut whole, Machine::Server(SERVER), &asked(&random_flow(&mut random)));
    }
    Bench { name: "server, 60,000 sessions: a session opened", set_up, whole, count }
}

fn closed() -> Bench {
    let mut random = Random(6);
    let (set_up, _) = with_sessions(SESSIONS, &mut random);
    let mut whole = set_up.clone();
    for _ in 0..PACKETS / 2 {
        let flow = random_flow(&mut random);
        hear(&mut whole, Machine::Server(SERVER), &asked(&flow));
        hear(&mut whole, Machine::Operator, &order_close(&flow));
    }
    Bench { name: "  a session opened and closed by an order", set_up, whole, count: PACKETS / 2 }
}

/// A second server is added: half of the buckets are handed to it, and four balancers are told of each.
fn controller() -> Bench {
    const BALANCERS: u16 = 4;
    let set_up = Header { kind: 3, number: 0, buckets: BUCKETS, balancers: BALANCERS, servers: vec![0] }.bytes();
    let mut whole = set_up.clone();
    hear(&mut whole, Machine::Operator, &[KIND_ADD, 1]);
    let (old, new) = (Link { place: 1, server: 0 }, Link { place: 2, server: 1 });
    // The server that stays keeps its lowest buckets.
    for bucket in (BUCKETS / 2) as u16..=(BUCKETS - 1) as u16 {
        let stood = Control::Stand { bucket, place: new.place, before: Some(old) };
        hear(&mut whole, Machine::Server(new.server), &stood.answer());
        let told = Control::BehindYou { bucket, place: old.place, after: new };
        hear(&mut whole, Machine::Server(old.server), &told.answer());
        for balancer in 0..BALANCERS {
            hear(&mut whole, Machine::Balancer(balancer), &Control::Door { bucket, newest: new }.answer());
        }
        let forgotten = Control::Forgotten { bucket, place: old.place, after: new };
        hear(&mut whole, Machine::Server(old.server), &forgotten.message());
    }
    Bench { name: "controller, 65,536 buckets: a handover, 7 steps", set_up, whole, count: BUCKETS as usize / 2 }
}
