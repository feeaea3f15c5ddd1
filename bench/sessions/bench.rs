// Our store of sessions against std's HashMap with the same keys, played from the same scripts of bytes.
// One line for each size and operation: ns for each step, less the set-up, the best of several runs.
use std::collections::HashMap;

#[path = "../clock.rs"]
mod clock;

unsafe extern "C" {
    // The allocator that the function takes first has no bytes, so nothing is passed for it.
    fn play_sessions(script: *const u8, script_len: usize, answers: *mut u8, answers_len: usize) -> usize;
}

const STEP: usize = 28;
const HOUR: u64 = 921_600;
const MOST: usize = 65_536;

#[derive(Clone, Copy, PartialEq, Eq, Hash)]
enum Protocol {
    Tcp,
    Udp,
}

#[derive(Clone, Copy, PartialEq, Eq, Hash)]
struct FlowKey {
    src: u32,
    dst: u32,
    sport: u16,
    dport: u16,
    protocol: Protocol,
}

#[derive(Clone, Copy, PartialEq, Eq, Hash)]
struct Key {
    bucket: u16,
    place: u32,
    flow: FlowKey,
}

fn key_of(step: &[u8]) -> Key {
    let n16 = |at: usize| u16::from_be_bytes([step[at], step[at + 1]]);
    let n32 = |at: usize| u32::from_be_bytes([step[at], step[at + 1], step[at + 2], step[at + 3]]);
    Key {
        bucket: n16(1),
        place: n32(3),
        flow: FlowKey {
            src: n32(7),
            dst: n32(11),
            sport: n16(15),
            dport: n16(17),
            protocol: if step[19] == 6 { Protocol::Tcp } else { Protocol::Udp },
        },
    }
}

fn tick_of(step: &[u8]) -> u64 {
    u64::from_be_bytes(step[20..28].try_into().unwrap())
}

// The map alone: no counts by place and no bound for what is idle.
struct Plain {
    map: HashMap<Key, u64>,
}

impl Plain {
    fn new() -> Plain {
        Plain { map: HashMap::with_capacity(MOST) }
    }

    fn play(&mut self, step: &[u8]) -> u8 {
        let key = key_of(step);
        match step[0] {
            1 => {
                self.map.insert(key, tick_of(step));
                0
            }
            2 => self.map.contains_key(&key) as u8,
            3 => match self.map.get_mut(&key) {
                Some(seen) => {
                    *seen = tick_of(step);
                    1
                }
                None => 0,
            },
            4 => self.map.remove(&key).is_some() as u8,
            5 => (self.map.keys().filter(|k| k.bucket == key.bucket && k.place == key.place).count() & 0xff) as u8,
            6 => {
                let tick = tick_of(step);
                let mut names = Vec::new();
                self.map.retain(|k, seen| {
                    let idle = tick.saturating_sub(*seen) >= HOUR;
                    if idle {
                        names.push(*k);
                    }
                    !idle
                });
                (names.len() & 0xff) as u8
            }
            _ => key.bucket as u8,
        }
    }
}

// All that our store does: the limit, a count for each place, a bound for what is idle.
struct Full {
    map: HashMap<Key, u64>,
    counts: HashMap<(u16, u32), u32>,
    oldest: u64,
}

impl Full {
    fn new() -> Full {
        Full { map: HashMap::with_capacity(MOST), counts: HashMap::with_capacity(MOST), oldest: 0 }
    }

    fn lower(&mut self, key: &Key) {
        let at = (key.bucket, key.place);
        if let Some(count) = self.counts.get_mut(&at) {
            *count -= 1;
            if *count == 0 {
                self.counts.remove(&at);
            }
        }
    }

    fn play(&mut self, step: &[u8]) -> u8 {
        let key = key_of(step);
        match step[0] {
            1 => {
                let tick = tick_of(step);
                if let Some(seen) = self.map.get_mut(&key) {
                    *seen = tick;
                } else if self.map.len() >= MOST {
                    return 7;
                } else {
                    self.map.insert(key, tick);
                    *self.counts.entry((key.bucket, key.place)).or_insert(0) += 1;
                }
                self.oldest = self.oldest.min(tick);
                0
            }
            2 => self.map.contains_key(&key) as u8,
            3 => match self.map.get_mut(&key) {
                Some(seen) => {
                    *seen = tick_of(step);
                    self.oldest = self.oldest.min(*seen);
                    1
                }
                None => 0,
            },
            4 => {
                if self.map.remove(&key).is_none() {
                    return 0;
                }
                self.lower(&key);
                1
            }
            5 => (self.counts.get(&(key.bucket, key.place)).copied().unwrap_or(0) & 0xff) as u8,
            6 => {
                let tick = tick_of(step);
                if tick.saturating_sub(self.oldest) < HOUR {
                    return 0;
                }
                let mut names = Vec::new();
                let mut oldest = tick;
                self.map.retain(|k, seen| {
                    let idle = tick.saturating_sub(*seen) >= HOUR;
                    if idle {
                        names.push(*k);
                    } else {
                        oldest = oldest.min(*seen);
                    }
                    !idle
                });
                for key in &names {
                    self.lower(key);
                }
                self.oldest = oldest;
                (names.len() & 0xff) as u8
            }
            _ => key.bucket as u8,
        }
    }
}

fn ours(script: &[u8], answers: &mut [u8]) -> usize {
    unsafe { play_sessions(script.as_ptr(), script.len(), answers.as_mut_ptr(), answers.len()) }
}

fn plain(script: &[u8], answers: &mut [u8]) -> usize {
    let mut store = Plain::new();
    for (step, answer) in script.chunks_exact(STEP).zip(answers.iter_mut()) {
        *answer = store.play(step);
    }
    script.len() / STEP
}

fn full(script: &[u8], answers: &mut [u8]) -> usize {
    let mut store = Full::new();
    for (step, answer) in script.chunks_exact(STEP).zip(answers.iter_mut()) {
        *answer = store.play(step);
    }
    script.len() / STEP
}

struct Dice(u64);

impl Dice {
    fn next(&mut self) -> u64 {
        self.0 ^= self.0 << 13;
        self.0 ^= self.0 >> 7;
        self.0 ^= self.0 << 17;
        self.0.wrapping_mul(0x2545_f491_4f6c_dd1d)
    }
}

// Clients in a row of addresses, some ports each, one server address: the bits differ little, as they do in a network.
fn key(i: u32, dice: &mut Dice) -> Key {
    let src = 0x0a00_0000 + i / 4;
    Key {
        bucket: (src.wrapping_mul(40_503) >> 4) as u16,
        place: 1 + (i % 3),
        flow: FlowKey {
            src,
            dst: 0xc0a8_0001,
            sport: 40_000 + (dice.next() % 20_000) as u16,
            dport: 443,
            protocol: if i % 5 == 0 { Protocol::Udp } else { Protocol::Tcp },
        },
    }
}

fn push(script: &mut Vec<u8>, op: u8, k: &Key, tick: u64) {
    script.push(op);
    script.extend_from_slice(&k.bucket.to_be_bytes());
    script.extend_from_slice(&k.place.to_be_bytes());
    script.extend_from_slice(&k.flow.src.to_be_bytes());
    script.extend_from_slice(&k.flow.dst.to_be_bytes());
    script.extend_from_slice(&k.flow.sport.to_be_bytes());
    script.extend_from_slice(&k.flow.dport.to_be_bytes());
    script.push(if k.flow.protocol == Protocol::Tcp { 6 } else { 17 });
    script.extend_from_slice(&tick.to_be_bytes());
}

// The processor's time of this thread, so that other programs on the machine count little.
fn cpu_ns() -> f64 {
    clock::now() as f64
}

type Player = fn(&[u8], &mut [u8]) -> usize;

// The least time of several runs, in ns.
fn time(player: Player, script: &[u8], answers: &mut [u8]) -> f64 {
    let mut best = f64::MAX;
    for _ in 0..9 {
        let start = cpu_ns();
        player(script, answers);
        best = best.min(cpu_ns() - start);
    }
    best
}

// ns for each step of `work` after `setup`.
fn measure(player: Player, setup: &[u8], work: &[u8], steps: usize) -> f64 {
    let all = [setup, work].concat();
    let mut answers = vec![0u8; all.len() / STEP];
    let with = time(player, &all, &mut answers);
    let without = time(player, setup, &mut answers);
    (with - without) / steps as f64
}

fn same_answers(script: &[u8]) {
    let n = script.len() / STEP;
    let (mut a, mut b) = (vec![0u8; n], vec![1u8; n]);
    assert_eq!(ours(script, &mut a), n);
    full(script, &mut b);
    if let Some(at) = (0..n).find(|&i| a[i] != b[i]) {
        panic!("step {at}: ours {}, HashMap {}", a[at], b[at]);
    }
}

// Any steps in any order: both stores answer alike.
fn compare() {
    let mut dice = Dice(88_172_645_463_325_252);
    for round in 0..40u32 {
        let keys: Vec<Key> = (0..300 * (1 + round % 7)).map(|i| key(i, &mut dice)).collect();
        let mut script = Vec::new();
        let mut tick = 0u64;
        for _ in 0..20_000 {
            let k = &keys[(dice.next() % keys.len() as u64) as usize];
            let op = match dice.next() % 100 {
                0..30 => 1,
                30..50 => 2,
                50..70 => 3,
                70..85 => 4,
                85..95 => 5,
                _ => 6,
            };
            tick += dice.next() % if round % 2 == 0 { 2_000 } else { 200 };
            push(&mut script, op, k, tick);
        }
        same_answers(&script);
    }
    // The limit: 65,536 and no more.
    let mut script = Vec::new();
    for i in 0..66_000 {
        push(&mut script, 1, &key(i, &mut dice), 5);
    }
    same_answers(&script);
    println!("answers alike: 40 scripts of 20,000 steps, and one past the limit");
}

fn row(name: &str, size: u32, setup: &[u8], work: &[u8], steps: usize) {
    same_answers(&[setup, work].concat());
    let o = measure(ours, setup, work, steps);
    let p = measure(plain, setup, work, steps);
    let f = measure(full, setup, work, steps);
    print_row(name, size, o, p, f);
}

fn print_row(name: &str, size: u32, o: f64, p: f64, f: f64) {
    println!("| {name} | {size} | {o:.1} | {p:.1} | {:.2} | {f:.1} | {:.2} |", o / p, o / f);
}

fn main() {
    compare();
    println!("| operation | sessions | ours ns | HashMap ns | ratio | HashMap with counts and limit ns | ratio |");
    println!("|---|---|---|---|---|---|---|");
    for size in [1_000u32, 10_000, 60_000] {
        let mut dice = Dice(0x9e37_79b9_7f4a_7c15 + u64::from(size));
        let keys: Vec<Key> = (0..size).map(|i| key(i, &mut dice)).collect();
        let absent: Vec<Key> = (0..size).map(|i| key(i + 100_000, &mut dice)).collect();
        let mut setup = Vec::new();
        for k in &keys {
            push(&mut setup, 1, k, 1_000);
        }
        let rounds = 1_200_000 / size as usize;
        // the order of the look-ups is not that of the openings
        let mut order: Vec<usize> = (0..size as usize).collect();
        for i in (1..order.len()).rev() {
            order.swap(i, (dice.next() % (i as u64 + 1)) as usize);
        }
        let each = |op: u8, keys: &[Key]| {
            let mut work = Vec::new();
            for _ in 0..rounds {
                for &i in &order {
                    push(&mut work, op, &keys[i], 2_000);
                }
            }
            let steps = work.len() / STEP;
            (work, steps)
        };
        for (name, op, keys) in [
            ("reading the step only", 0u8, &keys),
            ("hit", 2, &keys),
            ("miss", 2, &absent),
            ("touch", 3, &keys),
            ("count of a place", 5, &keys),
        ] {
            if op == 5 {
                // the plain map looks at every session: fewer steps
                let (work, steps) = each(op, keys);
                let few = &work[..200 * STEP];
                let o = measure(ours, &setup, &work, steps);
                let p = measure(plain, &setup, few, 200);
                let f = measure(full, &setup, &work, steps);
                print_row(name, size, o, p, f);
                continue;
            }
            let (work, steps) = each(op, keys);
            if op == 0 {
                let o = measure(ours, &setup, &work, steps);
                let p = measure(plain, &setup, &work, steps);
                println!("| {name} | {size} | {o:.1} | {p:.1} | | | |");
            } else {
                row(name, size, &setup, &work, steps);
            }
        }
        // first openings, on a new store
        row("open, first", size, &[], &setup, size as usize);
        // closings and openings in turn
        let mut work = Vec::new();
        for _ in 0..rounds / 2 {
            for &i in &order {
                push(&mut work, 4, &keys[i], 2_000);
            }
            for &i in &order {
                push(&mut work, 1, &keys[i], 2_000);
            }
        }
        let steps = work.len() / STEP;
        row("close and open again, each", size, &setup, &work, steps);
        // ticks at which nothing is idle: the plain map looks at every session each time, so fewer of them
        let ticks = |n: u64| {
            let mut work = Vec::new();
            for t in 0..n {
                push(&mut work, 6, &keys[0], 2_000 + t);
            }
            work
        };
        let (many, few) = (ticks(100_000), ticks(200));
        let o = measure(ours, &setup, &many, 100_000);
        let p = measure(plain, &setup, &few, 200);
        let f = measure(full, &setup, &many, 100_000);
        print_row("idle, nothing to close", size, o, p, f);
        // sessions that become idle: the others had a packet just now
        let mut late = Vec::new();
        for k in &keys {
            push(&mut late, 1, k, 1_000_000_000_000);
        }
        push(&mut late, 6, &keys[0], 1_000_000_000);
        for (name, at_once, rounds) in [
            ("open, then closed as idle, one in a hundred at once, each", size as usize / 100, 60),
            ("open, then closed as idle, one at a time, each", 1, 2_000),
        ] {
            let mut work = Vec::new();
            for round in 0..rounds as u64 {
                let tick = 1_000_000_000 + 10_000 * round;
                for n in 0..at_once {
                    push(&mut work, 1, &absent[(round as usize * 7 + n) % absent.len()], tick);
                }
                push(&mut work, 6, &keys[0], tick + HOUR);
            }
            row(name, size, &late, &work, rounds * at_once);
        }
    }
}
