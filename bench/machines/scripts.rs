//! Random scripts for the three machines, each from a seed. The author of a script lets the reference play
//! along and looks at its state, so that most messages mean something: places near those in use, few buckets
//! and flows, answers right and late. Some are damaged.
#![allow(dead_code)]

use crate::reference::*;

// ------------------------------------------------------------------------------------------------
// Chance

/// SplitMix64.
pub struct Random(pub u64);

impl Random {
    pub fn next(&mut self) -> u64 {
        self.0 = self.0.wrapping_add(0x9e37_79b9_7f4a_7c15);
        let mut z = self.0;
        z = (z ^ (z >> 30)).wrapping_mul(0xbf58_476d_1ce4_e5b9);
        z = (z ^ (z >> 27)).wrapping_mul(0x94d0_49bb_1331_11eb);
        z ^ (z >> 31)
    }

    /// A number below `n`.
    pub fn below(&mut self, n: u64) -> u64 {
        self.next() % n
    }

    pub fn index(&mut self, length: usize) -> usize {
        self.below(length as u64) as usize
    }

    /// True `part` times out of `whole`.
    pub fn chance(&mut self, part: u64, whole: u64) -> bool {
        self.below(whole) < part
    }

    pub fn pick<T: Copy>(&mut self, from: &[T]) -> T {
        from[self.index(from.len())]
    }

    /// The index of one of the weights, the heavier the likelier.
    pub fn weighted(&mut self, weights: &[u64]) -> usize {
        let mut at = self.below(weights.iter().sum());
        weights
            .iter()
            .position(|&weight| {
                if at < weight {
                    true
                } else {
                    at -= weight;
                    false
                }
            })
            .expect("below the sum")
    }
}

// ------------------------------------------------------------------------------------------------
// Packets

/// A flow of the bucket, if there is one: bucket 0 of 65,536 has none, as no sum is 0.
pub fn flow_of(bucket: u16, buckets: u32, random: &mut Random) -> Option<Flow> {
    for _ in 0..8 {
        let groups = u64::from(65_536 / buckets);
        let group = if random.chance(1, 6) { groups - 1 } else { random.below(groups) } as u32;
        let sum = ((u32::from(bucket) + buckets * group) as u16).reverse_bits();
        let protocol = random.pick(&[TCP, UDP]);
        let src = random.next() as u32;
        let without_port = u32::from((src >> 16) as u16) + u32::from(src as u16) + u32::from(protocol);
        let sport = ((u32::from(sum) + 3 * 65_535 - without_port) % 65_535) as u16;
        let flow =
            Flow { src, dst: 0x0a00_0000 + random.below(3) as u32, sport, dport: random.pick(&[80, 443]), protocol };
        if flow.bucket(buckets) == bucket {
            return Some(flow);
        }
    }
    None
}

/// A flow whose sum carries twice when it is folded to 16 bits.
pub fn flow_that_carries_twice(random: &mut Random) -> Option<Flow> {
    for _ in 0..8 {
        let protocol = random.pick(&[TCP, UDP]);
        let src = random.next() as u32 | random.pick(&[0, 0xffff_fff0, 0xffff_ffff]);
        let without_port = (src >> 16) + (src & 0xffff) + u32::from(protocol);
        let sum: u32 = random.pick(&[0x1_ffff, 0x2_fffe, 0x2_ffff]);
        if let Some(Ok(sport)) = sum.checked_sub(without_port).map(u16::try_from) {
            return Some(Flow { src, dst: 0x0a00_0001, sport, dport: 443, protocol });
        }
    }
    None
}

/// A well-formed IPv4 packet of the flow; `syn` and `ack` matter for TCP.
pub fn raw_packet(flow: &Flow, syn: bool, ack: bool, options: usize, payload: &[u8]) -> Vec<u8> {
    let head = 20 + 4 * options;
    let transport = if flow.protocol == TCP { 20 } else { 8 };
    let total = (head + transport + payload.len()) as u16;
    let mut bytes = vec![0; head + transport];
    bytes[0] = 0x40 | (head / 4) as u8;
    bytes[2..4].copy_from_slice(&total.to_be_bytes());
    bytes[8] = 64;
    bytes[9] = flow.protocol;
    bytes[12..16].copy_from_slice(&flow.src.to_be_bytes());
    bytes[16..20].copy_from_slice(&flow.dst.to_be_bytes());
    let mut sum: u32 = bytes[..head].chunks(2).map(|pair| u32::from(pair[0]) << 8 | u32::from(pair[1])).sum();
    while sum > 0xffff {
        sum = (sum & 0xffff) + (sum >> 16);
    }
    bytes[10..12].copy_from_slice(&(!sum as u16).to_be_bytes());
    bytes[head..head + 2].copy_from_slice(&flow.sport.to_be_bytes());
    bytes[head + 2..head + 4].copy_from_slice(&flow.dport.to_be_bytes());
    if flow.protocol == TCP {
        bytes[head + 12] = 5 << 4;
        bytes[head + 13] = u8::from(syn) << 1 | u8::from(ack) << 4;
    } else {
        bytes[head + 4..head + 6].copy_from_slice(&((8 + payload.len()) as u16).to_be_bytes());
    }
    bytes.extend(payload);
    bytes
}

pub fn order_ticks(count: u32) -> Vec<u8> {
    let mut bytes = vec![KIND_TICKS];
    bytes.extend(count.to_be_bytes());
    bytes
}

pub fn order_close(flow: &Flow) -> Vec<u8> {
    let mut bytes = vec![KIND_CLOSE];
    bytes.extend(flow.src.to_be_bytes());
    bytes.extend(flow.dst.to_be_bytes());
    bytes.extend(flow.sport.to_be_bytes());
    bytes.extend(flow.dport.to_be_bytes());
    bytes.push(flow.protocol);
    bytes
}

// ------------------------------------------------------------------------------------------------
// The author of a script

#[derive(Clone, Copy, PartialEq, Eq, PartialOrd, Debug)]
pub enum Damage {
    /// Only well-formed messages from those who send such.
    Nothing,
    /// Also damaged heads and kinds that a machine does not take; packets inside stay as they are.
    Heads,
    /// Also damaged packets inside, and messages from whomever.
    Everything,
}

struct Author {
    random: Random,
    damage: Damage,
    header: Header,
    machine: Any,
    script: Vec<u8>,
    steps: usize,
    /// The buckets that most is about, and flows of them.
    focus: Vec<u16>,
    flows: Vec<Flow>,
    /// One step in so many is followed by a digest.
    digest_every: u64,
}

/// The script of a seed.
pub fn script(seed: u64, damage: Damage) -> Vec<u8> {
    let mut random = Random(seed.wrapping_mul(0x2545_f491_4f6c_dd1d) ^ 0x5851_f42d);
    random.next();
    let kind = [1, 2, 3, 2, 3, 2, 3, 2][(seed % 8) as usize];
    let buckets = match random.below(200) {
        0 => 65_536,
        n if kind == 1 && n % 4 == 0 => 16 << random.below(13),
        1..=20 => 64,
        21..=30 => 1024,
        31..=80 => 32,
        _ => 16,
    };
    let servers: Vec<u8> = match random.below(6) {
        0 => vec![0],
        1 => vec![3, 7],
        2 => vec![0, 1, 2],
        3 => vec![0, 5, 254, 255],
        4 if random.chance(1, 4) => (0..=255).collect(),
        4 => (1..=random.pick(&[5, 17, 40])).collect(),
        _ => vec![1, 2],
    };
    let number = if random.chance(1, 8) { random.below(256) as u8 } else { random.pick(&servers) };
    let balancers = if buckets == 65_536 { 1 } else { random.pick(&[0, 1, 2, 3, 3, 5]) };
    let header = Header { kind, number, buckets, balancers, servers };
    let machine = Any::new(&header);

    // A few buckets, among them the last; for a server mostly such as it has.
    let mut focus = vec![];
    for _ in 0..random.pick(&[1, 2, 2, 3, 5]) {
        focus.push(if random.chance(1, 5) { (buckets - 1) as u16 } else { random.below(u64::from(buckets)) as u16 });
    }
    if let Any::Server(server) = &machine {
        let has: Vec<u16> = (0..=u16::MAX)
            .zip(&server.buckets)
            .filter(|(_, bucket)| bucket.highest == 1)
            .map(|(number, _)| number)
            .collect();
        for bucket in &mut focus {
            if !has.is_empty() && random.chance(3, 4) {
                *bucket = random.pick(&has);
            }
        }
    }
    let mut flows: Vec<Flow> = vec![];
    for _ in 0..random.pick(&[2, 6, 12]) {
        let bucket = random.pick(&focus);
        flows.extend(flow_of(bucket, buckets, &mut random));
    }
    if random.chance(1, 3) {
        flows.extend(flow_that_carries_twice(&mut random));
    }
    if flows.is_empty() {
        flows.push(Flow { src: 1, dst: 2, sport: 3, dport: 4, protocol: UDP });
    }
    let script = header.bytes();
    let digest_every = if buckets > 1024 { 300 } else { 6 };
    let mut author = Author { random, damage, header, machine, script, steps: 0, focus, flows, digest_every };
    match kind {
        1 => author.for_balancer(),
        2 => author.for_server(),
        _ => author.for_controller(),
    }
    author.digest();
    author.script
}

impl Author {
    fn digest(&mut self) {
        Step::Digest.put(&mut self.script);
    }

    /// Lets the machine hear a message, now and then a damaged copy instead.
    fn say(&mut self, from: Machine, bytes: Vec<u8>) -> Sent {
        if self.damage > Damage::Nothing && self.random.chance(1, 14) {
            let (from, bytes) = self.damaged(from, bytes);
            self.say_as_is(from, bytes)
        } else {
            self.say_as_is(from, bytes)
        }
    }

    fn say_as_is(&mut self, from: Machine, bytes: Vec<u8>) -> Sent {
        Step::Hear(from, &bytes).put(&mut self.script);
        self.steps += 1;
        let sent = self.machine.hear(from, &bytes);
        if self.random.chance(1, self.digest_every) {
            self.digest();
        }
        sent
    }

    fn damaged(&mut self, from: Machine, mut bytes: Vec<u8>) -> (Machine, Vec<u8>) {
        let raw = matches!(self.machine, Any::Balancer(_)) && from == Machine::Client;
        let random = &mut self.random;
        let heads_only = self.damage == Damage::Heads;
        if raw && heads_only {
            match random.below(3) {
                0 => bytes[0] = 0x65,
                1 => bytes[9] = 1,
                _ => bytes.truncate(random.index(20)),
            }
            return (from, bytes);
        }
        let head = if raw { 40 } else { HEAD };
        match random.below(if heads_only { 5 } else { 7 }) {
            // A byte of the head changed, a little or altogether.
            0 | 1 => {
                let at = random.index(bytes.len().min(head));
                bytes[at] = if random.chance(1, 2) {
                    random.next() as u8
                } else {
                    bytes[at].wrapping_add(random.pick(&[1, 255, 2]))
                };
            }
            // A byte set to a small number: other kinds, ways, zeros.
            2 => {
                let at = random.index(bytes.len().min(head));
                bytes[at] = random.below(4) as u8;
            }
            3 => bytes.truncate(random.index(bytes.len())),
            4 => {
                for _ in 0..1 + random.below(4) {
                    bytes.push(random.next() as u8);
                }
            }
            5 => {
                let at = random.index(bytes.len());
                bytes[at] = random.next() as u8;
            }
            _ => {
                let other = self.anyone();
                return (other, bytes);
            }
        }
        (from, bytes)
    }

    fn anyone(&mut self) -> Machine {
        match self.random.below(5) {
            0 => Machine::Client,
            1 => Machine::Operator,
            2 => Machine::Balancer(self.random.below(4) as u16),
            3 => Machine::Server(self.any_server()),
            _ => Machine::Controller,
        }
    }

    fn any_server(&mut self) -> u8 {
        if self.random.chance(1, 12) { self.random.next() as u8 } else { self.random.pick(&self.header.servers) }
    }

    fn any_bucket(&mut self) -> u16 {
        if self.random.chance(1, 10) {
            self.random.below(u64::from(self.header.buckets)) as u16
        } else {
            self.random.pick(&self.focus)
        }
    }

    fn any_flow(&mut self) -> Flow {
        let flow = self.random.pick(&self.flows);
        // Now and then another session of the same bucket.
        if self.random.chance(1, 10) { Flow { dport: self.random.below(3) as u16, ..flow } } else { flow }
    }

    fn any_raw_packet(&mut self, flow: &Flow) -> Vec<u8> {
        let (syn, ack) = self.random.pick(&[(true, false), (true, false), (true, true), (false, true), (false, false)]);
        let options = if self.random.chance(1, 8) { 1 + self.random.index(10) } else { 0 };
        let payload: Vec<u8> = (0..self.random.below(4)).map(|n| n as u8).collect();
        raw_packet(flow, syn, ack, options, &payload)
    }

    fn any_ticks(&mut self) -> u32 {
        let random = &mut self.random;
        match random.below(40) {
            0 => 0,
            1 => 16,
            2 => HOUR as u32,
            3 => HOUR as u32 - 1,
            4 => HOUR as u32 / 2 + random.below(40) as u32,
            5 => HOUR as u32 + random.below(1000) as u32,
            6 if random.chance(1, 2) => DAY as u32 + random.below(40) as u32,
            7 if random.chance(1, 4) => u32::MAX,
            _ => 1 + random.below(20) as u32,
        }
    }

    /// A place near another; 0 hardly ever.
    fn near(&mut self, place: u32) -> u32 {
        match self.random.below(12) {
            0 => place.saturating_sub(2),
            1 => place.saturating_sub(1),
            2 => place.saturating_add(1),
            3 => place.saturating_add(2 + self.random.below(3) as u32),
            _ => place,
        }
    }

    /// A message of any kind, made without thought, from anyone.
    fn stray(&mut self) {
        let (bucket, server) = (self.any_bucket(), self.any_server());
        let place = 1 + self.random.below(5) as u32;
        let (before, after) = (Link { place: place - 1, server }, Link { place: place + 1, server });
        let before = (before.place > 0).then_some(before);
        let controls = [
            Control::Stand { bucket, place, before },
            Control::BehindYou { bucket, place, after },
            Control::Door { bucket, newest: Link { place, server } },
            Control::Forgotten { bucket, place, after },
        ];
        let control = self.random.pick(&controls);
        let flow = self.any_flow();
        let raw = self.any_raw_packet(&flow);
        let bytes = match self.random.below(10) {
            0..=2 => control.message(),
            3..=4 => control.answer(),
            5 => packet_message(flow.bucket(self.header.buckets), place, Way::Up, true, &raw),
            6 => refusal(self.random.below(12) as u8, &control.message()),
            7 => order_close(&flow),
            8 => order_ticks(self.random.below(20) as u32),
            _ => vec![self.random.pick(&[KIND_ADD, KIND_REMOVE, 0, 11, 33, 38, 255]), server],
        };
        // Such kinds as the machine takes come from those who send them, except with all damage.
        let from = self.anyone();
        let taken = match self.machine {
            Any::Balancer(_) => bytes[0] == KIND_DOOR || from == Machine::Client,
            Any::Server(_) => matches!(bytes[0], 1 | 2 | 3 | 5 | 37),
            Any::Controller(_) => matches!(bytes[0], 5 | 34 | 35 | 36),
        };
        if self.damage == Damage::Everything || self.damage == Damage::Heads && !taken {
            self.say_as_is(from, bytes);
        }
    }

    // -- a balancer

    fn for_balancer(&mut self) {
        let steps = 100 + self.random.index(300);
        while self.steps < steps {
            match self.random.weighted(&[60, 25, 3, 8]) {
                0 => {
                    let flow = self.any_flow();
                    let packet = self.any_raw_packet(&flow);
                    self.say(Machine::Client, packet);
                }
                1 => self.door(),
                2 => {
                    let ticks = order_ticks(self.any_ticks());
                    self.say(Machine::Operator, ticks);
                }
                _ if self.damage == Damage::Nothing => self.door(),
                _ => self.stray(),
            }
        }
    }

    fn door(&mut self) {
        let bucket = self.any_bucket();
        let Any::Balancer(balancer) = &self.machine else { unreachable!() };
        let known = balancer.links[usize::from(bucket)];
        let place = if self.random.chance(1, 60) { u32::MAX } else { self.near(known.place).max(1) };
        let server = if place == known.place && self.random.chance(2, 3) { known.server } else { self.any_server() };
        let from = if self.random.chance(2, 3) { Machine::Controller } else { Machine::Server(self.any_server()) };
        self.say(from, Control::Door { bucket, newest: Link { place, server } }.message());
    }

    // -- a server

    fn server(&self) -> &Server {
        match &self.machine {
            Any::Server(server) => server,
            _ => unreachable!("only for a server's script"),
        }
    }

    fn for_server(&mut self) {
        let steps = 300 + self.random.index(900);
        // Some scripts end places quickly, others let them stand; some answer farewells, others don't.
        let finish = self.random.pick(&[0, 5, 40]);
        let answers = self.random.pick(&[0, 12, 30]);
        let stands = self.random.pick(&[4, 10, 30]);
        while self.steps < steps {
            match self.random.weighted(&[100, stands, 14, 10, answers, 12, 20, 5, finish]) {
                0 => self.packet_to_server(),
                1 => self.stand(),
                2 => self.behind_you(),
                3 => self.forgotten_to_server(),
                4 => self.answer_farewell(),
                5 => {
                    let flow = self.any_flow();
                    self.say(Machine::Operator, order_close(&flow));
                }
                6 => self.ticks_to_server(),
                7 if self.damage > Damage::Nothing => self.stray(),
                7 => {}
                _ => self.finish_oldest(),
            }
        }
        if self.header.buckets <= 32 && self.random.chance(1, 4) {
            self.wind_down();
        }
    }

    /// All places are forgotten, all farewells answered, and a day passes.
    fn wind_down(&mut self) {
        for bucket in 0..self.header.buckets as u16 {
            let kept = |author: &Author| author.server().buckets[usize::from(bucket)].clone();
            for _ in 0..2 * MOST_PLACES {
                if !kept(self).standing.is_empty() {
                    self.finish_oldest_of(bucket);
                }
            }
            for Farewell { place, after, .. } in kept(self).farewells {
                let answer = Control::Forgotten { bucket, place, after }.answer();
                self.say_as_is(Machine::Server(after.server), answer.clone());
                self.say_as_is(Machine::Controller, answer);
            }
        }
        self.say_as_is(Machine::Operator, order_ticks(DAY as u32 - 1));
        self.say_as_is(Machine::Operator, order_ticks(1));
    }

    /// A place of the bucket that the server stands in, has forgotten, or does not know.
    fn any_place(&mut self, bucket: u16) -> u32 {
        let kept = &self.server().buckets[usize::from(bucket)];
        let standing: Vec<u32> = kept.standing.iter().map(|standing| standing.place).collect();
        let forgotten: Vec<u32> = kept.forgotten.iter().map(|forgotten| forgotten.place).collect();
        let highest = kept.highest;
        match self.random.below(20) {
            0 => highest.saturating_add(1 + self.random.below(3) as u32),
            1 => self.random.below(4) as u32,
            2..=6 if !forgotten.is_empty() => self.random.pick(&forgotten),
            7..=13 if !standing.is_empty() => standing[standing.len() - 1],
            _ if !standing.is_empty() => self.random.pick(&standing),
            _ if !forgotten.is_empty() => self.random.pick(&forgotten),
            _ => highest,
        }
    }

    fn packet_to_server(&mut self) {
        let flow = self.any_flow();
        let bucket = flow.bucket(self.header.buckets);
        let place = self.any_place(bucket);
        let packet = self.any_raw_packet(&flow);
        let mut may_open = read_packet(&packet).expect("a packet that is well-formed").1;
        let here = Link { place, server: self.server().number };
        let way = match self.random.below(8) {
            0..=3 => Way::Up,
            4..=5 => Way::Down(Link { place: self.near(place.saturating_add(2)).max(1), server: self.any_server() }),
            _ if place == 0 => Way::Up,
            _ => Way::Asked(here),
        };
        if matches!(way, Way::Asked(_)) {
            may_open |= self.damage == Damage::Nothing || self.random.chance(7, 8);
        }
        let mut from = match way {
            Way::Up if self.random.chance(3, 4) => Machine::Balancer(self.random.below(4) as u16),
            _ => Machine::Server(self.any_server()),
        };
        if self.damage == Damage::Everything && self.random.chance(1, 10) {
            from = Machine::Balancer(self.random.below(4) as u16);
        }
        if self.damage > Damage::Nothing && self.random.chance(1, 40) {
            // A bucket that isn't the packet's, at a place that is known there.
            let other = self.any_bucket();
            let place = self.any_place(other);
            self.say(from, packet_message(other, place, Way::Up, may_open, &packet));
        } else {
            self.say(from, packet_message(bucket, place, way, may_open, &packet));
        }
    }

    fn stand(&mut self) {
        let bucket = self.any_bucket();
        let kept = &self.server().buckets[usize::from(bucket)];
        let (highest, standing) = (kept.highest, kept.standing.clone());
        // Mostly a new place, sometimes one that stands, or a late copy.
        let (place, mut before) = match self.random.below(6) {
            0 if !standing.is_empty() => {
                let standing = &standing[self.random.index(standing.len())];
                (standing.place, standing.before)
            }
            1 => (self.near(highest).max(1), None),
            _ if highest > 0 && self.random.chance(1, 400) => (u32::MAX, None),
            _ => (highest.saturating_add(1 + self.random.below(3) as u32), None),
        };
        let own_newest = standing.last().map(|standing| Link { place: standing.place, server: self.server().number });
        if before.is_none() || self.random.chance(1, 4) {
            before = match self.random.below(5) {
                0 if standing.is_empty() => None,
                1 => own_newest,
                _ if place > 1 => Some(Link { place: place - 1, server: self.any_server() }),
                _ => None,
            };
        }
        let before = before.filter(|before| before.place < place);
        self.say(Machine::Controller, Control::Stand { bucket, place, before }.message());
    }

    fn behind_you(&mut self) {
        let bucket = self.any_bucket();
        let place = self.any_place(bucket).max(1);
        let kept = &self.server().buckets[usize::from(bucket)];
        let standing =
            kept.standing.iter().find(|standing| standing.place == place).and_then(|standing| standing.after);
        let forgotten =
            kept.forgotten.iter().find(|forgotten| forgotten.place == place).map(|forgotten| forgotten.after);
        let after = match standing.or(forgotten) {
            Some(after) if self.random.chance(2, 3) => after,
            _ => Link { place: place.saturating_add(1 + self.random.below(2) as u32), server: self.any_server() },
        };
        if after.place > place {
            self.say(Machine::Controller, Control::BehindYou { bucket, place, after }.message());
        }
    }

    fn forgotten_to_server(&mut self) {
        let bucket = self.any_bucket();
        let number = self.server().number;
        let place = self.any_place(bucket).max(2);
        let server = if self.random.chance(1, 10) { self.any_server() } else { number };
        let kept = &self.server().buckets[usize::from(bucket)];
        let before = kept.standing.iter().find(|standing| standing.place == place).and_then(|standing| standing.before);
        let (forgotten, from) = match before {
            Some(before) if self.random.chance(4, 5) => (before.place, before.server),
            _ => (place - 1 - self.random.below(2) as u32, self.any_server()),
        };
        if forgotten > 0 {
            self.say(
                Machine::Server(from),
                Control::Forgotten { bucket, place: forgotten, after: Link { place, server } }.message(),
            );
        }
    }

    fn answer_farewell(&mut self) {
        let bucket = self.any_bucket();
        let farewells = self.server().buckets[usize::from(bucket)].farewells.clone();
        if farewells.is_empty() {
            return;
        }
        let farewell = &farewells[self.random.index(farewells.len())];
        let (mut place, mut after) = (farewell.place, farewell.after);
        let mut from = if self.random.chance(1, 2) { Machine::Controller } else { Machine::Server(after.server) };
        match self.random.below(12) {
            0 => place = self.near(place).clamp(1, after.place - 1),
            1 => after.place = after.place.saturating_add(1),
            2 => from = Machine::Server(self.any_server()),
            _ => {}
        }
        self.say(from, Control::Forgotten { bucket, place, after }.answer());
    }

    fn ticks_to_server(&mut self) {
        let ticks = self.any_ticks();
        // Which of two places of one bucket may be forgotten first when both lose idle sessions is open if the
        // later one has none before it; the protocol's own runs have no such state.
        let server = self.server();
        let open_order = |bucket: &ServerBucket| {
            bucket.standing.iter().filter(|standing| standing.before.is_none() && standing.after.is_some()).count() > 1
        };
        let then = server.tick + u64::from(ticks);
        let closes = server.sessions.values().any(|last| then - last >= HOUR);
        if !closes || !server.buckets.iter().any(open_order) {
            self.say_as_is(Machine::Operator, order_ticks(ticks));
        }
    }

    /// All that has to happen for the oldest place of a bucket to be forgotten.
    fn finish_oldest(&mut self) {
        let bucket = self.any_bucket();
        self.finish_oldest_of(bucket);
    }

    fn finish_oldest_of(&mut self, bucket: u16) {
        let number = self.server().number;
        let Some(oldest) = self.server().buckets[usize::from(bucket)].standing.first().cloned() else {
            return self.stand();
        };
        let mut flows: Vec<Flow> = self
            .server()
            .sessions
            .keys()
            .filter(|key| key.bucket == bucket && key.place == oldest.place)
            .map(|key| key.flow)
            .collect();
        flows.sort();
        for flow in flows {
            self.say(Machine::Operator, order_close(&flow));
        }
        if let Some(before) = oldest.before {
            let here = Link { place: oldest.place, server: number };
            self.say(
                Machine::Server(before.server),
                Control::Forgotten { bucket, place: before.place, after: here }.message(),
            );
        }
        if oldest.after.is_none() && oldest.place < u32::MAX {
            let after = Link { place: oldest.place + 1, server: self.any_server() };
            self.say(Machine::Controller, Control::BehindYou { bucket, place: oldest.place, after }.message());
        }
        // Where the place after was written before the one before it was cleared, or sessions were closed in
        // newer places only, a repeated *behind you* ends the place.
        let still = self.server().buckets[usize::from(bucket)]
            .standing
            .first()
            .filter(|standing| standing.place == oldest.place);
        if let Some(Standing { place, after: Some(after), .. }) = still.cloned() {
            self.say(Machine::Controller, Control::BehindYou { bucket, place, after }.message());
        }
    }

    // -- the controller

    fn controller(&self) -> &Controller {
        match &self.machine {
            Any::Controller(controller) => controller,
            _ => unreachable!("only for a controller's script"),
        }
    }

    fn for_controller(&mut self) {
        let steps = if self.header.buckets > 1024 { 200 } else { 400 + self.random.index(1200) };
        let forgets = self.random.pick(&[0, 3, 15, 40]);
        let mut pool: Vec<u8> = self.header.servers.iter().copied().take(4).collect();
        pool.extend([9, 200]);
        // What the controller said and was not answered yet, or is answered once more.
        let mut mail: Sent = vec![];
        while self.steps < steps {
            let mut sent = match self.random.weighted(&[60, 8, 7, forgets, 14, 5, 10, 8]) {
                0 => self.answer_from(&mut mail),
                1 => self.answer_all(),
                2 => {
                    let server =
                        if self.random.chance(1, 20) { self.random.next() as u8 } else { self.random.pick(&pool) };
                    let listed = self.controller().servers.contains(&server);
                    let add = listed == self.random.chance(1, 10);
                    self.say(Machine::Operator, vec![if add { KIND_ADD } else { KIND_REMOVE }, server])
                }
                3 => self.forgotten_to_controller(),
                // A step's output counts its messages in 16 bits.
                4 if self.header.buckets > 1024 && (self.waiting().len() > 60_000 || self.random.chance(9, 10)) => {
                    vec![]
                }
                4 => {
                    let ticks = order_ticks(self.any_ticks());
                    self.say_as_is(Machine::Operator, ticks)
                }
                5 if self.damage > Damage::Nothing => {
                    self.stray();
                    vec![]
                }
                5 => vec![],
                6 => self.odd_answer(),
                _ => self.answer_waiting(),
            };
            sent.retain(|(_, bytes)| (KIND_STAND..=KIND_DOOR).contains(&bytes[0]));
            mail.append(&mut sent);
            while mail.len() > 120 {
                let at = self.random.index(mail.len());
                mail.swap_remove(at);
            }
        }
    }

    /// The answer to something that was said, new or old; now and then it comes again later.
    fn answer_from(&mut self, mail: &mut Sent) -> Sent {
        if mail.is_empty() {
            return vec![];
        }
        let at = if self.random.chance(1, 2) { mail.len() - 1 } else { self.random.index(mail.len()) };
        let (to, mut bytes) = if self.random.chance(3, 4) { mail.swap_remove(at) } else { mail[at].clone() };
        bytes[0] += ANSWER;
        let from = match to {
            To::Balancer(number) => Machine::Balancer(number),
            To::Server(number) => Machine::Server(number),
            _ => unreachable!("only servers and balancers are asked"),
        };
        self.say(from, bytes)
    }

    /// The answer that a bucket's handover waits for.
    fn answer_to(&mut self, bucket: u16) -> Sent {
        let kept = &self.controller().buckets[usize::from(bucket)];
        let newest = *kept.chain.last().expect("a chain is never empty");
        let (from, answer) = match kept.handover {
            Handover::Idle => return vec![],
            Handover::WaitsForStood(new) => {
                (new.server, Control::Stand { bucket, place: new.place, before: Some(newest) })
            }
            Handover::WaitsForTold(new) => {
                (newest.server, Control::BehindYou { bucket, place: newest.place, after: new })
            }
        };
        self.say(Machine::Server(from), answer.answer())
    }

    fn waiting(&self) -> Vec<u16> {
        let buckets = (0..=u16::MAX).zip(&self.controller().buckets);
        buckets.filter(|(_, bucket)| bucket.handover != Handover::Idle).map(|(number, _)| number).collect()
    }

    fn answer_waiting(&mut self) -> Sent {
        let waiting = self.waiting();
        if waiting.is_empty() {
            return vec![];
        }
        let bucket = self.random.pick(&waiting);
        self.answer_to(bucket)
    }

    /// Answers for up to twenty buckets that wait.
    fn answer_all(&mut self) -> Sent {
        let mut sent = vec![];
        for bucket in self.waiting().into_iter().take(20) {
            sent.append(&mut self.answer_to(bucket));
            if self.random.chance(4, 5) {
                sent.append(&mut self.answer_to(bucket));
            }
        }
        sent
    }

    /// An answer that almost fits.
    fn odd_answer(&mut self) -> Sent {
        let waiting = self.waiting();
        let bucket = if waiting.is_empty() { self.any_bucket() } else { self.random.pick(&waiting) };
        let newest = *self.controller().buckets[usize::from(bucket)].chain.last().expect("a chain is never empty");
        let place = self.near(newest.place).max(1);
        let server = self.any_server();
        let after = Link { place: self.near(newest.place + 1).max(place + 1), server };
        let (from, control) = match self.random.below(3) {
            0 => (
                Machine::Server(server),
                Control::Stand {
                    bucket,
                    place: after.place,
                    before: Some(newest).filter(|newest| newest.place < after.place),
                },
            ),
            1 => (Machine::Server(newest.server), Control::BehindYou { bucket, place, after }),
            _ => {
                let balancer = self.random.below(6) as u16;
                // The newest place with another server than it has is left to damaged bytes.
                let server = if place == newest.place { newest.server } else { server };
                (Machine::Balancer(balancer), Control::Door { bucket, newest: Link { place, server } })
            }
        };
        self.say(from, control.answer())
    }

    fn forgotten_to_controller(&mut self) -> Sent {
        // Mostly where the chain is long.
        let buckets = &self.controller().buckets;
        let long: Vec<u16> = (0..=u16::MAX)
            .zip(buckets)
            .filter(|(_, bucket)| bucket.chain.len() > 1)
            .map(|(number, _)| number)
            .collect();
        let bucket =
            if long.is_empty() || self.random.chance(1, 10) { self.any_bucket() } else { self.random.pick(&long) };
        let chain = self.controller().buckets[usize::from(bucket)].chain.clone();
        let at = match self.random.below(8) {
            0 => self.random.index(chain.len()),
            1 => chain.len() - 1,
            _ => 0,
        };
        let place = if self.random.chance(1, 10) { self.near(chain[at].place).max(1) } else { chain[at].place };
        let after = chain.get(at + 1).copied().filter(|after| after.place > place);
        let after = after.unwrap_or(Link { place: place + 1, server: self.any_server() });
        self.say(Machine::Server(chain[at].server), Control::Forgotten { bucket, place, after }.message())
    }
}

// ------------------------------------------------------------------------------------------------
// One long script

/// A server that is filled up to its last session, refuses (7) what it would open beyond, has room again
/// after an order, and closes all after an hour.
pub fn full_server() -> Vec<u8> {
    let header = Header { kind: 2, number: 4, buckets: 16, balancers: 1, servers: vec![4] };
    let mut script = header.bytes();
    let flow = |n: u32| Flow {
        src: 0x0b00_0000 + n,
        dst: 0x0a00_0001,
        sport: 1000 + (n % 7) as u16,
        dport: 443,
        protocol: UDP,
    };
    let asked = |n: u32| {
        let flow = flow(n);
        let here = Link { place: 1, server: 4 };
        packet_message(flow.bucket(16), 1, Way::Asked(here), true, &raw_packet(&flow, false, false, 0, &[]))
    };
    let most = MOST_SESSIONS as u32;
    for n in 0..most {
        Step::Hear(Machine::Server(4), &asked(n)).put(&mut script);
    }
    Step::Digest.put(&mut script);
    Step::Hear(Machine::Server(4), &asked(most)).put(&mut script);
    Step::Hear(Machine::Server(4), &asked(17)).put(&mut script);
    Step::Hear(Machine::Operator, &order_close(&flow(1234))).put(&mut script);
    Step::Hear(Machine::Server(4), &asked(most)).put(&mut script);
    Step::Hear(Machine::Server(4), &asked(most + 1)).put(&mut script);
    for bucket in 0..16 {
        let behind = Control::BehindYou { bucket, place: 1, after: Link { place: 2, server: 5 } };
        Step::Hear(Machine::Controller, &behind.message()).put(&mut script);
    }
    Step::Digest.put(&mut script);
    Step::Hear(Machine::Operator, &order_ticks(HOUR as u32 - 1)).put(&mut script);
    Step::Digest.put(&mut script);
    Step::Hear(Machine::Operator, &order_ticks(1)).put(&mut script);
    Step::Digest.put(&mut script);
    script
}
