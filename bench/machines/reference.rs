//! The protocol of docs/PROTOCOL.md in plain Rust, written from that document alone, to be compared with
//! the proved machines. Three state machines without input or output of their own: `hear` takes a message
//! as on the wire and gives back what is sent; `digest` sums up the state; `play` plays a script of bytes.
#![allow(dead_code)]

use std::cmp::Reverse;
use std::collections::{BTreeSet, HashMap, VecDeque};

/// Places a bucket keeps: in a server those where it stands, in the controller those of the chain.
pub const MOST_PLACES: usize = 8;
/// Forgotten places that a server remembers for a bucket, and farewells that it keeps for one.
pub const MOST_FORGOTTEN: usize = 16;
pub const MOST_FAREWELLS: usize = 16;
pub const MOST_SESSIONS: usize = 65_536;
/// A message that waits for its answer is said again after this many ticks.
pub const PATIENCE: u64 = 16;
/// A session without packets for this many ticks is closed.
pub const HOUR: u64 = 921_600;
pub const DAY: u64 = 22_118_400;
/// Bytes of a message 1 before the packet inside.
pub const HEAD: usize = 16;

/// What the document leaves open; each is used in one place only.
pub mod choices {
    /// "Neither: nobody has the session": a packet on the way up at the only place of a chain, which may
    /// open, is sent to this very place, asked, in a message 1 (true), or opens its session at once (false).
    pub const ASKS_ITSELF: bool = true;

    /// Where a message 1 goes that could not be read to its end.
    #[derive(PartialEq, Eq)]
    pub enum Unreadable {
        /// To the client, with what stands behind the head.
        PacketToClient,
        /// To the client, with all its bytes.
        MessageToClient,
        /// To whoever handed it over, with all its bytes.
        MessageToSender,
    }
    pub const UNREADABLE_PACKET: Unreadable = Unreadable::MessageToClient;

    /// "A server that is listed already changes nothing (8)": the order is refused with 8 (true) or
    /// taken without effect (false).
    pub const ADDED_TWICE_IS_REFUSED: bool = false;

    /// A put-off handover that is no longer wanted may be reported again when it is wanted again (true),
    /// or only after a handover of the bucket has begun (false).
    pub const REPORT_ENDS_WITH_THE_WISH: bool = true;

    /// Balancers that have not answered stay in rising order (true), or the last one is put where one
    /// was taken out (false).
    pub const UNTOLD_STAY_IN_ORDER: bool = true;

    /// A balancer hears of the place after also if its packet went on from the forgotten place as "asked".
    pub const HINT_WITH_ASKED: bool = true;

    /// What a client hands over is no message, so that it is refused also where its first byte is the kind of a
    /// refusal or an answer (true), or such bytes are never refused (false).
    pub const CLIENTS_HAVE_NO_KINDS: bool = true;

    /// The packet inside: whether the total length in its head has to be the number of its bytes.
    pub const TOTAL_LENGTH_MUST_FIT: bool = true;
    /// The packet inside: whether a later fragment, which has no ports, is fault 3.
    pub const FRAGMENTS_ARE_FAULTS: bool = true;
}

// ------------------------------------------------------------------------------------------------
// Names

#[derive(Clone, Copy, PartialEq, Eq, Hash, Debug)]
pub enum Machine {
    Client,
    Operator,
    Balancer(u16),
    Server(u8),
    Controller,
}

impl Machine {
    /// Messages are taken from machines; clients hand over packets, and the operator orders.
    fn is_machine(self) -> bool {
        !matches!(self, Machine::Client | Machine::Operator)
    }
}

/// To whom something is sent: a machine, or the open session (`Table`) whose packet it is.
#[derive(Clone, Copy, PartialEq, Eq, Hash, PartialOrd, Ord, Debug)]
pub enum To {
    Client,
    Operator,
    Balancer(u16),
    Server(u8),
    Controller,
    Table,
}

impl From<Machine> for To {
    fn from(machine: Machine) -> To {
        match machine {
            Machine::Client => To::Client,
            Machine::Operator => To::Operator,
            Machine::Balancer(number) => To::Balancer(number),
            Machine::Server(number) => To::Server(number),
            Machine::Controller => To::Controller,
        }
    }
}

pub type Sent = Vec<(To, Vec<u8>)>;

#[derive(Clone, Copy, PartialEq, Eq, Debug)]
#[repr(u8)]
pub enum Fault {
    NobodyHasIt = 0,
    Length = 1,
    NotThere = 2,
    NotAPacket = 3,
    UnknownPlace = 4,
    OtherBucket = 5,
    NotAsked = 6,
    Full = 7,
    Contradiction = 8,
    NoServerLeft = 9,
    PutOff = 10,
}

/// Declares the outcomes that are counted, so that one sees what the scripts reach.
macro_rules! outcomes {
    ($($name:ident),* $(,)?) => {
        #[derive(Clone, Copy, PartialEq, Eq, Debug)]
        pub enum Outcome { $($name),* }
        pub const OUTCOMES: &[Outcome] = &[$(Outcome::$name),*];
    };
}

outcomes! {
    // a balancer
    SentToServer, DoorNewer, DoorOldOrSame, BalancerTicks,
    // a packet at a server
    Delivered, DeliveredAsked, Opened, UpToAfter, UpBeginsToAsk, UpNeitherAsks, DownToBefore, DownNobody,
    AskedToAfter, ForgottenUp, ForgottenDown, ForgottenAsked, Hint, PacketDropped, FaultyPacketDropped,
    // control messages at a server
    Stands, StandRepeated, BehindWritten, BehindRepeated, BehindOfForgotten, BehindDropped, BehindFaultyDropped,
    BeforeCleared, NoneBefore, AfterForgottenSince, AfterForgottenLongAgo, ForgottenOtherServer, ForgottenDropped,
    // farewells
    PlaceForgotten, ForgottenMemoryFull, FarewellsFull, FarewellAnsweredByAfter, FarewellAnsweredByController,
    FarewellDone, FarewellAnswerIgnored, FarewellSaidAgain,
    // sessions
    ClosedByOrder, NothingToClose, ClosedIdle, ForgottenByIdle, ServerTicks, ServerFree,
    // the controller
    ServerAdded, ServerRemoved, HandoverBegun, HandoverStood, HandoverDone, HandoverPutOff, PutOffAgainSilent,
    PutOffEnded, PutOffNotWanted, StoodLate, ToldLate, BalancerTold, BalancerLate, ChainShortened, ForgottenAgain,
    ForgottenNotYet, HandoverSaidAgain, DoorsSaidAgain, ControllerTicks, ServerParted,
    // refusals by number, and what is never refused
    Refused0, Refused1, Refused2, Refused3, Refused5, Refused6, Refused7, Refused8, Refused9, Refused10,
    IgnoredUnrefusable,
}

#[derive(Clone)]
pub struct Outcomes([u64; OUTCOMES.len()]);

impl Default for Outcomes {
    fn default() -> Self {
        Outcomes([0; OUTCOMES.len()])
    }
}

impl Outcomes {
    fn note(&mut self, outcome: Outcome) {
        self.0[outcome as usize] += 1;
    }

    pub fn of(&self, outcome: Outcome) -> u64 {
        self.0[outcome as usize]
    }

    pub fn add(&mut self, other: &Outcomes) {
        for (mine, theirs) in self.0.iter_mut().zip(&other.0) {
            *mine += theirs;
        }
    }

    fn note_refusal(&mut self, fault: Fault) {
        use Outcome::*;
        self.note(match fault {
            Fault::NobodyHasIt => Refused0,
            Fault::Length => Refused1,
            Fault::NotThere => Refused2,
            Fault::NotAPacket => Refused3,
            Fault::UnknownPlace => return,
            Fault::OtherBucket => Refused5,
            Fault::NotAsked => Refused6,
            Fault::Full => Refused7,
            Fault::Contradiction => Refused8,
            Fault::NoServerLeft => Refused9,
            Fault::PutOff => Refused10,
        });
    }
}

// ------------------------------------------------------------------------------------------------
// Flows, buckets, the assignment

pub const TCP: u8 = 6;
pub const UDP: u8 = 17;

#[derive(Clone, Copy, PartialEq, Eq, Hash, PartialOrd, Ord, Debug)]
pub struct Flow {
    pub src: u32,
    pub dst: u32,
    pub sport: u16,
    pub dport: u16,
    pub protocol: u8,
}

impl Flow {
    /// The one's-complement sum of the source address's halves, the source port and the protocol's number,
    /// its bits turned end for end, remainder by the number of buckets.
    pub fn bucket(&self, buckets: u32) -> u16 {
        let mut sum = (self.src >> 16) + (self.src & 0xffff) + u32::from(self.sport) + u32::from(self.protocol);
        while sum > 0xffff {
            sum = (sum & 0xffff) + (sum >> 16);
        }
        let turned = (sum as u16).reverse_bits();
        (u32::from(turned) % buckets) as u16
    }
}

/// The even assignment that changes fewest buckets of `now`, where `None` is a bucket without a server.
/// `servers` rises and isn't empty.
pub fn assign(now: &[Option<u8>], servers: &[u8]) -> Vec<u8> {
    let mut has = [0usize; 256];
    for server in now.iter().flatten() {
        has[usize::from(*server)] += 1;
    }
    // One more than the share for those that have most now, of equally many the lower number.
    let (share, remainder) = (now.len() / servers.len(), now.len() % servers.len());
    let mut ranked = servers.to_vec();
    ranked.sort_by_key(|&server| (Reverse(has[usize::from(server)]), server));
    let mut room = [0usize; 256];
    for (rank, &server) in ranked.iter().enumerate() {
        room[usize::from(server)] = share + usize::from(rank < remainder);
    }
    // Each keeps its lowest buckets up to its quota; a server that isn't listed has no quota.
    let mut kept = now.to_vec();
    for bucket in &mut kept {
        if let Some(server) = *bucket {
            match &mut room[usize::from(server)] {
                0 => *bucket = None,
                left => *left -= 1,
            }
        }
    }
    // The others fill up the servers below their quota, the lowest number first.
    let mut vacancies = servers.iter().flat_map(|&server| std::iter::repeat_n(server, room[usize::from(server)]));
    kept.into_iter()
        .map(|server| server.unwrap_or_else(|| vacancies.next().expect("quotas sum to the buckets")))
        .collect()
}

fn first_assignment(buckets: u32, servers: &[u8]) -> Vec<u8> {
    assign(&vec![None; buckets as usize], servers)
}

// ------------------------------------------------------------------------------------------------
// Messages

/// A place's number with its server.
#[derive(Clone, Copy, PartialEq, Eq, Hash, Debug)]
pub struct Link {
    pub place: u32,
    pub server: u8,
}

/// On which way a packet is; with down and asked, who began to ask.
#[derive(Clone, Copy, PartialEq, Eq, Debug)]
pub enum Way {
    Up,
    Down(Link),
    Asked(Link),
}

#[derive(Clone, Copy, PartialEq, Eq, Debug)]
pub struct Packet<'a> {
    pub bucket: u16,
    pub place: u32,
    pub way: Way,
    pub may_open: bool,
    pub flow: Flow,
    pub inside: &'a [u8],
}

/// The four control messages. Their answers have the same fields and a kind that is 32 higher.
#[derive(Clone, Copy, PartialEq, Eq, Debug)]
pub enum Control {
    Stand { bucket: u16, place: u32, before: Option<Link> },
    BehindYou { bucket: u16, place: u32, after: Link },
    Door { bucket: u16, newest: Link },
    Forgotten { bucket: u16, place: u32, after: Link },
}

#[derive(Clone, Copy, PartialEq, Eq, Debug)]
pub enum Order {
    Close(Flow),
    Add(u8),
    Remove(u8),
    Ticks(u32),
}

#[derive(Clone, Copy, PartialEq, Eq, Debug)]
pub enum Message<'a> {
    Packet(Packet<'a>),
    Control(Control),
    Answer(Control),
    Order(Order),
}

pub const KIND_PACKET: u8 = 1;
pub const KIND_STAND: u8 = 2;
pub const KIND_BEHIND: u8 = 3;
pub const KIND_DOOR: u8 = 4;
pub const KIND_FORGOTTEN: u8 = 5;
pub const KIND_REFUSED: u8 = 6;
pub const KIND_CLOSE: u8 = 7;
pub const KIND_ADD: u8 = 8;
pub const KIND_REMOVE: u8 = 9;
pub const KIND_TICKS: u8 = 10;
/// An answer's kind is that of what it answers and this.
pub const ANSWER: u8 = 32;

fn is_answer(kind: u8) -> bool {
    (KIND_STAND + ANSWER..=KIND_FORGOTTEN + ANSWER).contains(&kind)
}

fn is_order(kind: u8) -> bool {
    (KIND_CLOSE..=KIND_TICKS).contains(&kind)
}

/// The first fault of a message, with the bucket and place that were read before it.
#[derive(Clone, Copy, PartialEq, Eq, Debug)]
pub struct ReadFault {
    pub fault: Fault,
    pub place: Option<(u16, u32)>,
}

struct Reader<'a> {
    rest: &'a [u8],
}

impl<'a> Reader<'a> {
    fn take<const N: usize>(&mut self) -> Result<[u8; N], Fault> {
        let (field, rest) = self.rest.split_first_chunk::<N>().ok_or(Fault::Length)?;
        self.rest = rest;
        Ok(*field)
    }

    fn u8(&mut self) -> Result<u8, Fault> {
        Ok(self.take::<1>()?[0])
    }

    fn u16(&mut self) -> Result<u16, Fault> {
        Ok(u16::from_be_bytes(self.take()?))
    }

    fn u32(&mut self) -> Result<u32, Fault> {
        Ok(u32::from_be_bytes(self.take()?))
    }

    fn end(&self) -> Result<(), Fault> {
        ensure(self.rest.is_empty(), Fault::Length)
    }
}

fn ensure(holds: bool, fault: Fault) -> Result<(), Fault> {
    if holds { Ok(()) } else { Err(fault) }
}

/// Reads a message from its first byte on, up to the first field that has a fault. A kind that the machine
/// does not take (from this sender) is a fault of the first field.
pub fn read(bytes: &[u8], buckets: u32, takes: impl Fn(u8) -> bool) -> Result<Message<'_>, ReadFault> {
    let mut place_read = None;
    read_fields(bytes, buckets, takes, &mut place_read).map_err(|fault| ReadFault { fault, place: place_read })
}

fn read_fields<'a>(
    bytes: &'a [u8],
    buckets: u32,
    takes: impl Fn(u8) -> bool,
    place_read: &mut Option<(u16, u32)>,
) -> Result<Message<'a>, Fault> {
    let mut reader = Reader { rest: bytes };
    let kind = reader.u8()?;
    ensure(takes(kind), Fault::Length)?;
    if is_order(kind) {
        return read_order(kind, &mut reader).map(Message::Order);
    }

    let bucket = reader.u16()?;
    ensure(u32::from(bucket) < buckets, Fault::NotThere)?;
    let place = reader.u32()?;
    ensure(place != 0 || kind == KIND_PACKET, Fault::NotThere)?;
    *place_read = Some((bucket, place));

    if kind == KIND_PACKET {
        return read_packet_message(bucket, place, buckets, &mut reader).map(Message::Packet);
    }
    let is_answer = is_answer(kind);
    let control = match if is_answer { kind - ANSWER } else { kind } {
        KIND_STAND => {
            let before = reader.u32()?;
            ensure(before < place, Fault::NotThere)?;
            let server = reader.u8()?;
            ensure(before != 0 || server == 0, Fault::NotThere)?;
            Control::Stand { bucket, place, before: (before != 0).then_some(Link { place: before, server }) }
        }
        KIND_DOOR => Control::Door { bucket, newest: Link { place, server: reader.u8()? } },
        kind => {
            let after = reader.u32()?;
            ensure(after > place, Fault::NotThere)?;
            let after = Link { place: after, server: reader.u8()? };
            if kind == KIND_BEHIND {
                Control::BehindYou { bucket, place, after }
            } else {
                Control::Forgotten { bucket, place, after }
            }
        }
    };
    reader.end()?;
    Ok(if is_answer { Message::Answer(control) } else { Message::Control(control) })
}

fn read_order(kind: u8, reader: &mut Reader) -> Result<Order, Fault> {
    let order = match kind {
        KIND_CLOSE => {
            let (src, dst) = (reader.u32()?, reader.u32()?);
            let (sport, dport) = (reader.u16()?, reader.u16()?);
            let protocol = reader.u8()?;
            ensure(protocol == TCP || protocol == UDP, Fault::NotAPacket)?;
            Order::Close(Flow { src, dst, sport, dport, protocol })
        }
        KIND_ADD => Order::Add(reader.u8()?),
        KIND_REMOVE => Order::Remove(reader.u8()?),
        _ => Order::Ticks(reader.u32()?),
    };
    reader.end()?;
    Ok(order)
}

/// The rest of a message 1, behind bucket and place.
fn read_packet_message<'a>(
    bucket: u16,
    place: u32,
    buckets: u32,
    reader: &mut Reader<'a>,
) -> Result<Packet<'a>, Fault> {
    let way = reader.u8()?;
    ensure((1..=3).contains(&way), Fault::NotThere)?;
    let (up, asked) = (way == 1, way == 3);
    let began = reader.u32()?;
    ensure((began == 0) == up, Fault::NotThere)?;
    ensure(!asked || began == place, Fault::NotAsked)?;
    let server = reader.u8()?;
    ensure(!up || server == 0, Fault::NotThere)?;
    let may_open = reader.u8()?;
    ensure(may_open <= 1, Fault::NotThere)?;
    ensure(!asked || may_open == 1, Fault::NotAsked)?;
    let length = reader.u16()?;
    let inside = reader.rest;
    ensure(inside.len() == usize::from(length), Fault::Length)?;
    let (flow, _) = read_packet(inside)?;
    ensure(flow.bucket(buckets) == bucket, Fault::OtherBucket)?;
    let began = Link { place: began, server };
    let way = match way {
        1 => Way::Up,
        2 => Way::Down(began),
        _ => Way::Asked(began),
    };
    Ok(Packet { bucket, place, way, may_open: may_open == 1, flow, inside })
}

/// Reads a raw packet: version 4, a head of at least 20 bytes, TCP or UDP with its whole (fixed) head there.
/// Gives its flow, and whether it may open a session: TCP with SYN and without ACK, and every UDP packet.
pub fn read_packet(bytes: &[u8]) -> Result<(Flow, bool), Fault> {
    let parse = || {
        let n16 = |at: usize| Some(u16::from_be_bytes([*bytes.get(at)?, *bytes.get(at + 1)?]));
        let n32 = |at: usize| Some(u32::from(n16(at)?) << 16 | u32::from(n16(at + 2)?));
        let first = *bytes.first()?;
        let (version, head) = (first >> 4, usize::from(first & 15) * 4);
        let protocol = *bytes.get(9)?;
        let transport = match protocol {
            TCP => 20,
            UDP => 8,
            _ => return None,
        };
        if version != 4 || head < 20 || bytes.len() < head + transport || bytes.len() > 65_535 {
            return None;
        }
        if choices::TOTAL_LENGTH_MUST_FIT && usize::from(n16(2)?) != bytes.len() {
            return None;
        }
        if choices::FRAGMENTS_ARE_FAULTS && n16(6)? & 0x1fff != 0 {
            return None;
        }
        let flow = Flow { src: n32(12)?, dst: n32(16)?, sport: n16(head)?, dport: n16(head + 2)?, protocol };
        let flags = if protocol == TCP { bytes[head + 13] } else { 0 };
        let (syn, ack) = (flags & 0x02 != 0, flags & 0x10 != 0);
        Some((flow, protocol == UDP || syn && !ack))
    };
    parse().ok_or(Fault::NotAPacket)
}

impl Control {
    /// The message as on the wire.
    pub fn message(&self) -> Vec<u8> {
        self.bytes(0)
    }

    /// The answer to the message as on the wire.
    pub fn answer(&self) -> Vec<u8> {
        self.bytes(ANSWER)
    }

    fn bytes(&self, above: u8) -> Vec<u8> {
        let mut bytes = Vec::with_capacity(12);
        let mut head = |kind: u8, bucket: u16, place: u32| {
            bytes.push(kind + above);
            bytes.extend(bucket.to_be_bytes());
            bytes.extend(place.to_be_bytes());
        };
        match *self {
            Control::Stand { bucket, place, before } => {
                head(KIND_STAND, bucket, place);
                put_link(&mut bytes, before);
            }
            Control::BehindYou { bucket, place, after } => {
                head(KIND_BEHIND, bucket, place);
                put_link(&mut bytes, Some(after));
            }
            Control::Door { bucket, newest } => {
                head(KIND_DOOR, bucket, newest.place);
                bytes.push(newest.server);
            }
            Control::Forgotten { bucket, place, after } => {
                head(KIND_FORGOTTEN, bucket, place);
                put_link(&mut bytes, Some(after));
            }
        }
        bytes
    }
}

/// A link's number and server; zeros for none.
fn put_link(bytes: &mut Vec<u8>, link: Option<Link>) {
    let Link { place, server } = link.unwrap_or(Link { place: 0, server: 0 });
    bytes.extend(place.to_be_bytes());
    bytes.push(server);
}

/// A message 1.
pub fn packet_message(bucket: u16, place: u32, way: Way, may_open: bool, inside: &[u8]) -> Vec<u8> {
    let mut bytes = Vec::with_capacity(HEAD + inside.len());
    bytes.push(KIND_PACKET);
    bytes.extend(bucket.to_be_bytes());
    bytes.extend(place.to_be_bytes());
    let (way, began) = match way {
        Way::Up => (1, None),
        Way::Down(began) => (2, Some(began)),
        Way::Asked(began) => (3, Some(began)),
    };
    bytes.push(way);
    put_link(&mut bytes, began);
    bytes.push(u8::from(may_open));
    bytes.extend((inside.len() as u16).to_be_bytes());
    bytes.extend(inside);
    bytes
}

/// A message 6, with the first 65,535 of the bytes.
pub fn refusal(number: u8, bytes: &[u8]) -> Vec<u8> {
    let bytes = &bytes[..bytes.len().min(65_535)];
    let mut message = vec![KIND_REFUSED, number];
    message.extend((bytes.len() as u16).to_be_bytes());
    message.extend(bytes);
    message
}

/// Sends back what was refused: a packet to the client, all else to whoever handed it over. Fault 4 is no
/// answer at all, and refusals and answers are never refused.
fn refuse(outcomes: &mut Outcomes, from: Machine, bytes: &[u8], fault: Fault, was_read: bool) -> Sent {
    use choices::{UNREADABLE_PACKET, Unreadable};
    let kind = bytes.first().copied();
    if fault == Fault::UnknownPlace {
        return vec![];
    }
    let is_final = kind.is_some_and(|kind| kind == KIND_REFUSED || is_answer(kind));
    if is_final && !(choices::CLIENTS_HAVE_NO_KINDS && from == Machine::Client) {
        outcomes.note(Outcome::IgnoredUnrefusable);
        return vec![];
    }
    outcomes.note_refusal(fault);
    let number = fault as u8;
    let inside = bytes.get(HEAD..).unwrap_or_default();
    match kind {
        Some(KIND_PACKET) if was_read || UNREADABLE_PACKET == Unreadable::PacketToClient => {
            vec![(To::Client, refusal(number, inside))]
        }
        Some(KIND_PACKET) if UNREADABLE_PACKET == Unreadable::MessageToClient => {
            vec![(To::Client, refusal(number, bytes))]
        }
        _ => vec![(from.into(), refusal(number, bytes))],
    }
}

/// Lets n ticks pass for a message that waits: its new age, and whether it is due.
fn passes(age: &mut u8, ticks: u32) -> bool {
    let sum = u64::from(*age) + u64::from(ticks);
    *age = (sum % PATIENCE) as u8;
    sum >= PATIENCE
}

// ------------------------------------------------------------------------------------------------
// A balancer

/// Knows for each bucket the highest place that it has heard of, and keeps nothing else.
#[derive(Clone)]
pub struct Balancer {
    pub links: Vec<Link>,
    pub outcomes: Outcomes,
}

impl Balancer {
    pub fn new(buckets: u32, servers: &[u8]) -> Balancer {
        let links = first_assignment(buckets, servers).into_iter().map(|server| Link { place: 1, server }).collect();
        Balancer { links, outcomes: Outcomes::default() }
    }

    pub fn hear(&mut self, from: Machine, bytes: &[u8]) -> Sent {
        if from == Machine::Client {
            return self.packet(bytes);
        }
        let takes = |kind| match kind {
            KIND_DOOR => matches!(from, Machine::Server(_) | Machine::Controller),
            kind => kind == KIND_TICKS && from == Machine::Operator,
        };
        match read(bytes, self.links.len() as u32, takes) {
            Ok(Message::Control(Control::Door { bucket, newest })) => match self.door(bucket, newest) {
                Ok(()) => vec![(from.into(), Control::Door { bucket, newest }.answer())],
                Err(fault) => refuse(&mut self.outcomes, from, bytes, fault, true),
            },
            Ok(Message::Order(Order::Ticks(_))) => {
                self.outcomes.note(Outcome::BalancerTicks);
                vec![]
            }
            Ok(other) => unreachable!("a balancer does not take {other:?}"),
            Err(ReadFault { fault, .. }) => refuse(&mut self.outcomes, from, bytes, fault, false),
        }
    }

    /// A client's packet goes to the server of its bucket's link, up.
    fn packet(&mut self, bytes: &[u8]) -> Sent {
        match read_packet(bytes) {
            Ok((flow, may_open)) => {
                let bucket = flow.bucket(self.links.len() as u32);
                let Link { place, server } = self.links[usize::from(bucket)];
                self.outcomes.note(Outcome::SentToServer);
                vec![(To::Server(server), packet_message(bucket, place, Way::Up, may_open, bytes))]
            }
            Err(fault) => {
                self.outcomes.note_refusal(fault);
                vec![(To::Client, refusal(fault as u8, bytes))]
            }
        }
    }

    fn door(&mut self, bucket: u16, newest: Link) -> Result<(), Fault> {
        let known = &mut self.links[usize::from(bucket)];
        if newest.place > known.place {
            *known = newest;
            self.outcomes.note(Outcome::DoorNewer);
        } else if newest.place == known.place && newest.server != known.server {
            return Err(Fault::Contradiction);
        } else {
            self.outcomes.note(Outcome::DoorOldOrSame);
        }
        Ok(())
    }

    pub fn digest(&self) -> u64 {
        let mut sum = Fnv::new();
        for link in &self.links {
            sum.link(Some(*link));
        }
        sum.0
    }
}

// ------------------------------------------------------------------------------------------------
// A server

/// A place where the server stands.
#[derive(Clone, Debug)]
pub struct Standing {
    pub place: u32,
    pub before: Option<Link>,
    pub after: Option<Link>,
    /// How many sessions are open in it.
    pub open: usize,
}

/// A forgotten place, remembered with the place after.
#[derive(Clone, Debug)]
pub struct Remembered {
    pub place: u32,
    pub after: Link,
}

/// A forgotten place of which not both, the place after and the controller, have answered.
#[derive(Clone, Debug)]
pub struct Farewell {
    pub place: u32,
    pub after: Link,
    pub awaits_after: bool,
    pub awaits_controller: bool,
    pub age: u8,
}

impl Farewell {
    /// Tells those that have not answered: the place after, then the controller.
    fn say(&self, bucket: u16, sent: &mut Sent) {
        let message = Control::Forgotten { bucket, place: self.place, after: self.after }.message();
        if self.awaits_after {
            sent.push((To::Server(self.after.server), message.clone()));
        }
        if self.awaits_controller {
            sent.push((To::Controller, message));
        }
    }
}

/// What a server keeps for a bucket; all lists from the oldest to the newest, their numbers rising.
#[derive(Clone, Default, Debug)]
pub struct ServerBucket {
    /// The highest place that the server ever stood in.
    pub highest: u32,
    pub standing: Vec<Standing>,
    pub forgotten: VecDeque<Remembered>,
    pub farewells: VecDeque<Farewell>,
}

impl ServerBucket {
    fn standing(&mut self, place: u32) -> Option<&mut Standing> {
        self.standing.iter_mut().find(|standing| standing.place == place)
    }

    fn forgotten(&self, place: u32) -> Option<&Remembered> {
        self.forgotten.iter().find(|forgotten| forgotten.place == place)
    }

    fn knows(&self, place: u32) -> bool {
        self.standing.iter().any(|standing| standing.place == place) || self.forgotten(place).is_some()
    }
}

/// A session is named by its flow and belongs to a place of the flow's bucket.
#[derive(Clone, Copy, PartialEq, Eq, Hash, Debug)]
pub struct SessionKey {
    pub bucket: u16,
    pub place: u32,
    pub flow: Flow,
}

#[derive(Clone)]
pub struct Server {
    pub number: u8,
    pub buckets: Vec<ServerBucket>,
    /// The open sessions, each with the tick of its last packet.
    pub sessions: HashMap<SessionKey, u64>,
    pub tick: u64,
    /// The tick in which a place was last forgotten.
    pub stood: u64,
    pub outcomes: Outcomes,
}

impl Server {
    pub fn new(number: u8, buckets: u32, servers: &[u8]) -> Server {
        let first = |server| {
            let mut bucket = ServerBucket::default();
            if server == number {
                bucket.highest = 1;
                bucket.standing.push(Standing { place: 1, before: None, after: None, open: 0 });
            }
            bucket
        };
        let buckets = first_assignment(buckets, servers).into_iter().map(first).collect();
        Server { number, buckets, sessions: HashMap::new(), tick: 0, stood: 0, outcomes: Outcomes::default() }
    }

    /// Whether it may be switched off.
    pub fn is_free(&self) -> bool {
        self.tick - self.stood >= DAY
            && self.buckets.iter().all(|bucket| bucket.standing.is_empty() && bucket.farewells.is_empty())
    }

    pub fn hear(&mut self, from: Machine, bytes: &[u8]) -> Sent {
        let takes = |kind| match kind {
            KIND_PACKET | KIND_STAND | KIND_BEHIND | KIND_FORGOTTEN => from.is_machine(),
            KIND_CLOSE | KIND_TICKS => from == Machine::Operator,
            kind => kind == KIND_FORGOTTEN + ANSWER && from.is_machine(),
        };
        let (stepped, was_read) = match read(bytes, self.buckets.len() as u32, takes) {
            Ok(message) => (self.step(from, bytes, message), true),
            Err(ReadFault { fault, place }) => (Err(self.dropped_if_unknown(bytes, place).unwrap_or(fault)), false),
        };
        stepped.unwrap_or_else(|fault| refuse(&mut self.outcomes, from, bytes, fault, was_read))
    }

    /// A faulty message for a place that this server does not know is dropped, whatever stands behind the
    /// place. So it is with packets and *behind you*; the place of the others isn't one of this server yet
    /// (*stand*), or is another server's (*forgotten*).
    fn dropped_if_unknown(&mut self, bytes: &[u8], place: Option<(u16, u32)>) -> Option<Fault> {
        let (bucket, place) = place?;
        if self.buckets[usize::from(bucket)].knows(place) {
            return None;
        }
        match bytes[0] {
            KIND_PACKET => self.outcomes.note(Outcome::FaultyPacketDropped),
            KIND_BEHIND => self.outcomes.note(Outcome::BehindFaultyDropped),
            _ => return None,
        }
        Some(Fault::UnknownPlace)
    }

    fn step(&mut self, from: Machine, bytes: &[u8], message: Message) -> Result<Sent, Fault> {
        let mut sent = vec![];
        match message {
            Message::Packet(packet) => return self.packet(from, bytes, &packet),
            Message::Control(control) => {
                let concerned = match control {
                    Control::Stand { bucket, place, before } => {
                        self.stand(bucket, place, before)?;
                        None
                    }
                    Control::BehindYou { bucket, place, after } => {
                        self.behind_you(bucket, place, after)?;
                        Some((bucket, place))
                    }
                    Control::Forgotten { bucket, place, after } => {
                        self.before_forgotten(bucket, place, after)?;
                        Some((bucket, after.place))
                    }
                    Control::Door { .. } => unreachable!("a server does not take a door"),
                };
                sent.push((from.into(), control.answer()));
                if let Some((bucket, place)) = concerned {
                    self.forget_if_it_may_be(bucket, place, &mut sent);
                }
            }
            Message::Answer(Control::Forgotten { bucket, place, after }) => {
                self.farewell_answered(from, bucket, place, after)
            }
            Message::Answer(other) => unreachable!("a server does not take the answer {other:?}"),
            Message::Order(Order::Close(flow)) => self.close(flow, &mut sent),
            Message::Order(Order::Ticks(ticks)) => self.ticks(ticks, &mut sent)?,
            Message::Order(other) => unreachable!("a server does not take {other:?}"),
        }
        Ok(sent)
    }

    // -- packets

    fn packet(&mut self, from: Machine, bytes: &[u8], packet: &Packet) -> Result<Sent, Fault> {
        let here = Link { place: packet.place, server: self.number };
        let key = SessionKey { bucket: packet.bucket, place: packet.place, flow: packet.flow };
        let bucket = &mut self.buckets[usize::from(packet.bucket)];
        let outcomes = &mut self.outcomes;

        if let Some(standing) = bucket.standing(packet.place) {
            if let Some(last) = self.sessions.get_mut(&key) {
                *last = self.tick;
                outcomes.note(if matches!(packet.way, Way::Asked(_)) {
                    Outcome::DeliveredAsked
                } else {
                    Outcome::Delivered
                });
                return Ok(vec![(To::Table, packet.inside.to_vec())]);
            }
            return match (packet.way, standing.before, standing.after) {
                (Way::Up, _, Some(after)) => {
                    outcomes.note(Outcome::UpToAfter);
                    Ok(vec![forwarded(bytes, after, Way::Up)])
                }
                (Way::Up, Some(before), None) => {
                    outcomes.note(Outcome::UpBeginsToAsk);
                    Ok(vec![forwarded(bytes, before, Way::Down(here))])
                }
                (Way::Up, None, None) if packet.may_open && !choices::ASKS_ITSELF => self.open(key, packet.inside),
                (Way::Up, None, None) => {
                    outcomes.note(Outcome::UpNeitherAsks);
                    Ok(vec![nobody_has_it(bytes, packet.may_open, here)?])
                }
                (Way::Down(began), Some(before), _) => {
                    outcomes.note(Outcome::DownToBefore);
                    Ok(vec![forwarded(bytes, before, Way::Down(began))])
                }
                (Way::Down(began), None, _) => {
                    outcomes.note(Outcome::DownNobody);
                    Ok(vec![nobody_has_it(bytes, packet.may_open, began)?])
                }
                (Way::Asked(_), _, Some(after)) => {
                    outcomes.note(Outcome::AskedToAfter);
                    Ok(vec![forwarded(bytes, after, Way::Up)])
                }
                (Way::Asked(_), _, None) => self.open(key, packet.inside),
            };
        }

        let Some(forgotten) = bucket.forgotten(packet.place) else {
            outcomes.note(Outcome::PacketDropped);
            return Err(Fault::UnknownPlace);
        };
        let mut sent = match packet.way {
            Way::Up => {
                outcomes.note(Outcome::ForgottenUp);
                vec![forwarded(bytes, forgotten.after, Way::Up)]
            }
            Way::Asked(_) => {
                outcomes.note(Outcome::ForgottenAsked);
                vec![forwarded(bytes, forgotten.after, Way::Up)]
            }
            Way::Down(began) => {
                outcomes.note(Outcome::ForgottenDown);
                vec![nobody_has_it(bytes, packet.may_open, began)?]
            }
        };
        let went_on = choices::HINT_WITH_ASKED || !matches!(packet.way, Way::Down(_));
        if let (Machine::Balancer(balancer), true) = (from, went_on) {
            outcomes.note(Outcome::Hint);
            let hint = Control::Door { bucket: packet.bucket, newest: forgotten.after };
            sent.push((To::Balancer(balancer), hint.message()));
        }
        Ok(sent)
    }

    fn open(&mut self, key: SessionKey, inside: &[u8]) -> Result<Sent, Fault> {
        ensure(self.sessions.len() < MOST_SESSIONS, Fault::Full)?;
        self.sessions.insert(key, self.tick);
        let standing =
            self.buckets[usize::from(key.bucket)].standing(key.place).expect("sessions are opened where it stands");
        standing.open += 1;
        self.outcomes.note(Outcome::Opened);
        Ok(vec![(To::Table, inside.to_vec())])
    }

    // -- control messages

    fn stand(&mut self, bucket: u16, place: u32, before: Option<Link>) -> Result<(), Fault> {
        let bucket = &mut self.buckets[usize::from(bucket)];
        if place > bucket.highest {
            ensure(bucket.standing.len() < MOST_PLACES, Fault::PutOff)?;
            bucket.highest = place;
            bucket.standing.push(Standing { place, before, after: None, open: 0 });
            self.outcomes.note(Outcome::Stands);
            return Ok(());
        }
        if let Some(standing) = bucket.standing(place) {
            ensure(standing.before.is_none() || standing.before == before, Fault::Contradiction)?;
        }
        self.outcomes.note(Outcome::StandRepeated);
        Ok(())
    }

    fn behind_you(&mut self, bucket: u16, place: u32, after: Link) -> Result<(), Fault> {
        let bucket = &mut self.buckets[usize::from(bucket)];
        let outcome = if let Some(standing) = bucket.standing(place) {
            let was = standing.after.replace(after);
            if was.is_some_and(|was| was != after) {
                standing.after = was;
                return Err(Fault::Contradiction);
            }
            if was.is_some() { Outcome::BehindRepeated } else { Outcome::BehindWritten }
        } else if let Some(forgotten) = bucket.forgotten(place) {
            ensure(forgotten.after == after, Fault::Contradiction)?;
            Outcome::BehindOfForgotten
        } else {
            self.outcomes.note(Outcome::BehindDropped);
            return Err(Fault::UnknownPlace);
        };
        self.outcomes.note(outcome);
        Ok(())
    }

    /// *Forgotten p, a*: the place before a, if it is p, is no more.
    fn before_forgotten(&mut self, bucket: u16, place: u32, after: Link) -> Result<(), Fault> {
        if after.server != self.number {
            self.outcomes.note(Outcome::ForgottenOtherServer);
            return Err(Fault::UnknownPlace);
        }
        let bucket = &mut self.buckets[usize::from(bucket)];
        let outcome = if let Some(standing) = bucket.standing(after.place) {
            match standing.before {
                None => Outcome::NoneBefore,
                Some(before) if before.place == place => {
                    standing.before = None;
                    Outcome::BeforeCleared
                }
                Some(_) => return Err(Fault::Contradiction),
            }
        } else if bucket.forgotten(after.place).is_some() {
            Outcome::AfterForgottenSince
        } else if after.place <= bucket.highest {
            Outcome::AfterForgottenLongAgo
        } else {
            self.outcomes.note(Outcome::ForgottenDropped);
            return Err(Fault::UnknownPlace);
        };
        self.outcomes.note(outcome);
        Ok(())
    }

    // -- the end of a place

    /// Forgets a place if it is the oldest where this server stands, has none before it, one after it, and no
    /// session is open in it; the place after and the controller are told at once.
    fn forget_if_it_may_be(&mut self, number: u16, place: u32, sent: &mut Sent) {
        let bucket = &mut self.buckets[usize::from(number)];
        let after = match bucket.standing.first() {
            Some(&Standing { place: oldest, before: None, after: Some(after), open: 0 }) if oldest == place => after,
            _ => return,
        };
        bucket.standing.remove(0);
        bucket.forgotten.push_back(Remembered { place, after });
        if bucket.forgotten.len() > MOST_FORGOTTEN {
            bucket.forgotten.pop_front();
            self.outcomes.note(Outcome::ForgottenMemoryFull);
        }
        let farewell = Farewell { place, after, awaits_after: true, awaits_controller: true, age: 0 };
        farewell.say(number, sent);
        bucket.farewells.push_back(farewell);
        if bucket.farewells.len() > MOST_FAREWELLS {
            bucket.farewells.pop_front();
            self.outcomes.note(Outcome::FarewellsFull);
        }
        self.stood = self.tick;
        self.outcomes.note(Outcome::PlaceForgotten);
    }

    fn farewell_answered(&mut self, from: Machine, bucket: u16, place: u32, after: Link) {
        let farewells = &mut self.buckets[usize::from(bucket)].farewells;
        let found = farewells.iter_mut().position(|farewell| farewell.place == place && farewell.after == after);
        let Some(at) = found else {
            return self.outcomes.note(Outcome::FarewellAnswerIgnored);
        };
        let farewell = &mut farewells[at];
        if from == Machine::Controller {
            farewell.awaits_controller = false;
            self.outcomes.note(Outcome::FarewellAnsweredByController);
        } else if from == Machine::Server(after.server) {
            farewell.awaits_after = false;
            self.outcomes.note(Outcome::FarewellAnsweredByAfter);
        } else {
            self.outcomes.note(Outcome::FarewellAnswerIgnored);
        }
        if !farewell.awaits_after && !farewell.awaits_controller {
            farewells.remove(at);
            self.outcomes.note(Outcome::FarewellDone);
        }
    }

    // -- orders

    /// Closes the flow's session in the newest place where it is open.
    fn close(&mut self, flow: Flow, sent: &mut Sent) {
        let bucket = flow.bucket(self.buckets.len() as u32);
        let standing = &mut self.buckets[usize::from(bucket)].standing;
        for standing in standing.iter_mut().rev() {
            let place = standing.place;
            if self.sessions.remove(&SessionKey { bucket, place, flow }).is_some() {
                standing.open -= 1;
                self.outcomes.note(Outcome::ClosedByOrder);
                return self.forget_if_it_may_be(bucket, place, sent);
            }
        }
        self.outcomes.note(Outcome::NothingToClose);
    }

    /// First says again what is due, then closes the sessions that were idle for an hour.
    fn ticks(&mut self, ticks: u32, sent: &mut Sent) -> Result<(), Fault> {
        self.tick = self.tick.checked_add(u64::from(ticks)).ok_or(Fault::NotThere)?;
        self.outcomes.note(Outcome::ServerTicks);
        for (number, bucket) in (0..=u16::MAX).zip(&mut self.buckets) {
            for farewell in bucket.farewells.iter_mut().rev() {
                if passes(&mut farewell.age, ticks) {
                    farewell.say(number, sent);
                    self.outcomes.note(Outcome::FarewellSaidAgain);
                }
            }
        }
        self.close_idle(sent);
        if self.is_free() {
            self.outcomes.note(Outcome::ServerFree);
        }
        Ok(())
    }

    fn close_idle(&mut self, sent: &mut Sent) {
        if self.tick < HOUR {
            return;
        }
        let last_idle = self.tick - HOUR;
        let mut concerned = BTreeSet::new();
        self.sessions.retain(|key, last| {
            let stays = *last > last_idle;
            if !stays {
                let standing = self.buckets[usize::from(key.bucket)].standing(key.place).expect("open where it stands");
                standing.open -= 1;
                self.outcomes.note(Outcome::ClosedIdle);
                concerned.insert((key.bucket, key.place));
            }
            stays
        });
        for (bucket, place) in concerned {
            let before = sent.len();
            self.forget_if_it_may_be(bucket, place, sent);
            if sent.len() > before {
                self.outcomes.note(Outcome::ForgottenByIdle);
            }
        }
    }

    pub fn digest(&self) -> u64 {
        let mut sum = Fnv::new();
        sum.u8(self.number);
        for bucket in &self.buckets {
            sum.u32(bucket.highest);
            sum.u8(bucket.standing.len() as u8);
            for standing in bucket.standing.iter().rev() {
                sum.u32(standing.place);
                sum.link(standing.before);
                sum.link(standing.after);
            }
            sum.u8(bucket.forgotten.len() as u8);
            for forgotten in bucket.forgotten.iter().rev() {
                sum.u32(forgotten.place);
                sum.link(Some(forgotten.after));
            }
            sum.u8(bucket.farewells.len() as u8);
            for farewell in bucket.farewells.iter().rev() {
                sum.u32(farewell.place);
                sum.link(Some(farewell.after));
                sum.u8(u8::from(farewell.awaits_after));
                sum.u8(u8::from(farewell.awaits_controller));
                sum.u8(farewell.age);
            }
        }
        sum.u64(self.tick);
        sum.u64(self.stood);
        sum.u32(self.sessions.len() as u32);
        let session = |(key, last): (&SessionKey, &u64)| {
            let mut sum = Fnv::new();
            sum.u16(key.bucket);
            sum.u32(key.place);
            sum.u32(key.flow.src);
            sum.u32(key.flow.dst);
            sum.u16(key.flow.sport);
            sum.u16(key.flow.dport);
            sum.u8(key.flow.protocol);
            sum.u64(*last);
            sum.0
        };
        sum.u64(self.sessions.iter().map(session).fold(0, u64::wrapping_add));
        sum.0
    }
}

/// The same message 1 with place, way and who began to ask written anew, for the server of a place.
fn forwarded(bytes: &[u8], to: Link, way: Way) -> (To, Vec<u8>) {
    let mut bytes = bytes.to_vec();
    let (way, began) = match way {
        Way::Up => (1, Link { place: 0, server: 0 }),
        Way::Down(began) => (2, began),
        Way::Asked(began) => (3, began),
    };
    bytes[3..7].copy_from_slice(&to.place.to_be_bytes());
    bytes[7] = way;
    bytes[8..12].copy_from_slice(&began.place.to_be_bytes());
    bytes[12] = began.server;
    (To::Server(to.server), bytes)
}

/// Nobody has the session: a packet that may open goes to who began to ask, asked; another is refused.
fn nobody_has_it(bytes: &[u8], may_open: bool, began: Link) -> Result<(To, Vec<u8>), Fault> {
    ensure(may_open, Fault::NobodyHasIt)?;
    Ok(forwarded(bytes, began, Way::Asked(began)))
}

// ------------------------------------------------------------------------------------------------
// The controller

/// How far the handover of a bucket is; with the place that is being made.
#[derive(Clone, Copy, PartialEq, Eq, Debug)]
pub enum Handover {
    Idle,
    WaitsForStood(Link),
    WaitsForTold(Link),
}

#[derive(Clone, Debug)]
pub struct ControllerBucket {
    pub assigned: u8,
    /// From the oldest to the newest, never empty.
    pub chain: Vec<Link>,
    pub handover: Handover,
    /// Of the handover's message; 0 if there is none.
    pub age: u8,
    /// The balancers that have not answered that they heard of the newest place.
    pub untold: Vec<u16>,
    /// Of the messages to them; 0 if there are none.
    pub untold_age: u8,
    /// Whether the operator has heard that a handover is put off.
    pub reported: bool,
}

impl ControllerBucket {
    fn newest(&self) -> Link {
        *self.chain.last().expect("a chain is never empty")
    }

    /// The message that the handover waits to hear the answer of.
    fn say_handover(&self, bucket: u16, sent: &mut Sent) {
        let newest = self.newest();
        match self.handover {
            Handover::Idle => {}
            Handover::WaitsForStood(new) => {
                let stand = Control::Stand { bucket, place: new.place, before: Some(newest) };
                sent.push((To::Server(new.server), stand.message()));
            }
            Handover::WaitsForTold(new) => {
                let behind = Control::BehindYou { bucket, place: newest.place, after: new };
                sent.push((To::Server(newest.server), behind.message()));
            }
        }
    }

    /// The messages to the balancers that have not answered.
    fn say_doors(&self, bucket: u16, sent: &mut Sent) {
        let door = Control::Door { bucket, newest: self.newest() }.message();
        sent.extend(self.untold.iter().map(|&balancer| (To::Balancer(balancer), door.clone())));
    }
}

#[derive(Clone)]
pub struct Controller {
    /// In rising order.
    pub servers: Vec<u8>,
    pub balancers: u16,
    pub buckets: Vec<ControllerBucket>,
    /// The tick in which a server last left a chain.
    pub left: HashMap<u8, u64>,
    pub tick: u64,
    pub outcomes: Outcomes,
}

impl Controller {
    pub fn new(buckets: u32, balancers: u16, servers: &[u8]) -> Controller {
        let first = |server| ControllerBucket {
            assigned: server,
            chain: vec![Link { place: 1, server }],
            handover: Handover::Idle,
            age: 0,
            untold: vec![],
            untold_age: 0,
            reported: false,
        };
        let buckets = first_assignment(buckets, servers).into_iter().map(first).collect();
        let outcomes = Outcomes::default();
        Controller { servers: servers.to_vec(), balancers, buckets, left: HashMap::new(), tick: 0, outcomes }
    }

    /// Whether a server may be switched off, as far as the controller knows.
    pub fn is_parted(&self, server: u8) -> bool {
        let has_part = |bucket: &ControllerBucket| {
            let goes_to_it = match bucket.handover {
                Handover::Idle => false,
                Handover::WaitsForStood(new) | Handover::WaitsForTold(new) => new.server == server,
            };
            goes_to_it || bucket.chain.iter().any(|link| link.server == server)
        };
        let left = self.left.get(&server).copied().unwrap_or(0);
        !self.servers.contains(&server) && self.tick - left >= DAY && !self.buckets.iter().any(has_part)
    }

    pub fn hear(&mut self, from: Machine, bytes: &[u8]) -> Sent {
        let takes = |kind| match kind {
            KIND_ADD | KIND_REMOVE | KIND_TICKS => from == Machine::Operator,
            KIND_FORGOTTEN => from.is_machine(),
            kind => is_answer(kind) && kind != KIND_FORGOTTEN + ANSWER && from.is_machine(),
        };
        let (stepped, was_read) = match read(bytes, self.buckets.len() as u32, takes) {
            Ok(message) => (self.step(from, message), true),
            Err(ReadFault { fault, .. }) => (Err(fault), false),
        };
        stepped.unwrap_or_else(|fault| refuse(&mut self.outcomes, from, bytes, fault, was_read))
    }

    fn step(&mut self, from: Machine, message: Message) -> Result<Sent, Fault> {
        let mut sent = vec![];
        match message {
            Message::Control(Control::Forgotten { bucket, place, after }) => {
                self.forgotten(from, bucket, place, after, &mut sent)
            }
            Message::Answer(Control::Stand { bucket, place, .. }) => self.stood(bucket, place, &mut sent),
            Message::Answer(Control::BehindYou { bucket, place, after }) => self.told(bucket, place, after, &mut sent),
            Message::Answer(Control::Door { bucket, newest }) => self.door_heard(from, bucket, newest),
            Message::Order(Order::Add(server)) => self.add(server, &mut sent)?,
            Message::Order(Order::Remove(server)) => self.remove(server, &mut sent)?,
            Message::Order(Order::Ticks(ticks)) => self.ticks(ticks, &mut sent)?,
            other => unreachable!("the controller does not take {other:?}"),
        }
        Ok(sent)
    }

    // -- orders

    fn add(&mut self, server: u8, sent: &mut Sent) -> Result<(), Fault> {
        match self.servers.binary_search(&server) {
            Ok(_) if choices::ADDED_TWICE_IS_REFUSED => return Err(Fault::Contradiction),
            Ok(_) => return Ok(()),
            Err(at) => self.servers.insert(at, server),
        }
        self.outcomes.note(Outcome::ServerAdded);
        self.assign_anew(sent);
        Ok(())
    }

    fn remove(&mut self, server: u8, sent: &mut Sent) -> Result<(), Fault> {
        let at = self.servers.binary_search(&server).map_err(|_| Fault::NotThere)?;
        ensure(self.servers.len() > 1, Fault::NoServerLeft)?;
        self.servers.remove(at);
        self.outcomes.note(Outcome::ServerRemoved);
        self.assign_anew(sent);
        Ok(())
    }

    fn assign_anew(&mut self, sent: &mut Sent) {
        let now: Vec<_> = self.buckets.iter().map(|bucket| Some(bucket.assigned)).collect();
        for (number, server) in (0..=u16::MAX).zip(assign(&now, &self.servers)) {
            self.buckets[usize::from(number)].assigned = server;
            self.begin_handover_if_wanted(number, sent);
        }
    }

    fn ticks(&mut self, ticks: u32, sent: &mut Sent) -> Result<(), Fault> {
        self.tick = self.tick.checked_add(u64::from(ticks)).ok_or(Fault::NotThere)?;
        self.outcomes.note(Outcome::ControllerTicks);
        for (number, bucket) in (0..=u16::MAX).zip(&mut self.buckets) {
            if bucket.handover != Handover::Idle && passes(&mut bucket.age, ticks) {
                self.outcomes.note(Outcome::HandoverSaidAgain);
                bucket.say_handover(number, sent);
            }
            if !bucket.untold.is_empty() && passes(&mut bucket.untold_age, ticks) {
                self.outcomes.note(Outcome::DoorsSaidAgain);
                bucket.say_doors(number, sent);
            }
        }
        if self.left.keys().any(|&server| self.is_parted(server)) {
            self.outcomes.note(Outcome::ServerParted);
        }
        Ok(())
    }

    // -- handovers

    /// Begins a handover to the assigned server if none is in progress and the newest place is elsewhere; puts
    /// it off where there is no room for one more place, and says so once.
    fn begin_handover_if_wanted(&mut self, number: u16, sent: &mut Sent) {
        let bucket = &mut self.buckets[usize::from(number)];
        if bucket.handover != Handover::Idle {
            return;
        }
        let newest = bucket.newest();
        if newest.server == bucket.assigned {
            if bucket.reported {
                self.outcomes.note(Outcome::PutOffNotWanted);
            }
            bucket.reported &= !choices::REPORT_ENDS_WITH_THE_WISH;
            return;
        }
        if bucket.chain.len() >= MOST_PLACES || newest.place == u32::MAX {
            if bucket.reported {
                self.outcomes.note(Outcome::PutOffAgainSilent);
            } else {
                self.outcomes.note(Outcome::HandoverPutOff);
                sent.push((To::Operator, refusal(Fault::PutOff as u8, &number.to_be_bytes())));
            }
            bucket.reported = true;
            return;
        }
        if bucket.reported {
            self.outcomes.note(Outcome::PutOffEnded);
        }
        self.outcomes.note(Outcome::HandoverBegun);
        bucket.reported = false;
        bucket.handover = Handover::WaitsForStood(Link { place: newest.place + 1, server: bucket.assigned });
        bucket.age = 0;
        bucket.say_handover(number, sent);
    }

    /// Answer 34: if it is for the place that is waited for, the newest is told of the one after it.
    fn stood(&mut self, number: u16, place: u32, sent: &mut Sent) {
        let bucket = &mut self.buckets[usize::from(number)];
        match bucket.handover {
            Handover::WaitsForStood(new) if new.place == place => {
                self.outcomes.note(Outcome::HandoverStood);
                bucket.handover = Handover::WaitsForTold(new);
                bucket.age = 0;
                bucket.say_handover(number, sent);
            }
            _ => self.outcomes.note(Outcome::StoodLate),
        }
    }

    /// Answer 35: if it is of the newest and names the new place, the handover is done and the balancers are
    /// told; the next one may begin.
    fn told(&mut self, number: u16, place: u32, after: Link, sent: &mut Sent) {
        let bucket = &mut self.buckets[usize::from(number)];
        if bucket.handover != Handover::WaitsForTold(after) || bucket.newest().place != place {
            return self.outcomes.note(Outcome::ToldLate);
        }
        self.outcomes.note(Outcome::HandoverDone);
        bucket.chain.push(after);
        bucket.handover = Handover::Idle;
        bucket.age = 0;
        bucket.untold = (0..self.balancers).collect();
        bucket.untold_age = 0;
        bucket.say_doors(number, sent);
        self.begin_handover_if_wanted(number, sent);
    }

    /// Answer 36: a balancer that has heard of the newest place is told no more.
    fn door_heard(&mut self, from: Machine, number: u16, newest: Link) {
        let bucket = &mut self.buckets[usize::from(number)];
        let heard = match from {
            Machine::Balancer(balancer) if newest == bucket.newest() => {
                bucket.untold.iter().position(|&untold| untold == balancer)
            }
            _ => None,
        };
        let Some(at) = heard else {
            return self.outcomes.note(Outcome::BalancerLate);
        };
        self.outcomes.note(Outcome::BalancerTold);
        if choices::UNTOLD_STAY_IN_ORDER {
            bucket.untold.remove(at);
        } else {
            bucket.untold.swap_remove(at);
        }
        if bucket.untold.is_empty() {
            bucket.untold_age = 0;
        }
    }

    /// *Forgotten p*: every place up to p leaves the chain, if a newer one is in it.
    fn forgotten(&mut self, from: Machine, number: u16, place: u32, after: Link, sent: &mut Sent) {
        let bucket = &mut self.buckets[usize::from(number)];
        if bucket.newest().place <= place {
            return self.outcomes.note(Outcome::ForgottenNotYet);
        }
        let leave = bucket.chain.iter().take_while(|link| link.place <= place).count();
        self.outcomes.note(if leave > 0 { Outcome::ChainShortened } else { Outcome::ForgottenAgain });
        for link in bucket.chain.drain(..leave) {
            self.left.insert(link.server, self.tick);
        }
        sent.push((from.into(), Control::Forgotten { bucket: number, place, after }.answer()));
        self.begin_handover_if_wanted(number, sent);
    }

    pub fn digest(&self) -> u64 {
        let mut sum = Fnv::new();
        sum.u16(self.servers.len() as u16);
        for server in &self.servers {
            sum.u8(*server);
        }
        for bucket in &self.buckets {
            sum.u8(bucket.assigned);
            sum.u8(bucket.chain.len() as u8);
            for link in bucket.chain.iter().rev() {
                sum.link(Some(*link));
            }
            let (handover, new) = match bucket.handover {
                Handover::Idle => (0, None),
                Handover::WaitsForStood(new) => (1, Some(new)),
                Handover::WaitsForTold(new) => (2, Some(new)),
            };
            sum.u8(handover);
            sum.link(new);
            // An age counts only while something waits.
            sum.u8(if handover == 0 { 0 } else { bucket.age });
            sum.u16(bucket.untold.len() as u16);
            for balancer in &bucket.untold {
                sum.u16(*balancer);
            }
            sum.u8(if bucket.untold.is_empty() { 0 } else { bucket.untold_age });
            sum.u8(u8::from(bucket.reported));
        }
        sum.u64(self.tick);
        sum.0
    }
}

// ------------------------------------------------------------------------------------------------
// Digests and scripts

/// FNV-1a with 64 bits, numbers with the high byte first.
struct Fnv(u64);

impl Fnv {
    fn new() -> Fnv {
        Fnv(0xcbf2_9ce4_8422_2325)
    }

    fn bytes(&mut self, bytes: &[u8]) {
        for byte in bytes {
            self.0 = (self.0 ^ u64::from(*byte)).wrapping_mul(0x0000_0100_0000_01b3);
        }
    }

    fn u8(&mut self, number: u8) {
        self.bytes(&[number]);
    }

    fn u16(&mut self, number: u16) {
        self.bytes(&number.to_be_bytes());
    }

    fn u32(&mut self, number: u32) {
        self.bytes(&number.to_be_bytes());
    }

    fn u64(&mut self, number: u64) {
        self.bytes(&number.to_be_bytes());
    }

    /// A link, or zeros for none.
    fn link(&mut self, link: Option<Link>) {
        let Link { place, server } = link.unwrap_or(Link { place: 0, server: 0 });
        self.u32(place);
        self.u8(server);
    }
}

/// One machine of whichever kind.
#[derive(Clone)]
pub enum Any {
    Balancer(Balancer),
    Server(Server),
    Controller(Controller),
}

impl Any {
    pub fn new(header: &Header) -> Any {
        match header.kind {
            1 => Any::Balancer(Balancer::new(header.buckets, &header.servers)),
            2 => Any::Server(Server::new(header.number, header.buckets, &header.servers)),
            3 => Any::Controller(Controller::new(header.buckets, header.balancers, &header.servers)),
            kind => panic!("no kind of machine: {kind}"),
        }
    }

    pub fn hear(&mut self, from: Machine, bytes: &[u8]) -> Sent {
        match self {
            Any::Balancer(balancer) => balancer.hear(from, bytes),
            Any::Server(server) => server.hear(from, bytes),
            Any::Controller(controller) => controller.hear(from, bytes),
        }
    }

    pub fn digest(&self) -> u64 {
        match self {
            Any::Balancer(balancer) => balancer.digest(),
            Any::Server(server) => server.digest(),
            Any::Controller(controller) => controller.digest(),
        }
    }

    pub fn outcomes(&self) -> &Outcomes {
        match self {
            Any::Balancer(balancer) => &balancer.outcomes,
            Any::Server(server) => &server.outcomes,
            Any::Controller(controller) => &controller.outcomes,
        }
    }
}

/// The head of a script: which machine plays it.
#[derive(Clone, PartialEq, Eq, Debug)]
pub struct Header {
    /// 1 balancer, 2 server, 3 controller.
    pub kind: u8,
    /// Of the server.
    pub number: u8,
    pub buckets: u32,
    pub balancers: u16,
    pub servers: Vec<u8>,
}

#[derive(Clone, Copy, PartialEq, Eq, Debug)]
pub enum Step<'a> {
    Hear(Machine, &'a [u8]),
    Digest,
}

const DIGEST: u8 = 255;

impl Header {
    pub fn bytes(&self) -> Vec<u8> {
        let mut bytes = vec![self.kind, self.number];
        bytes.extend(self.buckets.to_be_bytes());
        bytes.extend(self.balancers.to_be_bytes());
        bytes.extend((self.servers.len() as u16).to_be_bytes());
        bytes.extend(&self.servers);
        bytes
    }
}

impl Step<'_> {
    pub fn put(&self, script: &mut Vec<u8>) {
        match *self {
            Step::Digest => script.push(DIGEST),
            Step::Hear(from, bytes) => {
                let (kind, number) = match from {
                    Machine::Client => (0, 0),
                    Machine::Operator => (1, 0),
                    Machine::Balancer(number) => (2, number),
                    Machine::Server(number) => (3, u16::from(number)),
                    Machine::Controller => (4, 0),
                };
                script.push(kind);
                script.extend(number.to_be_bytes());
                script.extend((bytes.len() as u32).to_be_bytes());
                script.extend(bytes);
            }
        }
    }
}

/// Reads a script's head; gives what stands behind it.
pub fn read_header(script: &[u8]) -> Option<(Header, &[u8])> {
    let (head, rest) = script.split_first_chunk::<10>()?;
    let [kind, number, b0, b1, b2, b3, d0, d1, s0, s1] = *head;
    let (servers, rest) = rest.split_at_checked(usize::from(u16::from_be_bytes([s0, s1])))?;
    let buckets = u32::from_be_bytes([b0, b1, b2, b3]);
    let balancers = u16::from_be_bytes([d0, d1]);
    Some((Header { kind, number, buckets, balancers, servers: servers.to_vec() }, rest))
}

/// Reads a script's next step; gives what stands behind it.
pub fn read_step(script: &[u8]) -> Option<(Step<'_>, &[u8])> {
    if script.first() == Some(&DIGEST) {
        return Some((Step::Digest, &script[1..]));
    }
    let (head, rest) = script.split_first_chunk::<7>()?;
    let [kind, n0, n1, l0, l1, l2, l3] = *head;
    let (bytes, rest) = rest.split_at_checked(u32::from_be_bytes([l0, l1, l2, l3]) as usize)?;
    let from = match kind {
        0 => Machine::Client,
        1 => Machine::Operator,
        2 => Machine::Balancer(u16::from_be_bytes([n0, n1])),
        3 => Machine::Server(n1),
        4 => Machine::Controller,
        _ => return None,
    };
    Some((Step::Hear(from, bytes), rest))
}

/// Writes what a step sent: the count, and each message with whom it is for.
pub fn put_sent(sent: &Sent, out: &mut Vec<u8>) {
    out.extend((sent.len() as u16).to_be_bytes());
    for (to, bytes) in sent {
        let (kind, number) = match *to {
            To::Client => (0, 0),
            To::Operator => (1, 0),
            To::Balancer(number) => (2, number),
            To::Server(number) => (3, u16::from(number)),
            To::Controller => (4, 0),
            To::Table => (5, 0),
        };
        out.push(kind);
        out.extend(number.to_be_bytes());
        out.extend((bytes.len() as u32).to_be_bytes());
        out.extend(bytes);
    }
}

/// Plays a script: what each step sends, and the digests that it asks for.
pub fn play(script: &[u8]) -> Vec<u8> {
    let mut out = vec![];
    play_into(script, &mut out);
    out
}

/// Plays a script; its output is added to `out`. Gives the machine as it is at the end.
pub fn play_into(script: &[u8], out: &mut Vec<u8>) -> Any {
    let (header, mut rest) = read_header(script).expect("a script's head");
    let mut machine = Any::new(&header);
    while let Some((step, next)) = read_step(rest) {
        match step {
            Step::Hear(from, bytes) => put_sent(&machine.hear(from, bytes), out),
            Step::Digest => out.extend(machine.digest().to_be_bytes()),
        }
        rest = next;
    }
    assert!(rest.is_empty(), "a script ends with a step");
    machine
}
