#!/usr/bin/env python3
"""Runs the real programs against each other over a bad network, and checks from the outside what they promise.

An office, houses and doors run as processes of their own. Every line that one of them prints for another goes through a
network that loses, repeats, delays and reorders from a seed, and cuts machines off for a while. Houses come and go while
sessions are open; their processes go on running. One process is fed at a time and all of its answer is read before the
next is, so a seed is one run.

    python3 tests/soak.py [--seed N] [--steps N] [--loss P] [--repeat P] [--late P] [--flows FILE] ..

Checked of every line: a session is open in one house at a time; a packet whose session was open when it came to a door is
not refused, unless that session was closed since; no packet is given where no session is open, unless it may open one; a
packet is refused for a reason that can be, and comes out as it went in; no machine refuses what another says. Then the
network gets well, and it is checked that all fall silent, that every open session gets its packets by every door, that all
fall silent again when all sessions are closed, that new ones are then opened in listed houses by the shortest way, and that
each program ends well.
The programs are taken from KEHMALGI_BIN, target/bin where that is not set. Status 1 where something was not kept.
"""
import argparse
import heapq
import os
import random
import signal
import struct
import subprocess
import sys
import time
from collections import Counter, defaultdict
from pathlib import Path

ROOT = Path(__file__).resolve().parent.parent
sys.path.insert(0, str(ROOT / "examples" / "udp"))
import packets  # noqa: E402

PROGRAMS = Path(os.environ.get("KEHMALGI_BIN", ROOT / "target" / "bin"))
CLIENT, OPERATOR, CONTROLLER = "client", "order", "office"
HOUR = 921_600  # ticks without a packet that close a session
AGAIN = 16  # ticks after which what is not answered is said again
LISTED_FIRST = (0, 1, 2)
PACKET, STAND, BEHIND, NEWS, FORGOTTEN, REFUSED, CLOSE, ADD, REMOVE, TICKS = range(1, 11)
NAMES = {STAND: "stand", BEHIND: "behind you", NEWS: "door", FORGOTTEN: "forgotten"}
WAYS = {1: "up", 2: "down", 3: "asked"}
NOBODY, SERVER_FULL, PUT_OFF = 0, 7, 10
SHORTEST_OPENING = 2  # messages: up from the balancer to the only place, which asks nobody but itself


def server(number):
    return f"house {number}"


def balancer(number):
    return f"door {number}"


class Violation(Exception):
    """A promise that was not kept; `subject` is the flow or the bucket that it is about, if it is about one."""

    def __init__(self, what, subject=None):
        super().__init__(what)
        self.subject = subject


class Program:
    """One machine as a process: a line goes in, the lines that it answers come out."""

    # No machine can read this line, so each answers it with a fault, behind all that it said before.
    MARKER = "?"

    def __init__(self, name, settings):
        self.name = name
        self.ticks = 0
        self.lines = 0
        self.slowest = 0.0
        self.process = subprocess.Popen([PROGRAMS / name.split()[0]], stdin=subprocess.PIPE, stdout=subprocess.PIPE, text=True)
        self.feed(settings + ["run"])
        self.slowest = 0.0  # what it takes to start is no answer

    def feed(self, lines):
        """Hands the lines over, and gives back all that is answered to them."""
        began = time.monotonic()
        self.lines += len(lines) + 1
        end = f"line {self.lines}: fault 1:"
        answers = []
        try:
            self.process.stdin.write("\n".join(lines + [self.MARKER]) + "\n")
            self.process.stdin.flush()
            while not (answer := self.read()).startswith(end):
                answers.append(answer)
        except BrokenPipeError:
            raise Violation(f"{self.name} ended at the line {lines[0]!r}") from None
        self.slowest = max(self.slowest, time.monotonic() - began)
        return answers

    def read(self):
        answer = self.process.stdout.readline()
        if not answer:
            raise Violation(f"{self.name} ended with status {self.process.wait()}")
        return answer.rstrip("\n")

    def end(self):
        """Its input ends, and so does it."""
        self.process.stdin.close()
        if self.process.wait() != 0:
            raise Violation(f"{self.name} ended with status {self.process.returncode}")

    def stop(self):
        if self.process.poll() is None:
            self.process.kill()
            self.process.wait()


class Network:
    """Messages on their way, each with the step at which it comes."""

    # A copy is late as often as not: what it says was true once, and servers have come and gone since.
    LATE_COPIES = 0.5

    def __init__(self, rng, loss, repeat, late):
        self.rng = rng
        self.loss, self.repeat, self.late = loss, repeat, late
        self.cut_until = {}
        self.now = 0
        self.queue = []
        self.sent = 0
        self.lost = 0
        self.repeated = 0

    def post(self, message):
        """Lost, or on its way once or more. True if it is on its way."""
        self.sent += 1
        if self.is_cut(message) or self.rng.random() < self.loss:
            self.lost += 1
            return False
        self.enqueue(message, self.late)
        while self.rng.random() < self.repeat:
            self.repeated += 1
            self.enqueue(message, self.LATE_COPIES)
        return True

    def cut_off(self, name, steps):
        """Nothing comes from or to this machine for so many steps."""
        self.cut_until[name] = self.now + steps

    def is_cut(self, message):
        sender, receiver, _ = message
        return max(self.cut_until.get(sender, 0), self.cut_until.get(receiver, 0)) > self.now

    def enqueue(self, message, late):
        # Equal delays are told apart by a random number, so that no order is kept.
        heapq.heappush(self.queue, (self.now + self.delay(late), self.rng.random(), message))

    def delay(self, late):
        """A few steps mostly; some are so late that servers come and go in between."""
        if self.rng.random() < late:
            return self.rng.randint(50, 3000)
        return self.rng.choice((0, 0, 0, 0, 1, 2, 5, 10))

    def next_due(self):
        if self.queue and self.queue[0][0] <= self.now:
            return heapq.heappop(self.queue)[2]
        return None

    def become_good(self):
        """From now on nothing is lost, repeated or late; what is on its way comes in the order of its steps."""
        self.loss = self.repeat = self.late = 0
        self.cut_until.clear()
        if self.queue:
            self.now = max(due for due, _, _ in self.queue)


class Session:
    """A session as it is seen from the outside."""

    def __init__(self, number):
        self.server = number
        self.last_packet = 0
        self.is_open = True


class Sessions:
    """What is known of all sessions by the lines that went in and came out, and whether that is as promised."""

    def __init__(self):
        self.open = {}
        self.came = {}  # by a packet's number: its bytes, and the session that was open when it came to a balancer, or None
        self.given = set()
        self.refused = Counter()
        self.handed_out = 0
        self.opened = 0
        self.closed_by_order = 0
        self.closed_idle = 0

    def packet_comes(self, data):
        self.came[packets.number_of(data)] = (data, self.open.get(packets.flow_of(data)))

    def session_when_it_came(self, data):
        """Every packet that comes out went in, with the same bytes."""
        sent, session = self.came.get(packets.number_of(data), (None, None))
        if sent != data:
            raise Violation(f"a packet comes out that did not go in: {data.hex()}", packets.flow_of(data))
        return session

    def packet_is_given(self, number, ticks, data):
        """A server gave a packet to a session: it is open there, or is opened by that."""
        flow = packets.flow_of(data)
        self.session_when_it_came(data)
        session = self.open.get(flow)
        self.handed_out += 1
        self.given.add(packets.number_of(data))
        if session is None:
            session = self.opens(number, flow, data)
        if session.server != number:
            raise Violation(f"open in house {session.server} and in house {number}", flow)
        session.last_packet = ticks

    def opens(self, number, flow, data):
        if not packets.may_open(data):
            raise Violation(f"a packet that may not open a session is given in house {number}, and none was open", flow)
        self.opened += 1
        self.open[flow] = Session(number)
        return self.open[flow]

    def packet_is_refused(self, reason, data):
        flow, number = packets.flow_of(data), packets.number_of(data)
        self.refused[reason] += 1
        session = self.session_when_it_came(data)
        if session is not None and session.is_open:
            raise Violation(f"packet {number} is refused with {reason}, and its session is open in house {session.server}", flow)
        if reason != (SERVER_FULL if packets.may_open(data) else NOBODY):
            raise Violation(f"packet {number} is refused with {reason}, for which there is no cause", flow)

    def close(self, flow):
        self.open.pop(flow).is_open = False

    def order_closes(self, number, flow):
        """True if the order to this server closes a session."""
        if flow not in self.open or self.open[flow].server != number:
            return False
        self.close(flow)
        self.closed_by_order += 1
        return True

    def ticks_pass(self, number, ticks):
        """Closes what has been without packets for an hour by the server's own clock, and says which."""
        idle = [flow for flow, session in self.open.items() if session.server == number and ticks - session.last_packet >= HOUR]
        for flow in idle:
            self.close(flow)
        self.closed_idle += len(idle)
        return idle


class Handovers:
    """Handovers as they are seen in what the controller says."""

    def __init__(self):
        self.begun = {}
        self.done = set()
        self.put_off = 0
        self.longest = 0
        self.ticks = 0

    def ticks_pass(self, count):
        # What is due is said once in an order of ticks, so a longer one counts as no more than this.
        self.ticks += min(count, AGAIN)

    def said(self, kind, bucket, place):
        if kind == STAND:
            self.begun.setdefault((bucket, place), self.ticks)
        elif kind == NEWS and (bucket, place) not in self.done:
            if (bucket, place) not in self.begun:
                raise Violation(f"the doors are told of place {place}, in which nobody was told to stand", bucket)
            self.done.add((bucket, place))
            self.longest = max(self.longest, self.ticks - self.begun[bucket, place])


class History:
    """What happened, by flow and by bucket, to be printed if a promise is not kept."""

    def __init__(self):
        self.events = defaultdict(list)
        self.bucket_of = {}

    def note(self, subject, line, text):
        # The number in the middle keeps the order of what one line brought about.
        self.events[subject].append((line, len(self.events[subject]), text))

    def of(self, subject):
        """The events of a bucket, or of a flow and its bucket, in their order."""
        events = heapq.merge(self.events[subject], self.events[self.bucket_of.get(subject)])
        return [f"{line:7}  {text}" for line, _, text in events]


class Soak:
    """All machines, the network between them, and what is done with them from the outside."""

    def __init__(self, options):
        self.options = options
        self.rng = random.Random(options.seed)
        self.network = Network(self.rng, options.loss, options.repeat, options.late)
        self.sessions = Sessions()
        self.handovers = Handovers()
        self.history = History()
        self.flows = read_flows(options.flows) if options.flows else make_flows(self.rng, options.flow_count)
        self.listed = set(LISTED_FIRST)
        self.programs = {}
        self.packet_count = 0
        self.lines = 0

    # THE MACHINES

    def start(self):
        common = [f"buckets {self.options.buckets}", "houses " + " ".join(map(str, LISTED_FIRST))]
        doors = [f"doors {self.options.doors}"]
        self.programs[CONTROLLER] = Program(CONTROLLER, common + doors)
        for number in range(self.options.doors):
            self.programs[balancer(number)] = Program(balancer(number), common + doors + [f"door {number}"])
        for number in LISTED_FIRST:
            self.start_server(number)

    def start_server(self, number):
        """A server that is added later gets the same settings: it stands nowhere at first."""
        settings = [f"buckets {self.options.buckets}", "houses " + " ".join(map(str, LISTED_FIRST)), f"house {number}"]
        self.programs[server(number)] = Program(server(number), settings)

    def hand(self, sender, receiver, data):
        """Hands a message to a machine, and sends on what comes of it."""
        program = self.programs.get(receiver)
        if program is None:
            raise Violation(f"{sender} speaks to {receiver}, which is not there: {data.hex()}")
        self.lines += 1
        for answer in program.feed([f"{sender} {data.hex()}"]):
            self.route(program, *read_answer(program.name, answer))

    def route(self, program, receiver, data):
        if receiver == "table":
            self.note_packet(data, f"given in {program.name}")
            self.sessions.packet_is_given(int(program.name.split()[1]), program.ticks, data)
        elif receiver == CLIENT:
            self.hear_refusal(program, data)
        elif receiver == OPERATOR:
            self.hear_report(program, data)
        elif data[0] == REFUSED:
            raise Violation(f"{program.name} refuses what {receiver} said: {data.hex()}", int.from_bytes(data[5:7], "big"))
        elif data[0] % 32 not in (PACKET, *NAMES):
            raise Violation(f"{program.name} sends to {receiver} what is no message: {data.hex()}")
        else:
            on_its_way = self.network.post((program.name, receiver, data))
            self.note_message(program, receiver, data, "" if on_its_way else ", lost")

    def hear_refusal(self, program, data):
        reason, packet = data[1], data[4:]
        if data[0] != REFUSED or packet[0] != 0x45:
            raise Violation(f"{program.name} sends to a client what is no packet: {data.hex()}")
        self.note_packet(packet, f"refused with {reason} by {program.name}")
        self.sessions.packet_is_refused(reason, packet)

    def hear_report(self, program, data):
        if data[:2] != bytes((REFUSED, PUT_OFF)):
            raise Violation(f"{program.name} refuses an order: {data.hex()}")
        self.handovers.put_off += 1

    # WHAT IS SEEN

    def note(self, subject, text):
        self.history.note(subject, self.lines, text)

    def note_packet(self, data, text):
        flow = packets.flow_of(data)
        self.note(flow, f"packet {packets.number_of(data)} {text}")

    def note_message(self, program, receiver, data, fate):
        kind, bucket, place = struct.unpack_from(">BHI", data)
        if kind == PACKET:
            packet = data[16:]
            self.history.bucket_of[packets.flow_of(packet)] = bucket
            self.note_packet(packet, f"{program.name} to {receiver}: {WAYS[data[7]]} at place {place}{fate}")
            return
        text = f"{'answer to ' if kind > 32 else ''}{NAMES[kind % 32]} {place}"
        self.note(bucket, f"bucket {bucket} {program.name} to {receiver}: {text}{fate}")
        if program.name == CONTROLLER:
            self.handovers.said(kind, bucket, place)

    # WHAT IS DONE

    def order(self, receiver, data):
        self.hand(OPERATOR, receiver, data)

    def deliver(self):
        """All that is due comes, and what comes of that and is due at once."""
        while message := self.network.next_due():
            self.hand(*message)

    def send_packet(self, flow, opens, doors):
        """A packet of the flow comes; by more than one balancer if a client says it again."""
        self.packet_count += 1
        data = packets.packet(flow, self.packet_count, opens)
        self.sessions.packet_comes(data)
        for door in doors:
            self.note_packet(data, f"comes by {balancer(door)}{', may open' if packets.may_open(data) else ''}")
            self.hand(CLIENT, balancer(door), data)

    def send_any_packet(self):
        flow = self.rng.choice(self.flows)
        opens = self.rng.random() < (0.1 if flow in self.sessions.open else 0.8)
        doors = self.rng.sample(range(self.options.doors), 2 if self.options.doors > 1 and self.rng.random() < 0.1 else 1)
        self.send_packet(flow, opens, doors)

    def pass_ticks(self, most):
        """Ticks pass in all machines, in any order, and not equally many: no machine relies on another's clock."""
        for name in self.rng.sample(sorted(self.programs), len(self.programs)):
            self.pass_ticks_in(name, self.rng.randint(1, most))

    def pass_ticks_in(self, name, count):
        program = self.programs[name]
        program.ticks += count
        if name == CONTROLLER:
            self.handovers.ticks_pass(count)
        if name.startswith("house"):
            for flow in self.sessions.ticks_pass(int(name.split()[1]), program.ticks):
                self.note(flow, f"closed in {name}: no packet for an hour")
        self.order(name, struct.pack(">BI", TICKS, count))

    def close_any_session(self):
        """Mostly where it is open; an order to another server must change nothing."""
        if not self.sessions.open:
            return
        flow = self.rng.choice(sorted(self.sessions.open))
        if self.rng.random() < 0.9:
            self.close_session(self.sessions.open[flow].server, flow)
        else:
            self.close_session(self.rng.choice(self.servers()), flow)

    def close_session(self, number, flow):
        closes = self.sessions.order_closes(number, flow)
        self.note(flow, f"order to close it in house {number}{'' if closes else ': not open there'}")
        self.order(server(number), bytes((CLOSE,)) + flow.bytes())

    def servers(self):
        return sorted(int(name.split()[1]) for name in self.programs if name.startswith("house"))

    def add_or_remove_server(self):
        unlisted = [number for number in range(self.options.houses) if number not in self.listed]
        if unlisted and (len(self.listed) == 1 or self.rng.random() < 0.5):
            self.add_server(self.rng.choice(unlisted))
        elif len(self.listed) > 1:
            self.remove_server(self.rng.choice(sorted(self.listed)))

    def add_server(self, number):
        if server(number) not in self.programs:
            self.start_server(number)
        self.listed.add(number)
        self.order(CONTROLLER, bytes((ADD, number)))

    def remove_server(self, number):
        """Its process goes on running: it has sessions, and its memory is needed if it comes back."""
        self.listed.remove(number)
        self.order(CONTROLLER, bytes((REMOVE, number)))

    # THE RUN

    def step(self):
        self.network.now += 1
        chance = self.rng.random()
        if chance < 0.85:
            self.send_any_packet()
        elif chance < 0.93:
            self.pass_ticks(AGAIN)
        elif chance < 0.99:
            self.close_any_session()
        elif chance < 0.996:
            self.add_or_remove_server()
        elif chance < 0.998:
            self.network.cut_off(self.rng.choice(sorted(self.programs)), self.rng.randint(20, 400))
        else:
            self.pass_quiet_hour()
        self.deliver()

    def pass_quiet_hour(self):
        """So few packets come that some sessions have none for an hour, and others have."""
        for _ in range(3):
            self.pass_ticks(HOUR // 2)
            for _ in range(20):
                self.send_any_packet()
            self.deliver()

    def calm_down(self):
        """Nothing is lost any more: all that is not answered is said again until the machines are silent."""
        self.network.become_good()
        self.deliver()
        for _ in range(200):
            sent = self.network.sent
            for name in sorted(self.programs):
                self.pass_ticks_in(name, AGAIN)
            self.advance()
            if self.network.sent == sent:
                return
        raise Violation("the machines do not come to rest, and nothing is lost")

    def advance(self):
        """All that is on its way comes, and all that comes of it."""
        while self.network.queue:
            self.network.now = self.network.queue[0][0]
            self.deliver()

    def check_open_sessions(self):
        """Every open session gets a packet by every balancer, at once."""
        for flow in sorted(self.sessions.open):
            for door in range(self.options.doors):
                self.send_packet(flow, False, [door])
                self.advance()
                if self.packet_count not in self.sessions.given:
                    raise Violation(f"packet {self.packet_count} is not given, and nothing was lost", flow)

    def close_all_sessions(self):
        for flow in sorted(self.sessions.open):
            self.close_session(self.sessions.open[flow].server, flow)

    def check_new_sessions(self):
        """With all of the old closed, each bucket has one place, at a listed server, and each balancer knows it."""
        for flow in self.flows:
            sent = self.network.sent
            self.send_packet(flow, True, [self.rng.randrange(self.options.doors)])
            self.advance()
            self.check_new_session(flow, self.network.sent - sent)

    def check_new_session(self, flow, messages):
        session = self.sessions.open.get(flow)
        if session is None:
            raise Violation("a packet that may open opened no session, and nothing was lost", flow)
        if session.server not in self.listed:
            raise Violation(f"opened in house {session.server}, which is not listed", flow)
        if messages != SHORTEST_OPENING:
            raise Violation(f"a first packet took {messages} messages: an old place is not forgotten, or a door has not heard of the new", flow)

    def run(self):
        self.start()
        for _ in range(self.options.steps):
            self.step()
        self.calm_down()
        self.check_open_sessions()
        self.close_all_sessions()
        self.calm_down()
        self.check_new_sessions()
        for program in self.programs.values():
            program.end()

    def stop(self):
        for program in self.programs.values():
            program.stop()

    def summary(self, seconds):
        refused = self.sessions.refused
        slowest = max((program.slowest for program in self.programs.values()), default=0)
        return "\n".join((
            f"seed {self.options.seed}: {len(self.programs)} processes, {self.lines} lines in {seconds:.1f} s, the longest answer in {slowest * 1000:.1f} ms",
            f"packets {self.packet_count} of {len(self.flows)} flows: given {self.sessions.handed_out}, refused {sum(refused.values())}"
            + "".join(f", {count} with {reason}" for reason, count in sorted(refused.items())),
            f"sessions opened {self.sessions.opened}, closed by order {self.sessions.closed_by_order}, idle {self.sessions.closed_idle}",
            f"messages {self.network.sent}: lost on purpose {self.network.lost}, repeated {self.network.repeated}",
            f"handovers {len(self.handovers.done)}, put off {self.handovers.put_off}, the longest {self.handovers.longest} ticks",
        ))


def read_answer(name, line):
    """Who gets the bytes, and the bytes."""
    receiver, _, digits = line.rpartition(" ")
    try:
        return receiver, bytes.fromhex(digits)
    except ValueError:
        raise Violation(f"{name} prints a line that is no message: {line}") from None


def make_flows(rng, count):
    """Flows of many clients to a few services, half of them TCP."""
    flows = set()
    while len(flows) < count:
        source, destination = 0x0A000000 + rng.randrange(1 << 16), 0x0A640001 + rng.randrange(4)
        protocol = rng.choice((packets.TCP, packets.UDP))
        flows.add(packets.Flow(source, destination, rng.randint(1024, 65535), 4000, protocol))
    return sorted(flows)


def read_flows(path):
    """One flow to a line, as `hall` writes them: 10.0.0.7:4242>10.1.1.1:80/tcp."""
    return sorted({packets.read_flow(line.strip()) for line in Path(path).read_text().splitlines() if line.strip()})


def read_options():
    parser = argparse.ArgumentParser(description="Runs door, house and office over a bad network, and checks what they promise.")
    parser.add_argument("--seed", type=int, default=1, help="where all chance begins")
    parser.add_argument("--steps", type=int, default=6000, help="how many packets, orders and ticks come from outside")
    parser.add_argument("--loss", type=float, default=0.1, help="the part of messages that is lost")
    parser.add_argument("--repeat", type=float, default=0.1, help="the part of messages that comes again, half of them hundreds of steps later")
    parser.add_argument("--late", type=float, default=0.02, help="the part of messages that comes hundreds of steps late")
    parser.add_argument("--buckets", type=int, default=16)
    parser.add_argument("--doors", type=int, default=2)
    parser.add_argument("--houses", type=int, default=6, help="how many houses there are, listed or not")
    parser.add_argument("--flow-count", type=int, default=200, help="how many flows are made up")
    parser.add_argument("--flows", metavar="FILE", help="recorded flows instead, one to a line: 10.0.0.7:4242>10.1.1.1:80/tcp")
    parser.add_argument("--runs", type=int, default=3, help="so many runs, each with the seed after the last")
    parser.add_argument("--limit", type=int, default=58, help="seconds after which a run that hangs is ended")
    return parser.parse_args()


def out_of_time(*_):
    raise Violation("the run takes too long: a process does not answer, or --steps is too high for --limit")


def report(soak, violation, seconds):
    """What is printed of a run, behind the history of what was not kept."""
    if violation is None:
        print(f"{soak.summary(seconds)}\nall promises were kept", flush=True)
        return
    for event in soak.history.of(violation.subject):
        print(event)
    flow = f", {violation.subject}" if isinstance(violation.subject, packets.Flow) else ""
    print(f"{soak.summary(seconds)}\nNOT KEPT at line {soak.lines}{flow}: {violation}", flush=True)


def run_once(options):
    """True if all promises were kept."""
    soak = Soak(options)
    violation = None
    began = time.monotonic()
    signal.alarm(options.limit)
    try:
        soak.run()
    except Violation as seen:
        violation = seen
    finally:
        signal.alarm(0)
        soak.stop()
    report(soak, violation, time.monotonic() - began)
    return violation is None


def main():
    options = read_options()
    missing = [name for name in ("door", "house", "office") if not (PROGRAMS / name).exists()]
    if missing:
        print(f"not in {PROGRAMS}: {', '.join(missing)}; `make programs` builds them", file=sys.stderr)
        return 2
    signal.signal(signal.SIGALRM, out_of_time)
    kept = True
    for seed in range(options.seed, options.seed + options.runs):
        options.seed = seed
        kept = run_once(options) and kept
    return 0 if kept else 1


if __name__ == "__main__":
    sys.exit(main())
