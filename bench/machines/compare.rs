//! Plays random scripts by the reference and, with `--cfg proved`, by the proved machines
//! (`play_machine` of the static library `machinesc`), and reports the first difference of each script that
//! has one. Without the cfg it only plays the reference. Prints how often each outcome occurred.
//!
//!     compare [first seed] [how many] [nothing|heads|everything]
#[path = "reference.rs"]
mod reference;
#[path = "scripts.rs"]
mod scripts;

use reference::*;
use scripts::Damage;
use std::collections::HashSet;

#[cfg(proved)]
unsafe extern "C" {
    // The allocator that the function takes first has no bytes, so nothing is passed for it.
    fn play_machine(script: *const u8, script_len: usize, out: *mut u8, out_len: usize) -> usize;
}

/// What the proved machine writes for a script; `room` is how much it may.
#[cfg(proved)]
fn play_proved(script: &[u8], room: usize) -> Option<Vec<u8>> {
    let mut out = vec![0; room];
    let written = unsafe { play_machine(script.as_ptr(), script.len(), out.as_mut_ptr(), out.len()) };
    out.truncate(written);
    Some(out)
}

#[cfg(not(proved))]
fn play_proved(_script: &[u8], _room: usize) -> Option<Vec<u8>> {
    None
}

fn main() {
    let arguments: Vec<String> = std::env::args().skip(1).collect();
    let number =
        |at: usize, otherwise: u64| arguments.get(at).map_or(otherwise, |text| text.parse().expect("a number"));
    let (first, count) = (number(0, 0), number(1, 400));
    let damage = match arguments.get(2).map(String::as_str) {
        Some("nothing") => Damage::Nothing,
        Some("heads") => Damage::Heads,
        None | Some("everything") => Damage::Everything,
        Some(other) => panic!("no such damage: {other}"),
    };

    let mut outcomes = Outcomes::default();
    let (mut steps, mut bytes, mut different) = (0, 0, 0);
    let seeds = (first..first + count).map(Some).chain([None]);
    for seed in seeds {
        let (name, script) = match seed {
            Some(seed) => (format!("seed {seed}"), scripts::script(seed, damage)),
            None => ("the full server".to_string(), scripts::full_server()),
        };
        let mut by_reference = vec![];
        let machine = play_into(&script, &mut by_reference);
        outcomes.add(machine.outcomes());
        steps += count_steps(&script);
        bytes += by_reference.len();
        let by_proved = play_proved(&script, 2 * by_reference.len() + 1_000_000);
        if let Some(report) = by_proved.and_then(|by_proved| first_difference(&script, &by_proved)) {
            different += 1;
            if different <= 5 {
                println!("{name}: {report}");
            }
        }
    }

    println!(
        "{count} scripts from seed {first} and the full server, damage {damage:?}: {steps} steps, {bytes} bytes of output"
    );
    if cfg!(proved) {
        println!("{different} differ");
    } else {
        println!("played by the reference alone");
    }
    println!("how often each outcome occurred:");
    for line in OUTCOMES.chunks(3) {
        let line: String = line
            .iter()
            .map(|&outcome| format!("{:>9}  {:<30}", outcomes.of(outcome), format!("{outcome:?}")))
            .collect();
        println!("{}", line.trim_end());
    }
    let never: Vec<_> = OUTCOMES.iter().filter(|&&outcome| outcomes.of(outcome) == 0).collect();
    if !never.is_empty() {
        println!("never: {never:?}");
    }
    std::process::exit(i32::from(different > 0));
}

fn count_steps(script: &[u8]) -> usize {
    let (_, mut rest) = read_header(script).expect("a script's head");
    let mut steps = 0;
    while let Some((_, next)) = read_step(rest) {
        steps += 1;
        rest = next;
    }
    steps
}

// ------------------------------------------------------------------------------------------------
// Differences

/// The first step whose output is not what the reference says, in words.
fn first_difference(script: &[u8], mut by_proved: &[u8]) -> Option<String> {
    let (header, mut rest) = read_header(script).expect("a script's head");
    let mut machine = Any::new(&header);
    let mut number = 0;
    let mut history: Vec<String> = vec![];
    while let Some((step, next)) = read_step(rest) {
        let here = |what: String, history: &[String]| {
            let kind = ["", "balancer", "server", "controller"][usize::from(header.kind)];
            let earlier = history.iter().rev().take(8).rev().map(|line| format!("      {line}\n")).collect::<String>();
            Some(format!(
                "{kind} {} with {} buckets, {} balancers, servers {:?}\n    before:\n{earlier}    step {number}: {}\n{what}",
                header.number,
                header.buckets,
                header.balancers,
                header.servers,
                describe_step(&step, header.buckets)
            ))
        };
        match step {
            Step::Digest => {
                let expected = machine.digest();
                let Some((digest, behind)) = by_proved.split_first_chunk::<8>() else {
                    return here("    the proved machine's output ends here".to_string(), &history);
                };
                let digest = u64::from_be_bytes(*digest);
                if digest != expected {
                    let what = format!(
                        "    reference: {expected:016x}\n    proved:    {digest:016x}\n    the reference's state:\n{}",
                        describe_state(&machine)
                    );
                    return here(what, &history);
                }
                by_proved = behind;
            }
            Step::Hear(from, bytes) => {
                let due = due_places(&machine, bytes);
                let expected = machine.hear(from, bytes);
                let Some((sent, behind)) = take_sent(by_proved) else {
                    let what = format!(
                        "    reference: {}\n    proved: output that ends or isn't well-formed",
                        describe_sent(&expected, 0, header.buckets)
                    );
                    return here(what, &history);
                };
                if !same_sent(&expected, &sent, due.as_ref()) {
                    return here(describe_both(&expected, &sent, header.buckets), &history);
                }
                by_proved = behind;
            }
        }
        history.push(format!("{number}: {}", describe_step(&step, header.buckets)));
        number += 1;
        rest = next;
    }
    (!by_proved.is_empty()).then(|| format!("{} bytes more than the reference wrote", by_proved.len()))
}

/// For ticks at a server: the forgotten places whose farewells were there before. What is said of others
/// comes from idle sessions, in any order.
fn due_places(machine: &Any, bytes: &[u8]) -> Option<HashSet<(u16, u32)>> {
    match machine {
        Any::Server(server) if bytes.first() == Some(&KIND_TICKS) => {
            let buckets = (0..=u16::MAX).zip(&server.buckets);
            Some(
                buckets
                    .flat_map(|(number, bucket)| bucket.farewells.iter().map(move |farewell| (number, farewell.place)))
                    .collect(),
            )
        }
        _ => None,
    }
}

fn same_sent(expected: &Sent, sent: &Sent, due: Option<&HashSet<(u16, u32)>>) -> bool {
    let Some(due) = due else {
        return expected == sent;
    };
    let is_due = |(_, bytes): &&(To, Vec<u8>)| match bytes[..] {
        [KIND_FORGOTTEN, b0, b1, p0, p1, p2, p3, ..] => {
            due.contains(&(u16::from_be_bytes([b0, b1]), u32::from_be_bytes([p0, p1, p2, p3])))
        }
        _ => false,
    };
    let split = |sent: &Sent| {
        let count = sent.iter().take_while(is_due).count();
        let mut idle = sent[count..].to_vec();
        idle.sort();
        (sent[..count].to_vec(), idle)
    };
    split(expected) == split(sent)
}

fn take_sent(mut out: &[u8]) -> Option<(Sent, &[u8])> {
    let (count, rest) = out.split_first_chunk::<2>()?;
    out = rest;
    let mut sent = vec![];
    for _ in 0..u16::from_be_bytes(*count) {
        let (head, rest) = out.split_first_chunk::<7>()?;
        let [kind, n0, n1, l0, l1, l2, l3] = *head;
        let (bytes, rest) = rest.split_at_checked(u32::from_be_bytes([l0, l1, l2, l3]) as usize)?;
        let to = match kind {
            0 => To::Client,
            1 => To::Operator,
            2 => To::Balancer(u16::from_be_bytes([n0, n1])),
            3 => To::Server(n1),
            4 => To::Controller,
            5 => To::Table,
            _ => return None,
        };
        sent.push((to, bytes.to_vec()));
        out = rest;
    }
    Some((sent, out))
}

// ------------------------------------------------------------------------------------------------
// In words

fn describe_step(step: &Step, buckets: u32) -> String {
    match step {
        Step::Digest => "digest".to_string(),
        Step::Hear(from, bytes) => format!("from {from:?}: {}", describe(bytes, buckets)),
    }
}

/// What was sent, from a message on; at most a dozen.
fn describe_sent(sent: &Sent, first: usize, buckets: u32) -> String {
    let mut lines = format!("{} sent", sent.len());
    for (at, (to, bytes)) in sent.iter().enumerate().skip(first).take(12) {
        lines += &format!("\n      {at}: to {to:?}: {}", describe(bytes, buckets));
    }
    if sent.len() > first + 12 {
        lines += "\n      ..";
    }
    lines
}

fn describe_both(expected: &Sent, sent: &Sent, buckets: u32) -> String {
    let first = expected.iter().zip(sent).take_while(|(expected, sent)| expected == sent).count();
    let alike = if first > 0 { format!(" (the first {first} are alike)") } else { String::new() };
    format!(
        "    reference{alike}: {}\n    proved: {}",
        describe_sent(expected, first, buckets),
        describe_sent(sent, first, buckets)
    )
}

fn describe(bytes: &[u8], buckets: u32) -> String {
    let hex: String = bytes.iter().take(64).map(|byte| format!("{byte:02x}")).collect();
    let dots = if bytes.len() > 64 { ".." } else { "" };
    let words = match read(bytes, buckets, |kind| matches!(kind, 1..=5 | 7..=10 | 34..=37)) {
        Ok(Message::Packet(packet)) => {
            format!(
                "packet, bucket {}, place {}, {:?}, may open {}, {}",
                packet.bucket,
                packet.place,
                packet.way,
                packet.may_open,
                describe_flow(&packet.flow)
            )
        }
        Ok(message) => format!("{message:?}"),
        Err(_) if bytes.first() == Some(&KIND_REFUSED) && bytes.len() >= 4 => {
            return format!("refused {} [{}]", bytes[1], describe(&bytes[4..], buckets));
        }
        Err(read_fault) => match read_packet(bytes) {
            Ok((flow, may_open)) => format!("raw packet, may open {may_open}, {}", describe_flow(&flow)),
            Err(_) => format!("{} bytes, read as a message: {:?}", bytes.len(), read_fault.fault),
        },
    };
    format!("{words} ({hex}{dots})")
}

fn describe_flow(flow: &Flow) -> String {
    format!("flow {:08x}:{} to {:08x}:{} by {}", flow.src, flow.sport, flow.dst, flow.dport, flow.protocol)
}

/// The buckets of a machine that are not as at the start, a line each.
fn describe_state(machine: &Any) -> String {
    let mut lines = vec![];
    match machine {
        Any::Balancer(balancer) => {
            for (number, link) in balancer.links.iter().enumerate().filter(|(_, link)| link.place != 1) {
                lines.push(format!("bucket {number}: {link:?}"));
            }
        }
        Any::Server(server) => {
            lines.push(format!("tick {}, stood {}, {} sessions", server.tick, server.stood, server.sessions.len()));
            for (number, bucket) in server.buckets.iter().enumerate() {
                if bucket.highest > 1
                    || bucket.standing.iter().any(|standing| standing.open > 0 || standing.after.is_some())
                    || !bucket.forgotten.is_empty()
                {
                    lines.push(format!("bucket {number}: {bucket:?}"));
                }
            }
        }
        Any::Controller(controller) => {
            lines.push(format!("tick {}, servers {:?}", controller.tick, controller.servers));
            for (number, bucket) in controller.buckets.iter().enumerate() {
                lines.push(format!("bucket {number}: {bucket:?}"));
            }
        }
    }
    lines.iter().take(24).map(|line| format!("      {line}\n")).collect()
}
