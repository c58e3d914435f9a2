//! Document 01, rule 8 and S as request 1 of document 02 has them, and requests 2 to 4, in the slowest and most literal
//! words: signed numbers, nested loops, all lists tried. For tiny sets, single slots and short tables only; it shares
//! nothing with the library but the records.

use second::{Delivered, Flow, Refusal, Set, Slot, State, Transmission};

pub fn c(flow: &Flow) -> i64 {
    (i64::from(flow.nodes) - 1) * i64::from(flow.tries)
}

/// Which of the faults 4 to 9 a flow has, in the words of the table; 8 is a node equal to its neighbour.
pub fn faults(t: i64, d: i64, tries: i64, route: &[i64]) -> Vec<u8> {
    let rules = [
        (4, t == 0),
        (5, d == 0 || d > t),
        (6, !(1..=4).contains(&tries)),
        (7, !(2..=17).contains(&route.len())),
        (8, (1..route.len()).any(|i| route[i] == route[i - 1])),
        (9, (route.len() as i64 - 1) * tries > d),
    ];
    rules.iter().filter(|rule| rule.1).map(|rule| rule.0).collect()
}

/// The refusal of a record, number and line: the map's line, then each flow's, then the 65th flow's. A route has as many
/// nodes as the record says; the array holds 17 of them, and with more than these it is 7 whatever they are.
pub fn refusal(set: &Set) -> (u8, usize) {
    if set.map == 0 {
        return (2, 1);
    }
    for (k, flow) in set.flows.iter().enumerate().take(set.count.into()) {
        let route: Vec<i64> =
            (0..flow.nodes.into()).map(|i| flow.route.get(i).map_or(0, |&node| node.into())).collect();
        let found = faults(flow.period.into(), flow.deadline.into(), flow.tries.into(), &route);
        if let Some(&lowest) = found.iter().min() {
            return (lowest, k + 2);
        }
    }
    if set.count > 64 {
        (3, 66)
    } else {
        (0, 0)
    }
}

/// The refusal of a text, number, line and field: each line with its LF, and split at its tabs whatever stands in it.
pub fn refusal_of_text(text: &[u8]) -> Refusal {
    if text.is_empty() {
        return Refusal::in_field(1, 1, 0);
    }
    for (before, line) in text.split_inclusive(|&byte| byte == b'\n').enumerate() {
        let (number, field) = fault_of_line(before, line);
        if number != 0 {
            return Refusal::in_field(number, before + 1, field);
        }
    }
    Refusal::NONE
}

/// The lowest fault of a line, behind so many others, and its field; 0 where it has none.
fn fault_of_line(before: usize, line: &[u8]) -> (u8, usize) {
    let fields: Vec<&[u8]> = line.strip_suffix(b"\n").unwrap_or(line).split(|&byte| byte == b'\t').collect();
    let numbers: Vec<Option<i64>> =
        fields.iter().map(|field| std::str::from_utf8(field).ok().and_then(number)).collect();
    for place in 0..fields.len() {
        let bad = match (before, place) {
            (0, 0) => fields[place] != b"set",
            (_, 0) => fields[place] != b"flow",
            (0, 2..) => true,
            _ => numbers[place].is_none(),
        };
        if bad {
            return (1, place + 1);
        }
    }
    let few = if before == 0 { 2 } else { 5 };
    if line.last() != Some(&b'\n') || fields.len() < few {
        return (1, 0);
    }
    let numbers: Vec<i64> = numbers.into_iter().skip(1).flatten().collect();
    match before {
        0 if numbers[0] == 0 => (2, 2),
        0 => (0, 0),
        65.. => (3, 1),
        _ => fault_of_numbers(&numbers),
    }
}

/// The lowest of 4 to 9 that a flow's numbers have, and its field; for 8 that of the first node that equals the one before.
fn fault_of_numbers(numbers: &[i64]) -> (u8, usize) {
    let found = faults(numbers[0], numbers[1], numbers[3], &numbers[4..]);
    match found.iter().min() {
        None => (0, 0),
        Some(4) => (4, 2),
        Some(5) => (5, 3),
        Some(6) => (6, 5),
        Some(8) => (8, 2 + (5..numbers.len()).find(|&i| numbers[i] == numbers[i - 1]).unwrap()),
        Some(&other) => (other, 0),
    }
}

/// S: κ of l times the number of l's links that have an end on k's route; a link counts once for each place it has.
pub fn s(k: &Flow, l: &Flow) -> i64 {
    let mut links = 0;
    for place in 0..usize::from(l.nodes) - 1 {
        let mut touches = false;
        for node in &k.route[..usize::from(k.nodes)] {
            touches |= l.route[place] == *node || l.route[place + 1] == *node;
        }
        links += i64::from(touches);
    }
    i64::from(l.tries) * links
}

pub fn deadlines(set: &Set) -> Vec<i64> {
    set.used().iter().map(|flow| i64::from(flow.deadline)).collect()
}

/// A set with S of every pair, which all lists share.
pub struct Equation<'a> {
    set: &'a Set,
    s: Vec<Vec<i64>>,
}

impl Equation<'_> {
    pub fn of(set: &Set) -> Equation<'_> {
        let flows = set.used();
        Equation { set, s: flows.iter().map(|k| flows.iter().map(|l| s(k, l)).collect()).collect() }
    }

    /// The equation's value of flow k at a list.
    pub fn value(&self, k: usize, v: &[i64]) -> i64 {
        let flows = self.set.used();
        let (mut whole, mut conflict) = (0, 0);
        for (l, flow) in flows.iter().enumerate() {
            if l == k {
                continue;
            }
            let q = i64::from(flows[k].deadline) / i64::from(flow.period);
            let r = i64::from(flows[k].deadline) % i64::from(flow.period);
            let r = (r - (i64::from(flow.deadline) - v[l])).max(0);
            whole += q * c(flow) + c(flow).min(r);
            conflict += q * self.s[k][l] + self.s[k][l].min(r);
        }
        c(&flows[k]) + conflict + (whole - conflict) / i64::from(self.set.map.count_ones())
    }

    pub fn values(&self, v: &[i64]) -> Vec<i64> {
        (0..v.len()).map(|k| self.value(k, v)).collect()
    }

    /// The rounds as document 01 runs them: the list they end with, and their number.
    pub fn rounds(&self) -> (Vec<i64>, u32) {
        let mut v = deadlines(self.set);
        let mut rounds = 0;
        loop {
            let before = v.clone();
            for k in 0..v.len() {
                v[k] = v[k].min(self.value(k, &v));
            }
            rounds += 1;
            if v == before {
                return (v, rounds);
            }
        }
    }

    /// The greatest list by trying them all: every list whose every entry is the smaller of the deadline and the
    /// equation's value at that list, and of those the largest, place by place. None where no list is the largest.
    pub fn greatest(&self) -> Option<Vec<i64>> {
        let deadlines = deadlines(self.set);
        let mut found: Vec<Vec<i64>> = Vec::new();
        let mut v = vec![0; deadlines.len()];
        loop {
            if (0..v.len()).all(|k| v[k] == deadlines[k].min(self.value(k, &v))) {
                found.push(v.clone());
            }
            let Some(place) = (0..v.len()).find(|&k| v[k] < deadlines[k]) else { break };
            v[..place].fill(0);
            v[place] += 1;
        }
        let largest = |one: &Vec<i64>| found.iter().all(|other| other.iter().zip(one).all(|(o, v)| o <= v));
        found.iter().find(|one| largest(one)).cloned()
    }
}

/// Request 4: the bound of each flow and whether it is judged. n is counted up until its periods reach D of k + bound of l − 1.
pub fn fixed(set: &Set) -> Vec<(i64, bool)> {
    let (flows, m) = (set.used(), i64::from(set.map.count_ones()));
    let (mut answer, mut over): (Vec<(i64, bool)>, bool) = (Vec::new(), false);
    for k in flows {
        if over {
            answer.push((0, false));
            continue;
        }
        let (mut whole, mut conflict) = (0, 0);
        for (l, &(bound, _)) in flows.iter().zip(&answer) {
            let (wanted, period) = (i64::from(k.deadline) + bound - 1, i64::from(l.period));
            let mut n = 0;
            while n * period < wanted {
                n += 1;
            }
            whole += n * c(l);
            conflict += n * s(k, l);
        }
        let bound = c(k) + conflict + (whole - conflict) / m;
        over = bound > i64::from(k.deadline);
        answer.push((bound, true));
    }
    answer
}

/// One flow's latest packet in a slot.
struct Packet {
    flow: usize,
    release: i64,
    deadline: i64,
    had: i64,
}

/// Rules 1 and 2: the latest packet of each flow that has one.
fn packets(set: &Set, state: &State) -> Vec<Packet> {
    let t = i64::from(state.slot);
    let mut packets = Vec::new();
    for (k, flow) in set.used().iter().enumerate() {
        let (start, period) = (i64::from(flow.start), i64::from(flow.period));
        if t >= start {
            let release = start + (t - start) / period * period;
            let had = if t == release { 0 } else { i64::from(state.sent[k]) };
            packets.push(Packet { flow: k, release, deadline: release + i64::from(flow.deadline), had });
        }
    }
    packets
}

/// A slot of a good set from a good state: the next state, and what the slot does.
pub fn slot(set: &Set, state: &State) -> (State, Slot) {
    slot_by(set, state, |packet| (packet.deadline, packet.flow))
}

/// The same by fixed priority: "differs only in rule 4's order".
pub fn fixed_slot(set: &Set, state: &State) -> (State, Slot) {
    slot_by(set, state, |packet| (0, packet.flow))
}

/// The same with this order of rule 4, lowest first.
fn slot_by(set: &Set, state: &State, order: fn(&Packet) -> (i64, usize)) -> (State, Slot) {
    let (t, flows, packets) = (i64::from(state.slot), set.used(), packets(set, state));
    let channels: Vec<u8> = (0..16).filter(|bit| set.map & 1 << bit != 0).map(|bit| 11 + bit).collect();
    let (mut next, mut slot) = (*state, Slot::default());
    next.slot += 1;
    packets.iter().for_each(|packet| next.sent[packet.flow] = packet.had as u8);
    let is_ready = |packet: &&Packet| t < packet.deadline && packet.had < c(&flows[packet.flow]);
    let mut ready: Vec<&Packet> = packets.iter().filter(is_ready).collect();
    ready.sort_by_key(|packet| order(packet));
    for packet in &ready {
        let (flow, tries) = (&flows[packet.flow], i64::from(flows[packet.flow].tries));
        let link = (packet.had / tries) as usize;
        let (from, to) = (flow.route[link], flow.route[link + 1]);
        let apart = |other: &Transmission| [from, to].iter().all(|node| *node != other.from && *node != other.to);
        if slot.sends.len() < channels.len() && slot.sends.iter().all(apart) {
            let offset = slot.sends.len();
            let channel = channels[(t as usize + offset) % channels.len()];
            let attempt = (packet.had % tries) as u8;
            slot.sends.push(Transmission { flow: packet.flow as u8, from, to, attempt, offset: offset as u8, channel });
            next.sent[packet.flow] += 1;
        }
    }
    for packet in packets.iter().filter(is_ready) {
        if i64::from(next.sent[packet.flow]) == c(&flows[packet.flow]) {
            slot.delivered.push(Delivered { flow: packet.flow as u8, delay: (t - packet.release + 1) as u16 });
        } else if t + 1 == packet.deadline {
            slot.dropped.push(packet.flow as u8);
        }
    }
    (next, slot)
}

/// The hyper-period: the first number from 1 on that every period divides; none where that is above 65,536.
pub fn hyper(set: &Set) -> Option<i64> {
    (1..=65_536).find(|x| set.used().iter().all(|flow| x % i64::from(flow.period) == 0))
}

/// The rows of the first slots of a good set whose starts are all 0: a transmission's number is how many the flow has had
/// since its latest multiple of T.
pub fn rows(set: &Set, slots: i64) -> Vec<[i64; 4]> {
    let (mut rows, mut state): (Vec<[i64; 4]>, State) = (Vec::new(), State::FRESH);
    for t in 0..slots {
        let (next, slot) = slot(set, &state);
        for sent in &slot.sends {
            let flow = i64::from(sent.flow);
            let release = t - t % i64::from(set.flows[usize::from(sent.flow)].period);
            let had = rows.iter().filter(|row| row[1] == flow && row[0] >= release).count();
            rows.push([t, flow, had as i64, sent.offset.into()]);
        }
        state = next;
    }
    rows
}

/// The rows of a table's lines, or the first line that lacks its form or is not above the one before it by slot, then
/// offset.
pub fn rows_of_lines(text: &[u8]) -> Result<Vec<[i64; 4]>, usize> {
    let mut rows: Vec<[i64; 4]> = Vec::new();
    for (i, line) in text.split_inclusive(|&byte| byte == b'\n').enumerate() {
        let row = row_of_line(line).ok_or(i + 1)?;
        if rows.last().is_some_and(|last| row[0] < last[0] || row[0] == last[0] && row[3] <= last[3]) {
            return Err(i + 1);
        }
        rows.push(row);
    }
    Ok(rows)
}

/// A line of four numbers: each is what its value is written as, and at most 65,535.
fn row_of_line(line: &[u8]) -> Option<[i64; 4]> {
    let body = std::str::from_utf8(line).ok()?.strip_suffix('\n')?;
    let numbers: Option<Vec<i64>> = body.split('\t').map(number).collect();
    numbers?.try_into().ok()
}

fn number(field: &str) -> Option<i64> {
    let value: i64 = field.parse().ok()?;
    (value.to_string() == field && (0..=65_535).contains(&value)).then_some(value)
}
