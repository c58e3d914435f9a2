//! Document 02, request 2, the superframe: the hyper-period, the table of one hyper-period, what refuses it, and what a
//! device that repeats the table sends in a slot. A table's lines stand in [`table`](crate::table).

use crate::check::check;
use crate::delay::Planner;
use crate::machine::{Machine, Slot, Transmission};
use crate::plan::{refused, MOST_BYTES};
use crate::read::read;
use crate::record::{Refusal, Set, State, FIRST_CHANNEL};
use crate::slip;
use crate::table::{lines_of, ROW};

/// The longest hyper-period that is loaded.
pub const MOST_SLOTS: u32 = 65_536;

/// What is answered of a superframe: how many slots and how many numbers its table has; zeros where refused.
#[derive(Clone, Copy, Debug, Default, PartialEq, Eq)]
pub struct Superframe {
    /// The set's own refusal, then 14, 15, 16 and, where a table is lent, 10.
    pub refusal: Refusal,
    /// The hyper-period.
    pub hyper: u32,
    /// How many numbers the table has, four a transmission.
    pub numbers: usize,
}

impl Superframe {
    fn refused(refusal: Refusal) -> Superframe {
        Superframe { refusal, ..Superframe::default() }
    }
}

/// How long the table of any record is.
pub fn superframe_size(set: &Set) -> Superframe {
    judged(set, check(set), size_of)
}

/// The table of any record at the head of a lent one, whose further numbers stay. Refused, it changes nothing.
pub fn superframe(set: &Set, table: &mut [u16]) -> Superframe {
    judged(set, check(set), |set| load(set, table))
}

/// How long the table of a text is: the reader's refusals come first.
pub fn superframe_size_of_text(text: &[u8]) -> Superframe {
    let read = read(text);
    judged(&read.set, read.refusal, size_of)
}

/// The table of a text at the head of a lent one.
pub fn superframe_of_text(text: &[u8], table: &mut [u16]) -> Superframe {
    let read = read(text);
    judged(&read.set, read.refusal, |set| load(set, table))
}

/// The set's own refusal, or what is answered of a good set.
fn judged(set: &Set, refusal: Refusal, answer: impl FnOnce(&Set) -> Superframe) -> Superframe {
    if refusal.refuses() {
        return Superframe::refused(refusal);
    }
    answer(set)
}

/// Of a good set: 14, 15, 16, or how long its table is. No packet of an admitted set is dropped, so each of the
/// hyper-period's makes its C transmissions.
fn size_of(set: &Set) -> Superframe {
    let verdict = Planner::prepared(set).delays().verdict();
    if !verdict.basic && !verdict.tightened {
        return Superframe::refused(Refusal::at(14, 0));
    }
    if set.used().iter().any(|flow| flow.start != 0) {
        return Superframe::refused(Refusal::at(15, 0));
    }
    let Some(hyper) = hyper(set) else {
        return Superframe::refused(Refusal::at(16, 0));
    };
    let rows: u32 = set.used().iter().map(|flow| hyper / u32::from(flow.period) * flow.c()).sum();
    Superframe { refusal: Refusal::NONE, hyper, numbers: ROW * rows as usize }
}

/// Of a good set: its table into a lent one, or 10 where that is too short.
fn load(set: &Set, table: &mut [u16]) -> Superframe {
    let size = size_of(set);
    if size.refusal.refuses() {
        return size;
    }
    let Some(table) = table.get_mut(..size.numbers) else {
        return Superframe::refused(Refusal::at(10, 0));
    };
    let mut places = table.chunks_exact_mut(ROW);
    each_row::<{ slip::NONE }>(set, size.hyper, |row| {
        if let Some(place) = places.next() {
            place.copy_from_slice(&row);
        }
    });
    size
}

/// The least common multiple of the periods of a good set, 1 with no flows; none where it is above 65,536, and the search
/// ends there: it can be astronomical.
pub fn hyper(set: &Set) -> Option<u32> {
    hyper_with::<{ slip::NONE }>(set)
}

/// The same with one of the wrong rules put in for the tests of the tests.
pub fn hyper_with<const SLIP: u8>(set: &Set) -> Option<u32> {
    let mut hyper = 1;
    for flow in set.used() {
        let period = u32::from(flow.period);
        let common = if SLIP == slip::PRODUCT { 1 } else { divisor(hyper, period) };
        // 65,536 times 65,535 is below 2³²
        hyper = hyper / common * period;
        if hyper > MOST_SLOTS {
            return None;
        }
    }
    Some(hyper)
}

/// The greatest common divisor, by Euclid.
fn divisor(mut a: u32, mut b: u32) -> u32 {
    while b != 0 {
        (a, b) = (b, a % b);
    }
    a
}

/// The table of so many slots of a good set, from the fresh state, whatever the tests say; at most 65,536 slots.
pub fn table_of<const SLIP: u8>(set: &Set, slots: u32) -> Vec<u16> {
    let mut table = Vec::new();
    each_row::<SLIP>(set, slots, |row| table.extend_from_slice(&row));
    table
}

/// Each transmission of these slots: slot, flow, transmission number, offset. The number is what the packet had before,
/// one less than its count now.
fn each_row<const SLIP: u8>(set: &Set, slots: u32, mut row: impl FnMut([u16; ROW])) {
    let (mut machine, mut state, mut slot) = (Machine::prepared(set, 0), State::FRESH, Slot::new());
    for t in 0..slots {
        machine.step(&mut state, &mut slot);
        for sent in &slot.sends {
            let number = state.sent[usize::from(sent.flow)] - 1;
            let number = if SLIP == slip::TRY_FOR_NUMBER { sent.attempt } else { number };
            row([t as u16, sent.flow.into(), number.into(), sent.offset.into()]);
        }
    }
}

/// What a device that was loaded with the table sends in slot t: the rows at t mod hyper-period, each over the link and
/// with the try of its number, on the channel of the true slot.
pub fn sends_by_table<const SLIP: u8>(set: &Set, table: &[u16], hyper: u32, t: u32) -> Vec<Transmission> {
    let place = (t % hyper) as u16;
    let by = if SLIP == slip::TABLE_CHANNEL { t % hyper } else { t };
    let sent = |row: &[u16]| {
        let flow = &set.flows[usize::from(row[1])];
        let link = usize::from(row[2] / flow.tries);
        Transmission {
            flow: row[1] as u8,
            from: flow.route[link],
            to: flow.route[link + 1],
            attempt: (row[2] % flow.tries) as u8,
            offset: row[3] as u8,
            channel: channel(set.map.into(), by, row[3].into()) as u8,
        }
    };
    let rows = table[first_row(table, place)..].chunks_exact(ROW);
    rows.take_while(|row| row[0] == place).map(sent).collect()
}

/// Where the first row of a slot or of a later one stands in a rising table.
fn first_row(table: &[u16], slot: u16) -> usize {
    let (mut low, mut high) = (0, table.len() / ROW);
    while low < high {
        let middle = low.midpoint(high);
        if table[ROW * middle] < slot {
            low = middle + 1;
        } else {
            high = middle;
        }
    }
    ROW * low
}

/// The radio channel of an offset in a slot: the one at place (slot + offset) mod m among the map's channels in rising
/// order; 0 for a map without channels, and for a number that is no map.
pub fn channel(map: u32, slot: u32, offset: u32) -> u32 {
    let channels: Vec<u32> =
        (0..16).filter(|bit| map >> bit & 1 == 1).map(|bit| u32::from(FIRST_CHANNEL) + bit).collect();
    if map > u32::from(u16::MAX) || channels.is_empty() {
        return 0;
    }
    channels[((u64::from(slot) + u64::from(offset)) % channels.len() as u64) as usize]
}

/// What the program `superframe` prints for an input: the lines of its table, or one line with the refusal.
pub fn superframe_text(input: &[u8]) -> Vec<u8> {
    if input.len() > MOST_BYTES {
        return refused(Refusal::at(10, 0));
    }
    let read = read(input);
    let size = judged(&read.set, read.refusal, size_of);
    if size.refusal.refuses() {
        return refused(size.refusal);
    }
    lines_of(&table_of::<{ slip::NONE }>(&read.set, size.hyper))
}
