//! Document 01, "The flow set": the records, their limits, and what makes two sets the same.

/// Most flows of a set.
pub const MOST_FLOWS: usize = 64;
/// Most nodes of a route, one more than its most links.
pub const MOST_NODES: usize = 17;
/// The IEEE 802.15.4 channel that bit 0 of a channel map stands for.
pub const FIRST_CHANNEL: u8 = 11;
/// The slot at which no step is made any more.
pub const LAST_SLOT: u32 = 4_000_000_000;

/// How many refusal numbers there are, with 0 for none: document 01 has 1 to 13, the documents after it 14 to 19.
/// Whatever counts refusals has as many places.
pub const REFUSALS: usize = 20;
/// The last refusal number that is made so far: request 2 of document 02 has 14 to 16.
pub const LAST_MADE: usize = 16;

/// A refusal: its number in document 01's table, the line it names and the field of that line; all 0 where nothing is
/// refused.
#[derive(Clone, Copy, Debug, Default, PartialEq, Eq, Hash, PartialOrd, Ord)]
pub struct Refusal {
    /// 1 to 19, or 0 for none.
    pub number: u8,
    /// The line counted from 1, in a text of any length; 0 for refusals 10 to 16.
    pub line: usize,
    /// The field counted from 1, in a line of any length; 0 where none is named. Only the reader of a set names one.
    pub field: usize,
}

impl Refusal {
    /// Nothing is refused.
    pub const NONE: Refusal = Refusal::at(0, 0);

    /// The refusal of this number at this line, which names no field.
    pub const fn at(number: u8, line: usize) -> Refusal {
        Refusal::in_field(number, line, 0)
    }

    /// The refusal of this number at this line and field.
    pub const fn in_field(number: u8, line: usize, field: usize) -> Refusal {
        Refusal { number, line, field }
    }

    /// Whether something is refused.
    pub fn refuses(self) -> bool {
        self.number != 0
    }
}

/// One flow of a record, any value in any field.
#[derive(Clone, Copy, Debug, Default, PartialEq, Eq)]
pub struct Flow {
    /// T.
    pub period: u16,
    /// D.
    pub deadline: u16,
    /// a.
    pub start: u16,
    /// κ.
    pub tries: u16,
    /// How many entries of the route count.
    pub nodes: u16,
    /// The route; entries beyond `nodes` don't count.
    pub route: [u16; MOST_NODES],
}

impl Flow {
    /// How many links the route has.
    pub fn links(&self) -> u32 {
        u32::from(self.nodes).saturating_sub(1)
    }

    /// C = links × κ. At most 65,534 × 65,535, so 32 bits hold it whatever the record says.
    pub fn c(&self) -> u32 {
        self.links() * u32::from(self.tries)
    }

    /// The nodes that count, never beyond the route's array.
    pub fn used(&self) -> &[u16] {
        &self.route[..usize::from(self.nodes).min(MOST_NODES)]
    }
}

/// A flow set as a record, any value in any field.
#[derive(Clone, Copy, Debug, PartialEq, Eq)]
pub struct Set {
    /// The channel map; bit i is channel 11 + i.
    pub map: u16,
    /// How many entries of `flows` count.
    pub count: u16,
    /// The flows; entries beyond `count` don't count.
    pub flows: [Flow; MOST_FLOWS],
}

impl Set {
    /// The blank set: map 0, no flows, all numbers 0.
    pub const BLANK: Set = Set {
        map: 0,
        count: 0,
        flows: [Flow { period: 0, deadline: 0, start: 0, tries: 0, nodes: 0, route: [0; MOST_NODES] }; MOST_FLOWS],
    };

    /// The flows that count, never beyond the array.
    pub fn used(&self) -> &[Flow] {
        &self.flows[..usize::from(self.count).min(MOST_FLOWS)]
    }

    /// m: how many bits of the channel map are ones.
    pub fn m(&self) -> u32 {
        self.map.count_ones()
    }

    /// The map's channels in rising order; the first m entries count.
    pub fn channels(&self) -> [u8; 16] {
        let mut channels = [0; 16];
        let mut left = self.map;
        for place in channels.iter_mut().take(self.m() as usize) {
            *place = FIRST_CHANNEL + left.trailing_zeros() as u8;
            left &= left - 1;
        }
        channels
    }
}

/// The state of the slot machine, any value in any field.
#[derive(Clone, Copy, Debug, PartialEq, Eq)]
pub struct State {
    /// The present slot t.
    pub slot: u32,
    /// How many transmissions each flow's latest packet has had.
    pub sent: [u8; MOST_FLOWS],
}

impl State {
    /// The fresh state: slot 0, no packet sent.
    pub const FRESH: State = State { slot: 0, sent: [0; MOST_FLOWS] };
}

/// Document 01: "two sets are the same when all else is equal", unused entries left aside.
pub fn same(one: &Set, other: &Set) -> bool {
    let equal = |(f, g): (&Flow, &Flow)| {
        let numbers = |f: &Flow| [f.period, f.deadline, f.start, f.tries, f.nodes];
        numbers(f) == numbers(g) && f.used() == g.used()
    };
    one.map == other.map && one.count == other.count && one.used().iter().zip(other.used()).all(equal)
}
