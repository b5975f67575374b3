//! The library and the model side by side: the same call is made of each, and everything lent to the two is compared afterwards.

use crate::face::{self, Event, Field, ANSWER_SIZE, MEMORY_SIZE, PHASE_AT, PORTS_SIZE, STATE_SIZE};
use crate::face::{OUTCOME_SIZE, PICTURES_SIZE, PICTURE_DIGITS, SEEN_SIZE};
use crate::model::{self, Refusal};
use crate::tally::Tally;
use std::fmt::Write;

/// How many known bytes stand in front of what is lent and behind it, for a write beyond either end to be seen.
const MARGIN: usize = 64;

/// The most bytes that a buffer can be lent beyond its right length.
const EXCESS: usize = 0x1_0000;

pub type State = [u8; STATE_SIZE];

/// A picture is read into a place that is filled afresh for it, or else has what the reading before left there.
pub enum Call {
    Setup { fitted: u16, pages: Vec<u8> },
    Step(Event),
    Settle { cards: Vec<u8> },
    Picture { kind: u8, address: u32, answer: Vec<u8> },
    ReadPicture { line: Vec<u8>, afresh: bool },
    Why { card: u8 },
    Field(Field),
}

/// How many bytes of each buffer a call is lent.
#[derive(Clone, Copy, Debug)]
pub struct Lengths {
    pub state: usize,
    pub memory: usize,
    pub ports: usize,
    pub answer: usize,
    pub lines: usize,
    pub seen: usize,
    pub outcome: usize,
}

pub const RIGHT: Lengths = Lengths {
    state: STATE_SIZE,
    memory: MEMORY_SIZE,
    ports: PORTS_SIZE,
    answer: ANSWER_SIZE,
    lines: PICTURES_SIZE,
    seen: SEEN_SIZE,
    outcome: OUTCOME_SIZE,
};

/// Bytes to lend, between margins.
#[derive(PartialEq)]
pub struct Buffer {
    all: Vec<u8>,
    right: usize,
}

impl Buffer {
    fn new(right: usize) -> Buffer {
        let all = (0..MARGIN + right + EXCESS + MARGIN).map(|at| (at * 31 % 251) as u8).collect();
        Buffer { all, right }
    }

    /// A list is lent as long as it is, whatever its length.
    fn hold(&mut self, list: &[u8], margin: u8) {
        self.all.clear();
        self.all.resize(MARGIN, margin);
        self.all.extend_from_slice(list);
        self.all.resize(MARGIN + list.len() + MARGIN, margin);
        self.right = list.len();
    }

    pub fn bytes(&self) -> &[u8] {
        &self.all[MARGIN..MARGIN + self.right]
    }

    fn place(&mut self, at: usize, bytes: &[u8]) {
        self.all[MARGIN + at..MARGIN + at + bytes.len()].copy_from_slice(bytes);
    }

    fn lend(&mut self, length: usize) -> &mut [u8] {
        &mut self.all[MARGIN..MARGIN + length]
    }

    /// What is compared after a call that was lent so many bytes: these, any others that are right, and a margin on either side.
    fn around(&self, length: usize) -> &[u8] {
        &self.all[..MARGIN + length.max(self.right) + MARGIN]
    }

    fn fill(&mut self, byte: u8, length: usize) {
        self.all[..MARGIN + length.max(self.right) + MARGIN].fill(byte);
    }

    fn shown(&self, length: usize) -> String {
        let (front, rest) = self.around(length).split_at(MARGIN);
        let (lent, behind) = rest.split_at(length);
        format!("{} | {} | {}", hex(front), hex(lent), hex(behind))
    }
}

/// What one of the two is lent. The list is a setup's pages, a settle's cards, the answer of a picture or the line to read, which no call
/// may change; of the three numbers the middle one is lent for settle's count.
#[derive(PartialEq)]
pub struct Side {
    state: Buffer,
    pub memory: Buffer,
    ports: Buffer,
    pub answer: Buffer,
    pub lines: Buffer,
    pub seen: Buffer,
    pub outcome: Buffer,
    list: Buffer,
    looks: [usize; 3],
}

impl Side {
    fn new() -> Side {
        let (state, memory, ports) = (Buffer::new(STATE_SIZE), Buffer::new(MEMORY_SIZE), Buffer::new(PORTS_SIZE));
        let (answer, lines, seen) = (Buffer::new(ANSWER_SIZE), Buffer::new(PICTURES_SIZE), Buffer::new(SEEN_SIZE));
        let (outcome, list) = (Buffer::new(OUTCOME_SIZE), Buffer::new(0));
        Side { state, memory, ports, answer, lines, seen, outcome, list, looks: [0; 3] }
    }

    pub fn looks(&self) -> usize {
        self.looks[1]
    }

    /// Fills what the call may or may not write with bytes that it can't know, so that both a write too many and one too few show. A step's
    /// answer outlasts its pictures. The bytes for a reading are never 0, nor any column: those have to be written. Those for an outcome
    /// are no refusal, line or rival, nor the card: their lowest bit isn't the card's.
    fn prepare(&mut self, call: &Call, lent: Lengths, garbage: u64) {
        match call {
            Call::Picture { .. } => self.lines.fill(garbage as u8, lent.lines),
            Call::ReadPicture { afresh: true, .. } => self.seen.fill(garbage as u8 | 0x80, lent.seen),
            Call::ReadPicture { afresh: false, .. } => {}
            Call::Why { card } => self.outcome.fill(0x40 | garbage as u8 & 0x3E | !card & 1, lent.outcome),
            _ => {
                self.answer.fill(garbage as u8, lent.answer);
                self.looks = [garbage as usize; 3];
            }
        }
        let list: &[u8] = match call {
            Call::Setup { pages, .. } => pages,
            Call::Settle { cards } => cards,
            Call::Picture { answer, .. } => answer,
            Call::ReadPicture { line, .. } => line,
            Call::Step(_) | Call::Why { .. } | Call::Field(_) => &[],
        };
        self.list.hold(list, garbage as u8);
    }

    fn through_face(&mut self, call: &Call, lent: Lengths) -> u32 {
        let state = self.state.lend(lent.state);
        match call {
            Call::Setup { fitted, .. } => face::setup(*fitted, self.list.bytes(), state).into(),
            Call::Step(event) => {
                let (memory, ports) = (self.memory.lend(lent.memory), self.ports.lend(lent.ports));
                face::step(state, *event, memory, ports, self.answer.lend(lent.answer)).into()
            }
            Call::Settle { .. } => face::settle(state, self.list.bytes(), &mut self.looks[1]).into(),
            Call::Picture { kind, address, .. } => face::picture(*kind, *address, self.list.bytes(), self.lines.lend(lent.lines)).into(),
            Call::ReadPicture { .. } => face::read_picture(self.list.bytes(), self.seen.lend(lent.seen)).into(),
            Call::Why { card } => face::why(state, *card, self.outcome.lend(lent.outcome)).into(),
            Call::Field(field) => face::field(*field, state),
        }
    }

    fn by_model(&mut self, call: &Call, lent: Lengths) -> u32 {
        let state = self.state.lend(lent.state);
        match call {
            Call::Setup { fitted, .. } => model::setup(*fitted, self.list.bytes(), state).into(),
            Call::Step(event) => {
                let (memory, ports) = (self.memory.lend(lent.memory), self.ports.lend(lent.ports));
                model::step(state, *event, memory, ports, self.answer.lend(lent.answer)).into()
            }
            Call::Settle { .. } => model::settle(state, self.list.bytes(), &mut self.looks[1]).into(),
            Call::Picture { kind, address, .. } => model::picture(*kind, *address, self.list.bytes(), self.lines.lend(lent.lines)).into(),
            Call::ReadPicture { .. } => model::read_picture(self.list.bytes(), self.seen.lend(lent.seen)).into(),
            Call::Why { card } => model::why(state, *card, self.outcome.lend(lent.outcome)).into(),
            Call::Field(field) => model::field(*field, state),
        }
    }

    /// Pictures and readings follow every step, and all cards are asked about one after the other, so what these calls aren't lent is left
    /// to the call after them.
    fn agrees(&self, other: &Side, call: &Call, lent: Lengths) -> bool {
        let states_alike = || self.state.around(lent.state) == other.state.around(lent.state);
        let written_alike = match call {
            Call::Picture { .. } => self.lines.around(lent.lines) == other.lines.around(lent.lines),
            Call::ReadPicture { .. } => self.seen.around(lent.seen) == other.seen.around(lent.seen),
            Call::Why { .. } => states_alike() && self.outcome.around(lent.outcome) == other.outcome.around(lent.outcome),
            _ => {
                states_alike()
                    && self.memory.around(lent.memory) == other.memory.around(lent.memory)
                    && self.ports.around(lent.ports) == other.ports.around(lent.ports)
                    && self.answer.around(lent.answer) == other.answer.around(lent.answer)
                    && self.looks == other.looks
            }
        };
        written_alike && self.list == other.list
    }
}

/// A call with all that it was given, apart from the memory and the ports.
struct Made {
    call: Call,
    lent: Lengths,
    state: State,
}

pub struct Both {
    pub library: Side,
    model: Side,
    pub tally: Tally,
    pub calls: u64,
    last: Option<Made>,
    seed: u64,
}

impl Both {
    pub fn new(seed: u64) -> Both {
        Both { library: Side::new(), model: Side::new(), tally: Tally::new(), calls: 0, last: None, seed }
    }

    pub fn state(&self) -> State {
        self.library.state.bytes().try_into().expect("a whole state")
    }

    pub fn place(&mut self, state: &State) {
        self.library.state.place(0, state);
        self.model.state.place(0, state);
    }

    pub fn place_memory(&mut self, at: usize, bytes: &[u8]) {
        self.library.memory.place(at, bytes);
        self.model.memory.place(at, bytes);
    }

    /// Makes the call of both and returns the number that both returned; the program ends at a difference. A step is followed by its
    /// picture, and a picture by the reading of its lines; what is expected afterwards is still said of the call itself.
    pub fn make(&mut self, call: Call, lent: Lengths) -> u32 {
        self.calls += 1;
        let found = self.compare(call, lent);
        let made = self.last.take();
        match made.as_ref().map(|made| &made.call) {
            Some(Call::Step(event)) => self.show(*event, lent, found == 0),
            Some(Call::Picture { .. }) => _ = self.read_back(found, lent),
            _ => {}
        }
        self.last = made;
        found
    }

    fn compare(&mut self, call: Call, lent: Lengths) -> u32 {
        let state = self.state();
        let garbage = self.calls.wrapping_mul(0x9E37_79B9_7F4A_7C15) >> 7;
        self.library.prepare(&call, lent, garbage);
        self.model.prepare(&call, lent, garbage);
        let found = self.library.through_face(&call, lent);
        let expected = self.model.by_model(&call, lent);
        self.tally.note(&call, lent, state[PHASE_AT], found);
        if let Call::ReadPicture { line, .. } = &call {
            self.tally.note_reading(line, found, self.library.seen.bytes());
        }
        if let Call::Why { card } = call {
            self.tally.note_outcome(card, found, self.library.outcome.bytes());
        }
        let agrees = found == expected && self.library.agrees(&self.model, &call, lent);
        self.last = Some(Made { call, lent, state });
        if !agrees {
            self.fail("the library and the model differ", &self.difference(found, expected, lent));
        }
        found
    }

    /// The picture of the step just made, whatever its answer is. 02, CR 1: an accepted one's reads back to what the answer says, and the
    /// second line of a split word to the same without sXTRQ.
    fn show(&mut self, event: Event, lent: Lengths, accepted: bool) {
        let Event { kind, address, .. } = event;
        let answer = self.library.answer.lend(lent.answer).to_vec();
        let written = self.compare(Call::Picture { kind, address, answer }, lent);
        let read = self.read_back(written, lent);
        if accepted && written != Refusal::WrongLength as u32 {
            let answer: [u8; ANSWER_SIZE] = self.library.answer.bytes().try_into().expect("a whole answer");
            let [_, phase, _, lines, signals, _, cycles, ..] = answer;
            self.tally.note_shown(kind, phase, cycles);
            self.expect(written == 51 * u32::from(cycles.max(1)), "a picture has a line for each cycle, and one if there is none");
            for (seen, signals) in read.into_iter().zip([signals, signals & 0x7F]) {
                self.expect(seen == [phase, signals, lines, 0], "a picture reads back to the answer's phase, signals and lines");
            }
        }
    }

    /// What is read from each line of a picture of so many bytes.
    fn read_back(&mut self, written: u32, lent: Lengths) -> Vec<[u8; SEEN_SIZE]> {
        let mut read = Vec::new();
        if written == Refusal::WrongLength as u32 {
            return read;
        }
        let text = self.library.lines.bytes()[..written as usize].to_vec();
        for line in text.chunks(PICTURE_DIGITS + 1).map(|ended| &ended[..PICTURE_DIGITS]) {
            if self.compare(Call::ReadPicture { line: line.to_vec(), afresh: true }, lent) == 0 {
                read.push(self.library.seen.bytes().try_into().expect("all that is read"));
            }
        }
        read
    }

    /// Compares once more, also what lies beyond the margins of the calls so far.
    pub fn end(&self) {
        if self.library != self.model {
            self.fail("the library and the model differ at the end", "in bytes beyond the margins");
        }
    }

    pub fn step(&mut self, event: Event) -> u32 {
        self.make(Call::Step(event), RIGHT)
    }

    pub fn settle(&mut self, cards: Vec<u8>) -> u32 {
        self.make(Call::Settle { cards }, RIGHT)
    }

    pub fn read(&mut self, field: Field) -> u32 {
        self.make(Call::Field(field), RIGHT)
    }

    /// What a rule asks of the call just made, beyond that the two agree.
    pub fn expect(&self, holds: bool, rule: &str) {
        if !holds {
            let Side { state, answer, seen, outcome, .. } = &self.library;
            let [state, answer, seen, outcome] = [state, answer, seen, outcome].map(|buffer| hex(buffer.bytes()));
            let looks = self.library.looks();
            let found = format!("state: {state}\nanswer: {answer}\nseen: {seen}\noutcome: {outcome}\nlooks: {looks}");
            self.fail(rule, &format!("that isn't so of\n{found}"));
        }
    }

    fn fail(&self, what: &str, how: &str) -> ! {
        println!("{what}\nseed: {}, call: {}", self.seed, self.calls);
        if let Some(Made { call, lent, state }) = &self.last {
            println!("{}\nlent: {lent:?}\nstate before: {}", described(call), hex(state));
        }
        println!("{how}");
        std::process::exit(1);
    }

    fn difference(&self, found: u32, expected: u32, lent: Lengths) -> String {
        let mut text = format!("returned: library {found:02X}, model {expected:02X}\n");
        let (ours, theirs) = (&self.library, &self.model);
        for (name, library, model, length) in [
            ("state", &ours.state, &theirs.state, lent.state),
            ("answer", &ours.answer, &theirs.answer, lent.answer),
            ("lines", &ours.lines, &theirs.lines, lent.lines),
            ("seen", &ours.seen, &theirs.seen, lent.seen),
            ("outcome", &ours.outcome, &theirs.outcome, lent.outcome),
            ("list", &ours.list, &theirs.list, theirs.list.right),
        ] {
            _ = writeln!(text, "{name}, between its margins:\n  library {}\n  model   {}", library.shown(length), model.shown(length));
        }
        _ = writeln!(text, "looks, between others: library {:X?}, model {:X?}", ours.looks, theirs.looks);
        for (name, library, model) in [("memory", &ours.memory, &theirs.memory), ("ports", &ours.ports, &theirs.ports)] {
            let differing: Vec<usize> = (0..library.all.len()).filter(|at| library.all[*at] != model.all[*at]).collect();
            for at in differing.iter().take(4) {
                let place = *at as i64 - MARGIN as i64;
                _ = writeln!(text, "{name} at {place}: library {:02X}, model {:02X}", library.all[*at], model.all[*at]);
            }
            _ = writeln!(text, "{name}: {} bytes differ", differing.len());
        }
        text
    }
}

fn described(call: &Call) -> String {
    match call {
        Call::Setup { fitted, pages } => format!("setup: fitted {fitted:04X}, {} pages {}", pages.len(), hex(pages)),
        Call::Step(Event { kind, speaker, address, datum }) => {
            format!("step: kind {kind:02X}, speaker {speaker:02X}, address {address:06X}, datum {datum:04X}")
        }
        Call::Settle { cards } => format!("settle: {} cards {}", cards.len(), hex(cards)),
        Call::Picture { kind, address, answer } => format!("picture: kind {kind:02X}, address {address:06X}, answer {}", hex(answer)),
        Call::ReadPicture { line, afresh } => {
            let place = if *afresh { "a place filled afresh" } else { "the place as it was left" };
            format!("read_picture, into {place}: {} bytes {}, \"{}\"", line.len(), hex(line), line.escape_ascii())
        }
        Call::Why { card } => format!("why: card {card:02X}"),
        Call::Field(field) => format!("field: {field:?}"),
    }
}

/// Only the longest of lists and buffers are cut short.
fn hex(bytes: &[u8]) -> String {
    let shown = bytes.iter().take(1000).map(|byte| format!("{byte:02X}")).collect();
    if bytes.len() > 1000 {
        shown + "..."
    } else {
        shown
    }
}
