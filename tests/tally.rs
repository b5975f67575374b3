//! Counts of what the comparison reached: the numbers returned, the accepted kinds in each phase, the fields, the pictures in each phase,
//! the refused lines, the cards that win and lose with the reasons to refuse to tell, and the wrong lengths.

use crate::both::{Call, Lengths, RIGHT};
use crate::draw::DIGITS;
use crate::face::{Field, ANSWER_SIZE, NOBODY, NO_FIELD, PAGES_SIZE, PICTURE_DIGITS};
use crate::face::{OUTCOME_LINE_AT, OUTCOME_RIVAL_AT, SEEN_COLUMN_AT, SEEN_PHASE_AT};
use crate::why::REASONS;

pub struct Tally {
    setup: [u64; 256],
    step: [u64; 256],
    settle: [u64; 256],
    picture: [u64; 256],
    read_picture: [u64; 256],
    why: [u64; 256],
    accepted: [[u64; 6]; 16],
    fields: [FieldCalls; 8],
    shown: [[u64; 6]; 10],
    seen: [u64; 256],
    refused_lines: [u64; 4],
    columns: [u64; 256],
    outcomes: Outcomes,
    wrong: [u64; 12],
}

#[derive(Clone, Copy, Default)]
struct FieldCalls {
    made: u64,
    without_field: u64,
}

const FIELDS: [&str; 8] = ["fitted", "page", "phase", "contenders", "driven", "granted", "lines", "makes_sense"];

fn place_of(field: Field) -> usize {
    match field {
        Field::Fitted => 0,
        Field::Page(_) => 1,
        Field::Phase => 2,
        Field::Contenders => 3,
        Field::Driven(_) => 4,
        Field::Granted => 5,
        Field::Lines => 6,
        Field::MakesSense => 7,
    }
}

const CYCLES_IN: &[usize] = &[0, 1, 4];

/// What the picture of an accepted event can show, and in which phases: 01, "Events".
const SHOWN: [(&str, &[usize]); 10] = [
    ("no cycle", &[0, 1, 2, 3, 4, 5]),
    ("byte read", CYCLES_IN),
    ("opcode fetch", CYCLES_IN),
    ("byte write", CYCLES_IN),
    ("word read in one cycle", CYCLES_IN),
    ("split word read", CYCLES_IN),
    ("word write in one cycle", CYCLES_IN),
    ("split word write", CYCLES_IN),
    ("input", CYCLES_IN),
    ("output", CYCLES_IN),
];

/// In the order of `SHOWN`.
fn place_of_shown(kind: u8, cycles: u8) -> usize {
    match (kind, cycles) {
        (0x06, _) => 1,
        (0x07, _) => 2,
        (0x08, _) => 3,
        (0x09, 1) => 4,
        (0x09, _) => 5,
        (0x0A, 1) => 6,
        (0x0A, _) => 7,
        (0x0B, _) => 8,
        (0x0C, _) => 9,
        _ => 0,
    }
}

/// What can be wrong with a line: 02, CR 2.
const REFUSED_LINES: [&str; 4] = ["one wrong character", "several wrong characters", "the length", "the length and characters"];

/// In the order of `REFUSED_LINES`.
fn place_of_refused(line: &[u8]) -> usize {
    let wrong_characters = line.iter().filter(|byte| !DIGITS.contains(byte)).count();
    match (line.len() == PICTURE_DIGITS, wrong_characters) {
        (true, ..=1) => 0,
        (true, _) => 1,
        (false, 0) => 2,
        (false, _) => 3,
    }
}

/// Whether these reasons to refuse, by their order in 02, CR 4, can hold at once. A number above 15 never contends, and 05 isn't for it.
/// Where the state makes sense only fitted cards contend, and only in arbitration; elsewhere there is no look that would change anything.
fn can_hold([senseless, no_card, unfitted, elsewhere, idle, unsettled]: [bool; 6]) -> bool {
    let of_a_number = !no_card || idle && !unfitted;
    let of_a_bus = (idle || !unfitted && !elsewhere) && !(elsewhere && unsettled);
    of_a_number && (senseless || of_a_bus)
}

/// What was told of cards: the lines lost; who takes the bus from each contender, itself if it wins; and the sets of reasons to refuse that
/// held when one was asked about.
struct Outcomes {
    lines_lost: [u64; 256],
    takers: [[u64; 16]; 16],
    reasons: [u64; 64],
}

impl Outcomes {
    fn new() -> Outcomes {
        Outcomes { lines_lost: [0; 256], takers: [[0; 16]; 16], reasons: [0; 64] }
    }

    /// Cards with those that take the bus from them, if that `can_be`, and how often they did.
    fn pairs(&self, can_be: bool) -> impl Iterator<Item = (usize, usize, u64)> + '_ {
        let all = (0..16).flat_map(|card| (0..16).map(move |taker| (card, taker)));
        all.filter(move |(card, taker)| (taker >= card) == can_be).map(|(card, taker)| (card, taker, self.takers[card][taker]))
    }

    /// Sets of reasons, if they `can_be`, by the refusals' numbers, and how often they held.
    fn sets(&self, can_be: bool) -> impl Iterator<Item = (String, u64)> + '_ {
        let held = |set: usize| std::array::from_fn(|at| set >> at & 1 == 1);
        (0..64).filter(move |set| can_hold(held(*set)) == can_be).map(move |set| {
            let reasons = REASONS.iter().zip(held(set)).filter(|(_, holds)| *holds);
            let numbers: Vec<String> = reasons.map(|(reason, _)| format!("{:02X}", *reason as u8)).collect();
            (if set == 0 { "none".into() } else { numbers.join("+") }, self.reasons[set])
        })
    }

    fn print(&self) {
        let (all, fewest) = self.pairs(true).fold((0, u64::MAX), |(all, fewest), (_, _, count)| (all + count, fewest.min(count)));
        println!("pairs of a contender and the one to which it loses, itself if it wins: {all}, each {fewest} times or more");
        println!("cards asked about, by all the reasons to refuse that held:");
        println!("  {}", self.sets(true).map(|(numbers, count)| format!("{numbers}: {count}")).collect::<Vec<String>>().join(", "));
    }

    fn faults(&self) -> Vec<String> {
        let mut faults = Vec::new();
        for can_be in [true, false] {
            let pairs = self.pairs(can_be).filter(|(_, _, count)| (*count > 0) != can_be);
            faults.extend(pairs.map(|(card, taker, count)| format!("card {card} lost the bus to card {taker} {count} times")));
            let sets = self.sets(can_be).filter(|(_, count)| (*count > 0) != can_be);
            faults.extend(sets.map(|(numbers, count)| format!("the reasons {numbers} held {count} times")));
        }
        faults
    }
}

const WRONG: [&str; 12] = [
    "setup's pages",
    "setup's state",
    "step's state",
    "step's answer",
    "step's memory",
    "step's ports",
    "settle's state",
    "picture's answer",
    "picture's lines",
    "read_picture's seen",
    "why's state",
    "why's outcome",
];

/// In the order of `WRONG`.
fn wrong_lengths(call: &Call, lent: Lengths) -> [bool; 12] {
    let mut wrong = [false; 12];
    let state = lent.state != RIGHT.state;
    match call {
        Call::Setup { pages, .. } => (wrong[0], wrong[1]) = (pages.len() != PAGES_SIZE, state),
        Call::Step(_) => {
            (wrong[2], wrong[3]) = (state, lent.answer != RIGHT.answer);
            (wrong[4], wrong[5]) = (lent.memory != RIGHT.memory, lent.ports != RIGHT.ports);
        }
        Call::Settle { .. } => wrong[6] = state,
        Call::Picture { answer, .. } => (wrong[7], wrong[8]) = (answer.len() != ANSWER_SIZE, lent.lines != RIGHT.lines),
        Call::ReadPicture { .. } => wrong[9] = lent.seen != RIGHT.seen,
        Call::Why { .. } => (wrong[10], wrong[11]) = (state, lent.outcome != RIGHT.outcome),
        Call::Field(_) => {}
    }
    wrong
}

/// The phases in which the event table takes a kind: 01, "Events".
fn is_allowed(kind: usize, phase: usize) -> bool {
    match kind {
        0x01 => phase == 0,
        0x02 | 0x03 => phase == 1,
        0x04 => phase == 2,
        0x05 => phase == 3,
        0x06..=0x0C => [0, 1, 4].contains(&phase),
        0x0D => phase == 4,
        0x0E => phase == 5,
        0x0F => true,
        _ => false,
    }
}

const SETUP_ANSWERS: [usize; 3] = [0x00, 0x0B, 0xFF];
const STEP_ANSWERS: [usize; 12] = [0x00, 0x01, 0x02, 0x03, 0x04, 0x05, 0x06, 0x07, 0x08, 0x09, 0x0A, 0xFF];
const SETTLE_ANSWERS: [usize; 8] = [0x00, 0x02, 0x03, 0x05, 0x06, 0x07, 0x08, 0xFF];
const PICTURE_ANSWERS: [usize; 4] = [0, 51, 102, 0xFF];
const READ_PICTURE_ANSWERS: [usize; 4] = [0x00, 0x0C, 0x0D, 0xFF];
const WHY_ANSWERS: [usize; 8] = [0x00, 0x02, 0x03, 0x05, 0x06, 0x07, 0x08, 0xFF];

/// What is read as a phase: 01's six, or that there is none.
const SEEN_PHASES: [usize; 7] = [0, 1, 2, 3, 4, 5, 0xFF];

/// Where a card loses: at one of the four lines, or nowhere, since it wins.
const LINES_LOST: [usize; 5] = [0, 1, 2, 3, 0xFF];

impl Tally {
    pub fn new() -> Tally {
        let (setup, step, settle, picture, read_picture) = ([0; 256], [0; 256], [0; 256], [0; 256], [0; 256]);
        let (accepted, fields, shown) = ([[0; 6]; 16], [FieldCalls::default(); 8], [[0; 6]; 10]);
        let (seen, refused_lines, columns, wrong) = ([0; 256], [0; 4], [0; 256], [0; 12]);
        let (why, outcomes) = ([0; 256], Outcomes::new());
        Tally { setup, step, settle, picture, read_picture, why, accepted, fields, shown, seen, refused_lines, columns, outcomes, wrong }
    }

    pub fn note(&mut self, call: &Call, lent: Lengths, phase_before: u8, returned: u32) {
        let number = returned as usize & 0xFF;
        match call {
            Call::Setup { .. } => self.setup[number] += 1,
            Call::Settle { .. } => self.settle[number] += 1,
            Call::Picture { .. } => self.picture[number] += 1,
            Call::ReadPicture { .. } => self.read_picture[number] += 1,
            Call::Why { .. } => self.why[number] += 1,
            Call::Field(field) => {
                let calls = &mut self.fields[place_of(*field)];
                calls.made += 1;
                calls.without_field += u64::from(returned == if let Field::MakesSense = field { 0 } else { NO_FIELD });
            }
            Call::Step(event) => {
                self.step[number] += 1;
                if number == 0 && event.kind < 16 && phase_before < 6 {
                    self.accepted[usize::from(event.kind)][usize::from(phase_before)] += 1;
                }
            }
        }
        self.note_lengths(wrong_lengths(call, lent));
    }

    /// A wrong length beside another isn't counted, since then either may be the reason for the answer.
    fn note_lengths(&mut self, wrong: [bool; 12]) {
        if let [at] = (0..12).filter(|at| wrong[*at]).collect::<Vec<usize>>()[..] {
            self.wrong[at] += 1;
        }
    }

    /// The picture that followed an accepted step.
    pub fn note_shown(&mut self, kind: u8, phase: u8, cycles: u8) {
        self.shown[place_of_shown(kind, cycles)][usize::from(phase)] += 1;
    }

    /// What was read from a line, or why it wasn't.
    pub fn note_reading(&mut self, line: &[u8], returned: u32, seen: &[u8]) {
        match returned {
            0x00 => self.seen[usize::from(seen[SEEN_PHASE_AT])] += 1,
            0x0C => self.refused_lines[place_of_refused(line)] += 1,
            0x0D => {
                self.refused_lines[place_of_refused(line)] += 1;
                self.columns[usize::from(seen[SEEN_COLUMN_AT])] += 1;
            }
            _ => {}
        }
    }

    /// What was told of a card, if it wasn't refused.
    pub fn note_outcome(&mut self, card: u8, returned: u32, outcome: &[u8]) {
        if returned != 0 {
            return;
        }
        let (line, rival) = (outcome[OUTCOME_LINE_AT], outcome[OUTCOME_RIVAL_AT]);
        self.outcomes.lines_lost[usize::from(line)] += 1;
        let taker = if rival == NOBODY { card } else { rival };
        if card < 16 && taker < 16 {
            self.outcomes.takers[usize::from(card)][usize::from(taker)] += 1;
        }
    }

    /// The reasons to refuse that held when a card was asked about, by their order in 02, CR 4.
    pub fn note_reasons(&mut self, held: [bool; 6]) {
        let set: usize = held.iter().enumerate().map(|(at, holds)| usize::from(*holds) << at).sum();
        self.outcomes.reasons[set] += 1;
    }

    /// Counts by number, with the numbers that there can be.
    fn by_number(&self) -> [(&'static str, &[u64; 256], &'static [usize]); 8] {
        [
            ("setup, by number returned", &self.setup, &SETUP_ANSWERS),
            ("step, by number returned", &self.step, &STEP_ANSWERS),
            ("settle, by number returned", &self.settle, &SETTLE_ANSWERS),
            ("picture, by number returned", &self.picture, &PICTURE_ANSWERS),
            ("read_picture, by number returned", &self.read_picture, &READ_PICTURE_ANSWERS),
            ("pictures read, by phase", &self.seen, &SEEN_PHASES),
            ("why, by number returned", &self.why, &WHY_ANSWERS),
            ("cards not refused, by the line lost, or FF for those that win", &self.outcomes.lines_lost, &LINES_LOST),
        ]
    }

    pub fn print(&self) {
        for (name, counts, answers) in self.by_number() {
            println!("{name}:");
            let shown = answers.iter().map(|number| format!("{number:02X}: {}", counts[*number]));
            println!("  {}", shown.collect::<Vec<String>>().join(", "));
        }
        println!("field calls, and those among them that answered NO_FIELD or, of makes_sense, false:");
        for (name, calls) in FIELDS.iter().zip(self.fields) {
            println!("  {name}: {}, {}", calls.made, calls.without_field);
        }
        println!("pictures of accepted events, by what they show and the phase:");
        for ((name, phases), counts) in SHOWN.iter().zip(self.shown) {
            let shown = phases.iter().map(|phase| format!("phase {phase}: {}", counts[*phase]));
            println!("  {name}: {}", shown.collect::<Vec<String>>().join(", "));
        }
        println!("lines refused, by what was wrong:");
        let shown = REFUSED_LINES.iter().zip(self.refused_lines).map(|(name, count)| format!("{name}: {count}"));
        println!("  {}", shown.collect::<Vec<String>>().join(", "));
        let told = &self.columns[1..=PICTURE_DIGITS];
        let (all, fewest) = (told.iter().sum::<u64>(), told.iter().min().expect("columns"));
        println!("columns of wrong characters told, from 1 to {PICTURE_DIGITS}: {all}, each {fewest} times or more");
        self.outcomes.print();
        println!("calls with one wrong length, by whose it was:");
        let shown = WRONG.iter().zip(self.wrong).map(|(name, count)| format!("{name}: {count}"));
        println!("  {}", shown.collect::<Vec<String>>().join(", "));
        println!("accepted events, by kind and the phase before:");
        for kind in 0x01..=0x0F {
            let phases = (0..6).filter(|phase| is_allowed(kind, *phase));
            let shown = phases.map(|phase| format!("phase {phase}: {}", self.accepted[kind][phase]));
            println!("  {kind:02X}: {}", shown.collect::<Vec<String>>().join(", "));
        }
    }

    /// What ought to have been reached and wasn't, and what was reached and can't be.
    pub fn faults(&self) -> Vec<String> {
        let mut faults = Vec::new();
        for (name, counts, answers) in self.by_number() {
            let wrong = (0..256).filter(|number| answers.contains(number) != (counts[*number] > 0));
            faults.extend(wrong.map(|number| format!("{name}: {number:02X} {} times", counts[number])));
        }
        for ((name, phases), counts) in SHOWN.iter().zip(self.shown) {
            let wrong = (0..6).filter(|phase| phases.contains(phase) != (counts[*phase] > 0));
            faults.extend(wrong.map(|phase| format!("pictures of {name} in phase {phase}: {}", counts[phase])));
        }
        for kind in 0..16 {
            let wrong = (0..6).filter(|phase| is_allowed(kind, *phase) != (self.accepted[kind][*phase] > 0));
            faults.extend(wrong.map(|phase| format!("kind {kind:02X} accepted {} times in phase {phase}", self.accepted[kind][phase])));
        }
        for (name, calls) in FIELDS.iter().zip(self.fields) {
            if calls.without_field == 0 || calls.without_field == calls.made {
                faults.push(format!("{name} was without a field {} times of {}", calls.without_field, calls.made));
            }
        }
        let never = REFUSED_LINES.iter().zip(self.refused_lines).filter(|(_, count)| *count == 0);
        faults.extend(never.map(|(name, _)| format!("no line was refused for {name}")));
        let wrong = (0..256).filter(|column| (1..=PICTURE_DIGITS).contains(column) != (self.columns[*column] > 0));
        faults.extend(wrong.map(|column| format!("column {column} told {} times", self.columns[column])));
        faults.extend(self.outcomes.faults());
        let never = WRONG.iter().zip(self.wrong).filter(|(_, count)| *count == 0);
        faults.extend(never.map(|(name, _)| format!("{name} was never alone of a wrong length")));
        faults
    }
}
