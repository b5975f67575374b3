//! Draws from a seeded generator: states that make sense and states that don't, events, settle lists, cards to ask about, answers and lines
//! for pictures, and lengths.

use crate::both::{Lengths, State, RIGHT};
use crate::face::{Event, Field, ANSWER_SIZE, NOBODY, PAGES_SIZE, PERMANENT_MASTER, PICTURE_DIGITS, STATE_SIZE};
use crate::face::{CONTENDERS_AT, DRIVEN_AT, FITTED_AT, GRANTED_AT, PAGES_AT, PHASE_AT};

/// A splitmix64 generator: every seed, 0 included, gives a full sequence.
pub struct Chance(pub u64);

impl Chance {
    pub fn next(&mut self) -> u64 {
        self.0 = self.0.wrapping_add(0x9E37_79B9_7F4A_7C15);
        let mut mixed = self.0;
        mixed = (mixed ^ mixed >> 30).wrapping_mul(0xBF58_476D_1CE4_E5B9);
        mixed = (mixed ^ mixed >> 27).wrapping_mul(0x94D0_49BB_1331_11EB);
        mixed ^ mixed >> 31
    }

    pub fn below(&mut self, limit: usize) -> usize {
        (self.next() >> 16) as usize % limit
    }

    pub fn between(&mut self, lowest: u8, highest: u8) -> u8 {
        lowest + self.below(usize::from(highest - lowest) + 1) as u8
    }

    pub fn one_in(&mut self, often: usize) -> bool {
        self.below(often) == 0
    }

    pub fn pick<T: Copy>(&mut self, choices: &[T]) -> T {
        choices[self.below(choices.len())]
    }

    pub fn shuffle(&mut self, cards: &mut [u8]) {
        for last in (1..cards.len()).rev() {
            cards.swap(last, self.below(last + 1));
        }
    }
}

pub fn cards_of(set: u16) -> Vec<u8> {
    (0..16).filter(|card| set >> card & 1 == 1).collect()
}

fn card_from(chance: &mut Chance, set: u16) -> Option<u8> {
    (set != 0).then(|| chance.pick(&cards_of(set)))
}

pub fn set_at(state: &State, at: usize) -> u16 {
    u16::from_be_bytes([state[at], state[at + 1]])
}

pub fn put_set(state: &mut State, at: usize, set: u16) {
    state[at..at + 2].copy_from_slice(&set.to_be_bytes());
}

/// Small and large sets too: an even draw would mostly have about eight cards.
pub fn any_set(chance: &mut Chance) -> u16 {
    let (one, other) = (chance.next() as u16, chance.next() as u16);
    match chance.below(6) {
        0 => 0xFFFF,
        1 => one | other,
        2 => one & other,
        3 => 1 << (one % 16) | 1 << (other % 16),
        4 => 1 << (one % 16),
        _ => one,
    }
}

fn part_of(chance: &mut Chance, set: u16) -> u16 {
    let part = if chance.one_in(6) { set } else { any_set(chance) & set };
    if part == 0 {
        card_from(chance, set).map_or(0, |card| 1 << card)
    } else {
        part
    }
}

/// A free bus with these cards and any pages, most of them present.
fn free_bus(chance: &mut Chance, fitted: u16) -> State {
    let mut state = [0; STATE_SIZE];
    put_set(&mut state, FITTED_AT, fitted);
    for page in &mut state[PAGES_AT..PHASE_AT] {
        *page = chance.pick(&[0, 1, 1, 2, 2]);
    }
    state[GRANTED_AT] = NOBODY;
    state
}

/// A state in arbitration with these contenders and, beside them, other fitted cards; what each drives is left at 0.
pub fn undriven_arbitration(chance: &mut Chance, contenders: u16) -> State {
    let others = any_set(chance);
    let mut state = free_bus(chance, contenders | others);
    state[PHASE_AT] = 1;
    put_set(&mut state, CONTENDERS_AT, contenders);
    state
}

/// What a contender drives once the highest is known: its own bits above the first at which the two differ.
fn settled_level(card: u8, highest: u8) -> u8 {
    let dropped = ((card ^ highest) + 1).next_power_of_two() - 1;
    card & !dropped
}

pub fn driven_arbitration(chance: &mut Chance, contenders: u16) -> State {
    let mut state = undriven_arbitration(chance, contenders);
    for card in cards_of(contenders) {
        state[DRIVEN_AT + usize::from(card)] = chance.between(0, 15);
    }
    state
}

pub fn settled_arbitration(chance: &mut Chance, contenders: u16) -> State {
    let mut state = undriven_arbitration(chance, contenders);
    let cards = cards_of(contenders);
    for card in &cards {
        state[DRIVEN_AT + usize::from(*card)] = settled_level(*card, cards[cards.len() - 1]);
    }
    state
}

/// Settled, or but for one contender.
fn late_arbitration(chance: &mut Chance, contenders: u16) -> State {
    let mut state = settled_arbitration(chance, contenders);
    if chance.one_in(2) {
        state[DRIVEN_AT + usize::from(chance.pick(&cards_of(contenders)))] = chance.between(0, 15);
    }
    state
}

fn arbitration(chance: &mut Chance, contenders: u16) -> State {
    let stage = chance.pick(&[undriven_arbitration, driven_arbitration, driven_arbitration, late_arbitration, late_arbitration]);
    stage(chance, contenders)
}

pub fn sensible_in(chance: &mut Chance, phase: u8) -> State {
    let fitted = any_set(chance) | 1 << chance.below(16);
    if phase == 1 {
        let contenders = part_of(chance, fitted);
        return arbitration(chance, contenders);
    }
    let no_cards = phase == 0 && chance.one_in(8);
    let mut state = free_bus(chance, if no_cards { 0 } else { fitted });
    state[PHASE_AT] = phase;
    if phase > 1 {
        state[GRANTED_AT] = chance.pick(&cards_of(fitted));
    }
    state
}

fn sensible(chance: &mut Chance) -> State {
    let phase = chance.pick(&[0, 0, 1, 1, 1, 1, 2, 3, 4, 4, 5]);
    sensible_in(chance, phase)
}

fn with_granted_phase(chance: &mut Chance) -> State {
    let phase = chance.between(2, 5);
    sensible_in(chance, phase)
}

fn with_unfitted_contender(chance: &mut Chance) -> State {
    let mut state = sensible_in(chance, 1);
    let card = chance.below(16);
    let (fitted, contenders) = (set_at(&state, FITTED_AT), set_at(&state, CONTENDERS_AT));
    put_set(&mut state, FITTED_AT, fitted & !(1 << card));
    put_set(&mut state, CONTENDERS_AT, contenders | 1 << card);
    state
}

fn with_contender_outside_arbitration(chance: &mut Chance) -> State {
    let phase = chance.pick(&[0, 2, 3, 4, 5]);
    let mut state = sensible_in(chance, phase);
    let card = chance.below(16);
    let fitted = set_at(&state, FITTED_AT) | 1 << card;
    put_set(&mut state, FITTED_AT, fitted);
    put_set(&mut state, CONTENDERS_AT, 1 << card);
    state
}

fn with_driving_idler(chance: &mut Chance) -> State {
    let mut state = sensible(chance);
    while set_at(&state, CONTENDERS_AT) == 0xFFFF {
        state = sensible(chance);
    }
    let idle = card_from(chance, !set_at(&state, CONTENDERS_AT)).expect("an idle card");
    let any = chance.between(1, 255);
    state[DRIVEN_AT + usize::from(idle)] = chance.pick(&[1, 8, 15, 16, 255, idle.max(1), any]);
    state
}

fn with_overdriving_contender(chance: &mut Chance) -> State {
    let mut state = sensible_in(chance, 1);
    let card = chance.pick(&cards_of(set_at(&state, CONTENDERS_AT)));
    let any = chance.between(16, 255);
    state[DRIVEN_AT + usize::from(card)] = chance.pick(&[16, 16 + card, 255, any]);
    state
}

fn with_unfitted_grant(chance: &mut Chance) -> State {
    let mut state = with_granted_phase(chance);
    let card = chance.between(0, 15);
    let fitted = set_at(&state, FITTED_AT) & !(1 << card);
    put_set(&mut state, FITTED_AT, fitted);
    state[GRANTED_AT] = card;
    state
}

fn with_early_grant(chance: &mut Chance) -> State {
    let phase = chance.between(0, 1);
    let mut state = sensible_in(chance, phase);
    let (card, any) = (chance.between(0, 15), chance.between(0, 254));
    state[GRANTED_AT] = card_from(chance, set_at(&state, FITTED_AT)).filter(|_| any % 2 == 0).unwrap_or(chance.pick(&[card, any]));
    state
}

fn with_byte(mut state: State, at: usize, byte: u8) -> State {
    state[at] = byte;
    state
}

type Draw = fn(&mut Chance) -> State;

/// Each way in which a state can make no sense, alone: 01, "State and phases".
pub const SENSELESS: [(&str, Draw); 11] = [
    ("a page code above 2", |chance| {
        let (at, any) = (PAGES_AT + chance.below(PAGES_SIZE), chance.between(3, 255));
        with_byte(sensible(chance), at, chance.pick(&[3, 255, any]))
    }),
    ("a phase above 5", |chance| {
        let any = chance.between(6, 255);
        with_byte(sensible_in(chance, 0), PHASE_AT, chance.pick(&[6, 255, any]))
    }),
    ("a contender that isn't fitted", with_unfitted_contender),
    ("arbitration without a contender", |chance| with_byte(sensible_in(chance, 0), PHASE_AT, 1)),
    ("a contender outside arbitration", with_contender_outside_arbitration),
    ("an idle card that drives", with_driving_idler),
    ("a contender that drives more than 15", with_overdriving_contender),
    ("a granted card that isn't fitted", with_unfitted_grant),
    ("nobody granted after the grant", |chance| with_byte(with_granted_phase(chance), GRANTED_AT, NOBODY)),
    ("no card's number granted", |chance| {
        let any = chance.between(16, 254);
        with_byte(with_granted_phase(chance), GRANTED_AT, chance.pick(&[16, 254, any]))
    }),
    ("a card granted before the grant", with_early_grant),
];

fn one_byte_off(chance: &mut Chance) -> State {
    let mut state = sensible(chance);
    let byte = &mut state[chance.below(STATE_SIZE)];
    *byte = match chance.below(4) {
        0 => byte.wrapping_add(1),
        1 => byte.wrapping_sub(1),
        2 => *byte ^ 1 << chance.below(8),
        _ => chance.next() as u8,
    };
    state
}

pub fn state(chance: &mut Chance) -> State {
    match chance.below(20) {
        0..=11 => sensible(chance),
        12..=14 => chance.pick(&SENSELESS).1(chance),
        15..=18 => one_byte_off(chance),
        _ => std::array::from_fn(|_| chance.next() as u8),
    }
}

pub fn memory_address(chance: &mut Chance) -> u32 {
    let any = chance.next() as u32;
    match chance.below(12) {
        0 => chance.pick(&[0, 1, 0xFFE, 0xFFF, 0x1000, 0x1001, 0xFFFE, 0xFFFF]),
        1 => chance.pick(&[0x1_0000, 0x1_0001, 0xFF_FFFE, 0xFF_FFFF, 0x100_0000, 0x100_0001, 0xFFFF_FFFE, 0xFFFF_FFFF]),
        2..=4 => (any % 16 * 0x1000).wrapping_add(chance.pick(&[0, 1, 2, 0xFFD, 0xFFE, 0xFFF])),
        5 => any & 0xFF_FFFF,
        6 => any,
        7..=9 => any & 0xFFFE,
        _ => any & 0xFFFF,
    }
}

fn port_address(chance: &mut Chance) -> u32 {
    match chance.below(12) {
        0 => chance.pick(&[0, 1, 0x7F, 0x80, 0xFE, 0xFF]),
        1 => chance.pick(&[0x100, 0x101, 0x1FF, 0xFFFF, 0x1_0000, 0xFF_FFFF, 0x100_0000, 0xFFFF_FFFF]),
        2 => memory_address(chance),
        _ => chance.next() as u32 & 0xFF,
    }
}

fn byte_datum(chance: &mut Chance) -> u16 {
    match chance.below(16) {
        0 => chance.pick(&[0x100, 0x101, 0x1FF, 0x8000, 0xFF00, 0xFFFF]),
        1 | 2 => chance.pick(&[0, 1, 0x7F, 0x80, 0xFE, 0xFF]),
        _ => chance.next() as u16 & 0xFF,
    }
}

fn word_datum(chance: &mut Chance) -> u16 {
    let any = chance.next() as u16;
    chance.pick(&[0, 1, 0xFF, 0x100, 0x7FFF, 0x8000, 0xFFFF, any, any, any, any, any])
}

fn requested(chance: &mut Chance, fitted: u16) -> u16 {
    match chance.below(10) {
        0 => 0,
        1 => word_datum(chance),
        _ => part_of(chance, fitted),
    }
}

/// An event of this kind with fields such as it may have in this state, where there are any.
pub fn event_of_kind(chance: &mut Chance, state: &State, kind: u8) -> Event {
    let granted = state[GRANTED_AT];
    let master = if state[PHASE_AT] < 2 { PERMANENT_MASTER } else { granted };
    let event = Event { kind, speaker: 0, address: 0, datum: 0 };
    match kind {
        0x01 => Event { datum: requested(chance, set_at(state, FITTED_AT)), ..event },
        0x02 => Event { speaker: card_from(chance, set_at(state, CONTENDERS_AT)).unwrap_or(chance.between(0, 16)), ..event },
        0x04 | 0x05 | 0x0D | 0x0E => Event { speaker: if granted > 15 { chance.between(0, 16) } else { granted }, ..event },
        0x06 | 0x07 | 0x09 => Event { speaker: master, address: memory_address(chance), ..event },
        0x08 => Event { speaker: master, address: memory_address(chance), datum: byte_datum(chance), ..event },
        0x0A => Event { speaker: master, address: memory_address(chance), datum: word_datum(chance), ..event },
        0x0B => Event { speaker: master, address: port_address(chance), ..event },
        0x0C => Event { speaker: master, address: port_address(chance), datum: byte_datum(chance), ..event },
        _ => event,
    }
}

/// An event that moves the bus on: of a kind that its phase allows, now and then a reset.
pub fn next_event(chance: &mut Chance, state: &State) -> Event {
    let cycle = chance.between(0x06, 0x0C);
    let kind = match state[PHASE_AT] {
        _ if chance.one_in(60) => 0x0F,
        0 => chance.pick(&[0x01, 0x01, cycle]),
        1 => chance.pick(&[0x02, 0x02, 0x02, 0x02, 0x03, cycle]),
        2 => 0x04,
        3 => 0x05,
        4 => chance.pick(&[0x0D, cycle, cycle]),
        5 => 0x0E,
        _ => chance.between(0x01, 0x0F),
    };
    event_of_kind(chance, state, kind)
}

fn spoilt(chance: &mut Chance, mut event: Event) -> Event {
    match chance.below(4) {
        0 => event.kind = chance.between(0x00, 0x10),
        1 => event.speaker = chance.pick(&[0, 1, 15, 16, 17, 255]),
        2 => event.address = chance.pick(&[0, 1, 0x100, 0x80_0000, 0x100_0000, 0x8000_0000]),
        _ => event.datum = chance.pick(&[0, 1, 0x100, 0x8000]),
    }
    event
}

fn wild(chance: &mut Chance) -> Event {
    let any_kind = chance.next() as u8;
    let kind = chance.pick(&[any_kind, any_kind % 17]);
    let speaker = chance.next() as u8;
    let (address, datum) = (memory_address(chance), word_datum(chance));
    Event { kind, speaker: chance.pick(&[speaker, speaker % 18]), address: chance.pick(&[0, address]), datum: chance.pick(&[0, datum]) }
}

pub fn event(chance: &mut Chance, state: &State) -> Event {
    let (kind, other) = (chance.between(0x01, 0x0F), chance.between(0, 16));
    match chance.below(10) {
        0 => wild(chance),
        1 => Event { speaker: other, ..event_of_kind(chance, state, kind) },
        2 | 3 => event_of_kind(chance, state, kind),
        4 | 5 => {
            let event = event_of_kind(chance, state, kind);
            spoilt(chance, event)
        }
        6 => {
            let event = next_event(chance, state);
            spoilt(chance, event)
        }
        _ => next_event(chance, state),
    }
}

/// So many rounds, in each of which every contender looks once or more.
pub fn rounds(chance: &mut Chance, contenders: u16, number: usize) -> Vec<u8> {
    let mut cards = Vec::new();
    for _ in 0..number {
        let mut round = cards_of(contenders);
        let repeated = round.iter().copied().filter(|_| chance.one_in(5)).collect::<Vec<u8>>();
        round.extend(repeated);
        chance.shuffle(&mut round);
        cards.extend(round);
    }
    cards
}

/// A settle list: of every sort, from those that settle to those with numbers that don't belong there, at the end as well. Idle cards are
/// the most frequent of these, since only in arbitration is a list refused for them.
pub fn list(chance: &mut Chance, state: &State) -> Vec<u8> {
    let contenders = set_at(state, CONTENDERS_AT);
    let many = chance.pick(&[0, 1, 1, 2, 3, 4, 5, 40]);
    let mut cards = rounds(chance, contenders, many);
    match chance.below(10) {
        0 => cards = (0..chance.below(60)).map(|_| chance.next() as u8).collect(),
        1 => cards = (0..chance.below(60)).map(|_| chance.between(0, 15)).collect(),
        2 => cards.truncate(chance.below(6)),
        3 => cards = vec![card_from(chance, contenders).unwrap_or(0); chance.below(20)],
        _ => {}
    }
    let stray = match chance.below(16) {
        0 => Some(chance.pick(&[16, 17, 128, 255])),
        1 => card_from(chance, !set_at(state, FITTED_AT)),
        2..=6 => card_from(chance, set_at(state, FITTED_AT) & !contenders),
        _ => None,
    };
    if let Some(card) = stray {
        let at = chance.pick(&[0, cards.len() / 2, cards.len()]);
        cards.insert(at, card);
    }
    cards
}

/// A number that no card has, often one whose low bits are a card's.
pub fn no_card(chance: &mut Chance) -> u8 {
    let (any, card) = (chance.between(16, 255), chance.between(0, 15));
    chance.pick(&[16, 255, any, 16 + card, 32 + card, 128 + card])
}

/// A card to ask about, mostly a contender if there is one; of the others, idle cards are the most frequent, as in a list.
pub fn asker(chance: &mut Chance, state: &State) -> u8 {
    let (fitted, contenders) = (set_at(state, FITTED_AT), set_at(state, CONTENDERS_AT));
    let found = match chance.below(12) {
        0 => Some(no_card(chance)),
        1 => card_from(chance, !fitted),
        2 | 3 => card_from(chance, fitted & !contenders),
        _ => card_from(chance, contenders),
    };
    found.unwrap_or(chance.between(0, 15))
}

pub fn page_codes(chance: &mut Chance) -> Vec<u8> {
    let length = if chance.one_in(8) { wrong_length(chance, PAGES_SIZE) } else { PAGES_SIZE };
    let mut codes: Vec<u8> = (0..length).map(|_| chance.between(0, 2)).collect();
    if chance.one_in(3) && length > 0 {
        let any = chance.next() as u8;
        codes[chance.below(length)] = chance.pick(&[3, 4, 255, any]);
    }
    codes
}

/// An accepted event's answer in this phase, with so many cycles; no other byte needs to fit.
pub fn answer_in(chance: &mut Chance, phase: u8, cycles: u8) -> Vec<u8> {
    let mut answer: Vec<u8> = (0..ANSWER_SIZE).map(|_| chance.next() as u8).collect();
    (answer[0], answer[1], answer[6]) = (0, phase, cycles);
    answer
}

/// An answer for a picture, now and then a refused event's or of a wrong length.
pub fn answer(chance: &mut Chance) -> Vec<u8> {
    let (any_phase, any_cycles) = (chance.next() as u8, chance.next() as u8);
    let (phase, cycles) = (chance.pick(&[any_phase, any_phase % 6]), chance.pick(&[1, 2, any_cycles, any_cycles % 4]));
    let mut answer = answer_in(chance, phase, cycles);
    if chance.one_in(8) {
        answer[0] = chance.next() as u8;
    }
    if chance.one_in(8) {
        answer.resize(wrong_length(chance, ANSWER_SIZE), 0);
    }
    answer
}

pub const DIGITS: &[u8; 16] = b"0123456789ABCDEF";

pub fn digits(chance: &mut Chance, number: usize) -> Vec<u8> {
    (0..number).map(|_| chance.pick(DIGITS)).collect()
}

/// A byte that is none of the digits, often one near them: beside them, a small letter, a blank, or a digit with its top bit set.
pub fn wrong_character(chance: &mut Chance) -> u8 {
    loop {
        let (any, near) = (chance.next() as u8, chance.pick(b"/:@G`abefgO \t\r\n\0\xB0\xB9\xC1\xC6\xFF"));
        let byte = chance.pick(&[any, near]);
        if !DIGITS.contains(&byte) {
            return byte;
        }
    }
}

/// A line to read: of any levels, with any pins driven or all of them; now and then with wrong characters or of a wrong length.
pub fn line(chance: &mut Chance) -> Vec<u8> {
    let number = if chance.one_in(8) { wrong_length(chance, PICTURE_DIGITS) } else { PICTURE_DIGITS };
    let mut line = digits(chance, number);
    if chance.one_in(3) && number == PICTURE_DIGITS {
        line[PICTURE_DIGITS / 2..].fill(b'F');
    }
    if chance.one_in(6) && number > 0 {
        for _ in 0..chance.pick(&[1, 1, 2, 3, 50]) {
            line[chance.below(number)] = wrong_character(chance);
        }
    }
    line
}

/// Every field there is, those of a page or a card with this number.
pub fn fields(number: u8) -> [Field; 8] {
    use Field::*;
    [Fitted, Page(number), Phase, Contenders, Driven(number), Granted, Lines, MakesSense]
}

pub fn field(chance: &mut Chance) -> Field {
    let any = chance.next() as u8;
    let number = chance.pick(&[0, 15, 16, 255, any, any % 16, any % 16, any % 16]);
    chance.pick(&fields(number))
}

/// Too many bytes by so much that the low byte, and with the second the low sixteen bits, of the length are right.
const FAR_TOO_MANY: [usize; 2] = [0x100, 0x1_0000];

pub fn wrong_lengths(right: usize) -> [usize; 5] {
    [0, right - 1, right + 1, right + FAR_TOO_MANY[0], right + FAR_TOO_MANY[1]]
}

fn wrong_length(chance: &mut Chance, right: usize) -> usize {
    match chance.below(6) {
        _ if chance.one_in(30) => right + chance.pick(&FAR_TOO_MANY),
        0 => 0,
        1 | 2 => right - 1,
        3 => right + 1,
        4 => chance.below(right),
        _ => right + usize::from(chance.between(1, 64)),
    }
}

/// The right lengths, now and then with some of them wrong.
pub fn lengths(chance: &mut Chance) -> Lengths {
    let mut lengths = RIGHT;
    if chance.one_in(12) {
        let Lengths { state, memory, ports, answer, lines, seen, outcome } = &mut lengths;
        for length in [state, memory, ports, answer, lines, seen, outcome] {
            if chance.one_in(3) {
                *length = wrong_length(chance, *length);
            }
        }
    }
    lengths
}
