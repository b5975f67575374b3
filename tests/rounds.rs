//! Arbitration tried out by single looks: four rounds for every set of contenders, three that fall short, and the counts of settle.

use crate::both::{Both, State};
use crate::draw::{self, cards_of, set_at, Chance};
use crate::face::{Event, Field, ANSWER_SIZE, CONTENDERS_AT, DRIVEN_AT, GRANTED_AT, MEMORY_SIZE, PHASE_AT, PORTS_SIZE};
use crate::model::{self, Refusal};
use std::collections::BTreeSet;

const ACKNOWLEDGE: Event = Event { kind: 0x03, speaker: 0, address: 0, datum: 0 };

fn look(card: u8) -> Event {
    Event { kind: 0x02, speaker: card, address: 0, datum: 0 }
}

fn shows(both: &mut Both, number: u8) -> bool {
    both.read(Field::Lines) == u32::from(number)
}

/// Something that may happen in arbitration and moves nothing there: a cycle, or an event to be refused.
fn interlude(both: &mut Both, chance: &mut Chance) {
    let before = both.state();
    let idle: Vec<u8> = cards_of(!set_at(&before, CONTENDERS_AT));
    let kind = chance.pick(&[0x01, 0x04, 0x06, 0x06, 0x07, 0x08, 0x08, 0x0A, 0x0C, 0x0D]);
    let event = match chance.below(5) {
        0 if !idle.is_empty() => look(chance.pick(&idle)),
        1 => Event { datum: 1, ..look(chance.between(0, 16)) },
        _ => draw::event_of_kind(chance, &before, kind),
    };
    both.step(event);
    both.expect(both.state() == before, "only looks, acknowledge and reset move an arbitration");
}

/// The looks of one round, which starts from this state.
type Round = fn(&mut Chance, &State) -> Vec<u8>;

fn at_random(chance: &mut Chance, state: &State) -> Vec<u8> {
    draw::rounds(chance, set_at(state, CONTENDERS_AT), 1)
}

fn ascending(_: &mut Chance, state: &State) -> Vec<u8> {
    cards_of(set_at(state, CONTENDERS_AT))
}

/// First those whose looks change the fewest bits: so they have looked already when another makes the change that they wait for.
fn unluckily(_: &mut Chance, state: &State) -> Vec<u8> {
    let mut contenders = model::contenders_from(state);
    let mut waiting: Vec<usize> = (0..contenders.len()).collect();
    let mut round = Vec::new();
    while !waiting.is_empty() {
        let shown = model::lines(&contenders);
        let changes = |at: &usize| (contenders[*at].would_drive(shown) ^ contenders[*at].drives).count_ones();
        let first = (0..waiting.len()).min_by_key(|place| changes(&waiting[*place])).expect("one that waits");
        let looking = &mut contenders[waiting.remove(first)];
        looking.drives = looking.would_drive(shown);
        round.push(looking.number);
    }
    round
}

fn one_round(both: &mut Both, chance: &mut Chance, round: Round) {
    for card in round(chance, &both.state()) {
        let number = both.step(look(card));
        both.expect(number == 0, "a contender may look");
        if chance.one_in(8) {
            interlude(both, chance);
        }
    }
}

fn is_acknowledged(both: &mut Both) -> bool {
    let before = both.state();
    let number = both.step(ACKNOWLEDGE);
    both.place(&before);
    number == 0
}

pub fn grants(both: &mut Both, highest: u8) {
    let mut expected = both.state();
    let number = both.step(ACKNOWLEDGE);
    expected[CONTENDERS_AT..GRANTED_AT].fill(0);
    expected[PHASE_AT] = 2;
    expected[GRANTED_AT] = highest;
    both.expect(number == 0 && both.state() == expected, "settled lines are acknowledged and the highest contender is granted");
}

fn ends_settled(both: &mut Both) {
    let settled = both.state();
    let cards = cards_of(set_at(&settled, CONTENDERS_AT));
    let highest = *cards.last().expect("a contender");
    let shown = shows(both, highest);
    both.expect(shown, "after four rounds the lines show the highest contender");
    for card in cards {
        both.step(look(card));
        both.expect(both.state() == settled, "a look at settled lines changes nothing");
    }
    grants(both, highest);
}

/// Whether three rounds were too few from this state on; four never are.
fn four_rounds(both: &mut Both, chance: &mut Chance, state: &State, [first, later]: [Round; 2]) -> bool {
    both.place(state);
    for round in [first, later, later] {
        one_round(both, chance, round);
    }
    let too_few = !is_acknowledged(both);
    one_round(both, chance, later);
    ends_settled(both);
    too_few
}

/// How many sets of contenders were taken through four rounds, and for how many of them three were too few.
#[derive(Default)]
pub struct Taken {
    pub sets: usize,
    pub late: usize,
}

impl Taken {
    fn note(&mut self, too_few: bool) {
        self.sets += 1;
        self.late += usize::from(too_few);
    }
}

/// Every set there is, in random rounds and in unlucky ones, whose first ascends: so low cards drive what a high one would have kept down.
pub fn every_set(both: &mut Both, chance: &mut Chance) -> Taken {
    let mut taken = Taken::default();
    for contenders in 1..=0xFFFF {
        let (driven, undriven) = (draw::driven_arbitration(chance, contenders), draw::undriven_arbitration(chance, contenders));
        let random_late = four_rounds(both, chance, &driven, [at_random, at_random]);
        let unlucky_late = four_rounds(both, chance, &undriven, [ascending, unluckily]);
        taken.note(random_late || unlucky_late);
    }
    taken
}

/// Up to four contenders that don't yet drive, where three random rounds are too few more often.
pub fn small_sets(both: &mut Both, chance: &mut Chance, cases: usize) -> Taken {
    let mut taken = Taken::default();
    for _ in 0..cases {
        let contenders = (0..4).fold(0, |set, _| set | 1 << chance.below(16));
        let state = draw::undriven_arbitration(chance, contenders);
        taken.note(four_rounds(both, chance, &state, [at_random, at_random]));
    }
    taken
}

const ORDERS_OF_THREE: [[usize; 3]; 6] = [[0, 1, 2], [0, 2, 1], [1, 0, 2], [1, 2, 0], [2, 0, 1], [2, 1, 0]];

/// The states in which a round of three can end that starts from one of these.
fn ends_of_a_round(both: &mut Both, states: &BTreeSet<State>) -> BTreeSet<State> {
    let mut ends = BTreeSet::new();
    for state in states {
        let cards = cards_of(set_at(state, CONTENDERS_AT));
        for order in ORDERS_OF_THREE {
            both.place(state);
            for at in order {
                let number = both.step(look(cards[at]));
                both.expect(number == 0, "a contender may look");
            }
            ends.insert(both.state());
        }
    }
    ends
}

/// Every set of three in every order of every round, from where none drives and from where all drive 15.
pub fn sets_of_three(both: &mut Both, chance: &mut Chance) -> Taken {
    let mut taken = Taken::default();
    for contenders in (1..=0xFFFF_u16).filter(|set| set.count_ones() == 3) {
        let undriven = draw::undriven_arbitration(chance, contenders);
        let mut driven = undriven;
        for card in cards_of(contenders) {
            driven[DRIVEN_AT + usize::from(card)] = 15;
        }
        let mut states = BTreeSet::from([undriven, driven]);
        for _ in 0..3 {
            states = ends_of_a_round(both, &states);
        }
        let mut too_few = false;
        for state in &states {
            both.place(state);
            too_few |= !is_acknowledged(both);
        }
        for state in &ends_of_a_round(both, &states) {
            both.place(state);
            ends_settled(both);
        }
        taken.note(too_few);
    }
    taken
}

/// 01, "Marked for proof", M1 to M6.
pub fn three_rounds_fall_short(both: &mut Both, chance: &mut Chance) {
    let undriven = draw::undriven_arbitration(chance, 1 << 4 | 1 << 9 | 1 << 10);
    let rounds = [[4, 9, 10], [9, 10, 4], [9, 10, 4], [9, 10, 4]];
    both.place(&undriven);
    for (round, lines) in rounds.iter().zip([12, 8, 11, 10]) {
        let early = is_acknowledged(both);
        both.expect(!early, "three rounds fall short");
        for card in round {
            both.step(look(*card));
        }
        let shown = shows(both, lines);
        both.expect(shown, "lines 12, 8, 11, 10");
    }
    let after_all = both.state();
    both.place(&undriven);
    let number = both.settle(rounds.concat());
    both.expect(number == 0 && both.library.looks() == 10 && both.state() == after_all, "settle over the twelve takes 10 looks");
    both.place(&undriven);
    let number = both.settle(rounds[..3].concat());
    both.expect(number == Refusal::Unsettled as u32, "settle over the first nine is refused");
    both.expect(both.state() == undriven && both.library.looks() == 0, "a refused settle takes no look");
}

/// An acknowledge, accepted or refused by what the contenders' looks, each tried alone, do to the same state.
pub fn acknowledge_waits(both: &mut Both, chance: &mut Chance, cases: usize) {
    for _ in 0..cases {
        let state = draw::sensible_in(chance, 1);
        let cards = cards_of(set_at(&state, CONTENDERS_AT));
        let mut unsettled = false;
        for card in &cards {
            both.place(&state);
            both.step(look(*card));
            unsettled |= both.state() != state;
        }
        both.place(&state);
        if unsettled {
            let number = both.step(ACKNOWLEDGE);
            both.expect(number == Refusal::Unsettled as u32, "an acknowledge waits for settled lines");
        } else {
            grants(both, *cards.last().expect("a contender"));
        }
    }
}

/// Single looks on the model, apart from its settle.
struct Looks {
    memory: Vec<u8>,
    ports: [u8; PORTS_SIZE],
    answer: [u8; ANSWER_SIZE],
}

impl Looks {
    fn after(&mut self, mut state: State, card: u8) -> State {
        model::step(&mut state, look(card), &mut self.memory, &mut self.ports, &mut self.answer);
        state
    }

    fn have_settled(&mut self, state: &State) -> bool {
        cards_of(set_at(state, CONTENDERS_AT)).iter().all(|card| self.after(*state, *card) == *state)
    }

    /// Where a settle has to end: the looks taken and the state, if the list is long enough.
    fn end(&mut self, mut state: State, cards: &[u8]) -> Option<(usize, State)> {
        for taken in 0..=cards.len() {
            if self.have_settled(&state) {
                return Some((taken, state));
            }
            state = self.after(state, *cards.get(taken)?);
        }
        None
    }
}

fn settle_ends_in_time(both: &mut Both, looks: &mut Looks, state: State, cards: Vec<u8>) {
    let end = looks.end(state, &cards);
    both.place(&state);
    let settled = both.settle(cards) == 0;
    let found = settled.then(|| (both.library.looks(), both.state()));
    both.expect(found == end, "settle ends where single looks show that it has to");
}

/// Short lists of all contenders, and long ones in which one card looks so often that a counter of 8 or 16 bits would run over.
pub fn settle_counts(both: &mut Both, chance: &mut Chance, cases: usize) {
    let mut looks = Looks { memory: vec![0; MEMORY_SIZE], ports: [0; PORTS_SIZE], answer: [0; ANSWER_SIZE] };
    for _ in 0..cases {
        let (state, number) = (draw::sensible_in(chance, 1), chance.below(5));
        let mut cards = draw::rounds(chance, set_at(&state, CONTENDERS_AT), number);
        cards.truncate(chance.below(60));
        settle_ends_in_time(both, &mut looks, state, cards);
    }
    for many in [254, 255, 256, 257, 65_534, 65_535, 65_536, 65_537, 150_000] {
        let (low, high) = (chance.between(0, 7), chance.between(8, 15));
        let state = draw::undriven_arbitration(chance, 1 << low | 1 << high);
        let mut cards = vec![low; many];
        settle_ends_in_time(both, &mut looks, state, cards.clone());
        cards.extend([high, low, high, low, high]);
        settle_ends_in_time(both, &mut looks, state, cards);
    }
}
