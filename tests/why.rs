//! Why cards lose, tried out with every card: every set of contenders once its lines are settled, lines that aren't, all phases, and states
//! that make no sense; then the reasons to refuse, several at once, and wrong lengths.

use crate::both::{Both, Call, Lengths, State, RIGHT};
use crate::draw::{self, cards_of, put_set, set_at, Chance};
use crate::face::{Field, NOBODY, NO_LINE, OUTCOME_SIZE, PAGES_SIZE, STATE_SIZE};
use crate::face::{CONTENDERS_AT, DRIVEN_AT, FITTED_AT, GRANTED_AT, PAGES_AT, PHASE_AT};
use crate::model::{self, Contender, Refusal};
use crate::rounds;

/// The reasons to refuse, in their order: 02, CR 4.
pub const REASONS: [Refusal; 6] =
    [Refusal::Senseless, Refusal::Malformed, Refusal::NotFitted, Refusal::WrongPhase, Refusal::NotItsTurn, Refusal::Unsettled];

/// A state with what the rules have to know of it, whatever the card.
struct Asked {
    state: State,
    senseless: bool,
    contenders: Vec<Contender>,
    shown: u8,
    unsettled: bool,
}

impl Asked {
    fn place(both: &mut Both, state: State, senseless: bool) -> Asked {
        both.place(&state);
        let contenders = model::contenders_from(&state);
        let shown = model::lines(&contenders);
        let unsettled = contenders.iter().any(|card| card.would_drive(shown) != card.drives);
        Asked { state, senseless, contenders, shown, unsettled }
    }

    /// Which reasons hold, in the order of `REASONS`, each judged for itself. A number above 15 never contends, and 05 isn't for it.
    fn reasons(&self, card: u8) -> [bool; 6] {
        let is_in = |at| card <= 15 && set_at(&self.state, at) >> card & 1 == 1;
        let unfitted = card <= 15 && !is_in(FITTED_AT);
        [self.senseless, card > 15, unfitted, self.state[PHASE_AT] != 1, !is_in(CONTENDERS_AT), self.unsettled]
    }

    fn highest(&self) -> Option<u8> {
        self.contenders.iter().map(|card| card.number).max()
    }

    /// Whether 02, CR 4, gives the asker this line and this contender: no line above it and no contender above this one would do.
    fn gives(&self, asker: u8, line: u8, rival: &Contender) -> bool {
        let loses_at = |line: u8| asker >> line & 1 == 0 && self.shown >> line & 1 == 1;
        let drives = |card: &Contender| card.drives >> line & 1 == 1;
        let is_highest = !self.contenders.iter().any(|card| card.number > rival.number && drives(card));
        loses_at(line) && !(line + 1..4).any(loses_at) && drives(rival) && is_highest
    }

    /// Whether a reason is true, whichever others are: 02, CR 4.
    fn is_true(&self, asker: u8, line: u8, rival: u8) -> bool {
        let agree = line <= 3 && asker >> (line + 1) == rival >> (line + 1);
        agree && rival > asker && self.contenders.iter().any(|card| card.number == rival && card.drives >> line & 1 == 1)
    }
}

/// How often a card was told that it wins or that it loses, and how often it was refused.
#[derive(Debug, Default, PartialEq)]
pub struct Told {
    pub wins: usize,
    pub losses: usize,
    pub refusals: usize,
}

impl Told {
    fn add(&mut self, more: &Told) {
        self.wins += more.wins;
        self.losses += more.losses;
        self.refusals += more.refusals;
    }
}

/// How many numbers are asked about, where all cards are: theirs, and two that no card has.
pub const NUMBERS: usize = 18;

/// Asks about a card and holds what is told against the rules.
fn ask(both: &mut Both, asked: &Asked, card: u8, told: &mut Told) {
    let number = both.make(Call::Why { card }, RIGHT);
    let reasons = asked.reasons(card);
    both.tally.note_reasons(reasons);
    let first = REASONS.iter().zip(reasons).find(|(_, holds)| *holds).map_or(0, |(reason, _)| *reason as u8);
    both.expect(number == u32::from(first), "a card is refused for the first of the six reasons that holds, and for nothing else");
    let outcome: [u8; OUTCOME_SIZE] = both.library.outcome.bytes().try_into().expect("a whole outcome");
    let [refusal, named, line, rival] = outcome;
    both.expect([refusal, named] == [first, card], "an outcome has the refusal that is returned, and the card as given");
    both.expect(both.state() == asked.state, "the state is only read");
    match (refusal, line, rival) {
        (0, NO_LINE, NOBODY) => {
            told.wins += 1;
            both.expect(asked.highest() == Some(card), "no contender wins but the highest");
        }
        (0, ..) => {
            told.losses += 1;
            loses(both, asked, card, (line, rival));
        }
        _ => {
            told.refusals += 1;
            both.expect((line, rival) == (NO_LINE, NOBODY), "a refusal tells no line and no rival");
        }
    }
}

fn loses(both: &mut Both, asked: &Asked, card: u8, (line, rival): (u8, u8)) {
    let is_true = asked.is_true(card, line, rival);
    both.expect(is_true, "the rival contends, outranks the asker, agrees with it on all higher lines and drives the line, one of 3 to 0");
    let pairs = (0..4).flat_map(|line| asked.contenders.iter().map(move |rival| (line, rival)));
    let given = pairs.filter(|(line, rival)| asked.gives(card, *line, rival)).map(|(line, rival)| (line, rival.number));
    both.expect(given.eq([(line, rival)]), "a loser gets the one line and card that have the properties");
    both.expect(asked.highest() == Some(rival), "a loser loses to the highest contender");
}

fn ask_all(both: &mut Both, chance: &mut Chance, asked: &Asked) -> Told {
    let mut told = Told::default();
    let no_cards = [draw::no_card(chance), draw::no_card(chance)];
    for card in (0..=15).chain(no_cards) {
        ask(both, asked, card, &mut told);
    }
    told
}

/// Every set there is, settled: one contender wins and is granted, so none of those that lose is.
pub fn every_set(both: &mut Both, chance: &mut Chance) -> Told {
    let mut all = Told::default();
    for contenders in 1..=0xFFFF_u16 {
        let asked = Asked::place(both, draw::settled_arbitration(chance, contenders), false);
        let settled = both.settle(Vec::new()) == 0;
        both.expect(settled && !asked.unsettled, "lines are settled where each drives what it keeps beside the highest");
        let told = ask_all(both, chance, &asked);
        let others = asked.contenders.len() - 1;
        both.expect((told.wins, told.losses) == (1, others), "exactly one contender wins, and each other gets a reason");
        rounds::grants(both, asked.highest().expect("a contender"));
        all.add(&told);
    }
    all
}

fn some_contenders(chance: &mut Chance) -> u16 {
    draw::any_set(chance) | 1 << chance.below(16)
}

/// Whatever the contenders drive; only by chance are such lines settled.
pub fn random_levels(both: &mut Both, chance: &mut Chance, cases: usize) {
    for _ in 0..cases {
        let contenders = some_contenders(chance);
        let asked = Asked::place(both, draw::driven_arbitration(chance, contenders), false);
        ask_all(both, chance, &asked);
    }
}

/// Settled lines with one bit after the other of what each contender drives turned over: also where the lines still show the highest.
pub fn one_bit_off(both: &mut Both, chance: &mut Chance, cases: usize) {
    for _ in 0..cases {
        let contenders = some_contenders(chance);
        let settled = draw::settled_arbitration(chance, contenders);
        for (card, weight) in cards_of(contenders).into_iter().flat_map(|card| [8, 4, 2, 1].map(|weight| (card, weight))) {
            let mut state = settled;
            state[DRIVEN_AT + usize::from(card)] ^= weight;
            let asked = Asked::place(both, state, false);
            let told = ask_all(both, chance, &asked);
            both.expect(told.refusals == NUMBERS, "nobody is told anything while a contender drives one bit more or less than it will");
        }
    }
}

/// Every number in every phase.
pub fn numbers_in_phases(both: &mut Both, chance: &mut Chance, cases: usize) {
    for case in 0..6 * cases {
        let asked = Asked::place(both, draw::sensible_in(chance, (case % 6) as u8), false);
        let mut told = Told::default();
        for card in 0..=255 {
            ask(both, &asked, card, &mut told);
        }
        both.expect(case % 6 == 1 || told.refusals == 256, "no card wins or loses outside arbitration");
    }
}

pub fn senseless_states(both: &mut Both, chance: &mut Chance, cases: usize) {
    for (way, draw_state) in draw::SENSELESS {
        for _ in 0..cases {
            let asked = Asked::place(both, draw_state(chance), true);
            let told = ask_all(both, chance, &asked);
            both.expect(told.refusals == NUMBERS, way);
        }
    }
}

/// An arbitration and a card in it, in which any of the reasons are made to hold; where they don't fit together the state makes no sense.
fn with_reasons(chance: &mut Chance, [senseless, no_card, unfitted, elsewhere, idle, unsettled]: [bool; 6]) -> (State, u8) {
    let contenders = some_contenders(chance);
    let levels = if unsettled { draw::driven_arbitration } else { draw::settled_arbitration };
    let mut state = levels(chance, contenders);
    let card = chance.pick(&cards_of(contenders));
    let without = |set: u16| set & !(1 << card);
    if senseless {
        let (at, byte) = chance.pick(&[(PAGES_AT, 3), (PAGES_AT + PAGES_SIZE - 1, 255), (GRANTED_AT, card)]);
        state[at] = byte;
    }
    if unfitted {
        let fitted = set_at(&state, FITTED_AT);
        put_set(&mut state, FITTED_AT, without(fitted));
    }
    if elsewhere {
        state[PHASE_AT] = chance.pick(&[0, 2, 3, 4, 5, 6, 255]);
    }
    if idle {
        put_set(&mut state, CONTENDERS_AT, without(contenders));
        state[DRIVEN_AT + usize::from(card)] = 0;
    }
    (state, if no_card { draw::no_card(chance) } else { card })
}

/// The reasons to refuse, in all sets that can hold at once.
pub fn reasons_together(both: &mut Both, chance: &mut Chance, cases: usize) {
    for case in 0..64 * cases {
        let (state, card) = with_reasons(chance, std::array::from_fn(|at| case >> at & 1 == 1));
        both.place(&state);
        let senseless = both.read(Field::MakesSense) == 0;
        let asked = Asked::place(both, state, senseless);
        ask(both, &asked, card, &mut Told::default());
    }
}

/// The state, the place, or both of a wrong length, which comes before every reason to refuse.
pub fn wrong_lengths(both: &mut Both, chance: &mut Chance, cases: usize) {
    let states = draw::wrong_lengths(STATE_SIZE).map(|state| Lengths { state, ..RIGHT });
    let places = draw::wrong_lengths(OUTCOME_SIZE).into_iter().chain([1, 2]).map(|outcome| Lengths { outcome, ..RIGHT });
    let mut wrong: Vec<Lengths> = states.into_iter().chain(places).collect();
    wrong.extend(states.map(|lent| Lengths { outcome: chance.pick(&draw::wrong_lengths(OUTCOME_SIZE)), ..lent }));
    for _ in 0..cases {
        let state = draw::state(chance);
        both.place(&state);
        for lent in &wrong {
            let number = both.make(Call::Why { card: draw::asker(chance, &state) }, *lent);
            both.expect(number == Refusal::WrongLength as u32, "a wrong length is told before all else");
        }
    }
}
