//! Compares the proved library, called through its C face, with an independent model of the rules in 01, of the pictures in 02, CR 1, of
//! the refused lines in 02, CR 2, and of the reasons for a card's loss in 02, CR 4, and tells what was reached.
//!
//! Usage: compare [CALLS [SEED]], where CALLS is the least number of random calls. It exits 0 only if the two agreed in everything and
//! everything was reached that ought to be.

mod both;
mod draw;
mod face;
mod model;
mod reading;
mod rounds;
mod tally;
mod why;

use both::{Both, Call, Lengths, State, RIGHT};
use draw::Chance;
use face::{Event, Field, ANSWER_SIZE, PICTURES_SIZE, PICTURE_DIGITS, SEEN_SIZE};
use face::{GRANTED_AT, NOBODY, PAGES_AT, PAGES_SIZE, PERMANENT_MASTER, STATE_SIZE};
use model::Refusal;
use why::Told;

fn setup(chance: &mut Chance) -> Call {
    Call::Setup { fitted: chance.next() as u16, pages: draw::page_codes(chance) }
}

fn picture(chance: &mut Chance) -> Call {
    let (any_kind, cycle) = (chance.next() as u8, chance.between(0x06, 0x0C));
    Call::Picture { kind: chance.pick(&[any_kind, cycle, cycle]), address: draw::memory_address(chance), answer: draw::answer(chance) }
}

/// A call that has nothing to do with the one before.
fn single(both: &mut Both, chance: &mut Chance) {
    let state = draw::state(chance);
    both.place(&state);
    let call = match chance.below(13) {
        0 => setup(chance),
        1 | 2 => Call::Settle { cards: draw::list(chance, &state) },
        3 => Call::Field(draw::field(chance)),
        4 => picture(chance),
        5 => Call::ReadPicture { line: draw::line(chance), afresh: chance.one_in(2) },
        6 => Call::Why { card: draw::asker(chance, &state) },
        _ => Call::Step(draw::event(chance, &state)),
    };
    both.make(call, draw::lengths(chance));
}

/// A run of calls over one state, from a setup on.
fn walk(both: &mut Both, chance: &mut Chance, calls: usize) {
    while both.make(setup(chance), RIGHT) != 0 {}
    for _ in 0..calls {
        let state = both.state();
        let call = match chance.below(31) {
            0 => Call::Settle { cards: draw::list(chance, &state) },
            1 => Call::Field(draw::field(chance)),
            2 => Call::Why { card: draw::asker(chance, &state) },
            3..=9 => Call::Step(draw::event(chance, &state)),
            _ => Call::Step(draw::next_event(chance, &state)),
        };
        both.make(call, draw::lengths(chance));
    }
}

fn random_calls(both: &mut Both, chance: &mut Chance, calls: u64) {
    let end = both.calls + calls;
    while both.calls < end {
        if chance.one_in(200) {
            let long = chance.below(400);
            walk(both, chance, long);
        } else {
            single(both, chance);
        }
    }
}

/// Each kind with each speaker in each phase, otherwise with fields such as the kind may have.
fn kinds_and_speakers(both: &mut Both, chance: &mut Chance) {
    for phase in 0..=5 {
        let state = draw::sensible_in(chance, phase);
        for kind in 0..=255 {
            for speaker in 0..=255 {
                both.place(&state);
                both.step(Event { speaker, ..draw::event_of_kind(chance, &state, kind) });
            }
        }
    }
}

/// Each value of each byte of a state, in each phase.
fn bytes_of_a_state(both: &mut Both, chance: &mut Chance, cases: usize) {
    for case in 0..6 * cases {
        let state = draw::sensible_in(chance, (case % 6) as u8);
        for at in 0..STATE_SIZE {
            for byte in 0..=255 {
                let mut other = state;
                other[at] = byte;
                both.place(&other);
                both.read(Field::MakesSense);
                both.make(Call::Why { card: draw::asker(chance, &other) }, RIGHT);
                both.step(draw::next_event(chance, &other));
            }
        }
    }
}

/// Every code in every place of the sixteen.
fn page_codes(both: &mut Both, chance: &mut Chance) {
    let mut nothing: State = [0; STATE_SIZE];
    nothing[GRANTED_AT] = NOBODY;
    for place in 0..PAGES_SIZE {
        for code in 0..=255 {
            let mut pages: Vec<u8> = (0..PAGES_SIZE).map(|_| chance.between(0, 2)).collect();
            pages[place] = code;
            let number = both.make(Call::Setup { fitted: chance.next() as u16, pages }, RIGHT);
            if code <= 2 {
                both.expect(number == 0 && both.state()[PAGES_AT + place] == code, "setup takes page codes up to 2");
            } else {
                both.expect(number == Refusal::BadPage as u32 && both.state() == nothing, "setup refuses page codes above 2");
            }
        }
    }
}

fn senseless_states(both: &mut Both, chance: &mut Chance, cases: usize) {
    for (way, draw_state) in draw::SENSELESS {
        for _ in 0..cases {
            let state = draw_state(chance);
            both.place(&state);
            let sense = both.read(Field::MakesSense);
            both.expect(sense == 0, way);
            both.read(Field::Lines);
            let number = both.step(draw::next_event(chance, &state));
            both.expect(number == Refusal::Senseless as u32, way);
            let number = both.settle(draw::list(chance, &state));
            both.expect(number == Refusal::Senseless as u32, way);
        }
    }
}

/// Each buffer alone of a wrong length, with every call that it is lent to; pictures, readings and outcomes have trials of their own.
fn wrong_lengths(both: &mut Both, chance: &mut Chance, cases: usize) {
    for case in 0..cases {
        let wrong = |right: usize| draw::wrong_lengths(right)[case % 5];
        let state = draw::sensible_in(chance, (case % 6) as u8);
        both.place(&state);
        let wrong_state = Lengths { state: wrong(RIGHT.state), ..RIGHT };
        let right_pages = Call::Setup { fitted: chance.next() as u16, pages: vec![1; PAGES_SIZE] };
        let wrong_pages = Call::Setup { fitted: chance.next() as u16, pages: vec![1; wrong(PAGES_SIZE)] };
        let settle = Call::Settle { cards: draw::list(chance, &state) };
        let mut calls = vec![(right_pages, wrong_state), (wrong_pages, RIGHT), (settle, wrong_state)];
        calls.extend(draw::fields(chance.between(0, 15)).map(|field| (Call::Field(field), wrong_state)));
        let (memory, ports, answer) = (wrong(RIGHT.memory), wrong(RIGHT.ports), wrong(RIGHT.answer));
        for lent in [wrong_state, Lengths { memory, ..RIGHT }, Lengths { ports, ..RIGHT }, Lengths { answer, ..RIGHT }] {
            calls.push((Call::Step(draw::next_event(chance, &state)), lent));
        }
        for (call, lent) in calls {
            both.make(call, lent);
            both.expect(both.state() == state, "a call with a wrong length leaves the state");
        }
    }
}

/// Each kind, also where there is no such phase or number of cycles.
fn kinds_pictured(both: &mut Both, chance: &mut Chance) {
    for kind in 0..=255 {
        for phase in [0, 1, 2, 3, 4, 5, 6, 7, 0x80, 0xFF] {
            for cycles in [0, 1, 2, 3, 0x82, 0xFF] {
                let (address, answer) = (chance.next() as u32, draw::answer_in(chance, phase, cycles));
                let written = both.make(Call::Picture { kind, address, answer }, RIGHT);
                let lines = if cycles == 2 && [0x09, 0x0A].contains(&kind) { 2 } else { 1 };
                both.expect(written == 51 * lines, "only a word in two cycles has a second line");
            }
        }
    }
}

/// Each buffer of a picture and of its reading alone of a wrong length, which comes before refused events and bad lines. Room for one
/// line is wrong as well, also where there is no second.
fn wrong_lengths_of_pictures(both: &mut Both, chance: &mut Chance, cases: usize) {
    for case in 0..cases {
        let (kind, address) = (chance.between(0x01, 0x0F), draw::memory_address(chance));
        let mut answer = draw::answer_in(chance, (case % 6) as u8, 1 + case as u8 % 2);
        answer[0] = chance.pick(&[0, 0, 0, 0x06]);
        let picture = |answer: &[u8]| Call::Picture { kind, address, answer: answer.to_vec() };
        let mut calls = Vec::new();
        for length in draw::wrong_lengths(ANSWER_SIZE) {
            let mut cut_or_longer = answer.clone();
            cut_or_longer.resize(length, 0);
            calls.push((picture(&cut_or_longer), RIGHT));
        }
        for lines in draw::wrong_lengths(PICTURES_SIZE).into_iter().chain([1, PICTURE_DIGITS, PICTURE_DIGITS + 1]) {
            calls.push((picture(&answer), Lengths { lines, ..RIGHT }));
        }
        for seen in draw::wrong_lengths(SEEN_SIZE).into_iter().chain([1, 2]) {
            let mut wrong = draw::digits(chance, PICTURE_DIGITS);
            wrong[chance.below(PICTURE_DIGITS)] = draw::wrong_character(chance);
            for line in [draw::digits(chance, PICTURE_DIGITS), wrong, draw::digits(chance, PICTURE_DIGITS - 1)] {
                calls.push((Call::ReadPicture { line, afresh: true }, Lengths { seen, ..RIGHT }));
            }
        }
        for (call, lent) in calls {
            let number = both.make(call, lent);
            both.expect(number == Refusal::WrongLength as u32, "a wrong length is told before all else");
        }
    }
}

/// What a word written and then read leaves and shows, over a page of this code: the bytes, the datum and the cycles.
fn word_over(both: &mut Both, page: u8, write: Event, before: [u8; 2]) -> ([u8; 2], [u8; 2], u8) {
    let at = write.address as usize;
    let mut state = both.state();
    state[PAGES_AT + at / 0x1000] = page;
    both.place(&state);
    both.place_memory(at, &before);
    let written = both.step(write);
    let bytes = [both.library.memory.bytes()[at], both.library.memory.bytes()[at + 1]];
    let read = both.step(Event { kind: 0x09, datum: 0, ..write });
    both.expect(written == 0 && read == 0, "a word at an even address of a present page is accepted");
    let answer = both.library.answer.bytes();
    (bytes, [answer[7], answer[8]], answer[6])
}

/// 01, "Bytes, words, status": the width of the page is seen in the cycles and nowhere else.
fn words(both: &mut Both, chance: &mut Chance, cases: usize) {
    for _ in 0..cases {
        let free = draw::sensible_in(chance, 0);
        both.place(&free);
        let (address, datum, before) = (chance.next() as u32 & 0xFFFE, chance.next() as u16, (chance.next() as u16).to_be_bytes());
        let write = Event { kind: 0x0A, speaker: PERMANENT_MASTER, address, datum };
        let halves = [(datum >> 8) as u8, (datum & 0xFF) as u8];
        let eight_bit = word_over(both, 1, write, before);
        both.expect(eight_bit == (halves, halves, 2), "over an eight-bit page the high half goes to the even address, in two cycles");
        let sixteen_bit = word_over(both, 2, write, before);
        both.expect(sixteen_bit == (halves, halves, 1), "over a sixteen-bit page the high half goes to the even address, in one cycle");
    }
}

fn lines_to_read(both: &mut Both, chance: &mut Chance) {
    reading::pins_turned_over(both, chance, 30);
    reading::characters(both, chance);
    reading::several_wrong_characters(both, chance, 4);
    reading::long_characters(both, chance);
    reading::wrong_line_lengths(both, chance);
    reading::one_byte_more(both, chance);
    reading::into_one_place(both, chance, 20);
}

/// Tells how many cards won and lost where the lines were settled, and returns what is wrong about these numbers: each of the sixteen
/// contends in half of the 65,536 sets, of which one is empty, and in each of the others one wins.
fn outcomes(both: &mut Both, chance: &mut Chance) -> Option<String> {
    why::random_levels(both, chance, 10_000);
    why::one_bit_off(both, chance, 200);
    why::numbers_in_phases(both, chance, 50);
    why::senseless_states(both, chance, 200);
    why::reasons_together(both, chance, 100);
    why::wrong_lengths(both, chance, 200);
    let told = why::every_set(both, chance);
    println!("all sets of contenders, settled, and all cards: {} wins, {} losses, {} refusals", told.wins, told.losses, told.refusals);
    let (sets, contenders) = (65_535, 16 * 32_768);
    let expected = Told { wins: sets, losses: contenders - sets, refusals: sets * why::NUMBERS - contenders };
    (told != expected).then(|| format!("all sets of contenders, settled: {told:?} instead of {expected:?}"))
}

/// Tells how many sets of contenders were taken through four rounds, and returns what is wrong about these numbers.
fn arbitration(both: &mut Both, chance: &mut Chance) -> Vec<String> {
    rounds::three_rounds_fall_short(both, chance);
    rounds::acknowledge_waits(both, chance, 20_000);
    rounds::settle_counts(both, chance, 5000);
    let mut faults = Vec::new();
    for (what, sets, taken) in [
        ("all sets of contenders", 65_535, rounds::every_set(both, chance)),
        ("sets of three, in all orders", 560, rounds::sets_of_three(both, chance)),
        ("small sets, in random orders", 20_000, rounds::small_sets(both, chance, 20_000)),
    ] {
        println!("{what}, taken through four rounds: {}, for {} of which three were too few", taken.sets, taken.late);
        if taken.sets != sets {
            faults.push(format!("{what}: {} instead of {sets}", taken.sets));
        }
        if taken.late == 0 {
            faults.push(format!("{what}: three rounds were always enough"));
        }
    }
    faults
}

fn arguments() -> Option<(u64, u64)> {
    let mut numbers = [2_000_000, 1];
    let mut given = std::env::args().skip(1);
    for number in &mut numbers {
        if let Some(text) = given.next() {
            *number = text.parse().ok()?;
        }
    }
    given.next().is_none().then_some((numbers[0], numbers[1]))
}

fn main() {
    let Some((calls, seed)) = arguments() else {
        eprintln!("usage: compare [CALLS [SEED]]");
        std::process::exit(2);
    };
    let (mut both, mut chance) = (Both::new(seed), Chance(seed));
    random_calls(&mut both, &mut chance, calls);
    kinds_and_speakers(&mut both, &mut chance);
    bytes_of_a_state(&mut both, &mut chance, 3);
    senseless_states(&mut both, &mut chance, 300);
    page_codes(&mut both, &mut chance);
    words(&mut both, &mut chance, 5000);
    wrong_lengths(&mut both, &mut chance, 300);
    kinds_pictured(&mut both, &mut chance);
    wrong_lengths_of_pictures(&mut both, &mut chance, 60);
    lines_to_read(&mut both, &mut chance);
    let mut faults = arbitration(&mut both, &mut chance);
    faults.extend(outcomes(&mut both, &mut chance));
    both.end();

    both.tally.print();
    println!("calls in all: {} (seed {seed})", both.calls);
    faults.extend(both.tally.faults());
    for fault in &faults {
        println!("not as it ought to be: {fault}");
    }
    std::process::exit(i32::from(!faults.is_empty()));
}
