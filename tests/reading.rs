//! Lines read as pictures, tried out: pins turned over, wrong characters in each column, wrong lengths, and lines of all sorts into one
//! place.

use crate::both::{Both, Call, Lengths, RIGHT};
use crate::draw::{self, Chance, DIGITS};
use crate::face::{PICTURE_DIGITS, SEEN_COLUMN_AT, SEEN_SIZE};
use crate::model::Refusal;

/// What has to be said of a line: 02, CR 2.
enum Verdict {
    Right,
    WrongLength,
    /// The first is in this column, counted from 1.
    WrongCharacter(usize),
}

/// Reads a line of which the verdict is known without the model, into a place filled afresh or as it was left.
fn judge(both: &mut Both, line: Vec<u8>, afresh: bool, verdict: Verdict) {
    let number = both.make(Call::ReadPicture { line, afresh }, RIGHT);
    let seen = both.library.seen.bytes();
    match verdict {
        Verdict::Right => both.expect(number == 0 && seen[SEEN_COLUMN_AT] == 0, "any fifty digits are read, and no column is told"),
        Verdict::WrongLength => {
            let told = number == Refusal::WrongLineLength as u32 && seen == [0; SEEN_SIZE];
            both.expect(told, "a line of another length is refused for that, whatever its characters, and nothing is told");
        }
        Verdict::WrongCharacter(column) => {
            let told = number == Refusal::WrongCharacter as u32 && seen == [0, 0, 0, column as u8];
            both.expect(told, "of fifty bytes that aren't all digits the first that isn't one is told by its column, and nothing else");
        }
    }
}

/// Pictures of events in each phase, with one bit after the other turned over: levels of undriven pins, and pins that nobody drives, too.
pub fn pins_turned_over(both: &mut Both, chance: &mut Chance, cases: usize) {
    for case in 0..6 * cases {
        let state = draw::sensible_in(chance, (case % 6) as u8);
        both.place(&state);
        if both.step(draw::next_event(chance, &state)) != 0 {
            continue;
        }
        let printed = both.library.lines.bytes()[..PICTURE_DIGITS].to_vec();
        for (at, weight) in (0..PICTURE_DIGITS).flat_map(|at| [8, 4, 2, 1].map(|weight| (at, weight))) {
            let mut line = printed.clone();
            let digit = char::from(line[at]).to_digit(16).expect("a digit");
            line[at] = DIGITS[(digit ^ weight) as usize];
            judge(both, line, true, Verdict::Right);
        }
    }
}

/// Each byte in each column of a line, and each alone in all of them.
pub fn characters(both: &mut Both, chance: &mut Chance) {
    for byte in 0..=255 {
        let verdict = |column| if DIGITS.contains(&byte) { Verdict::Right } else { Verdict::WrongCharacter(column) };
        judge(both, vec![byte; PICTURE_DIGITS], true, verdict(1));
        for at in 0..PICTURE_DIGITS {
            let mut line = draw::digits(chance, PICTURE_DIGITS);
            line[at] = byte;
            judge(both, line, true, verdict(at + 1));
        }
    }
}

/// Wrong characters in every two columns, and in all from each column on.
pub fn several_wrong_characters(both: &mut Both, chance: &mut Chance, cases: usize) {
    for first in (0..PICTURE_DIGITS).cycle().take(PICTURE_DIGITS * cases) {
        for second in first + 1..PICTURE_DIGITS {
            let mut line = draw::digits(chance, PICTURE_DIGITS);
            line[first] = draw::wrong_character(chance);
            line[second] = draw::wrong_character(chance);
            judge(both, line, true, Verdict::WrongCharacter(first + 1));
        }
        for byte in [0x00, 0xFF, b' ', b'\n', draw::wrong_character(chance)] {
            let mut line = draw::digits(chance, PICTURE_DIGITS);
            line[first..].fill(byte);
            judge(both, line, true, Verdict::WrongCharacter(first + 1));
        }
    }
}

/// Characters of two, three and four bytes, the last two of them digits elsewhere: a line has fifty bytes, not fifty characters.
pub fn long_characters(both: &mut Both, chance: &mut Chance) {
    for character in ["\u{E9}", "\u{FF10}", "\u{1D7CE}"] {
        let others = PICTURE_DIGITS - character.len();
        for before in 0..=others {
            for (digits, verdict) in [(others, Verdict::WrongCharacter(before + 1)), (PICTURE_DIGITS - 1, Verdict::WrongLength)] {
                let mut line = draw::digits(chance, digits);
                line.splice(before..before, character.bytes());
                judge(both, line, true, verdict);
            }
        }
    }
}

/// Lines of other lengths: of digits alone, with a wrong character among them, and of one wrong character alone.
pub fn wrong_line_lengths(both: &mut Both, chance: &mut Chance) {
    let around = (0..=2 * PICTURE_DIGITS + 2).filter(|length| *length != PICTURE_DIGITS);
    for length in around.chain([0xFF, 0x100, PICTURE_DIGITS + 0x100, 0x1_0000, PICTURE_DIGITS + 0x1_0000]) {
        let digits = draw::digits(chance, length);
        let mut lines = vec![digits.clone(), vec![0x00; length], vec![0xFF; length], vec![b' '; length]];
        for at in [0, 1, length / 2, PICTURE_DIGITS - 1, PICTURE_DIGITS, length.saturating_sub(1)] {
            let mut line = digits.clone();
            if let Some(byte) = line.get_mut(at) {
                *byte = draw::wrong_character(chance);
            }
            lines.push(line);
        }
        for line in lines {
            judge(both, line, true, Verdict::WrongLength);
        }
    }
}

/// Fifty digits with one byte more before or behind them: also the newline that ends them, which isn't part of what is read.
pub fn one_byte_more(both: &mut Both, chance: &mut Chance) {
    for byte in 0..=255 {
        let digits = draw::digits(chance, PICTURE_DIGITS);
        let line = [&[byte], &digits[..]].concat();
        judge(both, line, true, Verdict::WrongLength);
        let line = [&digits[..], &[byte]].concat();
        judge(both, line, true, Verdict::WrongLength);
    }
}

/// A line into the place as it was left: a right one, one with a wrong character, one of a wrong length, or any of them if the place has a
/// wrong length.
fn follow(both: &mut Both, chance: &mut Chance, sort: usize) {
    let (mut line, at) = (draw::digits(chance, PICTURE_DIGITS), chance.below(PICTURE_DIGITS));
    if sort > 0 {
        line[at] = draw::wrong_character(chance);
    }
    match sort {
        0 => judge(both, line, false, Verdict::Right),
        1 => judge(both, line, false, Verdict::WrongCharacter(at + 1)),
        2 => {
            line.resize(chance.pick(&draw::wrong_lengths(PICTURE_DIGITS)), b'0');
            judge(both, line, false, Verdict::WrongLength);
        }
        _ => {
            let left = both.library.seen.bytes().to_vec();
            let lent = Lengths { seen: chance.pick(&draw::wrong_lengths(SEEN_SIZE)), ..RIGHT };
            let number = both.make(Call::ReadPicture { line: draw::line(chance), afresh: false }, lent);
            let untouched = number == Refusal::WrongLength as u32 && both.library.seen.bytes() == left;
            both.expect(untouched, "a place of a wrong length is left as it was");
        }
    }
}

/// Any three of these four after one another, with nothing between them that fills the place: what one told is gone after the next.
pub fn into_one_place(both: &mut Both, chance: &mut Chance, cases: usize) {
    for case in 0..4 * 4 * 4 * cases {
        for sort in [case / 16 % 4, case / 4 % 4, case % 4] {
            follow(both, chance, sort);
        }
    }
}
