// Cards 4, 9 and 10 look in the order of M1 to M4 (01, "Marked for proof"), in Rust: three rounds are too few to settle the lines. Once they are
// settled, 4 and 9 are told why they lose (02, CR 4).

#[link(name = "s100_c", kind = "static")]
extern "C" {
    fn s100_setup(fitted: u16, pages: *const u8, pages_length: usize, state: *mut u8, state_length: usize) -> u8;
    fn s100_step(
        state: *mut u8,
        state_length: usize,
        kind: u8,
        speaker: u8,
        address: u32,
        datum: u16,
        memory: *mut u8,
        memory_length: usize,
        ports: *mut u8,
        ports_length: usize,
        answer: *mut u8,
        answer_length: usize,
    ) -> u8;
    fn s100_settle(state: *mut u8, state_length: usize, cards: *const u8, cards_length: usize, looks: *mut usize) -> u8;
    fn s100_outcome(state: *const u8, state_length: usize, card: u8, outcome: *mut u8, outcome_length: usize) -> u8;
    fn s100_fitted(state: *const u8, state_length: usize) -> u32;
    fn s100_lines(state: *const u8, state_length: usize) -> u32;
}

// The wrappers are safe: a slice is good for its length and never null, and no two `&mut` overlap. The header asks for nothing else.

fn setup(fitted: u16, pages: &[u8], state: &mut [u8]) -> u8 {
    unsafe { s100_setup(fitted, pages.as_ptr(), pages.len(), state.as_mut_ptr(), state.len()) }
}

/// An event without an address, given as its kind, speaker and datum.
fn step(state: &mut [u8], (kind, speaker, datum): (u8, u8, u16), memory: &mut [u8], ports: &mut [u8], answer: &mut [u8]) -> u8 {
    let (s, m, p, a) = (state.as_mut_ptr(), memory.as_mut_ptr(), ports.as_mut_ptr(), answer.as_mut_ptr());
    unsafe { s100_step(s, state.len(), kind, speaker, 0, datum, m, memory.len(), p, ports.len(), a, answer.len()) }
}

/// What settle answers, and the looks taken.
fn settle(state: &mut [u8], cards: &[u8]) -> (u8, usize) {
    let mut looks = 0;
    (unsafe { s100_settle(state.as_mut_ptr(), state.len(), cards.as_ptr(), cards.len(), &mut looks) }, looks)
}

/// What is told of a card, in words.
fn why(state: &[u8], card: u8) -> String {
    let mut outcome = [0; 4];
    let refusal = unsafe { s100_outcome(state.as_ptr(), state.len(), card, outcome.as_mut_ptr(), outcome.len()) };
    match (refusal, outcome) {
        (0, [.., NO_LINE, NOBODY]) => format!("card {card} wins"),
        (0, [.., line, rival]) => format!("card {card} loses at line {line} to card {rival}"),
        _ => format!("card {card} is answered {refusal:02X}"),
    }
}

fn fitted(state: &[u8]) -> u32 {
    unsafe { s100_fitted(state.as_ptr(), state.len()) }
}

fn lines(state: &[u8]) -> u32 {
    unsafe { s100_lines(state.as_ptr(), state.len()) }
}

// As include/s100.h numbers them.
const REQUEST: u8 = 1;
const LOOK: u8 = 2;
const ACKNOWLEDGE: u8 = 3;
const NOBODY: u8 = 0xFF;
const NO_LINE: u8 = 0xFF;

const CARDS: u16 = 1 << 4 | 1 << 9 | 1 << 10;
const LOOKS: [u8; 12] = [4, 9, 10, 9, 10, 4, 9, 10, 4, 9, 10, 4];

fn main() {
    let (mut state, mut answer) = ([0; 38], [0; 9]);
    let (mut memory, mut ports) = (vec![0; 0x10000], vec![0; 0x100]);
    assert_eq!(setup(CARDS, &[0; 16], &mut state), 0);
    let refusal = step(&mut state, (REQUEST, 0, CARDS), &mut memory, &mut ports, &mut answer);
    println!("cards 4, 9 and 10 request the bus: answer {refusal:02X}");
    let requested = state;

    for (round, cards) in LOOKS.chunks(3).enumerate() {
        for &card in cards {
            assert_eq!(step(&mut state, (LOOK, card, 0), &mut memory, &mut ports, &mut answer), 0);
        }
        let shown = lines(&state);
        let whose = if fitted(&state) >> shown & 1 == 1 { "a" } else { "no" };
        println!("round {}, looks of {}, {}, {}: the lines show {shown}, {whose} card's number", round + 1, cards[0], cards[1], cards[2]);
        if round >= 2 {
            let refusal = step(&mut state, (ACKNOWLEDGE, 0, 0), &mut memory, &mut ports, &mut answer);
            let [_, phase, granted, ..] = answer;
            let whom = if granted == NOBODY { "nobody".to_string() } else { format!("card {granted}") };
            println!("acknowledge: answer {refusal:02X}, phase {phase}, granted: {whom}");
        }
    }

    for (title, looks) in [("the twelve looks", &LOOKS[..]), ("the first nine", &LOOKS[..9])] {
        let mut state = requested;
        let (refusal, taken) = settle(&mut state, looks);
        println!("settle over {title}: answer {refusal:02X}, looks taken {taken}, the lines show {}", lines(&state));
        println!("why: {}; {}; {}", why(&state, 4), why(&state, 9), why(&state, 10));
    }
}
