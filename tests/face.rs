//! The C face as include/s100.h declares it: its lengths, layout and calls, each call behind a function that takes slices.
//!
//! The safety of every call below rests on one ground: a slice's pointer is never null and good for the slice's length, and a mutable
//! slice overlaps no other.

pub const PAGES_SIZE: usize = 16;
pub const STATE_SIZE: usize = 38;
pub const ANSWER_SIZE: usize = 9;
pub const MEMORY_SIZE: usize = 65536;
pub const PORTS_SIZE: usize = 256;
pub const PICTURE_DIGITS: usize = 50;
pub const PICTURES_SIZE: usize = 102;
pub const SEEN_SIZE: usize = 4;
pub const OUTCOME_SIZE: usize = 4;

pub const FITTED_AT: usize = 0;
pub const PAGES_AT: usize = 2;
pub const PHASE_AT: usize = 18;
pub const CONTENDERS_AT: usize = 19;
pub const DRIVEN_AT: usize = 21;
pub const GRANTED_AT: usize = 37;

pub const SEEN_PHASE_AT: usize = 0;
pub const SEEN_COLUMN_AT: usize = 3;

pub const OUTCOME_LINE_AT: usize = 2;
pub const OUTCOME_RIVAL_AT: usize = 3;

pub const NOBODY: u8 = 0xFF;
pub const PERMANENT_MASTER: u8 = 0x10;
pub const NO_FIELD: u32 = 0xFFFF_FFFF;
pub const NO_PHASE: u8 = 0xFF;
pub const NO_LINE: u8 = 0xFF;

#[derive(Clone, Copy, Debug)]
pub struct Event {
    pub kind: u8,
    pub speaker: u8,
    pub address: u32,
    pub datum: u16,
}

/// What the calls that only read can be asked of a state.
#[derive(Clone, Copy, Debug)]
pub enum Field {
    Fitted,
    Page(u8),
    Phase,
    Contenders,
    Driven(u8),
    Granted,
    Lines,
    MakesSense,
}

mod library {
    extern "C" {
        pub fn s100_setup(fitted: u16, pages: *const u8, pages_length: usize, state: *mut u8, state_length: usize) -> u8;
        pub fn s100_step(
            state: *mut u8,
            state_length: usize,
            kind: u8,
            speaker: u8,
            address: u32,
            datum: u16,
            memory: *mut u8,
            memory_length: usize,
            ports: *mut u8,
            ports_length: usize,
            answer: *mut u8,
            answer_length: usize,
        ) -> u8;
        pub fn s100_settle(state: *mut u8, state_length: usize, cards: *const u8, cards_length: usize, looks: *mut usize) -> u8;
        pub fn s100_picture(kind: u8, address: u32, answer: *const u8, answer_length: usize, lines: *mut u8, lines_length: usize) -> u8;
        pub fn s100_read_picture(line: *const u8, line_length: usize, seen: *mut u8, seen_length: usize) -> u8;
        pub fn s100_outcome(state: *const u8, state_length: usize, card: u8, outcome: *mut u8, outcome_length: usize) -> u8;
        pub fn s100_fitted(state: *const u8, state_length: usize) -> u32;
        pub fn s100_page(state: *const u8, state_length: usize, page: u8) -> u32;
        pub fn s100_phase(state: *const u8, state_length: usize) -> u32;
        pub fn s100_contenders(state: *const u8, state_length: usize) -> u32;
        pub fn s100_driven(state: *const u8, state_length: usize, card: u8) -> u32;
        pub fn s100_granted(state: *const u8, state_length: usize) -> u32;
        pub fn s100_lines(state: *const u8, state_length: usize) -> u32;
        pub fn s100_makes_sense(state: *const u8, state_length: usize) -> bool;
    }
}

pub fn setup(fitted: u16, pages: &[u8], state: &mut [u8]) -> u8 {
    unsafe { library::s100_setup(fitted, pages.as_ptr(), pages.len(), state.as_mut_ptr(), state.len()) }
}

pub fn step(state: &mut [u8], event: Event, memory: &mut [u8], ports: &mut [u8], answer: &mut [u8]) -> u8 {
    unsafe {
        library::s100_step(
            state.as_mut_ptr(),
            state.len(),
            event.kind,
            event.speaker,
            event.address,
            event.datum,
            memory.as_mut_ptr(),
            memory.len(),
            ports.as_mut_ptr(),
            ports.len(),
            answer.as_mut_ptr(),
            answer.len(),
        )
    }
}

pub fn settle(state: &mut [u8], cards: &[u8], looks: &mut usize) -> u8 {
    unsafe { library::s100_settle(state.as_mut_ptr(), state.len(), cards.as_ptr(), cards.len(), looks) }
}

pub fn picture(kind: u8, address: u32, answer: &[u8], lines: &mut [u8]) -> u8 {
    unsafe { library::s100_picture(kind, address, answer.as_ptr(), answer.len(), lines.as_mut_ptr(), lines.len()) }
}

pub fn read_picture(line: &[u8], seen: &mut [u8]) -> u8 {
    unsafe { library::s100_read_picture(line.as_ptr(), line.len(), seen.as_mut_ptr(), seen.len()) }
}

pub fn why(state: &[u8], card: u8, outcome: &mut [u8]) -> u8 {
    unsafe { library::s100_outcome(state.as_ptr(), state.len(), card, outcome.as_mut_ptr(), outcome.len()) }
}

pub fn field(field: Field, state: &[u8]) -> u32 {
    let (pointer, length) = (state.as_ptr(), state.len());
    unsafe {
        match field {
            Field::Fitted => library::s100_fitted(pointer, length),
            Field::Page(page) => library::s100_page(pointer, length, page),
            Field::Phase => library::s100_phase(pointer, length),
            Field::Contenders => library::s100_contenders(pointer, length),
            Field::Driven(card) => library::s100_driven(pointer, length, card),
            Field::Granted => library::s100_granted(pointer, length),
            Field::Lines => library::s100_lines(pointer, length),
            Field::MakesSense => u32::from(library::s100_makes_sense(pointer, length)),
        }
    }
}
