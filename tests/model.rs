//! A model of the bus for the comparison to hold the proved library against: its rules are those of 01, its pictures those of 02, CR 1,
//! with the pins of 003, Appendix B, its refusals of lines those of 02, CR 2, its reasons for a card's loss those of 02, CR 4, and its
//! bytes those of include/s100.h.
//!
//! Bytes that make no sense never become a `Bus`, so that its events needn't think of them. The functions at the end take what the C face
//! takes: any bytes, of any length.

use crate::face::{Event, Field, ANSWER_SIZE, MEMORY_SIZE, NOBODY, NO_FIELD, PAGES_SIZE, PERMANENT_MASTER, PORTS_SIZE, STATE_SIZE};
use crate::face::{CONTENDERS_AT, DRIVEN_AT, FITTED_AT, GRANTED_AT, PAGES_AT, PHASE_AT};
use crate::face::{NO_LINE, NO_PHASE, OUTCOME_SIZE, PICTURES_SIZE, PICTURE_DIGITS, SEEN_SIZE};
use std::collections::BTreeSet;
use std::io::Write;
use std::sync::LazyLock;

#[derive(Clone, Copy)]
pub enum Refusal {
    WrongBuffers = 0x01,
    Senseless = 0x02,
    Malformed = 0x03,
    NamesNobody = 0x04,
    NotFitted = 0x05,
    WrongPhase = 0x06,
    NotItsTurn = 0x07,
    Unsettled = 0x08,
    OddWord = 0x09,
    Absent = 0x0A,
    BadPage = 0x0B,
    WrongLineLength = 0x0C,
    WrongCharacter = 0x0D,
    WrongLength = 0xFF,
}

type Judged<T> = Result<T, Refusal>;

fn refuse_if(applies: bool, refusal: Refusal) -> Judged<()> {
    if applies {
        Err(refusal)
    } else {
        Ok(())
    }
}

#[derive(Clone, Copy)]
enum Page {
    Absent,
    EightBit,
    SixteenBit,
}

impl Page {
    fn from_code(code: u8) -> Option<Page> {
        match code {
            0 => Some(Page::Absent),
            1 => Some(Page::EightBit),
            2 => Some(Page::SixteenBit),
            _ => None,
        }
    }

    fn code(self) -> u8 {
        match self {
            Page::Absent => 0,
            Page::EightBit => 1,
            Page::SixteenBit => 2,
        }
    }
}

#[derive(Clone)]
pub struct Contender {
    pub number: u8,
    pub drives: u8,
}

impl Contender {
    /// What it drives after a look at these lines: 01, "Looking and settling".
    pub fn would_drive(&self, lines: u8) -> u8 {
        let mut drives = 0;
        for weight in [8, 4, 2, 1] {
            let (own, shown) = (self.number & weight != 0, lines & weight != 0);
            if shown && !own {
                break;
            }
            if own {
                drives += weight;
            }
        }
        drives
    }
}

/// All eight bits, since the lines can be asked of a state that makes no sense as well.
pub fn lines(contenders: &[Contender]) -> u8 {
    let weights = (0..8).map(|bit| 1 << bit);
    weights.filter(|weight| contenders.iter().any(|card| card.drives & weight != 0)).sum()
}

fn are_settled(contenders: &[Contender]) -> bool {
    let shown = lines(contenders);
    contenders.iter().all(|card| card.would_drive(shown) == card.drives)
}

/// The phases with what belongs to each: only arbitration has contenders, and only from the grant to the give-back is a card granted.
#[derive(Clone)]
enum Phase {
    Free,
    Arbitration(Vec<Contender>),
    Granted(u8),
    TransferOne(u8),
    Owned(u8),
    TransferTwo(u8),
}

mod signal {
    pub const HOLD: u8 = 0x01;
    pub const PHLDA: u8 = 0x02;
    pub const ADSB: u8 = 0x04;
    pub const SDSB: u8 = 0x08;
    pub const DODSB: u8 = 0x10;
    pub const CDSB: u8 = 0x20;
    pub const SIXTN: u8 = 0x40;
    pub const SXTRQ: u8 = 0x80;
}

impl Phase {
    fn number(&self) -> u8 {
        match self {
            Phase::Free => 0,
            Phase::Arbitration(_) => 1,
            Phase::Granted(_) => 2,
            Phase::TransferOne(_) => 3,
            Phase::Owned(_) => 4,
            Phase::TransferTwo(_) => 5,
        }
    }

    fn contenders(&self) -> &[Contender] {
        match self {
            Phase::Arbitration(contenders) => contenders,
            _ => &[],
        }
    }

    fn granted(&self) -> Option<u8> {
        match self {
            Phase::Free | Phase::Arbitration(_) => None,
            Phase::Granted(card) | Phase::TransferOne(card) | Phase::Owned(card) | Phase::TransferTwo(card) => Some(*card),
        }
    }

    fn signals(&self) -> u8 {
        use signal::*;
        match self {
            Phase::Free => 0,
            Phase::Arbitration(_) => HOLD,
            Phase::Granted(_) => HOLD + PHLDA,
            Phase::TransferOne(_) => HOLD + PHLDA + ADSB + SDSB + DODSB,
            Phase::Owned(_) => HOLD + PHLDA + ADSB + SDSB + DODSB + CDSB,
            Phase::TransferTwo(_) => PHLDA + ADSB + SDSB + DODSB,
        }
    }
}

#[derive(Clone, Copy, PartialEq)]
enum Speaker {
    Card(u8),
    Permanent,
}

/// The four steps between a grant and a free bus.
#[derive(Clone, Copy)]
enum Transfer {
    BeginOne,
    TakeBus,
    BeginTwo,
    GiveBack,
}

#[derive(Clone, Copy)]
enum Access {
    ByteRead,
    OpcodeFetch,
    ByteWrite(u8),
    WordRead,
    /// The byte for the even address, then the one for the odd: 01, "Bytes, words, status".
    WordWrite([u8; 2]),
    Input,
    Output(u8),
}

/// An event whose fields are such as its kind can have.
enum Deed {
    Request(Vec<u8>),
    Look(Speaker),
    Acknowledge,
    Transfer(Transfer, Speaker),
    Cycle(Access, Speaker, u32),
    Reset,
}

impl Deed {
    /// The rows of 01, "Events": a zero stands where a field isn't listed.
    fn of(event: Event) -> Judged<Deed> {
        let speaker = match event.speaker {
            card @ 0..=15 => Speaker::Card(card),
            PERMANENT_MASTER => Speaker::Permanent,
            _ => return Err(Refusal::Malformed),
        };
        let low = event.datum as u8;
        Ok(match (event.kind, event.speaker, event.address, event.datum) {
            (0x01, 0, 0, cards) => Deed::Request((0..16).filter(|card| cards >> card & 1 == 1).collect()),
            (0x02, _, 0, 0) => Deed::Look(speaker),
            (0x03, 0, 0, 0) => Deed::Acknowledge,
            (0x04, _, 0, 0) => Deed::Transfer(Transfer::BeginOne, speaker),
            (0x05, _, 0, 0) => Deed::Transfer(Transfer::TakeBus, speaker),
            (0x06, _, at, 0) => Deed::Cycle(Access::ByteRead, speaker, at),
            (0x07, _, at, 0) => Deed::Cycle(Access::OpcodeFetch, speaker, at),
            (0x08, _, at, 0..=0xFF) => Deed::Cycle(Access::ByteWrite(low), speaker, at),
            (0x09, _, at, 0) => Deed::Cycle(Access::WordRead, speaker, at),
            (0x0A, _, at, word) => Deed::Cycle(Access::WordWrite([(word / 0x100) as u8, low]), speaker, at),
            (0x0B, _, at, 0) => Deed::Cycle(Access::Input, speaker, at),
            (0x0C, _, at, 0..=0xFF) => Deed::Cycle(Access::Output(low), speaker, at),
            (0x0D, _, 0, 0) => Deed::Transfer(Transfer::BeginTwo, speaker),
            (0x0E, _, 0, 0) => Deed::Transfer(Transfer::GiveBack, speaker),
            (0x0F, 0, 0, 0) => Deed::Reset,
            _ => return Err(Refusal::Malformed),
        })
    }
}

/// What an accepted event shows beside the state; all zero unless it is a cycle.
#[derive(Default)]
struct Shown {
    signals: u8,
    status: u8,
    cycles: u8,
    datum: [u8; 2],
}

impl Shown {
    fn byte(status: u8, byte: u8) -> Shown {
        Shown { signals: 0, status, cycles: 1, datum: [0, byte] }
    }

    fn word(status: u8, page: Page, datum: [u8; 2]) -> Shown {
        match page {
            Page::SixteenBit => Shown { signals: signal::SXTRQ + signal::SIXTN, status, cycles: 1, datum },
            _ => Shown { signals: signal::SXTRQ, status, cycles: 2, datum },
        }
    }
}

mod status {
    pub const MEMR: u8 = 0x01;
    pub const M1: u8 = 0x02;
    pub const INP: u8 = 0x04;
    pub const OUT: u8 = 0x08;
    pub const WO: u8 = 0x10;
}

fn cell(memory: &mut [u8], at: u32) -> &mut u8 {
    let page = memory.chunks_mut(0x1000).nth(at as usize / 0x1000).expect("an address that was judged");
    &mut page[at as usize % 0x1000]
}

struct Bus {
    fitted: BTreeSet<u8>,
    pages: Vec<Page>,
    phase: Phase,
}

impl Bus {
    fn free(fitted: BTreeSet<u8>, pages: Vec<Page>) -> Bus {
        Bus { fitted, pages, phase: Phase::Free }
    }

    /// The bus that these bytes are, if they make sense. What the phase has no place for shows when the bus is written out again.
    fn from_bytes(state: &[u8]) -> Option<Bus> {
        let pages = pages_from(&state[PAGES_AT..PHASE_AT])?;
        let granted = state[GRANTED_AT];
        let phase = match state[PHASE_AT] {
            0 => Phase::Free,
            1 => Phase::Arbitration(contenders_from(state)),
            2 => Phase::Granted(granted),
            3 => Phase::TransferOne(granted),
            4 => Phase::Owned(granted),
            5 => Phase::TransferTwo(granted),
            _ => return None,
        };
        let bus = Bus { fitted: set_from(state, FITTED_AT), pages, phase };
        (bus.has_its_cards() && bus.to_bytes() == state).then_some(bus)
    }

    fn has_its_cards(&self) -> bool {
        match &self.phase {
            Phase::Free => true,
            Phase::Arbitration(contenders) => {
                !contenders.is_empty() && contenders.iter().all(|card| self.fitted.contains(&card.number) && card.drives <= 15)
            }
            Phase::Granted(card) | Phase::TransferOne(card) | Phase::Owned(card) | Phase::TransferTwo(card) => self.fitted.contains(card),
        }
    }

    fn to_bytes(&self) -> [u8; STATE_SIZE] {
        let mut state = [0; STATE_SIZE];
        for card in &self.fitted {
            add_to_set(&mut state, FITTED_AT, *card);
        }
        for (number, page) in self.pages.iter().enumerate() {
            state[PAGES_AT + number] = page.code();
        }
        state[PHASE_AT] = self.phase.number();
        for card in self.phase.contenders() {
            add_to_set(&mut state, CONTENDERS_AT, card.number);
            state[DRIVEN_AT + usize::from(card.number)] = card.drives;
        }
        state[GRANTED_AT] = self.phase.granted().unwrap_or(NOBODY);
        state
    }

    fn needs_fitted(&self, speaker: Speaker) -> Judged<()> {
        match speaker {
            Speaker::Card(card) => refuse_if(!self.fitted.contains(&card), Refusal::NotFitted),
            Speaker::Permanent => Ok(()),
        }
    }

    fn request(&mut self, cards: &[u8]) -> Judged<()> {
        refuse_if(cards.is_empty(), Refusal::NamesNobody)?;
        refuse_if(cards.iter().any(|card| !self.fitted.contains(card)), Refusal::NotFitted)?;
        let Phase::Free = self.phase else { return Err(Refusal::WrongPhase) };
        self.phase = Phase::Arbitration(cards.iter().map(|card| Contender { number: *card, drives: 0 }).collect());
        Ok(())
    }

    fn look(&mut self, speaker: Speaker) -> Judged<()> {
        self.needs_fitted(speaker)?;
        let Phase::Arbitration(contenders) = &mut self.phase else { return Err(Refusal::WrongPhase) };
        let shown = lines(contenders);
        let looking = contenders.iter_mut().find(|card| Speaker::Card(card.number) == speaker).ok_or(Refusal::NotItsTurn)?;
        looking.drives = looking.would_drive(shown);
        Ok(())
    }

    fn acknowledge(&mut self) -> Judged<()> {
        let Phase::Arbitration(contenders) = &self.phase else { return Err(Refusal::WrongPhase) };
        refuse_if(!are_settled(contenders), Refusal::Unsettled)?;
        let shown = lines(contenders);
        let winner = contenders.iter().find(|card| card.number == shown).expect("settled lines show a contender's number");
        self.phase = Phase::Granted(winner.number);
        Ok(())
    }

    fn transfer(&mut self, transfer: Transfer, speaker: Speaker) -> Judged<()> {
        self.needs_fitted(speaker)?;
        let (granted, next) = match (transfer, &self.phase) {
            (Transfer::BeginOne, Phase::Granted(card)) => (*card, Phase::TransferOne(*card)),
            (Transfer::TakeBus, Phase::TransferOne(card)) => (*card, Phase::Owned(*card)),
            (Transfer::BeginTwo, Phase::Owned(card)) => (*card, Phase::TransferTwo(*card)),
            (Transfer::GiveBack, Phase::TransferTwo(card)) => (*card, Phase::Free),
            _ => return Err(Refusal::WrongPhase),
        };
        refuse_if(speaker != Speaker::Card(granted), Refusal::NotItsTurn)?;
        self.phase = next;
        Ok(())
    }

    fn master(&self) -> Judged<Speaker> {
        match self.phase {
            Phase::Free | Phase::Arbitration(_) => Ok(Speaker::Permanent),
            Phase::Owned(card) => Ok(Speaker::Card(card)),
            _ => Err(Refusal::WrongPhase),
        }
    }

    fn page_at(&self, at: u32) -> Judged<Page> {
        match self.pages.get(at as usize / 0x1000) {
            None | Some(Page::Absent) => Err(Refusal::Absent),
            Some(page) => Ok(*page),
        }
    }

    fn word_at(&self, at: u32) -> Judged<Page> {
        refuse_if(at % 2 == 1, Refusal::OddWord)?;
        self.page_at(at)
    }

    fn cycle(&self, access: Access, speaker: Speaker, at: u32, memory: &mut [u8], ports: &mut [u8]) -> Judged<Shown> {
        self.needs_fitted(speaker)?;
        refuse_if(speaker != self.master()?, Refusal::NotItsTurn)?;
        let port = at as usize;
        match access {
            Access::ByteRead => self.page_at(at).map(|_| Shown::byte(status::MEMR, *cell(memory, at))),
            Access::OpcodeFetch => self.page_at(at).map(|_| Shown::byte(status::MEMR + status::M1, *cell(memory, at))),
            Access::ByteWrite(byte) => {
                self.page_at(at)?;
                *cell(memory, at) = byte;
                Ok(Shown::byte(status::WO, byte))
            }
            Access::WordRead => {
                let page = self.word_at(at)?;
                let (even, odd) = (*cell(memory, at), *cell(memory, at + 1));
                Ok(Shown::word(status::MEMR, page, [even, odd]))
            }
            Access::WordWrite([even, odd]) => {
                let page = self.word_at(at)?;
                *cell(memory, at) = even;
                *cell(memory, at + 1) = odd;
                Ok(Shown::word(status::WO, page, [even, odd]))
            }
            Access::Input => ports.get(port).map(|byte| Shown::byte(status::INP, *byte)).ok_or(Refusal::Absent),
            Access::Output(byte) => {
                *ports.get_mut(port).ok_or(Refusal::Absent)? = byte;
                Ok(Shown::byte(status::OUT + status::WO, byte))
            }
        }
    }

    /// Takes the event's step, or refuses it with nothing changed.
    fn step(&mut self, event: Event, memory: &mut [u8], ports: &mut [u8]) -> Judged<Shown> {
        match Deed::of(event)? {
            Deed::Request(cards) => self.request(&cards)?,
            Deed::Look(speaker) => self.look(speaker)?,
            Deed::Acknowledge => self.acknowledge()?,
            Deed::Transfer(transfer, speaker) => self.transfer(transfer, speaker)?,
            Deed::Cycle(access, speaker, at) => return self.cycle(access, speaker, at, memory, ports),
            Deed::Reset => self.phase = Phase::Free,
        }
        Ok(Shown::default())
    }

    /// All contenders, if these numbers are some of theirs.
    fn contenders_with(&self, cards: &[u8]) -> Judged<&[Contender]> {
        refuse_if(cards.iter().any(|card| *card > 15), Refusal::Malformed)?;
        refuse_if(cards.iter().any(|card| !self.fitted.contains(card)), Refusal::NotFitted)?;
        let Phase::Arbitration(contenders) = &self.phase else { return Err(Refusal::WrongPhase) };
        let contends = |number: &u8| contenders.iter().any(|card| card.number == *number);
        refuse_if(!cards.iter().all(contends), Refusal::NotItsTurn)?;
        Ok(contenders)
    }

    /// How many looks settle the lines; a bus that refuses may be left amid its looks.
    fn settle(&mut self, cards: &[u8]) -> Judged<usize> {
        self.contenders_with(cards)?;
        let mut taken = 0;
        while !are_settled(self.phase.contenders()) {
            let card = cards.get(taken).ok_or(Refusal::Unsettled)?;
            self.look(Speaker::Card(*card))?;
            taken += 1;
        }
        Ok(taken)
    }

    /// Why the card loses, or `None` if it wins: 02, CR 4. Who wins is 01's "the contender whose number the lines show".
    fn why(&self, card: u8) -> Judged<Option<Loss>> {
        let contenders = self.contenders_with(&[card])?;
        refuse_if(!are_settled(contenders), Refusal::Unsettled)?;
        let shown = lines(contenders);
        if card == shown {
            return Ok(None);
        }
        let is_lost = |line: &u8| card >> line & 1 == 0 && shown >> line & 1 == 1;
        let line = (0..4).filter(is_lost).max().expect("settled lines show no number below a contender's");
        let drivers = contenders.iter().filter(|contender| contender.drives >> line & 1 == 1);
        let rival = drivers.map(|contender| contender.number).max().expect("a line shows 1 only if it is driven");
        Ok(Some(Loss { line, rival }))
    }
}

/// The line at which a card loses, 3 to 0, and the card to which it loses there.
struct Loss {
    line: u8,
    rival: u8,
}

/// The phases by number, without the cards, which no picture shows.
static BARE_PHASES: [Phase; 6] = [
    Phase::Free,
    Phase::Arbitration(Vec::new()),
    Phase::Granted(NOBODY),
    Phase::TransferOne(NOBODY),
    Phase::Owned(NOBODY),
    Phase::TransferTwo(NOBODY),
];

/// The names of pins 1 to 100: 003, Appendix B.
const PIN_NAMES: &str = "
    +8 Volt, +16 Volt, XRDY, VI 0*, VI 1*, VI 2*, VI 3*, VI 4*, VI 5*, VI 6*,
    VI 7*, NMI*, PWRFAIL*, DMA 3*, A 18, A 16, A 17, SDSB*, CDSB*, GROUND,
    NDEF, ADSB*, DODSB*, PHI, pSTVAL*, pHLDA, RFU, RFU, A 5, A 4,
    A 3, A 15, A 12, A 9, DO 1, DO 0, A 10, DO 4, DO 5, DO 6,
    DI 2, DI 3, DI 7, sM1, sOUT, sINP, sMEMR, sHLTA, CLOCK, GROUND,
    +8 Volt, -16 Volt, GROUND, SLAVE CLR*, DMA 0*, DMA 1*, DMA 2*, sXTRQ*, A 19, SIXTN*,
    A 20, A 21, A 22, A 23, NDEF, NDEF, PHANTOM*, MWRT, RFU, GROUND,
    RFU, RDY, INT*, HOLD*, RESET*, pSYNC, pWR*, pDBIN, A 0, A 1,
    A 2, A 6, A 7, A 8, A 13, A 14, A 11, DO 2, DO 3, DO 7,
    DI 4, DI 5, DI 6, DI 1, DI 0, sINTA, sWO*, ERROR*, POC*, GROUND
";

/// A line by the weight of its pin, of which pin 100 has the lowest, and by the star of its name.
#[derive(Clone, Copy)]
struct Line {
    pin: u128,
    starred: bool,
}

impl Line {
    fn named(name: &str) -> Line {
        let printed = PIN_NAMES.split(',').map(str::trim).zip((0..100).rev());
        let found: Vec<(&str, i32)> = printed.filter(|(printed, _)| printed.trim_end_matches('*') == name).collect();
        let [(printed, place)] = found[..] else { panic!("{name} is the name of {} pins", found.len()) };
        Line { pin: 1 << place, starred: printed.ends_with('*') }
    }

    /// A line for each bit, the lowest first.
    fn numbered<const COUNT: usize>(name: &str) -> [Line; COUNT] {
        std::array::from_fn(|bit| Line::named(&format!("{name} {bit}")))
    }
}

/// The lines that the model has. Of signals and status the lowest weight is first, as with numbers: 01, "The program and one whole run".
struct Wires {
    signals: [Line; 8],
    status: [Line; 5],
    priority: [Line; 4],
    address: [Line; 24],
    data_out: [Line; 8],
    data_in: [Line; 8],
    sync: Line,
    status_valid: Line,
    data_bus_in: Line,
    write: Line,
    memory_write: Line,
}

static WIRES: LazyLock<Wires> = LazyLock::new(|| Wires {
    signals: ["HOLD", "pHLDA", "ADSB", "SDSB", "DODSB", "CDSB", "SIXTN", "sXTRQ"].map(Line::named),
    status: ["sMEMR", "sM1", "sINP", "sOUT", "sWO"].map(Line::named),
    priority: Line::numbered("DMA"),
    address: Line::numbered("A"),
    data_out: Line::numbered("DO"),
    data_in: Line::numbered("DI"),
    sync: Line::named("pSYNC"),
    status_valid: Line::named("pSTVAL"),
    data_bus_in: Line::named("pDBIN"),
    write: Line::named("pWR"),
    memory_write: Line::named("MWRT"),
});

/// A cycle as its pins show it; data lines that carry nothing aren't driven.
struct Cycle {
    address: u32,
    writes: bool,
    ends_split_word: bool,
    data_out: Option<u8>,
    data_in: Option<u8>,
}

impl Cycle {
    fn byte(writes: bool, address: u32, byte: u8) -> Cycle {
        let (data_out, data_in) = if writes { (Some(byte), None) } else { (None, Some(byte)) };
        Cycle { address, writes, ends_split_word: false, data_out, data_in }
    }

    /// The cycles of which an event has pictures, where `None` is the bus without one.
    fn pictured(kind: u8, address: u32, answer: [u8; ANSWER_SIZE]) -> Vec<Option<Cycle>> {
        let [.., cycles, even, odd] = answer;
        let writes = matches!(kind, 0x08 | 0x0A | 0x0C);
        let byte = Cycle::byte(writes, address, odd);
        match kind {
            0x09 | 0x0A if cycles == 2 => {
                let second = Cycle { ends_split_word: true, ..Cycle::byte(writes, address | 1, odd) };
                vec![Some(Cycle::byte(writes, address, even)), Some(second)]
            }
            0x09 | 0x0A => vec![Some(Cycle { data_out: Some(even), data_in: Some(odd), ..byte })],
            0x06..=0x0C => vec![Some(byte)],
            _ => vec![None],
        }
    }
}

/// The pins by weight: which are high, and which are driven.
#[derive(Default)]
struct Pins {
    high: u128,
    driven: u128,
}

impl Pins {
    fn drive(&mut self, line: Line, truth: bool) {
        self.driven |= line.pin;
        if truth != line.starred {
            self.high |= line.pin;
        }
    }

    fn drive_bits(&mut self, lines: &[Line], number: u32) {
        for (bit, line) in lines.iter().enumerate() {
            self.drive(*line, number >> bit & 1 == 1);
        }
    }

    /// An undriven line isn't true, whatever its level.
    fn shows(&self, line: Line) -> bool {
        self.driven & line.pin != 0 && (self.high & line.pin != 0) != line.starred
    }

    fn shown_bits(&self, lines: &[Line]) -> u8 {
        lines.iter().enumerate().filter(|(_, line)| self.shows(**line)).map(|(bit, _)| 1 << bit).sum()
    }

    /// 02, CR 1: first what is pulled up, then the control outputs and MWRT, then what only a cycle drives.
    fn of(answer: [u8; ANSWER_SIZE], cycle: Option<&Cycle>) -> Pins {
        let [_, phase, _, lines, signals, status, ..] = answer;
        let phase = BARE_PHASES.get(usize::from(phase));
        let held = phase.map_or(0, |phase| phase.signals() & signal::PHLDA);
        let signals = signals & !signal::PHLDA | held;
        let mut pins = Pins::default();
        pins.drive_bits(&WIRES.signals[..7], signals.into());
        pins.drive_bits(&WIRES.priority, lines.into());

        let strobed = cycle.filter(|_| matches!(phase, Some(Phase::Free | Phase::Arbitration(_) | Phase::Owned(_))));
        let writes = strobed.is_some_and(|cycle| cycle.writes);
        pins.drive(WIRES.sync, false);
        pins.drive(WIRES.status_valid, false);
        pins.drive(WIRES.data_bus_in, strobed.is_some_and(|cycle| !cycle.writes));
        pins.drive(WIRES.write, writes);
        pins.drive(WIRES.memory_write, writes && status & status::OUT == 0);

        if let Some(cycle) = cycle {
            pins.drive_bits(&WIRES.address, cycle.address);
            pins.drive_bits(&WIRES.status, status.into());
            pins.drive(WIRES.signals[7], signals & signal::SXTRQ != 0 && !cycle.ends_split_word);
            for (lines, byte) in [(&WIRES.data_out, cycle.data_out), (&WIRES.data_in, cycle.data_in)] {
                if let Some(byte) = byte {
                    pins.drive_bits(lines, byte.into());
                }
            }
        }
        pins
    }

    /// 02, CR 2: the characters of a line are judged only if it has the right length.
    fn from_line(line: &[u8]) -> Result<Pins, WrongLine> {
        if line.len() != PICTURE_DIGITS {
            return Err(WrongLine { refusal: Refusal::WrongLineLength, column: 0 });
        }
        let is_digit = |byte: &u8| matches!(byte, b'0'..=b'9' | b'A'..=b'F');
        if let Some((column, _)) = (1..).zip(line).find(|(_, byte)| !is_digit(byte)) {
            return Err(WrongLine { refusal: Refusal::WrongCharacter, column });
        }
        let digits = std::str::from_utf8(line).expect("digits");
        let [high, driven] = [&digits[..25], &digits[25..]].map(|half| u128::from_str_radix(half, 16).expect("25 digits"));
        Ok(Pins { high, driven })
    }
}

/// Why a line isn't read, and the column that is told with it, which is 0 if none is.
struct WrongLine {
    refusal: Refusal,
    column: u8,
}

fn in_set(state: &[u8], at: usize, card: u8) -> bool {
    let (high, low) = (state[at], state[at + 1]);
    if card < 8 {
        low >> card & 1 == 1
    } else {
        high >> (card - 8) & 1 == 1
    }
}

fn add_to_set(state: &mut [u8], at: usize, card: u8) {
    state[if card < 8 { at + 1 } else { at }] |= 1 << (card % 8);
}

fn set_from(state: &[u8], at: usize) -> BTreeSet<u8> {
    (0..16).filter(|card| in_set(state, at, *card)).collect()
}

pub fn contenders_from(state: &[u8]) -> Vec<Contender> {
    let numbers = set_from(state, CONTENDERS_AT).into_iter();
    numbers.map(|number| Contender { number, drives: state[DRIVEN_AT + usize::from(number)] }).collect()
}

fn pages_from(codes: &[u8]) -> Option<Vec<Page>> {
    codes.iter().map(|code| Page::from_code(*code)).collect()
}

pub fn setup(fitted: u16, pages: &[u8], state: &mut [u8]) -> u8 {
    if pages.len() != PAGES_SIZE || state.len() != STATE_SIZE {
        return Refusal::WrongLength as u8;
    }
    let (number, bus) = match pages_from(pages) {
        Some(pages) => (0, Bus::free((0..16).filter(|card| fitted >> card & 1 == 1).collect(), pages)),
        None => (Refusal::BadPage as u8, Bus::free(BTreeSet::new(), vec![Page::Absent; PAGES_SIZE])),
    };
    state.copy_from_slice(&bus.to_bytes());
    number
}

pub fn step(state: &mut [u8], event: Event, memory: &mut [u8], ports: &mut [u8], answer: &mut [u8]) -> u8 {
    if state.len() != STATE_SIZE || answer.len() != ANSWER_SIZE {
        return Refusal::WrongLength as u8;
    }
    if memory.len() != MEMORY_SIZE || ports.len() != PORTS_SIZE {
        return Refusal::WrongBuffers as u8;
    }
    let Some(mut bus) = Bus::from_bytes(state) else {
        answer.fill(0);
        answer[0] = Refusal::Senseless as u8;
        return answer[0];
    };
    let (number, shown) = match bus.step(event, memory, ports) {
        Ok(shown) => (0, shown),
        Err(refusal) => (refusal as u8, Shown::default()),
    };
    state.copy_from_slice(&bus.to_bytes());
    let phase = &bus.phase;
    let place = [number, phase.number(), phase.granted().unwrap_or(NOBODY), lines(phase.contenders()), phase.signals() + shown.signals];
    answer[..5].copy_from_slice(&place);
    answer[5..].copy_from_slice(&[shown.status, shown.cycles, shown.datum[0], shown.datum[1]]);
    number
}

pub fn settle(state: &mut [u8], cards: &[u8], looks: &mut usize) -> u8 {
    if state.len() != STATE_SIZE {
        return Refusal::WrongLength as u8;
    }
    *looks = 0;
    let Some(mut bus) = Bus::from_bytes(state) else { return Refusal::Senseless as u8 };
    match bus.settle(cards) {
        Ok(taken) => {
            *looks = taken;
            state.copy_from_slice(&bus.to_bytes());
            0
        }
        Err(refusal) => refusal as u8,
    }
}

pub fn picture(kind: u8, address: u32, answer: &[u8], lines: &mut [u8]) -> u8 {
    let (Ok(answer), PICTURES_SIZE) = (<[u8; ANSWER_SIZE]>::try_from(answer), lines.len()) else { return Refusal::WrongLength as u8 };
    if answer[0] != 0 {
        return 0;
    }
    let mut room = lines;
    for cycle in Cycle::pictured(kind, address, answer) {
        let Pins { high, driven } = Pins::of(answer, cycle.as_ref());
        writeln!(room, "{high:025X}{driven:025X}").expect("room for two lines");
    }
    (PICTURES_SIZE - room.len()) as u8
}

pub fn read_picture(line: &[u8], seen: &mut [u8]) -> u8 {
    if seen.len() != SEEN_SIZE {
        return Refusal::WrongLength as u8;
    }
    let pins = match Pins::from_line(line) {
        Ok(pins) => pins,
        Err(WrongLine { refusal, column }) => {
            seen.copy_from_slice(&[0, 0, 0, column]);
            return refusal as u8;
        }
    };
    let signals = pins.shown_bits(&WIRES.signals);
    let by_phase = signals & !(signal::SIXTN + signal::SXTRQ);
    let phase = BARE_PHASES.iter().find(|phase| phase.signals() == by_phase).map_or(NO_PHASE, Phase::number);
    seen.copy_from_slice(&[phase, signals, pins.shown_bits(&WIRES.priority), 0]);
    0
}

pub fn why(state: &[u8], card: u8, outcome: &mut [u8]) -> u8 {
    if state.len() != STATE_SIZE || outcome.len() != OUTCOME_SIZE {
        return Refusal::WrongLength as u8;
    }
    let judged = Bus::from_bytes(state).ok_or(Refusal::Senseless).and_then(|bus| bus.why(card));
    let (number, line, rival) = match judged {
        Ok(Some(Loss { line, rival })) => (0, line, rival),
        Ok(None) => (0, NO_LINE, NOBODY),
        Err(refusal) => (refusal as u8, NO_LINE, NOBODY),
    };
    outcome.copy_from_slice(&[number, card, line, rival]);
    number
}

pub fn field(field: Field, state: &[u8]) -> u32 {
    if state.len() != STATE_SIZE {
        return if let Field::MakesSense = field { 0 } else { NO_FIELD };
    }
    let set = |at| set_from(state, at).into_iter().map(|card| 1 << card).sum();
    let one_of_sixteen = |at, number: u8| if number > 15 { NO_FIELD } else { u32::from(state[at + usize::from(number)]) };
    match field {
        Field::Fitted => set(FITTED_AT),
        Field::Page(page) => one_of_sixteen(PAGES_AT, page),
        Field::Phase => u32::from(state[PHASE_AT]),
        Field::Contenders => set(CONTENDERS_AT),
        Field::Driven(card) => one_of_sixteen(DRIVEN_AT, card),
        Field::Granted => u32::from(state[GRANTED_AT]),
        Field::Lines => u32::from(lines(&contenders_from(state))),
        Field::MakesSense => u32::from(Bus::from_bytes(state).is_some()),
    }
}
