// The text program written plainly in Rust, to be timed against s100: frames on standard input, an answer line for each on standard output.
//
// Compiled with --cfg pins it is to be timed against s100_pins: for each accepted event its pictures of the pins (02, CR 1), and nothing else.
// That is settled when compiling, so that the answers pay nothing for it.
use std::io::{self, BufRead, BufWriter, Write};
use std::ops::Range;

const PRINTS_PICTURES: bool = cfg!(pins);

const FREE: u8 = 0;
const ARBITRATION: u8 = 1;
const GRANTED: u8 = 2;
const TRANSFER_ONE: u8 = 3;
const OWNED: u8 = 4;
const TRANSFER_TWO: u8 = 5;

const NOBODY: u8 = 0xFF;
const PERMANENT_MASTER: u8 = 0x10;

const SIGNAL_XTRQ: u8 = 0x80;
const STATUS_OUT: u8 = 0x08;
const STATUS_WO: u8 = 0x10;

const SIGNALS: [u8; 6] = [0x00, 0x01, 0x03, 0x1F, 0x3F, 0x1E];
const STATUS: [u8; 16] = [0, 0, 0, 0, 0, 0, 0x01, 0x03, 0x10, 0x01, 0x10, 0x04, 0x18, 0, 0, 0];

struct Event {
    kind: u8,
    speaker: u8,
    address: usize,
    datum: u16,
}

#[derive(Default)]
struct Answer {
    refusal: u8,
    phase: u8,
    granted: u8,
    lines: u8,
    signals: u8,
    status: u8,
    cycles: u8,
    datum: u16,
}

struct Machine {
    fitted: u16,
    pages: [u8; 16],
    phase: u8,
    contenders: u16,
    driven: [u8; 16],
    granted: u8,
    memory: Vec<u8>,
    ports: Vec<u8>,
}

/// What a card drives after a look at these lines.
fn look(card: u8, lines: u8) -> u8 {
    let mut drives = 0;
    for bit in [8, 4, 2, 1] {
        if card & bit != 0 {
            drives |= bit;
        } else if lines & bit != 0 {
            break;
        }
    }
    drives
}

impl Event {
    fn is_cycle(&self) -> bool {
        (0x06..=0x0C).contains(&self.kind)
    }

    fn is_word(&self) -> bool {
        self.kind == 0x09 || self.kind == 0x0A
    }

    fn lists_speaker(&self) -> bool {
        self.kind == 0x02 || (0x04..=0x0E).contains(&self.kind)
    }

    fn lists_datum(&self) -> bool {
        matches!(self.kind, 0x01 | 0x08 | 0x0A | 0x0C)
    }

    fn is_malformed(&self) -> bool {
        !(0x01..=0x0F).contains(&self.kind)
            || self.speaker > PERMANENT_MASTER
            || (!self.lists_speaker() && self.speaker != 0)
            || (!self.is_cycle() && self.address != 0)
            || (!self.lists_datum() && self.datum != 0)
            || ((self.kind == 0x08 || self.kind == 0x0C) && self.datum > 0xFF)
    }
}

impl Machine {
    fn new(fitted: u16, pages: [u8; 16]) -> Machine {
        Machine {
            fitted,
            pages,
            phase: FREE,
            contenders: 0,
            driven: [0; 16],
            granted: NOBODY,
            memory: vec![0; 0x10000],
            ports: vec![0; 0x100],
        }
    }

    fn contends(&self, card: u8) -> bool {
        self.contenders >> card & 1 == 1
    }

    fn lines(&self) -> u8 {
        (0..16).filter(|&card| self.contends(card)).fold(0, |lines, card| lines | self.driven[card as usize])
    }

    fn is_settled(&self) -> bool {
        let lines = self.lines();
        (0..16).all(|card| !self.contends(card) || look(card, lines) == self.driven[card as usize])
    }

    fn names_unfitted(&self, e: &Event) -> bool {
        (e.lists_speaker() && e.speaker < 16 && self.fitted >> e.speaker & 1 == 0)
            || (e.kind == 0x01 && e.datum & !self.fitted != 0)
    }

    fn phase_allows(&self, kind: u8) -> bool {
        match kind {
            0x01 => self.phase == FREE,
            0x02 | 0x03 => self.phase == ARBITRATION,
            0x04 => self.phase == GRANTED,
            0x05 => self.phase == TRANSFER_ONE,
            0x0D => self.phase == OWNED,
            0x0E => self.phase == TRANSFER_TWO,
            0x0F => true,
            _ => matches!(self.phase, FREE | ARBITRATION | OWNED),
        }
    }

    fn has_turn(&self, e: &Event) -> bool {
        match e.kind {
            0x01 | 0x03 | 0x0F => true,
            0x02 => e.speaker < 16 && self.contends(e.speaker),
            0x04 | 0x05 | 0x0D | 0x0E => e.speaker == self.granted,
            _ => e.speaker == if self.phase == OWNED { self.granted } else { PERMANENT_MASTER },
        }
    }

    fn is_absent(&self, e: &Event) -> bool {
        match e.kind {
            0x0B | 0x0C => e.address > 0xFF,
            0x06..=0x0A => e.address > 0xFFFF || self.pages[e.address >> 12] == 0,
            _ => false,
        }
    }

    fn refusal(&self, e: &Event) -> u8 {
        if e.is_malformed() {
            0x03
        } else if e.kind == 0x01 && e.datum == 0 {
            0x04
        } else if self.names_unfitted(e) {
            0x05
        } else if !self.phase_allows(e.kind) {
            0x06
        } else if !self.has_turn(e) {
            0x07
        } else if e.kind == 0x03 && !self.is_settled() {
            0x08
        } else if e.is_word() && e.address % 2 != 0 {
            0x09
        } else if self.is_absent(e) {
            0x0A
        } else {
            0
        }
    }

    fn stop_contention(&mut self) {
        self.contenders = 0;
        self.driven = [0; 16];
    }

    /// The step of an accepted event; what a cycle had on the bus.
    fn take_step(&mut self, e: &Event) -> u16 {
        let at = e.address;
        match e.kind {
            0x01 => {
                self.stop_contention();
                self.phase = ARBITRATION;
                self.contenders = e.datum;
            }
            0x02 => self.driven[e.speaker as usize] = look(e.speaker, self.lines()),
            0x03 => {
                self.granted = self.lines();
                self.phase = GRANTED;
                self.stop_contention();
            }
            0x04 => self.phase = TRANSFER_ONE,
            0x05 => self.phase = OWNED,
            0x06 | 0x07 => return self.memory[at].into(),
            0x08 => {
                self.memory[at] = e.datum as u8;
                return e.datum;
            }
            0x09 => return u16::from_be_bytes([self.memory[at], self.memory[at + 1]]),
            0x0A => {
                self.memory[at..at + 2].copy_from_slice(&e.datum.to_be_bytes());
                return e.datum;
            }
            0x0B => return self.ports[at].into(),
            0x0C => {
                self.ports[at] = e.datum as u8;
                return e.datum;
            }
            0x0D => self.phase = TRANSFER_TWO,
            0x0E => {
                self.phase = FREE;
                self.granted = NOBODY;
            }
            _ => {
                self.phase = FREE;
                self.granted = NOBODY;
                self.stop_contention();
            }
        }
        0
    }

    fn show(&self, mut a: Answer) -> Answer {
        a.phase = self.phase;
        a.granted = self.granted;
        a.lines = self.lines();
        a.signals |= SIGNALS[self.phase as usize];
        a
    }

    fn step(&mut self, e: &Event) -> Answer {
        let mut a = Answer { refusal: self.refusal(e), ..Answer::default() };
        if a.refusal == 0 {
            a.datum = self.take_step(e);
            a.status = STATUS[e.kind as usize];
            a.cycles = e.is_cycle().into();
            if e.is_word() {
                let sixteen = self.pages[e.address >> 12] == 2;
                a.cycles = if sixteen { 1 } else { 2 };
                a.signals = if sixteen { 0xC0 } else { 0x80 };
            }
        }
        self.show(a)
    }
}

fn digit(c: u8) -> Option<u32> {
    match c {
        b'0'..=b'9' => Some(u32::from(c - b'0')),
        b'A'..=b'F' => Some(u32::from(c - b'A' + 10)),
        _ => None,
    }
}

fn refused(number: u8) -> Answer {
    Answer { refusal: number, ..Answer::default() }
}

/// The number at these places of a line, or the answer to the first of them that holds no digit. Columns are counted from 1, places from 0.
fn number(line: &[u8], mut places: Range<usize>) -> Result<u32, Answer> {
    places.try_fold(0, |n, place| match digit(line[place]) {
        Some(digit) => Ok(n << 4 | digit),
        None => Err(Answer { datum: place as u16 + 1, ..refused(0x0D) }),
    })
}

/// The event of a line, or the answer to a bad line.
fn event(line: &[u8]) -> Result<Event, Answer> {
    if line.len() != 14 {
        return Err(refused(0x0C));
    }
    Ok(Event {
        kind: number(line, 0..2)? as u8,
        speaker: number(line, 2..4)? as u8,
        address: number(line, 4..10)? as usize,
        datum: number(line, 10..14)? as u16,
    })
}

/// The machine of a setup line, or the answer to one that is refused.
fn set_up(line: &[u8]) -> Result<Machine, Answer> {
    if line.len() != 20 {
        return Err(refused(0x0C));
    }
    let fitted = number(line, 0..4)?;
    let mut pages = [0; 16];
    for (page, place) in pages.iter_mut().zip(4..) {
        *page = number(line, place..place + 1)? as u8;
    }
    if pages.iter().any(|&page| page > 2) {
        return Err(refused(0x0B));
    }
    Ok(Machine::new(fitted as u16, pages))
}

const DIGITS: &[u8; 16] = b"0123456789ABCDEF";

fn put_answer(out: &mut impl Write, a: &Answer) -> io::Result<()> {
    let [high, low] = a.datum.to_be_bytes();
    let mut line = [b'\n'; 19];
    let bytes = [a.refusal, a.phase, a.granted, a.lines, a.signals, a.status, a.cycles, high, low];
    for (two, byte) in line.chunks_exact_mut(2).zip(bytes) {
        two[0] = DIGITS[usize::from(byte >> 4)];
        two[1] = DIGITS[usize::from(byte & 15)];
    }
    out.write_all(&line)
}

/// A set of pins, or of the lines on them, pin 1 in the top bit.
type Pins = u128;

/// Which line is on which pin: 003, Appendix B. A table follows the bits of a number, the lowest first: those of the address, of a byte, of
/// the answer's lines, signals and status.
mod pin {
    pub const ADDRESS: [u8; 24] = [79, 80, 81, 31, 30, 29, 82, 83, 84, 34, 37, 87, 33, 85, 86, 32, 16, 17, 15, 59, 61, 62, 63, 64];
    pub const DATA_IN: [u8; 8] = [95, 94, 41, 42, 91, 92, 93, 43];
    pub const DATA_OUT: [u8; 8] = [36, 35, 88, 89, 38, 39, 40, 90];
    pub const DMA: [u8; 4] = [55, 56, 57, 14];
    pub const HOLD: u8 = 74;
    pub const SIXTN: u8 = 60;
    pub const ADSB: u8 = 22;
    pub const SDSB: u8 = 18;
    pub const DODSB: u8 = 23;
    pub const CDSB: u8 = 19;
    pub const PSYNC: u8 = 76;
    pub const PSTVAL: u8 = 25;
    pub const PDBIN: u8 = 78;
    pub const PWR: u8 = 77;
    pub const PHLDA: u8 = 26;
    pub const MWRT: u8 = 68;
    pub const SMEMR: u8 = 47;
    pub const SM1: u8 = 44;
    pub const SINP: u8 = 46;
    pub const SOUT: u8 = 45;
    pub const SWO: u8 = 97;
    pub const SXTRQ: u8 = 58;
    pub const SIGNALS: [u8; 8] = [HOLD, PHLDA, ADSB, SDSB, DODSB, CDSB, SIXTN, SXTRQ];
    pub const STATUS: [u8; 5] = [SMEMR, SM1, SINP, SOUT, SWO];
}

const fn pins(bits: u32, table: &[u8]) -> Pins {
    let mut set = 0;
    let mut i = 0;
    while i < table.len() {
        set |= ((bits >> i & 1) as Pins) << (128 - table[i]);
        i += 1;
    }
    set
}

const fn all(table: &[u8]) -> Pins {
    pins(u32::MAX, table)
}

const PULLED_UP: Pins = all(&pin::DMA) | all(&[pin::HOLD, pin::SIXTN, pin::ADSB, pin::SDSB, pin::DODSB, pin::CDSB]);
const LOW_WHEN_TRUE: Pins = PULLED_UP | all(&[pin::PSTVAL, pin::PWR, pin::SWO, pin::SXTRQ]);
const ALWAYS_DRIVEN: Pins = PULLED_UP | all(&[pin::PSYNC, pin::PSTVAL, pin::PDBIN, pin::PWR, pin::PHLDA, pin::MWRT]);
const DRIVEN_IN_CYCLES: Pins = ALWAYS_DRIVEN | all(&pin::STATUS) | all(&[pin::SXTRQ]) | all(&pin::ADDRESS);

struct Picture {
    true_lines: Pins,
    driven: Pins,
}

fn byte_on(table: &[u8; 8], byte: u8) -> Picture {
    Picture { true_lines: pins(byte.into(), table), driven: all(table) }
}

fn put_pins(text: &mut [u8], mut set: Pins) {
    for c in text {
        *c = DIGITS[(set >> 124) as usize];
        set <<= 4;
    }
}

fn put_picture(out: &mut impl Write, p: &Picture) -> io::Result<()> {
    let mut line = [b'\n'; 51];
    put_pins(&mut line[..25], (p.true_lines ^ LOW_WHEN_TRUE) & p.driven);
    put_pins(&mut line[25..50], p.driven);
    out.write_all(&line)
}

/// The bus outside cycles. Here and in cycles pSYNC and pSTVAL are never true, so no set of true lines has them.
fn resting(lines: u8, signals: u8) -> Picture {
    Picture { true_lines: pins(lines.into(), &pin::DMA) | pins(signals.into(), &pin::SIGNALS), driven: ALWAYS_DRIVEN }
}

/// A cycle while its strobe is true. MWRT follows from pWR and sOUT (01).
fn put_cycle(out: &mut impl Write, a: &Answer, signals: u8, address: usize, data: &Picture) -> io::Result<()> {
    let mut p = resting(a.lines, signals);
    p.true_lines |= pins(a.status.into(), &pin::STATUS) | pins(address as u32, &pin::ADDRESS) | data.true_lines;
    p.driven = DRIVEN_IN_CYCLES | data.driven;
    p.true_lines |= if a.status & STATUS_WO == 0 {
        all(&[pin::PDBIN])
    } else if a.status & STATUS_OUT != 0 {
        all(&[pin::PWR])
    } else {
        all(&[pin::PWR, pin::MWRT])
    };
    put_picture(out, &p)
}

fn put_byte_cycle(out: &mut impl Write, a: &Answer, signals: u8, address: usize, byte: u8) -> io::Result<()> {
    let data = if a.status & STATUS_WO != 0 { byte_on(&pin::DATA_OUT, byte) } else { byte_on(&pin::DATA_IN, byte) };
    put_cycle(out, a, signals, address, &data)
}

/// A word on a sixteen-bit page has its even byte on DO and its odd one on DI, whether it is read or written.
fn put_word_cycle(out: &mut impl Write, a: &Answer, address: usize, even: u8, odd: u8) -> io::Result<()> {
    let (high, low) = (byte_on(&pin::DATA_OUT, even), byte_on(&pin::DATA_IN, odd));
    let data = Picture { true_lines: high.true_lines | low.true_lines, driven: high.driven | low.driven };
    put_cycle(out, a, a.signals, address, &data)
}

fn put_pictures(out: &mut impl Write, e: &Event, a: &Answer) -> io::Result<()> {
    let [even, odd] = a.datum.to_be_bytes();
    if a.cycles == 0 {
        put_picture(out, &resting(a.lines, a.signals))
    } else if a.cycles == 2 {
        put_byte_cycle(out, a, a.signals, e.address, even)?;
        put_byte_cycle(out, a, a.signals & !SIGNAL_XTRQ, e.address + 1, odd)
    } else if e.is_word() {
        put_word_cycle(out, a, e.address, even, odd)
    } else {
        put_byte_cycle(out, a, a.signals, e.address, odd)
    }
}

/// Prints what a line calls for. Setup lines and bad lines have no event.
fn report(out: &mut impl Write, e: Option<&Event>, a: &Answer) -> io::Result<()> {
    if !PRINTS_PICTURES {
        return put_answer(out, a);
    }
    match e {
        Some(e) if a.refusal == 0 => put_pictures(out, e, a),
        _ => Ok(()),
    }
}

/// Answers a line; whether the run goes on.
fn answer(machine: &mut Option<Machine>, line: &[u8], out: &mut impl Write) -> io::Result<bool> {
    match machine {
        Some(m) => {
            match event(line) {
                Ok(e) => report(out, Some(&e), &m.step(&e))?,
                Err(refused) => report(out, None, &refused)?,
            }
            Ok(true)
        }
        None => match set_up(line) {
            Ok(m) => {
                report(out, None, &m.show(Answer::default()))?;
                *machine = Some(m);
                Ok(true)
            }
            Err(refused) => {
                report(out, None, &refused)?;
                Ok(false)
            }
        },
    }
}

fn main() -> io::Result<()> {
    let mut input = io::BufReader::with_capacity(65536, io::stdin());
    let mut out = BufWriter::with_capacity(65536, io::stdout());
    let mut machine = None;
    // An unfinished line, cut at one byte more than the longest that is right.
    let mut held: Vec<u8> = Vec::with_capacity(21);
    loop {
        let text = input.fill_buf()?;
        let got = text.len();
        if got == 0 {
            break;
        }
        for &c in text {
            if c != b'\n' {
                if held.len() < 21 {
                    held.push(c);
                }
                continue;
            }
            if !answer(&mut machine, &held, &mut out)? {
                return out.flush();
            }
            held.clear();
        }
        input.consume(got);
    }
    if !held.is_empty() {
        answer(&mut machine, &held, &mut out)?;
    }
    out.flush()
}
