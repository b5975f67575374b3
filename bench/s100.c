/* The text program written plainly in C, to be timed against s100: frames on standard input, an answer line for each on standard output.

   Compiled with -DPINS it is to be timed against s100_pins: for each accepted event its pictures of the pins (02, CR 1), and nothing else.
   That is settled when compiling, so that the answers pay nothing for it. */
#include <stdint.h>
#include <stdio.h>
#include <string.h>

#ifdef PINS
enum { PRINTS_PICTURES = 1 };
#else
enum { PRINTS_PICTURES = 0 };
#endif

enum { FREE, ARBITRATION, GRANTED, TRANSFER_ONE, OWNED, TRANSFER_TWO };

enum { NOBODY = 0xFF, PERMANENT_MASTER = 0x10 };

enum { SIGNAL_XTRQ = 0x80, STATUS_OUT = 0x08, STATUS_WO = 0x10 };

struct bus {
    uint16_t fitted;
    uint8_t pages[16];
    uint8_t phase;
    uint16_t contenders;
    uint8_t driven[16];
    uint8_t granted;
};

struct event {
    uint8_t kind, speaker;
    uint32_t address;
    uint16_t datum;
};

struct answer {
    uint8_t refusal, phase, granted, lines, signals, status, cycles;
    uint16_t datum;
};

static struct bus bus = {.granted = NOBODY};
static uint8_t memory[0x10000];
static uint8_t ports[0x100];

static const uint8_t signals_of[6] = {0x00, 0x01, 0x03, 0x1F, 0x3F, 0x1E};
static const uint8_t status_of[16] = {0, 0, 0, 0, 0, 0, 0x01, 0x03, 0x10, 0x01, 0x10, 0x04, 0x18, 0, 0, 0};

static int contends(unsigned card) { return bus.contenders >> card & 1; }

static uint8_t lines_shown(void)
{
    uint8_t lines = 0;
    for (unsigned card = 0; card < 16; card++)
        if (contends(card))
            lines |= bus.driven[card];
    return lines;
}

/* What a card drives after a look at these lines. */
static uint8_t look(uint8_t card, uint8_t lines)
{
    uint8_t drives = 0;
    for (uint8_t bit = 8; bit != 0; bit >>= 1) {
        if (card & bit)
            drives |= bit;
        else if (lines & bit)
            break;
    }
    return drives;
}

static int is_settled(void)
{
    uint8_t lines = lines_shown();
    for (unsigned card = 0; card < 16; card++)
        if (contends(card) && look((uint8_t)card, lines) != bus.driven[card])
            return 0;
    return 1;
}

static int is_cycle(const struct event *e) { return 0x06 <= e->kind && e->kind <= 0x0C; }

static int is_word(const struct event *e) { return e->kind == 0x09 || e->kind == 0x0A; }

static int lists_speaker(uint8_t kind) { return kind == 0x02 || (0x04 <= kind && kind <= 0x0E); }

static int lists_datum(uint8_t kind) { return kind == 0x01 || kind == 0x08 || kind == 0x0A || kind == 0x0C; }

static int is_malformed(const struct event *e)
{
    if (e->kind < 0x01 || e->kind > 0x0F || e->speaker > PERMANENT_MASTER)
        return 1;
    if (!lists_speaker(e->kind) && e->speaker != 0)
        return 1;
    if (!is_cycle(e) && e->address != 0)
        return 1;
    if (!lists_datum(e->kind) && e->datum != 0)
        return 1;
    return (e->kind == 0x08 || e->kind == 0x0C) && e->datum > 0xFF;
}

static int names_unfitted(const struct event *e)
{
    if (lists_speaker(e->kind) && e->speaker < 16 && !(bus.fitted >> e->speaker & 1))
        return 1;
    return e->kind == 0x01 && (e->datum & ~bus.fitted);
}

static int phase_allows(uint8_t kind)
{
    switch (kind) {
    case 0x01: return bus.phase == FREE;
    case 0x02:
    case 0x03: return bus.phase == ARBITRATION;
    case 0x04: return bus.phase == GRANTED;
    case 0x05: return bus.phase == TRANSFER_ONE;
    case 0x0D: return bus.phase == OWNED;
    case 0x0E: return bus.phase == TRANSFER_TWO;
    case 0x0F: return 1;
    default: return bus.phase == FREE || bus.phase == ARBITRATION || bus.phase == OWNED;
    }
}

static int has_turn(const struct event *e)
{
    switch (e->kind) {
    case 0x01:
    case 0x03:
    case 0x0F: return 1;
    case 0x02: return e->speaker < 16 && contends(e->speaker);
    case 0x04:
    case 0x05:
    case 0x0D:
    case 0x0E: return e->speaker == bus.granted;
    default: return e->speaker == (bus.phase == OWNED ? bus.granted : PERMANENT_MASTER);
    }
}

static int is_absent(const struct event *e)
{
    if (e->kind == 0x0B || e->kind == 0x0C)
        return e->address > 0xFF;
    return is_cycle(e) && (e->address > 0xFFFF || bus.pages[e->address >> 12] == 0);
}

static uint8_t refusal_of(const struct event *e)
{
    if (is_malformed(e))
        return 0x03;
    if (e->kind == 0x01 && e->datum == 0)
        return 0x04;
    if (names_unfitted(e))
        return 0x05;
    if (!phase_allows(e->kind))
        return 0x06;
    if (!has_turn(e))
        return 0x07;
    if (e->kind == 0x03 && !is_settled())
        return 0x08;
    if (is_word(e) && e->address % 2 != 0)
        return 0x09;
    if (is_absent(e))
        return 0x0A;
    return 0;
}

static void stop_contention(void)
{
    bus.contenders = 0;
    memset(bus.driven, 0, sizeof bus.driven);
}

/* The step of an accepted event; what a cycle had on the bus goes into the answer's datum. */
static void take_step(const struct event *e, struct answer *a)
{
    uint8_t *at = &memory[e->address & 0xFFFF];
    switch (e->kind) {
    case 0x01:
        stop_contention();
        bus.phase = ARBITRATION;
        bus.contenders = e->datum;
        break;
    case 0x02:
        bus.driven[e->speaker] = look(e->speaker, lines_shown());
        break;
    case 0x03:
        bus.granted = lines_shown();
        bus.phase = GRANTED;
        stop_contention();
        break;
    case 0x04: bus.phase = TRANSFER_ONE; break;
    case 0x05: bus.phase = OWNED; break;
    case 0x06:
    case 0x07:
        a->datum = at[0];
        break;
    case 0x08:
        at[0] = (uint8_t)e->datum;
        a->datum = e->datum;
        break;
    case 0x09:
        a->datum = (uint16_t)(at[0] << 8 | at[1]);
        break;
    case 0x0A:
        at[0] = (uint8_t)(e->datum >> 8);
        at[1] = (uint8_t)e->datum;
        a->datum = e->datum;
        break;
    case 0x0B: a->datum = ports[e->address]; break;
    case 0x0C:
        ports[e->address] = (uint8_t)e->datum;
        a->datum = e->datum;
        break;
    case 0x0D: bus.phase = TRANSFER_TWO; break;
    case 0x0E:
        bus.phase = FREE;
        bus.granted = NOBODY;
        break;
    case 0x0F:
        bus.phase = FREE;
        bus.granted = NOBODY;
        stop_contention();
        break;
    }
}

static void show_bus(struct answer *a)
{
    a->phase = bus.phase;
    a->granted = bus.granted;
    a->lines = lines_shown();
    a->signals |= signals_of[bus.phase];
}

static struct answer step(const struct event *e)
{
    struct answer a = {0};
    a.refusal = refusal_of(e);
    if (a.refusal == 0) {
        take_step(e, &a);
        a.status = status_of[e->kind];
        if (is_cycle(e))
            a.cycles = 1;
        if (is_word(e)) {
            int sixteen = bus.pages[e->address >> 12] == 2;
            a.cycles = sixteen ? 1 : 2;
            a.signals = sixteen ? 0xC0 : 0x80;
        }
    }
    show_bus(&a);
    return a;
}

/* The value of a digit, or -1. */
static int digit_of(char c)
{
    if ('0' <= c && c <= '9')
        return c - '0';
    if ('A' <= c && c <= 'F')
        return c - 'A' + 10;
    return -1;
}

/* Reads n digits from *text on into *value, and moves *text past them; 0 where one is no digit, and *text is then just past that one. */
static int take_number(const char **text, int n, uint32_t *value)
{
    *value = 0;
    while (n-- > 0) {
        int digit = digit_of(*(*text)++);
        if (digit < 0)
            return 0;
        *value = *value << 4 | (uint32_t)digit;
    }
    return 1;
}

static const char digits[] = "0123456789ABCDEF";

static char *put_byte(char *to, uint8_t byte)
{
    *to++ = digits[byte >> 4];
    *to++ = digits[byte & 15];
    return to;
}

static void put_answer(const struct answer *a)
{
    char line[19], *to = line;
    to = put_byte(to, a->refusal);
    to = put_byte(to, a->phase);
    to = put_byte(to, a->granted);
    to = put_byte(to, a->lines);
    to = put_byte(to, a->signals);
    to = put_byte(to, a->status);
    to = put_byte(to, a->cycles);
    to = put_byte(to, (uint8_t)(a->datum >> 8));
    to = put_byte(to, (uint8_t)a->datum);
    *to = '\n';
    fwrite(line, 1, sizeof line, stdout);
}

/* A set of pins, or of the lines on them, pin 1 in the top bit. gcc and clang have a type that is wide enough on all 64-bit processors. */
typedef unsigned __int128 pins;

#define PIN(number) ((pins)1 << (128 - (number)))

/* Which line is on which pin: 003, Appendix B. */
enum {
    DMA_0 = 55, DMA_1 = 56, DMA_2 = 57, DMA_3 = 14, HOLD = 74, SIXTN = 60, ADSB = 22, SDSB = 18, DODSB = 23, CDSB = 19,
    PSYNC = 76, PSTVAL = 25, PDBIN = 78, PWR = 77, PHLDA = 26, MWRT = 68,
    SMEMR = 47, SM1 = 44, SINP = 46, SOUT = 45, SWO = 97, SXTRQ = 58
};

/* A table follows the bits of a number, the lowest first: those of the address, of a byte, of the answer's lines, signals and status. */
static const uint8_t address_pins[24] = {79, 80, 81, 31, 30, 29, 82, 83, 84, 34, 37, 87, 33, 85, 86, 32, 16, 17, 15, 59, 61, 62, 63, 64};
static const uint8_t data_in_pins[8] = {95, 94, 41, 42, 91, 92, 93, 43};
static const uint8_t data_out_pins[8] = {36, 35, 88, 89, 38, 39, 40, 90};
static const uint8_t priority_pins[4] = {DMA_0, DMA_1, DMA_2, DMA_3};
static const uint8_t signal_pins[8] = {HOLD, PHLDA, ADSB, SDSB, DODSB, CDSB, SIXTN, SXTRQ};
static const uint8_t status_pins[5] = {SMEMR, SM1, SINP, SOUT, SWO};

#define PULLED_UP \
    (PIN(DMA_0) | PIN(DMA_1) | PIN(DMA_2) | PIN(DMA_3) | PIN(HOLD) | PIN(SIXTN) | PIN(ADSB) | PIN(SDSB) | PIN(DODSB) | PIN(CDSB))
#define LOW_WHEN_TRUE (PULLED_UP | PIN(PSTVAL) | PIN(PWR) | PIN(SWO) | PIN(SXTRQ))
#define ALWAYS_DRIVEN (PULLED_UP | PIN(PSYNC) | PIN(PSTVAL) | PIN(PDBIN) | PIN(PWR) | PIN(PHLDA) | PIN(MWRT))

struct picture {
    pins true_lines, driven;
};

static pins pins_of(uint32_t bits, const uint8_t *table, int count)
{
    pins set = 0;
    for (int i = 0; i < count; i++)
        set |= (pins)(bits >> i & 1) << (128 - table[i]);
    return set;
}

/* By bytes, because gcc unrolls a loop over eight pins, but not one over twenty-four. */
static pins address_of(uint32_t address)
{
    return pins_of(address, address_pins, 8) | pins_of(address >> 8, address_pins + 8, 8) | pins_of(address >> 16, address_pins + 16, 8);
}

static struct picture byte_on(const uint8_t *table, uint8_t byte)
{
    return (struct picture){pins_of(byte, table, 8), pins_of(0xFF, table, 8)};
}

static char *put_digits(char *to, uint64_t bits, int count)
{
    for (; count > 0; count--, bits <<= 4)
        *to++ = digits[bits >> 60];
    return to;
}

static char *put_pins(char *to, pins set)
{
    to = put_digits(to, (uint64_t)(set >> 64), 16);
    return put_digits(to, (uint64_t)set, 9);
}

static void put_picture(struct picture p)
{
    char line[51], *to = line;
    to = put_pins(to, (p.true_lines ^ LOW_WHEN_TRUE) & p.driven);
    to = put_pins(to, p.driven);
    *to = '\n';
    fwrite(line, 1, sizeof line, stdout);
}

/* The bus outside cycles. Here and in cycles pSYNC and pSTVAL are never true, so no set of true lines has them. */
static struct picture resting(uint8_t lines, uint8_t signals)
{
    return (struct picture){pins_of(lines, priority_pins, 4) | pins_of(signals, signal_pins, 8), ALWAYS_DRIVEN};
}

/* A cycle while its strobe is true. MWRT follows from pWR and sOUT (01). */
static void put_cycle(const struct answer *a, uint8_t signals, uint32_t address, struct picture data)
{
    struct picture p = resting(a->lines, signals);
    p.true_lines |= pins_of(a->status, status_pins, 5) | address_of(address) | data.true_lines;
    p.driven |= pins_of(0x1F, status_pins, 5) | PIN(SXTRQ) | address_of(0xFFFFFF) | data.driven;
    if (!(a->status & STATUS_WO))
        p.true_lines |= PIN(PDBIN);
    else
        p.true_lines |= a->status & STATUS_OUT ? PIN(PWR) : PIN(PWR) | PIN(MWRT);
    put_picture(p);
}

static void put_byte_cycle(const struct answer *a, uint8_t signals, uint32_t address, uint8_t byte)
{
    put_cycle(a, signals, address, a->status & STATUS_WO ? byte_on(data_out_pins, byte) : byte_on(data_in_pins, byte));
}

/* A word on a sixteen-bit page has its even byte on DO and its odd one on DI, whether it is read or written. */
static void put_word_cycle(const struct answer *a, uint32_t address, uint8_t even, uint8_t odd)
{
    struct picture out = byte_on(data_out_pins, even), in = byte_on(data_in_pins, odd);
    put_cycle(a, a->signals, address, (struct picture){out.true_lines | in.true_lines, out.driven | in.driven});
}

static void put_pictures(const struct event *e, const struct answer *a)
{
    uint8_t even = (uint8_t)(a->datum >> 8), odd = (uint8_t)a->datum;
    if (a->cycles == 0) {
        put_picture(resting(a->lines, a->signals));
    } else if (a->cycles == 2) {
        put_byte_cycle(a, a->signals, e->address, even);
        put_byte_cycle(a, a->signals & ~SIGNAL_XTRQ, e->address + 1, odd);
    } else if (is_word(e)) {
        put_word_cycle(a, e->address, even, odd);
    } else {
        put_byte_cycle(a, a->signals, e->address, odd);
    }
}

/* What is printed of a line. Setup lines and bad lines have no event. */
static void report(const struct event *e, const struct answer *a)
{
    if (!PRINTS_PICTURES)
        put_answer(a);
    else if (e && a->refusal == 0)
        put_pictures(e, a);
}

static struct answer refused(uint8_t number)
{
    struct answer a = {0};
    a.refusal = number;
    return a;
}

/* A line of the right length has been read to just past its first character that is no digit. */
static struct answer wrong_character(const char *line, const char *past)
{
    struct answer a = refused(0x0D);
    a.datum = (uint16_t)(past - line);
    return a;
}

/* Reads the 20 digits of a setup line; 0 as for a number. */
static int take_setup(const char **text)
{
    uint32_t fitted, page;
    if (!take_number(text, 4, &fitted))
        return 0;
    bus.fitted = (uint16_t)fitted;
    for (int i = 0; i < 16; i++) {
        if (!take_number(text, 1, &page))
            return 0;
        bus.pages[i] = (uint8_t)page;
    }
    return 1;
}

static int has_unknown_page(void)
{
    for (int i = 0; i < 16; i++)
        if (bus.pages[i] > 2)
            return 1;
    return 0;
}

/* The setup line; whether the run goes on. */
static int set_up(const char *line, size_t length)
{
    const char *text = line;
    struct answer a = {0};
    if (length != 20)
        a = refused(0x0C);
    else if (!take_setup(&text))
        a = wrong_character(line, text);
    else if (has_unknown_page())
        a = refused(0x0B);
    else
        show_bus(&a);
    report(NULL, &a);
    return a.refusal == 0;
}

/* Reads the 14 digits of an event line; 0 as for a number. */
static int take_event(const char **text, struct event *e)
{
    uint32_t kind, speaker, address, datum;
    if (!take_number(text, 2, &kind) || !take_number(text, 2, &speaker) || !take_number(text, 6, &address) || !take_number(text, 4, &datum))
        return 0;
    *e = (struct event){(uint8_t)kind, (uint8_t)speaker, address, (uint16_t)datum};
    return 1;
}

static void answer_event(const char *line, size_t length)
{
    const char *text = line;
    struct event e;
    struct answer a;
    if (length != 14) {
        a = refused(0x0C);
        report(NULL, &a);
    } else if (!take_event(&text, &e)) {
        a = wrong_character(line, text);
        report(NULL, &a);
    } else {
        a = step(&e);
        report(&e, &a);
    }
}

int main(void)
{
    static char text[65536];
    /* An unfinished line, cut at one byte more than the longest that is right. */
    char line[21];
    size_t length = 0, got;
    int is_set_up = 0;
    while ((got = fread(text, 1, sizeof text, stdin)) > 0) {
        for (size_t i = 0; i < got; i++) {
            if (text[i] != '\n') {
                if (length < sizeof line)
                    line[length++] = text[i];
                continue;
            }
            if (is_set_up)
                answer_event(line, length);
            else if (!(is_set_up = set_up(line, length)))
                return 0;
            length = 0;
        }
    }
    if (length > 0) {
        if (is_set_up)
            answer_event(line, length);
        else
            set_up(line, length);
    }
    return 0;
}
