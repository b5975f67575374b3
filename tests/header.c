/* Prints every number that include/s100.h defines, each behind its name, and what each of its calls answers on one small bus. */

/* The first, to show that it needs no other before it. */
#include "s100.h"

#include <stdio.h>

#define NAMED(name) { #name, name }

static const struct {
    const char *name;
    unsigned long number;
} numbers[] = {
    NAMED(S100_PAGES_SIZE), NAMED(S100_STATE_SIZE), NAMED(S100_ANSWER_SIZE), NAMED(S100_MEMORY_SIZE), NAMED(S100_PORTS_SIZE),
    NAMED(S100_PICTURE_DIGITS), NAMED(S100_PICTURES_SIZE), NAMED(S100_SEEN_SIZE), NAMED(S100_OUTCOME_SIZE),
    NAMED(S100_FITTED_AT), NAMED(S100_PAGES_AT), NAMED(S100_PHASE_AT), NAMED(S100_CONTENDERS_AT), NAMED(S100_DRIVEN_AT),
    NAMED(S100_GRANTED_AT), NAMED(S100_NOBODY),
    NAMED(S100_PAGE_ABSENT), NAMED(S100_PAGE_EIGHT_BIT), NAMED(S100_PAGE_SIXTEEN_BIT),
    NAMED(S100_PHASE_FREE), NAMED(S100_PHASE_ARBITRATION), NAMED(S100_PHASE_GRANTED), NAMED(S100_PHASE_TRANSFER_ONE),
    NAMED(S100_PHASE_OWNED), NAMED(S100_PHASE_TRANSFER_TWO),
    NAMED(S100_ANSWER_REFUSAL_AT), NAMED(S100_ANSWER_PHASE_AT), NAMED(S100_ANSWER_GRANTED_AT), NAMED(S100_ANSWER_LINES_AT),
    NAMED(S100_ANSWER_SIGNALS_AT), NAMED(S100_ANSWER_STATUS_AT), NAMED(S100_ANSWER_CYCLES_AT), NAMED(S100_ANSWER_DATUM_AT),
    NAMED(S100_HOLD), NAMED(S100_PHLDA), NAMED(S100_ADSB), NAMED(S100_SDSB), NAMED(S100_DODSB), NAMED(S100_CDSB), NAMED(S100_SIXTN),
    NAMED(S100_SXTRQ),
    NAMED(S100_SMEMR), NAMED(S100_SM1), NAMED(S100_SINP), NAMED(S100_SOUT), NAMED(S100_SWO),
    NAMED(S100_SEEN_PHASE_AT), NAMED(S100_SEEN_SIGNALS_AT), NAMED(S100_SEEN_LINES_AT), NAMED(S100_SEEN_COLUMN_AT),
    NAMED(S100_NO_PHASE),
    NAMED(S100_OUTCOME_REFUSAL_AT), NAMED(S100_OUTCOME_CARD_AT), NAMED(S100_OUTCOME_LINE_AT), NAMED(S100_OUTCOME_RIVAL_AT),
    NAMED(S100_NO_LINE),
    NAMED(S100_REQUEST), NAMED(S100_LOOK), NAMED(S100_ACKNOWLEDGE), NAMED(S100_BEGIN_TRANSFER_ONE), NAMED(S100_TAKE_BUS),
    NAMED(S100_BYTE_READ), NAMED(S100_OPCODE_FETCH), NAMED(S100_BYTE_WRITE), NAMED(S100_WORD_READ), NAMED(S100_WORD_WRITE),
    NAMED(S100_INPUT), NAMED(S100_OUTPUT), NAMED(S100_BEGIN_TRANSFER_TWO), NAMED(S100_GIVE_BACK), NAMED(S100_RESET),
    NAMED(S100_PERMANENT_MASTER),
    NAMED(S100_ACCEPTED), NAMED(S100_REFUSED_WRONG_BUFFERS), NAMED(S100_REFUSED_SENSELESS), NAMED(S100_REFUSED_MALFORMED),
    NAMED(S100_REFUSED_NAMES_NOBODY), NAMED(S100_REFUSED_NOT_FITTED), NAMED(S100_REFUSED_WRONG_PHASE), NAMED(S100_REFUSED_NOT_ITS_TURN),
    NAMED(S100_REFUSED_UNSETTLED), NAMED(S100_REFUSED_ODD_WORD), NAMED(S100_REFUSED_ABSENT), NAMED(S100_REFUSED_BAD_PAGE),
    NAMED(S100_REFUSED_WRONG_LINE_LENGTH), NAMED(S100_REFUSED_WRONG_CHARACTER), NAMED(S100_WRONG_LENGTH), NAMED(S100_NO_FIELD),
};

static uint8_t state[S100_STATE_SIZE], answer[S100_ANSWER_SIZE], memory[S100_MEMORY_SIZE], ports[S100_PORTS_SIZE];
static uint8_t lines[S100_PICTURES_SIZE], seen[S100_SEEN_SIZE], outcome[S100_OUTCOME_SIZE];

static void print_number(const char *name, unsigned long number) {
    printf("%s %02lX\n", name, number);
}

static void print_bytes(const char *name, const uint8_t *bytes, size_t length) {
    printf("%s ", name);
    for (size_t at = 0; at < length; at++) {
        printf("%02X", (unsigned)bytes[at]);
    }
    printf("\n");
}

static void step(uint8_t kind, uint8_t speaker, uint32_t address, uint16_t datum) {
    uint8_t number = s100_step(state, sizeof state, kind, speaker, address, datum, memory, sizeof memory, ports, sizeof ports,
                               answer, sizeof answer);
    print_number("s100_step", number);
    print_bytes("answer", answer, sizeof answer);
}

static void why(uint8_t card) {
    print_number("s100_outcome", s100_outcome(state, sizeof state, card, outcome, sizeof outcome));
    print_bytes("outcome", outcome, sizeof outcome);
}

/* Cards 1 and 3 contend until 3 has won: card 1 is asked about before the lines are settled, and all three once they are, card 2 too, which isn't
   fitted. Then the permanent master writes a word, over the sixteen-bit page. */
static void arbitrate(void) {
    const uint8_t pages[S100_PAGES_SIZE] = {S100_PAGE_EIGHT_BIT, S100_PAGE_SIXTEEN_BIT};
    const uint8_t looking[] = {1, 3, 1, 3};
    size_t looks = 0;
    print_number("s100_setup", s100_setup(1 << 1 | 1 << 3, pages, sizeof pages, state, sizeof state));
    step(S100_REQUEST, 0, 0, 1 << 1 | 1 << 3);
    why(1);
    print_number("s100_settle", s100_settle(state, sizeof state, looking, sizeof looking, &looks));
    print_number("looks", looks);
    why(1);
    why(2);
    why(3);
    step(S100_WORD_WRITE, S100_PERMANENT_MASTER, 0x1000, 0x1234);
    print_bytes("memory", memory + 0x1000, 2);
    print_bytes("state", state, sizeof state);
}

static void read_picture(size_t length) {
    print_number("s100_read_picture", s100_read_picture(lines, length, seen, sizeof seen));
    print_bytes("seen", seen, sizeof seen);
}

static void picture(uint8_t kind, uint32_t address) {
    uint8_t written = s100_picture(kind, address, answer, sizeof answer, lines, sizeof lines);
    print_number("s100_picture", written);
    fwrite(lines, 1, written <= sizeof lines ? written : 0, stdout);
    read_picture(S100_PICTURE_DIGITS);
}

/* The word of before, and one more, which the eight-bit page splits. */
static void picture_words(void) {
    picture(S100_WORD_WRITE, 0x1000);
    step(S100_WORD_WRITE, S100_PERMANENT_MASTER, 0x0FFE, 0xABCD);
    picture(S100_WORD_WRITE, 0x0FFE);
}

/* A line of the last picture with two slips, a small e and a blank at the end; then cut short, then with the blank alone, and then mended.
   Each reading finds in `seen` what the one before left there. */
static void read_slips(void) {
    const uint8_t end = lines[S100_PICTURE_DIGITS - 1];
    lines[7] = 'e';
    lines[S100_PICTURE_DIGITS - 1] = ' ';
    read_picture(S100_PICTURE_DIGITS);
    read_picture(S100_PICTURE_DIGITS - 1);
    lines[7] = 'E';
    read_picture(S100_PICTURE_DIGITS);
    lines[S100_PICTURE_DIGITS - 1] = end;
    read_picture(S100_PICTURE_DIGITS);
}

static void read_fields(void) {
    print_number("s100_fitted", s100_fitted(state, sizeof state));
    print_number("s100_page", s100_page(state, sizeof state, 1));
    print_number("s100_phase", s100_phase(state, sizeof state));
    print_number("s100_contenders", s100_contenders(state, sizeof state));
    print_number("s100_driven", s100_driven(state, sizeof state, 3));
    print_number("s100_granted", s100_granted(state, sizeof state));
    print_number("s100_lines", s100_lines(state, sizeof state));
    print_number("s100_makes_sense", s100_makes_sense(state, sizeof state));
}

int main(void) {
    for (size_t at = 0; at < sizeof numbers / sizeof numbers[0]; at++) {
        print_number(numbers[at].name, numbers[at].number);
    }
    arbitrate();
    picture_words();
    read_slips();
    read_fields();
    return 0;
}
