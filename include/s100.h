/* The proved model of the S-100 bus (IEEE Std 696-1983), for C and for whatever calls C.
 *
 * The library keeps nothing between calls. A caller owns the state, the memory and the ports, lends them to a call and finds them changed
 * afterwards. Each buffer is a pointer with the number of its bytes behind it. A call judges that number and never reads or writes beyond
 * it. The rest is the caller's duty: no pointer is NULL, not even one to no bytes; each is good for its bytes, and `looks` points to a
 * size_t; and what a call writes overlaps nothing else that it is lent. Calls may run at the same time unless one of them writes what another
 * is lent.
 *
 * Whatever the bytes are, every call ends, with an answer that depends on nothing but what it is given. What is proved of each is in
 * crates/s100_c/specs. No proof covers this file, which was written by hand: tests/header.c and examples/calling/printed.c include it, and
 * tests/face.rs repeats its declarations in Rust.
 */
#ifndef S100_H
#define S100_H

#include <stdbool.h>
#include <stddef.h>
#include <stdint.h>

#ifdef __cplusplus
extern "C" {
#endif

/* ---- The lengths that are right */

#define S100_PAGES_SIZE 16
#define S100_STATE_SIZE 38
#define S100_ANSWER_SIZE 9
#define S100_MEMORY_SIZE 65536
#define S100_PORTS_SIZE 256
#define S100_PICTURE_DIGITS 50 /* of a picture, which a newline ends */
#define S100_PICTURES_SIZE 102 /* two pictures with their newlines, the most that an event has */
#define S100_SEEN_SIZE 4
#define S100_OUTCOME_SIZE 4

/* ---- The bytes of a state. A field of two bytes has its high byte first; in a set of cards, card n is the bit of weight 1 << n. Any 38 bytes
 * are a state, though not all of them make sense. */

#define S100_FITTED_AT 0      /* 2 bytes: the set of fitted cards */
#define S100_PAGES_AT 2       /* 16 bytes: page codes, that of address 0 first; a page has 4,096 bytes */
#define S100_PHASE_AT 18      /* 1 byte */
#define S100_CONTENDERS_AT 19 /* 2 bytes: the set of contenders */
#define S100_DRIVEN_AT 21     /* 16 bytes: the cards' levels on the priority lines, card 0's first */
#define S100_GRANTED_AT 37    /* 1 byte: the granted card, or S100_NOBODY */

#define S100_NOBODY 0xFF

/* Page codes. */
#define S100_PAGE_ABSENT 0
#define S100_PAGE_EIGHT_BIT 1
#define S100_PAGE_SIXTEEN_BIT 2

/* Phases. */
#define S100_PHASE_FREE 0
#define S100_PHASE_ARBITRATION 1
#define S100_PHASE_GRANTED 2
#define S100_PHASE_TRANSFER_ONE 3
#define S100_PHASE_OWNED 4
#define S100_PHASE_TRANSFER_TWO 5

/* ---- The bytes of an answer, in the order of the text program's answer line: printed as hexadecimal digits, they are that line. Behind a
 * refusal stands what the unchanged bus shows, with no cycles and no datum; behind S100_REFUSED_SENSELESS every byte is 0, the granted card's
 * too, since there is no bus to show. */

#define S100_ANSWER_REFUSAL_AT 0 /* 1 byte: one of the answers below */
#define S100_ANSWER_PHASE_AT 1   /* 1 byte */
#define S100_ANSWER_GRANTED_AT 2 /* 1 byte: the granted card, or S100_NOBODY */
#define S100_ANSWER_LINES_AT 3   /* 1 byte: what the priority lines show */
#define S100_ANSWER_SIGNALS_AT 4 /* 1 byte */
#define S100_ANSWER_STATUS_AT 5  /* 1 byte: 0 unless a cycle was accepted */
#define S100_ANSWER_CYCLES_AT 6  /* 1 byte: bus cycles taken, 1 or 2, and 0 as above */
#define S100_ANSWER_DATUM_AT 7   /* 2 bytes, the high one first: what was read or written, and 0 as above */

/* Signals. */
#define S100_HOLD 0x01
#define S100_PHLDA 0x02
#define S100_ADSB 0x04
#define S100_SDSB 0x08
#define S100_DODSB 0x10
#define S100_CDSB 0x20
#define S100_SIXTN 0x40
#define S100_SXTRQ 0x80

/* Status. */
#define S100_SMEMR 0x01
#define S100_SM1 0x02
#define S100_SINP 0x04
#define S100_SOUT 0x08
#define S100_SWO 0x10

/* ---- The bytes of what is read from a picture. Behind a refusal all are 0, but the column behind S100_REFUSED_WRONG_CHARACTER. */

#define S100_SEEN_PHASE_AT 0   /* 1 byte: the phase that has these signals, SIXTN and sXTRQ aside, or S100_NO_PHASE */
#define S100_SEEN_SIGNALS_AT 1 /* 1 byte, weighed as in an answer */
#define S100_SEEN_LINES_AT 2   /* 1 byte: what the priority lines show */
#define S100_SEEN_COLUMN_AT 3  /* 1 byte: behind S100_REFUSED_WRONG_CHARACTER the column of the first such byte, counted from 1, and else 0 */

#define S100_NO_PHASE 0xFF

/* ---- The bytes of an outcome, what an arbitration means for one card, in the order of the line that the program s100_why prints for it: printed
 * as hexadecimal digits, they are that line. */

#define S100_OUTCOME_REFUSAL_AT 0 /* 1 byte: one of the answers below */
#define S100_OUTCOME_CARD_AT 1    /* 1 byte: the card that was asked about, as given */
#define S100_OUTCOME_LINE_AT 2    /* 1 byte: the priority line at which it loses, 3 (of weight 8) to 0 (of weight 1), or S100_NO_LINE */
#define S100_OUTCOME_RIVAL_AT 3   /* 1 byte: the card to which it loses there, or S100_NOBODY */

#define S100_NO_LINE 0xFF

/* ---- Events. Behind each kind stand the fields that it has and the phases in which it can be accepted. A field that it doesn't have must be
 * 0, the speaker too. */

#define S100_REQUEST 0x01            /* datum: the set of cards that request; phase 0 */
#define S100_LOOK 0x02               /* speaker: a contender; phase 1 */
#define S100_ACKNOWLEDGE 0x03        /* no field; phase 1 */
#define S100_BEGIN_TRANSFER_ONE 0x04 /* speaker: the granted card; phase 2 */
#define S100_TAKE_BUS 0x05           /* speaker: the granted card; phase 3 */
#define S100_BYTE_READ 0x06          /* speaker: the master, address; phases 0, 1, 4, as with all cycles */
#define S100_OPCODE_FETCH 0x07       /* speaker: the master, address */
#define S100_BYTE_WRITE 0x08         /* speaker: the master, address, datum: a byte */
#define S100_WORD_READ 0x09          /* speaker: the master, address: even */
#define S100_WORD_WRITE 0x0A         /* speaker: the master, address: even, datum: the high half goes to that address */
#define S100_INPUT 0x0B              /* speaker: the master, address: a port */
#define S100_OUTPUT 0x0C             /* speaker: the master, address: a port, datum: a byte */
#define S100_BEGIN_TRANSFER_TWO 0x0D /* speaker: the granted card; phase 4 */
#define S100_GIVE_BACK 0x0E          /* speaker: the granted card; phase 5 */
#define S100_RESET 0x0F              /* no field; any phase */

/* A speaker is a card, by its number, 0 to 15, or the permanent master, who is the master of cycles in phases 0 and 1; in phase 4 it is the
 * granted card. */
#define S100_PERMANENT_MASTER 0x10

/* ---- Answers: 0, or why the call was refused; of several reasons the one with the lowest number. Setup answers 00 or 0B, step 00 to 0A,
 * settle 00, 02, 03 or 05 to 08, and so does the outcome for a card; the reading of a picture 00, 0C or 0D. Of a line 0C is judged before
 * anything else about it, and 0D right after it: the text program gives both before 0B. */

#define S100_ACCEPTED 0x00
#define S100_REFUSED_WRONG_BUFFERS 0x01     /* memory or ports of a wrong length */
#define S100_REFUSED_SENSELESS 0x02         /* a state that makes no sense */
#define S100_REFUSED_MALFORMED 0x03         /* no such kind, a field that the event can't have; a card above 15 that settle lists or an outcome is asked for */
#define S100_REFUSED_NAMES_NOBODY 0x04      /* a request by no card */
#define S100_REFUSED_NOT_FITTED 0x05        /* a card is named that isn't fitted */
#define S100_REFUSED_WRONG_PHASE 0x06       /* not in this phase */
#define S100_REFUSED_NOT_ITS_TURN 0x07      /* not a contender, not the granted card, or not the master of this phase */
#define S100_REFUSED_UNSETTLED 0x08         /* the priority lines aren't settled, in settle not even after the whole list */
#define S100_REFUSED_ODD_WORD 0x09          /* a word at an odd address */
#define S100_REFUSED_ABSENT 0x0A            /* no memory at this address, or no such port */
#define S100_REFUSED_BAD_PAGE 0x0B          /* a page code that setup doesn't know */
#define S100_REFUSED_WRONG_LINE_LENGTH 0x0C /* a line that doesn't have the right number of bytes, whatever they are */
#define S100_REFUSED_WRONG_CHARACTER 0x0D   /* a line of the right length with a byte that is none of the digits 0 to 9 and A to F */

/* The library's own, which no refusal has and which comes before all of them: a state, pages, an answer, or a place for what is written, of a
 * wrong length. */
#define S100_WRONG_LENGTH 0xFF

/* The library's own for a field of a buffer that isn't as long as a state, or of a page or card above 15. */
#define S100_NO_FIELD 0xFFFFFFFF

/* ---- The calls */

/* Puts a free bus with these cards and pages into the state. Refused as S100_REFUSED_BAD_PAGE, it puts a bus there that has no cards and no
 * pages. With a wrong length it writes nothing and answers S100_WRONG_LENGTH. */
uint8_t s100_setup(uint16_t fitted, const uint8_t *pages, size_t pages_length, uint8_t *state, size_t state_length);

/* Judges an event and, if it is accepted, takes its step on the state, the memory and the ports; the answer's bytes are written in either
 * case, and its refusal is returned. A refused event changes no byte of the state, the memory or the ports. Where a length is wrong nothing
 * at all is written, not even the answer's bytes: then S100_WRONG_LENGTH is returned if it is the state's or the answer's, and else
 * S100_REFUSED_WRONG_BUFFERS. An address has 24 bits; a larger one is treated as any other where there is no memory. */
uint8_t s100_step(uint8_t *state, size_t state_length, uint8_t kind, uint8_t speaker, uint32_t address, uint16_t datum, uint8_t *memory,
                  size_t memory_length, uint8_t *ports, size_t ports_length, uint8_t *answer, size_t answer_length);

/* Has the listed cards look in turn until the priority lines are settled, and stores how many looks that took. A refused settle changes no
 * byte of the state and stores 0. The list may have any length. With a state of a wrong length nothing is written, no number either, and the
 * answer is S100_WRONG_LENGTH. */
uint8_t s100_settle(uint8_t *state, size_t state_length, const uint8_t *cards, size_t cards_length, size_t *looks);

/* Writes the pictures of an accepted event's pins, a line each: one, or two for a word that took two cycles. They go to the front of `lines`,
 * and how many bytes that was is returned: 51 or 102, and 0 behind a refused event, which has no picture. A picture is 25 hexadecimal digits
 * of levels, pin 1 in the top bit of the first, and 25 digits of which pins are driven; a newline ends it. The event's kind and address and
 * the answer's bytes as s100_step wrote them say everything. Behind any answer that isn't refused, whatever its other bytes, there is a
 * picture: kinds 06 to 0C are cycles; a word is split if its answer counts two cycles, and else in one piece; pHLDA and the strobes go by
 * phase and kind, with no strobe but in phases 0, 1 and 4; what else the bus has goes by the answer's signals, status, priority lines and
 * datum, a byte's datum by its low half. Of the address the low 24 bits count, and of the priority lines the low four. The second picture of
 * a split word is at the odd address of the pair, with sXTRQ false. With an answer of a wrong length, or a place other than
 * S100_PICTURES_SIZE, nothing is written, and S100_WRONG_LENGTH is returned. */
uint8_t s100_picture(uint8_t kind, uint32_t address, const uint8_t *answer, size_t answer_length, uint8_t *lines, size_t lines_length);

/* Reads a picture, without its newline: phase, signals and priority lines, by the pins that are driven. Any 50 digits are read, and the column
 * is then 0. A line of another length is refused as S100_REFUSED_WRONG_LINE_LENGTH: all four bytes are then 0. One of 50 bytes that aren't all
 * digits is refused as S100_REFUSED_WRONG_CHARACTER: the column of the first such byte is then written, counted from 1, and 0 in the other three.
 * With a place of a wrong length nothing is written, and the answer is S100_WRONG_LENGTH, whatever the line. */
uint8_t s100_read_picture(const uint8_t *line, size_t line_length, uint8_t *seen, size_t seen_length);

/* Tells whether a card wins the arbitration that the state is in, and if not, why: the highest priority line at which its number has 0 and the
 * lines show 1, and the highest-numbered contender that drives that line. The four bytes are written in every case: where the card wins, and
 * where the call is refused, S100_NO_LINE and S100_NOBODY stand for line and rival. The refusal is returned: a senseless state, a card above 15,
 * one that isn't fitted, a phase other than arbitration, a card that doesn't contend, lines that aren't settled, the first of these that applies.
 * The state is only read. Where a length is wrong nothing is written, and S100_WRONG_LENGTH is returned. */
uint8_t s100_outcome(const uint8_t *state, size_t state_length, uint8_t card, uint8_t *outcome, size_t outcome_length);

/* Fields can be read of any state, also of one that makes no sense; where there is no such field it is S100_NO_FIELD. */

/* The set of fitted cards. */
uint32_t s100_fitted(const uint8_t *state, size_t state_length);

/* The code of a page. */
uint32_t s100_page(const uint8_t *state, size_t state_length, uint8_t page);

/* The phase. */
uint32_t s100_phase(const uint8_t *state, size_t state_length);

/* The set of contenders. */
uint32_t s100_contenders(const uint8_t *state, size_t state_length);

/* A card's level on the priority lines. */
uint32_t s100_driven(const uint8_t *state, size_t state_length, uint8_t card);

/* The granted card, or S100_NOBODY. */
uint32_t s100_granted(const uint8_t *state, size_t state_length);

/* What the contenders' levels show together on the priority lines; above 15 only if the state makes no sense. */
uint32_t s100_lines(const uint8_t *state, size_t state_length);

/* Whether a state makes sense; a buffer of another length doesn't. */
bool s100_makes_sense(const uint8_t *state, size_t state_length);

#ifdef __cplusplus
}
#endif

#endif
