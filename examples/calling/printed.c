/* The run that 01 prints ("The program and one whole run"), in C: a setup and thirteen events, an answer line for each. */
#include <stdio.h>

#include "s100.h"

#define CARD(n) (1 << (n))

struct event {
    uint8_t kind;
    uint8_t speaker;
    uint32_t address;
    uint16_t datum;
};

static const struct event events[] = {
    {S100_REQUEST, 0, 0, CARD(1) | CARD(3)},
    {S100_LOOK, 1, 0, 0},
    {S100_LOOK, 3, 0, 0},
    {S100_ACKNOWLEDGE, 0, 0, 0}, /* refused: card 1 still drives a bit that card 3 outbids */
    {S100_LOOK, 1, 0, 0},
    {S100_ACKNOWLEDGE, 0, 0, 0},
    {S100_BEGIN_TRANSFER_ONE, 3, 0, 0},
    {S100_TAKE_BUS, 3, 0, 0},
    {S100_WORD_WRITE, 3, 0x1000, 0x1234},
    {S100_BYTE_READ, 3, 0x1001, 0},
    {S100_BEGIN_TRANSFER_TWO, 3, 0, 0},
    {S100_REQUEST, 0, 0, CARD(1)}, /* refused: card 3 has yet to give the bus back */
    {S100_GIVE_BACK, 3, 0, 0},
};

static void print_answer(const uint8_t *answer)
{
    for (size_t i = 0; i < S100_ANSWER_SIZE; i++)
        printf("%02X", (unsigned)answer[i]);
    putchar('\n');
}

int main(void)
{
    static uint8_t memory[S100_MEMORY_SIZE], ports[S100_PORTS_SIZE];
    const uint8_t pages[S100_PAGES_SIZE] = {S100_PAGE_EIGHT_BIT, S100_PAGE_SIXTEEN_BIT};
    uint8_t state[S100_STATE_SIZE], answer[S100_ANSWER_SIZE] = {0};

    /* Setup fills no answer, so its line is put together here; a setup is no cycle, and a free bus has no signal that is true. */
    answer[S100_ANSWER_REFUSAL_AT] = s100_setup(CARD(1) | CARD(3), pages, sizeof pages, state, sizeof state);
    answer[S100_ANSWER_PHASE_AT] = (uint8_t)s100_phase(state, sizeof state);
    answer[S100_ANSWER_GRANTED_AT] = (uint8_t)s100_granted(state, sizeof state);
    answer[S100_ANSWER_LINES_AT] = (uint8_t)s100_lines(state, sizeof state);
    print_answer(answer);

    for (size_t i = 0; i < sizeof events / sizeof *events; i++) {
        const struct event e = events[i];
        s100_step(state, sizeof state, e.kind, e.speaker, e.address, e.datum, memory, sizeof memory, ports, sizeof ports, answer,
                  sizeof answer);
        print_answer(answer);
    }
    return 0;
}
