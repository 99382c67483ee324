/*
 * A card's main loop over the library: document 01's table and events. It prints 01's listing; then the processor of
 * unit 0 sends a control cell to that of unit 3, which is told on standard error.
 * cc -std=c99 -I OUT examples/card.c OUT/libplevandor.a -o card, with OUT from bin/library OUT
 */
#include "plevandor.h"

#include <stdio.h>
#include <string.h>

#define CARD PLEVANDOR_WIDE
#define UNITS 4 /* store and rows for so many */

/* All that this shelf is. It starts as bytes of no meaning: load writes the state, the records and the counters. */
static uint8_t state[PLEVANDOR_STATE_BYTES], memory[16384], store[UNITS * PLEVANDOR_STORE_BYTES];
static struct plevandor_counters rows[UNITS];

static const char table[] = "bus\t16\n"
                            "unit\t0\tuni\t5\t2\tone\t0\t0\t100\t0\n"
                            "unit\t3\tuni\t0\t1\tfour\t40\t30\t20\t1\n"
                            "page\t0\t5\t33\n"
                            "vc\t0\t5\t33\tu3\t2\t9\t40\n";

/* What the hardware reports to the loop. */
enum what { LINE_IN, BUS_CLOCK, LINE_OUT, COUNTERS_ASKED, PROCESSOR_OUT, PROCESSOR_IN };

struct report {
    enum what what;
    uint8_t unit;
    const uint8_t *header; /* of a cell that comes with it */
    uint8_t payload;       /* one byte, repeated 48 times */
};

static const uint8_t good[5] = {0x00, 0x50, 0x02, 0x10, 0x2B}, bad[5] = {0x10, 0x50, 0x02, 0x10, 0x4F};
/* Kind 3, class 0, unit 3 and their check; tandem and cell header are the processors' own. */
static const uint8_t update[8] = {0xC0, 0x3D};

static const struct report reports[] = {
    {LINE_IN, 0, good, 0xA5},        {LINE_IN, 0, bad, 0xA5},   {BUS_CLOCK, 0, NULL, 0}, {BUS_CLOCK, 0, NULL, 0},
    {LINE_OUT, 3, NULL, 0},          {LINE_OUT, 3, NULL, 0},    {COUNTERS_ASKED, 3, NULL, 0},
    {PROCESSOR_OUT, 0, update, 0x01}, {PROCESSOR_OUT, 0, update, 0x02},
    {BUS_CLOCK, 0, NULL, 0},         {BUS_CLOCK, 0, NULL, 0},   {PROCESSOR_IN, 3, NULL, 0}, {PROCESSOR_IN, 3, NULL, 0},
};

/* Whether the listing's part is over: what follows is told on standard error. */
static FILE *out;

static void say_refused(const char *word, uint64_t answer) {
    fprintf(out, "%s\trefused\t%u\n", word, plevandor_answer_refusal(answer));
}

/* A unit, or `-` for nobody, after a tab. */
static void say_unit(unsigned unit) {
    if (unit == PLEVANDOR_NOBODY)
        fprintf(out, "\t-");
    else
        fprintf(out, "\t%u", unit);
}

static void line_in(const struct report *r) {
    static const char *const fates[] = {"hec", "ignored", "misrouted", "inletfull", "queued"};
    uint8_t cell[PLEVANDOR_CELL_BYTES];
    memcpy(cell, r->header, 5);
    memset(cell + 5, r->payload, 48);
    uint64_t answer = plevandor_arrive(CARD, state, memory, sizeof memory, store, sizeof store, rows, UNITS, r->unit,
                                       cell, sizeof cell);
    if (plevandor_answer_kind(answer) == PLEVANDOR_ARRIVED)
        fprintf(out, "arrive\t%u\t%s\n", r->unit, fates[plevandor_answer_fate(answer)]);
    else
        say_refused("arrive", answer);
}

/* What the card's driver does with a frame: here the last one is kept. */
static uint8_t on_bus[PLEVANDOR_FRAME_BYTES];

static void send_on_bus(const uint8_t frame[PLEVANDOR_FRAME_BYTES]) { memcpy(on_bus, frame, sizeof on_bus); }

static void bus_clock(void) {
    uint8_t frame[PLEVANDOR_FRAME_BYTES];
    uint64_t answer = plevandor_frame(CARD, state, store, sizeof store, rows, UNITS, frame, sizeof frame);
    if (plevandor_answer_kind(answer) != PLEVANDOR_FRAMED) {
        say_refused("frame", answer);
        return;
    }
    if (plevandor_answer_sender(answer) != PLEVANDOR_NOBODY) /* else the buffer is as it was */
        send_on_bus(frame);
    fprintf(out, "frame\t%u", (unsigned)plevandor_answer_frame_number(answer));
    say_unit(plevandor_answer_sender(answer));
    say_unit(plevandor_answer_granted(answer));
    fprintf(out, "\t%u\n", plevandor_answer_copies(answer));
}

static void line_out(const struct report *r) {
    uint8_t cell[PLEVANDOR_CELL_BYTES];
    uint64_t answer =
        plevandor_take(CARD, state, store, sizeof store, rows, UNITS, r->unit, cell, sizeof cell);
    if (plevandor_answer_kind(answer) == PLEVANDOR_TAKEN)
        fprintf(out, "take\t%u\t%02X%02X%02X%02X%02X\t%02X\n", r->unit, cell[0], cell[1], cell[2], cell[3], cell[4],
                cell[5]);
    else if (plevandor_answer_kind(answer) == PLEVANDOR_EMPTY)
        fprintf(out, "take\t%u\tempty\n", r->unit);
    else
        say_refused("take", answer);
}

static void counters_asked(const struct report *r) {
    uint64_t answer = plevandor_count(CARD, state, store, sizeof store, rows, UNITS, r->unit);
    if (plevandor_answer_kind(answer) != PLEVANDOR_COUNTED) {
        say_refused("count", answer);
        return;
    }
    fprintf(out, "count\t%u", r->unit);
    for (unsigned number = 0; number < PLEVANDOR_COUNTERS; number++)
        fprintf(out, "\t%lu", (unsigned long)plevandor_counter_of(&rows[plevandor_answer_place(answer)], number));
    fprintf(out, "\n");
}

static void processor_out(const struct report *r) {
    uint8_t cell[PLEVANDOR_CONTROL_BYTES];
    memcpy(cell, r->header, 8);
    memset(cell + 8, r->payload, 48);
    uint64_t answer =
        plevandor_hand(CARD, state, store, sizeof store, rows, UNITS, r->unit, cell, sizeof cell);
    if (plevandor_answer_kind(answer) == PLEVANDOR_HANDED)
        fprintf(out, "hand\t%u\tok\n", r->unit);
    else
        say_refused("hand", answer); /* PLEVANDOR_REFUSAL_BUSY: to be handed in again after a frame */
}

static void processor_in(const struct report *r) {
    uint8_t cell[PLEVANDOR_CONTROL_BYTES];
    uint64_t answer =
        plevandor_collect(CARD, state, store, sizeof store, rows, UNITS, r->unit, cell, sizeof cell);
    if (plevandor_answer_kind(answer) == PLEVANDOR_TAKEN)
        fprintf(out, "collect\t%u\t%02X%02X\t%02X\n", r->unit, cell[0], cell[1], cell[8]);
    else if (plevandor_answer_kind(answer) == PLEVANDOR_EMPTY)
        fprintf(out, "collect\t%u\tempty\n", r->unit);
    else
        say_refused("collect", answer);
}

static void serve(const struct report *r) {
    switch (r->what) {
    case LINE_IN: line_in(r); break;
    case BUS_CLOCK: bus_clock(); break;
    case LINE_OUT: line_out(r); break;
    case COUNTERS_ASKED: counters_asked(r); break;
    case PROCESSOR_OUT:
        out = stderr; /* the listing is over */
        processor_out(r);
        break;
    case PROCESSOR_IN: processor_in(r); break;
    }
}

int main(void) {
    out = stdout;
    uint64_t answer = plevandor_load(CARD, (const uint8_t *)table, sizeof table - 1, memory, sizeof memory, state,
                                     store, sizeof store, rows, UNITS);
    if (plevandor_answer_kind(answer) != PLEVANDOR_LOADED) {
        printf("table\trefused\t%u\t%lu\n", plevandor_answer_refusal(answer),
               (unsigned long)plevandor_answer_line(answer));
        return 1;
    }
    printf("table\tok\t%lu\n", (unsigned long)plevandor_answer_used(answer));
    for (size_t i = 0; i < sizeof reports / sizeof reports[0]; i++)
        serve(&reports[i]);
    return fflush(stdout) != 0;
}
