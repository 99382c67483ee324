/*
 * Every number of plevandor.h beside what the library does: each refusal, fate and counter is brought about, each size
 * is tried on either side. It ends with 0 if all are right. C99 and C++; bin/firmware-run also changes each number and
 * sees that this program notices.
 */
#include "plevandor.h"

#include <stdio.h>
#include <string.h>

#define ROWS (PLEVANDOR_UNITS_MOST + 2)
#define AROUND 64 /* bytes behind what is lent, which nobody may write */
#define PAINT 0xAA

static uint8_t state[PLEVANDOR_STATE_BYTES + AROUND], memory[PLEVANDOR_MEMORY_MOST + AROUND];
static uint8_t store[ROWS * PLEVANDOR_STORE_BYTES], text[PLEVANDOR_TEXT_MOST + AROUND];
static struct plevandor_counters rows[ROWS], before[ROWS];
static uint8_t bytes[2 * PLEVANDOR_FRAME_BYTES]; /* a cell, a frame or a buffer, longer than any */

static unsigned checks, wrong;

static void expect(const char *what, uint64_t is, uint64_t should) {
    checks++;
    if (is != should) {
        wrong++;
        printf("%s: %llu, should be %llu\n", what, (unsigned long long)is, (unsigned long long)should);
    }
}

/* An answer of this kind with these bits above it. */
static void expect_answer(const char *what, uint64_t answer, unsigned kind, uint64_t rest) {
    expect(what, plevandor_answer_kind(answer), kind);
    expect(what, answer >> 8, rest);
}

/* Exactly these counters of a row have risen since `before`; then that is brought up to date. */
static void expect_rise(const char *what, size_t place, unsigned counters) {
    unsigned number;
    for (number = 0; number < 13; number++) {
        uint32_t rise = plevandor_counter_of(&rows[place], number) - plevandor_counter_of(&before[place], number);
        expect(what, rise, counters >> number & 1);
    }
    before[place] = rows[place];
    expect("other rows", (uint64_t)memcmp(before, rows, sizeof rows), 0);
    memcpy(before, rows, sizeof rows);
}

#define RISE(name) (1u << PLEVANDOR_COUNTER_##name)

static uint64_t load_lent(uint8_t card, const char *table, size_t length, size_t memory_len, size_t store_len,
                          size_t rows_len) {
    uint64_t answer;
    memcpy(text, table, length);
    answer = plevandor_load(card, text, length, memory, memory_len, state, store, store_len, rows, rows_len);
    memcpy(before, rows, sizeof rows);
    return answer;
}

static uint64_t load(uint8_t card, const char *table) {
    return load_lent(card, table, strlen(table), sizeof memory, sizeof store, ROWS);
}

static void expect_unloaded(const char *what, uint64_t answer, unsigned refusal, uint32_t line) {
    expect(what, plevandor_answer_kind(answer), PLEVANDOR_UNLOADED);
    expect(what, plevandor_answer_refusal(answer), refusal);
    expect(what, plevandor_answer_line(answer), line);
}

/* Two units: 0 in mode one with limit 1, 3 in mode four with a CBR queue of one cell. */
#define TWO "bus\t16\nunit\t0\tuni\t5\t2\tone\t0\t0\t1\t0\nunit\t3\tuni\t0\t1\tfour\t1\t1\t1\t1\n"
/* VPI 1 goes to unit 3, 2 to a unit that is not declared, 3 is dropped, 4 goes to all; 5 has no record. */
#define ROUTES "vp\t0\t1\tu3\t1\t9\nvp\t0\t2\tu7\t1\t9\ndrop\t0\t3\nvp\t0\t4\tb\t0\t9\n"
#define NNI "bus\t32\nunit\t0\tnni\t5\t2\tone\t0\t0\t1\t0\n"

/* A header check or, of four bits, a routing check: a remainder bit by bit. */
static unsigned remainder_of(uint32_t message, int bits, unsigned polynomial, int width) {
    unsigned left = 0;
    int bit;
    for (bit = bits - 1; bit >= 0; bit--) {
        left ^= (message >> bit & 1u) << (width - 1);
        left = left >> (width - 1) & 1u ? (left << 1 ^ polynomial) : left << 1;
    }
    return left & ((1u << width) - 1);
}

static uint64_t arrive_lent(uint8_t unit, unsigned vpi, unsigned check, size_t length) {
    uint32_t header = vpi << 20 | 7u << 4;
    memset(bytes, 0x5A, sizeof bytes);
    bytes[0] = (uint8_t)(header >> 24), bytes[1] = (uint8_t)(header >> 16);
    bytes[2] = (uint8_t)(header >> 8), bytes[3] = (uint8_t)header;
    bytes[4] = (uint8_t)(remainder_of(header, 32, 7, 8) ^ check);
    return plevandor_arrive(PLEVANDOR_WIDE, state, memory, sizeof memory, store, sizeof store, rows, ROWS, unit, bytes,
                            length);
}

static uint64_t arrive(unsigned vpi) { return arrive_lent(0, vpi, 0x55, PLEVANDOR_CELL_BYTES); }

static uint64_t frame_lent(size_t length) {
    return plevandor_frame(PLEVANDOR_WIDE, state, store, sizeof store, rows, ROWS, bytes, length);
}

static uint64_t frame(void) { return frame_lent(PLEVANDOR_FRAME_BYTES); }

/* A frame of this kind and class for an address; its cell header is 00 vpi 00 tail. */
static uint64_t hear_lent(unsigned kind_class, unsigned address, unsigned vpi, unsigned tail, size_t length) {
    unsigned upper = kind_class << 8 | address, i, parity = 0;
    memset(bytes, 0, sizeof bytes);
    upper = upper << 4 | remainder_of(upper, 12, 3, 4);
    bytes[0] = (uint8_t)(upper >> 8), bytes[1] = (uint8_t)upper;
    bytes[4] = (uint8_t)(vpi >> 4), bytes[5] = (uint8_t)(vpi << 4), bytes[7] = (uint8_t)tail;
    for (i = 0; i < 56; i++)
        parity ^= bytes[i];
    bytes[56] = (uint8_t)parity;
    return plevandor_hear(PLEVANDOR_WIDE, state, store, sizeof store, rows, ROWS, 3, bytes, length);
}

static uint64_t hear(unsigned kind_class, unsigned address, unsigned vpi, unsigned tail) {
    return hear_lent(kind_class, address, vpi, tail, PLEVANDOR_FRAME_BYTES);
}

static uint64_t take(uint8_t unit, size_t length) {
    return plevandor_take(PLEVANDOR_WIDE, state, store, sizeof store, rows, ROWS, unit, bytes, length);
}

/* A control cell for unit 3 from the processor of unit 0. */
static uint64_t hand(size_t length) {
    memset(bytes, 0, sizeof bytes);
    bytes[0] = 0xC0, bytes[1] = 0x3D;
    return plevandor_hand(PLEVANDOR_WIDE, state, store, sizeof store, rows, ROWS, 0, bytes, length);
}

static uint64_t collect(uint8_t unit, size_t length) {
    return plevandor_collect(PLEVANDOR_WIDE, state, store, sizeof store, rows, ROWS, unit, bytes, length);
}

static uint64_t count(uint8_t unit) {
    return plevandor_count(PLEVANDOR_WIDE, state, store, sizeof store, rows, ROWS, unit);
}

static void expect_refused(const char *what, uint64_t answer, unsigned refusal) {
    expect_answer(what, answer, PLEVANDOR_REFUSED, refusal);
    expect(what, plevandor_answer_refusal(answer), refusal);
}

/* How many bytes at the start of a part are painted no more. */
static size_t written(const uint8_t *part, size_t length) {
    size_t i = 0;
    while (i < length && part[i] != PAINT)
        i++;
    return i;
}

static void sizes(void) {
    memset(state, PAINT, sizeof state), memset(memory, PAINT, sizeof memory), memset(rows, PAINT, sizeof rows);
    expect_answer("good table", load(PLEVANDOR_WIDE, TWO), PLEVANDOR_LOADED,
                  (uint64_t)(7 * PLEVANDOR_RECORD_BYTES) << 24);
    expect("bytes of a state", written(state, sizeof state), PLEVANDOR_STATE_BYTES);
    expect("bytes of the memory", written(memory, sizeof memory), PLEVANDOR_MEMORY_MOST);
    expect("bytes of two rows", written((const uint8_t *)rows, sizeof rows), 2 * PLEVANDOR_ROW_BYTES);
    expect("a row", sizeof rows[0], PLEVANDOR_ROW_BYTES);
    expect("counters", sizeof rows[0] / sizeof rows[0].arrived, PLEVANDOR_COUNTERS);
    expect("store enough", plevandor_answer_kind(load_lent(PLEVANDOR_WIDE, TWO, strlen(TWO), 56,
                                                           2 * PLEVANDOR_STORE_BYTES, 2)), PLEVANDOR_LOADED);
    expect_unloaded("store too small",
                    load_lent(PLEVANDOR_WIDE, TWO, strlen(TWO), 56, 2 * PLEVANDOR_STORE_BYTES - 1, 2),
                    PLEVANDOR_REFUSAL_STORE, 0);
    expect_unloaded("rows too few", load_lent(PLEVANDOR_WIDE, TWO, strlen(TWO), 56, sizeof store, 1),
                    PLEVANDOR_REFUSAL_STORE, 0);
    memset(text, 'x', sizeof text);
    expect_unloaded("longest text", plevandor_load(PLEVANDOR_WIDE, text, PLEVANDOR_TEXT_MOST, memory, 8, state, store,
                                                   0, rows, 0), PLEVANDOR_REFUSAL_FORM, 1);
    expect_unloaded("text too long", plevandor_load(PLEVANDOR_WIDE, text, PLEVANDOR_TEXT_MOST + 1, memory, 8, state,
                                                    store, 0, rows, 0), PLEVANDOR_REFUSAL_LONG, 0);
}

/* As many units as a shelf has, and one more. */
static void most_units(void) {
    char table[2048];
    unsigned unit;
    int at = sprintf(table, "bus\t32\n");
    for (unit = 0; unit < PLEVANDOR_UNITS_MOST; unit++)
        at += sprintf(table + at, "unit\t%u\tuni\t0\t1\tone\t0\t0\t1\t0\n", unit);
    expect_answer("all units", load_lent(PLEVANDOR_WIDE, table, (size_t)at, sizeof memory,
                                         PLEVANDOR_UNITS_MOST * PLEVANDOR_STORE_BYTES, PLEVANDOR_UNITS_MOST),
                  PLEVANDOR_LOADED, (uint64_t)(PLEVANDOR_UNITS_MOST * PLEVANDOR_RECORD_BYTES) << 24);
    at += sprintf(table + at, "unit\t%u\tuni\t0\t1\tone\t0\t0\t1\t0\n", unit);
    expect_unloaded("a unit more", load_lent(PLEVANDOR_WIDE, table, (size_t)at, sizeof memory, sizeof store, ROWS),
                    PLEVANDOR_REFUSAL_FORM, unit + 2);
}

static void tables(void) {
    unsigned card;
    uint64_t answer = load(PLEVANDOR_WIDE, TWO);
    expect("bytes used", plevandor_answer_used(answer), 7 * PLEVANDOR_RECORD_BYTES);
    expect_unloaded("no text", load(PLEVANDOR_WIDE, ""), PLEVANDOR_REFUSAL_FORM, 1);
    expect_unloaded("order", load(PLEVANDOR_WIDE, TWO "mc\t1\t1\n"), PLEVANDOR_REFUSAL_ORDER, 4);
    expect_unloaded("twice", load(PLEVANDOR_WIDE, TWO "mc\t3\t1\nmc\t3\t1\n"), PLEVANDOR_REFUSAL_TWICE, 5);
    expect_unloaded("room", load_lent(PLEVANDOR_WIDE, TWO, strlen(TWO), 55, sizeof store, ROWS),
                    PLEVANDOR_REFUSAL_ROOM, 3);
    expect("wide card", plevandor_answer_kind(load(PLEVANDOR_WIDE, NNI)), PLEVANDOR_LOADED);
    expect_unloaded("narrow card", load(PLEVANDOR_NARROW, NNI), PLEVANDOR_REFUSAL_WIDE, 1);
    for (card = 0; card < 256; card++)
        if (card != PLEVANDOR_WIDE)
            expect_unloaded("any other card", load((uint8_t)card, NNI), PLEVANDOR_REFUSAL_WIDE, 1);
}

static void arrivals(void) {
    int i;
    load(PLEVANDOR_WIDE, TWO ROUTES);
    expect_answer("hec", arrive_lent(0, 1, 0x54, PLEVANDOR_CELL_BYTES), PLEVANDOR_ARRIVED, PLEVANDOR_ARRIVAL_HEC);
    expect_rise("hec", 0, RISE(ARRIVED) | RISE(HEC));
    expect_answer("ignored", arrive(3), PLEVANDOR_ARRIVED, PLEVANDOR_ARRIVAL_IGNORED);
    expect_rise("ignored", 0, RISE(ARRIVED) | RISE(IGNORED));
    expect_answer("misrouted", arrive(5), PLEVANDOR_ARRIVED, PLEVANDOR_ARRIVAL_MISROUTED);
    expect_rise("misrouted", 0, RISE(ARRIVED) | RISE(MISROUTED));
    for (i = 0; i < 4; i++) {
        expect_answer("queued", arrive(1), PLEVANDOR_ARRIVED, PLEVANDOR_ARRIVAL_QUEUED);
        expect_rise("queued", 0, RISE(ARRIVED));
    }
    expect_answer("inletfull", arrive(1), PLEVANDOR_ARRIVED, PLEVANDOR_ARRIVAL_INLETFULL);
    expect("fate", plevandor_answer_fate(arrive(1)), PLEVANDOR_ARRIVAL_INLETFULL);
    memcpy(before, rows, sizeof rows);
    arrive(1);
    expect_rise("inletfull", 0, RISE(ARRIVED) | RISE(INLETFULL));
}

static void hearings(void) {
    load(PLEVANDOR_WIDE, TWO ROUTES);
    expect_answer("damaged", hear(1, 40, 1, 0), PLEVANDOR_HEARD, PLEVANDOR_HEARING_DAMAGED);
    expect_rise("damaged", 1, RISE(DAMAGED));
    expect_answer("other", hear(1, 4, 1, 0), PLEVANDOR_HEARD, PLEVANDOR_HEARING_OTHER);
    expect_rise("other", 1, 0);
    expect_answer("wide", hear(1, 3, 256, 0), PLEVANDOR_HEARD, PLEVANDOR_HEARING_WIDE);
    expect_rise("wide", 1, RISE(WIDE));
    expect_answer("queued", hear(1, 3, 255, 0), PLEVANDOR_HEARD, PLEVANDOR_HEARING_QUEUED);
    expect_rise("queued", 1, RISE(QUEUED));
    expect_answer("full", hear(1, 3, 1, 0), PLEVANDOR_HEARD, PLEVANDOR_HEARING_FULL);
    expect_rise("full", 1, RISE(FULL));
    expect_answer("queued", hear(2, 3, 1, 0), PLEVANDOR_HEARD, PLEVANDOR_HEARING_QUEUED);
    expect_rise("queued", 1, RISE(QUEUED));
    expect_answer("clp", hear(2, 3, 1, 1), PLEVANDOR_HEARD, PLEVANDOR_HEARING_CLP);
    expect_rise("clp", 1, RISE(CLP));
    expect_answer("taken", take(3, PLEVANDOR_CELL_BYTES), PLEVANDOR_TAKEN, 0);
    expect_rise("taken", 1, RISE(TAKEN));
    expect_answer("empty", take(0, PLEVANDOR_CELL_BYTES), PLEVANDOR_EMPTY, 0);
    expect_rise("empty", 0, 0);
}

static void expect_frame(const char *what, uint32_t number, unsigned sender, unsigned granted, unsigned copies) {
    uint64_t answer = frame();
    expect(what, plevandor_answer_kind(answer), PLEVANDOR_FRAMED);
    expect(what, plevandor_answer_frame_number(answer), number);
    expect(what, plevandor_answer_sender(answer), sender);
    expect(what, plevandor_answer_granted(answer), granted);
    expect(what, plevandor_answer_copies(answer), copies);
}

static void frames(void) {
    load(PLEVANDOR_WIDE, TWO ROUTES);
    expect_frame("idle", 0, PLEVANDOR_NOBODY, PLEVANDOR_NOBODY, 0);
    arrive(2), arrive(4);
    memcpy(before, rows, sizeof rows);
    expect_frame("granting", 1, PLEVANDOR_NOBODY, 0, 0);
    expect_rise("granting", 0, 0);
    expect_frame("unheard", 2, 0, 0, 0);
    expect_rise("unheard", 0, RISE(SENT) | RISE(UNHEARD));
    expect_frame("to both", 3, 0, PLEVANDOR_NOBODY, 2);
    expect_answer("handed", hand(PLEVANDOR_CONTROL_BYTES), PLEVANDOR_HANDED, 0);
    expect_refused("busy", hand(PLEVANDOR_CONTROL_BYTES), PLEVANDOR_REFUSAL_BUSY);
    expect_frame("for a processor", 4, PLEVANDOR_NOBODY, 0, 0);
    expect_frame("for a processor", 5, 0, PLEVANDOR_NOBODY, 1);
    expect_answer("collected", collect(3, PLEVANDOR_CONTROL_BYTES), PLEVANDOR_TAKEN, 0);
    expect_answer("none to collect", collect(3, PLEVANDOR_CONTROL_BYTES), PLEVANDOR_EMPTY, 0);
    expect_answer("counted", count(0), PLEVANDOR_COUNTED, 0);
    expect_answer("counted", count(3), PLEVANDOR_COUNTED, (uint64_t)1 << 24);
    expect("place", plevandor_answer_place(count(3)), 1);
    expect("taken", rows[plevandor_answer_place(count(3))].taken, 1);
}

static void refusals(void) {
    size_t off;
    load(PLEVANDOR_WIDE, TWO ROUTES);
    for (off = 0; off < 3; off += 2) { /* one less, one more */
        expect_refused("cell", arrive_lent(0, 1, 0x55, PLEVANDOR_CELL_BYTES - 1 + off), PLEVANDOR_REFUSAL_LENGTH);
        expect_refused("frame", frame_lent(PLEVANDOR_FRAME_BYTES - 1 + off), PLEVANDOR_REFUSAL_LENGTH);
        expect_refused("heard", hear_lent(1, 3, 1, 0, PLEVANDOR_FRAME_BYTES - 1 + off), PLEVANDOR_REFUSAL_LENGTH);
        expect_refused("take", take(3, PLEVANDOR_CELL_BYTES - 1 + off), PLEVANDOR_REFUSAL_LENGTH);
        expect_refused("hand", hand(PLEVANDOR_CONTROL_BYTES - 1 + off), PLEVANDOR_REFUSAL_LENGTH);
        expect_refused("collect", collect(3, PLEVANDOR_CONTROL_BYTES - 1 + off), PLEVANDOR_REFUSAL_LENGTH);
    }
    expect_refused("unit", arrive_lent(1, 1, 0x55, PLEVANDOR_CELL_BYTES), PLEVANDOR_REFUSAL_UNIT);
    expect_refused("unit", count(PLEVANDOR_NOBODY), PLEVANDOR_REFUSAL_UNIT);
    expect_rise("refused", 0, 0);
    state[804] = 17; /* the bus */
    expect_refused("state", frame(), PLEVANDOR_REFUSAL_STATE);
    expect_refused("state", count(0), PLEVANDOR_REFUSAL_STATE);
}

/* A caller may leave anything in a register above a number of eight bits: the library must not look at it. */
static void rubbish(void) {
    typedef uint64_t wider(uint64_t, const uint8_t *, const uint8_t *, size_t, const struct plevandor_counters *,
                           size_t, uint64_t);
    wider *counts = (wider *)(void (*)(void))plevandor_count;
    const uint64_t above = 0xDEADBEEFCAFE0100u, wide = above | PLEVANDOR_WIDE, narrow = above | PLEVANDOR_NARROW;
    load(PLEVANDOR_WIDE, NNI);
    expect_answer("wide with rubbish", counts(wide, state, store, sizeof store, rows, ROWS, above), PLEVANDOR_COUNTED,
                  0);
    expect_refused("unit with rubbish", counts(wide, state, store, sizeof store, rows, ROWS, above | 1),
                   PLEVANDOR_REFUSAL_UNIT);
    expect_refused("narrow with rubbish", counts(narrow, state, store, sizeof store, rows, ROWS, above),
                   PLEVANDOR_REFUSAL_STATE);
}

/* Each counter's name in the row beside its number. */
static void names(void) {
#define NAME(field, number) expect(#field, offsetof(struct plevandor_counters, field), 4 * PLEVANDOR_COUNTER_##number)
    NAME(arrived, ARRIVED), NAME(hec, HEC), NAME(ignored, IGNORED), NAME(misrouted, MISROUTED);
    NAME(inletfull, INLETFULL), NAME(sent, SENT), NAME(unheard, UNHEARD), NAME(damaged, DAMAGED);
    NAME(queued, QUEUED), NAME(full, FULL), NAME(clp, CLP), NAME(wide, WIDE), NAME(taken, TAKEN);
}

/* Each part by its bits, on numbers that the library need not give: every bit as 0 and as 1. */
static void parts(void) {
    unsigned turn, kind;
    uint64_t number = 0xFEDCBA9876543201u;
    for (turn = 0; turn < 2; turn++, number = ~number) {
        unsigned low = turn ? 0xCD : 0x32;
        uint32_t high = turn ? 0x01234567u : 0xFEDCBA98u;
        expect("kind", plevandor_answer_kind(number), turn ? 0xFE : 0x01);
        expect("fate", plevandor_answer_fate(number), low);
        expect("copies", plevandor_answer_copies(number), low);
        expect("sender", plevandor_answer_sender(number), turn ? 0xAB : 0x54);
        expect("granted", plevandor_answer_granted(number), turn ? 0x89 : 0x76);
        expect("frame number", plevandor_answer_frame_number(number), high);
        expect("used", plevandor_answer_used(number), high);
        expect("line", plevandor_answer_line(number), high);
        expect("place", plevandor_answer_place(number), high);
        for (kind = 0; kind < 256; kind++) {
            int refused = kind == PLEVANDOR_UNLOADED || kind == PLEVANDOR_REFUSED;
            expect("refusal", plevandor_answer_refusal((number & ~(uint64_t)255) + kind), refused ? low : 0);
        }
    }
}

int main(void) {
    sizes(), most_units(), tables(), arrivals(), hearings(), frames(), refusals(), rubbish(), names(), parts();
    printf("header: %u checks, %u wrong\n", checks, wrong);
    return wrong != 0;
}
