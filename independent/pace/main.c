/*
 * Times the proved shelf, by its C library, on the traffic that independent/src/pace/rust.rs runs through the Rust program. It gives no verdict.
 * Input: units (2 digits), a blank, the VPI of all cells (1 digit), a blank, rounds (6 digits), a newline, the route table.
 * Output: nanoseconds spent in load, arrive, frame, take, hear and count, nanoseconds of a thousand readings of the clock, and a sum over all
 * answers and every byte of the state at the end.
 */
#include "plevandor.h"
#include <inttypes.h>
#include <stdio.h>
#include <string.h>
#include <time.h>

enum {
    HEAD = 12,  /* bytes of input before the table */
    EACH = 3,   /* cells for each unit in a round: an inlet that always keeps one has room for three */
    LOADS = 100 /* how often the table is loaded */
};

static uint8_t memory[16384], state[PLEVANDOR_STATE_BYTES], store[262144];
static uint8_t buffer[PLEVANDOR_FRAME_BYTES], out[PLEVANDOR_CELL_BYTES], cell[PLEVANDOR_CELL_BYTES];
static struct plevandor_counters rows[PLEVANDOR_UNITS_MOST];

/* What is run. */
static unsigned units, vpi;
static uint64_t rounds;

/* How far the run is: a sum over all answers, and the nanoseconds spent in each kind of call. */
static uint64_t sum, arrive, frame, take, hear, count;

/* The clock of this thread's own processor time: others on the machine do not count. */
static uint64_t now(void) {
    struct timespec time = {0, 0};
    clock_gettime(CLOCK_THREAD_CPUTIME_ID, &time);
    return (uint64_t)time.tv_sec * 1000000000 + (uint64_t)time.tv_nsec;
}

/* Below 2 to the 56th, times 31, leaves room for any code. */
static void mix(uint64_t code) { sum = sum % 72057594037927936u * 31 + code; }

/* What is refused has a code above all others. */
static uint64_t refused_code(uint64_t number) { return 1099511627776u + number; }

static uint64_t code(uint64_t answer) {
    switch (plevandor_answer_kind(answer)) {
    case PLEVANDOR_LOADED: return plevandor_answer_used(answer);
    case PLEVANDOR_ARRIVED:
    case PLEVANDOR_HEARD: return plevandor_answer_fate(answer) + 1u;
    case PLEVANDOR_FRAMED:
        return (((uint64_t)plevandor_answer_copies(answer) * 256 + plevandor_answer_granted(answer)) * 256 + plevandor_answer_sender(answer)) * 65536 +
               plevandor_answer_frame_number(answer);
    case PLEVANDOR_TAKEN: return 1;
    case PLEVANDOR_EMPTY: return 0;
    case PLEVANDOR_HANDED: return 2;
    default: return refused_code(plevandor_answer_refusal(answer));
    }
}

/* Header, check, and the two bytes of the payload that say whose cell it is. */
static uint64_t cell_code(void) {
    uint64_t n = 0;
    unsigned k;
    for (k = 0; k < 6; k++) n = n * 256 + out[k];
    return n * 256 + out[52];
}

/* A cell of this VPI, VCI 1, with the check of its header: the remainder by x^8 + x^2 + x + 1, and hex 55. */
static void make_cell(void) {
    uint32_t word = vpi * 1048576 + 16, check = 0;
    int k;
    memset(cell, 165, sizeof cell);
    for (k = 0; k < 4; k++) cell[k] = (uint8_t)(word >> (24 - 8 * k));
    for (k = 31; k >= 0; k--) check = (check << 1 & 255) ^ (((check >> 7 ^ word >> k) & 1) ? 7 : 0);
    cell[4] = (uint8_t)(check ^ 0x55);
}

/* So many cells arrive at each unit in turn. */
static void arrivals(unsigned each) {
    uint64_t start = now();
    unsigned k, unit;
    for (k = 0; k < each; k++)
        for (unit = 0; unit < units; unit++) {
            cell[5] = (uint8_t)unit;
            mix(code(plevandor_arrive(PLEVANDOR_WIDE, state, memory, sizeof memory, store, sizeof store, rows, PLEVANDOR_UNITS_MOST, (uint8_t)unit, cell,
                                      sizeof cell)));
        }
    arrive += now() - start;
}

static void frames(uint64_t times) {
    uint64_t start = now(), k;
    for (k = 0; k < times; k++) {
        mix(code(plevandor_frame(PLEVANDOR_WIDE, state, store, sizeof store, rows, PLEVANDOR_UNITS_MOST, buffer, sizeof buffer)));
        mix(buffer[56]);
    }
    frame += now() - start;
}

/* How many cells a round leaves in a unit's outlet. */
static unsigned held(unsigned unit) {
    if (vpi == 1) return EACH;
    if (vpi == 2 && unit % 2 == 1) return 0;
    return EACH * units;
}

static uint64_t take_one(unsigned unit) {
    return code(plevandor_take(PLEVANDOR_WIDE, state, store, sizeof store, rows, PLEVANDOR_UNITS_MOST, (uint8_t)unit, out, sizeof out));
}

/* Every cell is taken, unit by unit: each call gives a cell. */
static void takes(void) {
    uint64_t start = now();
    unsigned unit, k, cells;
    for (unit = 0; unit < units; unit++) {
        cells = held(unit);
        for (k = 0; k < cells; k++) {
            mix(take_one(unit));
            mix(cell_code());
        }
    }
    take += now() - start;
}

/* The last frame sent is handed in at each unit in turn. */
static void hearings(void) {
    uint64_t start = now();
    unsigned k, unit;
    for (k = 0; k < EACH; k++)
        for (unit = 0; unit < units; unit++)
            mix(code(plevandor_hear(PLEVANDOR_WIDE, state, store, sizeof store, rows, PLEVANDOR_UNITS_MOST, (uint8_t)unit, buffer, sizeof buffer)));
    hear += now() - start;
}

/* What the hearings queued is taken, not timed. */
static void empties(void) {
    unsigned unit;
    uint64_t taken;
    for (unit = 0; unit < units; unit++)
        do {
            taken = take_one(unit);
            mix(taken);
            mix(cell_code());
        } while (taken == 1);
}

static void counts(void) {
    uint64_t start = now(), answer;
    unsigned k, unit;
    for (k = 0; k < EACH; k++)
        for (unit = 0; unit < units; unit++) {
            answer = plevandor_count(PLEVANDOR_WIDE, state, store, sizeof store, rows, PLEVANDOR_UNITS_MOST, (uint8_t)unit);
            if (plevandor_answer_kind(answer) == PLEVANDOR_COUNTED) {
                const struct plevandor_counters *row = &rows[plevandor_answer_place(answer)];
                mix(row->arrived);
                mix(row->inletfull);
                mix(row->sent);
                mix(row->queued);
                mix(row->full);
                mix(row->taken);
            } else
                mix(refused_code(plevandor_answer_refusal(answer)));
        }
    count += now() - start;
}

/* A thousand readings, as each batch has one in its time. */
static uint64_t clock_cost(void) {
    uint64_t start = now(), end = start;
    int k;
    for (k = 0; k < 1000; k++) end = now();
    return end - start;
}

static void say(uint64_t n) { printf("%" PRIu64 "\n", n); }

static void run(const uint8_t *text, size_t length) {
    uint64_t load, round, start = now();
    unsigned k;
    for (k = 0; k < LOADS; k++)
        mix(code(plevandor_load(PLEVANDOR_WIDE, text, length, memory, sizeof memory, state, store, sizeof store, rows, PLEVANDOR_UNITS_MOST)));
    load = now() - start;
    /* One cell stays in each inlet, and the first grant is given: from here on each frame has a sender. */
    make_cell();
    arrivals(1);
    frames(1);
    arrive = frame = 0;
    for (round = 0; round < rounds; round++) {
        cell[52] = (uint8_t)round;
        arrivals(EACH);
        frames((uint64_t)EACH * units);
        takes();
    }
    for (round = 0; round < rounds; round++) {
        hearings();
        empties();
    }
    for (round = 0; round < rounds; round++) counts();
    for (k = 0; k < PLEVANDOR_STATE_BYTES; k++) mix(state[k]);
    say(load);
    say(arrive);
    say(frame);
    say(take);
    say(hear);
    say(count);
    say(clock_cost());
    say(sum);
}

static uint64_t digits(const uint8_t *text, int from, int to) {
    uint64_t n = 0;
    for (; from < to; from++) n = n * 10 + (uint64_t)(text[from] - '0');
    return n;
}

int main(void) {
    static uint8_t input[8192];
    size_t got = fread(input, 1, sizeof input, stdin);
    if (got > HEAD) {
        units = (unsigned)digits(input, 0, 2);
        vpi = (unsigned)digits(input, 3, 4);
        rounds = digits(input, 5, 11);
        run(input + HEAD, got - HEAD);
    }
    return 0;
}
