/*
 * Bytes of stack that each function uses at its deepest, on a busy shelf of 32 units: the stack below the caller is
 * painted before each call and looked at after it. The return address and arguments on the stack count. It ends with 0
 * if no function uses more than MOST. GCC or clang, x86-64 or Arm; linked with -Wl,-z,now, or the first call of memset
 * is found by the loader on the same stack.
 */
#include "plevandor.h"

#include <stdio.h>
#include <string.h>

#define MOST 1024     /* what docs/FIRMWARE.md promises */
#define WATCHED 16384 /* bytes that are painted */
#define OWN 96        /* the first so many may be this program's own */
#define PAINT 0xC9
#define UNITS PLEVANDOR_UNITS_MOST

#if defined(__x86_64__)
#define STACK_POINTER(sp) __asm__ volatile("movq %%rsp, %0" : "=r"(sp))
#else
#define STACK_POINTER(sp) __asm__ volatile("mov %0, sp" : "=r"(sp))
#endif

enum function { LOAD, ARRIVE, FRAME, HEAR, TAKE, HAND, COLLECT, COUNT, FUNCTIONS };
static size_t deepest[FUNCTIONS];

static uint8_t state[PLEVANDOR_STATE_BYTES], memory[PLEVANDOR_MEMORY_MOST], store[UNITS * PLEVANDOR_STORE_BYTES];
static struct plevandor_counters rows[UNITS];
static uint8_t bytes[PLEVANDOR_FRAME_BYTES];
static char table[8192];
static size_t length;

__attribute__((noinline)) static void paint(volatile uint8_t *sp) {
    for (int i = OWN + 1; i <= WATCHED; i++)
        sp[-i] = PAINT;
}

__attribute__((noinline)) static void look(volatile uint8_t *sp, enum function function) {
    size_t used = WATCHED;
    while (used > OWN && sp[-(long)used] == PAINT)
        used--;
    if (used > deepest[function])
        deepest[function] = used;
}

/* What one function uses in one call. */
#define MEASURE(function, call)                                                                                        \
    do {                                                                                                               \
        volatile uint8_t *sp;                                                                                          \
        STACK_POINTER(sp);                                                                                             \
        paint(sp);                                                                                                     \
        (void)call;                                                                                                    \
        look(sp, function);                                                                                            \
    } while (0)

#define SHELF state, store, sizeof store, rows, UNITS

static void load(uint8_t card, size_t memory_len) {
    MEASURE(LOAD, plevandor_load(card, (const uint8_t *)table, length, memory, memory_len, state, store, sizeof store,
                                 rows, UNITS));
}

/* Every kind of line, for 32 units of both links and modes. */
static void write_table(void) {
    static const char *const own[] = {"\tuni\t9\t%u\tone\t0\t0\t100\t1\n", "\tnni\t9\t%u\tfour\t40\t30\t20\t1\n"};
    char *at = table + sprintf(table, "bus\t32\n");
    for (unsigned unit = 0; unit < UNITS; unit++) {
        at += sprintf(at, "unit\t%u", unit);
        at += sprintf(at, own[unit % 2], unit % 3 + 1);
        at += sprintf(at, "vp\t%u\t1\tb\t2\t255\nvp\t%u\t2\tm7\t1\t3\nmc\t%u\t7\n", unit, unit, unit);
        at += sprintf(at, "drop\t%u\t3\npage\t%u\t4\t9\n", unit, unit);
        at += sprintf(at, "vc\t%u\t4\t5\tu%u\t3\t6\t7\n", unit, (unit + 1) % UNITS);
    }
    length = (size_t)(at - table);
}

/* A cell of VPI 1, 2, 4 or 5 and VCI 5, with its header check. */
static void arrive(uint8_t unit, unsigned which) {
    static const uint8_t vpis[4] = {0x10, 0x20, 0x40, 0x50};
    unsigned left = 0;
    memset(bytes, 0, sizeof bytes);
    bytes[1] = vpis[which], bytes[3] = 0x50;
    for (unsigned bit = 0; bit < 32; bit++) {
        left ^= (unsigned)(bytes[bit / 8] >> (7 - bit % 8) & 1) << 7;
        left = left & 128 ? (left << 1 ^ 7) & 255 : left << 1;
    }
    bytes[4] = (uint8_t)(left ^ 0x55);
    MEASURE(ARRIVE, plevandor_arrive(PLEVANDOR_WIDE, state, memory, sizeof memory, store, sizeof store, rows, UNITS,
                                     unit, bytes, PLEVANDOR_CELL_BYTES));
}

/* Control and loopback cells for unit 3, to be handed in. */
static void hand(uint8_t unit, unsigned loopback) {
    memset(bytes, 0, sizeof bytes);
    bytes[0] = loopback ? 0xD0 : 0xC0, bytes[1] = loopback ? 0x32 : 0x3D;
    MEASURE(HAND, plevandor_hand(PLEVANDOR_WIDE, SHELF, unit, bytes, PLEVANDOR_CONTROL_BYTES));
}

static void round_of_events(unsigned round) {
    for (uint8_t unit = 0; unit < UNITS; unit++) {
        arrive(unit, (round + unit) % 4);
        hand(unit, round % 2);
    }
    for (uint8_t unit = 0; unit < UNITS; unit++) {
        MEASURE(FRAME, plevandor_frame(PLEVANDOR_WIDE, SHELF, bytes, PLEVANDOR_FRAME_BYTES));
        MEASURE(HEAR, plevandor_hear(PLEVANDOR_WIDE, SHELF, unit, bytes, PLEVANDOR_FRAME_BYTES));
        MEASURE(TAKE, plevandor_take(PLEVANDOR_WIDE, SHELF, unit, bytes, PLEVANDOR_CELL_BYTES));
        MEASURE(COLLECT, plevandor_collect(PLEVANDOR_WIDE, SHELF, 3, bytes, PLEVANDOR_CONTROL_BYTES));
        MEASURE(COUNT, plevandor_count(PLEVANDOR_WIDE, SHELF, unit));
    }
}

int main(void) {
    static const char *const names[FUNCTIONS] = {"load", "arrive", "frame", "hear", "take", "hand", "collect", "count"};
    size_t most = 0;
    write_table();
    load(PLEVANDOR_NARROW, sizeof memory);
    load(PLEVANDOR_WIDE, 800);
    load(PLEVANDOR_WIDE, sizeof memory);
    for (unsigned round = 0; round < 40; round++)
        round_of_events(round);
    if (rows[2].sent == 0 || rows[3].queued == 0 || rows[0].taken == 0)
        return 2; /* the shelf did nothing */
    for (int function = 0; function < FUNCTIONS; function++) {
        printf("%s %lu, ", names[function], (unsigned long)deepest[function]);
        most = deepest[function] > most ? deepest[function] : most;
    }
    printf("most %lu\n", (unsigned long)most);
    return most > MOST;
}
