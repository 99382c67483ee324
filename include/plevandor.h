/*
 * Plevandor: the cell-bus shelf of a DSL street cabinet, for a card's firmware; docs/FIRMWARE.md says more.
 *
 * The library keeps nothing: no static byte, no heap, no file, no clock. All that a shelf is stands in what the caller
 * lends to each call, and the caller owns it before and after:
 *   state   PLEVANDOR_STATE_BYTES; load writes them all, events change them in place (docs/STATE.md)
 *   memory  the route records, up to PLEVANDOR_MEMORY_MOST bytes; load writes it, arrive reads it
 *   store   the waiting cells, PLEVANDOR_STORE_BYTES for each declared unit
 *   rows    the counters, a struct plevandor_counters for each declared unit, in the order of the table's `unit` lines
 *
 * A slice is a pointer and then its number of elements (of rows: rows, not bytes). The caller's part is this:
 *   - no pointer is null, also with a length of 0; each points to as many elements as its length says;
 *   - rows is aligned as a struct plevandor_counters; all else needs no alignment;
 *   - what is lent to one call does not overlap; what is const is not written by anybody while the call runs;
 *   - one call at a time for the same state, memory, store and rows (docs/FIRMWARE.md on interrupts and other cores).
 * Everything else is judged: any bytes in state, memory, store and rows, any text, any unit, any length. A wrong length
 * is refused with a number, and an event that is refused changes nothing. Units and cards are numbers of eight bits: C
 * cuts a larger one before the call, so that 259 is unit 3.
 *
 * Each function answers one number, which the functions plevandor_answer_.. below take apart.
 */
#ifndef PLEVANDOR_H
#define PLEVANDOR_H

#include <stddef.h>
#include <stdint.h>

#ifdef __cplusplus
extern "C" {
#endif

/* Sizes, in bytes unless another thing is said. */
#define PLEVANDOR_STATE_BYTES 2048    /* the state of a shelf */
#define PLEVANDOR_STORE_BYTES 8192    /* a declared unit's part of the store */
#define PLEVANDOR_ROW_BYTES 52        /* a row of counters */
#define PLEVANDOR_RECORD_BYTES 8      /* a record of the memory, one for each VPI of a unit and VCI of a page */
#define PLEVANDOR_MEMORY_MOST 262144  /* the part of the memory that load writes; more may be lent and stays as it is */
#define PLEVANDOR_TEXT_MOST 65536     /* the longest text of a table that is read */
#define PLEVANDOR_UNITS_MOST 32       /* units on a shelf: store and rows for so many are always enough */
#define PLEVANDOR_CELL_BYTES 53       /* a line cell: what arrives, and what take gives */
#define PLEVANDOR_FRAME_BYTES 57      /* a frame on the bus: what frame gives, and what is heard */
#define PLEVANDOR_CONTROL_BYTES 56    /* a processor's cell: what is handed in, and what collect gives */
#define PLEVANDOR_COUNTERS 13         /* counters in a row */

/* Cards: any other number is the narrow card too. */
#define PLEVANDOR_NARROW 0            /* keeps an outgoing VPI in one byte */
#define PLEVANDOR_WIDE 1              /* keeps an outgoing VPI in two bytes */

#define PLEVANDOR_NOBODY 255          /* stands for a unit where there is none */

/* What an answer is. */
enum plevandor_kind {
    PLEVANDOR_LOADED = 0,             /* load: the table is good; its bytes used */
    PLEVANDOR_UNLOADED = 1,           /* load: the table is refused; its refusal and its line */
    PLEVANDOR_REFUSED = 2,            /* an event or count is refused; its refusal */
    PLEVANDOR_ARRIVED = 3,            /* arrive; its fate, a PLEVANDOR_ARRIVAL_.. */
    PLEVANDOR_FRAMED = 4,             /* frame; its frame number, sender, granted and copies */
    PLEVANDOR_HEARD = 5,              /* hear; its fate, a PLEVANDOR_HEARING_.. */
    PLEVANDOR_TAKEN = 6,              /* take, collect: a cell is in the buffer */
    PLEVANDOR_EMPTY = 7,              /* take, collect: there was none, the buffer is as it was */
    PLEVANDOR_HANDED = 8,             /* hand: the cell waits to be sent */
    PLEVANDOR_COUNTED = 9             /* count; its place, that of the unit's row in rows */
};

/* Refusals: 1 to 7 of a table, 8 to 11 of an event. */
enum plevandor_refusal {
    PLEVANDOR_REFUSAL_LONG = 1,       /* the text is above PLEVANDOR_TEXT_MOST; line 0 */
    PLEVANDOR_REFUSAL_FORM = 2,       /* a word, the number of fields, a field's range, a newline; no text */
    PLEVANDOR_REFUSAL_ORDER = 3,      /* a line before what it needs, or a unit, VPI or VCI too high */
    PLEVANDOR_REFUSAL_TWICE = 4,      /* a line that gives again what stands */
    PLEVANDOR_REFUSAL_WIDE = 5,       /* a line that the narrow card cannot hold */
    PLEVANDOR_REFUSAL_ROOM = 6,       /* the records so far exceed the memory */
    PLEVANDOR_REFUSAL_STORE = 7,      /* the store or the rows are too small for the units; line 0 */
    PLEVANDOR_REFUSAL_STATE = 8,      /* the state is none, or its store or rows are too small */
    PLEVANDOR_REFUSAL_UNIT = 9,       /* the unit is not declared */
    PLEVANDOR_REFUSAL_LENGTH = 10,    /* the cell, the frame or the buffer has a wrong length */
    PLEVANDOR_REFUSAL_BUSY = 11       /* hand: the cell before waits still */
};

/* Fates of a cell that arrives. */
enum plevandor_arrival {
    PLEVANDOR_ARRIVAL_HEC = 0,        /* its header check is wrong */
    PLEVANDOR_ARRIVAL_IGNORED = 1,    /* it carries nothing, or is to be dropped */
    PLEVANDOR_ARRIVAL_MISROUTED = 2,  /* no record routes it */
    PLEVANDOR_ARRIVAL_INLETFULL = 3,  /* four cells wait in the inlet already */
    PLEVANDOR_ARRIVAL_QUEUED = 4      /* it waits in the inlet */
};

/* Fates of a frame that a unit hears. */
enum plevandor_hearing {
    PLEVANDOR_HEARING_DAMAGED = 0,    /* its parity, its check, its address, or what kind 3 says is bad */
    PLEVANDOR_HEARING_OTHER = 1,      /* it is for others; not counted */
    PLEVANDOR_HEARING_WIDE = 2,       /* a VPI above 255 at a UNI unit */
    PLEVANDOR_HEARING_FULL = 3,       /* the queue is at its capacity */
    PLEVANDOR_HEARING_CLP = 4,        /* CLP 1, and the queue is at its limit or above */
    PLEVANDOR_HEARING_QUEUED = 5      /* it waits in the outlet */
};

/* Counters by their places in a row. */
enum plevandor_counter {
    PLEVANDOR_COUNTER_ARRIVED = 0,    /* cells that arrived */
    PLEVANDOR_COUNTER_HEC = 1,        /* of these: header check wrong */
    PLEVANDOR_COUNTER_IGNORED = 2,    /* of these: ignored */
    PLEVANDOR_COUNTER_MISROUTED = 3,  /* of these: misrouted */
    PLEVANDOR_COUNTER_INLETFULL = 4,  /* of these: the inlet was full */
    PLEVANDOR_COUNTER_SENT = 5,       /* frames that the unit sent */
    PLEVANDOR_COUNTER_UNHEARD = 6,    /* of these: for no declared unit */
    PLEVANDOR_COUNTER_DAMAGED = 7,    /* frames heard that were damaged */
    PLEVANDOR_COUNTER_QUEUED = 8,     /* cells queued in an outlet */
    PLEVANDOR_COUNTER_FULL = 9,       /* cells lost to a full queue */
    PLEVANDOR_COUNTER_CLP = 10,       /* cells lost for their CLP */
    PLEVANDOR_COUNTER_WIDE = 11,      /* cells lost for their VPI */
    PLEVANDOR_COUNTER_TAKEN = 12      /* cells that left an outlet */
};

/* A unit's row of counters, each modulo 4,294,967,296, in that order. */
struct plevandor_counters {
    uint32_t arrived, hec, ignored, misrouted, inletfull, sent, unheard, damaged, queued, full, clp, wide, taken;
};

/* A table is loaded: memory, state and rows start anew; of the store only the length is read. LOADED, UNLOADED. */
uint64_t plevandor_load(uint8_t card, const uint8_t *text, size_t text_len, uint8_t *memory, size_t memory_len,
                        uint8_t state[PLEVANDOR_STATE_BYTES], const uint8_t *store, size_t store_len,
                        struct plevandor_counters *rows, size_t rows_len);

/* A line cell of PLEVANDOR_CELL_BYTES arrives at a unit. ARRIVED, REFUSED. */
uint64_t plevandor_arrive(uint8_t card, uint8_t state[PLEVANDOR_STATE_BYTES], const uint8_t *memory, size_t memory_len,
                          uint8_t *store, size_t store_len, struct plevandor_counters *rows, size_t rows_len,
                          uint8_t unit, const uint8_t *cell, size_t cell_len);

/* The next frame on the bus, its PLEVANDOR_FRAME_BYTES put into the buffer if a unit sends. FRAMED, REFUSED. */
uint64_t plevandor_frame(uint8_t card, uint8_t state[PLEVANDOR_STATE_BYTES], uint8_t *store, size_t store_len,
                         struct plevandor_counters *rows, size_t rows_len, uint8_t *buffer, size_t buffer_len);

/* A frame of PLEVANDOR_FRAME_BYTES from outside is heard by one unit. HEARD, REFUSED. */
uint64_t plevandor_hear(uint8_t card, uint8_t state[PLEVANDOR_STATE_BYTES], uint8_t *store, size_t store_len,
                        struct plevandor_counters *rows, size_t rows_len, uint8_t unit, const uint8_t *frame,
                        size_t frame_len);

/* The cell that leaves a unit next is put into the buffer of PLEVANDOR_CELL_BYTES. TAKEN, EMPTY, REFUSED. */
uint64_t plevandor_take(uint8_t card, uint8_t state[PLEVANDOR_STATE_BYTES], const uint8_t *store, size_t store_len,
                        struct plevandor_counters *rows, size_t rows_len, uint8_t unit, uint8_t *buffer,
                        size_t buffer_len);

/* A unit's processor hands in a cell of PLEVANDOR_CONTROL_BYTES, to be sent as it is. HANDED, REFUSED. */
uint64_t plevandor_hand(uint8_t card, uint8_t state[PLEVANDOR_STATE_BYTES], uint8_t *store, size_t store_len,
                        const struct plevandor_counters *rows, size_t rows_len, uint8_t unit, const uint8_t *cell,
                        size_t cell_len);

/* The oldest cell for a unit's processor is put into the buffer of PLEVANDOR_CONTROL_BYTES. TAKEN, EMPTY, REFUSED. */
uint64_t plevandor_collect(uint8_t card, uint8_t state[PLEVANDOR_STATE_BYTES], const uint8_t *store, size_t store_len,
                           struct plevandor_counters *rows, size_t rows_len, uint8_t unit, uint8_t *buffer,
                           size_t buffer_len);

/* Which row is the unit's. COUNTED, REFUSED. It writes nothing. */
uint64_t plevandor_count(uint8_t card, const uint8_t state[PLEVANDOR_STATE_BYTES], const uint8_t *store,
                         size_t store_len, const struct plevandor_counters *rows, size_t rows_len, uint8_t unit);

/*
 * The parts of an answer. Look at its kind first: parts of different kinds stand in the same bits, so that a part which
 * the kind has not reads as anything. Only the refusal can be asked of any answer. Nobody is PLEVANDOR_NOBODY.
 */

/* What it is, an enum plevandor_kind. */
static inline unsigned plevandor_answer_kind(uint64_t answer) { return (unsigned)(answer & 255); }

/* UNLOADED, REFUSED: why, an enum plevandor_refusal; 0 for every other kind. */
static inline unsigned plevandor_answer_refusal(uint64_t answer) {
    unsigned kind = plevandor_answer_kind(answer);
    return kind == PLEVANDOR_UNLOADED || kind == PLEVANDOR_REFUSED ? (unsigned)(answer >> 8 & 255) : 0;
}

/* ARRIVED: an enum plevandor_arrival. HEARD: an enum plevandor_hearing. */
static inline unsigned plevandor_answer_fate(uint64_t answer) { return (unsigned)(answer >> 8 & 255); }

/* FRAMED: how many copies were queued. */
static inline unsigned plevandor_answer_copies(uint64_t answer) { return (unsigned)(answer >> 8 & 255); }

/* FRAMED: the unit that sent, or nobody: then the buffer is as it was. */
static inline unsigned plevandor_answer_sender(uint64_t answer) { return (unsigned)(answer >> 16 & 255); }

/* FRAMED: the unit that sends in the next frame, or nobody. */
static inline unsigned plevandor_answer_granted(uint64_t answer) { return (unsigned)(answer >> 24 & 255); }

/* FRAMED: the frame's number, modulo 65,536. */
static inline uint32_t plevandor_answer_frame_number(uint64_t answer) { return (uint32_t)(answer >> 32); }

/* LOADED: bytes of the memory that the records take. */
static inline uint32_t plevandor_answer_used(uint64_t answer) { return (uint32_t)(answer >> 32); }

/* UNLOADED: the faulty line, counted from 1; 0 for none. */
static inline uint32_t plevandor_answer_line(uint64_t answer) { return (uint32_t)(answer >> 32); }

/* COUNTED: the place of the unit's row in rows. */
static inline uint32_t plevandor_answer_place(uint64_t answer) { return (uint32_t)(answer >> 32); }

/* The counter of a number in a row, an enum plevandor_counter; the number is below PLEVANDOR_COUNTERS. */
static inline uint32_t plevandor_counter_of(const struct plevandor_counters *row, unsigned number) {
    const unsigned char *from = (const unsigned char *)row + number * sizeof(uint32_t);
    uint32_t counter;
    unsigned char *to = (unsigned char *)&counter;
    size_t i;
    for (i = 0; i < sizeof counter; i++)
        to[i] = from[i];
    return counter;
}

#ifdef __cplusplus
}
#endif

#endif
