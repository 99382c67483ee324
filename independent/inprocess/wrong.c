/*
 * Libraries that are wrong in one thing each, for bin/wrong-libraries: the functions of plevandor.h over those of the
 * good library, which are called right_.. here. The number in the environment's PLEVANDOR_WRONG says which it is.
 */
#include "plevandor.h"

#include <stdlib.h>

typedef struct plevandor_counters row;

extern uint64_t right_load(uint8_t, const uint8_t *, size_t, uint8_t *, size_t, uint8_t *, const uint8_t *, size_t,
                           row *, size_t);
extern uint64_t right_arrive(uint8_t, uint8_t *, const uint8_t *, size_t, uint8_t *, size_t, row *, size_t, uint8_t,
                             const uint8_t *, size_t);
extern uint64_t right_frame(uint8_t, uint8_t *, uint8_t *, size_t, row *, size_t, uint8_t *, size_t);
extern uint64_t right_hear(uint8_t, uint8_t *, uint8_t *, size_t, row *, size_t, uint8_t, const uint8_t *, size_t);
extern uint64_t right_take(uint8_t, uint8_t *, const uint8_t *, size_t, row *, size_t, uint8_t, uint8_t *, size_t);
extern uint64_t right_hand(uint8_t, uint8_t *, uint8_t *, size_t, const row *, size_t, uint8_t, const uint8_t *,
                           size_t);
extern uint64_t right_collect(uint8_t, uint8_t *, const uint8_t *, size_t, row *, size_t, uint8_t, uint8_t *, size_t);
extern uint64_t right_count(uint8_t, const uint8_t *, const uint8_t *, size_t, const row *, size_t, uint8_t);

static int wrong(int number) {
    static int chosen = -1;
    if (chosen < 0) {
        const char *text = getenv("PLEVANDOR_WRONG");
        chosen = text ? atoi(text) : 0;
    }
    return chosen == number;
}

static int is(uint64_t answer, unsigned kind) { return plevandor_answer_kind(answer) == kind; }

uint64_t plevandor_load(uint8_t card, const uint8_t *text, size_t text_len, uint8_t *memory, size_t memory_len,
                        uint8_t state[PLEVANDOR_STATE_BYTES], const uint8_t *store, size_t store_len, row *rows,
                        size_t rows_len) {
    uint64_t answer = right_load(wrong(1) && card == 2 ? 1 : card, text,
                                 wrong(2) && text_len == PLEVANDOR_TEXT_MOST ? text_len + 1 : text_len, memory,
                                 memory_len, state, store, store_len, rows, rows_len);
    size_t units = state[805];
    if (wrong(3) && is(answer, PLEVANDOR_LOADED) && units < rows_len)
        rows[units].arrived = 0; /* a row that no unit has */
    if (wrong(4) && is(answer, PLEVANDOR_UNLOADED) && memory_len > 0 && memory_len < PLEVANDOR_MEMORY_MOST)
        memory[memory_len - 1] = 0xEE; /* not cleared to its end */
    return answer;
}

uint64_t plevandor_arrive(uint8_t card, uint8_t state[PLEVANDOR_STATE_BYTES], const uint8_t *memory, size_t memory_len,
                          uint8_t *store, size_t store_len, row *rows, size_t rows_len, uint8_t unit,
                          const uint8_t *cell, size_t cell_len) {
    uint64_t answer = right_arrive(card, state, memory, memory_len, store, store_len, rows, rows_len,
                                   wrong(5) ? unit & 31 : unit, cell, cell_len);
    if (wrong(6))
        *(uint8_t *)((size_t)state + PLEVANDOR_STATE_BYTES) = 0; /* behind the state */
    if (wrong(7) && memory_len > 0)
        ((uint8_t *)(size_t)memory)[memory_len - 1] ^= 1; /* the records are only lent to be read */
    if (wrong(8) && is(answer, PLEVANDOR_REFUSED))
        state[808] ^= 1; /* a refusal changes nothing, free bytes neither */
    return answer;
}

uint64_t plevandor_frame(uint8_t card, uint8_t state[PLEVANDOR_STATE_BYTES], uint8_t *store, size_t store_len,
                         row *rows, size_t rows_len, uint8_t *buffer, size_t buffer_len) {
    uint64_t answer = right_frame(card, state, store, store_len, rows, rows_len, buffer, buffer_len);
    int sent = is(answer, PLEVANDOR_FRAMED) && plevandor_answer_sender(answer) != PLEVANDOR_NOBODY;
    if (wrong(9) && sent && plevandor_answer_copies(answer) > 2)
        answer -= 1 << 8; /* a copy too few */
    if (wrong(10) && sent)
        buffer[56] ^= 1; /* the parity */
    if (wrong(11) && is(answer, PLEVANDOR_FRAMED) && plevandor_answer_frame_number(answer) == 65535)
        state[807] = 1; /* frame 0 is left out */
    if (wrong(12) && sent && rows[0].unheard == 1)
        rows[0].unheard = 2; /* counted twice, once */
    return answer;
}

uint64_t plevandor_hear(uint8_t card, uint8_t state[PLEVANDOR_STATE_BYTES], uint8_t *store, size_t store_len, row *rows,
                        size_t rows_len, uint8_t unit, const uint8_t *frame, size_t frame_len) {
    uint64_t answer = right_hear(card, state, store, store_len, rows, rows_len, unit, frame, frame_len);
    int queued = is(answer, PLEVANDOR_HEARD) && plevandor_answer_fate(answer) == PLEVANDOR_HEARING_QUEUED;
    if (wrong(13) && queued)
        store[store_len - 1] ^= 1; /* far from the cell's slot */
    if (wrong(14) && queued)
        ((uint8_t *)(size_t)frame)[56] ^= 1; /* the frame is only lent to be read */
    return answer;
}

uint64_t plevandor_take(uint8_t card, uint8_t state[PLEVANDOR_STATE_BYTES], const uint8_t *store, size_t store_len,
                        row *rows, size_t rows_len, uint8_t unit, uint8_t *buffer, size_t buffer_len) {
    uint64_t answer = right_take(card, state, store, store_len, rows, rows_len, unit, buffer, buffer_len);
    if (wrong(15) && is(answer, PLEVANDOR_TAKEN) && rows[0].taken > 0)
        rows[0].taken--; /* lost count */
    if (wrong(16) && is(answer, PLEVANDOR_TAKEN))
        buffer[52] ^= 1; /* the last byte of the payload */
    return answer;
}

uint64_t plevandor_hand(uint8_t card, uint8_t state[PLEVANDOR_STATE_BYTES], uint8_t *store, size_t store_len,
                        const row *rows, size_t rows_len, uint8_t unit, const uint8_t *cell, size_t cell_len) {
    uint64_t answer = right_hand(card, state, store, store_len, rows, rows_len, unit, cell, cell_len);
    if (wrong(17) && is(answer, PLEVANDOR_REFUSED) && plevandor_answer_refusal(answer) == PLEVANDOR_REFUSAL_BUSY)
        answer = PLEVANDOR_HANDED; /* says so and holds nothing */
    return answer;
}

uint64_t plevandor_collect(uint8_t card, uint8_t state[PLEVANDOR_STATE_BYTES], const uint8_t *store, size_t store_len,
                           row *rows, size_t rows_len, uint8_t unit, uint8_t *buffer, size_t buffer_len) {
    uint64_t answer = right_collect(card, state, store, store_len, rows, rows_len, unit, buffer, buffer_len);
    if (wrong(18) && is(answer, PLEVANDOR_EMPTY))
        buffer[0] = 0; /* stays as it was */
    return answer;
}

uint64_t plevandor_count(uint8_t card, const uint8_t state[PLEVANDOR_STATE_BYTES], const uint8_t *store,
                         size_t store_len, const row *rows, size_t rows_len, uint8_t unit) {
    uint64_t answer = right_count(card, state, store, store_len, rows, rows_len, unit);
    if (wrong(19) && is(answer, PLEVANDOR_COUNTED) && plevandor_answer_place(answer) > 3)
        answer = PLEVANDOR_COUNTED; /* another unit's row */
    if (wrong(20) && is(answer, PLEVANDOR_REFUSED))
        answer |= (uint64_t)1 << 32; /* a bit that is to be 0 */
    return answer;
}
