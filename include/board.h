/* The seat board's reorder stage: plan, inspect, run, move, invert, price and list.
 *
 * A frame has 2^n words, 2^k of them on each tick; t = n - k, so there are 2^t ticks to a frame.
 * Sizes: n from 1 to 10, k from 1 to the smaller of n and 5. Word i enters at tick i / 2^k, port i mod 2^k.
 * An order is n columns: column j is the place at which word 2^j leaves, and word i leaves at the exclusive or of the
 * columns at the set bits of i.
 *
 * Link with libboard.a, for x86-64 (.ci/library board makes target/staticlib/libboard.a). No function allocates, keeps
 * a pointer or changes anything but the buffers it is lent; each may be called from several threads on different
 * buffers. board_list keeps some 16 KB on the stack, the others far less.
 * Every buffer is the caller's, and is lent for the call: a pointer, and after it the number of its elements (not bytes).
 * Buffers of one call that are not const overlap no other buffer of that call. A buffer with no elements is
 * never read, but its pointer must not be NULL: on a blank tick pass any array of words, with length 0.
 *
 * Every function returns 0 or the number of a refusal, the lowest that applies, except that 15 comes before all.
 * On a refusal every buffer is as it was lent, but for the two values that 4, 11 and 13 name in said:
 * said: 3 elements, the last buffer of each function that can give one of these. On 4 the second is the first column that
 * is a sum (exclusive or) of earlier ones, counted from 0, and the third says of which: bit j of it is 1 if column j is
 * one of them; it is 0 for a column of 0. On 11 and 13 they are the two ports of the first pair that wants one bank: the
 * smallest first port, then the smallest second. On every other answer they keep their content; the first element is
 * board_tick's alone. Another length is 2.
 * On 0 the part of a buffer that is not mentioned keeps its content.
 */
#ifndef BOARD_H
#define BOARD_H

#include <stddef.h>
#include <stdint.h>

#ifdef __cplusplus
extern "C" {
#endif

enum {
  BOARD_DONE = 0,          /* done; for the inspector: passed */
  BOARD_SIZES = 1,         /* n or k outside the sizes */
  BOARD_LENGTH = 2,        /* a lent length is wrong */
  BOARD_TOO_LARGE = 3,     /* a column is 2^n or more */
  BOARD_DEPENDENT = 4,     /* columns dependent: said names the first that is a sum of earlier ones */
  BOARD_LAYOUT = 5,        /* the sheet breaks the layout */
  BOARD_WRITE_WIRING = 6,  /* write wiring not invertible */
  BOARD_READ_WIRING = 7,   /* read wiring not invertible */
  BOARD_SHARED_CELL = 8,   /* two words share a cell */
  BOARD_DIFFERS = 9,       /* M differs from N P: some word is not put in the cell that is read for its place */
  BOARD_STATE = 10,        /* impossible run state */
  BOARD_WRITE_CLASH = 11,  /* two written words want one bank in this call */
  BOARD_OVERWRITE = 12,    /* a cell to be written is filled */
  BOARD_READ_CLASH = 13,   /* two read words want one bank in this call */
  BOARD_EMPTY_READ = 14,   /* a cell to be read is empty */
  BOARD_CARD = 15          /* order card unreadable */
};

enum {
  BOARD_SHEET_PLACES = 64,
  BOARD_STATE_PLACES = 3,
  BOARD_SAID_PLACES = 3,
  BOARD_SUMS_PLACES = 3,
  BOARD_CARD_PLACES = 128, /* at most; a longer card is 15 */
  BOARD_TEXT_PLACES = 8192 /* at least */
};

/* Order to sheet. columns: n elements. sheet: 64 elements, which hold the planned sheet on 0: 32 of the write side, then
 * 32 of the read side, each 10 address columns, 5 wiring columns, the number of stages, and 8 stages of direction and
 * control. Refusals 1 to 4. */
uint32_t board_plan(uint32_t n, uint32_t k, const uint16_t *columns, size_t columns_length, uint16_t *sheet,
                    size_t sheet_length, uint32_t *said, size_t said_length);

/* Order and sheet to verdict: 0 exactly when the run of this well-formed sheet, from a fresh start, is right for this
 * order, over every series of frames and blank ticks and every content of the words. columns: n elements. sheet: 64.
 * Refusals 1 to 9. */
uint32_t board_inspect(uint32_t n, uint32_t k, const uint16_t *columns, size_t columns_length, const uint16_t *sheet,
                       size_t sheet_length, uint32_t *said, size_t said_length);

/* One tick of a sheet. sheet: 64 elements. tick: the 2^k words that came, or none (length 0) on a blank tick.
 * out: 2^k elements; if a tick is handed out its words stand there by port, else out is left alone.
 * words, marks: 2^(n+1) elements each, the memory: half h is from h * 2^n on, by cell number; a mark that is not 0 means
 * filled. On 0 the cells that were read have mark 0 and their words as they were, and the words that came are stored in
 * half h, each with mark 1.
 * state: 3 elements: a (ticks of the incoming frame so far), h (0 or 1), r (next tick to read; 2^t when idle), replaced on 0.
 * said: on 0 its first element is 1 if a tick was handed out, else 0; on a refusal that keeps its content.
 * A fresh run: all marks 0, and a, h, r = 0, 0, 2^t. A frame completed in a call leaves in the next 2^t calls, blank or
 * not. Refusals 1, 2, 5, 10 to 14. */
uint32_t board_tick(uint32_t n, uint32_t k, const uint16_t *sheet, size_t sheet_length, uint32_t *state,
                    size_t state_length, const uint32_t *tick, size_t tick_length, uint32_t *out, size_t out_length,
                    uint32_t *words, size_t words_length, uint8_t *marks, size_t marks_length, uint32_t *said,
                    size_t said_length);

/* A whole frame in order: out[P i] = frame[i]. columns: n elements. frame, out: 2^n each. Refusals 1 to 4. */
uint32_t board_move(uint32_t n, const uint16_t *columns, size_t columns_length, const uint32_t *frame,
                    size_t frame_length, uint32_t *out, size_t out_length, uint32_t *said, size_t said_length);

/* The order that brings every word home. columns, out: n elements each. Refusals 1 to 4. */
uint32_t board_inverse(uint32_t n, const uint16_t *columns, size_t columns_length, uint16_t *out, size_t out_length,
                       uint32_t *said, size_t said_length);

/* What a sheet costs. sheet: 64 elements. sums: 3 elements, on 0 switches, multiplexers (two for each switch) and xor
 * gates. Refusals 1, 2, 5. */
uint32_t board_price(uint32_t n, uint32_t k, const uint16_t *sheet, size_t sheet_length, uint32_t *sums,
                     size_t sums_length);

/* The listing of an order card: card is its bytes, as `3 1 4 2 1` and a newline (n, k, the columns). On 0 the listing
 * stands at the start of text, not ended by a zero byte, and length[0] is how many bytes it has. text: 8192 elements or
 * more, which is enough for every listing; fewer are 2. length: 1 element. Refusals 15, then 1 to 4. */
uint32_t board_list(const uint8_t *card, size_t card_length, uint8_t *text, size_t text_length, uint32_t *length,
                    size_t length_length, uint32_t *said, size_t said_length);

#ifdef __cplusplus
}
#endif

#endif
