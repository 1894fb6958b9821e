/* Lekruvas: can a cheapest solution of a planning puzzle begin with this action?
 *
 * The functions are proved in Rattle (crates/reader): for every argument they return, and they read and write nothing
 * but the memory that they are handed. They keep nothing between calls and allocate nothing, so that several threads
 * may call them at once; lekruvas_mark takes about 60 kilobytes of the caller's stack. What the proofs cannot see is a
 * bad pointer: each pointer must point to as many bytes as the length behind it says, and no two of one call's may
 * overlap. A null pointer is a bad pointer, with length 0 too.
 *
 * Link liblekruvas' archive target/staticlib/libreader.a and the kit's liblibc_c.a (see c/run). */
#ifndef LEKRUVAS_H
#define LEKRUVAS_H

#include <stddef.h>
#include <stdint.h>

#ifdef __cplusplus
extern "C" {
#endif

/* What lekruvas_mark answers beside the numbers of refusals, which are 1 to 18. */
enum lekruvas_verdict {
    LEKRUVAS_BEST = 101,  /* some cheapest solution from the state begins with the action */
    LEKRUVAS_OTHER = 102, /* there are solutions, and no cheapest one begins with the action */
    LEKRUVAS_STUCK = 103  /* there is no solution from the state */
};

/* Checks a sheet of either kind and alters nothing but *place.
 *
 * Answers 0 exactly when the bytes are the layout of a valid sheet, and sets *place to 0. Else it answers the number of
 * the first check that fails, 1 to 8, and sets *place to the place that belongs to it (docs/REFUSALS.md). */
uint8_t lekruvas_check(const uint8_t *sheet, size_t length, uint64_t *place);

/* Marks one question about a sheet: the action, taken in the state. Costs are coins.
 *
 * A sheet that lekruvas_check refuses gets the same number and place here. Else a task of more than 1,024 states gets 9
 * and the number of its states; a state that is not there 13, an action that is not there 14, an action that is not
 * applicable in the state 15, a state that is a goal 16, each with the state or the action as its place. Every other
 * question gets LEKRUVAS_BEST, LEKRUVAS_OTHER or LEKRUVAS_STUCK, and *place is 0: the verdict means what is said above,
 * of the task that the sheet describes. Nothing else is ever answered. */
uint8_t lekruvas_mark(const uint8_t *sheet, size_t length, uint32_t state, uint16_t action, uint64_t *place);

/* What the refusal of a number means, as an English sentence.
 *
 * Answers the length of the whole sentence, 0 for a number that no refusal has, and writes as much of it as fits to the
 * front of the buffer; the rest of the buffer stays as it was, and no terminating zero is written. No sentence has more
 * than 110 bytes. */
size_t lekruvas_text(uint8_t number, uint8_t *buffer, size_t length);

#ifdef __cplusplus
}
#endif

#endif
