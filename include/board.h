/* The record board for C: one area of 64-bit words, one writer, N readers (N is 1 to 64), records of 0 to C
 * words (C is 1 to 256). The readers are processes 0 to N - 1, the writer is process N. A begin starts a read
 * or a write; each board_step of its process makes one small step of it, until an answer says that it ended.
 *
 * The library is libboard_c.a: `rt lib --cpu x86-64` in crates/board_c writes it for any x86-64 Linux to the
 * folder out/ there, and twin/library copies it to twin/target/library. A program is linked by
 *     cc -Iinclude program.c crates/board_c/out/libboard_c.a
 * and of the C library it needs memset alone. It is written in Rattle (crates/board_c) and proved: on any
 * input each call returns, and leaves in every word, what one definition says. That of board_make, of the
 * begins and of board_step stands in crates/register/specs/Calls.antt; board_show is `place_of` of
 * crates/place/specs/Places.antt and board_words is `words_of` of crates/board_c/specs/Sizes.antt, and
 * `PlacesAreShown` and `WordsAreMade` (Promises.antt beside each) tie them to what showing hands back and to
 * what making answers. The calls never allocate, never keep a pointer, print nothing, do not panic, and end.
 *
 * A whole read. The loop looks at the number: a refused call ends nothing, so a loop that waits for `ended`
 * alone would never stop.
 *     board_answer a = board_begin_read(area, words, reader);
 *     while (a.number == 0 && a.ended == 0) a = board_step(area, words, reader);
 *     if (a.number == 0) { board_place p = board_show(area, words, reader); ... }
 *
 * What may be handed in: anything. Any words, damaged ones too, any form, n, c, reader and process, any
 * lengths. What is wrong is refused by its number, and a refusal changes no word. The memory alone is the
 * caller's to see to:
 *   - area points to `words` words and record to `len` words, both aligned to 8 bytes;
 *   - both may be read, and area may be written, for as long as the call lasts (board_show writes nothing);
 *   - record does not overlap area;
 *   - while a call runs nobody else writes record or area, nor reads area, unless the call is board_show;
 *   - where the length is 0 the pointer may be anything, NULL too: nothing is read or stored through it.
 *
 * One call at a time on one area: a step is indivisible here, and whoever runs the tasks sees to that. A
 * runtime that steps its tasks on one thread has it already; one with several threads makes the calls on an
 * area from one of them, or keeps the others out for the length of one call. Nobody takes a lock for longer:
 * between two calls a process holds nothing, may be paused for as long as it likes, in the middle of a copy
 * too, and nobody waits for it. Any order of the processes' steps is safe. Calls from two threads at the same
 * time are a data race: the words are plain, a call can then answer 2, and a record can be torn unnoticed.
 *
 * "Undamaged" speaks of the words by which the board finds its way: header, indices, counts, phases, lengths.
 * The words of the records, in slots and desks, and the write numbers are not tested, since any value may
 * stand there: a word of a record that someone else altered is handed out as it is.
 */
#ifndef BOARD_H
#define BOARD_H

#include <stddef.h>
#include <stdint.h>

#ifdef __cplusplus
extern "C" {
#endif

/* number is 0 where the call was accepted, or else the refusal's:
 *    1  not an area: fewer than eight words, a header that is none of an area, or words is not its total
 *    2  damaged, or a step would lift a count above N
 *    3  process above N in a step; reader above N - 1 in a begin
 *    4  record longer than C
 *    5  begin while that process is busy
 *    6  step of a process that is idle
 *    7  begin of a write when 2^64 - 1 writes have ended
 *    8  the writer looks at the last slot, and it is not free
 *    9  making: form is not 1, or n or c outside its range
 *   10  making: words is not the area's total
 * Number 8, and 2 for a count, are met only on areas that someone altered. Where several fit, the one that
 * comes first in the order given with the call is returned.
 * ended is 1 if the call ended a read or a write, or else 0. Where a read ended, age is how many writes later
 * than the one it read had been published by then: writes ended, plus 1 while the writer has only its last step
 * to make, less the number of the write it read, not below 0. In every other answer age is 0. Making and the
 * begins end nothing. */
typedef struct {
    uint64_t number, ended, age;
} board_answer;

/* yes is 1: the reader's record is the len words area[at], area[at + 1] and so on, and at + len is at most
 * words. Nothing is copied: the words stand there until a later read of that reader copies over them.
 * yes is 0: there is no record to show, and at and len are 0. */
typedef struct {
    uint64_t yes, at, len;
} board_place;

/* Makes a fresh area of the words, for n readers, records of at most c words and a starting record. The only
 * form so far is 1. Refusals, in order: 9, 10, 4. */
board_answer board_make(uint64_t *area, size_t words, uint64_t form, uint64_t n, uint64_t c,
                        const uint64_t *record, size_t len);

/* A reader begins a read. Refusals, in order: 1, 2, 3, 5. */
board_answer board_begin_read(uint64_t *area, size_t words, uint64_t reader);

/* The writer begins a write. The record is copied into the area, and is not needed after the call.
 * Refusals, in order: 1, 2, 4, 5, 7. */
board_answer board_begin_write(uint64_t *area, size_t words, const uint64_t *record, size_t len);

/* One step of a process. Refusals, in order: 1, 2, 3, 6, and then 8, or 2 for a count. */
board_answer board_step(uint64_t *area, size_t words, uint64_t process);

/* Where the reader's record stands: yes is 1 if the area is undamaged and the reader exists, is idle and has
 * finished a read. It has no number and changes nothing. */
board_place board_show(const uint64_t *area, size_t words, uint64_t reader);

/* The words of an area for n readers and records of at most c words, or 0 where making would answer 9. */
uint64_t board_words(uint64_t form, uint64_t n, uint64_t c);

#ifdef __cplusplus
}
#endif

#endif
