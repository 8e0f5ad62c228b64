/* A worker is paused in the middle of a read while the guard writes twice. It still gets one whole record:
 * the one that was current when it counted itself in, with its age. Exits with 1 if what is shown is not.
 * README.md has the lines that build it; examples/run builds and runs it. */
#include <inttypes.h>
#include <stdio.h>
#include <stdlib.h>
#include <string.h>

#include "board.h"

enum { READERS = 2, WORDS = 3, READER = 0, WRITER = READERS };

static uint64_t *area;
static size_t words;

/* An answer, which must be that of an accepted call. */
static board_answer accepted(board_answer answer) {
    if (answer.number != 0) {
        printf("worker.c: refused, number %" PRIu64 "\n", answer.number);
        exit(1);
    }
    return answer;
}

/* Steps of a process until its read or write ends: the last answer. */
static board_answer finish(uint64_t process) {
    board_answer answer;
    do answer = accepted(board_step(area, words, process));
    while (answer.ended == 0);
    return answer;
}

/* A whole write: who leads, under which term, for how long. */
static void publish(const uint64_t record[WORDS]) {
    accepted(board_begin_write(area, words, record, WORDS));
    finish(WRITER);
}

int main(void) {
    const uint64_t first[WORDS] = {1, 1, 100}, old[WORDS] = {2, 2, 200};
    const uint64_t newer[WORDS] = {3, 3, 300}, newest[WORDS] = {4, 4, 400};
    words = board_words(1, READERS, WORDS);
    area = calloc(words, sizeof *area);
    if (area == NULL) return 1;
    accepted(board_make(area, words, 1, READERS, WORDS, first, WORDS));
    publish(old);
    accepted(board_begin_read(area, words, READER));
    for (int i = 0; i < 5; i++) accepted(board_step(area, words, READER)); /* one of three words is copied */
    publish(newer);
    publish(newest);
    uint64_t age = finish(READER).age;
    board_place place = board_show(area, words, READER);
    printf("worker.c: read");
    for (uint64_t i = 0; i < place.len; i++) printf(" %" PRIu64, area[place.at + i]);
    printf(", age %" PRIu64 "\n", age);
    int same = place.len == WORDS && memcmp(area + place.at, old, sizeof old) == 0;
    free(area);
    return place.yes == 1 && same && age == 2 ? 0 : 1;
}
