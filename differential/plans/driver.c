/* Calls the export on many plans, in one process.
 *
 *   cc -Wall -Wextra -Werror -I include differential/plans/driver.c target/staticlib/libdorrezubi.a -o driver
 *   driver EVERY < FILES > ANSWERS
 *
 * FILES: each a length (4 bytes, least significant first) and so many bytes. ANSWERS: for each file the number returned
 * (8 bytes), the listing's length (4 bytes) and the listing. All numbers least significant byte first.
 *
 * Every call is looked at: the slice is filled with 0xA5 before, and has to be listing and zeros behind 0, all zeros behind
 * 39 and untouched behind 37 and 38; the bytes around it and the plan have to be as before. One in EVERY files is also
 * called with slices of other lengths. Where something is wrong it says so and exits with 1. */
#include "dorrezubi.h"
#include <stdio.h>
#include <stdlib.h>
#include <string.h>

enum { AROUND = 64, MOST_SLICE = DORREZUBI_LISTING_MAX + 64, FILLED = 0xA5, CANARY = 0x5A };

/* AROUND bytes, the slice, AROUND bytes. */
static uint8_t room[AROUND + MOST_SLICE + AROUND];
static uint8_t *const slice = room + AROUND;

static void fail(const char *what, size_t length) {
    fprintf(stderr, "driver: slice of %zu bytes: %s\n", length, what);
    exit(1);
}

static int all(const uint8_t *bytes, size_t count, uint8_t value) {
    for (size_t i = 0; i < count; i++)
        if (bytes[i] != value)
            return 0;
    return 1;
}

/* How much of the slice is written: up to the last byte that is not zero. */
static size_t text_length(size_t length) {
    while (length > 0 && slice[length - 1] == 0)
        length--;
    return length;
}

/* One call with a slice of this length, of which everything is checked but the listing's text. */
static uint64_t call(const uint8_t *plan, size_t plan_length, size_t length) {
    uint8_t *kept = malloc(plan_length + 1);
    if (!kept)
        fail("no memory", length);
    memcpy(kept, plan, plan_length);
    memset(room, CANARY, sizeof room);
    memset(slice, FILLED, length);
    uint64_t number = dorrezubi_run_plan(plan, plan_length, slice, length);
    if (!all(room, AROUND, CANARY) || !all(slice + length, sizeof room - AROUND - length, CANARY))
        fail("bytes around it were written", length);
    if (memcmp(kept, plan, plan_length) != 0)
        fail("the plan was written", length);
    free(kept);
    if ((number == 37 || number == 38) && !all(slice, length, FILLED))
        fail("37 or 38 wrote something", length);
    if (number == 39 && !all(slice, length, 0))
        fail("39 left bytes that are not zero", length);
    if (number == 0 && memchr(slice, 0, text_length(length)))
        fail("a zero byte in the listing", length);
    if (number != 0 && (number < 37 || number > 39))
        fail("a number that is none", length);
    return number;
}

/* A slice of another length: 39 where the listing does not fit, else what the longest slice got. */
static void call_again(const uint8_t *plan, size_t plan_length, size_t length, uint64_t number, const uint8_t *listing, size_t listing_length) {
    uint64_t expected = number == 0 && length < listing_length ? 39 : number;
    if (call(plan, plan_length, length) != expected)
        fail("another number", length);
    if (expected == 0 && (text_length(length) != listing_length || memcmp(slice, listing, listing_length) != 0))
        fail("another listing", length);
}

static void try_lengths(const uint8_t *plan, size_t plan_length, uint64_t number, const uint8_t *listing, size_t listing_length) {
    for (size_t length = 0; length < 4; length++)
        call_again(plan, plan_length, length, number, listing, listing_length);
    for (size_t less = 0; less <= 41 && less <= listing_length; less++)
        call_again(plan, plan_length, listing_length - less, number, listing, listing_length);
    for (size_t more = 1; more < 10; more++)
        call_again(plan, plan_length, listing_length + more, number, listing, listing_length);
    call_again(plan, plan_length, DORREZUBI_LISTING_MAX, number, listing, listing_length);
}

static void put(uint64_t value, int count) {
    for (int i = 0; i < count; i++)
        putchar((int)(value >> 8 * i & 255));
}

static void answer(const uint8_t *plan, size_t plan_length, int again) {
    uint64_t number = call(plan, plan_length, MOST_SLICE);
    size_t length = number == 0 ? text_length(MOST_SLICE) : 0;
    uint8_t *listing = malloc(length + 1);
    if (!listing)
        fail("no memory", length);
    memcpy(listing, slice, length);
    put(number, 8);
    put(length, 4);
    fwrite(listing, 1, length, stdout);
    if (again)
        try_lengths(plan, plan_length, number, listing, length);
    free(listing);
}

/* The next file, in memory of just its size; null at the end. */
static uint8_t *next_file(size_t *length) {
    uint8_t head[4];
    if (fread(head, 1, 4, stdin) != 4)
        return NULL;
    *length = head[0] | (size_t)head[1] << 8 | (size_t)head[2] << 16 | (size_t)head[3] << 24;
    uint8_t *file = malloc(*length ? *length : 1);
    if (!file || fread(file, 1, *length, stdin) != *length)
        fail("a file is not read", *length);
    return file;
}

int main(int count, char **words) {
    long every = count == 2 ? strtol(words[1], NULL, 10) : 0;
    if (every < 1) {
        fprintf(stderr, "usage: driver EVERY < FILES > ANSWERS\n");
        return 2;
    }
    size_t length;
    uint8_t *file;
    for (long at = 0; (file = next_file(&length)); at++) {
        answer(file, length, at % every == 0);
        free(file);
    }
    return 0;
}
