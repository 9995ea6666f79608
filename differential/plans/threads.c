/* The export on small stacks, from several threads at once.
 *
 *   cc -Wall -Wextra -Werror -pthread -I include differential/plans/threads.c target/staticlib/libdorrezubi.a -o threads
 *   threads run THREADS STACK ROUNDS FILE..   each thread, with a stack of so many bytes, goes through all files so often;
 *                                             the listing of NAME.plan has to be what NAME.listing holds
 *   threads measure FILE..                    the most bytes of stack that a call takes, over these files
 *
 * Exit status: 0 all is well, 1 something differs, 2 wrong usage. */
#include "dorrezubi.h"
#include <limits.h>
#include <pthread.h>
#include <stdio.h>
#include <stdlib.h>
#include <string.h>
#include <sys/mman.h>

enum { MOST_PLAN = 16385, SLICE = DORREZUBI_LISTING_MAX, PAINT = 0xA5, MEASURED = 8 << 20 };

typedef struct { const char *name; uint8_t *plan, *listing; size_t plan_length, listing_length; } example;

static example *examples;
static int example_count;
static long rounds;

static void *need(void *memory) {
    if (!memory || memory == MAP_FAILED) {
        fprintf(stderr, "threads: no memory\n");
        exit(1);
    }
    return memory;
}

static size_t read_file(const char *name, uint8_t *to, size_t most) {
    FILE *file = fopen(name, "rb");
    if (!file) {
        perror(name);
        exit(1);
    }
    size_t length = fread(to, 1, most, file);
    fclose(file);
    return length;
}

/* The plan, and its listing where that is asked for. */
static example read_example(const char *name, int with_listing) {
    example e = {.name = name, .plan = need(malloc(MOST_PLAN)), .listing = need(malloc(SLICE))};
    e.plan_length = read_file(name, e.plan, MOST_PLAN);
    if (with_listing) {
        char other[PATH_MAX];
        int stem = (int)strlen(name) - 5;
        snprintf(other, sizeof other, "%.*s.listing", stem > 0 ? stem : 0, name);
        e.listing_length = read_file(other, e.listing, SLICE);
    }
    return e;
}

static void read_examples(int count, char **names, int with_listings) {
    example_count = count;
    examples = need(calloc((size_t)count, sizeof *examples));
    for (int i = 0; i < count; i++)
        examples[i] = read_example(names[i], with_listings);
}

/* ---- Several threads at once. */

/* Null, or the name of the plan whose listing is another. The slice is not on the stack. */
static void *compare_all(void *given) {
    uint8_t *slice = given;
    for (long round = 0; round < rounds; round++)
        for (int i = 0; i < example_count; i++) {
            const example *e = &examples[i];
            memset(slice, PAINT, SLICE);
            uint64_t number = dorrezubi_run_plan(e->plan, e->plan_length, slice, SLICE);
            if (number != 0 || memcmp(slice, e->listing, e->listing_length) != 0 || slice[e->listing_length] != 0)
                return (void *)e->name;
        }
    return NULL;
}

static int run(int threads, size_t stack) {
    pthread_attr_t attributes;
    pthread_t *started = need(calloc((size_t)threads, sizeof *started));
    pthread_attr_init(&attributes);
    if (pthread_attr_setstacksize(&attributes, stack) != 0) {
        fprintf(stderr, "threads: a stack cannot have %zu bytes\n", stack);
        return 2;
    }
    for (int i = 0; i < threads; i++)
        if (pthread_create(&started[i], &attributes, compare_all, need(malloc(SLICE))) != 0) {
            fprintf(stderr, "threads: a thread cannot be started\n");
            return 1;
        }
    int differs = 0;
    for (int i = 0; i < threads; i++) {
        void *name = NULL;
        pthread_join(started[i], &name);
        if (name)
            printf("threads: DIFFERENCE: %s\n", (const char *)name);
        differs |= name != NULL;
    }
    printf("threads: %d at once, %zu bytes of stack each, %d plans %ld times: %s\n", threads, stack, example_count, rounds, differs ? "not as stored" : "as stored");
    return differs;
}

/* ---- How much stack a call takes. */

typedef struct { const example *e; uint8_t *slice; uint8_t *stack; size_t taken; } probe;

/* What is painted below this frame and is not as painted any more was taken by the call. */
static void *measure_one(void *given) {
    probe *p = given;
    uint8_t *here = __builtin_frame_address(0);
    uint8_t *low = p->stack;
    dorrezubi_run_plan(p->e->plan, p->e->plan_length, p->slice, SLICE);
    while (low < here && *low == PAINT)
        low++;
    p->taken = (size_t)(here - low);
    return NULL;
}

static size_t measured(const example *e) {
    int flags = MAP_PRIVATE | MAP_ANONYMOUS;
    probe p = {.e = e, .slice = need(malloc(SLICE)), .stack = need(mmap(NULL, MEASURED, PROT_READ | PROT_WRITE, flags, -1, 0))};
    pthread_attr_t attributes;
    pthread_t thread;
    memset(p.stack, PAINT, MEASURED);
    pthread_attr_init(&attributes);
    if (pthread_attr_setstack(&attributes, p.stack, MEASURED) != 0 || pthread_create(&thread, &attributes, measure_one, &p) != 0)
        need(NULL);
    pthread_join(thread, NULL);
    munmap(p.stack, MEASURED);
    free(p.slice);
    return p.taken;
}

static int measure(void) {
    size_t most = 0;
    const char *name = "";
    for (int i = 0; i < example_count; i++) {
        size_t taken = measured(&examples[i]);
        if (taken > most) {
            most = taken;
            name = examples[i].name;
        }
    }
    printf("threads: %d plans, at most %zu bytes of stack in a call, by %s\n", example_count, most, name);
    return 0;
}

int main(int count, char **words) {
    if (count > 2 && strcmp(words[1], "measure") == 0) {
        read_examples(count - 2, words + 2, 0);
        return measure();
    }
    if (count > 5 && strcmp(words[1], "run") == 0) {
        rounds = strtol(words[4], NULL, 10);
        read_examples(count - 5, words + 5, 1);
        return run((int)strtol(words[2], NULL, 10), (size_t)strtol(words[3], NULL, 10));
    }
    fprintf(stderr, "usage: threads run THREADS STACK ROUNDS FILE.. | threads measure FILE..\n");
    return 2;
}
