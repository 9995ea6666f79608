/* A host in C: rehearses the plan file that is named and prints its listing. From the root of the repository:
 *
 *   ./release
 *   cc -Wall -Wextra -Werror -I dist/include examples/host.c dist/lib/libdorrezubi.a -o target/host
 *   target/host examples/c1.plan
 *
 * It exits with the number returned: 0 the listing was printed, 37 to 39 it was not (include/dorrezubi.h has them in
 * words); 1 the file cannot be read, 2 no file is named. */
#include "dorrezubi.h"
#include <stdio.h>

/* One byte more than a plan may have, so that a longer file gets 38; a listing and a zero behind it. */
static uint8_t plan[16384 + 1];
static uint8_t listing[DORREZUBI_LISTING_MAX + 1];

static const char *in_words(uint64_t number) {
    switch (number) {
    case DORREZUBI_MALFORMED: return "too short, bytes left over or a set padding bit: 'tools/plan check' says which";
    case DORREZUBI_TOO_LARGE: return "above 16,384 bytes";
    case DORREZUBI_TOO_LONG: return "floor(horizon / least edge lookahead) is above 65,536";
    default: return "listed";
    }
}

int main(int count, char **words) {
    if (count != 2) {
        fprintf(stderr, "usage: host PLAN\n");
        return 2;
    }
    FILE *file = fopen(words[1], "rb");
    if (!file) {
        perror(words[1]);
        return 1;
    }
    size_t length = fread(plan, 1, sizeof plan, file);
    int unread = ferror(file);
    fclose(file);
    if (unread) {
        fprintf(stderr, "%s: cannot be read\n", words[1]);
        return 1;
    }
    uint64_t number = dorrezubi_run_plan(plan, length, listing, sizeof listing);
    if (number == DORREZUBI_LISTED)
        fputs((const char *)listing, stdout);
    else
        fprintf(stderr, "%s: %d, %s\n", words[1], (int)number, in_words(number));
    return (int)number;
}
