/* Prints names of seven letters that the kit hashes like a given name: a hashed table looks for all of them at one place.
 * The hash is FoldHasher of the kit, whose seed is fixed. For tests only:
 *
 *     cc -O2 -o colliding_names colliding_names.c
 *     ./colliding_names NAME COUNT
 */
#include <stdint.h>
#include <stdio.h>
#include <stdlib.h>
#include <string.h>

enum { LENGTH = 7, FIRST = 26, OTHERS = 37 };

static const char LETTERS[] = "abcdefghijklmnopqrstuvwxyz0123456789_";
static const uint64_t SEED = 0x243f6a8885a308d3, MULTIPLIER = 0x9e3779b97f4a7c15;
/* What a table of 4,609 to 9,216 names looks at: 10 bits for the place, and 8 before it compares a name. */
static const uint32_t LOOKED_AT = 0xff0003ff;

static char name[LENGTH + 1];
static uint32_t wanted;
static long left;

static uint64_t folded(uint64_t state, uint64_t factor) {
    unsigned __int128 product = (unsigned __int128)state * factor;
    return (uint64_t)product ^ (uint64_t)(product >> 64);
}

static uint64_t with_length(uint64_t length) {
    return folded(SEED ^ length, MULTIPLIER ^ 16);
}

static uint64_t with_letter(uint64_t state, char letter) {
    return folded(state ^ (uint64_t)letter * 0x10101, MULTIPLIER ^ 2);
}

static uint32_t looked_at(uint64_t state) {
    return (uint32_t)(state ^ state >> 32) & LOOKED_AT;
}

/* Tries all letters at a place and after it. */
static void search(uint64_t state, int place) {
    for (int at = 0; left && at < (place ? OTHERS : FIRST); at++) {
        uint64_t longer = with_letter(state, LETTERS[at]);
        name[place] = LETTERS[at];
        if (place < LENGTH - 1) {
            search(longer, place + 1);
        } else if (looked_at(longer) == wanted) {
            puts(name);
            left--;
        }
    }
}

int main(int count, char **words) {
    if (count != 3) return 2;
    uint64_t state = with_length(strlen(words[1]));
    for (const char *letter = words[1]; *letter; letter++) state = with_letter(state, *letter);
    wanted = looked_at(state);
    left = atol(words[2]);
    search(with_length(LENGTH), 0);
    return left != 0;
}
