/* Document 01 in lean C: sets of slots in words, kept by database, and the test
   of soundness before every call. */
#ifndef LEAN_H
#define LEAN_H

#include <stddef.h>
#include <stdint.h>

enum { SLOTS = 32, DATABASES = 16 };

/* Bit s of a set stands for slot s. before[k][b]: who goes before b at k. */
struct state {
    uint32_t before[DATABASES][SLOTS];
    uint32_t named[DATABASES];
    uint32_t asked[DATABASES];
    uint32_t released[DATABASES];
    uint32_t confirmed[DATABASES];
    uint16_t tickets[SLOTS];
    uint8_t order[SLOTS];
    uint32_t held;
    uint16_t candidate;
};

/* What a call has to say; the rest is zero. */
struct answer {
    uint8_t refusal;
    uint8_t released;
    uint16_t closed;
    uint16_t ticket;
    uint16_t added;
    uint16_t moves;
    uint16_t tickets[SLOTS]; /* the closed ones, in order, as many as closed */
};

enum { UNKNOWN_KIND = 11, LEFT_OVER = 12 };

/* Play one 4-byte record. Of answer->tickets only the first closed are set. */
void lean_play(struct state *state, const uint8_t record[4], struct answer *answer);

#endif
