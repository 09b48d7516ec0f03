/* The lean coordinator behind the library's C boundary, so that the differential
   program can be run against it too. The layout is little endian, and so must be
   the machine this runs on. */
#include "../unkenlaterne.h"
#include "lean.h"

#include <string.h>

enum { STATE = UNKENLATERNE_STATE, ANSWER = UNKENLATERNE_ANSWER };

/* Copies each part between the state and its bytes, in the layout's order. */
static void parts(struct state *s, uint8_t *bytes, int to_bytes)
{
    struct { void *part; size_t size; } all[] = {
        {s->tickets, sizeof s->tickets},     {&s->held, sizeof s->held},
        {s->order, sizeof s->order},         {s->named, sizeof s->named},
        {s->asked, sizeof s->asked},         {s->released, sizeof s->released},
        {s->confirmed, sizeof s->confirmed}, {s->before, sizeof s->before},
        {&s->candidate, sizeof s->candidate},
    };
    for (size_t at = 0; at < sizeof all / sizeof *all; at++) {
        if (to_bytes)
            memcpy(bytes, all[at].part, all[at].size);
        else
            memcpy(all[at].part, bytes, all[at].size);
        bytes += all[at].size;
    }
}

uint8_t play_records(uint8_t *bytes, size_t bytes_len, const uint8_t *records, size_t records_len,
                     uint8_t *answers, size_t answers_len)
{
    struct state state;
    struct answer answer;
    if (bytes_len != STATE || records_len % 4 || answers_len % ANSWER
        || answers_len / ANSWER != records_len / 4)
        return UNKENLATERNE_WRONG_LENGTH;
    parts(&state, bytes, 0);
    for (size_t at = 0; at < records_len; at += 4, answers += ANSWER) {
        lean_play(&state, records + at, &answer);
        memset(answers, 0, ANSWER);
        memcpy(answers, &answer, 10);
        memcpy(answers + UNKENLATERNE_TICKETS, answer.tickets, 2 * answer.closed);
    }
    parts(&state, bytes, 1);
    return 0;
}

uint8_t fresh_state(uint8_t *bytes, size_t bytes_len, uint16_t first)
{
    struct state state = {.candidate = first};
    if (bytes_len != STATE)
        return UNKENLATERNE_WRONG_LENGTH;
    parts(&state, bytes, 1);
    return 0;
}

static uint8_t call(uint8_t *bytes, size_t bytes_len, uint8_t kind, uint8_t database,
                    uint16_t value, uint8_t *answer, size_t answer_len)
{
    uint8_t record[4] = {kind, database, value & 255, value >> 8};
    return play_records(bytes, bytes_len, record, sizeof record, answer, answer_len);
}

uint8_t open_job(uint8_t *bytes, size_t bytes_len, uint16_t mask, uint8_t *answer,
                 size_t answer_len)
{
    return call(bytes, bytes_len, 1, 0, mask, answer, answer_len);
}

uint8_t ask_step(uint8_t *bytes, size_t bytes_len, uint16_t ticket, uint8_t database,
                 uint8_t *answer, size_t answer_len)
{
    return call(bytes, bytes_len, 2, database, ticket, answer, answer_len);
}

uint8_t confirm_step(uint8_t *bytes, size_t bytes_len, uint16_t ticket, uint8_t database,
                     uint8_t *answer, size_t answer_len)
{
    return call(bytes, bytes_len, 3, database, ticket, answer, answer_len);
}

uint8_t close_job(uint8_t *bytes, size_t bytes_len, uint16_t ticket, uint8_t *answer,
                  size_t answer_len)
{
    return call(bytes, bytes_len, 4, 0, ticket, answer, answer_len);
}

uint32_t most_moves(const uint8_t *bytes, size_t bytes_len)
{
    uint32_t all = 0, set;
    if (bytes_len != STATE)
        return UINT32_MAX;
    for (size_t k = 0; k < DATABASES; k++) {
        memcpy(&set, bytes + 100 + 4 * k, sizeof set);
        all += __builtin_popcount(set);
    }
    return 3 * all;
}
