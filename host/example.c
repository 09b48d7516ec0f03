/* Two jobs at the same two databases. The second is held until the first is done
   there, and its close waits for the first's. Prints what each call answers. */
#include "unkenlaterne.h"

#include <stdio.h>

static uint8_t state[UNKENLATERNE_STATE];
static uint8_t answer[UNKENLATERNE_ANSWER];

static unsigned word(size_t at)
{
    return answer[at] | (unsigned)answer[at + 1] << 8;
}

/* A wrong length is a mistake of this program, a refusal one of its caller. */
static int wrong(uint8_t code)
{
    if (code)
        printf("wrong length\n");
    else if (answer[UNKENLATERNE_REFUSAL])
        printf("refusal %u\n", answer[UNKENLATERNE_REFUSAL]);
    return code || answer[UNKENLATERNE_REFUSAL];
}

static void open_at(uint16_t mask)
{
    printf("open %u, at most %u moves: ", mask, most_moves(state, sizeof state));
    if (!wrong(open_job(state, sizeof state, mask, answer, sizeof answer)))
        printf("ticket %u, added %u, moves %u\n", word(UNKENLATERNE_TICKET),
               word(UNKENLATERNE_ADDED), word(UNKENLATERNE_MOVES));
}

static void ask_at(uint16_t ticket, uint8_t database)
{
    printf("ask %u at %u: ", ticket, database);
    if (!wrong(ask_step(state, sizeof state, ticket, database, answer, sizeof answer)))
        printf(answer[UNKENLATERNE_RELEASED] ? "released\n" : "held\n");
}

static void confirm_at(uint16_t ticket, uint8_t database)
{
    printf("confirm %u at %u: ", ticket, database);
    if (wrong(confirm_step(state, sizeof state, ticket, database, answer, sizeof answer)))
        return;
    if (answer[UNKENLATERNE_RELEASED])
        printf("releases ticket %u\n", word(UNKENLATERNE_TICKET));
    else
        printf("releases none\n");
}

static void close_one(uint16_t ticket)
{
    printf("close %u: ", ticket);
    if (wrong(close_job(state, sizeof state, ticket, answer, sizeof answer)))
        return;
    printf(word(UNKENLATERNE_CLOSED) ? "closes" : "held");
    for (unsigned i = 0; i < word(UNKENLATERNE_CLOSED); i++)
        printf(" %u", word(UNKENLATERNE_TICKETS + 2 * i));
    printf("\n");
}

int main(void)
{
    fresh_state(state, sizeof state, 65535);
    open_at(3);
    open_at(3);
    ask_at(0, 0);
    ask_at(65535, 0);
    confirm_at(65535, 0);
    ask_at(65535, 1);
    confirm_at(65535, 1);
    confirm_at(0, 0);
    ask_at(0, 1);
    confirm_at(0, 1);
    close_one(0);
    close_one(65535);
    ask_at(0, 1);
    return 0;
}
