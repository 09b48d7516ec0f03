#include "lean.h"

static inline int lowest(uint32_t set) { return __builtin_ctz(set); }

static inline uint32_t bit(int slot) { return (uint32_t)1 << slot; }

/* Bit b at place b, so that the compiler can test four rows at once. */
static const uint32_t BIT[SLOTS] = {
    1u << 0,  1u << 1,  1u << 2,  1u << 3,  1u << 4,  1u << 5,  1u << 6,  1u << 7,
    1u << 8,  1u << 9,  1u << 10, 1u << 11, 1u << 12, 1u << 13, 1u << 14, 1u << 15,
    1u << 16, 1u << 17, 1u << 18, 1u << 19, 1u << 20, 1u << 21, 1u << 22, 1u << 23,
    1u << 24, 1u << 25, 1u << 26, 1u << 27, 1u << 28, 1u << 29, 1u << 30, 1u << 31,
};

static int tickets_differ(const struct state *s, uint32_t open)
{
    /* Tickets with different low bytes differ; if two share one, look at all. */
    uint64_t low[4] = {0, 0, 0, 0}, shared = 0;
    for (uint32_t left = open; left; left &= left - 1) {
        unsigned ticket = s->tickets[lowest(left)];
        shared |= low[ticket / 64 % 4] >> ticket % 64 & 1;
        low[ticket / 64 % 4] |= (uint64_t)1 << ticket % 64;
    }
    if (!shared)
        return 1;
    for (uint32_t left = open; left; left &= left - 1)
        for (uint32_t later = left & (left - 1); later; later &= later - 1)
            if (s->tickets[lowest(left)] == s->tickets[lowest(later)])
                return 0;
    return 1;
}

static int slots_are_sound(const struct state *s, uint32_t open)
{
    int count = __builtin_popcount(open);
    uint32_t seen = 0;
    for (int place = 0; place < count; place++) {
        if (s->order[place] >= SLOTS)
            return 0;
        seen |= bit(s->order[place]);
    }
    /* As many entries as open slots: equal sets leave no room for a repeat. */
    if (seen != open)
        return 0;
    for (int place = count; place < SLOTS; place++)
        if (s->order[place])
            return 0;
    for (uint32_t free = ~open; free; free &= free - 1)
        if (s->tickets[lowest(free)])
            return 0;
    return tickets_differ(s, open);
}

static int dependencies_are_sound(const struct state *s)
{
    for (int k = 0; k < DATABASES; k++) {
        uint32_t named = s->named[k], stray = 0;
        const uint32_t *before = s->before[k];
        for (int slot = 0; slot < SLOTS; slot++)
            stray |= before[slot] & (named & BIT[slot] ? ~named | BIT[slot] : ~(uint32_t)0);
        if (stray)
            return 0;
        uint32_t under_way = s->released[k] & ~s->confirmed[k];
        if (!under_way)
            continue;
        for (uint32_t left = named & ~s->released[k]; left; left &= left - 1)
            if (under_way & ~before[lowest(left)])
                return 0;
    }
    return 1;
}

/* The state's soundness, and its open slots. */
static int sound(const struct state *s, uint32_t *open)
{
    uint32_t all = 0, stray = 0;
    for (int k = 0; k < DATABASES; k++) {
        all |= s->named[k];
        stray |= s->confirmed[k] & ~s->released[k];
        stray |= s->released[k] & ~s->asked[k];
        stray |= s->asked[k] & ~s->named[k];
        stray |= s->held & s->named[k] & ~s->confirmed[k];
    }
    *open = all;
    return !(stray | (s->held & ~all)) && slots_are_sound(s, all) && dependencies_are_sound(s);
}

static int slot_of(const struct state *s, uint32_t open, uint16_t ticket)
{
    for (; open; open &= open - 1)
        if (s->tickets[lowest(open)] == ticket)
            return lowest(open);
    return -1;
}

struct search {
    const struct state *s;
    uint16_t masks[SLOTS];
    uint16_t looked[SLOTS]; /* databases that some visit of the job looks through */
    int new;
    uint32_t reached[DATABASES];
    uint32_t found[DATABASES];
    unsigned moves;
};

static void visit(struct search *search, int job, uint32_t through)
{
    const struct state *s = search->s;
    uint32_t databases = search->masks[job] & ~search->looked[job] & ~through;
    search->looked[job] |= databases;
    for (uint32_t us = databases; us; us &= us - 1) {
        int u = lowest(us);
        uint32_t left = s->named[u] & ~search->reached[u] & ~bit(job);
        while (left) {
            int other = lowest(left);
            left &= left - 1;
            if (s->before[u][other] & bit(job))
                continue;
            if (other == search->new) {
                search->moves++;
                search->found[u] |= bit(job);
                continue;
            }
            search->moves += 2; /* forward, and the return that will follow */
            search->reached[u] |= bit(other);
            visit(search, other, (uint32_t)1 << u);
            left &= ~search->reached[u];
        }
    }
}

static void open_job(struct state *s, uint16_t mask, struct answer *answer)
{
    uint32_t open, met = 0;
    if (!sound(s, &open)) { answer->refusal = 10; return; }
    if (!mask) { answer->refusal = 1; return; }
    if (!~open) { answer->refusal = 2; return; }
    int new = lowest(~open);
    uint16_t ticket = s->candidate;
    while (slot_of(s, open, ticket) >= 0)
        ticket++;
    s->candidate = ticket + 1;
    s->tickets[new] = answer->ticket = ticket;
    s->order[__builtin_popcount(open)] = new;
    for (uint32_t left = mask; left; left &= left - 1) {
        int k = lowest(left);
        met |= s->named[k];
        s->before[k][new] = s->released[k];
        s->named[k] |= bit(new);
    }
    if (!met)
        return;
    struct search search = {.s = s, .new = new};
    for (int k = 0; k < DATABASES; k++)
        for (uint32_t left = s->named[k]; left; left &= left - 1)
            search.masks[lowest(left)] |= 1u << k;
    visit(&search, new, 0);
    for (uint32_t left = mask; left; left &= left - 1) {
        int k = lowest(left);
        s->before[k][new] |= search.found[k];
        answer->added += __builtin_popcount(search.found[k]);
    }
    answer->moves = search.moves;
}

static int step(const struct state *s, uint16_t ticket, uint8_t database, struct answer *answer)
{
    uint32_t open;
    if (!sound(s, &open)) { answer->refusal = 10; return -1; }
    int slot = slot_of(s, open, ticket);
    if (slot < 0) answer->refusal = 3;
    else if (database >= DATABASES) answer->refusal = 4;
    else if (!(s->named[database] & bit(slot))) answer->refusal = 5;
    return answer->refusal ? -1 : slot;
}

static inline int may_go(const struct state *s, int slot, int k)
{
    return !(s->before[k][slot] & ~s->confirmed[k]);
}

static void release(struct state *s, int slot, int k)
{
    s->released[k] |= bit(slot);
    for (uint32_t left = s->named[k] & ~s->released[k]; left; left &= left - 1)
        s->before[k][lowest(left)] |= bit(slot);
}

static void ask(struct state *s, uint16_t ticket, uint8_t k, struct answer *answer)
{
    int slot = step(s, ticket, k, answer);
    if (slot < 0)
        return;
    if (s->asked[k] & bit(slot)) { answer->refusal = 6; return; }
    s->asked[k] |= bit(slot);
    if (may_go(s, slot, k)) {
        release(s, slot, k);
        answer->released = 1;
    }
}

static void confirm(struct state *s, uint16_t ticket, uint8_t k, struct answer *answer)
{
    int slot = step(s, ticket, k, answer);
    if (slot < 0)
        return;
    if (!(s->released[k] & ~s->confirmed[k] & bit(slot))) { answer->refusal = 7; return; }
    s->confirmed[k] |= bit(slot);
    for (uint32_t left = s->asked[k] & ~s->released[k]; left; left &= left - 1)
        if (may_go(s, lowest(left), k)) {
            release(s, lowest(left), k);
            answer->released = 1;
            answer->ticket = s->tickets[lowest(left)];
            return;
        }
}

static int may_close(const struct state *s, int slot)
{
    uint32_t before = 0;
    for (int k = 0; k < DATABASES; k++)
        before |= s->before[k][slot];
    return !before;
}

static void remove_job(struct state *s, int slot)
{
    for (int k = 0; k < DATABASES; k++) {
        if (!(s->named[k] & bit(slot)))
            continue;
        s->named[k] &= ~bit(slot);
        s->asked[k] &= ~bit(slot);
        s->released[k] &= ~bit(slot);
        s->confirmed[k] &= ~bit(slot);
        s->before[k][slot] = 0;
        for (uint32_t left = s->named[k]; left; left &= left - 1)
            s->before[k][lowest(left)] &= ~bit(slot);
    }
    s->tickets[slot] = 0;
    s->held &= ~bit(slot);
    int place = 0;
    while (s->order[place] != slot)
        place++;
    for (; place < SLOTS - 1; place++)
        s->order[place] = s->order[place + 1];
    s->order[SLOTS - 1] = 0;
}

static void close_job(struct state *s, uint16_t ticket, struct answer *answer)
{
    uint32_t open, unconfirmed = 0;
    if (!sound(s, &open)) { answer->refusal = 10; return; }
    int slot = slot_of(s, open, ticket);
    if (slot < 0) { answer->refusal = 3; return; }
    for (int k = 0; k < DATABASES; k++)
        unconfirmed |= s->named[k] & ~s->confirmed[k];
    if (unconfirmed & bit(slot)) { answer->refusal = 8; return; }
    if (s->held & bit(slot)) { answer->refusal = 9; return; }
    if (!may_close(s, slot)) { s->held |= bit(slot); return; }
    while (slot >= 0) {
        answer->tickets[answer->closed++] = s->tickets[slot];
        remove_job(s, slot);
        slot = -1;
        for (uint32_t left = s->held; left && slot < 0; left &= left - 1)
            if (may_close(s, lowest(left)))
                slot = lowest(left);
    }
}

void lean_play(struct state *state, const uint8_t record[4], struct answer *answer)
{
    uint16_t word = record[2] | record[3] << 8;
    answer->refusal = answer->released = 0;
    answer->closed = answer->ticket = answer->added = answer->moves = 0;
    switch (record[0]) {
    case 1: open_job(state, word, answer); break;
    case 2: ask(state, word, record[1], answer); break;
    case 3: confirm(state, word, record[1], answer); break;
    case 4: close_job(state, word, answer); break;
    default: answer->refusal = UNKNOWN_KIND;
    }
}
