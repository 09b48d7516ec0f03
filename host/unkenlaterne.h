/* The proved coordinator for C. Link libboundary.a, which `rt lib`, run in
   crates/boundary, writes to its folder out.

   Nothing is kept between calls: the state is 2,406 bytes that the caller holds,
   and a call reads it and writes the next one over it. Every 2,406 bytes may be
   handed in. If they are no sound state, the answer is refusal 10 and they stay as
   they are.

   A function returns 0 if it wrote, or 10 if a length was wrong; then it wrote
   nothing. Whether the coordinator refused the call stands in the answer.

   Each pointer comes with the length of what it points to. What is pointed to must
   be as long as said, and no two of a call's slices may overlap: this the library
   cannot test. */
#ifndef UNKENLATERNE_H
#define UNKENLATERNE_H

#include <stddef.h>
#include <stdint.h>

#ifdef __cplusplus
extern "C" {
#endif

enum {
    UNKENLATERNE_STATE = 2406, /* bytes of a state */
    UNKENLATERNE_RECORD = 4,   /* bytes of a record */
    UNKENLATERNE_ANSWER = 80,  /* bytes of an answer */
    UNKENLATERNE_WRONG_LENGTH = 10
};

/* An answer holds these, little endian, and zeros where a call has nothing to say:
   byte  0      refusal number, or 0
   byte  1      ask, confirm: 1 if a step was released
   byte  2, 3   close: how many jobs were closed, 0 if it is held
   byte  4, 5   open: the job's ticket; confirm: whose step was released
   byte  6, 7   open: how many dependencies the search added
   byte  8, 9   open: how many moves it made
   byte 10..15  zeros
   byte 16..79  close: the tickets closed in order, two bytes each */
enum {
    UNKENLATERNE_REFUSAL = 0,
    UNKENLATERNE_RELEASED = 1,
    UNKENLATERNE_CLOSED = 2,
    UNKENLATERNE_TICKET = 4,
    UNKENLATERNE_ADDED = 6,
    UNKENLATERNE_MOVES = 8,
    UNKENLATERNE_TICKETS = 16
};

/* A fresh start whose first ticket is `first`, whatever stood there. */
uint8_t fresh_state(uint8_t *state, size_t state_len, uint16_t first);

/* The four calls. Bit k of the mask names database k. */
uint8_t open_job(uint8_t *state, size_t state_len, uint16_t mask,
                 uint8_t *answer, size_t answer_len);
uint8_t ask_step(uint8_t *state, size_t state_len, uint16_t ticket, uint8_t database,
                 uint8_t *answer, size_t answer_len);
uint8_t confirm_step(uint8_t *state, size_t state_len, uint16_t ticket, uint8_t database,
                     uint8_t *answer, size_t answer_len);
uint8_t close_job(uint8_t *state, size_t state_len, uint16_t ticket,
                  uint8_t *answer, size_t answer_len);

/* Plays whole records, one after another, with an answer for each: answers_len is
   80 times the number of records. A record is its kind (1 open, 2 ask, 3 confirm,
   4 close), a database, and two bytes, low first, of mask or ticket. Another kind
   is answered by refusal 11 and changes nothing. */
uint8_t play_records(uint8_t *state, size_t state_len,
                     const uint8_t *records, size_t records_len,
                     uint8_t *answers, size_t answers_len);

/* How many moves the search of the next opening makes at most: what an opening may
   cost, known beforehand. Gives 4,294,967,295 if the length is wrong. */
uint32_t most_moves(const uint8_t *state, size_t state_len);

#ifdef __cplusplus
}
#endif

#endif
