/* Document 01's program over the lean coordinator: records from standard input,
   a line for each to standard output, in large pieces. */
#include "lean.h"

#include <string.h>
#include <unistd.h>

enum { PIECE = 1 << 16, LONGEST_LINE = 20 + 1 + 3 + 1 + 5 + 1 + 5 + 1 };

static char text[PIECE + LONGEST_LINE];
static size_t written;

static int flush(void)
{
    for (size_t done = 0; done < written;) {
        ssize_t some = write(1, text + done, written - done);
        if (some < 0)
            return -1;
        done += some;
    }
    written = 0;
    return 0;
}

static void number(uint64_t value, char after)
{
    char digits[20];
    int count = 0;
    do
        digits[count++] = '0' + value % 10;
    while (value /= 10);
    while (count)
        text[written++] = digits[--count];
    text[written++] = after;
}

static int line(uint64_t index, unsigned refusal, unsigned first, unsigned second)
{
    number(index, ' ');
    number(refusal, ' ');
    number(first, ' ');
    number(second, '\n');
    return written >= PIECE ? flush() : 0;
}

static int print(uint64_t index, uint8_t kind, const struct answer *answer)
{
    unsigned refusal = answer->refusal;
    switch (refusal ? 0 : kind) {
    case 1: return line(index, 0, answer->ticket, answer->moves);
    case 2: return line(index, 0, answer->released, 0);
    case 3: return line(index, 0, answer->released, answer->ticket);
    case 4: return line(index, 0, answer->closed, 0);
    default: return line(index, refusal, 0, 0);
    }
}

int main(void)
{
    static struct state state;
    static uint8_t input[PIECE];
    struct answer answer;
    uint64_t index = 0;
    size_t left = 0; /* bytes of a record that the last piece split */
    ssize_t some;
    while ((some = read(0, input + left, PIECE - left)) > 0) {
        size_t length = left + some, whole = length / 4 * 4;
        for (size_t at = 0; at < whole; at += 4) {
            lean_play(&state, input + at, &answer);
            if (print(index++, input[at], &answer))
                return 1;
        }
        left = length - whole;
        memmove(input, input + whole, left);
    }
    if (some < 0 || (left && line(index, LEFT_OVER, 0, 0)))
        return 1;
    return flush() ? 1 : 0;
}
