/* The host's entry on numbers that it must refuse: the number of document 01's table, and not a byte of the buffer touched. And on numbers that it
 * takes: six bytes, and not a byte beyond. */
#include "cornus.h"

#include <stdio.h>
#include <string.h>

#define ROOM 16
#define UNTOUCHED 0xA5

struct refusal {
    const char *what;
    uint32_t numbers[7]; /* n, own, state, heard, event, detail, record */
    size_t room;
    uint32_t returned;
};

static const struct refusal refusals[] = {
    {"n 0", {0, 1, 0, 0, 3, 0, 0}, 6, CORNUS_OUT_OF_RANGE},
    {"n 33", {33, 1, 0, 0, 3, 0, 0}, 6, CORNUS_OUT_OF_RANGE},
    {"n 258", {258, 1, 0, 0, 3, 0, 0}, 6, CORNUS_OUT_OF_RANGE},
    {"own 0", {2, 0, 0, 0, 3, 0, 0}, 6, CORNUS_OUT_OF_RANGE},
    {"own beyond n", {2, 3, 0, 0, 3, 0, 0}, 6, CORNUS_OUT_OF_RANGE},
    {"own 33", {32, 33, 0, 0, 3, 0, 0}, 6, CORNUS_OUT_OF_RANGE},
    {"n and own 33", {33, 33, 0, 0, 3, 0, 0}, 6, CORNUS_OUT_OF_RANGE},
    {"state 10", {2, 1, 10, 0, 4, 0, 0}, 6, CORNUS_OUT_OF_RANGE},
    {"largest state", {2, 1, UINT32_MAX, 0, 4, 0, 0}, 6, CORNUS_OUT_OF_RANGE},
    {"heard outside state 4", {2, 1, 3, 2, 3, 0, 0}, 6, CORNUS_OUT_OF_RANGE},
    {"heard outside state 4, bit 31", {32, 1, 3, 0x80000000, 3, 0, 0}, 6, CORNUS_OUT_OF_RANGE},
    {"heard full", {3, 1, 4, 6, 3, 0, 0}, 6, CORNUS_OUT_OF_RANGE},
    {"heard beyond n", {3, 1, 4, 8, 3, 0, 0}, 6, CORNUS_OUT_OF_RANGE},
    {"heard with the own bit", {3, 1, 4, 1, 3, 0, 0}, 6, CORNUS_OUT_OF_RANGE},
    {"largest heard", {3, 1, 4, UINT32_MAX, 3, 0, 0}, 6, CORNUS_OUT_OF_RANGE},
    {"heard full of 9", {9, 9, 4, 0xFF, 3, 0, 0}, 6, CORNUS_OUT_OF_RANGE},
    {"heard beyond n, bit 20 of 20", {20, 1, 4, 0x100000, 3, 0, 0}, 6, CORNUS_OUT_OF_RANGE},
    {"heard beyond n, bit 31 of 31", {31, 1, 4, 0x80000000, 3, 0, 0}, 6, CORNUS_OUT_OF_RANGE},
    {"heard with the own bit 31", {32, 32, 4, 0x80000000, 3, 0, 0}, 6, CORNUS_OUT_OF_RANGE},
    {"heard full of 1 among 32", {32, 1, 4, 0xFFFFFFFE, 3, 0, 0}, 6, CORNUS_OUT_OF_RANGE},
    {"heard full of 32 among 32", {32, 32, 4, 0x7FFFFFFF, 3, 0, 0}, 6, CORNUS_OUT_OF_RANGE},
    {"largest heard among 32", {32, 32, 4, UINT32_MAX, 3, 0, 0}, 6, CORNUS_OUT_OF_RANGE},
    {"n 1 in state 4", {1, 1, 4, 0, 3, 0, 0}, 6, CORNUS_OUT_OF_RANGE},
    {"event 0", {2, 1, 0, 0, 0, 0, 0}, 6, CORNUS_OUT_OF_RANGE},
    {"event 7", {2, 1, 0, 0, 7, 0, 0}, 6, CORNUS_OUT_OF_RANGE},
    {"vote 2", {2, 1, 0, 0, 1, 2, 0}, 6, CORNUS_OUT_OF_RANGE},
    {"decision 1", {2, 1, 3, 0, 2, 1, 0}, 6, CORNUS_OUT_OF_RANGE},
    {"decision 4", {2, 1, 3, 0, 2, 4, 0}, 6, CORNUS_OUT_OF_RANGE},
    {"answer of log 0", {2, 1, 1, 0, 6, 0, 1}, 6, CORNUS_OUT_OF_RANGE},
    {"answer of a log beyond n", {2, 1, 1, 0, 6, 3, 1}, 6, CORNUS_OUT_OF_RANGE},
    {"answer of log 33", {32, 1, 4, 0, 6, 33, 1}, 6, CORNUS_OUT_OF_RANGE},
    {"answer none", {2, 1, 1, 0, 6, 1, 0}, 6, CORNUS_OUT_OF_RANGE},
    {"record 4", {2, 1, 1, 0, 6, 1, 4}, 6, CORNUS_OUT_OF_RANGE},
    {"unused detail of a timeout", {2, 1, 0, 0, 3, 1, 0}, 6, CORNUS_OUT_OF_RANGE},
    {"unused record of a request", {2, 1, 0, 0, 1, 1, 1}, 6, CORNUS_OUT_OF_RANGE},
    {"unused record of a crash", {2, 1, 0, 0, 4, 0, 2}, 6, CORNUS_OUT_OF_RANGE},
    {"timeout in state 1", {2, 1, 1, 0, 3, 0, 0}, 6, CORNUS_NOT_DUE},
    {"crash in state 9", {2, 1, 9, 0, 4, 0, 0}, 6, CORNUS_NOT_DUE},
    {"restart in state 0", {2, 1, 0, 0, 5, 0, 0}, 6, CORNUS_NOT_DUE},
    {"answer commit in state 1", {2, 1, 1, 0, 6, 1, 3}, 6, CORNUS_NOT_DUE},
    {"answer yes in state 5", {2, 1, 5, 0, 6, 1, 1}, 6, CORNUS_NOT_DUE},
    {"answer abort in state 5", {2, 1, 5, 0, 6, 1, 2}, 6, CORNUS_NOT_DUE},
    {"answer yes in state 6", {2, 1, 6, 0, 6, 1, 1}, 6, CORNUS_NOT_DUE},
    {"answer commit in state 6", {2, 1, 6, 0, 6, 1, 3}, 6, CORNUS_NOT_DUE},
    {"answer of the own log in state 4", {2, 1, 4, 0, 6, 1, 1}, 6, CORNUS_NOT_DUE},
    {"answer of a heard log", {3, 1, 4, 2, 6, 2, 1}, 6, CORNUS_NOT_DUE},
    {"answer of the heard log 32", {32, 1, 4, 0x80000000, 6, 32, 1}, 6, CORNUS_NOT_DUE},
    {"answer of the own log 32 in state 4", {32, 32, 4, 0, 6, 32, 1}, 6, CORNUS_NOT_DUE},
    {"answer of another's log in state 2", {2, 1, 2, 0, 6, 2, 2}, 6, CORNUS_NOT_DUE},
    {"no room", {2, 1, 0, 0, 3, 0, 0}, 0, CORNUS_TOO_SHORT},
    {"room for one byte", {2, 1, 0, 0, 3, 0, 0}, 1, CORNUS_TOO_SHORT},
    {"room for two bytes", {2, 1, 0, 0, 3, 0, 0}, 2, CORNUS_TOO_SHORT},
    {"room for three bytes", {2, 1, 0, 0, 3, 0, 0}, 3, CORNUS_TOO_SHORT},
    {"room for four bytes", {2, 1, 0, 0, 3, 0, 0}, 4, CORNUS_TOO_SHORT},
    {"room for five bytes", {2, 1, 0, 0, 3, 0, 0}, 5, CORNUS_TOO_SHORT},
    {"room for five bytes among 32", {32, 32, 4, 0x12345678, 6, 1, 1}, 5, CORNUS_TOO_SHORT},
    {"out of range comes before no room", {33, 1, 0, 0, 3, 0, 0}, 0, CORNUS_OUT_OF_RANGE},
    {"not due comes before no room", {2, 1, 1, 0, 3, 0, 0}, 0, CORNUS_NOT_DUE},
};

/* 1 where the entry answers otherwise or touches the buffer. */
static int wrong_refusal(const struct refusal *r)
{
    const uint32_t *k = r->numbers;
    uint8_t out[ROOM];
    uint8_t before[ROOM];

    memset(out, UNTOUCHED, sizeof out);
    memset(before, UNTOUCHED, sizeof before);
    uint32_t returned = cornus_participant_step(k[0], k[1], k[2], k[3], k[4], k[5], k[6], out, r->room);
    if (returned == r->returned && memcmp(out, before, sizeof out) == 0)
        return 0;
    printf("%s: returned %u, expected %u\n", r->what, (unsigned)returned, (unsigned)r->returned);
    return 1;
}

struct answer {
    const char *what;
    uint32_t numbers[7];
    uint8_t written[CORNUS_STEP_BYTES]; /* state, heard mask in four, low byte first, message sent */
};

static const struct answer answers[] = {
    {"a yes vote of 8 among 8", {8, 8, 1, 0, 6, 8, 1}, {3, 0, 0, 0, 0, 2}},
    {"decision abort in state 3", {3, 1, 3, 0, 2, 2, 0}, {6, 0, 0, 0, 0, 0}},
    {"decision commit in state 3", {3, 1, 3, 0, 2, 3, 0}, {5, 0, 0, 0, 0, 0}},
    {"decision abort in state 4, nobody heard", {3, 1, 4, 0, 2, 2, 0}, {6, 0, 0, 0, 0, 0}},
    {"decision commit in state 4, nobody heard", {3, 1, 4, 0, 2, 3, 0}, {5, 0, 0, 0, 0, 0}},
    {"decision abort in state 4, one heard", {3, 1, 4, 2, 2, 2, 0}, {6, 0, 0, 0, 0, 0}},
    {"decision commit in state 4, one heard", {3, 1, 4, 2, 2, 3, 0}, {5, 0, 0, 0, 0, 0}},
    {"decision commit in state 4 of 8 among 8, all but one heard", {8, 8, 4, 126, 2, 3, 0}, {5, 0, 0, 0, 0, 0}},
    {"decision abort in state 0", {3, 1, 0, 0, 2, 2, 0}, {0, 0, 0, 0, 0, 0}},
    {"decision commit in state 1", {3, 1, 1, 0, 2, 3, 0}, {1, 0, 0, 0, 0, 0}},
    {"decision abort in state 2", {3, 1, 2, 0, 2, 2, 0}, {2, 0, 0, 0, 0, 0}},
    {"decision commit in state 2", {3, 1, 2, 0, 2, 3, 0}, {2, 0, 0, 0, 0, 0}},
    {"decision abort in state 5", {3, 1, 5, 0, 2, 2, 0}, {5, 0, 0, 0, 0, 0}},
    {"decision commit in state 9", {3, 1, 9, 0, 2, 3, 0}, {9, 0, 0, 0, 0, 0}},
    {"timeout in state 3, n 1", {1, 1, 3, 0, 3, 0, 0}, {5, 0, 0, 0, 0, 0}},
    {"timeout in state 0, n 9", {9, 1, 0, 0, 3, 0, 0}, {2, 0, 0, 0, 0, 0}},
    {"log 9 of 9 heard", {9, 1, 4, 0, 6, 9, 1}, {4, 0, 1, 0, 0, 0}},
    {"last of 9 heard", {9, 9, 4, 0x7F, 6, 8, 1}, {5, 0, 0, 0, 0, 0}},
    {"an abort of 20 among 20, state 2", {20, 20, 2, 0, 6, 20, 2}, {8, 0, 0, 0, 0, 3}},
    {"last but one of 20 heard", {20, 20, 4, 0x1FFFF, 6, 18, 1}, {4, 0xFF, 0xFF, 0x03, 0, 0}},
    {"last of 20 heard", {20, 20, 4, 0x3FFFF, 6, 19, 1}, {5, 0, 0, 0, 0, 0}},
    {"decision abort in state 4 of 20 among 20, all but one heard", {20, 20, 4, 0x3FFFF, 2, 2, 0}, {6, 0, 0, 0, 0, 0}},
    {"request with vote yes in state 0 of 32 among 32", {32, 32, 0, 0, 1, 1, 0}, {1, 0, 0, 0, 0, 0}},
    {"a yes vote of 32 among 32", {32, 32, 1, 0, 6, 32, 1}, {3, 0, 0, 0, 0, 2}},
    {"log 32 of 32 heard", {32, 1, 4, 0, 6, 32, 1}, {4, 0, 0, 0, 0x80, 0}},
    {"log 2 heard after log 32", {32, 1, 4, 0x80000000, 6, 2, 1}, {4, 0x02, 0, 0, 0x80, 0}},
    {"log 1 heard, four different bytes", {32, 32, 4, 0x12345678, 6, 1, 1}, {4, 0x79, 0x56, 0x34, 0x12, 0}},
    {"last but one of 32 heard", {32, 32, 4, 0x3FFFFFFE, 6, 1, 1}, {4, 0xFF, 0xFF, 0xFF, 0x3F, 0}},
    {"last of 32 heard, bit 31", {32, 1, 4, 0x7FFFFFFE, 6, 32, 1}, {5, 0, 0, 0, 0, 0}},
    {"last of 32 heard, by 32", {32, 32, 4, 0x7FFFFFFE, 6, 1, 1}, {5, 0, 0, 0, 0, 0}},
    {"log 32 answers abort in state 4", {32, 1, 4, 0x12345678, 6, 32, 2}, {6, 0, 0, 0, 0, 0}},
    {"log 32 answers commit in state 4", {32, 1, 4, 0x12345678, 6, 32, 3}, {5, 0, 0, 0, 0, 0}},
    {"request in state 4, bit 31 heard", {32, 1, 4, 0x80000000, 1, 1, 0}, {4, 0, 0, 0, 0x80, 0}},
    {"timeout in state 4, bit 31 heard", {32, 1, 4, 0x80000000, 3, 0, 0}, {4, 0, 0, 0, 0, 0}},
    {"decision commit in state 4, bit 31 heard", {32, 1, 4, 0x80000000, 2, 3, 0}, {5, 0, 0, 0, 0, 0}},
    {"crash in state 4, bit 31 heard", {32, 1, 4, 0x80000000, 4, 0, 0}, {9, 0, 0, 0, 0, 0}},
    {"restart of 32 among 32", {32, 32, 9, 0, 5, 0, 0}, {2, 0, 0, 0, 0, 0}},
};

/* 1 where the entry, lent `room` bytes, refuses, writes other bytes, or writes beyond the six. */
static int wrong_answer(const struct answer *a, size_t room)
{
    const uint32_t *k = a->numbers;
    uint8_t out[ROOM];
    uint8_t expected[ROOM];

    memset(out, UNTOUCHED, sizeof out);
    memset(expected, UNTOUCHED, sizeof expected);
    memcpy(expected, a->written, sizeof a->written);
    uint32_t returned = cornus_participant_step(k[0], k[1], k[2], k[3], k[4], k[5], k[6], out, room);
    if (returned == CORNUS_OK && memcmp(out, expected, sizeof out) == 0)
        return 0;
    printf("%s: returned %u, left", a->what, (unsigned)returned);
    for (size_t i = 0; i < sizeof out; i++)
        printf(" %u", out[i]);
    printf("\n");
    return 1;
}

int main(void)
{
    size_t refusal_count = sizeof refusals / sizeof refusals[0];
    size_t answer_count = sizeof answers / sizeof answers[0];
    int failures = 0;

    for (size_t i = 0; i < refusal_count; i++)
        failures += wrong_refusal(&refusals[i]);
    for (size_t i = 0; i < answer_count; i++) {
        failures += wrong_answer(&answers[i], CORNUS_STEP_BYTES);
        failures += wrong_answer(&answers[i], ROOM);
    }
    printf("host entry: %zu refusals and %zu answers, %d wrong\n", refusal_count, answer_count, failures);
    return failures != 0;
}
