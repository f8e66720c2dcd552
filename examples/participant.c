/* A host that steps one participant: through a commit, through a termination after a silent coordinator, through one that the coordinator's decision
 * ends, and through one among twenty. */
#include "cornus.h"

#include <stdio.h>

struct participant {
    uint32_t n;
    uint32_t own;
    uint32_t state;
    uint32_t heard;
};

/* The heard mask stands in four bytes, low byte first. */
static uint32_t heard_in(const uint8_t *out)
{
    return (uint32_t)out[1] | (uint32_t)out[2] << 8 | (uint32_t)out[3] << 16 | (uint32_t)out[4] << 24;
}

/* Steps the participant, keeps its next state and prints what came of the event. */
static void step(struct participant *p, const char *event_name, uint32_t event, uint32_t detail, uint32_t record)
{
    uint8_t out[CORNUS_STEP_BYTES];
    uint32_t refusal = cornus_participant_step(p->n, p->own, p->state, p->heard, event, detail, record, out, sizeof out);

    if (refusal != CORNUS_OK) {
        printf("%s: refused %u\n", event_name, (unsigned)refusal);
        return;
    }
    p->state = out[0];
    p->heard = heard_in(out);
    printf("%s: state %u, heard %u, sends %u\n", event_name, out[0], (unsigned)p->heard, out[5]);
}

static void commit(void)
{
    struct participant p = {.n = 2, .own = 1, .state = CORNUS_WAITING, .heard = 0};

    printf("participant 1 of 2 commits\n");
    step(&p, "request, its vote is yes", CORNUS_REQUEST, CORNUS_VOTE_YES, 0);
    step(&p, "log 1 answers yes", CORNUS_ANSWER, 1, CORNUS_RECORD_YES);
    step(&p, "decision commit", CORNUS_DECISION, CORNUS_RECORD_COMMIT, 0);
    step(&p, "log 1 answers commit", CORNUS_ANSWER, 1, CORNUS_RECORD_COMMIT);
}

static void termination(void)
{
    struct participant p = {.n = 3, .own = 2, .state = CORNUS_WAITING, .heard = 0};

    printf("participant 2 of 3 terminates\n");
    step(&p, "request, its vote is yes", CORNUS_REQUEST, CORNUS_VOTE_YES, 0);
    step(&p, "log 2 answers yes", CORNUS_ANSWER, 2, CORNUS_RECORD_YES);
    step(&p, "timeout", CORNUS_TIMEOUT, 0, 0);
    step(&p, "log 1 answers yes", CORNUS_ANSWER, 1, CORNUS_RECORD_YES);
    step(&p, "log 1 answers again", CORNUS_ANSWER, 1, CORNUS_RECORD_YES);
    step(&p, "log 3 answers yes", CORNUS_ANSWER, 3, CORNUS_RECORD_YES);
    step(&p, "log 2 answers commit", CORNUS_ANSWER, 2, CORNUS_RECORD_COMMIT);
}

static void decision_while_terminating(void)
{
    struct participant p = {.n = 4, .own = 2, .state = CORNUS_WAITING, .heard = 0};

    printf("participant 2 of 4 gets the decision while it terminates\n");
    step(&p, "request, its vote is yes", CORNUS_REQUEST, CORNUS_VOTE_YES, 0);
    step(&p, "log 2 answers yes", CORNUS_ANSWER, 2, CORNUS_RECORD_YES);
    step(&p, "timeout", CORNUS_TIMEOUT, 0, 0);
    step(&p, "log 1 answers yes", CORNUS_ANSWER, 1, CORNUS_RECORD_YES);
    step(&p, "decision commit", CORNUS_DECISION, CORNUS_RECORD_COMMIT, 0);
    step(&p, "log 2 answers commit", CORNUS_ANSWER, 2, CORNUS_RECORD_COMMIT);
}

static void termination_among_twenty(void)
{
    struct participant p = {.n = 20, .own = 20, .state = CORNUS_WAITING, .heard = 0};

    printf("participant 20 of 20 terminates\n");
    step(&p, "request, its vote is yes", CORNUS_REQUEST, CORNUS_VOTE_YES, 0);
    step(&p, "log 20 answers yes", CORNUS_ANSWER, 20, CORNUS_RECORD_YES);
    step(&p, "timeout", CORNUS_TIMEOUT, 0, 0);
    for (uint32_t log = 1; log < p.own; log++) {
        char event_name[32];

        snprintf(event_name, sizeof event_name, "log %u answers yes", (unsigned)log);
        step(&p, event_name, CORNUS_ANSWER, log, CORNUS_RECORD_YES);
    }
    step(&p, "log 20 answers commit", CORNUS_ANSWER, 20, CORNUS_RECORD_COMMIT);
}

int main(void)
{
    commit();
    termination();
    decision_while_terminating();
    termination_among_twenty();
    return 0;
}
