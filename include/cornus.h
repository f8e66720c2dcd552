/* One participant of a Cornus release, stepped by its host; docs/HOST.md says how. All numbers are document 01's, as the requests amend it. */
#ifndef CORNUS_H
#define CORNUS_H

#include <stddef.h>
#include <stdint.h>

#ifdef __cplusplus
extern "C" {
#endif

/*
 * The version of this header and of the archive, which must be the same. Version 1 had no such name, and its step, under the same function name, took
 * n up to 8 and handed back three bytes. A host that needs the six bytes can test for them: #if CORNUS_VERSION < 2 is true where the name is missing.
 */
#define CORNUS_VERSION 2

/* A participant's states. */
#define CORNUS_WAITING 0          /* for the vote request */
#define CORNUS_VOTING_YES 1       /* calls LogOnce(yes) on its own log */
#define CORNUS_CLOSING 2          /* calls LogOnce(abort) on its own log */
#define CORNUS_UNCERTAIN 3        /* has voted yes, waits for the decision */
#define CORNUS_TERMINATING 4      /* calls LogOnce(abort) on each log not heard; the decision may still come */
#define CORNUS_RECORDING_COMMIT 5 /* calls Log(commit) on its own log */
#define CORNUS_RECORDING_ABORT 6  /* calls Log(abort) on its own log */
#define CORNUS_DONE_COMMIT 7      /* has recorded commit */
#define CORNUS_DONE_ABORT 8       /* has recorded abort */
#define CORNUS_DOWN 9             /* crashed, memory lost */

/* Events. */
#define CORNUS_REQUEST 1  /* vote request; detail: the vote */
#define CORNUS_DECISION 2 /* the coordinator's decision, taken in states 3 and 4; detail: its record, abort 2 or commit 3 */
#define CORNUS_TIMEOUT 3
#define CORNUS_CRASH 4
#define CORNUS_RESTART 5
#define CORNUS_ANSWER 6 /* a log's answer to the call pending there; detail: the log, record: what it answers */

/* Votes: the detail of a request. */
#define CORNUS_VOTE_NO 0
#define CORNUS_VOTE_YES 1

/* Log records. */
#define CORNUS_RECORD_YES 1
#define CORNUS_RECORD_ABORT 2
#define CORNUS_RECORD_COMMIT 3

/* Message types. A decision is 4 or 5 as a message, and 3 or 2 as an event's detail, which has the number of its record: commit 3, abort 2. */
#define CORNUS_MESSAGE_REQUEST 1
#define CORNUS_MESSAGE_REPLY_YES 2
#define CORNUS_MESSAGE_REPLY_ABORT 3
#define CORNUS_MESSAGE_COMMIT 4
#define CORNUS_MESSAGE_ABORT 5

/* What a participant sends to the coordinator in a step. */
#define CORNUS_SENDS_NOTHING 0
#define CORNUS_SENDS_REPLY_YES CORNUS_MESSAGE_REPLY_YES
#define CORNUS_SENDS_REPLY_ABORT CORNUS_MESSAGE_REPLY_ABORT

/* What the step returns. */
#define CORNUS_OK 0           /* six bytes written */
#define CORNUS_OUT_OF_RANGE 5 /* a number out of range; the buffer is untouched */
#define CORNUS_TOO_SHORT 6    /* out_len below 6; the buffer is untouched */
#define CORNUS_NOT_DUE 7      /* the event is not due in this state; the buffer is untouched */

/* How many bytes the step writes, for every n. */
#define CORNUS_STEP_BYTES 6

/*
 * One step of participant `own` (1 to n) among n (1 to 32), in `state` with the mask of those `heard`: bit p - 1 means participant p.
 * The mask is 0 outside CORNUS_TERMINATING; there it has nobody beyond n, not `own`, and not all others.
 * Numbers that an event does not use are 0.
 *
 * Returns CORNUS_OK after writing out[0], the next state, out[1] to out[4], the next heard mask, low byte first, and out[5], the message sent or 0.
 * Otherwise it returns a refusal: first CORNUS_OUT_OF_RANGE, then CORNUS_NOT_DUE, then CORNUS_TOO_SHORT.
 * `out` points to `out_len` bytes that nobody else uses during the call, and is not null.
 */
uint32_t cornus_participant_step(uint32_t n, uint32_t own, uint32_t state, uint32_t heard, uint32_t event, uint32_t detail,
                                 uint32_t record, uint8_t *out, size_t out_len);

#ifdef __cplusplus
}
#endif

#endif
