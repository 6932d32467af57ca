/* qlock_plan.h: plans of coteries, and the quorums that the clients of the voting lock ask, ticket by ticket.

   A call reads texts and writes a text or numbers. Texts are those of the program `qlock` (docs/formats.md): a coterie, as
   `qlock make` writes it and people write it, and a plan, as `qlock plan` and qlock_plan write it. Weights have a text of their
   own, as qlock_weights writes it: a plan is weights whose load is their bound. What a call returns is what the programs print
   for the same texts (this is tested). Each call reads its texts anew, so ask for many tickets at once.

   What each call needs of its caller:

   - No pointer may be null, even for 0 bytes.
   - The blocks of one call may not overlap: the texts may be the same block, but what is written to is a place of its own.

   What each call returns: QLOCK_DONE, or why it was refused. If QLOCK_REFUSED is returned, `out` has the line of the fault and
   `*written` its length, as in `E7 Disjoint 0 1`, with neither a newline nor a zero at its end; `qlock-show explain` says
   what each line means. If another number than QLOCK_DONE and QLOCK_REFUSED is returned, nothing was written.

   Memory comes from malloc, and all of it is given back before a call returns. There is no global, so calls may run at once in
   several threads. So these calls need what malloc needs:

   - one allocator in the whole program, whose blocks are aligned as malloc's are;
   - no call from a signal handler, nor from the forked child of a process with several threads: another thread may have held
     malloc's lock when the process was forked.

   The library is libqlock_plan; docs/embedding.md says how to link it. */
#ifndef QLOCK_PLAN_H
#define QLOCK_PLAN_H
#include "qlock.h"
#ifdef __cplusplus
extern "C" {
#endif

/* What a call returns besides QLOCK_DONE (0), QLOCK_BAD_ARGUMENT (1) and QLOCK_NO_ROOM (4) of qlock.h. */
enum {
    QLOCK_REFUSED = 11,  /* a text has a fault, or no plan was found: `out` has the line of the fault */
    QLOCK_NO_MEMORY = 12 /* malloc gave no memory */
};

/* The orders of tickets. In both, the tickets of whole cycles use each quorum as often as its weight says. */
enum {
    QLOCK_BY_ROUNDS = 0, /* of a plan alone, as `qlock deal`: each quorum of weight 1 or more once, then those of 2 or more once
                            more, and so on */
    QLOCK_EVEN = 1       /* even from the first ticket, whichever it is: qlock_slack says how even */
};

/* The room in `out` that is always enough: for the line of a fault, for the names of voters, and for the text of a plan or of
   weights. */
#define QLOCK_FAULT_OUT 128
#define QLOCK_NAMES_OUT 4160
#define QLOCK_PLAN_OUT 34816

/* How many bytes the mask of a quorum has. */
#define QLOCK_MASK_BYTES 8

/* The most tickets: 2 to the power of 63, numbered from 0. */
#define QLOCK_MAX_TICKETS 9223372036854775808u

/* Writes the names of the voters of a coterie, each with a newline, in the order of their numbers.

   QLOCK_REFUSED    the text describes no coterie
   QLOCK_NO_ROOM    `room` is too small; QLOCK_NAMES_OUT is always enough
   QLOCK_NO_MEMORY  there is no memory */
int32_t qlock_names(const uint8_t *coterie, size_t len, uint8_t *out, size_t room, size_t *written);

/* Finds an optimal plan of a coterie, and writes its text: how often to use each quorum, so that the busiest voter is asked as
   seldom as possible, with the certificate that shows it. Nothing is left to chance, so the same coterie has the same plan each
   time; this is tested, and no contract says it.

   QLOCK_REFUSED    the text describes no coterie, or no plan of it was found (N1 NoPlan)
   QLOCK_NO_ROOM    `room` is too small; QLOCK_PLAN_OUT is always enough
   QLOCK_NO_MEMORY  there is no memory */
int32_t qlock_plan(const uint8_t *coterie, size_t len, uint8_t *out, size_t room, size_t *written);

/* The longest cycle. */
#define QLOCK_MAX_CYCLE 1000000u

/* Finds weights of a coterie with a cycle of at most `most` tickets, and writes their text: that of an optimal plan if one with
   so short a cycle is found, else of weights whose load is near the smallest possible one. The text shows how near: load and
   bound, and no weights of the coterie have a load below the bound. With 1000 tickets the load of the coteries that were tried is
   less than 0.4 % above the bound; no contract says so. If weights 1 of all quorums are at most `most`, the load is at most theirs.

   QLOCK_BAD_ARGUMENT  `most` is not in 1 to QLOCK_MAX_CYCLE
   QLOCK_REFUSED       the text describes no coterie
   QLOCK_NO_ROOM       `room` is too small; QLOCK_PLAN_OUT is always enough
   QLOCK_NO_MEMORY     there is no memory */
int32_t qlock_weights(const uint8_t *coterie, size_t len, uint64_t most, uint8_t *out, size_t room, size_t *written);

/* Checks a plan of a coterie, wherever it is from. Writes its load `*load_p / *load_q`, in lowest terms, and how many tickets
   one cycle has. `*written` is then 0.

   QLOCK_REFUSED    the first text describes no coterie, or the second is not the text of an optimal plan of it
   QLOCK_NO_ROOM    `room` is too small for the line of the fault; QLOCK_FAULT_OUT is always enough
   QLOCK_NO_MEMORY  there is no memory */
int32_t qlock_check(const uint8_t *coterie, size_t len, const uint8_t *plan, size_t plan_len, uint64_t *load_p,
                    uint64_t *load_q, uint64_t *cycle, uint8_t *out, size_t room, size_t *written);

/* Checks weights or a plan of a coterie, wherever they are from. Writes their load `*load_p / *load_q` and their bound
   `*bound_p / *bound_q`, in lowest terms, and how many tickets one cycle has. They are a plan if load and bound are the same.
   `*written` is then 0.

   QLOCK_REFUSED    the first text describes no coterie, or the second is not that of weights or of a plan of it
   QLOCK_NO_ROOM    `room` is too small for the line of the fault; QLOCK_FAULT_OUT is always enough
   QLOCK_NO_MEMORY  there is no memory */
int32_t qlock_check_weights(const uint8_t *coterie, size_t len, const uint8_t *weights, size_t weights_len, uint64_t *load_p,
                            uint64_t *load_q, uint64_t *bound_p, uint64_t *bound_q, uint64_t *cycle, uint8_t *out, size_t room,
                            size_t *written);

/* Fills `masks` with the masks of the quorums of the tickets `first`, `first` + 1 and so on: `bytes` / QLOCK_MASK_BYTES of
   them. A mask is a number of 64 bits, its lowest byte first: bit i is 1 if voter i is a member. It is what qlock_client_ask
   takes. The order is QLOCK_BY_ROUNDS, of a plan alone, or QLOCK_EVEN, of weights too. `*written` is then 0.

   Each call reads both texts, and QLOCK_EVEN also looks for its stride: about a second for 64 voters and a cycle of a million
   tickets. So ask for a whole cycle once, and use it again and again: ticket n has the quorum of ticket n modulo the cycle.

   QLOCK_BAD_ARGUMENT  there is no such order, `bytes` is not a multiple of 8, or a ticket is not below QLOCK_MAX_TICKETS
   QLOCK_REFUSED       the first text describes no coterie, or the second is not that of weights or of a plan of it, or it is
                       not a plan's and the order is by rounds
   QLOCK_NO_ROOM       `room` is too small for the line of the fault; QLOCK_FAULT_OUT is always enough
   QLOCK_NO_MEMORY     there is no memory */
int32_t qlock_quorums(const uint8_t *coterie, size_t len, const uint8_t *weights, size_t weights_len, uint32_t order,
                      uint64_t first, uint8_t *masks, size_t bytes, uint8_t *out, size_t room, size_t *written);

/* Writes the stride of QLOCK_EVEN, and its slack `*excess / *unit`: any n tickets in a row, from any first one, use no voter
   more often than n times the load plus the slack, times the voter's capacity. `*written` is then 0.

   QLOCK_REFUSED    the first text describes no coterie, or the second is not that of weights or of a plan of it
   QLOCK_NO_ROOM    `room` is too small for the line of the fault; QLOCK_FAULT_OUT is always enough
   QLOCK_NO_MEMORY  there is no memory */
int32_t qlock_slack(const uint8_t *coterie, size_t len, const uint8_t *weights, size_t weights_len, uint64_t *stride,
                    uint64_t *excess, uint64_t *unit, uint8_t *out, size_t room, size_t *written);

#ifdef __cplusplus
}
#endif
#endif
