/* qlock.h: the voter and the client of the voting lock, the guard of what the lock protects; of a voter the row of a client's number,
   a lock with the rows that may speak about it, and the lease clock; and the headers and the lines of control of a service's
   messages.

   A voter, a client, a guard, a row or a lease clock is a block of bytes of the caller's, its state. A call reads the state, and writes the new one
   in its place. There are no other objects: nothing to free, no memory from malloc, no global, and calls on different states
   may run at once. Messages are lines of text. docs/embedding.md has the loop of a voter and of a client.

   What each call needs of its caller:

   - No pointer may be null, even for 0 bytes.
   - The blocks of one call may not overlap: `state`, `line`, `out`, `written` and so on are different places.
   - Each length is that of its block, and no block is longer than an address space holds.
   - One state belongs to one process, and to one call at a time. Two processes with one voter's state break the lock, and so
     does an older copy.
   - Save, then send: write the new state where it survives a crash before any line of `out` leaves, and before the work of a
     client that entered begins. A reminder counts too: if the state changed since it was saved, save it before the reminder's
     lines leave. (A client that starts anew after each crash saves a clock only: qlock_client_anew. A voter
     that forgets at each start saves only if qlock_voter_must_save says so.)
   - A state is made once by qlock_voter_new or qlock_client_new. Where it is lost, these break the lock. There is
     qlock_client_anew, which lets no two clients in. And there is qlock_voter_reborn, after which two clients may be inside and
     only the guard's word counts.
   - `*written` and the like have their values after the call: `send(out, written)` is a statement of its own.

   The calls take no memory and keep nothing, so they may be used in a signal handler and after fork, as far as the rules above
   hold there.

   What each call returns: QLOCK_DONE, or why it was refused. A call that was refused has written nothing.

   A state is the same bytes on every machine, so it may be moved. It is checked when it is read, but a changed byte can give
   another state that is in order: keep a checksum beside it. */
#ifndef QLOCK_H
#define QLOCK_H
#include <stddef.h>
#include <stdint.h>
#ifdef __cplusplus
extern "C" {
#endif

/* The version of these headers: the major version times 10,000, the minor one times 100, and the patch. Before 1.0.0 a minor
   version may change calls. */
#define QLOCK_VERSION 200

/* Returns the version of the library, in the same form. */
uint32_t qlock_version(void);

/* How many bytes the state of a voter, of a client, of a guard, of a row, of a lease clock, of a peer and of a start has. */
#define QLOCK_VOTER_BYTES 1104
#define QLOCK_CLIENT_BYTES 1104
#define QLOCK_FENCE_BYTES 520
#define QLOCK_ROW_BYTES 48
#define QLOCK_TABLE_BYTES 3072 /* a row for each of 64 numbers, one after the other */
#define QLOCK_CLOCK_BYTES 304
#define QLOCK_BUCKET_BYTES 40 /* a token bucket */
#define QLOCK_PEER_BYTES 56  /* what a voter keeps of the voter of a place */
#define QLOCK_START_BYTES 80 /* the start of a voter */
#define QLOCK_LEASE_BYTES 40 /* what a session knows of a voter */
#define QLOCK_VOTE_BYTES 72  /* what a session has of a voter for a lock */
#define QLOCK_STAMPS_BYTES 32 /* under which stamps a session may ask a voter */
#define QLOCK_CLAIM_BYTES 40 /* what a session keeps of its claims of a number */
#define QLOCK_CALLS_BYTES 56 /* the calls of a process for a lock */
#define QLOCK_VOTES_BYTES 4608  /* a vote of each of 64 voters for a lock, one after the other */
#define QLOCK_LEASES_BYTES 2560 /* a lease of each of 64 voters, one after the other */
#define QLOCK_ALL_STAMPS_BYTES 2048 /* a session's stamps at each of 64 voters, one after the other */

/* How many bytes the pass has that a client shows to a guard. */
#define QLOCK_PASS_BYTES 512

/* The room that is always enough for the lines of a call: at most 3 lines of a voter, and 128 of a client. */
#define QLOCK_VOTER_OUT 240
#define QLOCK_CLIENT_OUT 4864

/* How many words a header has that was read, a line of control of a client, one of a voter, one of a lock, and a line that was cut
   off. */
#define QLOCK_HEADER_WORDS 13
#define QLOCK_CLIENT_WORDS 4
#define QLOCK_VOTER_WORDS 7
#define QLOCK_LOCK_WORDS 5
#define QLOCK_LINE_WORDS 3

/* The room that is always enough for the line of a header, and for a line of control. */
#define QLOCK_LINE_OUT 320

/* There are at most 64 voters and 64 clients, numbered from 0. */
#define QLOCK_MAX_VOTERS 64
#define QLOCK_MAX_CLIENTS 64

/* The greatest limit of stamps and of grants: 2 to the power of 62. */
#define QLOCK_MAX_STAMP 4611686018427387904

/* What a call returns. */
enum {
    QLOCK_DONE = 0,
    QLOCK_BAD_ARGUMENT = 1, /* a number or the length of a pass is out of range, the mask of a quorum is 0, or there are none */
    QLOCK_BAD_STATE = 2,    /* the bytes are no saved voter, client, guard, row, lease clock, token bucket, peer, start, lease, vote, stamps, claim, calls or lock of a session, or not as many as it has */
    QLOCK_BAD_MESSAGE = 3,  /* the line is no message to this voter or client, or the bytes begin with no header, or with no line, or are no line of control */
    QLOCK_NO_ROOM = 4,      /* `out` is too short for the lines */
    QLOCK_BUSY = 5,         /* C1: the client is asking already, or is inside; or a call has the lock under its request */
    QLOCK_NOT_INSIDE = 6,   /* C2: the client is not inside */
    QLOCK_NOT_ASKING = 7,   /* C3: the client is not asking */
    QLOCK_STAMPS_SPENT = 8, /* C4: the client's clock has reached the limit, so no stamp is left for a request */
    QLOCK_GRANTS_SPENT = 9, /* V1: the message needs a new grant, and the voter has given as many as its limit */
    QLOCK_OLDER_GRANT = 10, /* the guard saw a newer grant of some voter before */
    QLOCK_NO_PASS = 13,     /* what is shown to the guard has no grant, so it is no pass (11 and 12: qlock_plan.h) */
    QLOCK_TURNS_SPENT = 14, /* the guard has given the turn 2 to the power of 64 - 1 */
    QLOCK_OLD_EPOCH = 15,   /* the claim's epoch is not above the row's */
    QLOCK_FAR_EPOCH = 16,   /* the claim's epoch is too far above the row's */
    QLOCK_IN_USE = 17,      /* another session has the number, and is not silent */
    QLOCK_NOT_OWNER = 18,   /* the number is not this session's under this epoch */
    QLOCK_EPOCHS_SPENT = 19, /* the row has the epoch 2 to the power of 64 - 1 */
    QLOCK_PLACE = 20,        /* another voter has the place */
    QLOCK_OLDER = 21,        /* the process is of an older copy of the state, or another process has a copy of it */
    QLOCK_TOKENS_SPENT = 22  /* the token bucket has fewer tokens */
};

/* What comes of the voters that keep a ceiling (qlock_start_turn). */
enum {
    QLOCK_WAITS = 0,         /* nothing: they are too few, or there is nothing to wait for */
    QLOCK_ASKS_AGAIN = 1,    /* one of them knew of a higher ceiling, so it asks for another one */
    QLOCK_SERVES = 2,        /* it serves from now on */
    QLOCK_SERVES_QUIETLY = 3,/* it serves from now on, and has to be quiet at first: its state may be an older copy */
    QLOCK_RAISES = 4         /* it serves already, and the ceiling is raised */
};

/* What a client is doing. */
enum {
    QLOCK_IDLE = 0,   /* it wants nothing */
    QLOCK_ASKING = 1, /* it asked a quorum, and waits for votes */
    QLOCK_INSIDE = 2  /* it has the vote of each member of its quorum: it has the lock */
};

/* The places of the words of a header. A name is at its place in the message, `.._LEN` bytes long. */
enum {
    QLOCK_HEADER_KIND = 0,    /* who sends it: a client 'c', a voter 'v', or an operator 'o' */
    QLOCK_HEADER_NUMBER = 1,  /* of a client or a voter, 0 to 63; this and the next three are 0 of an operator */
    QLOCK_HEADER_FIRST = 2,   /* the epoch of a client's session; the run of a voter */
    QLOCK_HEADER_SECOND = 3,  /* what a session has reserved; the start of a voter */
    QLOCK_HEADER_THIRD = 4,   /* which message of a session it is; the lapses of a voter */
    QLOCK_HEADER_LEVEL = 5,   /* 0 if the header says none */
    QLOCK_HEADER_CLUSTER = 6, /* where the cluster's name is */
    QLOCK_HEADER_CLUSTER_LEN = 7,
    QLOCK_HEADER_COTERIE = 8, /* where the mark of its coterie is */
    QLOCK_HEADER_COTERIE_LEN = 9,
    QLOCK_HEADER_NAME = 10,   /* where the name of the session or of the question, or the voter's identity is */
    QLOCK_HEADER_NAME_LEN = 11,
    QLOCK_HEADER_LINES = 12   /* where the lines behind the header begin */
};

/* What a client says in a line of control: its kind, the number of a client, and two words. */
enum {
    QLOCK_SAYS_UNKNOWN = 0, /* a line of which the first word is none of these: ignore it */
    QLOCK_HELLO = 1,        /* hello */
    QLOCK_PLAN = 2,         /* plan */
    QLOCK_OPEN = 3,         /* open FIRST: the oldest plan of which the session has a request */
    QLOCK_CLOSE = 4,        /* close */
    QLOCK_CLAIM = 5,        /* claim NUMBER FIRST: an epoch, from 1 */
    QLOCK_CLAIM_STAMPS = 6, /* claim NUMBER FIRST SECOND: an epoch, from 1, and how many stamps */
    QLOCK_DROP = 7,         /* drop NUMBER FIRST: an epoch, from 1 */
    QLOCK_GREET = 8         /* greet */
};

/* What a voter says in a line of control: its kind, the number of a client, or of a voter for `run`, and five words. FIRST is an epoch, except
   of `quiet` and `run`. */
enum {
    QLOCK_NUMBER = 1,   /* number NUMBER FIRST SECOND: 0 taken, 1 free, 2 silent */
    QLOCK_CLAIMED = 2,  /* claimed NUMBER FIRST SECOND THIRD: the base, and what is reserved */
    QLOCK_DENIED = 3,   /* refused NUMBER FIRST */
    QLOCK_OPENED = 4,   /* opened NUMBER FIRST SECOND THIRD FOURTH FIFTH: the base, what is reserved, which heartbeat, how many requests */
    QLOCK_CLOSED = 5,   /* closed NUMBER FIRST */
    QLOCK_TAKEN = 6,    /* taken NUMBER FIRST */
    QLOCK_UNKNOWN = 7,  /* unknown NUMBER FIRST */
    QLOCK_QUIET = 8,    /* quiet FIRST: for how many milliseconds */
    QLOCK_LEAVING = 9,  /* leaving */
    QLOCK_GREETED = 10, /* greeted */
    QLOCK_RUN = 11      /* run NUMBER FIRST: the newest run of a voter that is known, which was made again after it lost its state */
};

/* What a voter says of a lock, in the form of its line. */
enum {
    QLOCK_LOCK_GONE = 1, /* gone LOCK STAMP: it let the request go */
    QLOCK_LOCK_FULL = 2, /* full LOCK STAMP: it has no room for the lock */
    QLOCK_LOCK_HELD = 3  /* held LOCK STAMP TIME: somebody else has had the vote for so many milliseconds */
};

/* Which words such a line has that was read. */
enum {
    QLOCK_LOCK_KIND = 0,
    QLOCK_LOCK_STAMP = 1,
    QLOCK_LOCK_TIME = 2,    /* 0 if it has none */
    QLOCK_LOCK_NAME = 3,    /* where the lock's name is */
    QLOCK_LOCK_NAME_LEN = 4
};

/* Which words a line has that was cut off. Its name begins at 0, and what is behind the space one byte behind the name. */
enum {
    QLOCK_LINE_NAME_LEN = 0, /* of the lock's name, or 1: the dot of control */
    QLOCK_LINE_LEN = 1,      /* of what is behind the space */
    QLOCK_LINE_REST = 2      /* where the text behind the newline begins */
};

/* ---- A voter: it has one vote, and grants it to one client at a time. `n` is always QLOCK_VOTER_BYTES. */

/* Makes a new voter with the number `id`, 0 to 63. No grant of it has a number above `limit`, 1 to QLOCK_MAX_STAMP. QLOCK_MAX_STAMP is a
   good limit, unless lost voters are to be reborn. A voter is made once: this call in place of one that was lost breaks the lock (see qlock_voter_reborn).

   QLOCK_BAD_ARGUMENT  `id` or `limit` is out of range
   QLOCK_BAD_STATE     `n` is not QLOCK_VOTER_BYTES */
int32_t qlock_voter_new(uint8_t id, uint64_t limit, uint8_t *state, size_t n);

/* Takes a message: one line of `len` bytes, without its newline. Writes the replies to `out`, each line with its newline, and
   how many bytes they have to `*written`, 0 if there is no reply. The second number in a reply's line is the client that it
   is for. Messages may be lost, repeated and late: the voter bears it.

   QLOCK_BAD_STATE     the bytes are no voter
   QLOCK_BAD_MESSAGE   the line is not REQUEST, RELINQUISH or RELEASE to this voter; drop it
   QLOCK_GRANTS_SPENT  the message needs a new grant, and none is left
   QLOCK_NO_ROOM       `room` is too small; QLOCK_VOTER_OUT is always enough */
int32_t qlock_voter_take(uint8_t *state, size_t n, const uint8_t *line, size_t len, uint8_t *out, size_t room,
                         size_t *written);

/* Writes what to send to the holder of the vote again, in case messages were lost: at most two lines, none if the vote is
   free. A timer calls this. The state stays as it is.

   QLOCK_BAD_STATE  the bytes are no voter
   QLOCK_NO_ROOM    `room` is too small; QLOCK_VOTER_OUT is always enough */
int32_t qlock_voter_remind(const uint8_t *state, size_t n, uint8_t *out, size_t room, size_t *written);

/* Writes who has the vote: the client, the stamp of its request, and the number of the grant, which counts the voter's grants
   from 1. All three are 0 if the vote is free, so look at `*grant`.

   QLOCK_BAD_STATE  the bytes are no voter */
int32_t qlock_voter_held(const uint8_t *state, size_t n, uint64_t *client, uint64_t *stamp, uint64_t *grant);

/* Makes a voter that lost its state, in place of qlock_voter_new. Its grants have numbers above `above`, up to
   `limit`, 1 to QLOCK_MAX_STAMP. If it gave a grant above `above` before, two clients may have one grant number, and a guard can't
   tell them apart. So make each voter with a limit far below QLOCK_MAX_STAMP, a block of grants, and note the blocks in the
   settings of the cluster: a lost voter is reborn with `above` at the end of its last block, and with the next block. Two clients
   may be inside until all of them are idle at one moment, as they are and as saved: until then only the guard's word counts. A vote
   that nobody has is different: it may be dropped, and begun again by this call, at any time.

   QLOCK_BAD_ARGUMENT  `id` or `limit` is out of range, or `above` is greater than `limit`
   QLOCK_BAD_STATE     `n` is not QLOCK_VOTER_BYTES */
int32_t qlock_voter_reborn(uint8_t id, uint64_t above, uint64_t limit, uint8_t *state, size_t n);

/* Raises the highest number that a grant of the voter may have. Note the new block in the settings before.

   QLOCK_BAD_ARGUMENT  `limit` is below the voter's limit, or above QLOCK_MAX_STAMP
   QLOCK_BAD_STATE     the bytes are no voter */
int32_t qlock_voter_extend(uint8_t *state, size_t n, uint64_t limit);

/* Skips the numbers up to `above`: each later grant has a greater one. A grant that is held stays, and so does the limit. This is
   for a voter that goes on above a number that others know, and keeps its grant. One that is reborn loses its grant.

   QLOCK_BAD_ARGUMENT  `above` is below the number of grants, or above the voter's limit
   QLOCK_BAD_STATE     the bytes are no voter */
int32_t qlock_voter_raise(uint8_t *state, size_t n, uint64_t above);

/* Lets the current grant go if it has the number `grant`, as a RELEASE of its client would; any other number does nothing.
   Writes the replies, as qlock_voter_take does. This is a lease: for a client that died or stands still. The client may still
   believe that it is inside, so only the guard's word counts. Go by the number of a grant that has lasted too long
   (qlock_voter_held), while others wait.

   QLOCK_BAD_STATE     the bytes are no voter
   QLOCK_GRANTS_SPENT  a request waits, and no grant is left for it
   QLOCK_NO_ROOM       `room` is too small; QLOCK_VOTER_OUT is always enough */
int32_t qlock_voter_evict(uint8_t *state, size_t n, uint64_t grant, uint8_t *out, size_t room, size_t *written);

/* Writes what the voter knows of a client, 0 to 63: the stamp of its request that has the vote or waits, 0 if there is none; the
   highest stamp of its requests that are finished; and the highest stamp that the voter saw of anybody. A client may
   stop for good once each voter that it asked shows its last stamp as finished, and no request. A voter that forgets or is reborn
   may grant an old REQUEST all the same. A client that is asking or inside, and whose stamp is finished, was let go.

   QLOCK_BAD_ARGUMENT  `client` is out of range
   QLOCK_BAD_STATE     the bytes are no voter */
int32_t qlock_voter_knows(const uint8_t *state, size_t n, uint8_t client, uint64_t *stamp, uint64_t *finished, uint64_t *seen);

/* Forgets all but the least that has to survive a crash: the grant that holds the vote, and the number of grants. The number and
   the limit of the voter stay. The clients' reminders bring the waiting requests back. Which requests are finished is forgotten
   too, so an old REQUEST that comes late may get a grant again; its client gives it back, or a lease ends it. Sends nothing.

   A service may call this on what it reads at each start. Then it saves less: see qlock_voter_must_save.

   QLOCK_BAD_STATE  the bytes are no voter */
int32_t qlock_voter_forget(uint8_t *state, size_t n);

/* Writes 1 to `*yes` if a voter that was saved as the `n` bytes of `saved`, and is now the `m` bytes of `live`, has to be saved
   before the lines of the calls in between leave, and 0 if not. This is for a service that calls qlock_voter_forget at each
   start: it has to save if the grant, the number of grants, the number or the limit of the voter changed, and for nothing else. So
   a FAIL needs no save. `saved` stays what was saved last, also if saves were left out since. A service that goes on from
   all that it saved saves each time.

   QLOCK_BAD_STATE  some bytes are no voter */
int32_t qlock_voter_must_save(const uint8_t *saved, size_t n, const uint8_t *live, size_t m, int32_t *yes);

/* ---- A client: it has one request at a time. `n` is always QLOCK_CLIENT_BYTES. */

/* Makes a new client with the number `id`, 0 to 63. Its stamps go from 1 to `limit`, 1 to QLOCK_MAX_STAMP. A client is made
   once: this call in place of one that was lost breaks the lock (see qlock_client_anew).

   QLOCK_BAD_ARGUMENT  `id` or `limit` is out of range
   QLOCK_BAD_STATE     `n` is not QLOCK_CLIENT_BYTES */
int32_t qlock_client_new(uint8_t id, uint64_t limit, uint8_t *state, size_t n);

/* Starts a request for the votes of a quorum: bit i of `quorum` is 1 if voter i is a member. The mask has to be a quorum of
   the coterie that all clients use, which nothing checks here. Writes a REQUEST to each member to `out`, each line with its
   newline, and how many bytes they have to `*written`. The second number in a line is the voter that it is for.

   QLOCK_BAD_ARGUMENT  `quorum` is 0
   QLOCK_BAD_STATE     the bytes are no client
   QLOCK_BUSY          the client is asking already, or is inside
   QLOCK_STAMPS_SPENT  no stamp is left
   QLOCK_NO_ROOM       `room` is too small; QLOCK_CLIENT_OUT is always enough */
int32_t qlock_client_ask(uint8_t *state, size_t n, uint64_t quorum, uint8_t *out, size_t room, size_t *written);

/* Takes a message: one line of `len` bytes, without its newline. Writes what to send, as qlock_client_ask does. Writes 1 to
   `*entered` if the client got the lock in this call, and 0 if not. An idle client takes messages too: it gives back the
   votes that come late.

   QLOCK_BAD_STATE    the bytes are no client
   QLOCK_BAD_MESSAGE  the line is not LOCKED, FAIL or INQUIRE to this client; drop it
   QLOCK_NO_ROOM      `room` is too small; QLOCK_CLIENT_OUT is always enough */
int32_t qlock_client_take(uint8_t *state, size_t n, const uint8_t *line, size_t len, uint8_t *out, size_t room,
                          size_t *written, int32_t *entered);

/* Leaves: the client is idle, and its votes go back. Writes a RELEASE to each member, as qlock_client_ask does.

   QLOCK_BAD_STATE   the bytes are no client
   QLOCK_NOT_INSIDE  the client is not inside
   QLOCK_NO_ROOM     `room` is too small; QLOCK_CLIENT_OUT is always enough */
int32_t qlock_client_leave(uint8_t *state, size_t n, uint8_t *out, size_t room, size_t *written);

/* Gives up the request of a client that is asking. Writes a RELEASE to each member, as qlock_client_ask does.

   QLOCK_BAD_STATE   the bytes are no client
   QLOCK_NOT_ASKING  the client is idle or inside
   QLOCK_NO_ROOM     `room` is too small; QLOCK_CLIENT_OUT is always enough */
int32_t qlock_client_give_up(uint8_t *state, size_t n, uint8_t *out, size_t room, size_t *written);

/* Writes what to send to the members again while the client is asking, in case messages were lost: at most two lines for each
   member whose vote is not held, none if the client is idle or inside. A timer calls this. The state stays as it is.

   QLOCK_BAD_STATE  the bytes are no client
   QLOCK_NO_ROOM    `room` is too small; QLOCK_CLIENT_OUT is always enough */
int32_t qlock_client_remind(const uint8_t *state, size_t n, uint8_t *out, size_t room, size_t *written);

/* Forgets all but the least that has to survive a crash: the clock and the last stamp. The client is then idle. If it was
   inside, this opens the lock, so its work has to be done or undone before. Sends nothing: the voters' reminders fetch the
   votes back.

   QLOCK_BAD_STATE  the bytes are no client */
int32_t qlock_client_forget(uint8_t *state, size_t n);

/* Makes a client that lost its state, in place of qlock_client_new. It is idle. `clock` is at least the stamp of its last
   request, and at most `limit`; its next stamp is above it. If it used a greater stamp before, two of its requests may have one
   pass, and two clients may be inside. The clock comes from a file with one number that is written ahead: ask, look at the stamp (qlock_client_shows), write a
   greater number if it passes the last one, and only then send the lines. What a quorum of voters has seen may be less than the
   last stamp: nothing is proved of such a clock. Send qlock_client_disclaim to all voters first, and again.

   QLOCK_BAD_ARGUMENT  `id`, `limit` or `clock` is out of range
   QLOCK_BAD_STATE     `n` is not QLOCK_CLIENT_BYTES */
int32_t qlock_client_anew(uint8_t id, uint64_t limit, uint64_t clock, uint8_t *state, size_t n);

/* Raises the client's clock to this stamp, if it is behind. The next request's stamp is above it.

   QLOCK_BAD_STATE  the bytes are no client */
int32_t qlock_client_raise(uint8_t *state, size_t n, uint64_t clock);

/* Writes what an idle client sends to end all its requests at these voters, voter i if bit i of `voters` is 1: RELEASE of its
   last stamp to each, and nothing if it made no request. Voters finish the stamp, and send this client no reply.

   QLOCK_BAD_STATE  the bytes are no client
   QLOCK_BUSY       the client is asking, or is inside
   QLOCK_NO_ROOM    `room` is too small; QLOCK_CLIENT_OUT is always enough */
int32_t qlock_client_disclaim(const uint8_t *state, size_t n, uint64_t voters, uint8_t *out, size_t room, size_t *written);

/* Writes what a client that is inside sends as a sign of life: REQUEST again to each member, nothing if it is not inside. A voter
   whose grant stands replies with LOCKED. One that let it go and remembers that sends nothing.

   QLOCK_BAD_STATE  the bytes are no client
   QLOCK_NO_ROOM    `room` is too small; QLOCK_CLIENT_OUT is always enough */
int32_t qlock_client_renew(const uint8_t *state, size_t n, uint8_t *out, size_t room, size_t *written);

/* Writes what the client is doing (QLOCK_IDLE, QLOCK_ASKING or QLOCK_INSIDE), and the stamp and the quorum of its current or
   last request, both 0 if there was none. After qlock_client_forget the quorum is 0, and the stamp stays. After
   qlock_client_anew the quorum is 0, and the stamp is the clock. A client that comes back from a crash looks at this first.

   QLOCK_BAD_STATE  the bytes are no client */
int32_t qlock_client_shows(const uint8_t *state, size_t n, int32_t *phase, uint64_t *stamp, uint64_t *quorum);

/* Writes the number of the grant under which the vote of this voter, 0 to 63, is held, 0 if it is not held.

   QLOCK_BAD_ARGUMENT  `voter` is out of range
   QLOCK_BAD_STATE     the bytes are no client */
int32_t qlock_client_grant(const uint8_t *state, size_t n, uint8_t voter, uint64_t *grant);

/* Writes the pass of a client that is inside: for each voter the grant by which the client has its vote, a number of 64 bits,
   its lowest byte first, 0 if its vote is not held. `len` is QLOCK_PASS_BYTES. The client shows it to the guard.

   QLOCK_BAD_ARGUMENT  `len` is not QLOCK_PASS_BYTES
   QLOCK_BAD_STATE     the bytes are no client
   QLOCK_NOT_INSIDE    the client is not inside, so it has no pass */
int32_t qlock_client_pass(const uint8_t *state, size_t n, uint8_t *pass, size_t len);

/* ---- Quorums: masks of voters, each a number of 64 bits. Bit i is 1 if voter i is a member. A block of masks is aligned as
   `uint64_t` is. */

/* Writes 1 to `*yes` if all members of some of these `n` quorums are among `voters`, also a mask, and 0 if not: whether the voters
   that answered, or that are there, are enough.

   QLOCK_BAD_ARGUMENT  `n` is 0, or one of the `masks` is 0 (`voters` may be 0) */
int32_t qlock_has_quorum(const uint64_t *masks, size_t n, uint64_t voters, int32_t *yes);

/* Writes 1 to `*yes` if each of the `n` first quorums has a common member with each of the `m` second ones, and 0 if not. Then the
   two coteries may be in use at once, so one may be exchanged for the other.

   QLOCK_BAD_ARGUMENT  `n` or `m` is 0, or a mask is 0 */
int32_t qlock_bridge(const uint64_t *firsts, size_t n, const uint64_t *seconds, size_t m, int32_t *yes);

/* ---- Fail-over: whom a session asks, and when it gives up a request that waits and asks others. Sets of voters and quorums are masks,
   as above. Times are those of one clock of the session, in any unit. That votes exclude one another depends on none of these calls.

   A session asks the quorums of a plan's cycle in turn (qlock_quorums), without voters that it avoids (qlock_avoided), and without voters that
   had no room for the lock. A request that waits for a voter that is avoided is given up once it waits for too long (qlock_is_stuck), or at
   once if the voter said that it ends, or is quiet (qlock_waits_for), and the session asks again. */

/* Writes to `*voters` those that were heard longer ago than `most`. Voter v was heard at `heard[v]`, for v below `n`, and below 64. No voter
   is silent that was heard later than `now`. It is never refused. */
int32_t qlock_silent(const uint64_t *heard, size_t n, uint64_t now, uint64_t most, uint64_t *voters);

/* Writes to `*voters` those that the session avoids: those that are silent, and those whose quiet time ends later than `now`. That of voter v
   ends at `ends[v]`, for v below `m`. It is never refused. */
int32_t qlock_avoided(const uint64_t *heard, size_t n, const uint64_t *ends, size_t m, uint64_t now, uint64_t most, uint64_t *voters);

/* Writes to `*place` the place in the cycle of the `n` quorums `masks` of the one that the session asks with a ticket, whose own place is
   `ticket` modulo `n`: the first one from there on, around the cycle, that has no voter of `avoided`, and none of `full`. If there is none, it is
   the first one that has none of `full`: the others may give their votes later. Go on with the ticket after that place.

   QLOCK_BAD_ARGUMENT  each of the quorums has a voter of `full`, or `n` is 0 */
int32_t qlock_next_quorum(const uint64_t *masks, size_t n, uint64_t ticket, uint64_t avoided, uint64_t full, uint64_t *place);

/* Writes 1 to `*yes` if a request to `quorum`, which has the votes of `votes`, waits for the vote of a voter of `avoided`, and others would do:
   one of the `n` quorums `masks` has no voter of `avoided`, and none of `full`. Writes 0 if not. It is never refused. */
int32_t qlock_waits_for(const uint64_t *masks, size_t n, uint64_t quorum, uint64_t votes, uint64_t avoided, uint64_t full, uint32_t *yes);

/* Writes 1 to `*yes` if that is so, and the request was asked longer ago than `most`, and 0 if not. It is never refused. */
int32_t qlock_is_stuck(const uint64_t *masks, size_t n, uint64_t quorum, uint64_t votes, uint64_t asked, uint64_t avoided, uint64_t full,
                       uint64_t now, uint64_t most, uint32_t *yes);

/* ---- The guard (fence) of what the lock protects: it refuses a client that lost the lock without noticing it, and comes
   late. `n` is always QLOCK_FENCE_BYTES. */

/* Makes a guard that saw no grant.

   QLOCK_BAD_STATE  `n` is not QLOCK_FENCE_BYTES */
int32_t qlock_fence_new(uint8_t *state, size_t n);

/* Admits a pass, as qlock_client_pass writes it, and writes its turn. Do this in the place that the lock protects, in one step with
   the write that it guards, and never put an older guard back. The guard can't see whether the client is still inside, only
   whether it admitted a newer pass before.

   The turn is a fencing token: one number. It is greater for each later request that the guard admits, as long as it admits only
   passes of grants that voters gave, and the same for all passes of one request, if that has one pass. The first turn is 1. Note
   it in the place beside what is written.

   QLOCK_BAD_STATE     `n` is not QLOCK_FENCE_BYTES
   QLOCK_BAD_ARGUMENT  `len` is not QLOCK_PASS_BYTES
   QLOCK_NO_PASS       all its numbers are 0
   QLOCK_OLDER_GRANT   a pass of another request with a newer grant of some voter was admitted before, so don't write
   QLOCK_TURNS_SPENT   no turn is left */
int32_t qlock_fence_admit(uint8_t *state, size_t n, const uint8_t *pass, size_t len, uint64_t *turn);

/* ---- The row of a client's number at a voter: which session has the number, and under which stamps it may ask. `n` is always
   QLOCK_ROW_BYTES.

   A session is a process that has the number for a time. It is named by 128 bits, a hash of its name, in two halves. Epochs count
   the sessions of a number. The session's stamps are above the row's base, and at most the highest that is reserved. As long as a
   row changes by these calls alone, the voter takes the REQUESTs of a stamp from one session (qlock_row_takes). Save the row
   before anything leaves that tells of it. An older copy breaks this.

   `most` is the highest stamp that the caller lets a session reserve. None above QLOCK_MAX_STAMP is reserved. A number that says
   yes or no is 0 for no, and any other number for yes. */

/* Makes the row of a number that nobody has. Its epochs and its stamps are above this floor.

   QLOCK_BAD_ARGUMENT  `stamp` is above QLOCK_MAX_STAMP
   QLOCK_BAD_STATE     `n` is not QLOCK_ROW_BYTES */
int32_t qlock_row_new(uint64_t epoch, uint64_t stamp, uint8_t *row, size_t n);

/* Gives the number to a session that claims it under this epoch. Its stamps are above all that were reserved, and it may use so many
   at once: `stamps`, at most 4096. `is_silent` says whether the session that has the number was silent for long enough. Epochs may
   be so far above the row's: `epochs`, at most 2 to the power of 20. The claim of the session that has the number changes nothing.

   QLOCK_BAD_STATE  the bytes are no row
   QLOCK_OLD_EPOCH  the epoch is not above the row's, nor the row's own after its session took the claim back
   QLOCK_FAR_EPOCH  it is too far above the row's
   QLOCK_IN_USE     a session has the number, and is not silent */
int32_t qlock_row_claim(uint8_t *row, size_t n, uint64_t upper, uint64_t lower, uint64_t epoch, uint64_t stamps, uint32_t is_silent,
                        uint64_t epochs, uint64_t most);

/* Reserves stamps up to this one for the session that has the number. What was reserved stays so.

   QLOCK_BAD_STATE  the bytes are no row
   QLOCK_NOT_OWNER  the number is not this session's under this epoch */
int32_t qlock_row_reserve(uint8_t *row, size_t n, uint64_t upper, uint64_t lower, uint64_t epoch, uint64_t stamp, uint64_t most);

/* Frees the number, which its session gives back.

   QLOCK_BAD_STATE  the bytes are no row
   QLOCK_NOT_OWNER  the number is not this session's under this epoch */
int32_t qlock_row_close(uint8_t *row, size_t n, uint64_t upper, uint64_t lower, uint64_t epoch);

/* Frees the number, as the session takes its claim back, since no quorum granted it. Another session may claim this epoch. The
   session that took it back never claims this epoch again, and asks nobody under it.

   QLOCK_BAD_STATE  the bytes are no row
   QLOCK_NOT_OWNER  the number is not this session's under this epoch */
int32_t qlock_row_take_back(uint8_t *row, size_t n, uint64_t upper, uint64_t lower, uint64_t epoch);

/* Ends the session that has the number, if one has: the number is nobody's, under the next epoch.

   QLOCK_BAD_STATE     the bytes are no row
   QLOCK_EPOCHS_SPENT  there is no next epoch */
int32_t qlock_row_evict(uint8_t *row, size_t n);

/* Drops the row: the number is nobody's. Its epochs and its stamps are above this floor, and above what the row had.

   QLOCK_BAD_ARGUMENT  `stamp` is above QLOCK_MAX_STAMP
   QLOCK_BAD_STATE     the bytes are no row */
int32_t qlock_row_drop(uint8_t *row, size_t n, uint64_t epoch, uint64_t stamp);

/* Learns the row that another voter has of the number. `heard_here` and `heard_there` say whether a message of the session of this
   row, and of the other one, was ever heard: of a claim alone it may not have been.

   - If the other row's epoch is newer, and its session was heard or the one here was not, the number is that session's, above all
     that was reserved here. An epoch that may be claimed again there may be claimed here.
   - If two sessions that were heard have the number under one epoch, it is nobody's.
   - In any case what is reserved there is reserved here.

   QLOCK_BAD_STATE  the bytes are no row, or the other ones are none */
int32_t qlock_row_learn(uint8_t *row, size_t n, const uint8_t *other, size_t len, uint32_t heard_here, uint32_t heard_there);

/* Learns the row that another voter has of the number, after the state of this voter was lost and before it serves again: as qlock_row_learn, but
   that all stamps which may be used by the other row stay used.

   - If one session has the number in both rows, under one epoch, its stamps here are above both bases.
   - If the row stays another session's, or nobody's, all stamps here are above what is reserved there.

   Such a voter begins with rows of numbers that nobody had (qlock_row_new), and learns the rows of so many others as the page of its service
   says. Each of these saves before that a later run of it begins (qlock_stamps_renew).

   QLOCK_BAD_STATE  the bytes are no row, or the other ones are none */
int32_t qlock_row_relearn(uint8_t *row, size_t n, const uint8_t *other, size_t len, uint32_t heard_here, uint32_t heard_there);

/* Writes 1 to `*yes` if the voter takes a REQUEST of this session, under this epoch and stamp, and 0 if not.

   QLOCK_BAD_STATE  the bytes are no row */
int32_t qlock_row_takes(const uint8_t *row, size_t n, uint64_t upper, uint64_t lower, uint64_t epoch, uint64_t stamp, uint32_t *yes);

/* Writes the numbers of a row: its epoch, its base, the highest stamp that is reserved, and 1 and the halves of the session that has
   the number. If nobody has it, it writes 0, or 2 if the epoch may be claimed again, and twice 0.

   QLOCK_BAD_STATE  the bytes are no row */
int32_t qlock_row_shows(const uint8_t *row, size_t n, uint64_t *epoch, uint64_t *base, uint64_t *reserved, uint64_t *held,
                        uint64_t *upper, uint64_t *lower);

/* ---- A lock at a voter that keeps rows: its vote, and the rows of the sessions that may speak about it. `n` is always
   QLOCK_VOTER_BYTES, and `table` is of `rows` bytes, QLOCK_TABLE_BYTES: the row of number 0, of number 1, and so on. A number whose
   bytes are no row, or are missing, hears nothing, and a line from it is refused.

   In place of qlock_voter_take, qlock_voter_evict and qlock_voter_remind, these calls also say whose messages count, and who
   hears the replies.

   - A message counts if the row of its number says that the number is the session's under this epoch. A REQUEST has one of the
     session's own stamps. A RELEASE has at most the highest stamp that is reserved, so it may end requests of earlier sessions.
   - A reply goes to the session that has its number when the call is made, if it is about a stamp above that session's base.
     Lines that nobody hears are left out. So a LOCKED reaches a session from which this voter took the REQUEST, as long as the rows
     change by qlock_row_* alone, votes by calls of this file, and both are saved together.

   Save a vote before anything leaves if any call since its last save showed that it has to be (`changed` is 2), and with it the rows as
   they are. The caller forgets at each start (qlock_voter_forget). */

/* What is shown of a lock after a call. */
struct qlock_lock_shown {
    uint64_t changed;  /* 0: nothing happened, it was not the session's to say; 1: what has to survive is as it was; 2: save it;
                          3: nothing happened, only who is inside gets the vote now */
    uint64_t stamp;    /* of the client's request that has the vote or waits, 0 for none */
    uint64_t finished; /* the highest stamp of the client's requests that are finished */
    uint64_t holder;   /* the client that has the vote, 0 for none */
    uint64_t held;     /* the stamp of its request, 0 for none */
    uint64_t grant;    /* the number of its grant, 0 for none: so look here */
};

/* What was said of a lock since the start of its voter. A voter that was killed may have forgotten to whom it granted its votes. So it
   is *quiet* for as long as a lease lasts: a REQUEST is put off, unless its client says that it is inside. A grant from before the start
   is *old* until its client says so. An old grant that is given back is over, and at the end of the quiet time all old ones are let go. A
   vote stays closed to others while somebody waits who said in the quiet time that he is inside. Then nobody gets a vote in the quiet
   time who did not say that he is inside, nobody has one as it ends who did not say so, and who has one, and says so, has it then.

   Make it as a voter begins (qlock_since_start with how many grants it gave, or skipped). All zeros say that nothing is old, and nothing was said:
   so of a vote that is new, or once the quiet time has ended and nobody is awaited (qlock_lock_stands). It is not saved. */
struct qlock_since_start {
    uint64_t begun;      /* how many grants the vote had given before the start */
    uint64_t inside[64]; /* by client: the stamp of the request by which it said since that it is inside, 0 for none */
};

/* Writes that nothing was said since a start, before which so many grants were given. Returns 0. */
int32_t qlock_since_start(uint64_t begun, struct qlock_since_start *since);

/* Forgets what a client said, 0 to 63: its session is over.

   QLOCK_BAD_ARGUMENT  there is no such client */
int32_t qlock_since_forget(struct qlock_since_start *since, uint8_t client);

/* Takes what a session, named by these halves, says under this epoch: one line of `len` bytes, without its newline. `is_quiet` is whether
   the voter is quiet, and `says_inside` whether the session says that it is inside by the request. Writes the lines of the replies that
   somebody hears, what is known since the start, and shows the lock to the client that the line is from. If it is not the session's to
   say, or a REQUEST that is put off, the call is done, `shown->changed` is 0 or 3, `*written` is 0, and nothing else is written.

   QLOCK_BAD_STATE     the bytes are no voter, or there is no row for the number
   QLOCK_BAD_MESSAGE   the line is not REQUEST, RELINQUISH or RELEASE to this voter
   QLOCK_GRANTS_SPENT  the message needs a new grant, and none is left
   QLOCK_NO_ROOM       `room` is too small; QLOCK_VOTER_OUT is always enough */
int32_t qlock_lock_take(const uint8_t *table, size_t rows, uint8_t *vote, size_t n, struct qlock_since_start *since, uint32_t is_quiet,
                        uint32_t says_inside, uint64_t upper, uint64_t lower, uint64_t epoch, const uint8_t *line, size_t len,
                        uint8_t *out, size_t room, size_t *written, struct qlock_lock_shown *shown);

/* Ends the quiet time of a lock: lets its grant go if it is old. Writes the lines of the replies that somebody hears, and shows the lock to
   a client, 0 to 63. If it is refused, the vote has to stay quiet.

   QLOCK_BAD_ARGUMENT  there is no such client
   QLOCK_BAD_STATE     the bytes are no voter
   QLOCK_GRANTS_SPENT  a request waits, and no grant is left
   QLOCK_NO_ROOM       `room` is too small; QLOCK_VOTER_OUT is always enough */
int32_t qlock_lock_end_quiet(const uint8_t *table, size_t rows, uint8_t *vote, size_t n, const struct qlock_since_start *since,
                             uint8_t client, uint8_t *out, size_t room, size_t *written, struct qlock_lock_shown *shown);

/* Writes 1 to `*old` if the vote has an old grant, and 1 to `*awaited` if somebody waits who said since the start that he is inside; else 0.

   QLOCK_BAD_STATE  the bytes are no voter */
int32_t qlock_lock_stands(const uint8_t *vote, size_t n, const struct qlock_since_start *since, uint32_t *old, uint32_t *awaited);

/* Lets the current grant go if it has this number, as qlock_voter_evict does, but for the lines that nobody hears, and shows the lock
   to a client, 0 to 63.

   QLOCK_BAD_ARGUMENT  there is no such client
   QLOCK_BAD_STATE     the bytes are no voter
   QLOCK_GRANTS_SPENT  a request waits, and no grant is left
   QLOCK_NO_ROOM       `room` is too small; QLOCK_VOTER_OUT is always enough */
int32_t qlock_lock_let_go(const uint8_t *table, size_t rows, uint8_t *vote, size_t n, uint64_t grant, uint8_t client, uint8_t *out,
                          size_t room, size_t *written, struct qlock_lock_shown *shown);

/* Writes what to send to the holder again, as qlock_voter_remind does, if somebody hears it.

   QLOCK_BAD_STATE  the bytes are no voter
   QLOCK_NO_ROOM    `room` is too small; QLOCK_VOTER_OUT is always enough */
int32_t qlock_lock_remind(const uint8_t *table, size_t rows, const uint8_t *vote, size_t n, uint8_t *out, size_t room, size_t *written);

/* How a session stands at a voter. */
enum {
    QLOCK_SESSION_KNOWN = 0,   /* the number is the session's, under this epoch */
    QLOCK_SESSION_UNKNOWN = 1, /* it may claim the number under this epoch */
    QLOCK_SESSION_OVER = 2     /* the number has another session, or had one under a later epoch */
};

/* Writes how a session stands, named by these halves, under this epoch, by the row of a number, 0 to 63.

   QLOCK_BAD_ARGUMENT  there is no such number
   QLOCK_BAD_STATE     there is no row for the number */
int32_t qlock_table_judge(const uint8_t *table, size_t rows, uint8_t number, uint64_t upper, uint64_t lower, uint64_t epoch,
                          uint32_t *standing);

/* Writes 1 to `*yes` if the grant of a request of this stamp may be let go, by the row of its number, 0 to 63, and 0 if not: the
   session is silent, which the caller says, or nobody has the number, or a later session has it. If another voter ended the session
   (`ended_elsewhere`), it may not know so, and silence alone counts.

   QLOCK_BAD_ARGUMENT  there is no such number
   QLOCK_BAD_STATE     there is no row for the number */
int32_t qlock_table_lets_go(const uint8_t *table, size_t rows, uint8_t number, uint64_t stamp, uint32_t is_silent,
                            uint32_t ended_elsewhere, uint32_t *yes);

/* ---- The lease clock of a voter: for how long a session was silent. `n` is always QLOCK_CLOCK_BYTES.

   Each voter has one, in memory: it is not saved, and a voter that starts makes a new one. The voter sends itself markers, through
   the way by which its clients' messages come. The clock goes on up to the newest marker that came back, less the time in which
   nobody could be heard: up to a marker before which another one was lost, and what is above two periods between two markers. So a
   session that was heard at some time is silent for a TTL only if a TTL has passed since.

   Times are nanoseconds of one clock of the caller that never falls. A time before the last marker left counts as when that left. */

/* Makes a lease clock that begins now. A marker leaves each `period`.

   QLOCK_BAD_STATE  `n` is not QLOCK_CLOCK_BYTES */
int32_t qlock_clock_new(uint64_t period, uint64_t now, uint8_t *clock, size_t n);

/* Writes the number of a marker that leaves now, if it is time for one, and 0 if not. The caller sends it. At most 16 are under way:
   an older one is lost.

   QLOCK_BAD_STATE  the bytes are no lease clock */
int32_t qlock_clock_send(uint8_t *clock, size_t n, uint64_t now, uint64_t *number);

/* Notes that the marker of this number came back. One that is not under way changes nothing.

   QLOCK_BAD_STATE  the bytes are no lease clock */
int32_t qlock_clock_returns(uint8_t *clock, size_t n, uint64_t number);

/* Writes the reading at which a session is heard that is heard now. Read the time after its message was taken.

   QLOCK_BAD_STATE  the bytes are no lease clock */
int32_t qlock_clock_at(const uint8_t *clock, size_t n, uint64_t now, uint64_t *reading);

/* Writes the reading up to which all that was sent was heard, and when the newest marker left that came back.

   QLOCK_BAD_STATE  the bytes are no lease clock */
int32_t qlock_clock_shows(const uint8_t *clock, size_t n, uint64_t *reading, uint64_t *left);

/* Writes 1 to `*yes` if a session that was heard at this reading (qlock_clock_at) is silent for a TTL, and 0 if not.

   QLOCK_BAD_STATE  the bytes are no lease clock */
int32_t qlock_clock_is_silent(const uint8_t *clock, size_t n, uint64_t heard, uint64_t ttl, uint32_t *yes);

/* ---- A token bucket: how fast something may grow that others name. `n` is always QLOCK_BUCKET_BYTES.

   It gains `rate` tokens a second, up to `most`, and begins with half of `most`. Whoever takes tokens takes no more than there are. So
   from any time to any later one at most `most` tokens are taken, and `rate` for each second between the two. A bucket of which none
   was taken for `most / rate` seconds has all of `most`. What is left is kept exactly. It needs not be saved: one that is made anew
   begins with half.

   Times are nanoseconds of one clock of the caller. A time before that of the last spending counts as that. */

/* Makes a bucket that begins now.

   QLOCK_BAD_STATE  `n` is not QLOCK_BUCKET_BYTES */
int32_t qlock_bucket_new(uint64_t rate, uint64_t most, uint64_t now, uint8_t *bucket, size_t n);

/* Writes how many whole tokens there are now.

   QLOCK_BAD_STATE  the bytes are no token bucket */
int32_t qlock_bucket_left(const uint8_t *bucket, size_t n, uint64_t now, uint64_t *tokens);

/* Takes tokens.

   QLOCK_BAD_STATE     the bytes are no token bucket
   QLOCK_TOKENS_SPENT  there are fewer tokens now */
int32_t qlock_bucket_spend(uint8_t *bucket, size_t n, uint64_t now, uint64_t tokens);

/* ---- What a session keeps of its votes: up to when they count. `n` is always QLOCK_LEASE_BYTES of a lease, and QLOCK_VOTE_BYTES of a
   vote.

   A voter lets the vote of a session go that is silent for a TTL. So a session uses a vote only while it counts: up to `span` after a
   heartbeat left that the voter acknowledged. It keeps a lease of each voter, and for each lock a vote of each voter. A lock is held by
   its quorum's votes, up to the least of their ends (qlock_vote_until).

   Each message of a voter says its incarnation: its run, which is how often it lost its state; its start, which is how often its process
   started in this run; and its lapses, which is how often it let a vote of this session go. An acknowledgement counts for the votes that
   were taken from the same incarnation. So no late word revives a vote that the voter let go, and each vote is renewed by a LOCKED of the
   voter's next incarnation, or ends.

   Whoever works only up to the end, and stops within `stop` after it, works alone, if b * (span + stop) <= a * TTL, where the clock of a
   voter is at most b/a times as fast as that of a session. This asks of a host:
   - Times are those of one clock of the session that never falls, and goes on while the machine sleeps: nanoseconds, say.
   - The time of a heartbeat is read before it leaves, and the time of a call after its message came.
   - Of each message, qlock_lease_hears comes first, and before that qlock_vote_keeps of each vote of that voter. Of a message that is not
     of the latest incarnation no line of a lock is taken, and no acknowledgement.
   - Of a LOCKED, qlock_vote_takes gets the stamp and the number of the grant in the line, and `renews` if the client was inside as it came.
   - An acknowledgement is the reply to a heartbeat, or to the claim of the session's number.
   And of voters: under one incarnation they say one count of lapses to a session, that of when a line is said, not of when it leaves.
   - A vote lives as long as its session has the lock. One that is made anew begins above all stamps that the session used. */

/* Makes the lease of a voter of which nothing was heard.

   QLOCK_BAD_STATE  `n` is not QLOCK_LEASE_BYTES */
int32_t qlock_lease_new(uint8_t *lease, size_t n);

/* Hears the incarnation that a message of the voter says. A later one has acknowledged nothing yet. Writes 1 to `*latest` if it is the
   latest one, and 0 if it is an earlier one.

   QLOCK_BAD_STATE  the bytes are no lease */
int32_t qlock_lease_hears(uint8_t *lease, size_t n, uint64_t run, uint64_t start, uint64_t lapses, uint32_t *latest);

/* Takes an acknowledgement of this incarnation, of a heartbeat that left at `beat`. One of another incarnation than the latest changes
   nothing.

   QLOCK_BAD_STATE  the bytes are no lease */
int32_t qlock_lease_renews(uint8_t *lease, size_t n, uint64_t run, uint64_t start, uint64_t lapses, uint64_t beat);

/* Makes the vote of a lock that the session did not ask for yet. Its requests have stamps above `used`.

   QLOCK_BAD_STATE  `n` is not QLOCK_VOTE_BYTES */
int32_t qlock_vote_new(uint64_t used, uint8_t *vote, size_t n);

/* Asks with a request of this stamp. Writes 1 to `*yes` if it is above those of all requests before, and 0 if not: then nothing changes.

   QLOCK_BAD_STATE  the bytes are no vote */
int32_t qlock_vote_asks(uint8_t *vote, size_t n, uint64_t request, uint32_t *yes);

/* Keeps what counts for the vote by the voter's lease.

   QLOCK_BAD_STATE  the bytes are no vote, or no lease */
int32_t qlock_vote_keeps(uint8_t *vote, size_t n, const uint8_t *lease, size_t m);

/* Takes a LOCKED of this incarnation, for the request of this stamp, whose grant has this number. `renews` is 1 if it may answer a session
   that said that it is inside: then it only renews a vote that counts still. Writes 1 to `*yes` if the session has the vote by it, and 0
   if not. A number that was given back, or a lower one, gives no vote.

   QLOCK_BAD_STATE  the bytes are no vote, or no lease */
int32_t qlock_vote_takes(uint8_t *vote, size_t n, const uint8_t *lease, size_t m, uint64_t run, uint64_t start, uint64_t lapses,
                         uint64_t request, uint64_t number, uint32_t renews, uint64_t span, uint64_t now, uint32_t *yes);

/* Gives the vote back, whose grant has this number.

   QLOCK_BAD_STATE  the bytes are no vote */
int32_t qlock_vote_gives_back(uint8_t *vote, size_t n, uint64_t number);

/* Ends the request of this stamp. One before the newest was over already.

   QLOCK_BAD_STATE  the bytes are no vote */
int32_t qlock_vote_ends(uint8_t *vote, size_t n, uint64_t request);

/* Writes up to when the vote counts, where a heartbeat counts for `span` after it left: at that time it does not count any more. 0 if it
   does not count at all.

   QLOCK_BAD_STATE  the bytes are no vote, or no lease */
int32_t qlock_vote_until(const uint8_t *vote, size_t n, const uint8_t *lease, size_t m, uint64_t span, uint64_t *end);

/* ---- Under which stamps a session may ask. `n` is always QLOCK_STAMPS_BYTES, but for qlock_stamps_owners.

   A voter tells a session the base of its stamps, and up to which stamp it reserved them (qlock_row_shows). A session asks a quorum only
   under a stamp that is its own at each voter of it: `(quorum & ~voters) == 0` by qlock_stamps_owners. Then no stamp is used by two
   sessions, whatever is lost, late or repeated, and whenever voters crash.

   A voter counts its *runs*: one ends when its state is lost, and a later one begins when it is made again by what others tell it (qlock_row_relearn).
   Each of these saves first that there is a later run, and says so from then on. A session takes all runs that a message tells
   (qlock_stamps_renew) before it takes anything else in it. Then no stamp is used by two sessions while voters lose their states, either. */

/* Makes what a session keeps of its stamps at a voter that told nothing.

   QLOCK_BAD_STATE  `n` is not QLOCK_STAMPS_BYTES */
int32_t qlock_stamps_new(uint8_t *stamps, size_t n);

/* Takes a run of the voter, of which any voter says that it began. Nothing counts any more that the voter told in an earlier run.

   QLOCK_BAD_STATE  the bytes are no stamps */
int32_t qlock_stamps_renew(uint8_t *stamps, size_t n, uint64_t run);

/* Forgets what the voter told, and not its run: for another number, or another epoch.

   QLOCK_BAD_STATE  the bytes are no stamps */
int32_t qlock_stamps_forget(uint8_t *stamps, size_t n);

/* Takes what the voter tells in this run, for the session under its epoch: late, in any order, or again. If a later run is known, nothing
   changes.

   QLOCK_BAD_STATE  the bytes are no stamps */
int32_t qlock_stamps_hear(uint8_t *stamps, size_t n, uint64_t run, uint64_t base, uint64_t reserved);

/* Writes 1 to `*yes` if the session may ask the voter under this stamp, and 0 if not: the voter told that the session has its number, the
   stamp is above each base that it told, and at most the greatest stamp that it told as reserved.

   QLOCK_BAD_STATE  the bytes are no stamps */
int32_t qlock_stamps_have(const uint8_t *stamps, size_t n, uint64_t stamp, uint32_t *yes);

/* Writes to `*voters` the voters at which the stamp is the session's own, as a mask: those that it may ask under the stamp
   (qlock_stamps_have). `stamps` are its stamps at all 64 voters, one after the other, QLOCK_ALL_STAMPS_BYTES in all. For a voter that there
   is not they are as new.

   QLOCK_BAD_STATE  the bytes are no stamps at 64 voters */
int32_t qlock_stamps_owners(const uint8_t *stamps, size_t n, uint64_t stamp, uint64_t *voters);

/* ---- Claims of a number by a session. `n` is always QLOCK_CLAIM_BYTES.

   A session that wants a number hears of the number's epochs, and claims the next one at all voters (qlock_claim_next). Once each voter
   of a quorum accepted that (qlock_claim_accepts, qlock_has_quorum), the number is its own under this epoch, and no other session has it
   under that. All that was asked under the number before was under stamps up to the greatest base that these voters told
   (qlock_claim_shows). So the session begins above it (qlock_client_anew). A claim that is taken back (qlock_claim_gives_up) is never made
   again: the word that takes it back may come late. Keep the bytes as long as the session's name is used, in memory alone. */

/* Makes what a session keeps of a number of which nothing was heard.

   QLOCK_BAD_STATE  `n` is not QLOCK_CLAIM_BYTES */
int32_t qlock_claim_new(uint8_t *claim, size_t n);

/* Hears of an epoch of the number: from a voter, late, in any order, or again.

   QLOCK_BAD_STATE  the bytes are no claim */
int32_t qlock_claim_sees(uint8_t *claim, size_t n, uint64_t epoch);

/* Claims the number under the next epoch, above all that were heard of or claimed. Writes that to `*epoch`, and 0 if there is none: then
   nothing changes.

   QLOCK_BAD_STATE  the bytes are no claim */
int32_t qlock_claim_next(uint8_t *claim, size_t n, uint64_t *epoch);

/* Takes a voter's word that it accepted the claim of an epoch, with the base of the session's stamps there. Writes 1 to `*yes` if that is
   of the claim that goes on, and `voter` is below 64, and 0 if not: then nothing changes.

   QLOCK_BAD_STATE  the bytes are no claim */
int32_t qlock_claim_accepts(uint8_t *claim, size_t n, uint8_t voter, uint64_t epoch, uint64_t base, uint32_t *yes);

/* Takes the claim back, if one goes on. Tell the voters so, with its epoch.

   QLOCK_BAD_STATE  the bytes are no claim */
int32_t qlock_claim_gives_up(uint8_t *claim, size_t n);

/* Writes the newest epoch that was heard of or claimed; the one that is claimed, 0 if none is; the voters that accepted that, bit i for
   voter i; and the greatest base that these told.

   QLOCK_BAD_STATE  the bytes are no claim */
int32_t qlock_claim_shows(const uint8_t *claim, size_t n, uint64_t *newest, uint64_t *epoch, uint64_t *accepted, uint64_t *base);

/* ---- The calls of a process for a lock. `n` is always QLOCK_CALLS_BYTES.

   Calls come, wait, are handed the lock, and give it back. The host keeps those that wait in their order; these bytes say how many they are,
   and which one has the lock. `phase` is what the client of the lock shows (QLOCK_IDLE, QLOCK_ASKING or QLOCK_INSIDE), and `stamp` the stamp
   of its request, which is looked at if it is inside (qlock_client_shows). After each call, and each change of the client or of its votes, the
   host does what is next (qlock_calls_next), until that is nothing, or can't be done now: no stamp may be used yet, say. If a vote may be somebody else's, it does what qlock_calls_spoiled says.

   Each call has the lock under a request of its own. The request goes on until the call gives the lock back, also if the call was told that
   the lock may be lost: until then votes that are left keep others out. So of all calls of all processes at most one works, from when the lock
   was handed to it until it gives it back, up to `stop` after the last end of its votes that it was told (qlock_vote_until). This asks of a
   host, besides what votes ask for:
   - `counts` is 1 only if the end of each vote of the quorum is later than now.
   - It ends a request only if qlock_calls_may_end says so, and gives no vote back while a call has the lock.
   Keep the bytes as long as the client of the lock, in memory alone. */

/* Whether a call that comes is taken, and why not. */
enum {
    QLOCK_CALL_TAKEN = 0,
    QLOCK_CALL_CLOSED = 1,  /* the session is closed */
    QLOCK_CALL_HELD = 2,    /* it only tries, and the lock is asked for, had, or waited for */
    QLOCK_CALL_TOO_MANY = 3 /* 2 to the power of 64, less 1, wait already */
};

/* What the session has to do. */
enum {
    QLOCK_NEXT_NOTHING = 0,
    QLOCK_NEXT_ASK = 1,     /* it asks for the lock with a new request */
    QLOCK_NEXT_GIVE_UP = 2, /* it gives up the request by which it asks */
    QLOCK_NEXT_LEAVE = 3,   /* it ends the request by which it is inside */
    QLOCK_NEXT_HAND = 4,    /* it hands the lock to the first call that waits (qlock_calls_hands) */
    QLOCK_NEXT_LOSE = 5     /* it tells the call that has the lock that it may be lost (qlock_calls_loses) */
};

/* How a call gives the lock back. */
enum {
    QLOCK_UNLOCK_NONE = 0, /* it does not have it under this request */
    QLOCK_UNLOCK_DONE = 1,
    QLOCK_UNLOCK_LOST = 2  /* it was told before that the lock may be lost */
};

/* Makes the calls for a lock that nobody wants yet. Its requests have stamps above `used`, as those of its client have.

   QLOCK_BAD_STATE  `n` is not QLOCK_CALLS_BYTES */
int32_t qlock_calls_new(uint64_t used, uint8_t *calls, size_t n);

/* Takes a call that comes, behind all that wait. Writes to `*answer` whether it is taken (QLOCK_CALL_TAKEN), and why not: then nothing
   changes. One that only tries, if `tries` is not 0, is taken only if it is the first, and nobody asks yet. It waits for votes alone.

   QLOCK_BAD_STATE     the bytes are no calls
   QLOCK_BAD_ARGUMENT  `phase` is none */
int32_t qlock_calls_wants(uint8_t *calls, size_t n, uint32_t phase, uint64_t stamp, uint32_t tries, uint32_t *answer);

/* Notes that a call does not wait any more, which only tried if `tries` is not 0.

   QLOCK_BAD_STATE  the bytes are no calls */
int32_t qlock_calls_unwants(uint8_t *calls, size_t n, uint32_t tries);

/* Notes that somebody else has the lock. Writes 1 to `*yes` if that ends a call that only tries, which is the first that waits, and 0 if not.
   Once the session is inside it ends none.

   QLOCK_BAD_STATE     the bytes are no calls
   QLOCK_BAD_ARGUMENT  `phase` is none */
int32_t qlock_calls_refuses_tries(uint8_t *calls, size_t n, uint32_t phase, uint64_t stamp, uint32_t *yes);

/* Hands the lock to the first call that waits, if that may have it: the session is inside by a request under which no call had it before,
   no call has it now, and `counts` is not 0. Writes 1 to `*yes` if the call has it, and 0 if not: then nothing changes.

   QLOCK_BAD_STATE     the bytes are no calls
   QLOCK_BAD_ARGUMENT  `phase` is none */
int32_t qlock_calls_hands(uint8_t *calls, size_t n, uint32_t phase, uint64_t stamp, uint32_t counts, uint32_t *yes);

/* Takes the lock back from the call that has it under the request of this stamp. Writes how to `*how`: if it is QLOCK_UNLOCK_NONE, nothing
   changes.

   QLOCK_BAD_STATE  the bytes are no calls */
int32_t qlock_calls_unlocks(uint8_t *calls, size_t n, uint64_t stamp, uint32_t *how);

/* Notes that the lock may be lost. Writes 1 to `*yes` if the call that has it has to be told, as it was not told before, and 0 if not.

   QLOCK_BAD_STATE  the bytes are no calls */
int32_t qlock_calls_loses(uint8_t *calls, size_t n, uint32_t *yes);

/* Notes that all calls that waited failed. If `closes` is not 0, none is taken any more. The call that has the lock has it on.

   QLOCK_BAD_STATE  the bytes are no calls */
int32_t qlock_calls_end(uint8_t *calls, size_t n, uint32_t closes);

/* Writes to `*next` what the session has to do next. `doubtful` is not 0 if a vote that it has does not count any more.

   QLOCK_BAD_STATE     the bytes are no calls
   QLOCK_BAD_ARGUMENT  `phase` is none */
int32_t qlock_calls_next(const uint8_t *calls, size_t n, uint32_t phase, uint64_t stamp, uint32_t counts, uint32_t doubtful, uint32_t *next);

/* Writes to `*next` what the session has to do if a vote that it has may be somebody else's. If it gives up, or leaves, do then what is
   next.

   QLOCK_BAD_STATE     the bytes are no calls
   QLOCK_BAD_ARGUMENT  `phase` is none */
int32_t qlock_calls_spoiled(const uint8_t *calls, size_t n, uint32_t phase, uint64_t stamp, uint32_t *next);

/* Writes 1 to `*yes` if the session may end its request of this stamp, as no call has the lock under it, and 0 if not.

   QLOCK_BAD_STATE  the bytes are no calls */
int32_t qlock_calls_may_end(const uint8_t *calls, size_t n, uint64_t stamp, uint32_t *yes);

/* ---- One lock of a session, whole: its client, its votes, and the calls for it, so that no host says which phase the client is in, or
   whether its votes count.

   A lock is three blocks: a client (`client`, QLOCK_CLIENT_BYTES), the votes of all 64 voters for it one after the other (`votes`,
   QLOCK_VOTES_BYTES), and the calls for it (`calls`, QLOCK_CALLS_BYTES). `leases` are the leases of all 64 voters one after the other
   (QLOCK_LEASES_BYTES): the session has one of each voter for all its locks. A voter that there is not has a lease and a vote as they are
   new. Make the blocks by qlock_client_new or qlock_client_anew, qlock_vote_new for each voter, and qlock_calls_new, with the same `used`.
   `span` is for how long a vote counts after a heartbeat left, and `now` the time of the host's clock.

   If a call has the lock, the client is inside by the request under which the call has it. Blocks of which that is not so are no lock. So
   are those of which one is none. Each call here reads all blocks, and refuses them with QLOCK_BAD_STATE if they are no lock, or if the
   leases are none. It writes those that it is not given as const.

   These calls take the place of the calls of a client that begin and end a request and take a line, of those of its votes, and of those of
   the calls that get a phase. What else comes to the calls is as before (qlock_calls_unwants, qlock_calls_unlocks, qlock_calls_loses and
   qlock_calls_end), and so is what only shows the client. Before the session hears of a later incarnation of a voter, the vote of that voter
   keeps what counts (qlock_vote_keeps, with its 72 bytes of `votes`).

   What a session does by them is as its calls say: it ends no request under which a call has the lock, gives no vote back while one has it,
   and has and hands on the lock only up to a time up to which all votes of the quorum count. */

/* Writes to `*end` up to when all votes of the quorum count for the request that runs: at that time one does not count any more. 0 if they do
   not all count, or no request runs. It is the time up to which the call that has the lock has it.

   QLOCK_BAD_STATE  the blocks are no lock, or the leases are none */
int32_t qlock_held_until(const uint8_t *client, size_t n, const uint8_t *votes, size_t m, const uint8_t *calls, size_t k,
                         const uint8_t *leases, size_t l, uint64_t span, uint64_t *end);

/* Writes to `*next` what the session has to do next for the calls, at this time. The incarnation of voter v is known since `since[v]`, of 64
   numbers: a vote that did not begin to count is doubtful once nothing was acknowledged for `span` since then.

   QLOCK_BAD_STATE  the blocks are no lock, or the leases are none */
int32_t qlock_held_next(const uint8_t *client, size_t n, const uint8_t *votes, size_t m, const uint8_t *calls, size_t k,
                        const uint8_t *leases, size_t l, const uint64_t *since, size_t voters, uint64_t span, uint64_t now, uint32_t *next);

/* Writes 1 to `*yes` if a vote of the quorum may be somebody else's at this time, and 0 if not: do then what qlock_held_spoiled says.

   QLOCK_BAD_STATE  the blocks are no lock, or the leases are none */
int32_t qlock_held_is_doubtful(const uint8_t *client, size_t n, const uint8_t *votes, size_t m, const uint8_t *calls, size_t k,
                               const uint8_t *leases, size_t l, const uint64_t *since, size_t voters, uint64_t span, uint64_t now,
                               uint32_t *yes);

/* Writes to `*next` what the session has to do if a vote that it has may be somebody else's. If it gives up, or leaves, do then what is next.

   QLOCK_BAD_STATE  the blocks are no lock */
int32_t qlock_held_spoiled(const uint8_t *client, size_t n, const uint8_t *votes, size_t m, const uint8_t *calls, size_t k, uint32_t *next);

/* Hands the lock to the first call that waits, if the session is inside by a request under which no call had it before, no call has it now,
   and all votes of the quorum count at this time. Writes to `*end` up to when the call has it, and 0 if it was not handed the lock: then
   nothing changes.

   QLOCK_BAD_STATE  the blocks are no lock, or the leases are none */
int32_t qlock_held_hand(const uint8_t *client, size_t n, const uint8_t *votes, size_t m, uint8_t *calls, size_t k,
                        const uint8_t *leases, size_t l, uint64_t span, uint64_t now, uint64_t *end);

/* Takes a call that comes, behind all that wait. Writes to `*answer` whether it is taken (QLOCK_CALL_TAKEN), and why not: then nothing
   changes. One that only tries, if `tries` is not 0, is taken only if it is the first, and nobody asks yet.

   QLOCK_BAD_STATE  the blocks are no lock */
int32_t qlock_held_wants(const uint8_t *client, size_t n, const uint8_t *votes, size_t m, uint8_t *calls, size_t k, uint32_t tries, uint32_t *answer);

/* Notes that somebody else has the lock. Writes 1 to `*yes` if that ends a call that only tries, which is the first that waits, and 0 if not.

   QLOCK_BAD_STATE  the blocks are no lock */
int32_t qlock_held_refuses_tries(const uint8_t *client, size_t n, const uint8_t *votes, size_t m, uint8_t *calls, size_t k, uint32_t *yes);

/* Starts a request for the votes of a quorum, as qlock_client_ask does, and asks with it at all votes.

   QLOCK_BAD_STATE     the blocks are no lock
   QLOCK_BAD_ARGUMENT  the mask is 0
   QLOCK_BUSY          the client is asking already, or is inside
   QLOCK_STAMPS_SPENT  the client's clock is at the limit
   QLOCK_NO_ROOM       `out` is too short */
int32_t qlock_held_ask(uint8_t *client, size_t n, uint8_t *votes, size_t m, const uint8_t *calls, size_t k, uint64_t quorum,
                       uint8_t *out, size_t room, size_t *written);

/* Takes the line of a message to the client, as qlock_client_take does. The header of the message says this incarnation of the voter. A
   LOCKED brings a vote, or renews it if the client is inside. What leaves gives votes back, and ends requests: a LOCKED for another request
   than the one that runs goes back by RELEASE, and all requests up to its stamp are over then. So give it no LOCKED with a stamp above all
   that the lock asked with: no voter says one that keeps to its calls.

   QLOCK_BAD_STATE    the blocks are no lock, or the leases are none
   QLOCK_BAD_MESSAGE  the line is no message to this client
   QLOCK_NO_ROOM      `out` is too short */
int32_t qlock_held_take(uint8_t *client, size_t n, uint8_t *votes, size_t m, const uint8_t *calls, size_t k, const uint8_t *leases, size_t l,
                        uint64_t span, uint64_t now, uint64_t run, uint64_t start, uint64_t lapses, const uint8_t *line, size_t length,
                        uint8_t *out, size_t room, size_t *written, int32_t *entered);

/* Leaves: ends the request by which the client is inside, there and at all votes.

   QLOCK_BAD_STATE   the blocks are no lock
   QLOCK_BUSY        a call has the lock under the request
   QLOCK_NOT_INSIDE  the client is not inside
   QLOCK_NO_ROOM     `out` is too short */
int32_t qlock_held_leave(uint8_t *client, size_t n, uint8_t *votes, size_t m, const uint8_t *calls, size_t k, uint8_t *out, size_t room, size_t *written);

/* Gives up the request by which the client asks, there and at all votes.

   QLOCK_BAD_STATE   the blocks are no lock
   QLOCK_BUSY        a call has the lock under the request
   QLOCK_NOT_ASKING  the client is not asking
   QLOCK_NO_ROOM     `out` is too short */
int32_t qlock_held_give_up(uint8_t *client, size_t n, uint8_t *votes, size_t m, const uint8_t *calls, size_t k, uint8_t *out, size_t room, size_t *written);

/* ---- The start of a voter among the other voters: so that no two processes of one voter give the same grant.

   A peer is what a voter keeps of the voter of a place: seven numbers of 64 bits, each with its lowest byte first. They are the upper
   and the lower half of its identity, 0 if nobody is known; its run, which is how often it was made again; its start, which is how
   often its process started; a word that the process made up; its ceiling, above which it gives no grant; and how often its state
   was saved when it ended, 0 unless it said so. Any 56 bytes are a peer.

   A start is what a process knows of the others since it started: ten numbers. They are the set of the voters that answered; that of
   those whose ceiling it knew before it served; the highest ceiling that is known; its floor; the ceiling that it asked for last, 0
   for none; the set of the voters that keep that one; its ceiling; by how much it raises that at first, and by how much it did last;
   and 1 if it serves, plus 2 if the last run is known to have ended cleanly. A set of voters has voter v if bit v is 1. It is not
   saved, but for the ceiling: save that before a grant above the last one leaves.

   A process that starts saves its start, one more than the last one, before it says so. The others meet it, save, and answer what
   they knew before (the ceiling of the peer). Then it begins, once so many answered, and asks the others to keep the ceiling that it
   asks for. They meet it again, with that ceiling, save, and answer. It serves if they and it contain a quorum of each plan in use.
   It gives grants above the floor, and up to the ceiling, and asks for the next one in time. A process that is refused ends. */

/* Keeps the process of the second peer, which started in the place of the first one, with the greater ceiling of both. If the process
   says so again, what is known of its end stays. `n` and `m` are QLOCK_PEER_BYTES.

   QLOCK_BAD_STATE  the bytes are no peer
   QLOCK_PLACE      another voter is known, and this one was not made again more often
   QLOCK_OLDER      of this voter another process is known that started as often, or more often */
int32_t qlock_peer_meet(uint8_t *peer, size_t n, const uint8_t *now, size_t m);

/* Keeps the later one of two peers of a place, with the greater ceiling of both: what a voter hears from another one.

   QLOCK_BAD_STATE  the bytes are no peer */
int32_t qlock_peer_learn(uint8_t *peer, size_t n, const uint8_t *other, size_t m);

/* Keeps how often the state of the voter with this identity, which has two halves, was saved when it ended, in this start. Nothing
   changes unless that is the one that is known.

   QLOCK_BAD_STATE  the bytes are no peer */
int32_t qlock_peer_end(uint8_t *peer, size_t n, uint64_t upper, uint64_t lower, uint64_t start, uint64_t saves);

/* Writes 1 to `*yes` if the last run of the voter with this identity is known to have ended when its state had been saved so often, and
   0 if not.

   QLOCK_BAD_STATE  the bytes are no peer */
int32_t qlock_peer_is_clean(const uint8_t *peer, size_t n, uint64_t upper, uint64_t lower, uint64_t saves, uint32_t *yes);

/* Makes the start of a process. `ceiling` is the one that its state asked for last, 0 if for none, and `first` how many grants it asks
   for at first, at least one. `n` is always QLOCK_START_BYTES.

   QLOCK_BAD_STATE  `n` is not QLOCK_START_BYTES */
int32_t qlock_start_new(uint64_t ceiling, uint64_t first, uint8_t *start, size_t n);

/* Notes which ceiling a voter says that it knew, and whether (not 0) it knows that the last run ended with the saves that there are.

   QLOCK_BAD_ARGUMENT  there is no such voter
   QLOCK_BAD_STATE     the bytes are no start */
int32_t qlock_start_hear(uint8_t *start, size_t n, uint8_t voter, uint64_t ceiling, uint32_t is_clean);

/* Asks for the first ceiling, above all that is known, if it may. Else nothing changes, nor after the first time. It may if all others
   answered. Else a process whose state asked for no ceiling yet may if the voters that did not answer, and it, contain no quorum of a
   plan in use (`have_silent_quorum` is 0). Any other one may if it was patient, and those that answered, and it, contain a quorum of
   each plan (`have_quorums`). Call it after each answer, and as time passes.

   QLOCK_BAD_STATE  the bytes are no start */
int32_t qlock_start_begin(uint8_t *start, size_t n, uint64_t others, uint32_t have_silent_quorum, uint32_t have_quorums,
                          uint32_t is_patient);

/* Notes that a voter keeps this ceiling. If it did not know of this process before (`says` is not 0), it says which ceiling it knew.
   What it says of another ceiling than that which was asked for last changes nothing.

   QLOCK_BAD_ARGUMENT  there is no such voter
   QLOCK_BAD_STATE     the bytes are no start */
int32_t qlock_start_keep(uint8_t *start, size_t n, uint8_t voter, uint64_t ceiling, uint32_t says, uint64_t known);

/* Raises the ceiling if the voters that keep it, and this one, contain a quorum of each plan in use (`have_quorums`), and writes to
   `*turn` what comes of it. Call it after each voter that keeps the ceiling, and after QLOCK_ASKS_AGAIN.

   QLOCK_BAD_STATE  the bytes are no start */
int32_t qlock_start_turn(uint8_t *start, size_t n, uint32_t have_quorums, uint32_t *turn);

/* Asks for the next ceiling, above this number, if half of the last block is used, once the grant of this number was given, or the numbers
   up to it are to be skipped.

   QLOCK_BAD_STATE  the bytes are no start */
int32_t qlock_start_need(uint8_t *start, size_t n, uint64_t number);

/* Forgets who keeps the ceiling: the plans in use changed, and all voters are to keep it again.

   QLOCK_BAD_STATE  the bytes are no start */
int32_t qlock_start_renew(uint8_t *start, size_t n);

/* ---- Messages of a lock service: a header line, and lines of locks, `LOCK LINE`, or of control, `. WORDS`.

   The header's line is one of

       qlock2 CLUSTER COTERIE c NUMBER EPOCH RESERVED SESSION SEQ     from a client's session
       qlock2 CLUSTER COTERIE v NUMBER RUN START IDENTITY LAPSES      from a voter
       qlock2 CLUSTER COTERIE o QUESTION                              from an operator

   Behind these there is ` level=LEVEL` if the level is not 0, and then any number of words KEY=VALUE, which a reader ignores: their
   key is not empty and not `level`. There is one space between two words. A number is in decimal, without a leading zero, and below 2
   to the power of 64. The number of a client or a voter is at most 63. CLUSTER, COTERIE and the name have 1 to 64 bytes of A-Z a-z
   0-9 _ -. The line has at most 512 bytes, without its newline. */

/* Reads the header of a message, as QLOCK_HEADER_WORDS words.

   QLOCK_BAD_ARGUMENT  `words` is not QLOCK_HEADER_WORDS
   QLOCK_BAD_MESSAGE   the message begins with no header */
int32_t qlock_header_read(const uint8_t *message, size_t n, uint64_t *header, size_t words);

/* Writes the line of a header, with its newline and no ignored word, and how many bytes it has. `first`, `second` and `third` of an
   operator say nothing, and neither does `number`.

   QLOCK_BAD_ARGUMENT  `kind` is not 'c', 'v' or 'o', a name is no name, or the number of a client or a voter is above 63
   QLOCK_NO_ROOM       `room` is too small; QLOCK_LINE_OUT is always enough */
int32_t qlock_header_write(uint8_t kind, uint8_t number, uint64_t first, uint64_t second, uint64_t third, uint64_t level,
                           const uint8_t *cluster, size_t cluster_len, const uint8_t *coterie, size_t coterie_len,
                           const uint8_t *name, size_t name_len, uint8_t *out, size_t room, size_t *written);

/* Reads a line of control of a client, without the dot and the space in front and without the newline, as QLOCK_CLIENT_WORDS words: its
   kind, the number of a client, and two more. What it does not have is 0. If its first word is none of those above, the words are 0.

   QLOCK_BAD_ARGUMENT  `n` is not QLOCK_CLIENT_WORDS
   QLOCK_BAD_MESSAGE   the line has no first word, as it is empty or begins with a space; or that word is known, and the line is wrong */
int32_t qlock_client_word_read(const uint8_t *line, size_t len, uint64_t *words, size_t n);

/* Writes a line of control of a client, with the dot and the space in front and with the newline, and how many bytes it has.

   QLOCK_BAD_ARGUMENT  `kind` is none, `number` is above 63, or an epoch is 0, where the line has them
   QLOCK_NO_ROOM       `room` is too small; QLOCK_LINE_OUT is always enough */
int32_t qlock_client_word_write(uint8_t kind, uint8_t number, uint64_t first, uint64_t second, uint8_t *out, size_t room, size_t *written);

/* Reads a line of control of a voter, without the dot and the space in front and without the newline, as QLOCK_VOTER_WORDS words: its
   kind, the number of a client, and five more. What it does not have is 0. A line with another first word is QLOCK_BAD_MESSAGE here.

   QLOCK_BAD_ARGUMENT  `n` is not QLOCK_VOTER_WORDS
   QLOCK_BAD_MESSAGE   the line is none of those above */
int32_t qlock_voter_word_read(const uint8_t *line, size_t len, uint64_t *words, size_t n);

/* Writes a line of control of a voter, as qlock_client_word_write does.

   QLOCK_BAD_ARGUMENT  `kind` is none, or `number` is above 63 or a state above 2, where the line has them
   QLOCK_NO_ROOM       `room` is too small; QLOCK_LINE_OUT is always enough */
int32_t qlock_voter_word_write(uint8_t kind, uint8_t number, uint64_t first, uint64_t second, uint64_t third, uint64_t fourth,
                               uint64_t fifth, uint8_t *out, size_t room, size_t *written);

/* Lines with the name of a lock: it has 1 to 64 bytes of A-Z a-z 0-9 _ - . : with no dot first. */

/* Reads what a voter says of a lock, without the dot and the space in front and without the newline, as QLOCK_LOCK_WORDS words. A line
   with another first word is QLOCK_BAD_MESSAGE here.

   QLOCK_BAD_ARGUMENT  `n` is not QLOCK_LOCK_WORDS
   QLOCK_BAD_MESSAGE   the line is none of those above */
int32_t qlock_lock_word_read(const uint8_t *line, size_t len, uint64_t *words, size_t n);

/* Writes what a voter says of a lock, as qlock_voter_word_write does.

   QLOCK_BAD_ARGUMENT  `kind` is none, or the lock's name is no name
   QLOCK_NO_ROOM       `room` is too small; QLOCK_LINE_OUT is always enough */
int32_t qlock_lock_word_write(uint8_t kind, const uint8_t *lock, size_t lock_len, uint64_t stamp, uint64_t milliseconds, uint8_t *out,
                              size_t room, size_t *written);

/* Cuts the first line off a text, as QLOCK_LINE_WORDS words: a lock's name or the dot of control, one space, anything, and a newline.

   QLOCK_BAD_ARGUMENT  `n` is not QLOCK_LINE_WORDS
   QLOCK_BAD_MESSAGE   the text begins with no such line */
int32_t qlock_line_cut(const uint8_t *text, size_t len, uint64_t *words, size_t n);

/* Writes 1 to `*yes` if bytes may name a lock, and 0 if not. */
int32_t qlock_is_lock_name(const uint8_t *name, size_t len, uint32_t *yes);

#ifdef __cplusplus
}
#endif
#endif
