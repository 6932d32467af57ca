/* leases_node.c: the voters and the clients of the trial in leases.c.

   - A voter saves its state before its lines leave: it writes the older one of two slots, with a checksum, and syncs
     it. (A slot that a disk damages later looks like one that a kill left half written. A service that fears this
     writes a new file and renames it, as the package in python/ does.) It lets a grant go that is older than the lease,
     if the client of the grant was silent for as long. If it lost its file, it is reborn with the next block of grants.
   - A client keeps one number on disk: a clock that is written ahead. At each start it is made anew with that clock,
     and disclaims what it asked before. It gives up a request that takes too long, and asks again.
   - Each record of the guarded file has the guard after it. So admitting a pass and writing are one write, under a lock
     of the file. The file is not synced, since only processes are killed here, and no machine. A service syncs it. */
#define _POSIX_C_SOURCE 200809L
#include "leases.h"
#include <errno.h>
#include <fcntl.h>
#include <poll.h>
#include <stdio.h>
#include <stdlib.h>
#include <string.h>
#include <sys/socket.h>
#include <sys/stat.h>
#include <time.h>
#include <unistd.h>

int me = PARENT;
pid_t parent;
enum manner manner = USUAL;
unsigned percent = 5;
int sockets[NODES];
struct sockaddr_in addresses[NODES];
struct report *reports;
int file;

/* times, in milliseconds: a sign of life, giving up, reminders, and how late a line may be */
enum { RENEW = 25, GIVE_UP = 80, REMIND_VOTER = 40, REMIND_CLIENT = 20, LATEST = 200 };
enum { LINE = 80, LINES_A_TURN = 32, ROOM = 2 * LINES_A_TURN * QLOCK_CLIENT_OUT, LATE_LINES = 256 };
/* how far ahead a clock is written */
enum { STAMPS = 1000 };

/* ---- Helpers of all processes */

void fail(const char *what) {
    fprintf(stderr, "leases: node %d: %s%s%s\n", me, what, errno ? ": " : "", errno ? strerror(errno) : "");
    if (me != PARENT) _exit(2);
    exit(1);
}

void must(int holds, const char *what) {
    if (!holds) fail(what);
}

int64_t now(void) {
    struct timespec time;
    clock_gettime(CLOCK_MONOTONIC, &time);
    return (int64_t)time.tv_sec * 1000 + time.tv_nsec / 1000000;
}

static uint64_t random_state;

unsigned random_below(unsigned n) {
    random_state ^= random_state << 13;
    random_state ^= random_state >> 7;
    random_state ^= random_state << 17;
    return (unsigned)(random_state >> 32) % n;
}

void seed_random(uint64_t seed, uint64_t node, uint64_t life) {
    random_state = (seed * NODES + node + 1) * 0x9E3779B97F4A7C15 + life * 0xD1B54A32D192ED03 + 1;
    for (int i = 0; i < 8; i++) random_below(2);
}

/* FNV-1a of what comes after the checksum */
uint64_t sum_of(const void *block, size_t n) {
    const uint8_t *bytes = block;
    uint64_t sum = 0xCBF29CE484222325;
    for (size_t i = sizeof sum; i < n; i++) sum = (sum ^ bytes[i]) * 0x100000001B3;
    return sum;
}

/* ---- A store: a file of two slots. A save writes the older slot and syncs it, so a kill leaves one of them whole. */

struct slot {
    uint64_t sum, saves;
    uint8_t content[QLOCK_VOTER_BYTES];
};

struct store {
    int file;
    struct slot last;
};

/* Opens the store, and returns whether it has a whole slot. Syncs first, as what was read is not saved yet. */
static int store_open(struct store *store, const char *name) {
    struct slot slot;
    int folder = open(".", O_RDONLY);
    memset(store, 0, sizeof *store);
    store->file = open(name, O_RDWR | O_CREAT, 0600);
    must(store->file >= 0 && folder >= 0, name);
    must(fsync(store->file) == 0 && fsync(folder) == 0 && close(folder) == 0, name);
    for (int i = 0; i < 2; i++)
        if (pread(store->file, &slot, sizeof slot, i * (off_t)sizeof slot) == (ssize_t)sizeof slot &&
            slot.sum == sum_of(&slot, sizeof slot) && slot.saves > store->last.saves)
            store->last = slot;
    return store->last.saves > 0;
}

static void store_save(struct store *store, const void *content, size_t n) {
    struct slot *slot = &store->last;
    if (slot->saves > 0 && memcmp(slot->content, content, n) == 0) return;
    memcpy(slot->content, content, n);
    slot->saves++;
    slot->sum = sum_of(slot, sizeof *slot);
    off_t place = (off_t)(slot->saves % 2 * sizeof *slot);
    must(pwrite(store->file, slot, sizeof *slot, place) == (ssize_t)sizeof *slot, "save");
    must(fdatasync(store->file) == 0, "save");
}

void store_make(const char *name, const void *content, size_t n) {
    struct store store;
    store_open(&store, name);
    store_save(&store, content, n);
    close(store.file);
}

const char *store_name(int node) {
    static char name[32];
    snprintf(name, sizeof name, node < VOTERS ? "voter-%d" : "clock-%d", node < VOTERS ? node : node - VOTERS);
    return name;
}

int store_is_whole(const char *name) {
    struct store found;
    int whole = store_open(&found, name);
    close(found.file);
    return whole;
}

/* ---- The calls of the library */

/* the state of the voter or the client that this process is */
static uint8_t state[QLOCK_VOTER_BYTES];

/* what the calls wrote since the last lines left, and how much the last call wrote */
static uint8_t out[ROOM];
static size_t filled, written;

/* arguments of the calls */
#define STATE state, sizeof state
#define OUT out + filled, sizeof out - filled, &written

/* keeps what a call wrote */
static void keep(int32_t result, const char *call) {
    must(result == QLOCK_DONE, call);
    filled += written;
}

/* ---- The network: each line is one datagram, and the sender plays its faults */

struct late {
    int64_t due;
    int to;
    size_t length;
    uint8_t line[LINE];
};

/* the lines that are still to be sent */
static struct late late[LATE_LINES];
static unsigned late_lines;

static void send_now(int to, const uint8_t *line, size_t length) {
    /* a line that finds no room is lost */
    (void)sendto(sockets[me], line, length, 0, (const struct sockaddr *)&addresses[to], sizeof addresses[to]);
}

static void send_later(int to, const uint8_t *line, size_t length) {
    if (late_lines == LATE_LINES) return;
    struct late *entry = &late[late_lines++];
    entry->due = now() + random_below(LATEST);
    entry->to = to;
    entry->length = length;
    memcpy(entry->line, line, length);
}

static void send_late_lines(void) {
    for (unsigned i = 0; i < late_lines;)
        if (late[i].due <= now()) {
            send_now(late[i].to, late[i].line, late[i].length);
            late[i] = late[--late_lines];
        } else {
            i++;
        }
}

static int occurs(uint64_t *count) {
    if (random_below(100) >= percent) return 0;
    ++*count;
    return 1;
}

static void post(int to, const uint8_t *line, size_t length) {
    struct report *report = &reports[me];
    report->lines++;
    if (occurs(&report->lost)) return;
    if (occurs(&report->repeated)) send_later(to, line, length);
    if (occurs(&report->late)) send_later(to, line, length);
    else send_now(to, line, length);
}

/* Posts the lines that the calls wrote. The second number of a line is its receiver. */
static void post_lines(void) {
    size_t begin = 0;
    for (size_t i = 0; i < filled; i++) {
        if (out[i] != '\n') continue;
        char line[LINE] = {0};
        int to;
        must(i - begin < sizeof line, "a line is too long");
        memcpy(line, out + begin, i - begin);
        must(sscanf(line, "%*s %*d %d", &to) == 1, line);
        post(me < VOTERS ? VOTERS + to : to, out + begin, i - begin);
        begin = i + 1;
    }
    filled = 0;
}

/* Receives the next line. Drops lines that don't come from the node that they name: LOCKED is believed. */
static int receive(uint8_t *line, size_t *length, int *from) {
    struct sockaddr_in sender;
    socklen_t size = sizeof sender;
    ssize_t n;
    while ((n = recvfrom(sockets[me], line, LINE - 1, 0, (struct sockaddr *)&sender, &size)) >= 0) {
        line[n] = 0;
        *length = (size_t)n;
        if (sscanf((const char *)line, "%*s %d", from) != 1 || *from < 0) continue;
        *from += me < VOTERS ? VOTERS : 0;
        if (*from < NODES && sender.sin_port == addresses[*from].sin_port) return 1;
    }
    return 0;
}

/* waits for a line, but not longer; ends this process if its parent did */
static void wait_for_lines(int milliseconds) {
    struct pollfd socket = {.fd = sockets[me], .events = POLLIN};
    if (getppid() != parent) _exit(0);
    poll(&socket, 1, milliseconds);
    send_late_lines();
}

/* Half of the lives start with what came to their socket before, the others as if it were a new one. */
static void drop_old_lines(void) {
    uint8_t line[LINE];
    int drops = random_below(2) == 0;
    while (drops && recv(sockets[me], line, sizeof line, 0) >= 0) continue;
}

/* ---- A voter */

static struct store store;               /* of this voter, or of this client */
static int64_t heard[QLOCK_MAX_CLIENTS]; /* when the last line of each client came */
static uint64_t lease_grant;             /* the grant that the lease is of */
static int64_t lease_begin;

/* Makes the voter again that lost its state. All its grants were of the blocks before this one. */
static void be_reborn(uint64_t block) {
    uint64_t above = block * GRANTS, last = reports[me].grant;
    if (manner == WRONG_COUNT) above = last > 0 ? last - 1 : 0;
    must(qlock_voter_reborn((uint8_t)me, above, (block + 1) * GRANTS, STATE) == QLOCK_DONE, "qlock_voter_reborn");
    store_save(&store, STATE);
}

static void begin_voter(uint64_t block) {
    int whole = store_open(&store, store_name(me));
    drop_old_lines();
    if (block > 0) {
        be_reborn(block);
        return;
    }
    must(whole, "no state");
    memcpy(state, store.last.content, sizeof state);
}

static void voter_takes_lines(void) {
    uint8_t line[LINE];
    size_t length;
    int from;
    for (int i = 0; i < LINES_A_TURN && receive(line, &length, &from); i++) {
        int32_t result = qlock_voter_take(STATE, line, length, OUT);
        if (result == QLOCK_BAD_MESSAGE) continue;
        keep(result, "qlock_voter_take");
        heard[from - VOTERS] = now();
    }
}

/* Lets the grant go that has the vote, if the lease is over: since the grant or the last line of its client. */
static void end_lease(void) {
    uint64_t client, stamp, grant;
    must(qlock_voter_held(STATE, &client, &stamp, &grant) == QLOCK_DONE, "qlock_voter_held");
    if (grant != lease_grant) lease_begin = now();
    lease_grant = grant;
    if (grant == 0) return;
    reports[me].grant = grant;
    if (now() < lease_begin + LEASE || now() < heard[client] + LEASE) return;
    keep(qlock_voter_evict(STATE, grant, OUT), "qlock_voter_evict");
    reports[me].evictions++;
}

static void voter_reminds(void) {
    static int64_t due;
    if (now() < due) return;
    keep(qlock_voter_remind(STATE, OUT), "qlock_voter_remind");
    due = now() + REMIND_VOTER;
}

void run_voter(uint64_t block) {
    begin_voter(block);
    for (;;) {
        wait_for_lines(5);
        voter_takes_lines();
        end_lease();
        voter_reminds();
        if (filled == 0) continue;
        store_save(&store, STATE); /* save, */
        post_lines();              /* then send */
    }
}

/* ---- The guarded file */

static void lock_file(short type) {
    struct flock lock = {.l_type = type, .l_whence = SEEK_SET};
    must(fcntl(file, F_SETLKW, &lock) == 0, "lock");
}

int read_record(uint64_t index, struct record *record) {
    return pread(file, record, sizeof *record, (off_t)(index * sizeof *record)) == (ssize_t)sizeof *record &&
           record->sum == sum_of(record, sizeof *record);
}

uint64_t count_records(void) {
    struct stat status;
    must(fstat(file, &status) == 0, "fstat");
    return (uint64_t)status.st_size / sizeof(struct record);
}

/* Reads the last whole record, and returns how many there are. A kill may leave one at the end that is not whole. */
static uint64_t read_last(struct record *record) {
    uint64_t count = count_records();
    if (count > 0 && !read_record(count - 1, record)) count--;
    if (count > 0) {
        must(read_record(count - 1, record), "a record is damaged");
    } else {
        memset(record, 0, sizeof *record);
        must(qlock_fence_new(record->guard, sizeof record->guard) == QLOCK_DONE, "qlock_fence_new");
    }
    return count;
}

/* ---- A client */

static uint64_t ahead;     /* the number in its file: no stamp above it was ever used */
static struct record mine; /* the last record of this visit */
static unsigned parts;     /* how many records this visit has */
static int64_t next;       /* when to ask, to write or to leave */
static int64_t give_up_at; /* when to give a request up */
static int64_t remind_at;  /* when to remind or to renew */

/* ends what an earlier life asked or had */
static void disclaim(void) {
    keep(qlock_client_disclaim(STATE, (1 << VOTERS) - 1, OUT), "qlock_client_disclaim");
    post_lines();
}

/* The quorums are all majorities. Half of the clients take them in turn, the others at random. */
static uint64_t next_quorum(void) {
    static unsigned quorum;
    for (;;) {
        quorum = me % 2 ? (quorum + 1) % (1 << VOTERS) : random_below(1 << VOTERS);
        unsigned members = 0;
        for (unsigned v = 0; v < VOTERS; v++) members += quorum >> v & 1;
        if (members == MAJORITY) return quorum;
    }
}

static int32_t phase(uint64_t *stamp) {
    uint64_t quorum;
    int32_t phase;
    must(qlock_client_shows(STATE, &phase, stamp, &quorum) == QLOCK_DONE, "qlock_client_shows");
    return phase;
}

/* The stamp is known once the call has asked. If it is above the number in the file, a greater one is written before
   any line leaves. */
static void ask(void) {
    uint64_t stamp;
    keep(qlock_client_ask(STATE, next_quorum(), OUT), "qlock_client_ask");
    phase(&stamp);
    if (manner == WRONG_CLOCK) ahead = stamp - 1;
    else if (stamp > ahead) ahead = stamp + STAMPS;
    store_save(&store, &ahead, sizeof ahead); /* writes only what changed */
    give_up_at = now() + GIVE_UP;
    remind_at = now() + REMIND_CLIENT;
}

static void begin_client(uint64_t life) {
    must(store_open(&store, store_name(me)), "no clock");
    drop_old_lines();
    memcpy(&ahead, store.last.content, sizeof ahead);
    uint8_t id = (uint8_t)(me - VOTERS);
    must(qlock_client_anew(id, QLOCK_MAX_STAMP, ahead, STATE) == QLOCK_DONE, "qlock_client_anew");
    disclaim();
    wait_for_lines(5);
    disclaim(); /* again, as lines may be lost */
    mine.client = id;
    mine.life = life;
}

static void enter(void) {
    reports[me].inside = 1;
    reports[me].visits++;
    for (int node = VOTERS; node < NODES; node++)
        if (node != me && reports[node].inside) {
            reports[me].meetings++;
            break;
        }
    phase(&mine.stamp);
    mine.part = 0;
    parts = 2 + random_below(4);
    next = now();
    remind_at = now() + RENEW;
}

static void client_takes_lines(void) {
    uint8_t line[LINE];
    size_t length;
    int from;
    int32_t entered;
    for (int i = 0; i < LINES_A_TURN && receive(line, &length, &from); i++) {
        int32_t result = qlock_client_take(STATE, line, length, OUT, &entered);
        if (result == QLOCK_BAD_MESSAGE) continue;
        keep(result, "qlock_client_take");
        if (entered) enter();
    }
}

/* Shows the pass to the guard that the last record has, and returns whether it is admitted. */
static int admit(struct record *last) {
    uint8_t pass[QLOCK_PASS_BYTES];
    must(qlock_client_pass(STATE, pass, sizeof pass) == QLOCK_DONE, "qlock_client_pass");
    if (manner == WRONG_GUARD) {
        last->turn = mine.part == 0 ? last->turn + 1 : mine.turn;
        return 1;
    }
    int32_t result = qlock_fence_admit(last->guard, sizeof last->guard, pass, sizeof pass, &last->turn);
    must(result == QLOCK_DONE || result == QLOCK_OLDER_GRANT, "qlock_fence_admit");
    return result == QLOCK_DONE;
}

/* Admits the pass and writes a record, in one step. Returns whether the pass was admitted. The count is read once in a
   visit, so it shows whether somebody else wrote since. */
static int write_record(void) {
    struct record last;
    lock_file(F_WRLCK);
    uint64_t records = read_last(&last);
    if (mine.part == 0) mine.count = last.count;
    int admitted = admit(&last);
    if (admitted) {
        mine.count++;
        mine.part++;
        mine.turn = last.turn;
        memcpy(mine.guard, last.guard, sizeof mine.guard);
        mine.sum = sum_of(&mine, sizeof mine);
        must(pwrite(file, &mine, sizeof mine, (off_t)(records * sizeof mine)) == (ssize_t)sizeof mine, "write");
    }
    lock_file(F_UNLCK);
    return admitted;
}

static void leave(void) {
    reports[me].inside = 0;
    keep(qlock_client_leave(STATE, OUT), "qlock_client_leave");
}

/* Writes the next record. Leaves after the last one, or if the guard refuses: then this client was let go. */
static void work(void) {
    next = now() + random_below(manner == DISKS_LOST || manner == WRONG_COUNT ? 60 : 8);
    if (mine.part == parts) {
        leave();
    } else if (!write_record()) {
        reports[me].refused++;
        leave();
    }
}

static void wait_or_give_up(void) {
    if (now() >= give_up_at) {
        keep(qlock_client_give_up(STATE, OUT), "qlock_client_give_up");
        reports[me].given_up++;
        next = now() + random_below(10);
    } else if (now() >= remind_at) {
        keep(qlock_client_remind(STATE, OUT), "qlock_client_remind");
        remind_at = now() + REMIND_CLIENT;
    }
}

static void renew(void) {
    if (now() < remind_at) return;
    keep(qlock_client_renew(STATE, OUT), "qlock_client_renew");
    remind_at = now() + RENEW;
}

void run_client(uint64_t life) {
    uint64_t stamp;
    begin_client(life);
    for (;;) {
        wait_for_lines(1);
        client_takes_lines();
        int32_t doing = phase(&stamp);
        if (doing == QLOCK_INSIDE) renew();
        if (doing == QLOCK_ASKING) wait_or_give_up();
        if (doing == QLOCK_INSIDE && now() >= next) work();
        post_lines();
        if (doing == QLOCK_IDLE && now() >= next) ask();
        post_lines();
    }
}

/* ---- Setting up */

void make_node(int node) {
    uint64_t clock = 0;
    if (node >= VOTERS) {
        store_make(store_name(node), &clock, sizeof clock);
    } else {
        must(qlock_voter_new((uint8_t)node, GRANTS, STATE) == QLOCK_DONE, "qlock_voter_new");
        store_make(store_name(node), STATE);
    }
}
