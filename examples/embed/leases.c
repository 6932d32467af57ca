/* Five voters and four clients, each a process of its own, write into one guarded file. Their parent kills them, stops
   clients for longer than a lease, and takes the files of voters away. A witness then reads the guarded file: do two
   requests interleave?

       cc leases.c leases_node.c -I../../include ../../build/libqlock.a -o leases && ./leases 1000 1

       leases RECORDS SEED [PERCENT [MANNER]]

   The processes talk by datagrams on 127.0.0.1, one line in each. A sender loses PERCENT of its lines, repeats as many
   and delays as many: 5 if there is no such word. The trial ends once RECORDS were written and each kind of incident
   occurred. It fails if its time is over before. MANNER is `usual`, or `disks`: voters lose their files all the time.
   Three more play a part wrong, and the witness has to see it:

   - `count`: as `disks`, but a voter is reborn with one grant less than it gave;
   - `clock`: the clock of a client falls back to below its last stamp;
   - `guard`: every pass is admitted.

   This file has the parent and the witness, which call nothing of the library. The voters and the clients are in
   leases_node.c. */
#define _POSIX_C_SOURCE 200809L
#include "leases.h"
#include <arpa/inet.h>
#include <fcntl.h>
#include <signal.h>
#include <stddef.h>
#include <stdio.h>
#include <stdlib.h>
#include <string.h>
#include <sys/mman.h>
#include <sys/socket.h>
#include <sys/wait.h>
#include <time.h>
#include <unistd.h>

/* ---- The parent */

struct child {
    pid_t pid;   /* 0 if it is down */
    int64_t due; /* when it has to be started or continued, 0 if it runs */
};

static struct child children[NODES];
static uint64_t blocks[VOTERS]; /* the settings: the block of grants of each voter; they only grow */
static uint64_t seed, lives;
static unsigned voter_kills, client_kills, pauses, rebirths;
static char folder[256];
static volatile sig_atomic_t interrupted;

static void interrupt(int signal) {
    interrupted = signal;
}

static void set_signals(void (*handler)(int)) {
    struct sigaction action;
    memset(&action, 0, sizeof action);
    action.sa_handler = handler;
    sigaction(SIGINT, &action, NULL);
    sigaction(SIGTERM, &action, NULL);
    sigaction(SIGHUP, &action, NULL);
}

/* Ends all processes, and removes all files. Only a kill of the parent leaves its files. */
static void clean_up(void) {
    for (int node = 0; node < NODES; node++)
        if (children[node].pid > 0) {
            kill(children[node].pid, SIGKILL);
            waitpid(children[node].pid, NULL, 0);
        }
    if (folder[0] == 0) return;
    for (int node = 0; node < NODES; node++) unlink(store_name(node));
    unlink("blocks");
    unlink("guarded");
    unlink("reports");
    if (rmdir(folder) != 0) fprintf(stderr, "leases: %s is left\n", folder);
}

/* makes a folder of its own, which is the current one from now on */
static void make_folder(void) {
    const char *place = getenv("TMPDIR");
    char name[sizeof folder];
    int n = snprintf(name, sizeof name, "%s/leases-XXXXXX", place && place[0] == '/' ? place : "/tmp");
    must(n > 0 && (size_t)n < sizeof name && mkdtemp(name) != NULL && chdir(name) == 0, "no folder");
    memcpy(folder, name, sizeof folder);
}

/* The states of all voters and the clocks of all clients are made once. */
static void make_files(void) {
    for (int node = 0; node < NODES; node++) make_node(node);
    store_make("blocks", blocks, sizeof blocks);
    file = open("guarded", O_RDWR | O_CREAT, 0600);
    int shared = open("reports", O_RDWR | O_CREAT, 0600);
    must(file >= 0 && shared >= 0 && ftruncate(shared, NODES * sizeof *reports) == 0, "files");
    reports = mmap(NULL, NODES * sizeof *reports, PROT_READ | PROT_WRITE, MAP_SHARED, shared, 0);
    must(reports != MAP_FAILED, "mmap");
}

/* The system chooses the ports. The parent keeps each node's socket, so its port stays. */
static void make_sockets(void) {
    for (int node = 0; node < NODES; node++) {
        struct sockaddr *address = (struct sockaddr *)&addresses[node];
        socklen_t size = sizeof addresses[node];
        addresses[node].sin_family = AF_INET;
        addresses[node].sin_addr.s_addr = htonl(INADDR_LOOPBACK);
        sockets[node] = socket(AF_INET, SOCK_DGRAM, 0);
        must(sockets[node] >= 0 && fcntl(sockets[node], F_SETFL, O_NONBLOCK) == 0, "socket");
        must(bind(sockets[node], address, size) == 0 && getsockname(sockets[node], address, &size) == 0, "bind");
    }
}

/* ---- The incidents */

/* Gives a voter that lost its state the next block, which is noted before the voter starts. */
static void note_next_block(int voter) {
    blocks[voter]++;
    must(blocks[voter] < BLOCKS, "no block is left");
    store_make("blocks", blocks, sizeof blocks);
    rebirths++;
}

static void start(int node) {
    int reborn = node < VOTERS && !store_is_whole(store_name(node));
    if (reborn) note_next_block(node);
    lives++;
    pid_t pid = fork();
    must(pid >= 0, "fork");
    if (pid == 0) {
        me = node;
        set_signals(SIG_DFL);
        setpgid(0, 0); /* a stopped process in a group of its own is woken if its parent dies, and ends */
        seed_random(seed, (uint64_t)node, lives);
        if (node < VOTERS) run_voter(reborn ? blocks[node] : 0);
        run_client(lives);
    }
    children[node] = (struct child){.pid = pid};
}

/* whether disks are lost all the time, and voters are back at once */
static int loses_disks(void) {
    return manner == DISKS_LOST || manner == WRONG_COUNT;
}

static void kill_node(int node) {
    kill(children[node].pid, SIGKILL);
    waitpid(children[node].pid, NULL, 0);
    children[node] = (struct child){.due = now() + random_below(loses_disks() ? 2 : 80)};
    reports[node].inside = 0;
}

/* kills a voter, which may lose its disk, unless less than a majority would be left */
static void kill_a_voter(void) {
    int voter = (int)random_below(VOTERS), down = 0;
    for (int node = 0; node < VOTERS; node++) down += children[node].pid == 0;
    if (children[voter].due != 0 || down >= VOTERS - MAJORITY) return;
    kill_node(voter);
    voter_kills++;
    if (loses_disks() || random_below(4) == 0) unlink(store_name(voter));
}

/* chooses a client that believes to be inside, if it finds one soon */
static int choose_client(void) {
    int node = VOTERS;
    for (int i = 0; i < CLIENTS; i++) {
        node = VOTERS + (int)random_below(CLIENTS);
        if (reports[node].inside) break;
    }
    return node;
}

static void kill_a_client(void) {
    int node = choose_client();
    if (children[node].due != 0) return;
    kill_node(node);
    client_kills++;
}

static void stop_a_client(void) {
    int node = choose_client();
    if (children[node].due != 0) return;
    kill(children[node].pid, SIGSTOP);
    children[node].due = now() + LEASE + LEASE / 2 + random_below(2 * LEASE);
    pauses++;
}

static void play_incident(void) {
    unsigned kind = loses_disks() && random_below(4) > 0 ? 0 : random_below(3);
    if (kind == 0) kill_a_voter();
    if (kind == 1) kill_a_client();
    if (kind == 2) stop_a_client();
}

static void start_and_continue(void) {
    for (int node = 0; node < NODES; node++) {
        struct child *child = &children[node];
        if (child->due == 0 || child->due > now()) continue;
        if (child->pid == 0) start(node);
        else kill(child->pid, SIGCONT);
        child->due = 0;
    }
}

/* fails if a process ended that was not killed */
static void look_after_children(void) {
    pid_t ended = waitpid(-1, NULL, WNOHANG);
    if (ended == 0) return;
    for (int node = 0; node < NODES; node++)
        if (children[node].pid == ended) children[node].pid = 0;
    fail("a process ended by itself");
}

/* the sum of a number that all nodes report */
#define SUM(number) sum_up(offsetof(struct report, number))

static uint64_t sum_up(size_t offset) {
    uint64_t sum = 0;
    for (int node = 0; node < NODES; node++) sum += *(const uint64_t *)((const char *)&reports[node] + offset);
    return sum;
}

/* whether enough was written, and each kind of incident occurred */
static int is_done(uint64_t records) {
    int refused = SUM(refused) > 0 || manner == WRONG_GUARD;
    return count_records() >= records && voter_kills && client_kills && pauses && rebirths && SUM(evictions) &&
           SUM(meetings) && refused;
}

/* lets them run until it is done, and returns whether it was in time */
static int run(uint64_t records) {
    struct timespec pause = {.tv_nsec = 5000000};
    int64_t end = now() + 20000 + (int64_t)records * 40, incident_at = now() + 100;
    for (int node = 0; node < NODES; node++) start(node);
    while (!is_done(records)) {
        if (interrupted || now() >= end) return 0;
        look_after_children();
        start_and_continue();
        if (now() >= incident_at) {
            play_incident();
            incident_at = now() + 20 + random_below(loses_disks() ? 30 : 160);
        }
        nanosleep(&pause, NULL);
    }
    return 1;
}

/* ---- The witness: it looks at the records alone */

static int is_same_request(const struct record *a, const struct record *b) {
    return a->client == b->client && a->life == b->life && a->stamp == b->stamp;
}

/* what is wrong with a record that begins another request than the one before, NULL if nothing is */
static const char *fault_of_first(const struct record *records, uint64_t index) {
    const struct record *this = &records[index];
    for (uint64_t i = 0; i < index; i++) {
        const struct record *earlier = &records[i];
        if (is_same_request(this, earlier)) return "comes back after another request: they interleave";
        if (this->turn == earlier->turn) return "has the turn of another request";
        if (this->client == earlier->client && this->stamp == earlier->stamp) return "has a stamp of an earlier life";
    }
    if (index > 0 && this->turn < records[index - 1].turn) return "has a lower turn than the record before";
    return this->part == 1 ? NULL : "is not the first part of its visit";
}

/* what is wrong with a record of the same request as the one before, NULL if nothing is */
static const char *fault_of_next(const struct record *this, const struct record *before) {
    if (this->turn != before->turn) return "has another turn than its request had before";
    return this->part == before->part + 1 ? NULL : "is not the next part of its visit";
}

static const char *fault_of(const struct record *records, uint64_t index) {
    const struct record *this = &records[index], *before = index > 0 ? this - 1 : NULL;
    if (this->sum != sum_of(this, sizeof *this)) return "is damaged";
    int goes_on = before != NULL && is_same_request(this, before);
    const char *fault = goes_on ? fault_of_next(this, before) : fault_of_first(records, index);
    if (fault != NULL) return fault;
    return this->count == (before != NULL ? before->count : 0) + 1 ? NULL : "has a count that is not the next one";
}

static void print_fault(const struct record *record, uint64_t number, const char *fault) {
    unsigned long long client = record->client, life = record->life, stamp = record->stamp, turn = record->turn;
    printf("record %llu of client %llu, life %llu, ", (unsigned long long)number, client, life);
    printf("stamp %llu, turn %llu %s\n", stamp, turn, fault);
}

/* Returns how many records have a fault, and names the first ones. One at the end that is not whole was not written. */
static uint64_t witness(void) {
    uint64_t count = count_records(), faults = 0;
    struct record *records = calloc(count + 1, sizeof *records);
    must(records != NULL, "memory");
    for (uint64_t i = 0; i < count; i++)
        if (!read_record(i, &records[i]) && i + 1 == count) count--;
    for (uint64_t i = 0; i < count; i++) {
        const char *fault = fault_of(records, i);
        if (fault != NULL && ++faults <= 5) print_fault(&records[i], i + 1, fault);
    }
    free(records);
    return faults;
}

/* ---- The trial */

static void print_report(int64_t begin) {
    unsigned long long records = count_records(), visits = SUM(visits), meetings = SUM(meetings),
                       refused = SUM(refused), evictions = SUM(evictions), given_up = SUM(given_up), lines = SUM(lines),
                       lost = SUM(lost), late = SUM(late), repeated = SUM(repeated);
    printf("%llu records in %llu visits, %.1f s\n", records, visits, (double)(now() - begin) / 1000);
    printf("voters: %u kills, %u of them reborn, %llu evictions\n", voter_kills, rebirths, evictions);
    printf("clients: %u kills, %u pauses, %llu requests given up\n", client_kills, pauses, given_up);
    printf("visits with another one inside: %llu, passes refused: %llu\n", meetings, refused);
    printf("lines: %llu sent, %llu lost, %llu late, %llu repeated\n", lines, lost, late, repeated);
}

static int read_manner(const char *word) {
    static const char *const words[] = {"usual", "disks", "count", "clock", "guard"};
    for (int i = USUAL; i <= WRONG_GUARD; i++)
        if (strcmp(word, words[i]) == 0) {
            manner = (enum manner)i;
            return 1;
        }
    return 0;
}

static int read_arguments(int count, char **words, uint64_t *records) {
    if (count < 3 || count > 5) return 0;
    *records = strtoull(words[1], NULL, 10);
    seed = strtoull(words[2], NULL, 10);
    if (count > 3) percent = (unsigned)strtoul(words[3], NULL, 10);
    if (count > 4 && !read_manner(words[4])) return 0;
    return *records > 0 && *records <= 1000000 && percent <= 50;
}

int main(int count, char **words) {
    uint64_t records;
    int64_t begin = now();
    if (!read_arguments(count, words, &records)) {
        fprintf(stderr, "leases RECORDS SEED [PERCENT [usual|disks|count|clock|guard]]\n");
        return 1;
    }
    parent = getpid();
    atexit(clean_up);
    set_signals(interrupt);
    seed_random(seed, NODES, 0);
    make_folder();
    make_files();
    make_sockets();
    int in_time = run(records);
    for (int node = 0; node < NODES; node++)
        if (children[node].pid > 0) kill_node(node);
    print_report(begin);
    uint64_t faults = witness();
    if (!in_time) puts(interrupted ? "interrupted" : "the time is over");
    else if (faults > 0) printf("%llu records have a fault\n", (unsigned long long)faults);
    else puts("no two interleave");
    return in_time && faults == 0 ? 0 : 1;
}
