/* leases.h: what the processes of the trial in leases.c have in common. */
#ifndef LEASES_H
#define LEASES_H
#include "qlock.h"
#include <netinet/in.h>
#include <sys/types.h>

/* nodes 0 to 4 are the voters, nodes 5 to 8 are the clients */
enum { VOTERS = 5, CLIENTS = 4, NODES = VOTERS + CLIENTS, MAJORITY = 3, PARENT = -1 };

/* the lease, in milliseconds */
enum { LEASE = 100 };

/* how many grants a block has, and how many blocks a voter */
enum { GRANTS = 1 << 30, BLOCKS = 1024 };

/* How the trial is played: as usual, or losing disks all the time, or with a part that is wrong. */
enum manner { USUAL, DISKS_LOST, WRONG_COUNT, WRONG_CLOCK, WRONG_GUARD };

/* What a node reports. Nothing depends on it but the choice of whom to stop, and when to end. */
struct report {
    uint64_t lines, lost, late, repeated; /* what it sent */
    uint64_t evictions, grant;            /* of a voter, and its last grant */
    uint64_t visits, refused, given_up;   /* of a client */
    uint64_t inside;                      /* whether the client believes to be inside */
    uint64_t meetings;                    /* how often another one did so as it entered */
};

/* A record of the guarded file. It has the guard after it, so the last whole record has the guard of now. */
struct record {
    uint64_t sum, count, turn, client, life, stamp, part;
    uint8_t guard[QLOCK_FENCE_BYTES];
};

/* which node this process is */
extern int me;

/* set by the parent, before it starts any process */
extern pid_t parent;
extern enum manner manner;
extern unsigned percent;
extern int sockets[NODES];
extern struct sockaddr_in addresses[NODES];
extern struct report *reports; /* one for each node, in memory that all share */
extern int file;               /* the guarded file */

/* Ends this process, and prints what failed. The parent cleans up as it exits. */
void fail(const char *what);
void must(int holds, const char *what);

/* the time in milliseconds */
int64_t now(void);

void seed_random(uint64_t seed, uint64_t node, uint64_t life);
unsigned random_below(unsigned n);

/* the name of a node's file: the state of a voter, or the clock of a client */
const char *store_name(int node);

/* whether the file has a whole slot */
int store_is_whole(const char *name);

/* makes the file with this content, or writes it there */
void store_make(const char *name, const void *content, size_t n);

/* makes the first state of a voter, or the first clock of a client */
void make_node(int node);

/* A voter with the state in its file, or, if the block is not 0, one that is reborn with this block. Never returns. */
void run_voter(uint64_t block);

/* A client that starts anew. The parent numbers the lives, for the witness. Never returns. */
void run_client(uint64_t life);

/* the checksum of a block that begins with its checksum */
uint64_t sum_of(const void *block, size_t n);

/* how many records the guarded file has; the last one may not be whole */
uint64_t count_records(void);

/* reads a record, and returns whether it is whole */
int read_record(uint64_t index, struct record *record);
#endif
