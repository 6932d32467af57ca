/* The race of two clients for three voters, in one process: both ask, one enters and leaves, then the other enters. Voter 1 is
   killed while client 0 is inside, and restored from its bytes. race.py and race.rs play the same, and print the same.

       cc race.c -I../../include ../../build/libqlock.a -o race && ./race */
#include "qlock.h"
#include <inttypes.h>
#include <stdio.h>
#include <stdlib.h>
#include <string.h>

enum { VOTERS = 3, CLIENTS = 2, LINE = 80, LINES = 64 };

static uint8_t voters[VOTERS][QLOCK_VOTER_BYTES], saved_voters[VOTERS][QLOCK_VOTER_BYTES];
static uint8_t clients[CLIENTS][QLOCK_CLIENT_BYTES], saved_clients[CLIENTS][QLOCK_CLIENT_BYTES];
static uint8_t guard[QLOCK_FENCE_BYTES], first_pass[QLOCK_PASS_BYTES];
static uint8_t out[QLOCK_CLIENT_OUT];

/* the messages that are on the way, in the order in which they were sent */
static char network[LINES][LINE];
static unsigned sent, arrived;

static void must(int32_t result, const char *call) {
    if (result != QLOCK_DONE) {
        fprintf(stderr, "%s returned %d\n", call, (int)result);
        exit(1);
    }
}

/* sends each line of the last call */
static void send_lines(size_t written) {
    size_t begin = 0;
    for (size_t i = 0; i < written; i++)
        if (out[i] == '\n') {
            memcpy(network[sent], out + begin, i - begin);
            network[sent++][i - begin] = 0;
            begin = i + 1;
        }
}

/* save, then send */
static void end_voter(unsigned v, size_t written) {
    memcpy(saved_voters[v], voters[v], QLOCK_VOTER_BYTES);
    send_lines(written);
}

static void end_client(unsigned c, size_t written) {
    memcpy(saved_clients[c], clients[c], QLOCK_CLIENT_BYTES);
    send_lines(written);
}

static void enter(unsigned c) {
    uint8_t pass[QLOCK_PASS_BYTES];
    must(qlock_client_pass(clients[c], QLOCK_CLIENT_BYTES, pass, sizeof pass), "pass");
    uint64_t turn = 0;
    int32_t result = qlock_fence_admit(guard, sizeof guard, pass, sizeof pass, &turn);
    printf("client %u is inside, and the guard returns %d\n", c, (int)result);
    if (c == 0) memcpy(first_pass, pass, sizeof pass);
}

/* delivers the messages until none is on the way */
static void deliver(void) {
    for (; arrived < sent; arrived++) {
        const char *line = network[arrived];
        char word[16];
        unsigned from, to;
        size_t written;
        sscanf(line, "%15s %u %u", word, &from, &to);
        if (strcmp(word, "request") == 0 || strcmp(word, "release") == 0 || strcmp(word, "relinquish") == 0) {
            printf("voter %u takes: %s\n", to, line);
            must(qlock_voter_take(voters[to], QLOCK_VOTER_BYTES, (const uint8_t *)line, strlen(line), out, sizeof out, &written),
                 "qlock_voter_take");
            end_voter(to, written);
        } else {
            int32_t entered;
            printf("client %u takes: %s\n", to, line);
            must(qlock_client_take(clients[to], QLOCK_CLIENT_BYTES, (const uint8_t *)line, strlen(line), out, sizeof out, &written,
                                   &entered),
                 "qlock_client_take");
            end_client(to, written);
            if (entered) enter(to);
        }
    }
}

static void ask(unsigned c, uint64_t quorum) {
    size_t written;
    printf("client %u asks the quorum %" PRIu64 "\n", c, quorum);
    must(qlock_client_ask(clients[c], QLOCK_CLIENT_BYTES, quorum, out, sizeof out, &written), "qlock_client_ask");
    end_client(c, written);
}

static void leave(unsigned c) {
    size_t written;
    printf("client %u leaves\n", c);
    must(qlock_client_leave(clients[c], QLOCK_CLIENT_BYTES, out, sizeof out, &written), "qlock_client_leave");
    end_client(c, written);
}

static void kill_and_restore(unsigned v) {
    uint64_t client, stamp, grant;
    memset(voters[v], 0, QLOCK_VOTER_BYTES);
    memcpy(voters[v], saved_voters[v], QLOCK_VOTER_BYTES);
    must(qlock_voter_held(voters[v], QLOCK_VOTER_BYTES, &client, &stamp, &grant), "qlock_voter_held");
    printf("voter %u was killed, and is back: grant %" PRIu64 " of client %" PRIu64 ", stamp %" PRIu64 "\n", v, grant, client, stamp);
}

static void show(unsigned c) {
    int32_t phase;
    uint64_t stamp, quorum;
    must(qlock_client_shows(clients[c], QLOCK_CLIENT_BYTES, &phase, &stamp, &quorum), "qlock_client_shows");
    printf("client %u: phase %d, stamp %" PRIu64 ", quorum %" PRIu64 "\n", c, (int)phase, stamp, quorum);
}

int main(void) {
    for (unsigned v = 0; v < VOTERS; v++) {
        must(qlock_voter_new((uint8_t)v, QLOCK_MAX_STAMP, voters[v], QLOCK_VOTER_BYTES), "qlock_voter_new");
        end_voter(v, 0);
    }
    for (unsigned c = 0; c < CLIENTS; c++) {
        must(qlock_client_new((uint8_t)c, QLOCK_MAX_STAMP, clients[c], QLOCK_CLIENT_BYTES), "qlock_client_new");
        end_client(c, 0);
    }
    must(qlock_fence_new(guard, sizeof guard), "qlock_fence_new");
    ask(0, 3);
    ask(1, 6);
    deliver();
    show(0);
    show(1);
    kill_and_restore(1);
    leave(0);
    deliver();
    show(0);
    show(1);
    printf("client 0 shows its old pass, and the guard returns %d\n",
           (int)qlock_fence_admit(guard, sizeof guard, first_pass, sizeof first_pass, &(uint64_t){0}));
    leave(1);
    deliver();
    show(1);
    return 0;
}
