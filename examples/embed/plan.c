/* A plan of a wheel of four rims, from C: finds it, checks it, and deals one cycle in both orders. A client asks the quorum of
   ticket 1. Last, two sets that don't meet are refused.

       cc plan.c -I../../include ../../build/libqlock_plan.a ../../build/libqlock.a -o plan && ./plan */
#include "qlock_plan.h"
#include <inttypes.h>
#include <stdio.h>
#include <stdlib.h>
#include <string.h>

enum { MOST_VOTERS = 64, CYCLE = 7 };

static const char wheel[] = "voters = ['hub', 'rim1', 'rim2', 'rim3', 'rim4']\n"
                            "quorums = [['hub', 'rim1'], ['hub', 'rim2'], ['hub', 'rim3'], ['hub', 'rim4'],\n"
                            "           ['rim1', 'rim2', 'rim3', 'rim4']]\n";
static const char apart[] = "voters = ['a', 'b']\nquorums = [['a'], ['b']]\n";
static uint8_t plan[QLOCK_PLAN_OUT], fault[QLOCK_FAULT_OUT], names[QLOCK_NAMES_OUT], lines[QLOCK_CLIENT_OUT];
static const uint8_t *name_at[MOST_VOTERS + 1];
static size_t written, plan_len, voters;

static const uint8_t *text(const char *letters) { return (const uint8_t *)letters; }

/* ends the program if the call was not done; a text that was refused has a line in `out` */
static void must(int32_t result, const char *call, const uint8_t *out) {
    if (result == QLOCK_DONE) return;
    fprintf(stderr, "%s returned %d %.*s\n", call, (int)result, result == QLOCK_REFUSED ? (int)written : 0, (const char *)out);
    exit(1);
}

static void read_names(void) {
    must(qlock_names(text(wheel), strlen(wheel), names, sizeof names, &written), "qlock_names", names);
    name_at[0] = names;
    for (size_t i = 0; i < written; i++)
        if (names[i] == '\n') name_at[++voters] = names + i + 1;
}

static void find_plan(void) {
    must(qlock_plan(text(wheel), strlen(wheel), plan, sizeof plan, &written), "qlock_plan", plan);
    plan_len = written;
    printf("%.*s", (int)plan_len, (const char *)plan);
}

static void check_plan(void) {
    uint64_t load_p, load_q, cycle;
    must(qlock_check(text(wheel), strlen(wheel), plan, plan_len, &load_p, &load_q, &cycle, fault, sizeof fault, &written),
         "qlock_check", fault);
    printf("checked: load %" PRIu64 "/%" PRIu64 ", cycle %" PRIu64 "\n", load_p, load_q, cycle);
}

static void show_slack(void) {
    uint64_t stride, excess, unit;
    must(qlock_slack(text(wheel), strlen(wheel), plan, plan_len, &stride, &excess, &unit, fault, sizeof fault, &written),
         "qlock_slack", fault);
    printf("even order: stride %" PRIu64 ", slack %" PRIu64 "/%" PRIu64 "\n", stride, excess, unit);
}

/* the mask at a place: eight bytes, the lowest first */
static uint64_t mask_at(const uint8_t *masks, unsigned place) {
    uint64_t mask = 0;
    for (unsigned i = 0; i < QLOCK_MASK_BYTES; i++) mask |= (uint64_t)masks[QLOCK_MASK_BYTES * place + i] << (8 * i);
    return mask;
}

static void deal(uint32_t order, uint64_t *quorums) {
    uint8_t masks[CYCLE * QLOCK_MASK_BYTES];
    must(qlock_quorums(text(wheel), strlen(wheel), plan, plan_len, order, 0, masks, sizeof masks, fault, sizeof fault, &written),
         "qlock_quorums", fault);
    printf(order == QLOCK_EVEN ? "even:\n" : "by rounds:\n");
    for (unsigned ticket = 0; ticket < CYCLE; ticket++) {
        quorums[ticket] = mask_at(masks, ticket);
        printf("  ticket %u:", ticket);
        for (size_t v = 0; v < voters; v++)
            if (quorums[ticket] >> v & 1) printf(" %.*s", (int)(name_at[v + 1] - name_at[v] - 1), (const char *)name_at[v]);
        printf("\n");
    }
}

static void ask(uint64_t quorum) {
    uint8_t client[QLOCK_CLIENT_BYTES];
    must(qlock_client_new(0, QLOCK_MAX_STAMP, client, sizeof client), "qlock_client_new", client);
    must(qlock_client_ask(client, sizeof client, quorum, lines, sizeof lines, &written), "qlock_client_ask", lines);
    printf("client 0 sends:\n%.*s", (int)written, (const char *)lines);
}

int main(void) {
    uint64_t by_rounds[CYCLE], even[CYCLE];
    read_names();
    find_plan();
    check_plan();
    show_slack();
    deal(QLOCK_BY_ROUNDS, by_rounds);
    deal(QLOCK_EVEN, even);
    ask(even[1]);
    int32_t result = qlock_plan(text(apart), strlen(apart), fault, sizeof fault, &written);
    printf("two sets that don't meet: %d %.*s\n", (int)result, (int)written, (const char *)fault);
    return 0;
}
