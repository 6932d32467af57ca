/* Tries the boundary of the planning library: random bytes as texts, texts that are nearly right, short rooms and lengths of 0,
   and memory that is refused at every place in turn. Each call has to return one of its named results, and to write nothing if
   that is not QLOCK_DONE or QLOCK_REFUSED. It has to write and read nothing outside of what it was given (blocks.h), and to give
   back all memory. What it writes has to fit together: a plan that was found is accepted, and whole cycles of both orders are
   the same.

       cc fuzz_plan.c -I../../include ../../build/libqlock_plan.a -Wl,--wrap=malloc,--wrap=realloc,--wrap=free -o fuzz_plan
       ./fuzz_plan [ROUNDS [SEED]] */
#include "blocks.h"
#include "qlock_plan.h"

enum { MOST_TEXT = 6000, MOST_CYCLE = 600 };

/* ---- Memory: how much is out, and which request is refused. */

static long blocks_out, requests, refuse_at = -1;
static int is_counted;

void *__real_malloc(size_t n);
void *__real_realloc(void *p, size_t n);
void __real_free(void *p);

static int is_refused(void) { return is_counted && requests++ == refuse_at; }

void *__wrap_malloc(size_t n) {
    if (is_refused()) return NULL;
    void *p = __real_malloc(n);
    if (is_counted && p != NULL) blocks_out++;
    return p;
}

void *__wrap_realloc(void *p, size_t n) {
    if (is_refused()) return NULL;
    void *q = __real_realloc(p, n);
    if (is_counted && p == NULL && q != NULL) blocks_out++;
    return q;
}

void __wrap_free(void *p) {
    if (is_counted && p != NULL) blocks_out--;
    __real_free(p);
}

/* ---- Texts. */

static char text[MOST_TEXT];

/* a coterie: a wheel, all sets of a majority, or random sets, which are mostly none */
static size_t coterie_text(void) {
    unsigned n = 1 + (unsigned)below(7);
    char *at = text;
    at += sprintf(at, "voters = [");
    for (unsigned v = 0; v < n; v++) at += sprintf(at, "%s\"%c%u\"", v ? ", " : "", below(9) ? 'v' : 'w', v);
    at += sprintf(at, "]\nquorums = [");
    size_t kind = below(8);
    int first = 1;
    for (unsigned set = 1; set < 1u << n; set++) {
        int size = __builtin_popcount(set), is_wheel = n > 2 && ((set & 1 && size == 2) || set == (1u << n) - 2);
        if (kind < 3 ? !is_wheel : kind < 7 ? size != (int)n / 2 + 1 : below(1u << n) > 3) continue;
        at += sprintf(at, "%s[", first ? "" : ", ");
        first = 0;
        for (unsigned v = 0, some = 0; v < n; v++)
            if (set >> v & 1) at += sprintf(at, "%s\"%c%u\"", some++ ? ", " : "", below(99) ? 'v' : 'w', v);
        at += sprintf(at, "]");
    }
    at += sprintf(at, "]\n");
    if (below(3) == 0) {
        at += sprintf(at, "capacity = [");
        for (unsigned v = 0; v < n; v++) at += sprintf(at, "%s%u", v ? ", " : "", (unsigned)below(30) ? 1 + (unsigned)below(3) : 0);
        at += sprintf(at, "]\n");
    }
    return (size_t)(at - text);
}

/* a text that is as it was, spoiled, cut, or random bytes */
static struct block maybe_spoiled(const char *bytes, size_t n) {
    if (below(24) == 0) return block_of(below(3) ? below(300) : 0);
    if (below(24) == 0) return copy_of((const uint8_t *)bytes, below(n + 1));
    struct block b = copy_of((const uint8_t *)bytes, n);
    if (below(4) == 0) spoil(&b);
    return b;
}

static struct block a_coterie(void) {
    size_t n = coterie_text();
    return maybe_spoiled(text, n);
}

/* mostly the plan of the coterie */
static struct block a_plan(const struct block *coterie) {
    static uint8_t plan[QLOCK_PLAN_OUT];
    size_t n = 0;
    if (below(16) && qlock_plan(coterie->bytes, coterie->n, plan, sizeof plan, &n) == QLOCK_DONE)
        return maybe_spoiled((const char *)plan, n);
    n = (size_t)sprintf(text, "quorum-plan %u\nload %u/%u\ncycle %u\nquorum 1 1 1\nvoter 1 1 1\n", 1 + (unsigned)below(2),
                        1 + (unsigned)below(3), 1 + (unsigned)below(3), 1 + (unsigned)below(5));
    return maybe_spoiled(text, n);
}

/* ---- Calls. */

/* what a call is given */
struct given {
    struct block coterie, plan, masks, out;
    uint64_t first;
    uint32_t order;
};

/* what it returned and wrote */
struct ending {
    int32_t result;
    size_t written;
    uint64_t a, b, c;
};

static const char *const calls_of[] = {"qlock_names", "qlock_plan", "qlock_check", "qlock_quorums", "qlock_slack"};

static struct ending make_call(size_t which, const struct given *g) {
    struct ending t = {-1, 7777, 7777, 7777, 7777};
    const struct block *c = &g->coterie, *p = &g->plan, *m = &g->masks, *o = &g->out;
    call = calls_of[which];
    requests = blocks_out = 0;
    is_counted = 1;
    switch (which) {
    case 0:
        t.result = qlock_names(c->bytes, c->n, o->bytes, o->n, &t.written);
        break;
    case 1:
        t.result = qlock_plan(c->bytes, c->n, o->bytes, o->n, &t.written);
        break;
    case 2:
        t.result = qlock_check(c->bytes, c->n, p->bytes, p->n, &t.a, &t.b, &t.c, o->bytes, o->n, &t.written);
        break;
    case 3:
        t.result = qlock_quorums(c->bytes, c->n, p->bytes, p->n, g->order, g->first, m->bytes, m->n, o->bytes, o->n, &t.written);
        break;
    default:
        t.result = qlock_slack(c->bytes, c->n, p->bytes, p->n, &t.a, &t.b, &t.c, o->bytes, o->n, &t.written);
        break;
    }
    is_counted = 0;
    if (blocks_out != 0) fail("did not give back all memory", t.result);
    return t;
}

/* what was written fits the result, and the header */
static void check_written(size_t which, const struct given *g, const struct ending *t) {
    static const size_t rooms[] = {QLOCK_NAMES_OUT, QLOCK_PLAN_OUT, QLOCK_FAULT_OUT, QLOCK_FAULT_OUT, QLOCK_FAULT_OUT};
    int is_text = which < 2 && t->result == QLOCK_DONE, is_line = t->result == QLOCK_REFUSED;
    is_named(t->result, which == 3 ? "014bc" : "04bc");
    if (t->result == QLOCK_NO_ROOM && g->out.n >= rooms[which]) fail("the room is not always enough", t->result);
    if (t->result == QLOCK_DONE || is_line) {
        if (t->written > g->out.n || (is_line && (t->written < 7 || t->written > QLOCK_FAULT_OUT))) fail("a length", t->result);
        if (memcmp(g->out.bytes + t->written, g->out.before + t->written, g->out.n - t->written) != 0)
            fail("wrote behind the text", t->result);
    } else if (t->written != 7777 || !is_same(&g->out)) {
        fail("wrote though it returned nothing", t->result);
    }
    if (t->result == QLOCK_DONE && !is_text && (t->written != 0 || !is_same(&g->out))) fail("wrote a text", t->result);
    if (is_text && g->out.bytes[t->written - 1] != '\n') fail("the last line has no newline", t->result);
    if (t->result != QLOCK_DONE && (t->a != 7777 || t->b != 7777 || t->c != 7777 || !is_same(&g->masks)))
        fail("wrote a number", t->result);
}

static uint64_t mask_at(const uint8_t *masks, size_t place) {
    uint64_t mask = 0;
    for (size_t i = 0; i < 8; i++) mask |= (uint64_t)masks[8 * place + i] << (8 * i);
    return mask;
}

static int by_number(const void *x, const void *y) {
    uint64_t a = *(const uint64_t *)x, b = *(const uint64_t *)y;
    return a < b ? -1 : a > b;
}

/* the quorums of one cycle from a ticket on, in one order; and as a list in ascending order */
static void one_cycle(const struct given *g, uint32_t order, uint64_t first, size_t cycle, uint64_t *quorums) {
    static uint8_t masks[8 * MOST_CYCLE], fault[QLOCK_FAULT_OUT];
    size_t n;
    int32_t result = qlock_quorums(g->coterie.bytes, g->coterie.n, g->plan.bytes, g->plan.n, order, first, masks, 8 * cycle,
                                   fault, sizeof fault, &n);
    if (result != QLOCK_DONE) fail("a checked plan is refused", result);
    for (size_t i = 0; i < cycle; i++) quorums[i] = mask_at(masks, i);
    qsort(quorums, cycle, sizeof *quorums, by_number);
}

/* a plan that was checked: its quorums meet, its load is that of a cycle if all capacities are 1, and whole cycles are the same */
static void check_cycle(const struct given *g, const struct ending *t) {
    static uint64_t rounds[MOST_CYCLE], even[MOST_CYCLE];
    if (t->c > MOST_CYCLE) return;
    one_cycle(g, QLOCK_BY_ROUNDS, below(100), (size_t)t->c, rounds);
    one_cycle(g, QLOCK_EVEN, rnd() >> 1 >> below(60), (size_t)t->c, even);
    if (memcmp(rounds, even, (size_t)t->c * sizeof *rounds) != 0) fail("whole cycles differ", t->result);
    uint64_t used[64] = {0}, most = 0;
    for (size_t i = 0; i < t->c; i++) {
        for (size_t j = 0; j < i; j++)
            if ((rounds[i] & rounds[j]) == 0) fail("two quorums do not meet", t->result);
        for (size_t v = 0; v < 64; v++) used[v] += rounds[i] >> v & 1;
    }
    for (size_t v = 0; v < 64; v++) most = used[v] > most ? used[v] : most;
    if (g->plan.n > 12 && g->plan.bytes[12] == '1' && most * t->b != t->a * t->c) fail("the load is not the busiest voter's", t->result);
}

/* refuses each request for memory in turn: nothing is written, until all that the call needs is given */
static void refuse_memory(size_t which, struct given *g, int32_t result) {
    unsigned long calls_before = calls, done_before = done;
    struct ending t;
    refuse_at = -1;
    do {
        refuse_at++;
        memcpy(g->out.bytes, g->out.before, g->out.n);
        memcpy(g->masks.bytes, g->masks.before, g->masks.n);
        t = make_call(which, g);
        if (requests > refuse_at && t.result != QLOCK_NO_MEMORY && t.result != result) fail("another result without memory", t.result);
        check_written(which, g, &t);
    } while (requests > refuse_at);
    if (t.result != result) fail("another result with memory", t.result);
    calls = calls_before, done = done_before;
    refuse_at = -1;
}

static void one_round(void) {
    static const uint64_t edges[] = {0, 1, UINT64_MAX, QLOCK_MAX_TICKETS, QLOCK_MAX_TICKETS - 1, QLOCK_MAX_TICKETS + 1};
    size_t which = below(5);
    struct given g;
    g.coterie = a_coterie();
    g.plan = a_plan(&g.coterie);
    g.masks = block_of(below(4) ? 8 * below(40) : below(100));
    g.out = block_of(below(5) == 0 ? below(80) : below(6) ? QLOCK_FAULT_OUT : below(2) ? QLOCK_NAMES_OUT : QLOCK_PLAN_OUT);
    g.first = below(4) == 0 ? edges[below(6)] : below(100);
    g.order = below(12) == 0 ? (uint32_t)rnd() : (uint32_t)below(2);
    note(&g.coterie), note(&g.plan), note(&g.masks), note(&g.out);
    struct ending t = make_call(which, &g);
    check_written(which, &g, &t);
    if (which == 2 && t.result == QLOCK_DONE) check_cycle(&g, &t);
    if (below(20) == 0) refuse_memory(which, &g, t.result);
    end(&g.coterie, 0, t.result);
    end(&g.plan, 0, t.result);
    end(&g.masks, which == 3, t.result);
    end(&g.out, 1, t.result);
}

int main(int argc, char **argv) {
    long rounds = argc > 1 ? atol(argv[1]) : 50000;
    if (argc > 2) seed ^= strtoull(argv[2], NULL, 10);
    for (long i = 0; i < rounds; i++) one_round();
    if (done < calls / 5) fail("hardly a call was done, so this tried little", 0);
    printf("the boundary holds\n");
    fprintf(stderr, "%lu calls, %lu done\n", calls, done);
    return 0;
}
