/* Tries the boundary of the library: random bytes as states and lines, states and lines that are nearly right, short rooms and
   lengths of 0. Each call has to return one of its named results, to write nothing if it returns another one than QLOCK_DONE,
   and to write and read nothing outside of what it was given (blocks.h).

       cc fuzz.c -I../../include ../../build/libqlock.a -o fuzz && ./fuzz [ROUNDS [SEED]] */
#include "blocks.h"
#include "qlock.h"

enum { MOST = 5200 };

/* a number: mostly small, sometimes at an edge */
static uint64_t number(void) {
    static const uint64_t edges[] = {0, 1, QLOCK_MAX_STAMP, QLOCK_MAX_STAMP + 1, UINT64_MAX, UINT64_MAX - 1, 63, 64};
    return below(5) == 0 ? edges[below(8)] : below(9);
}

/* a line of a message, maybe with a fault */
static struct block line_of(int to_voter) {
    static const char *voter_words[] = {"request", "relinquish", "release"}, *client_words[] = {"fail", "inquire", "locked"};
    char text[256];
    int n;
    size_t kind = below(3);
    if (below(16) == 0) return block_of(below(100));
    if (below(16) == 0) to_voter = !to_voter;
    if (to_voter)
        n = snprintf(text, sizeof text, "%s %u %u %llu", voter_words[kind], (unsigned)below(4), (unsigned)below(2),
                     (unsigned long long)number());
    else if (kind == 2)
        n = snprintf(text, sizeof text, "locked %u %u %llu %llu %llu", (unsigned)below(4), (unsigned)below(2),
                     (unsigned long long)number(), (unsigned long long)number(), (unsigned long long)number());
    else
        n = snprintf(text, sizeof text, "%s %u %u %llu %llu", client_words[kind], (unsigned)below(4), (unsigned)below(2),
                     (unsigned long long)number(), (unsigned long long)number());
    struct block b = copy_of((uint8_t *)text, (size_t)n);
    if (below(4) == 0) spoil(&b);
    return b;
}

static size_t room(void) { return below(4) == 0 ? below(100) : below(2) == 0 ? QLOCK_VOTER_OUT : QLOCK_CLIENT_OUT; }

/* the lines of a call end with a newline, and fill exactly what was written */
static void are_lines(const struct block *out, size_t written, int32_t result) {
    if (written > out->n) fail("wrote more than there is room for", result);
    if (written > 0 && out->bytes[written - 1] != '\n') fail("the last line has no newline", result);
    if (memcmp(out->bytes + written, out->before + written, out->n - written) != 0) fail("wrote behind the lines", result);
}

static uint8_t voter[QLOCK_VOTER_BYTES], client[QLOCK_CLIENT_BYTES], guard[QLOCK_FENCE_BYTES];

/* has the client ask voter 0, and get its vote: it is inside */
static void enter(unsigned id) {
    uint8_t out[QLOCK_CLIENT_OUT];
    char line[80];
    size_t written;
    int32_t entered = 0;
    int n = snprintf(line, sizeof line, "locked 0 %u 1 1 1", id);
    if (qlock_client_ask(client, sizeof client, 1, out, sizeof out, &written) != QLOCK_DONE) exit(3);
    if (qlock_client_take(client, sizeof client, (uint8_t *)line, (size_t)n, out, sizeof out, &written, &entered) != QLOCK_DONE) exit(3);
    if (entered != 1) exit(3);
}

/* begins anew, half of the time with a client that is inside */
static void fresh(void) {
    unsigned id = (unsigned)below(2);
    if (qlock_voter_new((uint8_t)below(2), below(3) ? QLOCK_MAX_STAMP : 2, voter, sizeof voter) != QLOCK_DONE) exit(3);
    if (qlock_client_new((uint8_t)id, below(3) ? QLOCK_MAX_STAMP : 4, client, sizeof client) != QLOCK_DONE) exit(3);
    if (qlock_fence_new(guard, sizeof guard) != QLOCK_DONE) exit(3);
    if (below(2)) enter(id);
}

/* a state: the current one, a spoiled one, one of another length, or random bytes */
static struct block state_of(const uint8_t *bytes, size_t n) {
    if (below(20) == 0) return block_of(below(3) == 0 ? 0 : below(MOST));
    if (below(20) == 0) return block_of(n);
    if (below(20) == 0) return copy_of(bytes, below(n));
    struct block b = copy_of(bytes, n);
    if (below(4) == 0) spoil(&b);
    return b;
}

/* keeps the new state of a call that was done; a state that the library wrote, it reads */
static void keep(uint8_t *bytes, size_t n, const struct block *b, int32_t result) {
    if (result == QLOCK_DONE && b->n == n && below(8) != 0) memcpy(bytes, b->bytes, n);
}

/* whether a pass is not all 0 */
static int has_grant(const struct block *pass) {
    for (size_t i = 0; i < pass->n; i++)
        if (pass->bytes[i] != 0) return 1;
    return 0;
}

static void check_voter(const struct block *b, int32_t result) {
    uint64_t x, y, z;
    if (result == QLOCK_DONE && qlock_voter_held(b->bytes, b->n, &x, &y, &z) != QLOCK_DONE) fail("its state is not read", result);
}

static void check_client(const struct block *b, int32_t result) {
    int32_t phase;
    uint64_t x, y;
    if (result == QLOCK_DONE && qlock_client_shows(b->bytes, b->n, &phase, &x, &y) != QLOCK_DONE)
        fail("its state is not read", result);
}

/* the calls for grants that are let go, and for a voter or a client that lost its state or forgets it */
static void one_lease(void) {
    size_t written = 7777;
    uint64_t a = 7777, b = 7777, c = 7777;
    int32_t yes = 7777;
    size_t which = below(11);
    struct block state = which < 6 ? state_of(voter, sizeof voter) : state_of(client, sizeof client), out = block_of(room());
    struct block saved = state_of(voter, sizeof voter);
    int32_t result = -1;
    note(&state), note(&out), note(&saved);
    int writes_state = 0, writes_out = 0;
    switch (which) {
    case 4:
        call = "qlock_voter_forget";
        result = qlock_voter_forget(state.bytes, state.n);
        is_named(result, "02");
        writes_state = result == QLOCK_DONE;
        check_voter(&state, result);
        if (below(8) == 0) keep(voter, sizeof voter, &state, result);
        break;
    case 5:
        call = "qlock_voter_must_save";
        result = qlock_voter_must_save(saved.bytes, saved.n, state.bytes, state.n, &yes);
        is_named(result, "02");
        if (result == QLOCK_DONE ? yes != 0 && yes != 1 : yes != 7777) fail("yes", result);
        if (result == QLOCK_DONE && saved.n == state.n && memcmp(saved.bytes, state.bytes, state.n) == 0 && yes != 0)
            fail("a save of what is saved", result);
        break;
    case 0:
        call = "qlock_voter_evict";
        result = qlock_voter_evict(state.bytes, state.n, below(8), out.bytes, out.n, &written);
        is_named(result, "0249");
        writes_state = writes_out = result == QLOCK_DONE;
        check_voter(&state, result);
        break;
    case 1:
        call = "qlock_voter_extend";
        result = qlock_voter_extend(state.bytes, state.n, below(2) ? QLOCK_MAX_STAMP : number());
        is_named(result, "012");
        writes_state = result == QLOCK_DONE;
        check_voter(&state, result);
        break;
    case 9:
        call = "qlock_voter_raise";
        result = qlock_voter_raise(state.bytes, state.n, number());
        is_named(result, "012");
        writes_state = result == QLOCK_DONE;
        check_voter(&state, result);
        break;
    case 2:
        call = "qlock_voter_knows";
        result = qlock_voter_knows(state.bytes, state.n, (uint8_t)below(80), &a, &b, &c);
        is_named(result, "012");
        if (result != QLOCK_DONE && (a != 7777 || b != 7777 || c != 7777)) fail("wrote though refused", result);
        break;
    case 3:
        call = "qlock_voter_reborn";
        result = qlock_voter_reborn((uint8_t)below(80), below(8), below(2) ? QLOCK_MAX_STAMP : number(), state.bytes, state.n);
        is_named(result, "012");
        writes_state = result == QLOCK_DONE;
        check_voter(&state, result);
        break;
    case 6:
        call = "qlock_client_disclaim";
        result = qlock_client_disclaim(state.bytes, state.n, rnd(), out.bytes, out.n, &written);
        is_named(result, "0245");
        writes_out = result == QLOCK_DONE;
        break;
    case 7:
        call = "qlock_client_renew";
        result = qlock_client_renew(state.bytes, state.n, out.bytes, out.n, &written);
        is_named(result, "024");
        writes_out = result == QLOCK_DONE;
        break;
    case 8:
        call = "qlock_client_raise";
        result = qlock_client_raise(state.bytes, state.n, number());
        is_named(result, "02");
        writes_state = result == QLOCK_DONE;
        check_client(&state, result);
        break;
    default:
        call = "qlock_client_anew";
        result = qlock_client_anew((uint8_t)below(80), below(2) ? QLOCK_MAX_STAMP : number(), below(8), state.bytes, state.n);
        is_named(result, "012");
        writes_state = result == QLOCK_DONE;
        check_client(&state, result);
        break;
    }
    if (writes_out) are_lines(&out, written, result);
    else if (written != 7777) fail("wrote a count", result);
    end(&state, writes_state, result);
    end(&out, writes_out, result);
    end(&saved, 0, result);
}

/* whether all members of some of the masks are among the voters, and whether each of the first meets each of the second */
static int has_one(const uint64_t *masks, size_t n, uint64_t among) {
    for (size_t i = 0; i < n; i++)
        if ((masks[i] & ~among) == 0) return 1;
    return 0;
}

static int all_meet(const uint64_t *firsts, size_t n, const uint64_t *seconds, size_t m) {
    for (size_t i = 0; i < n; i++)
        for (size_t j = 0; j < m; j++)
            if ((firsts[i] & seconds[j]) == 0) return 0;
    return 1;
}

/* masks of a few voters, now and then 0 */
static int fill_masks(struct block *b) {
    int zero = b->n == 0;
    for (size_t i = 0; i < b->n / 8; i++) {
        uint64_t mask = below(30) == 0 ? 0 : below(2) ? rnd() | rnd() : rnd() & 31;
        memcpy(b->bytes + 8 * i, &mask, 8);
        zero |= mask == 0;
    }
    return zero;
}

/* the calls on quorums */
static void one_quorum(void) {
    struct block first = block_of(8 * below(6)), second = block_of(8 * below(4));
    int zero = fill_masks(&first), other_zero = fill_masks(&second);
    uint64_t among = below(2) ? rnd() & 31 : rnd() | rnd() | rnd();
    int32_t yes = 7777, result, wanted;
    note(&first), note(&second);
    const uint64_t *firsts = (const uint64_t *)(const void *)first.bytes, *seconds = (const uint64_t *)(const void *)second.bytes;
    if (below(2)) {
        call = "qlock_has_quorum";
        result = qlock_has_quorum(firsts, first.n / 8, among, &yes);
        wanted = has_one(firsts, first.n / 8, among);
    } else {
        call = "qlock_bridge";
        result = qlock_bridge(firsts, first.n / 8, seconds, second.n / 8, &yes);
        wanted = all_meet(firsts, first.n / 8, seconds, second.n / 8);
        zero |= other_zero;
    }
    is_named(result, "01");
    if ((result == QLOCK_BAD_ARGUMENT) != (zero != 0)) fail("refused", result);
    if (yes != (result == QLOCK_DONE ? wanted : 7777)) fail("yes", result);
    end(&first, 0, result);
    end(&second, 0, result);
}

/* the first place from the ticket's on, around the cycle, of a quorum without these voters, and n if there is none */
static size_t place_without(const uint64_t *masks, size_t n, uint64_t ticket, uint64_t voters) {
    for (size_t i = 0; i < n; i++)
        if ((masks[(ticket % n + i) % n] & voters) == 0) return (ticket % n + i) % n;
    return n;
}

/* times up to 99 */
static struct block times_of(void) {
    struct block b = block_of(8 * below(70));
    for (size_t i = 0; i < b.n / 8; i++) {
        uint64_t time = below(100);
        memcpy(b.bytes + 8 * i, &time, 8);
    }
    note(&b);
    return b;
}

/* the calls on whom a session asks */
static void one_choice(void) {
    struct block quorums = block_of(8 * below(6)), heard = times_of(), ends = times_of();
    fill_masks(&quorums);
    note(&quorums);
    const uint64_t *masks = (const uint64_t *)(const void *)quorums.bytes, *at = (const uint64_t *)(const void *)heard.bytes;
    const uint64_t *until = (const uint64_t *)(const void *)ends.bytes;
    size_t n = quorums.n / 8, place;
    uint64_t avoided = rnd() & rnd() & 31, full = rnd() & rnd() & 31, ticket = below(2) ? below(20) : rnd();
    uint64_t quorum = rnd() & 31, votes = rnd() & rnd() & 31, now = below(100), most = below(100), asked = below(100), got = 7777, wanted = 0;
    uint32_t yes = 7777, waits = (quorum & ~votes & avoided) != 0 && place_without(masks, n, 0, avoided | full) < n;
    int32_t result;
    switch (below(5)) {
    case 0:
    case 1:
        call = below(2) ? "qlock_silent" : "qlock_avoided";
        for (size_t v = 0; v < 64; v++) {
            if (v < heard.n / 8 && now > at[v] && now - at[v] > most) wanted |= (uint64_t)1 << v;
            if (call[6] == 'a' && v < ends.n / 8 && now < until[v]) wanted |= (uint64_t)1 << v;
        }
        result = call[6] == 's' ? qlock_silent(at, heard.n / 8, now, most, &got)
                                : qlock_avoided(at, heard.n / 8, until, ends.n / 8, now, most, &got);
        is_named(result, "0");
        if (got != wanted) fail("voters", result);
        break;
    case 2:
        call = "qlock_next_quorum";
        place = place_without(masks, n, ticket, avoided | full);
        if (place == n) place = place_without(masks, n, ticket, full);
        result = qlock_next_quorum(masks, n, ticket, avoided, full, &got);
        is_named(result, "01");
        if ((result == QLOCK_BAD_ARGUMENT) != (place == n)) fail("refused", result);
        if (got != (result == QLOCK_DONE ? place : 7777)) fail("place", result);
        break;
    case 3:
        call = "qlock_waits_for";
        result = qlock_waits_for(masks, n, quorum, votes, avoided, full, &yes);
        is_named(result, "0");
        if (yes != waits) fail("yes", result);
        break;
    default:
        call = "qlock_is_stuck";
        result = qlock_is_stuck(masks, n, quorum, votes, asked, avoided, full, now, most, &yes);
        is_named(result, "0");
        if (yes != (now > asked && now - asked > most && waits)) fail("yes", result);
    }
    end(&quorums, 0, result);
    end(&heard, 0, result);
    end(&ends, 0, result);
}

/* the words of a call, which are numbers of 64 bits: mostly as many as it writes */
static struct block words_of(size_t n) { return block_of(8 * (below(8) ? n : below(20))); }

static uint64_t word(const struct block *words, size_t place) {
    uint64_t it;
    memcpy(&it, words->bytes + 8 * place, 8);
    return it;
}

/* the header of a message, maybe with a fault, and lines behind it */
static struct block message_of(void) {
    static const char *ends[] = {"", " level=7", " level=0", " caps=a,b", " level=18446744073709551615 x==", " x=1 level=2", "  ", " y"};
    char text[700];
    const char *end = ends[below(8)], *lines = below(4) ? "\norders request 1 0 2\n" : below(2) ? "\n" : "";
    int n;
    if (below(16) == 0) return block_of(below(600));
    if (below(3) == 0)
        n = snprintf(text, sizeof text, "qlock2 prod 0a1b o question%s%s", end, lines);
    else
        n = snprintf(text, sizeof text, "qlock2 %s 0a1b %c %u %llu %llu id-%0*u %llu%s%s", below(8) ? "prod" : "p.d", below(2) ? 'c' : 'v',
                     (unsigned)below(66), (unsigned long long)number(), (unsigned long long)number(), (int)below(70), 7u,
                     (unsigned long long)number(), end, lines);
    struct block b = copy_of((uint8_t *)text, (size_t)n);
    if (below(4) == 0) spoil(&b);
    return b;
}

/* a part of a header is in its first line */
static void is_part(const struct block *words, size_t place, const struct block *message, int32_t result) {
    uint64_t at = word(words, place), len = word(words, place + 1), lines = word(words, QLOCK_HEADER_LINES);
    if (len < 1 || len > 64 || at < 7 || lines > message->n || at + len >= lines) fail("a name is elsewhere", result);
}

/* the calls of headers: what was read is written as it was, but for ignored words */
static void one_header(void) {
    struct block message = message_of(), words = words_of(QLOCK_HEADER_WORDS), out = block_of(below(4) ? QLOCK_LINE_OUT : below(200));
    size_t written = 7777;
    note(&message), note(&words), note(&out);
    call = "qlock_header_read";
    int32_t result = qlock_header_read(message.bytes, message.n, (uint64_t *)(void *)words.bytes, words.n / 8);
    is_named(result, "013");
    if ((result == QLOCK_BAD_ARGUMENT) != (words.n != 8 * QLOCK_HEADER_WORDS)) fail("refused", result);
    int is_read = result == QLOCK_DONE, is_written = 0;
    if (is_read) {
        const uint8_t *bytes = message.bytes;
        is_part(&words, QLOCK_HEADER_CLUSTER, &message, result);
        is_part(&words, QLOCK_HEADER_COTERIE, &message, result);
        is_part(&words, QLOCK_HEADER_NAME, &message, result);
        call = "qlock_header_write";
        result = qlock_header_write((uint8_t)word(&words, 0), (uint8_t)word(&words, 1), word(&words, 2), word(&words, 3), word(&words, 4),
                                    word(&words, 5), bytes + word(&words, 6), word(&words, 7), bytes + word(&words, 8), word(&words, 9),
                                    bytes + word(&words, 10), word(&words, 11), out.bytes, out.n, &written);
        is_named(result, "04");
        is_written = result == QLOCK_DONE;
        if (is_written && (written > message.n || memcmp(out.bytes, bytes, written - 1) != 0)) fail("another line", result);
    }
    if (is_written) are_lines(&out, written, result);
    else if (written != 7777) fail("wrote a count", result);
    end(&message, 0, result);
    end(&words, is_read, result);
    end(&out, is_written, result);
}

/* a line of control, maybe with a fault */
static struct block control_of(void) {
    static const char *said[] = {"hello", "plan", "open", "close", "claim", "drop", "greet", "number", "claimed", "refused", "opened", "closed",
                                 "taken", "unknown", "quiet", "leaving", "greeted", "what"};
    char text[200];
    int n = snprintf(text, sizeof text, "%s", said[below(18)]);
    for (size_t k = below(8); k > 0; k--) n += snprintf(text + n, sizeof text - (size_t)n, " %llu", (unsigned long long)number());
    struct block b = copy_of((uint8_t *)text, (size_t)n);
    if (below(8) == 0) spoil(&b);
    return b;
}

/* the calls of lines of control: what was read is written as it was */
static void one_control(void) {
    int is_client = below(2) == 0;
    size_t wanted = is_client ? QLOCK_CLIENT_WORDS : QLOCK_VOTER_WORDS, written = 7777;
    struct block line = control_of(), words = words_of(wanted), out = block_of(below(4) ? QLOCK_LINE_OUT : below(40));
    uint64_t *numbers = (uint64_t *)(void *)words.bytes;
    note(&line), note(&words), note(&out);
    call = is_client ? "qlock_client_word_read" : "qlock_voter_word_read";
    int32_t result = is_client ? qlock_client_word_read(line.bytes, line.n, numbers, words.n / 8)
                               : qlock_voter_word_read(line.bytes, line.n, numbers, words.n / 8);
    is_named(result, "013");
    if ((result == QLOCK_BAD_ARGUMENT) != (words.n != 8 * wanted)) fail("refused", result);
    int is_read = result == QLOCK_DONE, is_written = 0;
    if (is_read && word(&words, 0) != QLOCK_SAYS_UNKNOWN) {
        call = is_client ? "qlock_client_word_write" : "qlock_voter_word_write";
        result = is_client ? qlock_client_word_write((uint8_t)numbers[0], (uint8_t)numbers[1], numbers[2], numbers[3], out.bytes, out.n, &written)
                           : qlock_voter_word_write((uint8_t)numbers[0], (uint8_t)numbers[1], numbers[2], numbers[3], numbers[4], numbers[5],
                                                    numbers[6], out.bytes, out.n, &written);
        is_named(result, "04");
        is_written = result == QLOCK_DONE;
        if (is_written && (written != line.n + 3 || memcmp(out.bytes, ". ", 2) != 0 || memcmp(out.bytes + 2, line.bytes, line.n) != 0))
            fail("another line", result);
    }
    if (is_written) are_lines(&out, written, result);
    else if (written != 7777) fail("wrote a count", result);
    end(&line, 0, result);
    end(&words, is_read, result);
    end(&out, is_written, result);
}

static void one_call(void) {
    size_t written = 7777;
    int32_t entered = 7777, phase = 7777;
    uint64_t a = 7777, b = 7777, c = 7777;
    size_t which = below(16);
    struct block state = which < 5 ? state_of(voter, sizeof voter) : which < 14 ? state_of(client, sizeof client) : state_of(guard, sizeof guard);
    struct block line = line_of(which < 3), out = block_of(room()), grants = block_of(below(4) ? QLOCK_PASS_BYTES : below(600));
    if (below(2) == 0) memset(grants.bytes, (int)below(3), grants.n);
    int32_t result = -1;
    note(&state), note(&line), note(&out), note(&grants);
    int writes_state = 0, writes_out = 0, writes_grants = 0;
    switch (which) {
    case 0:
    case 1:
        call = "qlock_voter_take";
        result = qlock_voter_take(state.bytes, state.n, line.bytes, line.n, out.bytes, out.n, &written);
        is_named(result, "02349");
        writes_state = writes_out = result == QLOCK_DONE;
        check_voter(&state, result);
        keep(voter, sizeof voter, &state, result);
        break;
    case 2:
        call = "qlock_voter_remind";
        result = qlock_voter_remind(state.bytes, state.n, out.bytes, out.n, &written);
        is_named(result, "024");
        writes_out = result == QLOCK_DONE;
        break;
    case 3:
        call = "qlock_voter_held";
        result = qlock_voter_held(state.bytes, state.n, &a, &b, &c);
        is_named(result, "02");
        if (result == QLOCK_DONE && (c == 0) != (b == 0)) fail("a grant without a stamp", result);
        if (result != QLOCK_DONE && (a != 7777 || b != 7777 || c != 7777)) fail("wrote though refused", result);
        break;
    case 4:
        call = "qlock_voter_new";
        result = qlock_voter_new((uint8_t)rnd(), number(), state.bytes, state.n);
        is_named(result, "012");
        writes_state = result == QLOCK_DONE;
        check_voter(&state, result);
        break;
    case 5:
    case 6:
    case 7:
        call = "qlock_client_take";
        result = qlock_client_take(state.bytes, state.n, line.bytes, line.n, out.bytes, out.n, &written, &entered);
        is_named(result, "0234");
        writes_state = writes_out = result == QLOCK_DONE;
        if (result == QLOCK_DONE ? entered != 0 && entered != 1 : entered != 7777) fail("entered", result);
        check_client(&state, result);
        keep(client, sizeof client, &state, result);
        break;
    case 8:
        call = "qlock_client_ask";
        result = qlock_client_ask(state.bytes, state.n, below(2) ? below(16) : rnd(), out.bytes, out.n, &written);
        is_named(result, "012458");
        writes_state = writes_out = result == QLOCK_DONE;
        check_client(&state, result);
        keep(client, sizeof client, &state, result);
        break;
    case 9:
        call = "qlock_client_leave";
        result = qlock_client_leave(state.bytes, state.n, out.bytes, out.n, &written);
        is_named(result, "0246");
        writes_state = writes_out = result == QLOCK_DONE;
        check_client(&state, result);
        keep(client, sizeof client, &state, result);
        break;
    case 10:
        call = "qlock_client_give_up";
        result = qlock_client_give_up(state.bytes, state.n, out.bytes, out.n, &written);
        is_named(result, "0247");
        writes_state = writes_out = result == QLOCK_DONE;
        check_client(&state, result);
        if (below(4) == 0) keep(client, sizeof client, &state, result);
        break;
    case 11:
        call = "qlock_client_remind";
        result = qlock_client_remind(state.bytes, state.n, out.bytes, out.n, &written);
        is_named(result, "024");
        writes_out = result == QLOCK_DONE;
        break;
    case 12:
        if (below(2)) {
            call = "qlock_client_forget";
            result = qlock_client_forget(state.bytes, state.n);
            is_named(result, "02");
            writes_state = result == QLOCK_DONE;
            check_client(&state, result);
            if (below(8) == 0) keep(client, sizeof client, &state, result);
        } else {
            call = "qlock_client_new";
            result = qlock_client_new((uint8_t)rnd(), number(), state.bytes, state.n);
            is_named(result, "012");
            writes_state = result == QLOCK_DONE;
            check_client(&state, result);
        }
        break;
    case 13:
        if (below(2)) {
            call = "qlock_client_shows";
            result = qlock_client_shows(state.bytes, state.n, &phase, &a, &b);
            is_named(result, "02");
            if (result == QLOCK_DONE ? phase < 0 || phase > 2 : phase != 7777 || a != 7777 || b != 7777) fail("phase", result);
        } else if (below(2)) {
            call = "qlock_client_grant";
            result = qlock_client_grant(state.bytes, state.n, (uint8_t)below(80), &a);
            is_named(result, "012");
            if (result != QLOCK_DONE && a != 7777) fail("wrote though refused", result);
        } else {
            call = "qlock_client_pass";
            result = qlock_client_pass(state.bytes, state.n, grants.bytes, grants.n);
            is_named(result, "0126");
            if (result == QLOCK_DONE && !has_grant(&grants)) fail("a pass without a grant", result);
            writes_grants = result == QLOCK_DONE;
        }
        break;
    default:
        call = "qlock_fence_admit";
        result = qlock_fence_admit(state.bytes, state.n, grants.bytes, grants.n, &a);
        is_named(result, "012ade");
        if (result == QLOCK_DONE ? a == 0 : a != 7777) fail("turn", result);
        if (result == QLOCK_DONE && !has_grant(&grants)) fail("admitted without a grant", result);
        if (result == QLOCK_NO_PASS && has_grant(&grants)) fail("has a grant", result);
        writes_state = result == QLOCK_DONE;
        keep(guard, sizeof guard, &state, result);
        break;
    }
    if (writes_out) are_lines(&out, written, result);
    else if (written != 7777) fail("wrote a count", result);
    end(&state, writes_state, result);
    end(&line, 0, result);
    end(&out, writes_out, result);
    end(&grants, writes_grants, result);
}

/* ---- one lock of a session, whole: what its calls write is what those of its parts write */

enum { SPAN = 20 };
static uint8_t own_client[QLOCK_CLIENT_BYTES], own_votes[QLOCK_VOTES_BYTES], own_calls[QLOCK_CALLS_BYTES], own_leases[QLOCK_LEASES_BYTES];
static uint64_t own_now;
static unsigned own_id;

/* a lock that nobody wants yet, of the client 0 or 1 */
static void fresh_lock(void) {
    uint64_t used = below(3);
    own_id = (unsigned)below(2);
    int32_t refused = qlock_client_anew((uint8_t)own_id, below(4) ? QLOCK_MAX_STAMP : used + 2, used, own_client, sizeof own_client);
    for (size_t v = 0; v < QLOCK_MAX_VOTERS; v++) {
        refused |= qlock_vote_new(used, own_votes + v * QLOCK_VOTE_BYTES, QLOCK_VOTE_BYTES);
        refused |= qlock_lease_new(own_leases + v * QLOCK_LEASE_BYTES, QLOCK_LEASE_BYTES);
    }
    if (refused | qlock_calls_new(used, own_calls, sizeof own_calls)) exit(3);
    own_now = 1;
}

/* the stamp of the lock's request, its quorum and its phase */
static uint64_t lock_shows(int32_t *phase, uint64_t *quorum) {
    uint64_t stamp;
    if (qlock_client_shows(own_client, sizeof own_client, phase, &stamp, quorum) != QLOCK_DONE) exit(3);
    return stamp;
}

/* up to when all votes of the quorum count, by the calls of each vote */
static uint64_t lock_end(void) {
    int32_t phase;
    uint64_t quorum, first = UINT64_MAX;
    lock_shows(&phase, &quorum);
    if (phase == QLOCK_IDLE) return 0;
    for (size_t v = 0; v < QLOCK_MAX_VOTERS; v++) {
        uint64_t end;
        if (!(quorum >> v & 1)) continue;
        if (qlock_vote_until(own_votes + v * QLOCK_VOTE_BYTES, QLOCK_VOTE_BYTES, own_leases + v * QLOCK_LEASE_BYTES, QLOCK_LEASE_BYTES, SPAN, &end)) exit(3);
        if (end < first) first = end;
    }
    return first;
}

/* what else happens to a lock: time passes, a voter is heard, and a call ends */
static void lock_goes_on(void) {
    int32_t phase;
    uint32_t yes;
    uint64_t quorum, stamp = lock_shows(&phase, &quorum);
    uint8_t *lease = own_leases + below(4) * QLOCK_LEASE_BYTES;
    own_now += below(4);
    switch (below(8)) {
    case 0:
        call = "qlock_lease_hears";
        is_named(qlock_lease_hears(lease, QLOCK_LEASE_BYTES, 0, below(20) == 0, 0, &yes), "0");
        break;
    case 1:
        call = "qlock_calls_unlocks";
        is_named(qlock_calls_unlocks(own_calls, sizeof own_calls, stamp, &yes), "0");
        break;
    case 2:
        call = "qlock_calls_unwants";
        is_named(qlock_calls_unwants(own_calls, sizeof own_calls, below(2)), "0");
        break;
    case 3:
        call = "qlock_calls_loses";
        is_named(qlock_calls_loses(own_calls, sizeof own_calls, &yes), "0");
        break;
    default:
        call = "qlock_lease_renews";
        is_named(qlock_lease_renews(lease, QLOCK_LEASE_BYTES, 0, 0, 0, own_now), "0");
    }
}

/* a line of a voter to the lock's client, half of the time the vote for its request */
static struct block line_of_lock(uint64_t stamp, int is_inside) {
    char text[80];
    if (below(2)) return line_of(0);
    int n = snprintf(text, sizeof text, "locked %u %u %llu %u %llu", (unsigned)below(4), own_id, (unsigned long long)stamp,
                     (unsigned)below(9), is_inside ? (unsigned long long)stamp : 0ull);
    return copy_of((uint8_t *)text, (size_t)n);
}

/* asks with a stamp at all votes, or ends the request of that stamp there, by the calls of each vote */
static void all_votes(uint8_t *votes, uint64_t stamp, int asks) {
    uint32_t yes;
    for (size_t v = 0; v < QLOCK_MAX_VOTERS; v++) {
        uint8_t *vote = votes + v * QLOCK_VOTE_BYTES;
        if ((asks ? qlock_vote_asks(vote, QLOCK_VOTE_BYTES, stamp, &yes) : qlock_vote_ends(vote, QLOCK_VOTE_BYTES, stamp)) != QLOCK_DONE) exit(3);
    }
}

static void one_lock(void) {
    lock_goes_on();
    int32_t phase, entered = 7777, entered_alone = 7777;
    uint32_t got = 7777, alone = 7777;
    uint64_t quorum, end_at = 7777, stamp = lock_shows(&phase, &quorum), until = lock_end(), asked = below(3) ? (uint64_t)1 << below(4) : rnd() & 15;
    size_t written = 7777, written_alone = 7777;
    int is_right = below(8) != 0, counts = own_now < until;
    struct block c = is_right ? copy_of(own_client, sizeof own_client) : state_of(own_client, sizeof own_client);
    struct block v = is_right ? copy_of(own_votes, sizeof own_votes) : state_of(own_votes, sizeof own_votes);
    struct block k = is_right ? copy_of(own_calls, sizeof own_calls) : state_of(own_calls, sizeof own_calls);
    struct block l = is_right ? copy_of(own_leases, sizeof own_leases) : state_of(own_leases, sizeof own_leases);
    struct block since = block_of(8 * QLOCK_MAX_VOTERS), line = line_of_lock(stamp, phase == QLOCK_INSIDE), out = block_of(room());
    if (below(2)) memset(since.bytes, 0, since.n);
    const uint64_t *at = (const uint64_t *)(const void *)since.bytes;
    uint8_t client_alone[QLOCK_CLIENT_BYTES], votes_alone[QLOCK_VOTES_BYTES], calls_alone[QLOCK_CALLS_BYTES], out_alone[MOST];
    memcpy(client_alone, own_client, sizeof client_alone);
    memcpy(votes_alone, own_votes, sizeof votes_alone);
    memcpy(calls_alone, own_calls, sizeof calls_alone);
    note(&c), note(&v), note(&k), note(&l), note(&since), note(&line), note(&out);
    int32_t result, result_alone = QLOCK_DONE;
    int sends = 0, takes = 0, writes_calls = 0, had = qlock_calls_may_end(own_calls, sizeof own_calls, stamp, &alone) == QLOCK_DONE && !alone;
    alone = 7777;
    /* half of the time what goes on: a request begins, gets a vote, and the lock is handed to a call */
    switch (below(2) ? below(11) : phase == QLOCK_IDLE ? 7 : phase == QLOCK_ASKING ? 10 : 3) {
    case 0:
        call = "qlock_held_until";
        result = qlock_held_until(c.bytes, c.n, v.bytes, v.n, k.bytes, k.n, l.bytes, l.n, SPAN, &end_at);
        is_named(result, "02");
        if (is_right && end_at != until) fail("another end", result);
        break;
    case 1: {
        uint32_t doubtful = 7777;
        call = "qlock_held_is_doubtful";
        result = qlock_held_is_doubtful(c.bytes, c.n, v.bytes, v.n, k.bytes, k.n, l.bytes, l.n, at, since.n / 8, SPAN, own_now, &doubtful);
        is_named(result, "02");
        if (is_right && (doubtful > 1 || (doubtful && phase == QLOCK_IDLE) || (doubtful && counts))) fail("doubt", result);
        call = "qlock_held_next";
        int32_t next = qlock_held_next(c.bytes, c.n, v.bytes, v.n, k.bytes, k.n, l.bytes, l.n, at, since.n / 8, SPAN, own_now, &got);
        if (next != result) fail("refused", next);
        if (!is_right) break;
        result_alone = qlock_calls_next(calls_alone, sizeof calls_alone, (uint32_t)phase, stamp, (uint32_t)counts, doubtful, &alone);
        break;
    }
    case 2:
        call = "qlock_held_spoiled";
        result = qlock_held_spoiled(c.bytes, c.n, v.bytes, v.n, k.bytes, k.n, &got);
        is_named(result, "02");
        if (is_right) result_alone = qlock_calls_spoiled(calls_alone, sizeof calls_alone, (uint32_t)phase, stamp, &alone);
        break;
    case 3:
    case 4:
        call = "qlock_held_hand";
        result = qlock_held_hand(c.bytes, c.n, v.bytes, v.n, k.bytes, k.n, l.bytes, l.n, SPAN, own_now, &end_at);
        is_named(result, "02");
        writes_calls = result == QLOCK_DONE;
        if (!is_right) break;
        result_alone = qlock_calls_hands(calls_alone, sizeof calls_alone, (uint32_t)phase, stamp, (uint32_t)counts, &alone);
        if (end_at != (alone ? until : 0)) fail("up to another end", result);
        got = alone;
        break;
    case 5:
        call = "qlock_held_wants";
        asked = below(2);
        result = qlock_held_wants(c.bytes, c.n, v.bytes, v.n, k.bytes, k.n, (uint32_t)asked, &got);
        is_named(result, "02");
        writes_calls = result == QLOCK_DONE;
        if (is_right) result_alone = qlock_calls_wants(calls_alone, sizeof calls_alone, (uint32_t)phase, stamp, (uint32_t)asked, &alone);
        break;
    case 6:
        call = "qlock_held_refuses_tries";
        result = qlock_held_refuses_tries(c.bytes, c.n, v.bytes, v.n, k.bytes, k.n, &got);
        is_named(result, "02");
        writes_calls = result == QLOCK_DONE;
        if (is_right) result_alone = qlock_calls_refuses_tries(calls_alone, sizeof calls_alone, (uint32_t)phase, stamp, &alone);
        break;
    case 7:
        call = "qlock_held_ask";
        result = qlock_held_ask(c.bytes, c.n, v.bytes, v.n, k.bytes, k.n, asked, out.bytes, out.n, &written);
        is_named(result, "012458");
        sends = 1;
        if (!is_right) break;
        result_alone = qlock_client_ask(client_alone, sizeof client_alone, asked, out_alone, out.n, &written_alone);
        if (result_alone == QLOCK_DONE && qlock_client_shows(client_alone, sizeof client_alone, &phase, &stamp, &quorum) == QLOCK_DONE)
            all_votes(votes_alone, stamp, 1);
        break;
    case 8:
        call = "qlock_held_leave";
        result = qlock_held_leave(c.bytes, c.n, v.bytes, v.n, k.bytes, k.n, out.bytes, out.n, &written);
        is_named(result, "02456");
        sends = 1;
        if (is_right && had) result_alone = QLOCK_BUSY;
        else if (is_right) result_alone = qlock_client_leave(client_alone, sizeof client_alone, out_alone, out.n, &written_alone);
        if (result_alone == QLOCK_DONE) all_votes(votes_alone, stamp, 0);
        break;
    case 9:
        call = "qlock_held_give_up";
        result = qlock_held_give_up(c.bytes, c.n, v.bytes, v.n, k.bytes, k.n, out.bytes, out.n, &written);
        is_named(result, "02457");
        sends = 1;
        if (is_right && had) result_alone = QLOCK_BUSY;
        else if (is_right) result_alone = qlock_client_give_up(client_alone, sizeof client_alone, out_alone, out.n, &written_alone);
        if (result_alone == QLOCK_DONE) all_votes(votes_alone, stamp, 0);
        break;
    default:
        call = "qlock_held_take";
        takes = 1; /* which votes a line changes is not looked at */
        result = qlock_held_take(c.bytes, c.n, v.bytes, v.n, k.bytes, k.n, l.bytes, l.n, SPAN, own_now, 0, below(20) == 0, 0, line.bytes,
                                 line.n, out.bytes, out.n, &written, &entered);
        is_named(result, "0234");
        sends = 1;
        if (!is_right) break;
        result_alone = qlock_client_take(client_alone, sizeof client_alone, line.bytes, line.n, out_alone, out.n, &written_alone, &entered_alone);
        if (entered != entered_alone) fail("entered", result);
    }
    if (is_right) {
        if (result != result_alone) fail("another result than that of its part", result);
        if (got != alone) fail("another number than that of its part", result);
        if (memcmp(c.bytes, client_alone, c.n) != 0) fail("another client than that of its part", result);
        if (memcmp(k.bytes, calls_alone, k.n) != 0) fail("other calls than those of its part", result);
        if (!takes && memcmp(v.bytes, votes_alone, v.n) != 0) fail("other votes than those of its parts", result);
        if (written != written_alone || (written != 7777 && memcmp(out.bytes, out_alone, written) != 0)) fail("other lines than those of its part", result);
    }
    int is_sent = sends && result == QLOCK_DONE;
    if (is_sent) are_lines(&out, written, result);
    else if (written != 7777) fail("wrote a count", result);
    if (is_right && result == QLOCK_DONE) {
        memcpy(own_client, c.bytes, sizeof own_client);
        memcpy(own_votes, v.bytes, sizeof own_votes);
        memcpy(own_calls, k.bytes, sizeof own_calls);
    }
    end(&c, is_sent, result), end(&v, is_sent, result), end(&k, writes_calls, result), end(&l, 0, result);
    end(&since, 0, result), end(&line, 0, result), end(&out, is_sent, result);
}

int main(int argc, char **argv) {
    long rounds = argc > 1 ? atol(argv[1]) : 200000;
    if (argc > 2) seed ^= strtoull(argv[2], NULL, 10);
    for (long i = 0; i < rounds; i++) {
        if (i % 500 == 0) fresh(), fresh_lock();
        one_call();
        if (i % 4 == 0) one_lease();
        if (i % 8 == 0) one_quorum();
        if (i % 8 == 4) one_choice();
        if (i % 2 == 1) one_lock();
        if (i % 4 == 0) one_header();
        if (i % 4 == 2) one_control();
    }
    if (done < calls / 5) fail("hardly a call was done, so this tried little", 0);
    printf("the boundary holds\n");
    fprintf(stderr, "%lu calls, %lu done\n", calls, done);
    return 0;
}
