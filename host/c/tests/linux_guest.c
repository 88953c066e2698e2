/*
 * A guest that behaves as Linux's driver does, on the library's hypervisor side, in every interleaving of a small scene. The guest is
 * written from document 004 (5.2 to 5.5) and from what the public header says of BUSY: its page is masked before it is handed over; it
 * unlinks by a cas loop; it masks by an or; it unmasks by a cas that clears MASKED, but calls the hypervisor where the port is PENDING, and
 * waits while the word is BUSY.
 *
 * Port 1 is linked and the tail of its queue. Then, each an access at a time, port 2 is raised, the guest masks and unmasks port 1 three
 * times, and it serves what is queued. A call of the hypervisor's waits for the one under way, as the domain's lock has it.
 *
 *     linux_guest        in no interleaving is a link abandoned, or an event lost or doubled, and both ports deliver afterwards
 *     linux_guest loses  for a library without BUSY: in some a link is abandoned and an event lost, and one of them is printed
 */
#include <inttypes.h>
#include <stdlib.h>
#include <string.h>

#include "check.h"
#include "evtchn_fifo_trace.h"

#define PENDING 0x80000000u
#define MASKED 0x40000000u
#define LINKED 0x20000000u
#define BUSY 0x10000000u
#define LINK 0x1FFFFu

#define QUEUE 7u
#define READY_BIT (1u << QUEUE)
#define CHANGES 6u

enum { TAIL = 1, BEHIND = 2, WORDS = 3 };

enum caller { NOBODY, RAISER, GUEST };
enum service_stage { IDLE, SWAP, READ_HEAD, READ_WORD, UNLINK, TEST_PENDING, TEST_MASKED, ACKNOWLEDGE };
enum mask_stage { MASK, READ, CLEAR, CALL, CALLED, CHANGED };

/* Everything that the next moves depend on. What is not in use is 0, so that equal situations are equal bytes. */
typedef struct state {
    evtchn_fifo_domain domain;
    uint16_t ledger[WORDS + 1];
    evtchn_fifo_control control;
    uint32_t words[WORDS];
    uint32_t caller; /* of the hypervisor's call under way */
    uint32_t raised; /* whether the scene's raise has started */
    uint32_t inside; /* whether no mask change fell outside it */
    uint32_t upcall; /* whether one is wanted */
    struct {
        uint32_t stage, ready, head, port, word; /* local ready bit and head; the port and its word read */
    } service;
    struct {
        uint32_t stage, changes, port, word; /* how many are made; their port, and the word that a cas compares with */
    } mask;
    uint32_t events[WORDS], handed_over[WORDS];
    uint32_t abandoned, through_busy;
} state;

_Static_assert(sizeof(state) == EVTCHN_FIFO_DOMAIN_SIZE + 2 * (WORDS + 1) + 4 * (EVTCHN_FIFO_CONTROL_WORDS + 3 * WORDS + 15), "no padding");

/* ---- accesses, and the path of them that leads to a state ---- */

typedef struct line {
    char side;
    evtchn_fifo_next next; /* an access, or an answer */
    uint32_t seen;
} line;

typedef struct path {
    line lines[128];
    size_t length;
} path;

static path here, lost_by; /* to the state at hand; the shortest found that abandons a link and loses an event */
static uint32_t longest;   /* most accesses of a call */

static void fail(const char *text)
{
    printf("linux_guest: %s\n", text);
    exit(1);
}

static void note(char side, evtchn_fifo_next next, uint32_t seen)
{
    if (here.length == sizeof here.lines / sizeof *here.lines)
        fail("an interleaving does not end");
    here.lines[here.length++] = (line){side, next, seen};
}

static uint32_t perform(state *s, char side, evtchn_fifo_next next)
{
    uint32_t *const pages[] = {s->words};
    evtchn_fifo_shared shared = {&s->control, pages, WORDS};
    uint32_t seen = 0;
    if (!evtchn_fifo_perform(&shared, next, &seen))
        fail("an access is outside");
    note(side, next, seen);
    return seen;
}

static uint32_t guest_access(state *s, uint32_t code, uint32_t index, uint32_t value, uint32_t old)
{
    return perform(s, EVTCHN_FIFO_TRACE_GUEST, (evtchn_fifo_next){code, index, value, old});
}

static uint32_t read_word(state *s, uint32_t port) { return guest_access(s, EVTCHN_FIFO_ACCESS(READ, WORD), port, 0, 0); }

/* ---- the guest's mask changes ---- */

static void end_change(state *s)
{
    s->mask.word = 0;
    s->mask.changes++;
    s->mask.stage = s->mask.changes == CHANGES ? CHANGED : s->mask.changes % 2 == 0 ? MASK : READ;
}

/* What an unmask does after a word seen. */
static void go_on_unmasking(state *s, uint32_t seen)
{
    s->mask.word = 0;
    if (!(seen & MASKED)) {
        end_change(s);
    } else if (seen & PENDING) {
        s->mask.stage = CALL;
    } else if (seen & BUSY) {
        s->mask.stage = READ;
    } else {
        s->mask.stage = CLEAR;
        s->mask.word = seen;
    }
}

static void clear_masked(state *s)
{
    uint32_t seen = guest_access(s, EVTCHN_FIFO_ACCESS(CAS, WORD), s->mask.port, s->mask.word & ~MASKED, s->mask.word);
    if (seen == s->mask.word)
        end_change(s);
    else
        go_on_unmasking(s, seen);
}

/* ---- the hypervisor's calls ---- */

static void end_call(state *s, evtchn_fifo_next answer)
{
    note(EVTCHN_FIFO_TRACE_HYPERVISOR, answer, 0);
    longest = answer.value > longest ? answer.value : longest;
    s->abandoned |= answer.code == EVTCHN_FIFO_LINK_ABANDONED;
    s->upcall |= answer.code == EVTCHN_FIFO_UPCALL_WANTED;
    if (s->caller == GUEST)
        end_change(s);
    else
        s->inside = s->inside && s->mask.changes == CHANGES;
    s->caller = NOBODY;
}

static void start_call(state *s, uint32_t caller, evtchn_fifo_next next)
{
    if (!evtchn_fifo_is_access(next))
        fail("a call is refused");
    s->caller = caller;
}

static void start_raise(state *s, uint32_t port) { start_call(s, RAISER, evtchn_fifo_domain_raise(&s->domain, s->ledger, WORDS, port)); }

static void step_call(state *s)
{
    evtchn_fifo_next access = evtchn_fifo_domain_due(&s->domain), next;
    uint32_t seen = perform(s, EVTCHN_FIFO_TRACE_HYPERVISOR, access);
    if (access.code == EVTCHN_FIFO_ACCESS(OR, WORD)) {
        s->events[access.index] += access.value == PENDING && !(seen & PENDING);
        s->through_busy |= access.value == BUSY;
    }
    next = evtchn_fifo_domain_reply(&s->domain, s->ledger, WORDS, seen);
    if (!evtchn_fifo_is_access(next))
        end_call(s, next);
}

static void run_call(state *s)
{
    while (s->caller != NOBODY)
        step_call(s);
}

/* ---- the guest's service: after an upcall, event by event until nothing is ready ---- */

static void end_event(state *s)
{
    s->service.port = 0;
    s->service.stage = SWAP;
}

static void take_ready(state *s)
{
    s->service.ready |= guest_access(s, EVTCHN_FIFO_ACCESS(SWAP, READY), 0, 0, 0) & READY_BIT;
    s->service.port = s->service.head;
    s->service.stage = s->service.ready == 0 ? IDLE : s->service.port == 0 ? READ_HEAD : READ_WORD;
}

static void read_head(state *s)
{
    s->service.port = guest_access(s, EVTCHN_FIFO_ACCESS(READ, HEAD), QUEUE, 0, 0);
    s->service.stage = READ_WORD;
}

static void unlink_port(state *s)
{
    uint32_t seen = guest_access(s, EVTCHN_FIFO_ACCESS(CAS, WORD), s->service.port, s->service.word & ~(LINKED | LINK), s->service.word);
    if (seen != s->service.word) {
        s->service.word = seen;
        return;
    }
    s->service.word = 0;
    s->service.head = seen & LINK;
    s->service.ready = s->service.head == 0 ? 0 : s->service.ready;
    s->service.stage = TEST_PENDING;
}

/* The event is handled; the account shows one whose PENDING is found clear. */
static void acknowledge(state *s)
{
    guest_access(s, EVTCHN_FIFO_ACCESS(AND, WORD), s->service.port, ~PENDING, 0);
    s->handed_over[s->service.port]++;
    end_event(s);
}

static void test_pending(state *s)
{
    s->service.stage = TEST_MASKED;
    if (!(read_word(s, s->service.port) & PENDING))
        end_event(s);
}

static void test_masked(state *s)
{
    s->service.stage = ACKNOWLEDGE;
    if (read_word(s, s->service.port) & MASKED)
        end_event(s);
}

static void step_service(state *s)
{
    switch (s->service.stage) {
    case SWAP: take_ready(s); break;
    case READ_HEAD: read_head(s); break;
    case READ_WORD:
        s->service.word = read_word(s, s->service.port);
        s->service.stage = UNLINK;
        break;
    case UNLINK: unlink_port(s); break;
    case TEST_PENDING: test_pending(s); break;
    case TEST_MASKED: test_masked(s); break;
    default: acknowledge(s); break;
    }
}

/* ---- moves: each is one access, or the start of a call or of a service, and says whether it could be made ---- */

static int move_hypervisor(state *s)
{
    if (s->caller != NOBODY) {
        step_call(s);
        return 1;
    }
    if (s->raised)
        return 0;
    s->raised = 1;
    s->inside = s->mask.changes == 0;
    start_raise(s, BEHIND);
    return 1;
}

static int move_mask(state *s)
{
    switch (s->mask.stage) {
    case MASK:
        guest_access(s, EVTCHN_FIFO_ACCESS(OR, WORD), s->mask.port, MASKED, 0);
        end_change(s);
        return 1;
    case READ: go_on_unmasking(s, read_word(s, s->mask.port)); return 1;
    case CLEAR: clear_masked(s); return 1;
    case CALL:
        if (s->caller != NOBODY)
            return 0;
        s->mask.stage = CALLED;
        start_call(s, GUEST, evtchn_fifo_domain_unmask(&s->domain, s->ledger, WORDS, s->mask.port));
        return 1;
    default: return 0;
    }
}

static int move_service(state *s)
{
    if (s->service.stage != IDLE) {
        step_service(s);
        return 1;
    }
    if (!s->upcall)
        return 0;
    s->upcall = 0;
    s->service.stage = SWAP;
    return 1;
}

static int (*const moves[])(state *) = {move_hypervisor, move_mask, move_service};

/* ---- how a scene begins ---- */

static void must(int made)
{
    if (!made)
        fail("a move that a scene begins with can't be made");
}

/* A page that is masked before it is handed over. */
static void begin(state *s)
{
    uint32_t port, refusals;
    memset(s, 0, sizeof *s);
    evtchn_fifo_domain_fresh(&s->domain);
    evtchn_fifo_ledger_fresh(s->ledger, WORDS);
    refusals = evtchn_fifo_domain_init_control(&s->domain, 0, 1, 2, 0).code;
    for (port = 0; port < WORDS; port++)
        s->words[port] = MASKED;
    refusals |= evtchn_fifo_domain_expand_array(&s->domain, 1, 2).code;
    if (refusals != EVTCHN_FIFO_DONE)
        fail("a call is refused");
}

/* A port is bound, and the guest unmasks it. */
static void open_port(state *s, uint32_t port)
{
    start_call(s, RAISER, evtchn_fifo_domain_bind(&s->domain, s->ledger, WORDS, port));
    run_call(s);
    s->mask.port = port;
    s->mask.changes = CHANGES - 1;
    s->mask.stage = READ;
    while (s->mask.stage != CHANGED)
        must(move_mask(s));
}

static void raise_whole(state *s, uint32_t port)
{
    start_raise(s, port);
    run_call(s);
}

/* The tail's event waits for the guest. */
static void begin_waiting(state *s) { raise_whole(s, TAIL); }

/* The tail's event is being handled: it was raised again after its unlink, and acknowledged after that. It is linked and not pending. */
static void begin_handled(state *s)
{
    raise_whole(s, TAIL);
    while (s->service.stage != ACKNOWLEDGE)
        must(move_service(s));
    raise_whole(s, TAIL);
    acknowledge(s);
}

static void begin_scene(state *s, void (*how)(state *))
{
    begin(s);
    open_port(s, BEHIND);
    open_port(s, TAIL);
    how(s);
    s->mask.changes = 0;
    s->mask.stage = MASK;
    here.length = 0;
}

/* ---- what an interleaving came to ---- */

enum found { ALL, INSIDE, THROUGH_BUSY, ABANDONED, LOST, DOUBLED, NOT_CLEAR, SILENT, STUCK, FOUND };

/* How many interleavings are of each kind. */
typedef struct tally {
    uint64_t of[FOUND];
} tally;

static int is_at_rest(const state *s)
{
    return s->caller == NOBODY && s->raised && s->mask.stage == CHANGED && s->service.stage == IDLE && !s->upcall;
}

static int is_lost(const state *s, uint32_t port)
{
    return (s->words[port] & (PENDING | MASKED)) == PENDING || s->events[port] > s->handed_over[port] + (s->words[port] >> 31);
}

static int is_doubled(const state *s, uint32_t port) { return s->handed_over[port] + (s->words[port] >> 31) > s->events[port]; }

/* Whether both ports are handed over once more when each is raised once more. */
static int delivers(const state *from)
{
    state s;
    memcpy(&s, from, sizeof s);
    raise_whole(&s, TAIL);
    raise_whole(&s, BEHIND);
    while (move_service(&s))
        continue;
    return s.handed_over[TAIL] == from->handed_over[TAIL] + 1 && s.handed_over[BEHIND] == from->handed_over[BEHIND] + 1;
}

/* Of a state in which no move is left. */
static tally judge(const state *s)
{
    tally t = {{0}};
    size_t length = here.length;
    t.of[ALL] = 1;
    t.of[INSIDE] = s->inside;
    t.of[THROUGH_BUSY] = s->through_busy;
    t.of[ABANDONED] = s->abandoned;
    t.of[LOST] = is_lost(s, TAIL) || is_lost(s, BEHIND);
    t.of[DOUBLED] = is_doubled(s, TAIL) || is_doubled(s, BEHIND);
    t.of[NOT_CLEAR] = (s->words[TAIL] | s->words[BEHIND]) != 0;
    t.of[STUCK] = !is_at_rest(s);
    t.of[SILENT] = !t.of[STUCK] && !delivers(s);
    here.length = length;
    if (s->abandoned && t.of[LOST] && (lost_by.length == 0 || length < lost_by.length))
        lost_by = here;
    return t;
}

/* ---- every interleaving: depth first, and each state once ---- */

/* A state that was met, and what the interleavings from it on came to. */
typedef struct met {
    struct met *next;
    state state;
    tally tally;
} met;

#define BUCKETS 65536u
static met *buckets[BUCKETS];
static uint64_t states;

static met **bucket_of(const state *s)
{
    const uint8_t *bytes = (const uint8_t *)s;
    uint32_t hash = 2166136261u;
    size_t k;
    for (k = 0; k < sizeof *s; k++)
        hash = (hash ^ bytes[k]) * 16777619u;
    return &buckets[(hash ^ hash >> 16) % BUCKETS];
}

static met *find(const state *s)
{
    met *m = *bucket_of(s);
    while (m != NULL && memcmp(&m->state, s, sizeof *s) != 0)
        m = m->next;
    return m;
}

static void keep(const state *s, const tally *t)
{
    met **bucket = bucket_of(s), *m = malloc(sizeof *m);
    if (m == NULL)
        fail("no memory for the states");
    memcpy(&m->state, s, sizeof *s);
    m->tally = *t;
    m->next = *bucket;
    *bucket = m;
    states++;
}

static void forget_chain(met **bucket)
{
    while (*bucket != NULL) {
        met *m = *bucket;
        *bucket = m->next;
        free(m);
    }
}

static void forget_all(void)
{
    size_t k;
    for (k = 0; k < BUCKETS; k++)
        forget_chain(&buckets[k]);
    states = 0;
}

static void add(tally *sum, const tally *t)
{
    size_t k;
    for (k = 0; k < FOUND; k++)
        sum->of[k] += t->of[k];
}

static tally explore(const state *from);

/* What comes of one move; 0 where it can't be made, or waits and changes nothing. */
static int explore_move(const state *from, int (*move)(state *), tally *sum)
{
    state s;
    tally t;
    size_t length = here.length;
    int made;
    memcpy(&s, from, sizeof s);
    made = move(&s) && memcmp(&s, from, sizeof s) != 0;
    if (made) {
        t = explore(&s);
        add(sum, &t);
    }
    here.length = length;
    return made;
}

static tally explore(const state *from)
{
    const met *before = find(from);
    tally t = {{0}};
    size_t k;
    int made = 0;
    if (before != NULL)
        return before->tally;
    for (k = 0; k < sizeof moves / sizeof *moves; k++)
        made += explore_move(from, moves[k], &t);
    if (made == 0)
        t = judge(from);
    keep(from, &t);
    return t;
}

/* ---- the report ---- */

static tally play(const char *name, void (*how)(state *))
{
    state s;
    tally t;
    begin_scene(&s, how);
    t = explore(&s);
    printf("port 1 %s: %" PRIu64 " states, %" PRIu64 " interleavings\n", name, states, t.of[ALL]);
    printf("    %" PRIu64 " with all mask changes inside the raise, %" PRIu64 " with a raise through BUSY\n", t.of[INSIDE], t.of[THROUGH_BUSY]);
    printf("    %" PRIu64 " with a link abandoned, %" PRIu64 " with an event lost\n", t.of[ABANDONED], t.of[LOST]);
    forget_all();
    return t;
}

static void print_path(const path *p)
{
    char text[EVTCHN_FIFO_TRACE_LINE];
    size_t k;
    for (k = 0; k < p->length; k++) {
        const line *l = &p->lines[k];
        size_t length = evtchn_fifo_line_access(text, l->side, l->next, l->seen);
        if (length == 0)
            length = evtchn_fifo_line_answer(text, l->side, l->next);
        printf("%.*s", (int)length, text);
    }
}

static void check_none_lost(const tally *t)
{
    CHECK(t->of[ABANDONED] == 0);
    CHECK(t->of[LOST] == 0);
    CHECK(t->of[DOUBLED] == 0);
    CHECK(t->of[NOT_CLEAR] == 0);
    CHECK(t->of[SILENT] == 0);
    CHECK(t->of[STUCK] == 0);
    CHECK(t->of[INSIDE] > 0);
    CHECK(t->of[THROUGH_BUSY] > 0);
}

int main(int words, char **word)
{
    tally waiting = play("waits", begin_waiting), handled = play("is handled", begin_handled);
    printf("no call makes more than %" PRIu32 " accesses\n", longest);
    if (words > 1 && strcmp(word[1], "loses") == 0) {
        printf("one in which the link is abandoned and its event lost:\n");
        print_path(&lost_by);
        CHECK(waiting.of[ABANDONED] + handled.of[ABANDONED] > 0);
        CHECK(waiting.of[LOST] + handled.of[LOST] > 0);
        return check_end();
    }
    check_none_lost(&waiting);
    check_none_lost(&handled);
    CHECK(longest <= 12);
    return check_end();
}
