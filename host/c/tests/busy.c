/*
 * Every way through R4 and BUSY, by a raise and by an unmask of port 9 behind port 5: the accesses, the record before each, the answer and
 * the word left. They are made on real memory, in which the other side leaves the words that the lines below have as seen. Then records
 * with every stage that follows R3 and any number of tries, whatever made them.
 */
#include <stdlib.h>

#include "check.h"
#include "../world.h"
#include "words.h"

#define PORT 9u
#define TAIL 5u
#define QUEUE 7u

#define LINKED 0x20000000u
#define BUSY 0x10000000u
#define LINK 0x1FFFFu

/* places of a domain's record; owners and stages */
enum { TAILS = 8, OWNER = 72, STAGE = 76, CALL_PORT = 80, CALL_QUEUE = 84, WORD = 88, TRIES = 92, COUNT = 96 };
enum { BIND = 1, CLOSE, RAISE, UNMASK };
enum { FIRST, R2, R3, R4, R5, R6, SET_BUSY, CLEAR_BUSY };

static world w;

/* ---- the ways ---- */

#define SEES(word) "X\tread\tw5\t-\t-\t" word "\n"
#define TRIES_CAS(old, new, seen) "X\tcas\tw5\t" old "\t" new "\t" seen "\n"
#define SETS(seen) "X\tor\tw5\t-\t10000000\t" seen "\n"
#define CLEARS(seen) "X\tand\tw5\t-\tEFFFFFFF\t" seen "\n"
#define ANSWERS(number) "X\tanswer\t" number "\t-\t-\t-\n"
#define STARTS_QUEUE(ready, number) "X\tstore\th7\t-\t00000009\t-\nX\tor\tready\t-\t00000080\t" ready "\n" ANSWERS(number)

/* with MASKED changed before each access */
#define FIRST_LOST SEES("A0000000") TRIES_CAS("A0000000", "A0000009", "E0000000")
#define IS_BUSY FIRST_LOST SETS("A0000000")
#define SECOND_LOST IS_BUSY TRIES_CAS("B0000000", "A0000009", "F0000000")
#define THIRD_LOST SECOND_LOST TRIES_CAS("F0000000", "E0000009", "B0000000")
#define FOURTH_LOST THIRD_LOST TRIES_CAS("B0000000", "A0000009", "F0000000")
#define FIFTH_LOST FOURTH_LOST TRIES_CAS("F0000000", "E0000009", "B0000000")

/* The lines from R3 on, the count of the whole call, and what word 5 is afterwards. */
typedef struct way {
    const char *what, *lines;
    uint32_t count, left;
} way;

static const way ways[] = {
    {"R3 finds no LINKED", SEES("80000000") STARTS_QUEUE("00000080", "0"), 5, 0x80000000u},
    {"the first cas is taken", SEES("A0000000") TRIES_CAS("A0000000", "A0000009", "A0000000") ANSWERS("0"), 4, 0xA0000009u},
    {"the first cas clears a BUSY that it found",
     SEES("B0000000") TRIES_CAS("B0000000", "A0000009", "B0000000") ANSWERS("0"), 4, 0xA0000009u},
    {"reserved bits stay", SEES("AFFE0003") TRIES_CAS("AFFE0003", "AFFE0009", "AFFE0003") ANSWERS("0"), 4, 0xAFFE0009u},
    {"the first cas finds no LINKED",
     SEES("A0000000") TRIES_CAS("A0000000", "A0000009", "80000000") STARTS_QUEUE("00000080", "0"), 6, 0x80000000u},
    {"the first cas finds no LINKED, and a BUSY that is not the call's",
     SEES("B0000000") TRIES_CAS("B0000000", "A0000009", "90000000") STARTS_QUEUE("00000000", "1"), 6, 0x90000000u},
    {"the or finds no LINKED", FIRST_LOST SETS("80000000") CLEARS("90000000") STARTS_QUEUE("00000080", "0"), 8, 0x80000000u},
    {"the second is taken, of the word that the or saw",
     IS_BUSY TRIES_CAS("B0000000", "A0000009", "B0000000") ANSWERS("0"), 6, 0xA0000009u},
    {"the second is taken, of the word that the first saw",
     FIRST_LOST SETS("E0000000") TRIES_CAS("F0000000", "E0000009", "F0000000") ANSWERS("0"), 6, 0xE0000009u},
    {"the second is taken, where the or found BUSY",
     FIRST_LOST SETS("F0000000") TRIES_CAS("F0000000", "E0000009", "F0000000") ANSWERS("0"), 6, 0xE0000009u},
    {"the second is taken, of another LINK",
     FIRST_LOST SETS("A0000004") TRIES_CAS("B0000004", "A0000009", "B0000004") ANSWERS("0"), 6, 0xA0000009u},
    {"the third is taken", SECOND_LOST TRIES_CAS("F0000000", "E0000009", "F0000000") ANSWERS("0"), 7, 0xE0000009u},
    {"the third is taken, of a word without BUSY",
     IS_BUSY TRIES_CAS("B0000000", "A0000009", "A0000000") TRIES_CAS("A0000000", "A0000009", "A0000000") ANSWERS("0"), 7, 0xA0000009u},
    {"the fourth is taken", THIRD_LOST TRIES_CAS("B0000000", "A0000009", "B0000000") ANSWERS("0"), 8, 0xA0000009u},
    {"the fifth is taken", FOURTH_LOST TRIES_CAS("F0000000", "E0000009", "F0000000") ANSWERS("0"), 9, 0xE0000009u},
    {"the second finds no LINKED",
     IS_BUSY TRIES_CAS("B0000000", "A0000009", "90000000") CLEARS("90000000") STARTS_QUEUE("00000000", "1"), 9, 0x80000000u},
    {"the third finds no LINKED",
     SECOND_LOST TRIES_CAS("F0000000", "E0000009", "D0000000") CLEARS("D0000000") STARTS_QUEUE("00000080", "0"), 10, 0xC0000000u},
    {"the fourth finds no LINKED",
     THIRD_LOST TRIES_CAS("B0000000", "A0000009", "90000000") CLEARS("90000000") STARTS_QUEUE("00000080", "0"), 11, 0x80000000u},
    {"the fifth finds no LINKED: the longest call",
     FOURTH_LOST TRIES_CAS("F0000000", "E0000009", "90000000") CLEARS("90000000") STARTS_QUEUE("00000000", "1"), 12, 0x80000000u},
    {"the and sees LINKED again, which does not count",
     FOURTH_LOST TRIES_CAS("F0000000", "E0000009", "90000000") CLEARS("B0000000") STARTS_QUEUE("00000000", "1"), 12, 0xA0000000u},
    {"C12: the link is abandoned", FIFTH_LOST CLEARS("B0000000") ANSWERS("2"), 10, 0xA0000000u},
    {"the and sees no LINKED, which does not count", FIFTH_LOST CLEARS("90000000") ANSWERS("2"), 10, 0x80000000u},
};

/* ---- a way that is gone ---- */

static evtchn_fifo_next start(uint32_t owner)
{
    return owner == RAISE ? world_raise_start(&w, PORT) : evtchn_fifo_domain_unmask(&w.domain, w.ledger, WORLD_ENTRIES, PORT);
}

/* A raise or unmask before R3, which is named, of a port that stands behind 5; no line is written of what was before. */
static evtchn_fifo_next begin(uint32_t owner)
{
    evtchn_fifo_next next;
    world_fresh(&w);
    w.quiet = 1;
    world_begin(&w);
    world_bind(&w, TAIL);
    world_bind(&w, PORT);
    world_raise(&w, TAIL);
    if (owner == UNMASK) {
        world_mask(&w, PORT);
        world_raise(&w, PORT);
    }
    next = world_step(&w, 'X', start(owner));
    next = world_step(&w, 'X', next);
    w.quiet = 0;
    return next;
}

static int is_same(evtchn_fifo_next a, evtchn_fifo_next b)
{
    return a.code == b.code && a.index == b.index && a.value == b.value && a.old == b.old;
}

static uint32_t stage_of(evtchn_fifo_next next)
{
    switch (evtchn_fifo_kind_of(next)) {
    case EVTCHN_FIFO_READ: return R3;
    case EVTCHN_FIFO_CAS: return R4;
    case EVTCHN_FIFO_AND: return CLEAR_BUSY;
    case EVTCHN_FIFO_STORE: return R5;
    default: return evtchn_fifo_place_of(next) == EVTCHN_FIFO_READY ? R6 : SET_BUSY;
    }
}

/* what a way has come to: the accesses named, the cas among them, the word seen last of the tail */
static struct {
    uint32_t count, tries, seen;
} so_far;

/* The record holds what the access that is named needs, names it again, and refuses another call; the tail is 5 till R5's reply. */
static int is_stored(uint32_t owner, evtchn_fifo_next next)
{
    const uint8_t *bytes = w.domain.bytes;
    evtchn_fifo_domain before = w.domain;
    uint32_t stage = stage_of(next);
    int holds = get(bytes, OWNER) == owner && get(bytes, STAGE) == stage;
    holds = holds && get(bytes, CALL_PORT) == PORT && get(bytes, CALL_QUEUE) == QUEUE;
    holds = holds && get(bytes, COUNT) == so_far.count && world_tail(&w, QUEUE) == (stage == R6 ? PORT : TAIL);
    if (stage == R4)
        holds = holds && get(bytes, WORD) == next.old && get(bytes, TRIES) == so_far.tries;
    if (stage == CLEAR_BUSY)
        holds = holds && get(bytes, WORD) == so_far.seen;
    return holds && is_same(evtchn_fifo_domain_due(&w.domain), next) && start(owner).code == EVTCHN_FIFO_CALL_UNDER_WAY &&
           memcmp(&before, &w.domain, sizeof before) == 0;
}

/* The other side leaves the word that the line has as seen, in word 5 or READY. */
static void leave_seen(const char *line)
{
    const char *place = strchr(line + 2, '\t') + 1, *end = strchr(line, '\n');
    uint32_t seen = (uint32_t)strtoul(end - 8, NULL, 16);
    if (place[0] == 'w')
        w.page[TAIL] = so_far.seen = seen;
    if (place[0] == 'r')
        w.control.ready = seen;
}

static void go(const way *one, uint32_t owner)
{
    evtchn_fifo_next next = begin(owner);
    const char *line;
    int holds = 1;
    so_far.count = 3;
    so_far.tries = 0;
    for (line = one->lines; evtchn_fifo_is_access(next) && *line != 0; line = strchr(line, '\n') + 1) {
        uint32_t former = so_far.seen;
        so_far.tries += evtchn_fifo_kind_of(next) == EVTCHN_FIFO_CAS;
        holds = holds && is_stored(owner, next);
        leave_seen(line);
        if (evtchn_fifo_kind_of(next) == EVTCHN_FIFO_AND)
            so_far.seen = former;
        next = world_step(&w, 'X', next);
        so_far.count++;
    }
    w.log[w.used] = 0;
    check_at(__FILE__, __LINE__, one->what, holds && strcmp(w.log, one->lines) == 0);
    check_at(__FILE__, __LINE__, one->what, next.value == one->count && next.index == 0 && next.old == 0);
    check_at(__FILE__, __LINE__, one->what, world_tail(&w, QUEUE) == PORT && w.page[TAIL] == one->left && w.page[PORT] == 0xA0000000u);
    CHECK(evtchn_fifo_domain_due(&w.domain).code == EVTCHN_FIFO_NO_CALL);
}

/* ---- stored records ---- */

/* What a reply comes to by the rules, and what the record holds then: its stage, and of R4 and the and also these. */
typedef struct outcome {
    evtchn_fifo_next next;
    uint32_t stage, word, tries;
} outcome;

static outcome access_of(uint32_t stage, uint32_t kind, uint32_t value, uint32_t old)
{
    outcome is = {{0x100u + kind * 16u, TAIL, value, old}, stage, 0, 0};
    return is;
}

static outcome answer_of(uint32_t code)
{
    outcome is = {{code, 0, 0, 0}, 0, 0, 0};
    return is;
}

static outcome cas_of(uint32_t word, uint32_t tries)
{
    outcome is = access_of(R4, EVTCHN_FIFO_CAS, (word & ~(BUSY | LINK)) | PORT, word);
    is.word = word;
    is.tries = tries;
    return is;
}

static outcome clears(uint32_t seen)
{
    outcome is = access_of(CLEAR_BUSY, EVTCHN_FIFO_AND, ~BUSY, 0);
    is.word = seen;
    return is;
}

static outcome starts_queue(void)
{
    outcome is = {{0x112, QUEUE, PORT, 0}, R5, 0, 0};
    return is;
}

static outcome after_cas(uint32_t word, uint32_t tries, uint32_t seen)
{
    int linked = (seen & LINKED) != 0;
    if (seen == word)
        return answer_of(EVTCHN_FIFO_DONE);
    if (tries <= 1)
        return linked ? access_of(SET_BUSY, EVTCHN_FIFO_OR, BUSY, 0) : starts_queue();
    return linked && tries < 5 ? cas_of(seen, tries + 1) : clears(seen);
}

static outcome after(uint32_t stage, uint32_t word, uint32_t tries, uint32_t seen)
{
    switch (stage) {
    case R3: return seen & LINKED ? cas_of(seen, 1) : starts_queue();
    case R4: return after_cas(word, tries, seen);
    case SET_BUSY: return seen & LINKED ? cas_of(seen | BUSY, 2) : clears(seen);
    default: return word & LINKED ? answer_of(EVTCHN_FIFO_LINK_ABANDONED) : starts_queue();
    }
}

static uint8_t domain[EVTCHN_FIFO_DOMAIN_SIZE], ledger[(PORT + 1) * EVTCHN_FIFO_ENTRY_SIZE];

static void store(uint32_t owner, uint32_t stage, uint32_t queue, uint32_t word, uint32_t tries)
{
    evtchn_fifo_bytes_fresh_domain(domain, sizeof domain);
    evtchn_fifo_bytes_fresh_ledger(ledger, sizeof ledger);
    put(domain, TAILS + 4 * QUEUE, TAIL);
    put(domain, OWNER, owner);
    put(domain, STAGE, stage);
    put(domain, CALL_PORT, PORT);
    put(domain, CALL_QUEUE, queue);
    put(domain, WORD, word);
    put(domain, TRIES, tries);
    put(domain, COUNT, 7);
}

static int is_left(const outcome *expected, uint32_t owner)
{
    int goes_on = evtchn_fifo_is_access(expected->next);
    uint32_t tail = goes_on ? TAIL : PORT;
    if (!goes_on)
        return get(domain, OWNER) == 0 && get(domain, COUNT) == 7 && get(domain, TAILS + 4 * QUEUE) == tail;
    if (expected->stage == R4 && (get(domain, WORD) != expected->word || get(domain, TRIES) != expected->tries))
        return 0;
    if (expected->stage == CLEAR_BUSY && get(domain, WORD) != expected->word)
        return 0;
    return get(domain, OWNER) == owner && get(domain, STAGE) == expected->stage && get(domain, CALL_PORT) == PORT &&
           get(domain, CALL_QUEUE) == QUEUE && get(domain, COUNT) == 8 && get(domain, TAILS + 4 * QUEUE) == tail;
}

/* The reply to a word seen, and what it leaves; the record names the same access once more. */
static int is_reply(uint32_t owner, uint32_t stage, uint32_t word, uint32_t tries, uint32_t seen)
{
    outcome expected = after(stage, word, tries, seen);
    evtchn_fifo_next next;
    if (!evtchn_fifo_is_access(expected.next))
        expected.next.value = 7;
    store(owner, stage, QUEUE, word, tries);
    next = evtchn_fifo_bytes_reply(domain, sizeof domain, ledger, sizeof ledger, seen);
    if (!is_same(next, expected.next) || !is_left(&expected, owner))
        return 0;
    return !evtchn_fifo_is_access(next) || is_same(evtchn_fifo_bytes_due(domain, sizeof domain), next);
}

static int are_replies(uint32_t owner, uint32_t stage, uint32_t tries)
{
    static const uint32_t words[] = {0, 0x20000000u, 0x80000000u, 0x90000005u, 0xA0000000u, 0xB0000000u, 0xEFFE0009u, 0xFFFFFFFFu};
    size_t a, b, count = sizeof words / sizeof words[0];
    for (a = 0; a < count; a++)
        for (b = 0; b < count; b++)
            if (!is_reply(owner, stage, words[a], tries, words[b]))
                return 0;
    return 1;
}

static void stored_replies(void)
{
    static const uint32_t stages[] = {R3, R4, SET_BUSY, CLEAR_BUSY}, tries[] = {0, 1, 2, 3, 4, 5, 6, 0x7FFFFFFFu, 0xFFFFFFFFu};
    uint32_t owner;
    size_t s, t;
    for (owner = BIND; owner <= UNMASK; owner++)
        for (s = 0; s < sizeof stages / sizeof stages[0]; s++)
            for (t = 0; t < sizeof tries / sizeof tries[0]; t++)
                CHECK(are_replies(owner, stages[s], tries[t]));
}

/* the access that a stored stage waits for */
static int is_due(uint32_t stage, uint32_t queue, uint32_t index, uint32_t code, uint32_t value)
{
    evtchn_fifo_next expected = {code, index, value, 0};
    store(RAISE, stage, queue, 0xB0000004u, 3);
    if (stage == R4)
        expected.old = 0xB0000004u;
    return is_same(evtchn_fifo_bytes_due(domain, sizeof domain), expected);
}

/* the tail's word; word 0 for a queue above 15, which has no tail and gets none */
static void stored_dues(void)
{
    static const uint32_t queues[] = {QUEUE, 16, 0xFFFFFFFFu};
    size_t k;
    for (k = 0; k < sizeof queues / sizeof queues[0]; k++) {
        uint32_t tail = queues[k] == QUEUE ? TAIL : 0;
        CHECK(is_due(R3, queues[k], tail, 0x100, 0));
        CHECK(is_due(R4, queues[k], tail, 0x150, 0xA0000009u));
        CHECK(is_due(SET_BUSY, queues[k], tail, 0x120, BUSY));
        CHECK(is_due(CLEAR_BUSY, queues[k], tail, 0x130, ~BUSY));
        CHECK(evtchn_fifo_bytes_reply(domain, sizeof domain, ledger, sizeof ledger, 0).code == EVTCHN_FIFO_LINK_ABANDONED);
        CHECK(get(domain, TAILS + 4 * QUEUE) == (queues[k] == QUEUE ? PORT : TAIL));
    }
    CHECK(is_due(CLEAR_BUSY + 1, QUEUE, 0, EVTCHN_FIFO_NO_CALL, 0) && is_due(0xFFFFFFFFu, QUEUE, 0, EVTCHN_FIFO_NO_CALL, 0));
}

/* a count that can't move further stays */
static void last_count(void)
{
    store(RAISE, R4, QUEUE, 0xA0000000u, 1);
    put(domain, COUNT, 0xFFFFFFFFu);
    CHECK(evtchn_fifo_bytes_reply(domain, sizeof domain, ledger, sizeof ledger, 0xE0000000u).code == 0x120 && get(domain, COUNT) == 0xFFFFFFFFu);
    CHECK(evtchn_fifo_bytes_reply(domain, sizeof domain, ledger, sizeof ledger, 0).code == 0x130 && get(domain, COUNT) == 0xFFFFFFFFu);
    CHECK(evtchn_fifo_bytes_reply(domain, sizeof domain, ledger, sizeof ledger, 0).code == 0x112 && get(domain, COUNT) == 0xFFFFFFFFu);
}

int main(void)
{
    size_t k;
    for (k = 0; k < sizeof ways / sizeof ways[0]; k++) {
        go(ways + k, RAISE);
        go(ways + k, UNMASK);
    }
    stored_replies();
    stored_dues();
    last_count();
    return check_end();
}
