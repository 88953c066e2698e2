/*
 * Whole calls of host/c/bench/in_place.c, the peer that does not step: C1 to C12 as far as they are raises, unmasks and services, and
 * clear_mask; and random histories, honest and hostile, on two copies of a domain and its guest: one by the library that the program is
 * linked with, one in place. After each call its answer and all words of both copies are the same, but for those of the call under way.
 * Each branch of the rules must be met so many times.
 */
#include <string.h>

/* What happens between two accesses, on either copy. */
static void between(void);
#define BEFORE_ACCESS() between()
#include "in_place.c"

#include "../demo/random.h"
#include "../world.h"
#include "check.h"
#include "words.h"

#define MOST_ACCESSES 12u

/* ---- C1 to C12 ---- */

static world w;

/* words that the other side leaves in word 5 before an access of the call, by its number from 0; 0 is none */
static struct {
    uint32_t word[MOST_ACCESSES], made;
} script;

static evtchn_fifo_next raise(uint32_t port) { return in_place_raise(&w.domain, w.ledger, WORLD_ENTRIES, &w.shared, port); }
static evtchn_fifo_next unmask(uint32_t port) { return in_place_unmask(&w.domain, w.ledger, WORLD_ENTRIES, &w.shared, port); }
static evtchn_fifo_next service(void) { return in_place_service(&w.guest, &w.shared); }
static evtchn_fifo_next clear_mask(uint32_t port) { return in_place_clear_mask(&w.guest, &w.shared, port); }

static int answers(evtchn_fifo_next next, uint32_t code, uint32_t index, uint32_t count)
{
    return next.code == code && next.index == index && next.value == count && next.old == 0;
}

static void begin(void)
{
    world_fresh(&w);
    world_begin(&w);
    world_bind(&w, 5);
    world_bind(&w, 9);
    memset(&script, 0, sizeof script);
}

static void c1_to_c7(void)
{
    begin();
    CHECK(answers(raise(5), 1, 0, 4) && w.ledger[5] == 0x0377 && world_tail(&w, 7) == 5 && w.page[5] == 0xA0000000u && w.control.ready == 0x80);
    CHECK(answers(raise(9), 0, 0, 4) && world_tail(&w, 7) == 9 && w.page[5] == 0xA0000009u && w.page[9] == 0xA0000000u);
    CHECK(answers(raise(5), 0, 0, 1) && w.page[5] == 0xA0000009u);
    CHECK(answers(service(), 19, 5, 5) && world_head(&w, 7) == 9 && world_ready(&w) == 0x80 && w.page[5] == 0);
    CHECK(answers(service(), 19, 9, 4) && world_head(&w, 7) == 0 && world_ready(&w) == 0 && world_tail(&w, 7) == 9);
    CHECK(answers(service(), 20, 0, 1));
    CHECK(answers(raise(9), 1, 0, 4) && w.control.head[7] == 9 && w.control.ready == 0x80);
}

static void c8(void)
{
    begin();
    world_mask(&w, 9);
    CHECK(answers(raise(9), 0, 0, 1) && w.page[9] == 0xC0000000u);
    CHECK(answers(unmask(9), 1, 0, 4) && w.page[9] == 0xA0000000u && w.control.head[7] == 9);
}

/* the guest has swapped READY and unlinks word 5 between R3 and the cas */
static void c9(void)
{
    begin();
    raise(5);
    w.control.ready = 0;
    script.made = 0;
    script.word[3] = 0x80000000u;
    CHECK(answers(raise(9), 1, 0, 6) && w.control.head[7] == 9 && w.control.ready == 0x80 && world_tail(&w, 7) == 9);
}

static void c10(void)
{
    begin();
    raise(5), raise(9), service(), service();
    CHECK(evtchn_fifo_domain_set_priority(&w.domain, w.ledger, WORLD_ENTRIES, 9, 0).code == 0);
    CHECK(answers(raise(9), 1, 0, 4) && w.ledger[9] == 0x0300 && world_tail(&w, 7) == 0 && world_tail(&w, 0) == 9 && w.control.head[0] == 9);
    CHECK(answers(raise(5), 1, 0, 4) && world_tail(&w, 7) == 5 && w.control.head[7] == 5 && w.page[9] % 0x20000u == 0);
}

static void c11(void)
{
    begin();
    raise(5);
    world_close(&w, 5);
    CHECK(answers(raise(5), 4, 0, 0) && w.page[5] == 0x20000000u);
    CHECK(answers(service(), 21, 5, 4) && w.page[5] == 0);
}

static void c12(void)
{
    begin();
    raise(5);
    script.made = 0;
    script.word[3] = 0xE0000000u;
    script.word[4] = 0xA0000000u;
    script.word[5] = script.word[7] = 0xF0000000u;
    script.word[6] = script.word[8] = 0xB0000000u;
    CHECK(answers(raise(9), 2, 0, 10) && world_tail(&w, 7) == 9 && w.page[5] == 0xA0000000u);
}

/* the words of the port at its read and at its cas (0: as it was read), the answer, and the word left */
static void clear_mask_leaves(uint32_t read, uint32_t changed, uint32_t code, uint32_t count, uint32_t left)
{
    begin();
    w.page[5] = read;
    script.word[1] = changed;
    script.made = 0;
    CHECK(answers(clear_mask(5), code, 0, count) && w.page[5] == left);
}

static void clear_masks(void)
{
    clear_mask_leaves(0xB0000009u, 0, 0, 1, 0xB0000009u);
    clear_mask_leaves(0xC0000000u, 0, 35, 1, 0xC0000000u);
    clear_mask_leaves(0x70000000u, 0, 35, 1, 0x70000000u);
    clear_mask_leaves(0x6FFE0009u, 0, 0, 2, 0x2FFE0009u);
    clear_mask_leaves(0x60000000u, 0xE0000000u, 35, 2, 0xE0000000u);
}

static void cases(void)
{
    c1_to_c7();
    c8();
    c9();
    c10();
    c11();
    c12();
    clear_masks();
}

/* ---- two copies ---- */

#define PAGES 3u
#define WORDS (PAGES * EVTCHN_FIFO_PAGE_WORDS)
#define HISTORIES 4000u /* of each conduct */
#define CALLS 120u
#define LEAST 50u /* times that each branch is met */

typedef struct copy {
    evtchn_fifo_domain domain;
    evtchn_fifo_guest guest;
    uint16_t ledger[WORDS];
    evtchn_fifo_control control;
    uint32_t words[WORDS];
    uint32_t *pages[PAGES];
    evtchn_fifo_shared shared;
} copy;

static copy stepped, direct;
static uint64_t dice = 88172645463325252u;

static const uint32_t ports[] = {1, 2, 3, 5, 9, 511, 1022, 1023, 1024, 1025, 2000, 2047, 2048, 3071};
#define PORTS (sizeof ports / sizeof ports[0])

static uint32_t chance(uint32_t limit) { return random_below(&dice, limit); }
static uint32_t some_port(void) { return ports[chance(PORTS)]; }

static void fresh(copy *c)
{
    uint32_t k;
    memset(c, 0, sizeof *c);
    evtchn_fifo_ledger_fresh(c->ledger, WORDS);
    for (k = 0; k < PAGES; k++)
        c->pages[k] = c->words + k * EVTCHN_FIFO_PAGE_WORDS;
    c->shared.control = &c->control;
    c->shared.pages = c->pages;
    c->shared.words = WORDS;
}

/* all but the words of the call under way */
static int is_same_state(void)
{
    return memcmp(&stepped.domain, &direct.domain, 72) == 0 && memcmp(&stepped.guest, &direct.guest, 72) == 0 &&
           memcmp(stepped.ledger, direct.ledger, sizeof stepped.ledger) == 0 &&
           memcmp(&stepped.control, &direct.control, sizeof stepped.control) == 0 &&
           memcmp(stepped.words, direct.words, sizeof stepped.words) == 0;
}

static uint32_t tail_of(const copy *c, uint32_t queue) { return get(c->domain.bytes, 8 + 4 * queue); }

/* ---- what the other side does between two accesses of a call ---- */

enum conduct { QUIET, AT_THE_TAIL, HOSTILE };

static struct {
    copy *copy; /* NULL in C1 to C12 */
    enum conduct conduct;
    uint32_t port; /* the call's, 0 of a service */
    int is_clear_mask;
    uint64_t dice; /* of the call, the same for both copies */
} other;

static uint32_t any_word(void)
{
    uint32_t flags = random_below(&other.dice, 16) << 28;
    switch (random_below(&other.dice, 4)) {
    case 0: return flags;
    case 1: return random_word(&other.dice);
    default: return flags | ports[random_below(&other.dice, PORTS)];
    }
}

/*
 * The word that R3 and R4 look at: MASKED changes and LINKED stays, or it is unlinked. During a clear_mask it is the port's, whose BUSY
 * changes.
 */
static void write_at_the_tail(copy *c)
{
    uint32_t tail = other.is_clear_mask ? other.port : tail_of(c, c->ledger[other.port] % EVTCHN_FIFO_QUEUES);
    switch (random_below(&other.dice, 8)) {
    case 0: c->words[tail] &= 0xDFFE0000u; break;
    case 1:
    case 2: break;
    default: c->words[tail] ^= other.is_clear_mask ? 0x10000000u : 0x40000000u; break;
    }
}

static void write_anything(copy *c)
{
    switch (random_below(&other.dice, 4)) {
    case 0: c->words[other.port] = any_word(); break;
    case 1: c->words[ports[random_below(&other.dice, PORTS)]] = any_word(); break;
    case 2: ((uint32_t *)&c->control)[random_below(&other.dice, EVTCHN_FIFO_CONTROL_WORDS)] = any_word() & 0xE003FFFFu; break;
    default: break;
    }
}

static void between(void)
{
    if (other.copy == NULL) {
        if (script.word[script.made % MOST_ACCESSES] != 0)
            w.page[5] = script.word[script.made % MOST_ACCESSES];
        script.made++;
    } else if (other.conduct == AT_THE_TAIL) {
        write_at_the_tail(other.copy);
    } else if (other.conduct == HOSTILE) {
        write_anything(other.copy);
    }
}

/* ---- branches ---- */

/* what a call did, so many times */
enum branch {
    R1_ENDS, R2_ENDS, R2_CLEARS_TAIL, R3_UNLINKED, R4_FIRST, R4_SECOND, R4_THIRD, R4_FOURTH, R4_FIFTH, R4_UNLINKED, BUSY_UNLINKED,
    R4_SECOND_UNLINKED, R4_THIRD_UNLINKED, R4_FOURTH_UNLINKED, R4_FIFTH_UNLINKED, R4_ABANDONS,
    R5_AT_ONCE, R6_UPCALL, R6_NO_UPCALL, U1_ENDS, U1_GOES_ON,
    G0_IDLE, G1_READS, G1_SKIPPED, G1_BAD, H_BAD, G2_NO_HEAD, G2_HEAD, G3_TAKEN, G4_HANDED_OVER, G4_TAKEN, SERVICE_UNDER_WAY,
    CLEARED_ALREADY, CLEARED, NOT_CLEARED, CLEAR_NOT_TAKEN, CLEAR_REFUSED, CLEAR_UNDER_WAY, CLEAR_IN_SERVICE,
    SERVICE_IN_CLEAR,
    UNDER_WAY, NOT_GIVEN, BAD_PORT, NO_ENTRY, NOT_BOUND, OUTSIDE, BY_LOOP,
    BRANCHES
};

static const char *const branch_names[BRANCHES] = {
    "R1 ends", "R2 ends", "R2 clears a tail", "R3 finds the tail unlinked", "the first cas is taken", "the second", "the third",
    "the fourth", "the fifth", "the first finds the tail unlinked", "the or of BUSY finds it unlinked", "the second cas does",
    "the third does", "the fourth does", "the fifth does", "the link is abandoned", "R5 without R3", "R6 wants an upcall", "R6 wants none",
    "U1 ends", "U1 goes on", "G0 finds nothing", "G1", "a head without G1", "18 by HEAD", "18 by a head", "G2 leaves no head",
    "G2 leaves a head", "G3 takes", "G4 hands over", "G4 takes", "15 of a service", "a clear_mask of an unmasked port",
    "a clear_mask's cas is taken", "35 by its read", "35 by its cas", "3 or 6 of a clear_mask", "15 of a clear_mask",
    "a clear_mask during a service", "15 of a service during a clear_mask", "15", "10", "3", "14", "4", "6", "a run loop of the header"};
static uint32_t met[BRANCHES];

/* the accesses of a call */
static struct {
    uint32_t code[MOST_ACCESSES], count;
} named;

static uint32_t kinds(uint32_t code)
{
    uint32_t k, count = 0;
    for (k = 0; k < named.count; k++)
        count += named.code[k] == code;
    return count;
}

/* codes that kinds() counts: R3 reads, R4 is a cas, R5 stores, G1 reads HEAD, G2 and G4 are an and, R1, R2 and BUSY's an or */
enum { READ_WORD = 0x100, READ_HEAD = 0x102, STORE_HEAD = 0x112, OR_WORD = 0x120, AND_WORD = 0x130, CAS_WORD = 0x150 };

/* where the last word seen of a tail lacked LINKED, after so many cas: a raise with BUSY has three ors, an unmask two */
static enum branch unlinked_at(uint32_t tries, int is_unmask)
{
    if (tries > 1)
        return R4_SECOND_UNLINKED + (tries - 2);
    return kinds(OR_WORD) == (is_unmask ? 2 : 3) ? BUSY_UNLINKED : R4_UNLINKED;
}

static void meet_link(evtchn_fifo_next next, int is_unmask)
{
    uint32_t tries = kinds(CAS_WORD), stored = kinds(STORE_HEAD);
    if (is_unmask)
        met[named.count == 1 ? U1_ENDS : U1_GOES_ON]++;
    else
        met[R1_ENDS] += named.count == 1;
    met[R2_ENDS] += named.count == 2;
    met[R4_ABANDONS] += next.code == EVTCHN_FIFO_LINK_ABANDONED;
    if (tries > 0 && next.code != EVTCHN_FIFO_LINK_ABANDONED)
        met[stored ? unlinked_at(tries, is_unmask) : R4_FIRST + tries - 1]++;
    if (stored) {
        met[R3_UNLINKED] += tries == 0 && kinds(READ_WORD) > 0;
        met[R5_AT_ONCE] += kinds(READ_WORD) == 0;
        met[next.code == EVTCHN_FIFO_UPCALL_WANTED ? R6_UPCALL : R6_NO_UPCALL]++;
    }
}

static int has_heads(const copy *c)
{
    static const uint8_t none[4 * EVTCHN_FIFO_QUEUES];
    return memcmp(c->guest.bytes, none, sizeof none) != 0;
}

static void meet_service(evtchn_fifo_next next)
{
    uint32_t heads = kinds(READ_HEAD), ands = kinds(AND_WORD);
    met[G0_IDLE] += next.code == EVTCHN_FIFO_NOTHING_READY;
    if (next.code == EVTCHN_FIFO_NOTHING_READY)
        return;
    met[heads ? G1_READS : G1_SKIPPED]++;
    if (next.code == EVTCHN_FIFO_BAD_INDEX) {
        met[heads ? G1_BAD : H_BAD]++;
        return;
    }
    met[has_heads(&stepped) ? G2_HEAD : G2_NO_HEAD]++;
    if (ands == 1)
        met[G3_TAKEN]++;
    else
        met[next.code == EVTCHN_FIFO_HANDED_OVER ? G4_HANDED_OVER : G4_TAKEN]++;
}

static void meet_clear_mask(evtchn_fifo_next next)
{
    if (next.value == 0)
        met[CLEAR_REFUSED]++;
    else if (next.code == EVTCHN_FIFO_DONE)
        met[next.value == 1 ? CLEARED_ALREADY : CLEARED]++;
    else
        met[next.value == 1 ? NOT_CLEARED : CLEAR_NOT_TAKEN]++;
}

static void meet_refusal(evtchn_fifo_next next)
{
    met[UNDER_WAY] += next.code == EVTCHN_FIFO_CALL_UNDER_WAY;
    met[NOT_GIVEN] += next.code == EVTCHN_FIFO_NOT_GIVEN;
    met[BAD_PORT] += next.code == EVTCHN_FIFO_BAD_PORT;
    met[NO_ENTRY] += next.code == EVTCHN_FIFO_NO_ENTRY;
    met[NOT_BOUND] += next.code == EVTCHN_FIFO_NOT_BOUND;
    met[OUTSIDE] += next.code == EVTCHN_FIFO_OUTSIDE_ARRAY;
}

/* ---- one call on each copy ---- */

enum kind { RAISE, UNMASK, SERVICE, CLEAR_MASK };

typedef struct whole_call {
    enum kind kind;
    uint64_t port;
    size_t entries;
} whole_call;

static int is_guests(const whole_call *call) { return call->kind == SERVICE || call->kind == CLEAR_MASK; }

static evtchn_fifo_next start(copy *c, const whole_call *call)
{
    switch (call->kind) {
    case RAISE: return evtchn_fifo_domain_raise(&c->domain, c->ledger, call->entries, call->port);
    case UNMASK: return evtchn_fifo_domain_unmask(&c->domain, c->ledger, call->entries, call->port);
    case SERVICE: return evtchn_fifo_guest_service(&c->guest);
    default: return evtchn_fifo_guest_clear_mask(&c->guest, call->port);
    }
}

static evtchn_fifo_next run(copy *c, const whole_call *call, evtchn_fifo_next next)
{
    if (is_guests(call))
        return evtchn_fifo_guest_run(&c->guest, &c->shared, next);
    return evtchn_fifo_domain_run(&c->domain, c->ledger, call->entries, &c->shared, next);
}

/* access by access, so many at most, with the other side between them */
static evtchn_fifo_next step(copy *c, const whole_call *call, evtchn_fifo_next next, uint32_t most)
{
    uint32_t seen;
    named.count = 0;
    while (evtchn_fifo_is_access(next) && named.count < most) {
        named.code[named.count++] = next.code;
        between();
        if (!evtchn_fifo_perform(&c->shared, next, &seen))
            break;
        next = is_guests(call) ? evtchn_fifo_guest_service_reply(&c->guest, seen)
                               : evtchn_fifo_domain_reply(&c->domain, c->ledger, call->entries, seen);
    }
    return next;
}

static evtchn_fifo_next in_place(copy *c, const whole_call *call)
{
    switch (call->kind) {
    case RAISE: return in_place_raise(&c->domain, c->ledger, call->entries, &c->shared, call->port);
    case UNMASK: return in_place_unmask(&c->domain, c->ledger, call->entries, &c->shared, call->port);
    case SERVICE: return in_place_service(&c->guest, &c->shared);
    default: return in_place_clear_mask(&c->guest, &c->shared, call->port);
    }
}

static void set_other(copy *c, enum conduct conduct, const whole_call *call, uint64_t seed)
{
    other.copy = c;
    other.conduct = conduct;
    other.port = call->kind != SERVICE && call->port < WORDS ? (uint32_t)call->port : 0;
    other.is_clear_mask = call->kind == CLEAR_MASK;
    other.dice = seed;
}

static int is_same(evtchn_fifo_next a, evtchn_fifo_next b)
{
    return a.code == b.code && a.index == b.index && a.value == b.value && a.old == b.old;
}

static void meet(const whole_call *call, evtchn_fifo_next next)
{
    if (call->kind == CLEAR_MASK)
        meet_clear_mask(next);
    else if (next.value == 0)
        meet_refusal(next);
    else if (call->kind == SERVICE)
        meet_service(next);
    else
        meet_link(next, call->kind == UNMASK);
}

/* the tails that a call takes from a queue which it does not put its port on */
static uint32_t cleared_tails(const uint8_t *before)
{
    uint32_t queue, count = 0;
    for (queue = 0; queue < EVTCHN_FIFO_QUEUES; queue++)
        count += get(before, 8 + 4 * queue) != 0 && tail_of(&stepped, queue) == 0;
    return count;
}

static uint64_t some_seed(void) { return ((uint64_t)random_word(&dice) << 32 | random_word(&dice)) | 1; }

/* whether a call gives and leaves the same on both copies */
static int is_same_call(const whole_call *call, enum conduct conduct)
{
    evtchn_fifo_domain before = stepped.domain;
    uint64_t seed = some_seed();
    evtchn_fifo_next by_library, by_peer;
    set_other(&stepped, conduct, call, seed);
    by_library = start(&stepped, call);
    if (conduct == QUIET && chance(2) == 0) {
        by_library = run(&stepped, call, by_library);
        met[BY_LOOP]++;
    } else {
        by_library = step(&stepped, call, by_library, MOST_ACCESSES);
        meet(call, by_library);
    }
    met[R2_CLEARS_TAIL] += cleared_tails(before.bytes);
    set_other(&direct, conduct, call, seed);
    by_peer = in_place(&direct, call);
    return is_same(by_library, by_peer) && is_same_state();
}

/* what a call meets that begins during another one of its side */
static enum branch second_of(const whole_call *first, const whole_call *second)
{
    if (first->kind == SERVICE)
        return second->kind == SERVICE ? SERVICE_UNDER_WAY : CLEAR_IN_SERVICE;
    if (first->kind == CLEAR_MASK)
        return second->kind == SERVICE ? SERVICE_IN_CLEAR : CLEAR_UNDER_WAY;
    return UNDER_WAY;
}

/* the same call once more; of the guest's two, the other one as often */
static whole_call some_second(const whole_call *first)
{
    whole_call second = *first;
    if (is_guests(first) && chance(2) == 0)
        second.kind = first->kind == SERVICE ? CLEAR_MASK : SERVICE;
    return second;
}

/* a call that has made so many accesses at most, by the library */
static evtchn_fifo_next begun(copy *c, const whole_call *call, uint32_t made, enum conduct conduct, uint64_t seed)
{
    set_other(c, conduct, call, seed);
    return step(c, call, start(c, call), made);
}

/* a call while another is under way on both copies, which then ends by the library */
static int is_same_under_way(const whole_call *first, enum conduct conduct)
{
    whole_call second = some_second(first);
    uint32_t made = chance(MOST_ACCESSES);
    uint64_t seed = some_seed();
    evtchn_fifo_next ours = begun(&stepped, first, made, conduct, seed), theirs = begun(&direct, first, made, conduct, seed);
    evtchn_fifo_next by_library, by_peer;
    other.conduct = QUIET;
    if (!evtchn_fifo_is_access(ours))
        return is_same(ours, theirs);
    by_library = run(&stepped, &second, start(&stepped, &second));
    by_peer = in_place(&direct, &second);
    met[second_of(first, &second)] += by_library.code == EVTCHN_FIFO_CALL_UNDER_WAY || by_library.value > 0;
    ours = run(&stepped, first, ours);
    theirs = run(&direct, first, theirs);
    return is_same(by_library, by_peer) && is_same(ours, theirs) && is_same_state();
}

/* ---- histories ---- */

static evtchn_fifo_next bind_or_close(copy *c, uint32_t port, int closes)
{
    evtchn_fifo_next next = closes ? evtchn_fifo_domain_close(&c->domain, c->ledger, WORDS, port)
                                   : evtchn_fifo_domain_bind(&c->domain, c->ledger, WORDS, port);
    return evtchn_fifo_domain_run(&c->domain, c->ledger, WORDS, &c->shared, next);
}

static evtchn_fifo_next mask(copy *c, uint32_t port)
{
    evtchn_fifo_next next = evtchn_fifo_mask(port, get(c->guest.bytes, 68));
    uint32_t seen;
    evtchn_fifo_perform(&c->shared, next, &seen);
    return next;
}

/* A page more, up to PAGES, and the guest told. */
static evtchn_fifo_next expand(copy *c)
{
    evtchn_fifo_next next = {EVTCHN_FIFO_TOO_MANY_PAGES, 0, 0, 0};
    if (get(c->domain.bytes, 4) < PAGES)
        next = evtchn_fifo_domain_expand_array(&c->domain, 0, 1);
    evtchn_fifo_guest_tell(&c->guest, get(c->domain.bytes, 4) * EVTCHN_FIFO_PAGE_WORDS);
    return next;
}

/* other calls, by the library on both copies */
enum change { INIT, EXPAND, CLOSE, MASK, SET_PRIORITY, BIND, OTHERS };

static evtchn_fifo_next change(copy *c, enum change what, uint32_t port, uint32_t priority)
{
    switch (what) {
    case INIT: return evtchn_fifo_domain_init_control(&c->domain, 0, 0, 1, 0);
    case EXPAND: return expand(c);
    case CLOSE: return bind_or_close(c, port, 1);
    case MASK: return mask(c, port);
    case SET_PRIORITY: return evtchn_fifo_domain_set_priority(&c->domain, c->ledger, WORDS, port, priority);
    default: return bind_or_close(c, port, 0);
    }
}

static int change_both(enum change what)
{
    uint32_t port = some_port(), priority = chance(3) * 7;
    evtchn_fifo_next one = change(&stepped, what, port, priority);
    return is_same(one, change(&direct, what, port, priority));
}

static whole_call some_call(void)
{
    static const uint64_t outside[] = {0, EVTCHN_FIFO_PORTS, EVTCHN_FIFO_PORTS - 1, UINT64_C(0x100000005), UINT64_MAX};
    whole_call call = {RAISE, some_port(), WORDS};
    switch (chance(8)) {
    case 0:
    case 1:
    case 2: call.kind = SERVICE; break;
    case 3: call.kind = UNMASK; break;
    case 4: call.kind = CLEAR_MASK; break;
    default: break;
    }
    if (chance(32) == 0)
        call.port = outside[chance(5)];
    if (chance(32) == 0)
        call.entries = call.port < WORDS ? (size_t)call.port + chance(2) : 0;
    return call;
}

/* The block is given at once or after some calls, then come a page and ports. */
static int history(enum conduct conduct)
{
    uint32_t k, given = chance(4) * 4;
    fresh(&stepped);
    fresh(&direct);
    for (k = 0; k < CALLS; k++) {
        whole_call call = some_call();
        int same = 1;
        if (k >= given && k < given + 24)
            same = change_both(k - given < 2 ? k - given : BIND);
        else if (chance(4) == 0)
            same = change_both(EXPAND + chance(OTHERS - EXPAND));
        if (!same)
            return 0;
        if (chance(16) == 0 ? !is_same_under_way(&call, conduct) : !is_same_call(&call, conduct))
            return 0;
    }
    return 1;
}

static void histories(enum conduct conduct, const char *name)
{
    uint32_t k = 0;
    while (k < HISTORIES && history(conduct))
        k++;
    check_at(__FILE__, __LINE__, name, k == HISTORIES);
}

int main(void)
{
    uint32_t branch;
    cases();
    histories(QUIET, "quiet histories");
    histories(AT_THE_TAIL, "histories with writes at the tail");
    histories(HOSTILE, "hostile histories");
    for (branch = 0; branch < BRANCHES; branch++)
        check_at(__FILE__, __LINE__, branch_names[branch], met[branch] >= LEAST);
    return check_end();
}
