/*
 * evtchn_fifo_trace.h: every kind of line against texts written by hand; the lines of whole calls, those of C1 to C12 of document 01 among
 * them; what stands together as one moment, under the trace lock; and what has no line.
 */
#include "check.h"
#include "evtchn_fifo_trace.h"
#include "../world.h"

/* ---- one line ---- */

#define UNTOUCHED 0x5A

static char line[EVTCHN_FIFO_TRACE_LINE];

static void clear_line(void) { memset(line, UNTOUCHED, sizeof line); }

/* Whether the buffer has that text and nothing was written behind it; the buffer is cleared for the next. */
static int reads(size_t length, const char *text)
{
    size_t k;
    int same = length == strlen(text) && memcmp(line, text, length) == 0;
    for (k = length; k < sizeof line; k++)
        same = same && line[k] == UNTOUCHED;
    if (!same)
        printf("%.*s is not\n%s", (int)length, line, text);
    clear_line();
    return same;
}

static void call_lines(void)
{
    clear_line();
    CHECK(reads(evtchn_fifo_line_header(line), "accesses\t1\n"));
    CHECK(reads(evtchn_fifo_line_init_control(line, 0, 1, 0), "X\tcall\tinit_control\t0\t1\t0\n"));
    CHECK(reads(evtchn_fifo_line_init_control(line, 7, 1023, 4024), "X\tcall\tinit_control\t7\t1023\t4024\n"));
    CHECK(reads(evtchn_fifo_line_init_control(line, 0xFFFFFFFFu, 0xFFFFFFFFu, 0xFFFFFFFFu), "X\tcall\tinit_control\t4294967295\t4294967295\t4294967295\n"));
    CHECK(reads(evtchn_fifo_line_expand_array(line, 1), "X\tcall\texpand_array\t-\t1\t-\n"));
    CHECK(reads(evtchn_fifo_line_expand_array(line, 0xFFFFFFFFu), "X\tcall\texpand_array\t-\t4294967295\t-\n"));
    CHECK(reads(evtchn_fifo_line_set_priority(line, 9, 0), "X\tcall\tset_priority\t9\t0\t-\n"));
    CHECK(reads(evtchn_fifo_line_set_priority(line, 131071, 16), "X\tcall\tset_priority\t131071\t16\t-\n"));
    CHECK(reads(evtchn_fifo_line_bind(line, 5), "X\tcall\tbind\t5\t-\t-\n"));
    CHECK(reads(evtchn_fifo_line_close(line, 0), "X\tcall\tclose\t0\t-\t-\n"));
    CHECK(reads(evtchn_fifo_line_raise(line, 131072), "X\tcall\traise\t131072\t-\t-\n"));
    CHECK(reads(evtchn_fifo_line_unmask(line, 0xFFFFFFFFu), "X\tcall\tunmask\t4294967295\t-\t-\n"));
    CHECK(reads(evtchn_fifo_line_service(line), "G\tcall\tservice\t-\t-\t-\n"));
    CHECK(reads(evtchn_fifo_line_mask(line, 12), "G\tcall\tmask\t12\t-\t-\n"));
    CHECK(reads(evtchn_fifo_line_clear_mask(line, 12), "G\tcall\tclear_mask\t12\t-\t-\n"));
    CHECK(reads(evtchn_fifo_line_clear_mask(line, 0xFFFFFFFFu), "G\tcall\tclear_mask\t4294967295\t-\t-\n"));
}

static size_t access_line(char side, unsigned kind, unsigned place, uint32_t index, uint32_t old, uint32_t value, uint32_t seen)
{
    evtchn_fifo_next next = {0x100u + kind * 16u + place, index, value, old};
    return evtchn_fifo_line_access(line, side, next, seen);
}

/* the first four are those of C1's raise */
static void access_lines(void)
{
    CHECK(reads(access_line('X', EVTCHN_FIFO_OR, EVTCHN_FIFO_WORD, 5, 0, 0x80000000u, 0), "X\tor\tw5\t-\t80000000\t00000000\n"));
    CHECK(reads(access_line('X', EVTCHN_FIFO_OR, EVTCHN_FIFO_WORD, 5, 0, 0x20000000u, 0x80000000u), "X\tor\tw5\t-\t20000000\t80000000\n"));
    CHECK(reads(access_line('X', EVTCHN_FIFO_STORE, EVTCHN_FIFO_HEAD, 7, 0, 5, 0x12345678u), "X\tstore\th7\t-\t00000005\t-\n"));
    CHECK(reads(access_line('X', EVTCHN_FIFO_OR, EVTCHN_FIFO_READY, 0, 0, 0x80, 0), "X\tor\tready\t-\t00000080\t00000000\n"));
    CHECK(reads(access_line('X', EVTCHN_FIFO_READ, EVTCHN_FIFO_WORD, 1023, 9, 9, 0xBFFE0003u), "X\tread\tw1023\t-\t-\tBFFE0003\n"));
    CHECK(reads(access_line('X', EVTCHN_FIFO_CAS, EVTCHN_FIFO_WORD, 5, 0xA0000000u, 0xA0000009u, 0xE1000003u), "X\tcas\tw5\tA0000000\tA0000009\tE1000003\n"));
    CHECK(reads(access_line('X', EVTCHN_FIFO_AND, EVTCHN_FIFO_WORD, 131071, 0, 0xBFFFFFFFu, 0xFFFFFFFFu), "X\tand\tw131071\t-\tBFFFFFFF\tFFFFFFFF\n"));
    CHECK(reads(access_line('G', EVTCHN_FIFO_SWAP, EVTCHN_FIFO_READY, 3, 0, 0, 0xFFFF0001u), "G\tswap\tready\t-\t00000000\tFFFF0001\n"));
    CHECK(reads(access_line('G', EVTCHN_FIFO_READ, EVTCHN_FIFO_HEAD, 15, 0, 0, 5), "G\tread\th15\t-\t-\t00000005\n"));
    CHECK(reads(access_line('G', EVTCHN_FIFO_AND, EVTCHN_FIFO_WORD, 0xFFFFFFFFu, 0, 0xDFFE0000u, 0x89ABCDEFu), "G\tand\tw4294967295\t-\tDFFE0000\t89ABCDEF\n"));
    CHECK(reads(access_line('G', EVTCHN_FIFO_CAS, EVTCHN_FIFO_HEAD, 0xFFFFFFFFu, 0xFFFFFFFFu, 0xFFFFFFFFu, 0xFFFFFFFFu), "G\tcas\th4294967295\tFFFFFFFF\tFFFFFFFF\tFFFFFFFF\n"));
}

static size_t answer_line(char side, uint32_t code, uint32_t index)
{
    evtchn_fifo_next next = {code, index, 5, 0};
    return evtchn_fifo_line_answer(line, side, next);
}

/* a port stands with 19 and 21 alone, and init_control's link bits never */
static void answer_lines(void)
{
    CHECK(reads(answer_line('X', EVTCHN_FIFO_DONE, 17), "X\tanswer\t0\t-\t-\t-\n"));
    CHECK(reads(answer_line('X', EVTCHN_FIFO_UPCALL_WANTED, 0), "X\tanswer\t1\t-\t-\t-\n"));
    CHECK(reads(answer_line('X', EVTCHN_FIFO_BAD_VCPU, 9), "X\tanswer\t17\t-\t-\t-\n"));
    CHECK(reads(answer_line('G', EVTCHN_FIFO_BAD_INDEX, 9), "G\tanswer\t18\t-\t-\t-\n"));
    CHECK(reads(answer_line('G', EVTCHN_FIFO_HANDED_OVER, 5), "G\tanswer\t19\t5\t-\t-\n"));
    CHECK(reads(answer_line('G', EVTCHN_FIFO_NOTHING_READY, 5), "G\tanswer\t20\t-\t-\t-\n"));
    CHECK(reads(answer_line('G', EVTCHN_FIFO_TAKEN, 131071), "G\tanswer\t21\t131071\t-\t-\n"));
    CHECK(reads(answer_line('G', EVTCHN_FIFO_TAKEN, 0xFFFFFFFFu), "G\tanswer\t21\t4294967295\t-\t-\n"));
    CHECK(reads(answer_line('G', EVTCHN_FIFO_CALL_UNMASK, 5), "G\tanswer\t35\t-\t-\t-\n"));
}

/* every code: an access's line is world.h's, which is written by other means; an answer has none, and a code of neither */
static int is_line_of(uint32_t code, char side)
{
    static world w;
    evtchn_fifo_next next = {code, code * 2654435761u, ~code, code << 7};
    int is_access = code >= 0x100 && code < 0x160 && code % 16 < 3;
    w.used = 0;
    w.log[0] = 0;
    if (is_access)
        world_access(&w, side, next, code * 40503u);
    return reads(evtchn_fifo_line_access(line, side, next, code * 40503u), w.log) && (code < 0x100 || reads(evtchn_fifo_line_answer(line, side, next), ""));
}

static void codes(void)
{
    uint32_t code, bit;
    for (code = 0; code < 0x400; code++)
        CHECK(is_line_of(code, code % 2 ? 'X' : 'G'));
    for (bit = 10; bit < 32; bit++)
        CHECK(is_line_of(1u << bit | 0x120u, 'X') && is_line_of(1u << bit, 'G'));
    CHECK(is_line_of(0xFFFFFFFFu, 'X'));
}

static int is_decimal(uint64_t number)
{
    char text[32];
    snprintf(text, sizeof text, "%llu", (unsigned long long)(number > 0xFFFFFFFFu ? 0xFFFFFFFFu : number));
    return reads(evtchn_fifo_line_decimal(line, 0, number), text);
}

static void numbers(void)
{
    uint64_t power;
    for (power = 1; power < UINT64_C(10000000000000000000); power *= 10)
        CHECK(is_decimal(power - 1) && is_decimal(power) && is_decimal(power + 1) && is_decimal(power * 9 / 2));
    for (power = 1; power != 0; power *= 2)
        CHECK(is_decimal(power - 1) && is_decimal(power));
    CHECK(is_decimal(UINT64_C(0xFFFFFFFFFFFFFFFF)));
}

/* ---- a domain that is recorded ---- */

static world w;

/* The log, and the moments: the second field of each line, in brackets what one taking of the trace lock had. */
static struct recorded {
    char log[16384], moments[4096];
    size_t used, marked;
    int held, quiet, outside; /* outside: lines written without the lock, and locks taken twice or given back unheld */
} recorded;

static void mark(const char *text, size_t length)
{
    memcpy(recorded.moments + recorded.marked, text, length);
    recorded.marked += length;
}

static void take(void *context)
{
    recorded.outside += context != &recorded || recorded.held;
    recorded.held = 1;
    if (!recorded.quiet)
        mark("(", 1);
}

static void give_back(void *context)
{
    recorded.outside += context != &recorded || !recorded.held;
    recorded.held = 0;
    if (!recorded.quiet)
        mark(")", 1);
}

static void keep(void *context, const char *text, size_t length)
{
    recorded.outside += context != &recorded || (!recorded.held && text[0] != 'a');
    if (recorded.quiet)
        return;
    memcpy(recorded.log + recorded.used, text, length);
    recorded.used += length;
    if (recorded.marked > 0 && recorded.moments[recorded.marked - 1] != '(')
        mark(" ", 1);
    mark(text + 2, strcspn(text + 2, "\t"));
}

static evtchn_fifo_trace trace = {.write = keep, .lock = take, .unlock = give_back, .context = &recorded};

/* What was recorded since the last time is that text, or those moments. */
static int wrote(const char *text)
{
    int same;
    recorded.log[recorded.used] = 0;
    same = strcmp(recorded.log, text) == 0;
    if (!same)
        printf("%s is not\n%s", recorded.log, text);
    recorded.used = recorded.marked = 0;
    return same;
}

static int wrote_moments(const char *text)
{
    int same;
    recorded.moments[recorded.marked] = 0;
    same = strcmp(recorded.moments, text) == 0;
    if (!same)
        printf("%s is not\n%s\n", recorded.moments, text);
    recorded.used = recorded.marked = 0;
    return same;
}

static evtchn_fifo_next run(evtchn_fifo_next next) { return evtchn_fifo_trace_domain_run(&trace, &w.domain, w.ledger, WORLD_ENTRIES, &w.shared, next); }
static evtchn_fifo_next bind_start(uint64_t port) { return evtchn_fifo_trace_bind(&trace, &w.domain, w.ledger, WORLD_ENTRIES, port); }
static evtchn_fifo_next raise_start(uint64_t port) { return evtchn_fifo_trace_raise(&trace, &w.domain, w.ledger, WORLD_ENTRIES, port); }
static evtchn_fifo_next service_start(void) { return evtchn_fifo_trace_service(&trace, &w.guest); }
static evtchn_fifo_next clear_mask_start(uint64_t port) { return evtchn_fifo_trace_clear_mask(&trace, &w.guest, port); }
static uint32_t bind(uint64_t port) { return run(bind_start(port)).code; }
static uint32_t close(uint64_t port) { return run(evtchn_fifo_trace_close(&trace, &w.domain, w.ledger, WORLD_ENTRIES, port)).code; }
static uint32_t raise(uint64_t port) { return run(raise_start(port)).code; }
static uint32_t unmask(uint64_t port) { return run(evtchn_fifo_trace_unmask(&trace, &w.domain, w.ledger, WORLD_ENTRIES, port)).code; }
static uint32_t service(void) { return evtchn_fifo_trace_guest_run(&trace, &w.guest, &w.shared, service_start()).code; }
static uint32_t clear_mask(uint64_t port) { return evtchn_fifo_trace_guest_run(&trace, &w.guest, &w.shared, clear_mask_start(port)).code; }
static uint32_t mask(uint64_t port) { return evtchn_fifo_trace_mask(&trace, &w.shared, port, EVTCHN_FIFO_PAGE_WORDS).code; }

static uint32_t set_priority(uint64_t port, uint64_t priority)
{
    return evtchn_fifo_trace_set_priority(&trace, &w.domain, w.ledger, WORLD_ENTRIES, port, priority).code;
}

static void step(evtchn_fifo_next *next)
{
    uint32_t seen;
    CHECK(evtchn_fifo_trace_domain_step(&trace, &w.domain, w.ledger, WORLD_ENTRIES, &w.shared, next, &seen));
}

static void guest_step(evtchn_fifo_next *next)
{
    uint32_t seen;
    CHECK(evtchn_fifo_trace_guest_step(&trace, &w.guest, &w.shared, next, &seen));
}

/* The control block given, one page, and the guest told. */
static void begin(void)
{
    world_fresh(&w);
    CHECK(evtchn_fifo_trace_init_control(&trace, &w.domain, 0, 1, 1024, 0).code == EVTCHN_FIFO_DONE);
    CHECK(evtchn_fifo_trace_expand_array(&trace, &w.domain, 1, 1024).code == EVTCHN_FIFO_DONE);
    evtchn_fifo_guest_tell(&w.guest, EVTCHN_FIFO_PAGE_WORDS);
}

/* ... and of these ports each bound, and raised if it was asked for; no line is kept */
static void begin_with(const uint32_t *ports, size_t count, int raised)
{
    size_t k;
    recorded.quiet = 1;
    begin();
    for (k = 0; k < count; k++) {
        bind(ports[k]);
        if (raised)
            raise(ports[k]);
    }
    recorded.quiet = 0;
}

static const uint32_t five_and_nine[] = {5, 9}, twelve[] = {12};

/* ---- document 01's cases ---- */

static const char prologue[] = "accesses\t1\n"
                               "X\tcall\tinit_control\t0\t1\t0\n"
                               "X\tanswer\t0\t-\t-\t-\n"
                               "X\tcall\texpand_array\t-\t1\t-\n"
                               "X\tanswer\t0\t-\t-\t-\n";

static const char c1[] = "X\tcall\tbind\t5\t-\t-\n"
                         "X\tread\tw5\t-\t-\t00000000\n"
                         "X\tanswer\t0\t-\t-\t-\n"
                         "X\tcall\traise\t5\t-\t-\n"
                         "X\tor\tw5\t-\t80000000\t00000000\n"
                         "X\tor\tw5\t-\t20000000\t80000000\n"
                         "X\tstore\th7\t-\t00000005\t-\n"
                         "X\tor\tready\t-\t00000080\t00000000\n"
                         "X\tanswer\t1\t-\t-\t-\n";

static const char c2[] = "X\tcall\tbind\t9\t-\t-\n"
                         "X\tread\tw9\t-\t-\t00000000\n"
                         "X\tanswer\t0\t-\t-\t-\n"
                         "X\tcall\traise\t9\t-\t-\n"
                         "X\tor\tw9\t-\t80000000\t00000000\n"
                         "X\tor\tw9\t-\t20000000\t80000000\n"
                         "X\tread\tw5\t-\t-\tA0000000\n"
                         "X\tcas\tw5\tA0000000\tA0000009\tA0000000\n"
                         "X\tanswer\t0\t-\t-\t-\n";

static const char c3[] = "X\tcall\traise\t5\t-\t-\n"
                         "X\tor\tw5\t-\t80000000\tA0000009\n"
                         "X\tanswer\t0\t-\t-\t-\n";

static const char c4[] = "G\tcall\tservice\t-\t-\t-\n"
                         "G\tswap\tready\t-\t00000000\t00000080\n"
                         "G\tread\th7\t-\t-\t00000005\n"
                         "G\tand\tw5\t-\tDFFE0000\tA0000009\n"
                         "G\tread\tw5\t-\t-\t80000000\n"
                         "G\tand\tw5\t-\t7FFFFFFF\t80000000\n"
                         "G\tanswer\t19\t5\t-\t-\n";

static const char c5[] = "G\tcall\tservice\t-\t-\t-\n"
                         "G\tswap\tready\t-\t00000000\t00000000\n"
                         "G\tand\tw9\t-\tDFFE0000\tA0000000\n"
                         "G\tread\tw9\t-\t-\t80000000\n"
                         "G\tand\tw9\t-\t7FFFFFFF\t80000000\n"
                         "G\tanswer\t19\t9\t-\t-\n";

static void cases_by_hand(void)
{
    evtchn_fifo_trace_header(&trace);
    begin();
    CHECK(wrote(prologue));
    CHECK(bind(5) == 0 && raise(5) == 1 && wrote(c1));
    CHECK(bind(9) == 0 && raise(9) == 0 && wrote(c2));
    CHECK(raise(5) == 0 && wrote(c3));
    CHECK(service() == 19 && wrote(c4));
    CHECK(service() == 19 && wrote(c5));
    CHECK(service() == 20 && wrote("G\tcall\tservice\t-\t-\t-\nG\tswap\tready\t-\t00000000\t00000000\nG\tanswer\t20\t-\t-\t-\n"));
}

/* as in C9 of cases.c: the guest unlinks word 5 between the raise's read and its cas */
static void c9(void)
{
    evtchn_fifo_next next, served;
    begin_with(five_and_nine, 2, 0);
    recorded.quiet = 1;
    raise(5);
    recorded.quiet = 0;
    served = service_start();
    guest_step(&served);
    guest_step(&served);
    next = raise_start(9);
    step(&next);
    step(&next);
    step(&next);
    guest_step(&served);
    CHECK(run(next).code == 1);
    CHECK(evtchn_fifo_trace_guest_run(&trace, &w.guest, &w.shared, served).code == 19);
}

static void c12(void)
{
    static const uint32_t seen[] = {0x00000000u, 0x80000000u, 0xA0000000u, 0xE0000000u, 0xA0000000u,
                                    0xF0000000u, 0xB0000000u, 0xF0000000u, 0xB0000000u, 0xB0000000u};
    evtchn_fifo_next next;
    size_t k;
    begin_with(five_and_nine, 2, 0);
    recorded.quiet = 1;
    raise(5);
    recorded.quiet = 0;
    next = raise_start(9);
    evtchn_fifo_trace_lock(&trace);
    for (k = 0; k < sizeof seen / sizeof seen[0]; k++)
        next = evtchn_fifo_trace_reply(&trace, &w.domain, w.ledger, WORLD_ENTRIES, next, seen[k]);
    evtchn_fifo_trace_unlock(&trace);
    CHECK(next.code == 2);
}

static void all_cases(void)
{
    evtchn_fifo_trace_header(&trace);
    begin();
    bind(5), raise(5), bind(9), raise(9), raise(5), service(), service(), service(), raise(9);
    begin_with(twelve, 1, 0);
    mask(12), raise(12), unmask(12);
    c9();
    begin_with(five_and_nine, 2, 1);
    recorded.quiet = 1;
    service(), service();
    recorded.quiet = 0;
    set_priority(9, 0), raise(9), raise(5);
    begin_with(five_and_nine, 1, 1);
    close(5), bind(5), service(), bind(5);
    c12();
}

/* The next line of a text that is no call's. */
static char *next_line(char **rest)
{
    char *text;
    do {
        text = *rest;
        *rest = strchr(text, '\n');
        if (*rest == NULL)
            return NULL;
        *(*rest)++ = 0;
    } while (strncmp(text + 2, "call", 4) == 0);
    return text;
}

/* C1 to C12: but for the calls' lines, what is recorded is cases.txt, but for its titles. */
static void cases_of_file(const char *name)
{
    char expected[256], *rest = recorded.log, *text;
    FILE *file = fopen(name, "r");
    CHECK(file != NULL);
    if (file == NULL)
        return;
    all_cases();
    recorded.log[recorded.used] = 0;
    while (fgets(expected, sizeof expected, file) != NULL) {
        expected[strcspn(expected, "\n")] = 0;
        if (expected[0] == 'C')
            continue;
        text = next_line(&rest);
        check_at(name, 0, expected, text != NULL && strcmp(text, expected) == 0);
    }
    CHECK(next_line(&rest) == NULL);
    recorded.used = recorded.marked = 0;
    fclose(file);
}

/* ---- refusals ---- */

static void refusals_of_starts(void)
{
    world_fresh(&w);
    CHECK(evtchn_fifo_trace_expand_array(&trace, &w.domain, 3, 1024).code == 10 && wrote("X\tcall\texpand_array\t-\t3\t-\nX\tanswer\t10\t-\t-\t-\n"));
    CHECK(evtchn_fifo_trace_init_control(&trace, &w.domain, 1, 1, 1024, 0).code == 17 && wrote("X\tcall\tinit_control\t1\t1\t0\nX\tanswer\t17\t-\t-\t-\n"));
    CHECK(evtchn_fifo_trace_init_control(&trace, &w.domain, 0, 1, 1024, 4020).code == 12 && wrote("X\tcall\tinit_control\t0\t1\t4020\nX\tanswer\t12\t-\t-\t-\n"));
    begin();
    recorded.used = 0;
    CHECK(evtchn_fifo_trace_expand_array(&trace, &w.domain, 1024, 1024).code == 11 && wrote("X\tcall\texpand_array\t-\t1024\t-\nX\tanswer\t11\t-\t-\t-\n"));
    CHECK(bind(0) == 3 && wrote("X\tcall\tbind\t0\t-\t-\nX\tanswer\t3\t-\t-\t-\n"));
    CHECK(bind(5000) == 14 && wrote("X\tcall\tbind\t5000\t-\t-\nX\tanswer\t14\t-\t-\t-\n"));
    CHECK(close(5) == 4 && wrote("X\tcall\tclose\t5\t-\t-\nX\tanswer\t4\t-\t-\t-\n"));
    CHECK(set_priority(5, 16) == 8 && wrote("X\tcall\tset_priority\t5\t16\t-\nX\tanswer\t8\t-\t-\t-\n"));
    CHECK(set_priority(5, 15) == 0 && wrote("X\tcall\tset_priority\t5\t15\t-\nX\tanswer\t0\t-\t-\t-\n"));
    CHECK(bind(1500) == 0 && wrote("X\tcall\tbind\t1500\t-\t-\nX\tanswer\t0\t-\t-\t-\n"));
    CHECK(raise(1500) == 6 && wrote("X\tcall\traise\t1500\t-\t-\nX\tanswer\t6\t-\t-\t-\n"));
    CHECK(mask(131072) == 3 && wrote("G\tcall\tmask\t131072\t-\t-\nG\tanswer\t3\t-\t-\t-\n"));
    CHECK(mask(1024) == 6 && wrote("G\tcall\tmask\t1024\t-\t-\nG\tanswer\t6\t-\t-\t-\n"));
    CHECK(clear_mask(0) == 3 && wrote("G\tcall\tclear_mask\t0\t-\t-\nG\tanswer\t3\t-\t-\t-\n"));
    CHECK(clear_mask(1024) == 6 && wrote("G\tcall\tclear_mask\t1024\t-\t-\nG\tanswer\t6\t-\t-\t-\n"));
}

/* larger than a log's numbers: refused as 2^32 - 1 is */
static void wide_numbers(void)
{
    const uint64_t wide = UINT64_C(0x100000005);
    begin_with(five_and_nine, 1, 0);
    CHECK(raise(wide) == 3 && wrote("X\tcall\traise\t4294967295\t-\t-\nX\tanswer\t3\t-\t-\t-\n"));
    CHECK(clear_mask(wide) == 3 && wrote("G\tcall\tclear_mask\t4294967295\t-\t-\nG\tanswer\t3\t-\t-\t-\n"));
    CHECK(raise(0xFFFFFFFFu) == 3 && wrote("X\tcall\traise\t4294967295\t-\t-\nX\tanswer\t3\t-\t-\t-\n"));
    CHECK(set_priority(5, wide) == 8 && wrote("X\tcall\tset_priority\t5\t4294967295\t-\nX\tanswer\t8\t-\t-\t-\n"));
    CHECK(evtchn_fifo_trace_expand_array(&trace, &w.domain, wide, 1024).code == 11 && wrote("X\tcall\texpand_array\t-\t4294967295\t-\nX\tanswer\t11\t-\t-\t-\n"));
    world_fresh(&w);
    CHECK(evtchn_fifo_trace_init_control(&trace, &w.domain, 0, 0, 1024, wide).code == 12 && wrote("X\tcall\tinit_control\t0\t0\t4294967295\nX\tanswer\t12\t-\t-\t-\n"));
    CHECK(evtchn_fifo_trace_init_control(&trace, &w.domain, wide, wide, 1024, wide).code == 17 && wrote("X\tcall\tinit_control\t4294967295\t4294967295\t4294967295\nX\tanswer\t17\t-\t-\t-\n"));
}

/* 15 has its lines, and the call under way goes on; 7 and 18 come with an access */
static void refusals_under_way(void)
{
    evtchn_fifo_next next;
    begin_with(five_and_nine, 1, 1);
    next = raise_start(5);
    CHECK(bind(9) == 15 && run(next).code == 0);
    CHECK(wrote("X\tcall\traise\t5\t-\t-\nX\tcall\tbind\t9\t-\t-\nX\tanswer\t15\t-\t-\t-\nX\tor\tw5\t-\t80000000\tA0000000\nX\tanswer\t0\t-\t-\t-\n"));
    next = service_start();
    CHECK(service() == 15 && wrote("G\tcall\tservice\t-\t-\t-\nG\tcall\tservice\t-\t-\t-\nG\tanswer\t15\t-\t-\t-\n"));
    w.control.head[7] = 1024;
    CHECK(evtchn_fifo_trace_guest_run(&trace, &w.guest, &w.shared, next).code == 18);
    CHECK(wrote("G\tswap\tready\t-\t00000000\t00000080\nG\tread\th7\t-\t-\t00000400\nG\tanswer\t18\t-\t-\t-\n"));
    close(5);
    recorded.used = 0;
    CHECK(bind(5) == 7 && wrote("X\tcall\tbind\t5\t-\t-\nX\tread\tw5\t-\t-\t20000000\nX\tanswer\t7\t-\t-\t-\n"));
}

/* a service and a second clear_mask have 15 while one is under way, which goes on */
static void refusals_in_a_clear_mask(void)
{
    evtchn_fifo_next next;
    begin_with(five_and_nine, 1, 0);
    next = clear_mask_start(5);
    CHECK(service() == 15 && clear_mask(9) == 15 && wrote("G\tcall\tclear_mask\t5\t-\t-\nG\tcall\tservice\t-\t-\t-\nG\tanswer\t15\t-\t-\t-\n"
                                                          "G\tcall\tclear_mask\t9\t-\t-\nG\tanswer\t15\t-\t-\t-\n"));
    CHECK(evtchn_fifo_trace_guest_run(&trace, &w.guest, &w.shared, next).code == 0);
    CHECK(wrote("G\tread\tw5\t-\t-\t00000000\nG\tanswer\t0\t-\t-\t-\n"));
}

/* a reply with no call under way shows, as an access that none named */
static void replies_to_none(void)
{
    evtchn_fifo_next access = {0x100, 5, 0, 0};
    begin_with(NULL, 0, 0);
    evtchn_fifo_trace_lock(&trace);
    CHECK(evtchn_fifo_trace_reply(&trace, &w.domain, w.ledger, WORLD_ENTRIES, access, 9).code == 16);
    CHECK(evtchn_fifo_trace_service_reply(&trace, &w.guest, access, 9).code == 16);
    evtchn_fifo_trace_unlock(&trace);
    CHECK(wrote("X\tread\tw5\t-\t-\t00000009\nX\tanswer\t16\t-\t-\t-\nG\tread\tw5\t-\t-\t00000009\nG\tanswer\t16\t-\t-\t-\n"));
}

/* ---- moments ---- */

static void moments(void)
{
    static const evtchn_fifo_next answer = {EVTCHN_FIFO_DONE, 0, 1, 0};
    evtchn_fifo_next served;
    recorded.marked = 0;
    begin();
    CHECK(wrote_moments("(call answer)(call answer)"));
    CHECK(bind(5) == 0 && wrote_moments("(call)(read answer)"));
    CHECK(bind(1500) == 0 && wrote_moments("(call answer)"));
    CHECK(raise(5) == 1 && wrote_moments("(call)(or)(or)(store)(or answer)"));
    CHECK(raise(5) == 0 && wrote_moments("(call)(or answer)"));
    CHECK(raise(6) == 4 && wrote_moments("(call answer)"));
    CHECK(unmask(5) == 0 && wrote_moments("(call)(and answer)"));
    CHECK(set_priority(5, 3) == 0 && wrote_moments("(call answer)"));
    served = service_start();
    guest_step(&served);
    CHECK(mask(5) == 0 && mask(1024) == 6 && wrote_moments("(call)(swap)(call or answer)(call answer)"));
    CHECK(evtchn_fifo_trace_guest_run(&trace, &w.guest, &w.shared, served).code == 21 && wrote_moments("(read)(and)(read answer)"));
    CHECK(clear_mask(5) == 35 && wrote_moments("(call)(read answer)"));
    CHECK(service() == 20 && wrote_moments("(call)(swap answer)"));
    CHECK(close(5) == 0 && wrote_moments("(call)(and answer)"));
    CHECK(clear_mask(5) == 0 && wrote_moments("(call)(read)(cas answer)"));
    CHECK(clear_mask(1024) == 6 && wrote_moments("(call answer)"));
    CHECK(run(answer).code == 0 && wrote_moments(""));
    CHECK(recorded.outside == 0);
}

/* A mask while a service is under way: its three lines stand together. */
static void mask_in_a_service(void)
{
    evtchn_fifo_next served;
    begin_with(five_and_nine, 1, 1);
    served = service_start();
    guest_step(&served);
    guest_step(&served);
    guest_step(&served);
    CHECK(mask(5) == 0);
    CHECK(evtchn_fifo_trace_guest_run(&trace, &w.guest, &w.shared, served).code == 21);
    CHECK(wrote("G\tcall\tservice\t-\t-\t-\n"
                "G\tswap\tready\t-\t00000000\t00000080\n"
                "G\tread\th7\t-\t-\t00000005\n"
                "G\tand\tw5\t-\tDFFE0000\tA0000000\n"
                "G\tcall\tmask\t5\t-\t-\n"
                "G\tor\tw5\t-\t40000000\t80000000\n"
                "G\tanswer\t0\t-\t-\t-\n"
                "G\tread\tw5\t-\t-\tC0000000\n"
                "G\tanswer\t21\t5\t-\t-\n"));
}

/* A clear_mask while a service is under way: its accesses come first, and the service goes on after its answer. */
static void clear_mask_in_a_service(void)
{
    evtchn_fifo_next served, cleared;
    begin_with(five_and_nine, 1, 1);
    served = service_start();
    guest_step(&served);
    CHECK(mask(9) == 0);
    cleared = clear_mask_start(9);
    guest_step(&cleared);
    CHECK(mask(9) == 0);
    guest_step(&cleared);
    CHECK(cleared.code == 0 && cleared.value == 2);
    CHECK(evtchn_fifo_trace_guest_run(&trace, &w.guest, &w.shared, served).code == 19);
    CHECK(wrote("G\tcall\tservice\t-\t-\t-\n"
                "G\tswap\tready\t-\t00000000\t00000080\n"
                "G\tcall\tmask\t9\t-\t-\n"
                "G\tor\tw9\t-\t40000000\t00000000\n"
                "G\tanswer\t0\t-\t-\t-\n"
                "G\tcall\tclear_mask\t9\t-\t-\n"
                "G\tread\tw9\t-\t-\t40000000\n"
                "G\tcall\tmask\t9\t-\t-\n"
                "G\tor\tw9\t-\t40000000\t40000000\n"
                "G\tanswer\t0\t-\t-\t-\n"
                "G\tcas\tw9\t40000000\t00000000\t40000000\n"
                "G\tanswer\t0\t-\t-\t-\n"
                "G\tread\th7\t-\t-\t00000005\n"
                "G\tand\tw5\t-\tDFFE0000\tA0000000\n"
                "G\tread\tw5\t-\t-\t80000000\n"
                "G\tand\tw5\t-\t7FFFFFFF\t80000000\n"
                "G\tanswer\t19\t5\t-\t-\n"));
}

/* ---- what has no line ---- */

/* 14 at a reply: the access stands once, with the reply that is accepted */
static void short_ledger(void)
{
    evtchn_fifo_next next, access;
    uint32_t seen = 0;
    begin_with(five_and_nine, 1, 0);
    access = raise_start(5);
    CHECK(wrote("X\tcall\traise\t5\t-\t-\n"));
    evtchn_fifo_trace_lock(&trace);
    CHECK(evtchn_fifo_perform(&w.shared, access, &seen));
    next = evtchn_fifo_trace_reply(&trace, &w.domain, w.ledger, 5, access, seen);
    CHECK(next.code == EVTCHN_FIFO_NO_ENTRY && wrote(""));
    next = evtchn_fifo_trace_reply(&trace, &w.domain, w.ledger, 6, access, seen);
    evtchn_fifo_trace_unlock(&trace);
    CHECK(evtchn_fifo_is_access(next) && wrote("X\tor\tw5\t-\t80000000\t00000000\n"));
}

/* what is not mapped is not performed; the call goes on when it is */
static void unmapped(void)
{
    evtchn_fifo_next next;
    uint32_t seen = 7;
    begin_with(five_and_nine, 1, 0);
    w.shared.words = 5;
    next = run(raise_start(5));
    CHECK(next.code == 0x120 && next.index == 5 && wrote("X\tcall\traise\t5\t-\t-\n"));
    CHECK(!evtchn_fifo_trace_domain_step(&trace, &w.domain, w.ledger, WORLD_ENTRIES, &w.shared, &next, &seen) && seen == 7);
    next = evtchn_fifo_trace_mask(&trace, &w.shared, 5, EVTCHN_FIFO_PAGE_WORDS);
    CHECK(next.code == 0x120 && next.value == 0x40000000u && wrote("") && w.page[5] == 0);
    next = evtchn_fifo_trace_guest_run(&trace, &w.guest, &w.shared, clear_mask_start(5));
    CHECK(next.code == 0x100 && next.index == 5 && wrote("G\tcall\tclear_mask\t5\t-\t-\n"));
    w.shared.words = EVTCHN_FIFO_PAGE_WORDS;
    CHECK(evtchn_fifo_trace_guest_run(&trace, &w.guest, &w.shared, evtchn_fifo_guest_service_due(&w.guest)).code == 0);
    CHECK(wrote("G\tread\tw5\t-\t-\t00000000\nG\tanswer\t0\t-\t-\t-\n"));
    CHECK(run(evtchn_fifo_domain_due(&w.domain)).code == 1);
    CHECK(wrote("X\tor\tw5\t-\t80000000\t00000000\nX\tor\tw5\t-\t20000000\t80000000\nX\tstore\th7\t-\t00000005\t-\nX\tor\tready\t-\t00000080\t00000000\nX\tanswer\t1\t-\t-\t-\n"));
}

/* A trace that is NULL: the same calls, and no line. */
static void without_trace(void)
{
    evtchn_fifo_next next;
    world_fresh(&w);
    evtchn_fifo_trace_header(NULL);
    CHECK(evtchn_fifo_trace_init_control(NULL, &w.domain, 0, 1, 1024, 0).index == 17);
    CHECK(evtchn_fifo_trace_expand_array(NULL, &w.domain, 1, 1024).code == 0);
    evtchn_fifo_guest_tell(&w.guest, EVTCHN_FIFO_PAGE_WORDS);
    next = evtchn_fifo_trace_bind(NULL, &w.domain, w.ledger, WORLD_ENTRIES, 5);
    CHECK(evtchn_fifo_trace_domain_run(NULL, &w.domain, w.ledger, WORLD_ENTRIES, &w.shared, next).code == 0);
    CHECK(evtchn_fifo_trace_set_priority(NULL, &w.domain, w.ledger, WORLD_ENTRIES, 5, 3).code == 0);
    next = evtchn_fifo_trace_raise(NULL, &w.domain, w.ledger, WORLD_ENTRIES, 5);
    next = evtchn_fifo_trace_domain_run(NULL, &w.domain, w.ledger, WORLD_ENTRIES, &w.shared, next);
    CHECK(next.code == 1 && next.value == 4 && w.control.ready == 8);
    next = evtchn_fifo_trace_guest_run(NULL, &w.guest, &w.shared, evtchn_fifo_trace_service(NULL, &w.guest));
    CHECK(next.code == 19 && next.index == 5 && next.value == 5);
    next = evtchn_fifo_trace_mask(NULL, &w.shared, 5, EVTCHN_FIFO_PAGE_WORDS);
    CHECK(next.code == 0 && next.value == 1 && w.page[5] == 0x40000000u);
    next = evtchn_fifo_trace_guest_run(NULL, &w.guest, &w.shared, evtchn_fifo_trace_clear_mask(NULL, &w.guest, 5));
    CHECK(next.code == 0 && next.value == 2 && w.page[5] == 0);
    CHECK(evtchn_fifo_trace_mask(NULL, &w.shared, 5, EVTCHN_FIFO_PAGE_WORDS).code == 0);
    next = evtchn_fifo_trace_unmask(NULL, &w.domain, w.ledger, WORLD_ENTRIES, 5);
    CHECK(evtchn_fifo_trace_domain_run(NULL, &w.domain, w.ledger, WORLD_ENTRIES, &w.shared, next).code == 0 && w.page[5] == 0);
    next = evtchn_fifo_trace_close(NULL, &w.domain, w.ledger, WORLD_ENTRIES, 5);
    CHECK(evtchn_fifo_trace_domain_run(NULL, &w.domain, w.ledger, WORLD_ENTRIES, &w.shared, next).code == 0);
    CHECK(wrote(""));
}

/* A file without a lock. */
static void to_a_file(void)
{
    FILE *file = tmpfile();
    evtchn_fifo_trace written = {.write = evtchn_fifo_trace_to_file, .context = file};
    char text[256];
    size_t length;
    CHECK(file != NULL);
    if (file == NULL)
        return;
    world_fresh(&w);
    evtchn_fifo_trace_header(&written);
    CHECK(evtchn_fifo_trace_init_control(&written, &w.domain, 0, 1, 1024, 0).code == 0);
    CHECK(evtchn_fifo_trace_expand_array(&written, &w.domain, 1, 1024).code == 0);
    rewind(file);
    length = fread(text, 1, sizeof text, file);
    CHECK(length == strlen(prologue) && memcmp(text, prologue, length) == 0);
    fclose(file);
}

int main(int count, char **words)
{
    call_lines();
    access_lines();
    answer_lines();
    codes();
    numbers();
    cases_by_hand();
    if (count > 1)
        cases_of_file(words[1]);
    refusals_of_starts();
    wide_numbers();
    refusals_under_way();
    refusals_in_a_clear_mask();
    replies_to_none();
    moments();
    mask_in_a_service();
    clear_mask_in_a_service();
    short_ledger();
    unmapped();
    without_trace();
    to_a_file();
    CHECK(recorded.outside == 0);
    return check_end();
}
