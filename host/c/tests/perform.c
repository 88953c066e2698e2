/*
 * evtchn_fifo_perform: every kind on every place does what its name says and nothing else, and hands back the word seen; what is not
 * mapped, and a code that is no access, is not performed. A run gives an access back that is not mapped.
 */
#include <string.h>

#include "check.h"
#include "evtchn_fifo_atomic.h"

#define PAGES 2u
#define MAPPED (EVTCHN_FIFO_PAGE_WORDS + 10u) /* of the second page, ten words */
#define ENTRIES 32u

static struct memory {
    evtchn_fifo_control control;
    uint32_t words[PAGES * EVTCHN_FIFO_PAGE_WORDS];
} memory, copy;
static uint32_t *const pages[PAGES] = {memory.words, memory.words + EVTCHN_FIFO_PAGE_WORDS};
static evtchn_fifo_shared shared = {&memory.control, pages, MAPPED};

static void fill(void)
{
    uint32_t k;
    for (k = 0; k < EVTCHN_FIFO_CONTROL_WORDS; k++)
        ((uint32_t *)&memory.control)[k] = 0x5A5A0000u + k;
    for (k = 0; k < PAGES * EVTCHN_FIFO_PAGE_WORDS; k++)
        memory.words[k] = 0xA5A50000u + k;
    copy = memory;
}

/* the word of the copy that an access is made on; NULL where there is none */
static uint32_t *place(uint32_t code, uint32_t index)
{
    if (code < 0x100 || code >= 0x160)
        return NULL;
    switch (code % 16) {
    case 0: return index < MAPPED ? copy.words + index : NULL;
    case 1: return shared.control == NULL ? NULL : &copy.control.ready;
    case 2: return index < 16 && shared.control != NULL ? &copy.control.head[index] : NULL;
    default: return NULL;
    }
}

/* the access on the copy, in plain steps: the word to hand back */
static uint32_t plainly(uint32_t *word, uint32_t code, uint32_t value, uint32_t old)
{
    uint32_t seen = *word;
    switch (code / 16) {
    case 0x10: break;
    case 0x11: *word = value; return 0;
    case 0x12: *word |= value; break;
    case 0x13: *word &= value; break;
    case 0x14: *word = value; break;
    default: *word = seen == old ? value : seen; break;
    }
    return seen;
}

static int is_right(uint32_t code, uint32_t index, uint32_t value, uint32_t old)
{
    evtchn_fifo_next next = {code, index, value, old};
    uint32_t seen = 0xDEADu, *word;
    int performed;
    fill();
    word = place(code, index);
    performed = evtchn_fifo_perform(&shared, next, &seen);
    if (word == NULL)
        return !performed && memcmp(&memory, &copy, sizeof memory) == 0;
    return performed && seen == plainly(word, code, value, old) && memcmp(&memory, &copy, sizeof memory) == 0;
}

/* with operands that meet the word and with others; of READY the index is of no matter */
static int is_right_at(uint32_t code, uint32_t index)
{
    uint32_t *word, old;
    fill();
    word = place(code, index);
    old = word == NULL ? 0 : *word;
    return is_right(code, index, 0xF00FF00Fu, old) && is_right(code, index, 0, old ^ 1) && is_right(code, index, 0x80000000u, ~old);
}

/* every code up to what no access has, and codes with higher bits */
static int are_right_at(uint32_t index)
{
    uint32_t code, bit;
    for (code = 0; code < 0x400; code++)
        if (!is_right_at(code, index))
            return 0;
    for (bit = 8; bit < 32; bit++)
        if (!is_right_at(0x20u | 1u << bit, index) || !is_right_at(0x141u | 1u << bit, index))
            return 0;
    return is_right_at(0xFFFFFFFFu, index) && is_right_at(0xFFFFFF20u, index);
}

static void codes(void)
{
    static const uint32_t indices[] = {0, 1, 5, 15, 16, 1023, 1024, 1033, 1034, 2047, 2048, 131072, 0x7FFFFFFFu, 0xFFFFFFFFu};
    size_t k;
    for (k = 0; k < sizeof indices / sizeof indices[0]; k++)
        CHECK(are_right_at(indices[k]));
}

/* a raise on an array that is not mapped, or whose control block is not: its access comes back, and the call goes on where it is */
static void unmapped_runs(void)
{
    evtchn_fifo_domain domain;
    evtchn_fifo_guest guest;
    uint16_t ledger[ENTRIES];
    evtchn_fifo_next next;
    memset(&memory, 0, sizeof memory);
    evtchn_fifo_domain_fresh(&domain);
    evtchn_fifo_guest_fresh(&guest);
    evtchn_fifo_ledger_fresh(ledger, ENTRIES);
    CHECK(evtchn_fifo_domain_init_control(&domain, 0, 0, 1, 0).code == 0);
    CHECK(evtchn_fifo_domain_bind(&domain, ledger, ENTRIES, 5).code == 0);
    CHECK(evtchn_fifo_domain_expand_array(&domain, 0, 1).code == 0);
    shared.words = 5;
    next = evtchn_fifo_domain_run(&domain, ledger, ENTRIES, &shared, evtchn_fifo_domain_raise(&domain, ledger, ENTRIES, 5));
    CHECK(next.code == 0x120 && next.index == 5 && next.value == 0x80000000u && memory.words[5] == 0);
    shared.words = MAPPED;
    shared.control = NULL;
    next = evtchn_fifo_domain_run(&domain, ledger, ENTRIES, &shared, next);
    CHECK(next.code == 0x112 && next.index == 7 && next.value == 5 && memory.words[5] == 0xA0000000u);
    CHECK(evtchn_fifo_is_access(evtchn_fifo_guest_run(&guest, &shared, evtchn_fifo_guest_service(&guest))));
    shared.control = &memory.control;
    next = evtchn_fifo_domain_run(&domain, ledger, ENTRIES, &shared, next);
    CHECK(next.code == 1 && next.value == 4 && memory.control.ready == 0x80 && memory.control.head[7] == 5);
    next = evtchn_fifo_domain_run(&domain, ledger, ENTRIES, &shared, next);
    CHECK(next.code == 1 && next.value == 4);
}

/* a clear_mask on a word that is not mapped: its read comes back, and then its cas */
static void unmapped_clear_mask(void)
{
    evtchn_fifo_guest guest;
    evtchn_fifo_next next;
    memset(&memory, 0, sizeof memory);
    memory.words[5] = 0x40000000u;
    evtchn_fifo_guest_fresh(&guest);
    evtchn_fifo_guest_tell(&guest, EVTCHN_FIFO_PAGE_WORDS);
    shared.words = 5;
    next = evtchn_fifo_guest_run(&guest, &shared, evtchn_fifo_guest_clear_mask(&guest, 5));
    CHECK(next.code == 0x100 && next.index == 5);
    next = evtchn_fifo_guest_service_reply(&guest, memory.words[5]);
    next = evtchn_fifo_guest_run(&guest, &shared, next);
    CHECK(next.code == 0x150 && next.index == 5 && next.value == 0 && next.old == 0x40000000u && memory.words[5] == 0x40000000u);
    shared.words = MAPPED;
    next = evtchn_fifo_guest_run(&guest, &shared, next);
    CHECK(next.code == 0 && next.value == 2 && memory.words[5] == 0);
}

int main(void)
{
    codes();
    shared.control = NULL;
    codes();
    shared.control = &memory.control;
    unmapped_runs();
    unmapped_clear_mask();
    return check_end();
}
