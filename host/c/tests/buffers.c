/*
 * Buffers: too short ones, NULL with length 0, longer ones and what lies beyond, lengths above 2^32, odd ledgers, and how far fresh
 * ones reach.
 */
#define _DEFAULT_SOURCE
#include <stdlib.h>
#include <string.h>
#include <sys/mman.h>

#include "check.h"
#include "evtchn_fifo.h"
#include "words.h"

#define RECORD_BYTES 256u
#define LEDGER_BYTES 64u
#define PORT 5u
#define LEDGER_SIZE ((PORT + 1) * EVTCHN_FIFO_ENTRY_SIZE)

/* So much longer a slice is one byte too short where its length is cut to 32 bits. */
#define MUCH_LONGER 0xFFFFFFFFu

static uint8_t *bytes, *table;
static uint8_t copy[RECORD_BYTES], table_copy[LEDGER_BYTES];

/* what a call is lent, and the word handed back */
static uint8_t *record;
static size_t length, ledger_length;
static uint32_t seen;

/* Room for the longest slice; only its first bytes are memory. */
static uint8_t *room(void)
{
    size_t size = (size_t)MUCH_LONGER + RECORD_BYTES;
    void *start = mmap(NULL, size, PROT_NONE, MAP_PRIVATE | MAP_ANONYMOUS | MAP_NORESERVE, -1, 0);
    if (start == MAP_FAILED || mprotect(start, RECORD_BYTES, PROT_READ | PROT_WRITE) != 0) {
        printf("there is no room for %zu bytes\n", size);
        exit(1);
    }
    return start;
}

static uint8_t record_fill(size_t k) { return (uint8_t)(k * 31 + 17); }
static uint8_t ledger_fill(size_t k) { return (uint8_t)(k * 13 + 3); }

static void fill(void)
{
    size_t k;
    for (k = 0; k < RECORD_BYTES; k++)
        bytes[k] = record_fill(k);
    for (k = 0; k < LEDGER_BYTES; k++)
        table[k] = ledger_fill(k);
}

static void keep(void)
{
    memcpy(copy, bytes, sizeof copy);
    memcpy(table_copy, table, sizeof table_copy);
}

static int kept(void) { return memcmp(copy, bytes, sizeof copy) == 0 && memcmp(table_copy, table, sizeof table_copy) == 0; }

/* every byte beyond a record of that size, and every one of the ledger but those of the port's entry */
static int others_kept(size_t size)
{
    size_t k;
    for (k = size; k < RECORD_BYTES; k++)
        if (bytes[k] != record_fill(k))
            return 0;
    for (k = 0; k < LEDGER_BYTES; k++)
        if (k / EVTCHN_FIFO_ENTRY_SIZE != PORT && table[k] != ledger_fill(k))
            return 0;
    return 1;
}

/* ---- every call that is lent a record ---- */

typedef struct call {
    const char *name;
    evtchn_fifo_next (*make)(void);
} call;

static evtchn_fifo_next only(uint32_t code)
{
    evtchn_fifo_next next = {code, 0, 0, 0};
    return next;
}

static evtchn_fifo_next fresh_domain(void) { return only(evtchn_fifo_bytes_fresh_domain(record, length)); }
static evtchn_fifo_next init_control(void) { return evtchn_fifo_bytes_init_control(record, length, 0, 0, 1, 0); }
static evtchn_fifo_next expand_array(void) { return evtchn_fifo_bytes_expand_array(record, length, 0, 1); }
static evtchn_fifo_next bind(void) { return evtchn_fifo_bytes_bind(record, length, table, ledger_length, PORT); }
static evtchn_fifo_next close(void) { return evtchn_fifo_bytes_close(record, length, table, ledger_length, PORT); }
static evtchn_fifo_next set_priority(void) { return evtchn_fifo_bytes_set_priority(record, length, table, ledger_length, PORT, 9); }
static evtchn_fifo_next raise(void) { return evtchn_fifo_bytes_raise(record, length, table, ledger_length, PORT); }
static evtchn_fifo_next unmask(void) { return evtchn_fifo_bytes_unmask(record, length, table, ledger_length, PORT); }
static evtchn_fifo_next reply(void) { return evtchn_fifo_bytes_reply(record, length, table, ledger_length, seen); }
static evtchn_fifo_next due(void) { return evtchn_fifo_bytes_due(record, length); }
static evtchn_fifo_next fresh_guest(void) { return only(evtchn_fifo_bytes_fresh_guest(record, length)); }
static evtchn_fifo_next service(void) { return evtchn_fifo_bytes_service(record, length); }
static evtchn_fifo_next service_reply(void) { return evtchn_fifo_bytes_service_reply(record, length, seen); }
static evtchn_fifo_next service_due(void) { return evtchn_fifo_bytes_service_due(record, length); }
static evtchn_fifo_next tell(void) { return evtchn_fifo_bytes_tell(record, length, seen); }
static evtchn_fifo_next clear_mask(void) { return evtchn_fifo_bytes_clear_mask(record, length, PORT); }

static const call domain_calls[] = {{"fresh_domain", fresh_domain}, {"init_control", init_control}, {"expand_array", expand_array},
                                    {"bind", bind}, {"close", close}, {"set_priority", set_priority}, {"raise", raise},
                                    {"unmask", unmask}, {"reply", reply}, {"due", due}, {NULL, NULL}};
static const call guest_calls[] = {{"fresh_guest", fresh_guest}, {"service", service}, {"service_reply", service_reply},
                                   {"service_due", service_due}, {"clear_mask", clear_mask}, {"tell", tell}, {NULL, NULL}};

/* ---- records in many states, each a number below a limit ---- */

static uint32_t word_of(unsigned number)
{
    static const uint32_t words[] = {0, 0x80000000u, 0xA0000005u, 0x60000005u, 0xFFFFFFFFu};
    return words[number % 5];
}

/* the block given or not, the port in the array or not, bound or not; each owner and stage; a word to hand back */
static void set_domain(unsigned state)
{
    fill();
    put(bytes, 0, state % 2);
    put(bytes, 4, state / 2 % 2);
    table[PORT * EVTCHN_FIFO_ENTRY_SIZE + 1] = (uint8_t)(state / 4 % 2);
    put(bytes, 72, state / 8 % 5);
    put(bytes, 76, state / 40 % 9);
    put(bytes, 80, PORT);
    seen = word_of(state / 360);
}

/* no words or many, each stage of a service and of a clear_mask, a word to hand back */
static void set_guest(unsigned state)
{
    fill();
    put(bytes, 68, state % 2 * 131072);
    put(bytes, 72, state / 2 % 6);
    put(bytes, 88, state / 12 % 4);
    put(bytes, 92, PORT);
    seen = word_of(state / 48);
}

/* a side's record: its size, its calls and its states */
typedef struct side {
    size_t size;
    const call *calls;
    void (*set)(unsigned state);
    unsigned states;
} side;

static const side domain_side = {EVTCHN_FIFO_DOMAIN_SIZE, domain_calls, set_domain, 1800};
static const side guest_side = {EVTCHN_FIFO_GUEST_SIZE, guest_calls, set_guest, 240};

/* ---- the tests ---- */

static int is_same(evtchn_fifo_next a, evtchn_fifo_next b)
{
    return a.code == b.code && a.index == b.index && a.value == b.value && a.old == b.old;
}

static void short_slices(const side *of, uint8_t *lent, size_t lent_length)
{
    const call *one;
    fill();
    keep();
    record = lent;
    length = lent_length;
    ledger_length = LEDGER_BYTES;
    for (one = of->calls; one->name != NULL; one++)
        check_at(__FILE__, __LINE__, one->name, is_same(one->make(), only(EVTCHN_FIFO_TOO_SHORT)));
    CHECK(kept());
}

/* A call on longer slices gives and leaves the same as on slices of the right size, and touches nothing else. */
static int same_longer(const side *of, const call *one, unsigned state, size_t longer)
{
    evtchn_fifo_next usual;
    of->set(state);
    length = of->size;
    ledger_length = LEDGER_SIZE;
    usual = one->make();
    keep();
    of->set(state);
    length = of->size + longer;
    ledger_length = LEDGER_SIZE + longer;
    return is_same(one->make(), usual) && kept() && others_kept(of->size);
}

static int same_in_every_state(const side *of, const call *one, size_t longer)
{
    unsigned state = 0;
    while (state < of->states && same_longer(of, one, state, longer))
        state++;
    return state == of->states;
}

static void longer_slices(const side *of)
{
    static const size_t longer[] = {1, 2, 5, LEDGER_BYTES - LEDGER_SIZE, MUCH_LONGER};
    const size_t count = sizeof longer / sizeof longer[0];
    const call *one;
    record = bytes;
    for (one = of->calls; one->name != NULL; one++) {
        size_t k = 0;
        while (k < count && same_in_every_state(of, one, longer[k]))
            k++;
        check_at(__FILE__, __LINE__, one->name, k == count);
    }
}

static void slices(const side *of)
{
    size_t lent;
    short_slices(of, NULL, 0);
    for (lent = 0; lent < of->size; lent++)
        short_slices(of, bytes, lent);
    longer_slices(of);
}

/* fresh records are zeros */
static void fresh(void)
{
    uint8_t zeros[EVTCHN_FIFO_GUEST_SIZE];
    memset(zeros, 0, sizeof zeros);
    fill();
    CHECK(evtchn_fifo_bytes_fresh_domain(bytes + 1, EVTCHN_FIFO_DOMAIN_SIZE) == 0);
    CHECK(memcmp(bytes + 1, zeros, EVTCHN_FIFO_DOMAIN_SIZE) == 0 && bytes[0] == record_fill(0) && others_kept(1 + EVTCHN_FIFO_DOMAIN_SIZE));
    fill();
    CHECK(evtchn_fifo_bytes_fresh_guest(bytes + 1, EVTCHN_FIFO_GUEST_SIZE) == 0);
    CHECK(memcmp(bytes + 1, zeros, EVTCHN_FIFO_GUEST_SIZE) == 0 && bytes[0] == record_fill(0) && others_kept(1 + EVTCHN_FIFO_GUEST_SIZE));
}

/* a ledger of any length: its entries are 7, and a last odd byte is none */
static void fresh_ledger(size_t lent)
{
    size_t entries = lent / EVTCHN_FIFO_ENTRY_SIZE, k;
    int holds = 1;
    fill();
    CHECK(evtchn_fifo_bytes_fresh_ledger(table + 1, lent) == 0);
    for (k = 0; k < entries; k++)
        holds = holds && table[1 + 2 * k] == 7 && table[2 + 2 * k] == 0;
    for (k = 1 + 2 * entries; k < LEDGER_BYTES; k++)
        holds = holds && table[k] == ledger_fill(k);
    CHECK(holds && table[0] == ledger_fill(0));
}

static void ledgers(void)
{
    size_t lent;
    for (lent = 0; lent < LEDGER_BYTES; lent++)
        fresh_ledger(lent);
    CHECK(evtchn_fifo_bytes_fresh_ledger(NULL, 0) == 0);
    evtchn_fifo_bytes_fresh_domain(bytes, EVTCHN_FIFO_DOMAIN_SIZE);
    CHECK(evtchn_fifo_bytes_init_control(bytes, EVTCHN_FIFO_DOMAIN_SIZE, 0, 0, 1, 0).code == 0);
    CHECK(evtchn_fifo_bytes_bind(bytes, EVTCHN_FIFO_DOMAIN_SIZE, table + 1, 13, 6).code == 14);
    CHECK(evtchn_fifo_bytes_bind(bytes, EVTCHN_FIFO_DOMAIN_SIZE, table + 1, 14, 6).code == 0);
    CHECK(evtchn_fifo_bytes_bind(bytes, EVTCHN_FIFO_DOMAIN_SIZE, NULL, 0, 6).code == 14);
}

int main(void)
{
    bytes = room();
    table = room();
    slices(&domain_side);
    slices(&guest_side);
    fresh();
    ledgers();
    return check_end();
}
