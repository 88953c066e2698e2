/*
 * The tails that R2's reply looks at, in records that no run makes: a tail is none where it is 0, and one at or beyond the array's
 * end is a tail like any other. The record and the ledger end where memory does.
 */
#define _DEFAULT_SOURCE
#include <stdlib.h>
#include <sys/mman.h>
#include <unistd.h>

#include "check.h"
#include "evtchn_fifo.h"
#include "words.h"

#define PORT 5u
#define LEDGER_SIZE ((PORT + 1) * EVTCHN_FIFO_ENTRY_SIZE)
#define PENDING 0x80000000u

/* places in a domain's record; its owner and stage */
enum { PAGES = 4, TAIL_7 = 8 + 4 * 7, OWNER = 72, STAGE = 76, CALL_PORT = 80, COUNT = 96 };
enum { RAISE = 3, R2 = 1 };

/* entries of a port that was last linked on queue 7; its priority is 7 still, or 0 */
enum { LINKED_ON_7 = 0x0377, MOVED_FROM_7 = 0x0370 };

static uint8_t *domain, *ledger;

/* so many bytes, behind which none can be read or written */
static uint8_t *guarded(size_t size)
{
    size_t page = (size_t)sysconf(_SC_PAGESIZE);
    uint8_t *start = mmap(NULL, 2 * page, PROT_READ | PROT_WRITE, MAP_PRIVATE | MAP_ANONYMOUS, -1, 0);
    if (start == MAP_FAILED || mprotect(start + page, page, PROT_NONE) != 0) {
        printf("there is no room for %zu bytes\n", 2 * page);
        exit(1);
    }
    return start + page - size;
}

/* what R2's reply gives where the tail of queue 7 is this one, in an array of so many pages */
static evtchn_fifo_next after_r2(uint32_t pages, uint32_t entry, uint32_t tail)
{
    evtchn_fifo_bytes_fresh_domain(domain, EVTCHN_FIFO_DOMAIN_SIZE);
    evtchn_fifo_bytes_fresh_ledger(ledger, LEDGER_SIZE);
    put(domain, PAGES, pages);
    put(domain, TAIL_7, tail);
    put(domain, OWNER, RAISE);
    put(domain, STAGE, R2);
    put(domain, CALL_PORT, PORT);
    put(domain, COUNT, 2);
    ledger[2 * PORT] = (uint8_t)entry;
    ledger[2 * PORT + 1] = (uint8_t)(entry >> 8);
    return evtchn_fifo_bytes_reply(domain, EVTCHN_FIFO_DOMAIN_SIZE, ledger, LEDGER_SIZE, PENDING);
}

static int is_access(evtchn_fifo_next next, unsigned kind, unsigned place, uint32_t index)
{
    return evtchn_fifo_is_access(next) && evtchn_fifo_kind_of(next) == kind && evtchn_fifo_place_of(next) == place &&
           next.index == index;
}

/* R3: the tail is read, and stays */
static int reads(uint32_t pages, uint32_t tail)
{
    evtchn_fifo_next next = after_r2(pages, LINKED_ON_7, tail), due = evtchn_fifo_bytes_due(domain, EVTCHN_FIFO_DOMAIN_SIZE);
    return is_access(next, EVTCHN_FIFO_READ, EVTCHN_FIFO_WORD, tail) && is_access(due, EVTCHN_FIFO_READ, EVTCHN_FIFO_WORD, tail) &&
           get(domain, TAIL_7) == tail;
}

/* R5: the port becomes the head of its queue */
static int stores(uint32_t pages, uint32_t tail)
{
    return is_access(after_r2(pages, LINKED_ON_7, tail), EVTCHN_FIFO_STORE, EVTCHN_FIFO_HEAD, 7);
}

/* the tail of queue 7 after a port that was last linked there is linked on queue 0 */
static uint32_t left_behind(uint32_t pages, uint32_t tail)
{
    after_r2(pages, MOVED_FROM_7, tail);
    return get(domain, TAIL_7);
}

int main(void)
{
    static const uint32_t pages[] = {0, 1, 2, 128, 0xFFFFFFFFu};
    static const uint32_t tails[] = {1, 1023, 1024, 2000, 2047, 2048, 131071, 131072, 0xFFFFFFFFu};
    size_t k, t;
    domain = guarded(EVTCHN_FIFO_DOMAIN_SIZE);
    ledger = guarded(LEDGER_SIZE);
    for (k = 0; k < sizeof pages / sizeof pages[0]; k++) {
        CHECK(stores(pages[k], 0));
        CHECK(stores(pages[k], PORT));
        CHECK(left_behind(pages[k], PORT) == 0);
        for (t = 0; t < sizeof tails / sizeof tails[0]; t++) {
            CHECK(reads(pages[k], tails[t]));
            CHECK(left_behind(pages[k], tails[t]) == tails[t]);
        }
    }
    return check_end();
}
