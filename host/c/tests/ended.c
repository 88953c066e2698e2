/*
 * What the bytes of a call that has ended hold: its owner, or a service's or a clear_mask's stage, is 0; the words that its last rule
 * changes are changed; every other byte stays.
 */
#include <string.h>

#include "check.h"
#include "evtchn_fifo.h"
#include "words.h"

#define PORT 5u
#define QUEUE 9u
#define ACCESSES 4u
#define LEDGER_SIZE ((PORT + 1) * EVTCHN_FIFO_ENTRY_SIZE)

#define PENDING 0x80000000u
#define MASKED 0x40000000u
#define LINKED 0x20000000u
#define BUSY 0x10000000u

/* places of a domain's record, and of a guest's */
enum { TAIL = 8 + 4 * QUEUE, OWNER = 72, STAGE = 76, CALL_PORT = 80, CALL_QUEUE = 84, CALL_WORD = 88, TRIES = 92, COUNT = 96 };
enum { HEAD = 4 * QUEUE, READY = 64, SERVICE_STAGE = 72, SERVICE_PORT = 76, SERVICE_QUEUE = 80, SERVICE_COUNT = 84 };
enum { CLEAR_STAGE = 88, CLEAR_PORT = 92, CLEAR_WORD = 96, CLEAR_COUNT = 100 };

enum { BIND = 1, CLOSE, RAISE, UNMASK };
enum { FIRST, R2, R3, R4, R5, R6, SET_BUSY, CLEAR_BUSY };
enum { G0 = 1, G1, G2, G3, G4 };
enum { READ = 1, CAS };

static void fill(uint8_t *bytes, size_t size)
{
    size_t k;
    for (k = 0; k < size; k++)
        bytes[k] = (uint8_t)(k * 31 + 17);
}

/* A call that its reply ends, the port's entry before and after, and whether the port becomes the tail of its queue. */
typedef struct ended_call {
    uint32_t owner, stage, tries, seen, answer;
    uint16_t before, after;
    int tailed;
} ended_call;

static const ended_call calls[] = {
    {BIND, FIRST, 0, LINKED, EVTCHN_FIFO_STILL_LINKED, 0x0277, 0x0277, 0},
    {BIND, FIRST, 0, MASKED, EVTCHN_FIFO_DONE, 0x0277, 0x0377, 0},
    {CLOSE, FIRST, 0, LINKED, EVTCHN_FIFO_DONE, 0xFF71, 0xFE77, 0},
    {RAISE, FIRST, 0, MASKED, EVTCHN_FIFO_DONE, 0x0377, 0x0377, 0},
    {RAISE, FIRST, 0, LINKED, EVTCHN_FIFO_DONE, 0x0377, 0x0377, 0},
    {UNMASK, FIRST, 0, MASKED, EVTCHN_FIFO_DONE, 0x0377, 0x0377, 0},
    {UNMASK, FIRST, 0, PENDING | LINKED, EVTCHN_FIFO_DONE, 0x0377, 0x0377, 0},
    {RAISE, R2, 0, LINKED, EVTCHN_FIFO_DONE, 0x0377, 0x0377, 0},
    {RAISE, R4, 1, PENDING | LINKED, EVTCHN_FIFO_DONE, 0x0377, 0x0377, 1},
    {UNMASK, R4, 5, PENDING | LINKED, EVTCHN_FIFO_DONE, 0x0377, 0x0377, 1},
    {RAISE, CLEAR_BUSY, 0, PENDING | LINKED | BUSY, EVTCHN_FIFO_LINK_ABANDONED, 0x0377, 0x0377, 1},
    {UNMASK, CLEAR_BUSY, 0, 0, EVTCHN_FIFO_LINK_ABANDONED, 0x0377, 0x0377, 1},
    {RAISE, R6, 0, 0, EVTCHN_FIFO_UPCALL_WANTED, 0x0377, 0x0377, 0},
    {UNMASK, R6, 0, 1u << QUEUE, EVTCHN_FIFO_DONE, 0x0377, 0x0377, 0},
};

static void check_call(const ended_call *call)
{
    uint8_t domain[EVTCHN_FIFO_DOMAIN_SIZE], expected[sizeof domain], ledger[LEDGER_SIZE], entries[sizeof ledger];
    evtchn_fifo_next next;
    fill(domain, sizeof domain);
    fill(ledger, sizeof ledger);
    put(domain, OWNER, call->owner);
    put(domain, STAGE, call->stage);
    put(domain, CALL_PORT, PORT);
    put(domain, CALL_QUEUE, QUEUE);
    put(domain, CALL_WORD, PENDING | LINKED);
    put(domain, TRIES, call->tries);
    put(domain, COUNT, ACCESSES);
    ledger[2 * PORT] = (uint8_t)call->before;
    ledger[2 * PORT + 1] = (uint8_t)(call->before >> 8);
    memcpy(expected, domain, sizeof domain);
    memcpy(entries, ledger, sizeof ledger);
    put(expected, OWNER, 0);
    if (call->tailed)
        put(expected, TAIL, PORT);
    entries[2 * PORT] = (uint8_t)call->after;
    entries[2 * PORT + 1] = (uint8_t)(call->after >> 8);

    next = evtchn_fifo_bytes_reply(domain, sizeof domain, ledger, sizeof ledger, call->seen);
    CHECK(next.code == call->answer && next.index == 0 && next.value == ACCESSES && next.old == 0);
    CHECK(memcmp(domain, expected, sizeof domain) == 0);
    CHECK(memcmp(ledger, entries, sizeof ledger) == 0);
    CHECK(evtchn_fifo_bytes_due(domain, sizeof domain).code == EVTCHN_FIFO_NO_CALL);
    CHECK(evtchn_fifo_bytes_reply(domain, sizeof domain, ledger, sizeof ledger, 0).code == EVTCHN_FIFO_NO_CALL);
    CHECK(memcmp(domain, expected, sizeof domain) == 0);
}

/* A service that its reply ends, the local ready bits and the head of queue 9 before and after. G0 has no queue yet. */
typedef struct ended_service {
    uint32_t stage, queue, seen, answer, index, ready, ready_after, head, head_after;
} ended_service;

static const ended_service services[] = {
    {G0, 3, 0, EVTCHN_FIFO_NOTHING_READY, 0, 0xABC00000u, 0, 77, 77},
    {G0, 3, 1u << QUEUE, EVTCHN_FIFO_BAD_INDEX, 0, 1u << 12, 1u << 12, 0xFFFFFFFFu, 0},
    {G1, QUEUE, 0, EVTCHN_FIFO_BAD_INDEX, 0, 0xABC0FFFFu, 0xABC0FDFFu, 77, 0},
    {G3, QUEUE, 0, EVTCHN_FIFO_TAKEN, PORT, 0xABC0FFFFu, 0xABC0FFFFu, 77, 77},
    {G3, QUEUE, PENDING | MASKED, EVTCHN_FIFO_TAKEN, PORT, 0xABC0FFFFu, 0xABC0FFFFu, 77, 77},
    {G4, QUEUE, PENDING, EVTCHN_FIFO_HANDED_OVER, PORT, 0xABC0FFFFu, 0xABC0FFFFu, 77, 77},
    {G4, QUEUE, 0, EVTCHN_FIFO_TAKEN, PORT, 0xABC0FFFFu, 0xABC0FFFFu, 77, 77},
};

static void check_service(const ended_service *service)
{
    uint8_t guest[EVTCHN_FIFO_GUEST_SIZE], expected[sizeof guest];
    evtchn_fifo_next next;
    fill(guest, sizeof guest);
    put(guest, HEAD, service->head);
    put(guest, READY, service->ready);
    put(guest, SERVICE_STAGE, service->stage);
    put(guest, SERVICE_PORT, PORT);
    put(guest, SERVICE_QUEUE, service->queue);
    put(guest, SERVICE_COUNT, ACCESSES);
    memcpy(expected, guest, sizeof guest);
    put(expected, HEAD, service->head_after);
    put(expected, READY, service->ready_after);
    put(expected, SERVICE_STAGE, 0);

    next = evtchn_fifo_bytes_service_reply(guest, sizeof guest, service->seen);
    CHECK(next.code == service->answer && next.index == service->index && next.value == ACCESSES && next.old == 0);
    CHECK(memcmp(guest, expected, sizeof guest) == 0);
    CHECK(evtchn_fifo_bytes_service_due(guest, sizeof guest).code == EVTCHN_FIFO_NO_CALL);
    CHECK(evtchn_fifo_bytes_service_reply(guest, sizeof guest, PENDING).code == EVTCHN_FIFO_NO_CALL);
    CHECK(memcmp(guest, expected, sizeof guest) == 0);
}

/* A clear_mask that its reply ends; its cas compares with MASKED alone. */
typedef struct ended_clear {
    uint32_t stage, seen, answer;
} ended_clear;

static const ended_clear clears[] = {
    {READ, 0, EVTCHN_FIFO_DONE},
    {READ, PENDING | LINKED | BUSY, EVTCHN_FIFO_DONE},
    {READ, MASKED | PENDING, EVTCHN_FIFO_CALL_UNMASK},
    {READ, MASKED | BUSY, EVTCHN_FIFO_CALL_UNMASK},
    {CAS, MASKED, EVTCHN_FIFO_DONE},
    {CAS, MASKED | LINKED, EVTCHN_FIFO_CALL_UNMASK},
    {CAS, 0, EVTCHN_FIFO_CALL_UNMASK},
};

static void check_clear(const ended_clear *clear)
{
    uint8_t guest[EVTCHN_FIFO_GUEST_SIZE], expected[sizeof guest];
    evtchn_fifo_next next;
    fill(guest, sizeof guest);
    put(guest, CLEAR_STAGE, clear->stage);
    put(guest, CLEAR_PORT, PORT);
    put(guest, CLEAR_WORD, MASKED);
    put(guest, CLEAR_COUNT, ACCESSES);
    memcpy(expected, guest, sizeof guest);
    put(expected, CLEAR_STAGE, 0);

    next = evtchn_fifo_bytes_service_reply(guest, sizeof guest, clear->seen);
    CHECK(next.code == clear->answer && next.index == 0 && next.value == ACCESSES && next.old == 0);
    CHECK(memcmp(guest, expected, sizeof guest) == 0);
    CHECK(evtchn_fifo_bytes_service_due(guest, sizeof guest).code == EVTCHN_FIFO_NO_CALL);
    CHECK(evtchn_fifo_bytes_service_reply(guest, sizeof guest, PENDING).code == EVTCHN_FIFO_NO_CALL);
    CHECK(memcmp(guest, expected, sizeof guest) == 0);
}

int main(void)
{
    size_t k;
    for (k = 0; k < sizeof calls / sizeof calls[0]; k++)
        check_call(calls + k);
    for (k = 0; k < sizeof services / sizeof services[0]; k++)
        check_service(services + k);
    for (k = 0; k < sizeof clears / sizeof clears[0]; k++)
        check_clear(clears + k);
    return check_end();
}
