/*
 * The headers' helpers: names and errno of answers, the ABI's numbers, what records and ledgers say, and whole calls, which tell an answer
 * from an access that is not mapped. With the argument 'names' it prints the name and errno of every code below 256 that has one.
 */
#include <errno.h>
#include <string.h>

#include "../world.h"
#include "check.h"
#include "evtchn_cables.h"

static world w;

static const char *errno_name(int number)
{
    switch (number) {
    case -1: return "-";
    case 0: return "0";
    case EINVAL: return "EINVAL";
    case EBUSY: return "EBUSY";
    case ENOSPC: return "ENOSPC";
    case ENOENT: return "ENOENT";
    default: return "another";
    }
}

static int print_names(void)
{
    uint32_t code;
    for (code = 0; code < 256; code++)
        if (strcmp(evtchn_cables_name(code), "unknown") != 0)
            printf("%u %s %s\n", (unsigned)code, evtchn_cables_name(code), errno_name(evtchn_cables_errno(code)));
    return 0;
}

/* The numbers of Xen's public header, and of what the library itself gives. */
static void numbers(void)
{
    evtchn_fifo_domain domain;
    uint16_t entry = 0;
    CHECK(EVTCHN_FIFO_WORD_PENDING == 1u << 31 && EVTCHN_FIFO_WORD_MASKED == 1u << 30 && EVTCHN_FIFO_WORD_LINKED == 1u << 29);
    CHECK(EVTCHN_FIFO_WORD_BUSY == 1u << 28 && EVTCHN_FIFO_WORD_LINK == (1u << EVTCHN_FIFO_WORD_LINK_BITS) - 1);
    CHECK(EVTCHN_FIFO_PORTS == EVTCHN_FIFO_WORD_LINK + 1 && EVTCHN_FIFO_PAGES * EVTCHN_FIFO_PAGE_WORDS == EVTCHN_FIFO_PORTS);
    evtchn_fifo_ledger_fresh(&entry, 1);
    CHECK(entry == EVTCHN_FIFO_ENTRY_FRESH && evtchn_fifo_entry_priority(entry) == EVTCHN_FIFO_DEFAULT_PRIORITY);
    evtchn_fifo_domain_fresh(&domain);
    CHECK(evtchn_fifo_domain_init_control(&domain, 0, 0, 1, EVTCHN_FIFO_CONTROL_OFFSET + 8).code == EVTCHN_FIFO_BAD_OFFSET);
    CHECK(evtchn_fifo_domain_init_control(&domain, 0, 0, 1, EVTCHN_FIFO_CONTROL_OFFSET).index == EVTCHN_FIFO_WORD_LINK_BITS);
    CHECK(EVTCHN_FIFO_CONTROL_OFFSET + sizeof(evtchn_fifo_control) == 4096);
    CHECK(EVTCHN_FIFO_LOWEST_PRIORITY - EVTCHN_FIFO_HIGHEST_PRIORITY + 1 == EVTCHN_FIFO_QUEUES);
    CHECK(evtchn_fifo_layout() == EVTCHN_FIFO_LAYOUT);
}

static void version(void)
{
    char text[32];
    snprintf(text, sizeof text, "%d.%d.%d", EVTCHN_FIFO_VERSION_MAJOR, EVTCHN_FIFO_VERSION_MINOR, EVTCHN_FIFO_VERSION_PATCH);
    CHECK(strcmp(text, EVTCHN_FIFO_VERSION) == 0);
}

static void ledgers(void)
{
    __extension__ uint16_t here[9] = EVTCHN_FIFO_LEDGER_FRESH(9);
    uint16_t there[9];
    evtchn_fifo_ledger_fresh(there, 9);
    CHECK(memcmp(here, there, sizeof here) == 0);
}

/* Each owner and stage, of the list and beyond: a call is under way exactly where the library finds one. */
static void domains_under_way(void)
{
    evtchn_fifo_domain domain;
    uint32_t k, stage;
    for (k = 0; k < 12; k++)
        for (stage = 0; stage < 12; stage++) {
            uint32_t owner = k < 8 ? k : 256 + k - 8, found;
            evtchn_fifo_domain_fresh(&domain);
            domain.bytes[72] = (uint8_t)owner;
            domain.bytes[73] = (uint8_t)(owner >> 8);
            domain.bytes[76] = (uint8_t)stage;
            found = evtchn_fifo_domain_under_way(&domain);
            CHECK((found == EVTCHN_FIFO_IDLE) == (evtchn_fifo_domain_due(&domain).code == EVTCHN_FIFO_NO_CALL));
            CHECK(found == EVTCHN_FIFO_IDLE || found == owner);
        }
}

static void guests_under_way(void)
{
    evtchn_fifo_guest guest;
    uint32_t service, clear_mask;
    for (service = 0; service < 8; service++)
        for (clear_mask = 0; clear_mask < 5; clear_mask++) {
            uint32_t found;
            evtchn_fifo_guest_fresh(&guest);
            guest.bytes[72] = (uint8_t)service;
            guest.bytes[88] = (uint8_t)clear_mask;
            found = evtchn_fifo_guest_under_way(&guest);
            CHECK((found == EVTCHN_FIFO_IDLE) == (evtchn_fifo_guest_service_due(&guest).code == EVTCHN_FIFO_NO_CALL));
            CHECK(((found & EVTCHN_FIFO_CLEAR_MASK) != 0) == (evtchn_fifo_guest_clear_mask(&guest, 0).code == EVTCHN_FIFO_CALL_UNDER_WAY));
            CHECK(((found & EVTCHN_FIFO_SERVICE) != 0) == (service >= 1 && service <= 5));
        }
}

static evtchn_fifo_outcome run(evtchn_fifo_next start)
{
    return evtchn_fifo_run(&w.domain, w.ledger, WORLD_ENTRIES, &w.shared, start);
}

static evtchn_fifo_next start_raise(void) { return evtchn_fifo_domain_raise(&w.domain, w.ledger, WORLD_ENTRIES, 5); }

static int is_answer(evtchn_fifo_outcome outcome, uint32_t code, uint32_t index, uint32_t count, uint32_t under_way)
{
    static const evtchn_fifo_next none;
    return outcome.code == code && outcome.index == index && outcome.count == count && outcome.under_way == under_way &&
           memcmp(&outcome.due, &none, sizeof none) == 0;
}

static int is_due(evtchn_fifo_outcome outcome, uint32_t access, uint32_t index, uint32_t under_way)
{
    return outcome.code == EVTCHN_FIFO_NOT_MAPPED && outcome.index == 0 && outcome.count == 0 && outcome.under_way == under_way &&
           outcome.due.code == access && outcome.due.index == index;
}

static void what_records_say(void)
{
    world_fresh(&w);
    CHECK(!evtchn_fifo_domain_given(&w.domain) && evtchn_fifo_domain_pages(&w.domain) == 0 && evtchn_fifo_guest_words(&w.guest) == 0);
    CHECK(is_answer(run(evtchn_fifo_domain_init_control(&w.domain, 0, 1, 2, 0)), EVTCHN_FIFO_DONE, 17, 0, EVTCHN_FIFO_IDLE));
    CHECK(evtchn_fifo_domain_given(&w.domain) && evtchn_fifo_domain_pages(&w.domain) == 0);
    CHECK(is_answer(run(evtchn_fifo_domain_expand_array(&w.domain, 1, 2)), EVTCHN_FIFO_DONE, 0, 0, EVTCHN_FIFO_IDLE));
    evtchn_fifo_guest_tell(&w.guest, EVTCHN_FIFO_PAGE_WORDS);
    CHECK(evtchn_fifo_domain_pages(&w.domain) == 1 && evtchn_fifo_guest_words(&w.guest) == EVTCHN_FIFO_PAGE_WORDS);
    CHECK(!evtchn_fifo_entry_bound(w.ledger[5]));
    CHECK(is_answer(run(evtchn_fifo_domain_bind(&w.domain, w.ledger, WORLD_ENTRIES, 5)), EVTCHN_FIFO_DONE, 0, 1, EVTCHN_FIFO_IDLE));
    CHECK(evtchn_fifo_entry_bound(w.ledger[5]) && !evtchn_fifo_entry_bound(w.ledger[6]));
    CHECK(is_answer(run(evtchn_fifo_domain_set_priority(&w.domain, w.ledger, WORLD_ENTRIES, 5, 9)), EVTCHN_FIFO_DONE, 0, 0, EVTCHN_FIFO_IDLE));
    CHECK(evtchn_fifo_entry_priority(w.ledger[5]) == 9 && evtchn_fifo_entry_bound(w.ledger[5]));
}

/* A raise whose word, HEAD and READY are not mapped at first. */
static void runs(void)
{
    what_records_say();
    w.shared.words = 5;
    CHECK(is_due(run(start_raise()), 0x120, 5, EVTCHN_FIFO_RAISE) && w.page[5] == 0);
    CHECK(is_answer(run(start_raise()), EVTCHN_FIFO_CALL_UNDER_WAY, 0, 0, EVTCHN_FIFO_RAISE));
    CHECK(is_due(run(evtchn_fifo_domain_due(&w.domain)), 0x120, 5, EVTCHN_FIFO_RAISE));
    w.shared.words = EVTCHN_FIFO_PAGE_WORDS;
    w.shared.control = NULL;
    CHECK(is_due(run(evtchn_fifo_domain_due(&w.domain)), 0x112, 9, EVTCHN_FIFO_RAISE) && w.page[5] == 0xA0000000u);
    w.shared.control = &w.control;
    CHECK(is_answer(run(evtchn_fifo_domain_due(&w.domain)), EVTCHN_FIFO_UPCALL_WANTED, 0, 4, EVTCHN_FIFO_IDLE));
    CHECK(is_answer(run(evtchn_fifo_domain_due(&w.domain)), EVTCHN_FIFO_NO_CALL, 0, 0, EVTCHN_FIFO_IDLE));
    CHECK(w.control.ready == 1u << 9 && w.control.head[9] == 5);
}

/* A service whose READY is not mapped at first, then its event word. */
static void serves(void)
{
    runs();
    w.shared.control = NULL;
    CHECK(is_due(evtchn_fifo_serve(&w.guest, &w.shared), 0x141, 0, EVTCHN_FIFO_SERVICE));
    CHECK(is_answer(evtchn_fifo_serve(&w.guest, &w.shared), EVTCHN_FIFO_CALL_UNDER_WAY, 0, 0, EVTCHN_FIFO_SERVICE));
    w.shared.control = &w.control;
    w.shared.words = 5;
    CHECK(is_due(evtchn_fifo_serve_on(&w.guest, &w.shared), 0x130, 5, EVTCHN_FIFO_SERVICE) && w.control.ready == 0);
    w.shared.words = EVTCHN_FIFO_PAGE_WORDS;
    CHECK(is_answer(evtchn_fifo_serve_on(&w.guest, &w.shared), EVTCHN_FIFO_HANDED_OVER, 5, 5, EVTCHN_FIFO_IDLE));
    CHECK(is_answer(evtchn_fifo_serve(&w.guest, &w.shared), EVTCHN_FIFO_NOTHING_READY, 0, 1, EVTCHN_FIFO_IDLE));
    CHECK(is_answer(evtchn_fifo_serve_on(&w.guest, &w.shared), EVTCHN_FIFO_NO_CALL, 0, 0, EVTCHN_FIFO_IDLE));
}

/* Masks, and a clear_mask that begins while a service stands. */
static void masks(void)
{
    uint32_t both = EVTCHN_FIFO_SERVICE + EVTCHN_FIFO_CLEAR_MASK;
    serves();
    CHECK(is_answer(evtchn_fifo_run_mask(&w.shared, 5, EVTCHN_FIFO_PAGE_WORDS), EVTCHN_FIFO_DONE, 0, 1, EVTCHN_FIFO_IDLE));
    CHECK(w.page[5] == EVTCHN_FIFO_WORD_MASKED);
    CHECK(is_answer(evtchn_fifo_run_mask(&w.shared, 5, 5), EVTCHN_FIFO_OUTSIDE_ARRAY, 0, 0, EVTCHN_FIFO_IDLE));
    CHECK(evtchn_fifo_is_access(evtchn_fifo_guest_service(&w.guest)));
    w.shared.words = 5;
    CHECK(is_due(evtchn_fifo_run_mask(&w.shared, 5, EVTCHN_FIFO_PAGE_WORDS), 0x120, 5, EVTCHN_FIFO_IDLE));
    CHECK(is_due(evtchn_fifo_run_clear_mask(&w.guest, &w.shared, 5), 0x100, 5, both));
    w.shared.words = EVTCHN_FIFO_PAGE_WORDS;
    CHECK(is_answer(evtchn_fifo_serve_on(&w.guest, &w.shared), EVTCHN_FIFO_DONE, 0, 2, EVTCHN_FIFO_SERVICE) && w.page[5] == 0);
    CHECK(is_answer(evtchn_fifo_run_clear_mask(&w.guest, &w.shared, 5), EVTCHN_FIFO_DONE, 0, 1, EVTCHN_FIFO_SERVICE));
    CHECK(is_answer(evtchn_fifo_serve_on(&w.guest, &w.shared), EVTCHN_FIFO_NOTHING_READY, 0, 1, EVTCHN_FIFO_IDLE));
}

int main(int words, char **word)
{
    if (words > 1 && strcmp(word[1], "names") == 0)
        return print_names();
    numbers();
    version();
    ledgers();
    domains_under_way();
    guests_under_way();
    masks();
    return check_end();
}
