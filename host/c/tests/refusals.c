/*
 * Every refusal of document 01, in each call's order: an input that fails every test gets the first number; once that is put
 * right, the next; and so on to the call's success. A refusal leaves every byte of record and ledger as it was, and a number of 64
 * bits is judged by all of them. Every row is tried with slices of the right length and with longer ones.
 */
#include <string.h>

#include "check.h"
#include "evtchn_fifo.h"
#include "words.h"

#define ENTRIES (EVTCHN_FIFO_PORTS + 1u)

/* the records at odd addresses, with bytes that no call writes around them */
static uint8_t domain_buffer[EVTCHN_FIFO_DOMAIN_SIZE + 8], domain_copy[sizeof domain_buffer];
static uint8_t guest_buffer[EVTCHN_FIFO_GUEST_SIZE + 8], guest_copy[sizeof guest_buffer];
static uint8_t ledger_buffer[ENTRIES * 2u + 8], ledger_copy[sizeof ledger_buffer];
static uint8_t *const domain = domain_buffer + 3, *const guest = guest_buffer + 3, *const ledger = ledger_buffer + 3;

static struct input {
    uint64_t port, priority, vcpu, frame, frames, offset, words;
    size_t entries;
    uint32_t seen;
} in;

/* bytes lent beyond a record, 5 at most; where they are odd, the ledger has a last odd byte */
static size_t beyond;

static void put_entry(uint32_t port, uint32_t entry)
{
    ledger[2 * port] = (uint8_t)entry;
    ledger[2 * port + 1] = (uint8_t)(entry >> 8);
}

enum { GIVEN = 0, PAGES = 4, OWNER = 72, STAGE = 76, PORT = 80, COUNT = 96 };
enum { GUEST_WORDS = 68, GUEST_STAGE = 72, CLEAR_STAGE = 88 };

#define LAST_STAGE 7u

typedef evtchn_fifo_next call(void);

#define DOMAIN domain, EVTCHN_FIFO_DOMAIN_SIZE + beyond
#define GUEST guest, EVTCHN_FIFO_GUEST_SIZE + beyond
#define LEDGER ledger, in.entries * 2 + beyond % 2

static evtchn_fifo_next init_control(void) { return evtchn_fifo_bytes_init_control(DOMAIN, in.vcpu, in.frame, in.frames, in.offset); }
static evtchn_fifo_next expand_array(void) { return evtchn_fifo_bytes_expand_array(DOMAIN, in.frame, in.frames); }
static evtchn_fifo_next bind(void) { return evtchn_fifo_bytes_bind(DOMAIN, LEDGER, in.port); }
static evtchn_fifo_next close(void) { return evtchn_fifo_bytes_close(DOMAIN, LEDGER, in.port); }
static evtchn_fifo_next set_priority(void) { return evtchn_fifo_bytes_set_priority(DOMAIN, LEDGER, in.port, in.priority); }
static evtchn_fifo_next raise(void) { return evtchn_fifo_bytes_raise(DOMAIN, LEDGER, in.port); }
static evtchn_fifo_next unmask(void) { return evtchn_fifo_bytes_unmask(DOMAIN, LEDGER, in.port); }
static evtchn_fifo_next reply(void) { return evtchn_fifo_bytes_reply(DOMAIN, LEDGER, in.seen); }
static evtchn_fifo_next due(void) { return evtchn_fifo_bytes_due(DOMAIN); }
static evtchn_fifo_next service(void) { return evtchn_fifo_bytes_service(GUEST); }
static evtchn_fifo_next service_reply(void) { return evtchn_fifo_bytes_service_reply(GUEST, in.seen); }
static evtchn_fifo_next service_due(void) { return evtchn_fifo_bytes_service_due(GUEST); }
static evtchn_fifo_next mask(void) { return evtchn_fifo_mask(in.port, in.words); }
static evtchn_fifo_next clear_mask(void) { return evtchn_fifo_bytes_clear_mask(GUEST, in.port); }
static evtchn_fifo_next tell(void) { return evtchn_fifo_bytes_tell(GUEST, in.words); }

static void keep(void)
{
    memcpy(domain_copy, domain_buffer, sizeof domain_buffer);
    memcpy(guest_copy, guest_buffer, sizeof guest_buffer);
    memcpy(ledger_copy, ledger_buffer, sizeof ledger_buffer);
}

static int kept(void)
{
    return memcmp(domain_copy, domain_buffer, sizeof domain_buffer) == 0 && memcmp(guest_copy, guest_buffer, sizeof guest_buffer) == 0 &&
           memcmp(ledger_copy, ledger_buffer, sizeof ledger_buffer) == 0;
}

/* a refusal: its number, count 0, and every byte as it was */
static int is_refused(call *f, uint32_t code)
{
    evtchn_fifo_next next;
    keep();
    next = f();
    return next.code == code && next.index == 0 && next.value == 0 && next.old == 0 && kept();
}

#define REFUSED(f, code) CHECK(is_refused(f, code))

/* the same of every number that has one bit more than this one, from bit `from` up */
static int is_refused_from(call *f, uint64_t *number, unsigned from, uint32_t code)
{
    uint64_t usual = *number;
    int holds = 1;
    for (; from < 64; from++) {
        *number = usual + (UINT64_C(1) << from);
        holds = holds && is_refused(f, code);
    }
    *number = usual;
    return holds;
}

#define REFUSED_FROM(f, number, from, code) CHECK(is_refused_from(f, &(number), from, code))

/* What a call gives that is not refused; a code that none has where a byte changed beside the records and the port's entry. */
static evtchn_fifo_next accepted(call *f)
{
    evtchn_fifo_next next;
    keep();
    next = f();
    memcpy(domain_copy + (domain - domain_buffer), domain, EVTCHN_FIFO_DOMAIN_SIZE);
    memcpy(guest_copy + (guest - guest_buffer), guest, EVTCHN_FIFO_GUEST_SIZE);
    memcpy(ledger_copy + (ledger - ledger_buffer) + 2 * in.port, ledger + 2 * in.port, 2);
    if (!kept())
        next.code = UINT32_MAX;
    return next;
}

static int holds_from(unsigned from, int (*holds)(unsigned bit))
{
    while (from < 64 && holds(from))
        from++;
    return from == 64;
}

/* bytes of no use: a given of 2, codes of no owner or stage, numbers in every field */
static void fill(void)
{
    size_t k;
    for (k = 0; k < sizeof domain_buffer; k++)
        domain_buffer[k] = (uint8_t)(k * 37 + 11);
    for (k = 0; k < sizeof guest_buffer; k++)
        guest_buffer[k] = (uint8_t)(k * 53 + 7);
    for (k = 0; k < sizeof ledger_buffer; k++)
        ledger_buffer[k] = (uint8_t)(k * 29 + 5);
    memset(&in, 0, sizeof in);
    put(domain, STAGE, 0);
}

/* 11; leaves frame 3 of 1, which is below once the frame count has one bit more */
static void frame_rows(call *f)
{
    in.frame = 9;
    in.frames = 9;
    REFUSED(f, 11);
    in.frame = UINT64_C(0xFFFFFFFFFFFFFFFF);
    REFUSED(f, 11);
    in.frame = 3;
    in.frames = 5;
    REFUSED_FROM(f, in.frame, 3, 11);
    in.frames = 1;
    REFUSED(f, 11);
}

static void init_row(void)
{
    fill();
    put(domain, OWNER, 3);
    put(domain, GIVEN, 2);
    in.vcpu = UINT64_C(0x100000000);
    in.frame = 9;
    in.frames = 9;
    in.offset = 4020;
    REFUSED(init_control, 15);
    put(domain, OWNER, 5);
    in.vcpu = 0;
    REFUSED_FROM(init_control, in.vcpu, 0, 17);
    REFUSED(init_control, 9);
    put(domain, GIVEN, 0);
    frame_rows(init_control);
    REFUSED_FROM(init_control, in.frames, 2, 12);
    in.frame = UINT64_C(0x100000000);
    in.frames = UINT64_C(0x100000001);
    REFUSED(init_control, 12);
    in.offset = 4028;
    REFUSED(init_control, 12);
    in.offset = 4032;
    REFUSED(init_control, 12);
    in.offset = 4024;
    REFUSED_FROM(init_control, in.offset, 12, 12);
    {
        evtchn_fifo_next next = accepted(init_control);
        CHECK(next.code == 0 && next.index == 17 && next.value == 0);
    }
    REFUSED(init_control, 9);
}

/* frame 3 is below a frame count of 1 and this bit */
static int expands(unsigned bit)
{
    in.frames = 1 + (UINT64_C(1) << bit);
    put(domain, PAGES, 127);
    return accepted(expand_array).code == 0;
}

static void expand_row(void)
{
    fill();
    put(domain, OWNER, 1);
    put(domain, GIVEN, 0);
    put(domain, PAGES, 200);
    REFUSED(expand_array, 15);
    put(domain, STAGE, LAST_STAGE);
    REFUSED(expand_array, 15);
    put(domain, STAGE, LAST_STAGE + 1);
    REFUSED(expand_array, 10);
    put(domain, GIVEN, 0x80000000u);
    REFUSED(expand_array, 13);
    put(domain, PAGES, 128);
    REFUSED(expand_array, 13);
    put(domain, PAGES, 127);
    frame_rows(expand_array);
    CHECK(holds_from(2, expands));
    REFUSED(expand_array, 13);
}

/* 15, 10, 3, 14, then the call's own; leaves an accepted port 2000 with an entry, not bound, outside one page */
static void port_rows(call *f)
{
    fill();
    put(domain, OWNER, 4);
    put(domain, GIVEN, 0);
    put(domain, PAGES, 1);
    in.port = UINT64_C(0x1000007D0);
    in.entries = 10;
    in.priority = UINT64_C(0x100000000);
    REFUSED(f, 15);
    put(domain, STAGE, LAST_STAGE);
    REFUSED(f, 15);
    put(domain, OWNER, 0);
    REFUSED(f, 10);
    put(domain, GIVEN, 1);
    REFUSED(f, 3);
    in.port = 0;
    REFUSED(f, 3);
    in.port = EVTCHN_FIFO_PORTS;
    in.entries = ENTRIES;
    REFUSED(f, 3);
    in.port = EVTCHN_FIFO_PORTS - 1;
    in.entries = EVTCHN_FIFO_PORTS - 1;
    REFUSED(f, 14);
    in.port = 2000;
    in.entries = 2000;
    REFUSED(f, 14);
    in.entries = 2001;
    put_entry(2000, 0xFC07);
    REFUSED_FROM(f, in.port, 17, 3);
}

static void bind_row(void)
{
    port_rows(bind);
    put_entry(2000, 0xFD07);
    REFUSED(bind, 5);
    put_entry(2000, 0xFC07);
    CHECK(accepted(bind).code == 0 && ledger[4000] == 0x07 && ledger[4001] == 0xFD);
}

static void close_row(void)
{
    port_rows(close);
    REFUSED(close, 4);
    put_entry(2000, 0xFF73);
    CHECK(accepted(close).code == 0 && ledger[4000] == 0x77 && ledger[4001] == 0xFE);
}

static void priority_row(void)
{
    port_rows(set_priority);
    REFUSED(set_priority, 8);
    in.priority = 15;
    REFUSED_FROM(set_priority, in.priority, 4, 8);
    in.priority = 16;
    REFUSED(set_priority, 8);
    in.priority = 15;
    CHECK(accepted(set_priority).code == 0 && ledger[4000] == 0x0F && ledger[4001] == 0xFC);
}

static void link_row(call *f, uint32_t first)
{
    port_rows(f);
    REFUSED(f, 4);
    put_entry(2000, 0xFD07);
    REFUSED(f, 6);
    put(domain, PAGES, 2);
    CHECK(accepted(f).code == first);
    REFUSED(f, 15);
    CHECK(accepted(due).code == first);
}

/* 16 and 14 at every stage; the call is under way as before */
static void reply_row(void)
{
    uint32_t owner, stage;
    fill();
    in.entries = ENTRIES;
    put(domain, OWNER, 0);
    REFUSED(reply, 16);
    REFUSED(due, 16);
    put(domain, OWNER, 5);
    REFUSED(reply, 16);
    put(domain, OWNER, 3);
    put(domain, STAGE, LAST_STAGE + 1);
    REFUSED(reply, 16);
    REFUSED(due, 16);
    put(domain, STAGE, 0xFFFFFFFFu);
    REFUSED(reply, 16);
    put(domain, PORT, 700);
    in.entries = 700;
    for (owner = 1; owner <= 4; owner++)
        for (stage = 0; stage <= LAST_STAGE; stage++) {
            put(domain, OWNER, owner);
            put(domain, STAGE, stage);
            REFUSED(reply, 14);
        }
    put(domain, STAGE, 5);
    put(domain, COUNT, 0xFFFFFFFFu);
    in.port = 700;
    in.entries = 701;
    in.seen = 0;
    {
        evtchn_fifo_next next = accepted(reply);
        CHECK(next.code == 1 && next.value == 0xFFFFFFFFu);
    }
    REFUSED(reply, 16);
}

static void guest_rows(void)
{
    fill();
    put(guest, GUEST_STAGE, 6);
    REFUSED(service_reply, 16);
    REFUSED(service_due, 16);
    put(guest, GUEST_STAGE, 3);
    REFUSED(service, 15);
    put(guest, GUEST_STAGE, 0);
    CHECK(accepted(service).code == 0x141);
    CHECK(accepted(service_due).code == 0x141);
    REFUSED(service, 15);
    /* 18 by HEAD 0 and by HEAD outside, by H outside; it ends the service */
    evtchn_fifo_bytes_fresh_guest(GUEST);
    in.words = 1024;
    CHECK(accepted(tell).code == 0);
    service();
    in.seen = 0xFFFF0080u;
    CHECK(accepted(service_reply).code == 0x102);
    in.seen = 0x00020005u;
    {
        evtchn_fifo_next next = accepted(service_reply);
        CHECK(next.code == 18 && next.value == 2);
    }
    REFUSED(service_reply, 16);
    put(guest, 28, 2000);
    put(guest, 64, 0x80);
    service();
    in.seen = 0x180;
    {
        evtchn_fifo_next next = accepted(service_reply);
        CHECK(next.code == 18 && next.value == 1 && guest[64] == 0 && guest[65] == 1 && guest[28] == 0 && guest[29] == 0);
    }
}

/* a record that is too short by a byte, or as long as one of layout 1 */
static evtchn_fifo_next clear_mask_short(void) { return evtchn_fifo_bytes_clear_mask(guest, EVTCHN_FIFO_GUEST_SIZE - 1, in.port); }
static evtchn_fifo_next clear_mask_shorter(void) { return evtchn_fifo_bytes_clear_mask(guest, 88, in.port); }
static evtchn_fifo_next service_short(void) { return evtchn_fifo_bytes_service(guest, EVTCHN_FIFO_GUEST_SIZE - 1); }

/* 64, 15 by either stage, 3, 6; a service under way does not refuse it */
static void clear_mask_row(void)
{
    fill();
    put(guest, CLEAR_STAGE, 1);
    put(guest, GUEST_STAGE, 3);
    put(guest, GUEST_WORDS, 5);
    in.port = UINT64_C(0x100000005);
    REFUSED(clear_mask_short, 64);
    REFUSED(clear_mask_shorter, 64);
    REFUSED(clear_mask, 15);
    put(guest, CLEAR_STAGE, 2);
    REFUSED(clear_mask, 15);
    in.port = 4;
    REFUSED(clear_mask, 15);
    put(guest, CLEAR_STAGE, 3);
    in.port = 0;
    REFUSED(clear_mask, 3);
    in.port = EVTCHN_FIFO_PORTS;
    REFUSED(clear_mask, 3);
    in.port = 5;
    REFUSED_FROM(clear_mask, in.port, 17, 3);
    REFUSED(clear_mask, 6);
    put(guest, GUEST_WORDS, EVTCHN_FIFO_PORTS - 1);
    in.port = EVTCHN_FIFO_PORTS - 1;
    REFUSED(clear_mask, 6);
    put(guest, GUEST_WORDS, 0xFFFFFFFFu);
    in.port = EVTCHN_FIFO_PORTS;
    REFUSED(clear_mask, 3);
    in.port = EVTCHN_FIFO_PORTS - 1;
    {
        evtchn_fifo_next next = accepted(clear_mask);
        CHECK(next.code == 0x100 && next.index == EVTCHN_FIFO_PORTS - 1 && next.value == 0 && next.old == 0);
    }
    REFUSED(clear_mask, 15);
}

/* 15 of a service by a clear_mask under way, and by one of each; then its replies are refused with 16 */
static void service_in_clear_mask_row(void)
{
    fill();
    put(guest, GUEST_STAGE, 0);
    put(guest, CLEAR_STAGE, 1);
    REFUSED(service_short, 64);
    REFUSED(service, 15);
    put(guest, CLEAR_STAGE, 2);
    REFUSED(service, 15);
    put(guest, GUEST_STAGE, 4);
    REFUSED(service, 15);
    put(guest, CLEAR_STAGE, 3);
    REFUSED(service, 15);
    put(guest, GUEST_STAGE, 0);
    REFUSED(service_reply, 16);
    REFUSED(service_due, 16);
    put(guest, CLEAR_STAGE, 0xFFFFFFFFu);
    REFUSED(service_reply, 16);
    CHECK(accepted(service).code == 0x141);
}

/* the last port is inside so many words, with any lower bits */
static int masks_within(uint64_t words)
{
    evtchn_fifo_next next;
    in.port = EVTCHN_FIFO_PORTS - 1;
    in.words = words;
    next = accepted(mask);
    return next.code == 0x120 && next.index == EVTCHN_FIFO_PORTS - 1 && next.value == 0x40000000u && next.old == 0;
}

static int masks(unsigned bit) { return masks_within(UINT64_C(1) << bit) && masks_within((UINT64_C(1) << bit) + 1024); }

static void mask_row(void)
{
    fill();
    in.port = UINT64_C(0x100000005);
    in.words = 5;
    REFUSED(mask, 3);
    in.port = 0;
    REFUSED(mask, 3);
    in.port = EVTCHN_FIFO_PORTS;
    in.words = 200000;
    REFUSED(mask, 3);
    in.port = EVTCHN_FIFO_PORTS - 1;
    REFUSED_FROM(mask, in.port, 17, 3);
    in.words = EVTCHN_FIFO_PORTS - 1;
    REFUSED(mask, 6);
    CHECK(holds_from(17, masks));
    CHECK(masks_within(UINT64_C(0xFFFFFFFFFFFFFFFF)));
}

/* after a tell, old words and those told are this number */
static int tells(uint32_t old, uint64_t told, uint32_t larger)
{
    uint8_t words[4];
    in.words = told;
    put(guest, GUEST_WORDS, old);
    put(words, 0, larger);
    return accepted(tell).code == 0 && memcmp(guest + GUEST_WORDS, words, sizeof words) == 0;
}

/* what is above 2^32 - 1 counts as that, whatever its lower bits */
static int tells_most(unsigned bit)
{
    uint64_t words = UINT64_C(1) << bit;
    return tells(1024, words, 0xFFFFFFFFu) && tells(1024, words + 5, 0xFFFFFFFFu) && tells(1024, words + 2048, 0xFFFFFFFFu);
}

static void tell_row(void)
{
    fill();
    CHECK(tells(0, 0, 0));
    CHECK(tells(0, 1024, 1024));
    CHECK(tells(1024, 1023, 1024));
    CHECK(tells(1024, 0xFFFFFFFEu, 0xFFFFFFFEu));
    CHECK(tells(1024, 0xFFFFFFFFu, 0xFFFFFFFFu));
    CHECK(tells(0xFFFFFFFFu, 1024, 0xFFFFFFFFu));
    CHECK(tells(1024, UINT64_C(0xFFFFFFFFFFFFFFFF), 0xFFFFFFFFu));
    CHECK(holds_from(32, tells_most));
}

static void rows(void)
{
    init_row();
    expand_row();
    bind_row();
    close_row();
    priority_row();
    link_row(raise, 0x120);
    link_row(unmask, 0x130);
    reply_row();
    guest_rows();
    mask_row();
    clear_mask_row();
    service_in_clear_mask_row();
    tell_row();
}

int main(void)
{
    static const size_t longer[] = {0, 1, 5};
    size_t k;
    for (k = 0; k < sizeof longer / sizeof longer[0]; k++) {
        beyond = longer[k];
        rows();
    }
    return check_end();
}
