/*
 * evtchn_fifo: Xen's FIFO event channel ABI as a library without shared state.
 *
 * The library never touches shared memory. A call under way names one atomic access at a time; the host performs it and hands back
 * the word that it saw; the library names the next access or gives its answer. evtchn_fifo_atomic.h does that to the answer:
 *
 *     evtchn_fifo_next next = evtchn_fifo_domain_raise(&domain, ledger, entries, port);
 *     evtchn_fifo_outcome raised = evtchn_fifo_run(&domain, ledger, entries, &shared, next);
 *
 * or one access at a time:
 *
 *     next = evtchn_fifo_domain_raise(&domain, ledger, entries, port);
 *     while (evtchn_fifo_perform(&shared, next, &seen))
 *         next = evtchn_fifo_domain_reply(&domain, ledger, entries, seen);
 *
 * The same proved code three times (x86-64 System V, no libc, no globals, reentrant):
 *     libevtchn_fifo.a         for user space: uses SSE registers and the red zone
 *     libevtchn_fifo_kernel.a  for a hypervisor: uses neither, and makes no indirect jump or call. It has no endbr64 either: where
 *                              indirect branch tracking is on, its functions are called directly, not through pointers
 *     evtchn_fifo.bc           bitcode of LLVM 22, instead of an archive, for a host compiled by clang 22 or later with -O3 -mllvm
 *                              -inline-threshold=5000 -Xclang -mlink-builtin-bitcode -Xclang evtchn_fifo.bc: library and run loops are
 *                              optimised as one, with the registers and the red zone that the host is allowed
 * No function of this header needs more than EVTCHN_FIFO_STACK bytes of stack, and none calls anything outside its object. Both archives
 * also have the replay of recorded logs (evtchn_replay.h) and cables between domains (evtchn_cables.h), each an object of its own that is
 * linked only where it is used. No name here is one of Xen's public event_channel.h, so that a host can include both.
 *
 * Answers are named below without their prefix EVTCHN_FIFO_.
 *
 * ---- What the host must do, and what happens otherwise ----
 *
 * Memory
 *   - The control block is zeroed before init_control. Else a READY bit that was left there: raises on that queue answer DONE, never
 *     UPCALL_WANTED, and no upcall ever comes.
 *   - Each page is zeroed before expand_array adds it. Else a word with LINKED left in it: bind gives STILL_LINKED for ever, and where the
 *     port was bound before its page came its raises answer DONE and the events are lost; one with MASKED: they wait for an unmask.
 *   - The pages and the control block are distinct. Else two ports have one word, and events of one are lost or handed over as the other's.
 *   - Every access that is named is mapped. Else the call stands: every later call of the domain gets CALL_UNDER_WAY. evtchn_fifo_run says
 *     NOT_MAPPED then: map it, and go on by evtchn_fifo_run(.., evtchn_fifo_domain_due(&domain)).
 * Records
 *   - Records begin fresh (evtchn_fifo_domain_fresh, evtchn_fifo_guest_fresh; all bytes 0 are the same), and nobody writes them but these
 *     functions. Else nothing is promised but that nothing traps: evtchn_fifo_perform makes no access outside what is mapped.
 *   - One ledger serves a domain throughout, and each of its entries begins fresh (evtchn_fifo_ledger_fresh). A fresh entry is 7, not 0:
 *     in a ledger of zeros every port has priority 0, and none comes before another. A longer ledger has the old entries, and fresh ones.
 *   - Records and ledger are plain bytes: with the control block and the pages they can be saved between calls and restored, in another
 *     process too, where EVTCHN_FIFO_LAYOUT is the same.
 * Calls
 *   - One lock for each domain, held from a call's start to its answer. Else the second call gets CALL_UNDER_WAY, and two at one moment
 *     spoil the record.
 *   - Each access is made once, by an atomic instruction of full order, and the word that it saw is handed back. Made twice, it sees its
 *     own LINKED or READY bit: the event, or its upcall, is lost.
 *   - The guest is told of a page (evtchn_fifo_guest_tell) at once where expand_array answered DONE, before any other call. Else a
 *     service that meets a port of the new page gives BAD_INDEX: the event is gone, and so is what stood behind it.
 *   - UPCALL_WANTED makes the guest run. Else nobody serves: no later raise on that queue wants one.
 * Answers to act on
 *   - LINK_ABANDONED: go on, there is nothing to do. With a guest that keeps the rules it never comes. Else the port stays LINKED and is
 *     its queue's tail: what is raised on that queue later does not arrive. The queue is that guest's own loss.
 *   - NO_ENTRY at a start: lend a longer ledger and call again. At a reply the call is still under way and its access has been made: lend a
 *     longer ledger and hand back the same word. Never perform the access again. With one ledger throughout no reply gives it.
 *   - CALL_UNDER_WAY: the lock was not held, or an earlier call stands at an access that is not mapped. evtchn_fifo_domain_under_way says
 *     which call, evtchn_fifo_domain_due which access; evtchn_fifo_run goes on with it.
 *   - BAD_INDEX, of a service: a tell was forgotten, or the words are not what this library wrote. The queue is dead, as after
 *     LINK_ABANDONED. To use it again both sides begin anew: fresh records and ledger, zeroed control block and pages, binds.
 *   - STILL_LINKED, of a bind: the port was closed while its event stood on a queue. Bind again when the guest has taken it.
 * A close of a port whose event is pending drops that event: the guest is not handed it. Where it stood on a queue its service gives TAKEN.
 *
 * ---- What the guest must do, and what happens otherwise ----
 *
 *   - It makes only the accesses that service, mask and clear_mask name. Of a guest that writes words by itself, or makes other accesses,
 *     nothing holds but the bounds below (How long): its own events may be lost. No other domain feels it.
 *   - One service at a time. A second one gets CALL_UNDER_WAY; on two VCPUs at one moment they spoil the record.
 *   - At an upcall it services until NOTHING_READY. Else what is left waits: a service takes READY's bits into its record, and a raise
 *     behind what stands there wants no upcall.
 *   - HANDED_OVER: the port in index has an event; serve it. TAKEN: the port left its queue and has none to serve: it was closed meanwhile,
 *     or masked (it keeps its event, and unmask brings it), or its event was handed over while the raise of that very event was about to
 *     link it. Go on with the next service after either.
 *   - It is told of each page at once (above).
 *   - It masks by evtchn_fifo_mask, which needs no lock and no record. To clear MASKED it calls clear_mask first. DONE: MASKED is clear,
 *     and the hypervisor was not needed. CALL_UNMASK: it has the hypervisor make the call unmask. Else the port stays masked.
 *
 * Locks. A domain's record and its ledger belong to one lock. A guest's record belongs to its VCPU: service and clear_mask, their replies
 * and tell are made by one VCPU at a time. A clear_mask may begin while a service is under way. Till its answer the guest's replies are the
 * clear_mask's; the service stands where it was, and goes on after it.
 *
 * Buffers of one call must not overlap. They may have any alignment, and may be NULL where their length is 0. A record that begins at a
 * multiple of 64 bytes lies in two cache lines.
 *
 * Any bytes of the right length are a record: no contents make it invalid, and nothing traps. A refusal leaves every byte of
 * record and ledger as it was, but for STILL_LINKED, which ends the bind under way, and BAD_INDEX, which ends the service and leaves the
 * head and the local ready bit of its queue 0 (the other bits that its swap of READY took stay).
 *
 * How long. With records that were made fresh a call makes at most twelve accesses, a service five and a clear_mask two, whatever the guest
 * does and whatever words are handed back, and none outside the array and the control block. Where the guest keeps the rules (the list
 * above) a raise or unmask makes at most ten. Other bytes in a record may name any access, and evtchn_fifo_perform makes none outside.
 * How soon. Take a guest that keeps the rules, has no call under way, and from now on only services, while no call of the hypervisor's goes
 * on. It takes the ports that stand one by one: queue by queue, 0 first, each queue in its order, the k-th by its k-th service and within
 * 5 k accesses. Behind the last a service answers NOTHING_READY.
 *
 * BUSY is bit 28 of an event word. A raise or unmask sets it in the word of its queue's tail where its first cas was not taken and the
 * word is still LINKED, and clears it before it ends: till then the guest does not clear MASKED of that port, and clear_mask keeps to it.
 * Linux's driver repeats its cas until it is taken, and so waits while the word is BUSY; it calls unmask only where the port is PENDING.
 * Here there is one cas, and unmask is called where the port is PENDING or BUSY or the cas was not taken: unmask waits for the lock.
 * Xen's unmask takes no lock of the queue: a guest that is written for Xen as well waits while the word is BUSY before it calls unmask.
 */
#ifndef EVTCHN_FIFO_H
#define EVTCHN_FIFO_H

#include <stddef.h>
#include <stdint.h>

#ifdef __cplusplus
extern "C" {
#endif

/* ---- version and layout ---- */

/* The version of these headers: raised with every change of what C sees. */
#define EVTCHN_FIFO_VERSION_MAJOR 0
#define EVTCHN_FIFO_VERSION_MINOR 1
#define EVTCHN_FIFO_VERSION_PATCH 3
#define EVTCHN_FIFO_VERSION "0.1.3"

/*
 * The number of this layout: of the records, the ledger and the codes below. evtchn_fifo_layout() of the archive must
 * equal it.
 */
#define EVTCHN_FIFO_LAYOUT 2u

/*
 * A domain's record, in words of four bytes, the lowest byte first:
 *     0 given (0, or any other number)   4 pages   8 to 71 tails of queues 0 to 15 (0: none)
 *     call under way: 72 owner (1 bind, 2 close, 3 raise, 4 unmask)   76 stage (0 the first access, 1 R2, 2 R3, 3 R4, 4 R5, 5 R6,
 *     6 the or that sets BUSY, 7 the and that clears it)   80 port   84 queue   88 word (R4's old one; at 7 the last seen)
 *     92 tries (R4's cas so far)   96 count
 * No call is under way where owner or stage is none of these: a call that ends sets its owner to 0 and leaves its other words as
 * they were, which then mean nothing. All bytes 0 are a fresh record.
 */
#define EVTCHN_FIFO_DOMAIN_SIZE 100u

/*
 * A guest's record, in the same words:
 *     0 to 63 heads of queues 0 to 15   64 local ready bits   68 number of words
 *     service under way: 72 stage (1 G0, 2 G1, 3 G2, 4 G3, 5 G4)   76 port   80 queue   84 count
 *     clear_mask under way: 88 stage (1 read, 2 cas)   92 port   96 word (the cas's old one)   100 count
 * No service, or no clear_mask, is under way where its stage is none of these: one that ends sets its stage to 0 and leaves its other
 * words. All bytes 0 are a fresh record.
 */
#define EVTCHN_FIFO_GUEST_SIZE 104u

/*
 * The ledger has an entry of two bytes for each port, the lowest byte first: bits 0 to 3 priority, 4 to 7 last queue, 8 bound,
 * 9 has been linked, 10 to 15 kept as found. Entry p is bytes 2p and 2p + 1; a last odd byte is no entry. Ports 1 to 131,071
 * have a use, so that 131,072 entries serve every port.
 */
#define EVTCHN_FIFO_ENTRY_SIZE 2u
#define EVTCHN_FIFO_ENTRY_FRESH 7u
#define EVTCHN_FIFO_ENTRY_BOUND 0x100u

/* A fresh ledger of so many entries as an initialiser, in GNU C; evtchn_fifo_ledger_fresh makes one in C++ too, and anew. */
#define EVTCHN_FIFO_LEDGER_FRESH(entries) {[0 ...(entries) - 1] = EVTCHN_FIFO_ENTRY_FRESH}

/* ---- the ABI's numbers ---- */

#define EVTCHN_FIFO_PORTS 131072u
#define EVTCHN_FIFO_PAGE_WORDS 1024u
#define EVTCHN_FIFO_PAGES 128u
#define EVTCHN_FIFO_QUEUES 16u

/* An event word: four flags, bits 27 to 17 reserved and kept as found, and LINK, the next port on the queue or 0. */
#define EVTCHN_FIFO_WORD_PENDING 0x80000000u
#define EVTCHN_FIFO_WORD_MASKED 0x40000000u
#define EVTCHN_FIFO_WORD_LINKED 0x20000000u
#define EVTCHN_FIFO_WORD_BUSY 0x10000000u
#define EVTCHN_FIFO_WORD_LINK 0x0001FFFFu
#define EVTCHN_FIFO_WORD_LINK_BITS 17u

/* A priority is the number of its queue, and 0 is served first. */
#define EVTCHN_FIFO_HIGHEST_PRIORITY 0u
#define EVTCHN_FIFO_DEFAULT_PRIORITY 7u
#define EVTCHN_FIFO_LOWEST_PRIORITY 15u

/* The control block, 72 bytes at a multiple of 8 in its page, up to EVTCHN_FIFO_CONTROL_OFFSET. Bits 31 to 16 of ready are ignored. */
typedef struct evtchn_fifo_control {
    uint32_t ready, reserved, head[EVTCHN_FIFO_QUEUES];
} evtchn_fifo_control;
#define EVTCHN_FIFO_CONTROL_WORDS 18u
#define EVTCHN_FIFO_CONTROL_OFFSET 4024u

#ifdef __cplusplus
#define EVTCHN_FIFO_ASSERT(test) static_assert(test, #test)
#else
#define EVTCHN_FIFO_ASSERT(test) _Static_assert(test, #test)
#endif
EVTCHN_FIFO_ASSERT(offsetof(evtchn_fifo_control, ready) == 0);
EVTCHN_FIFO_ASSERT(offsetof(evtchn_fifo_control, reserved) == 4);
EVTCHN_FIFO_ASSERT(offsetof(evtchn_fifo_control, head) == 8);
EVTCHN_FIFO_ASSERT(sizeof(evtchn_fifo_control) == 4 * EVTCHN_FIFO_CONTROL_WORDS);

/* ---- stack ---- */

/*
 * The most stack that a function of this header needs, return addresses with it. The archive for user space may write to the
 * red zone below that.
 */
#define EVTCHN_FIFO_STACK 16u

/* ---- what a call or a reply comes to ---- */

/*
 * An access: code is kind and place, index the port or queue, value the operand, old the word that a cas compares with.
 * An answer: code is a number below, index the port (HANDED_OVER, TAKEN) or the link bits (init_control's DONE), value the count of
 * accesses that the call named, old is 0.
 */
typedef struct evtchn_fifo_next {
    uint32_t code, index, value, old;
} evtchn_fifo_next;

/*
 * The numbers that a call can give, and the errno of the hypercall that it serves. A star: as the FIFO ABI's draft has it.
 * A dash: no hypercall gives it; it says something to the host.
 */
enum evtchn_fifo_answer {
    EVTCHN_FIFO_DONE = 0,             /* 0       done; init_control's carries the link bits in index */
    EVTCHN_FIFO_UPCALL_WANTED = 1,    /* 0       done, upcall wanted */
    EVTCHN_FIFO_LINK_ABANDONED = 2,   /* 0       done, link abandoned after five tries: the guest breaks the rules */
    EVTCHN_FIFO_BAD_PORT = 3,         /* EINVAL* port 0, or at least 131,072 */
    EVTCHN_FIFO_NOT_BOUND = 4,        /* EINVAL  port not bound */
    EVTCHN_FIFO_ALREADY_BOUND = 5,    /* EBUSY   port already bound */
    EVTCHN_FIFO_OUTSIDE_ARRAY = 6,    /* EINVAL  port outside the present array */
    EVTCHN_FIFO_STILL_LINKED = 7,     /* EBUSY   the port's old event is still LINKED; ends the bind */
    EVTCHN_FIFO_BAD_PRIORITY = 8,     /* EINVAL* priority above 15 */
    EVTCHN_FIFO_ALREADY_GIVEN = 9,    /* EINVAL* control block already given */
    EVTCHN_FIFO_NOT_GIVEN = 10,       /* EINVAL  control block not yet given */
    EVTCHN_FIFO_BAD_FRAME = 11,       /* EINVAL* frame not below the domain's frame count */
    EVTCHN_FIFO_BAD_OFFSET = 12,      /* EINVAL* offset not a multiple of 8, or above 4,024 */
    EVTCHN_FIFO_TOO_MANY_PAGES = 13,  /* ENOSPC* 128 pages or more already */
    EVTCHN_FIFO_NO_ENTRY = 14,        /* -       the ledger has no entry for the port */
    EVTCHN_FIFO_CALL_UNDER_WAY = 15,  /* -       a call is under way: the lock was not held */
    EVTCHN_FIFO_NO_CALL = 16,         /* -       a reply, or a question what is due, with no call under way */
    EVTCHN_FIFO_BAD_VCPU = 17,        /* EINVAL* VCPU other than 0 */
    EVTCHN_FIFO_BAD_INDEX = 18,       /* -       (guest) an index from the hypervisor is 0 or outside; ends the service */
    EVTCHN_FIFO_HANDED_OVER = 19,     /* -       (guest) the port in index is handed over */
    EVTCHN_FIFO_NOTHING_READY = 20,   /* -       (guest) idle */
    EVTCHN_FIFO_TAKEN = 21,           /* -       (guest) the port in index was taken, and is not handed over */
    EVTCHN_FIFO_CALL_UNMASK = 35,     /* -       (guest) call unmask: the port is pending or BUSY, or its word changed */
    EVTCHN_FIFO_TOO_SHORT = 64,       /* -       a record is too short; nothing was read or changed */
    EVTCHN_FIFO_NOT_MAPPED = 65       /* -       (evtchn_fifo_run and its like) the access that is due is not mapped, and was not made */
};

/* An access's code is 0x100 + kind * 16 + place. */
enum evtchn_fifo_kind {
    EVTCHN_FIFO_READ = 0,
    EVTCHN_FIFO_STORE = 1, /* store value; hand back any word */
    EVTCHN_FIFO_OR = 2,    /* fetch-or of value */
    EVTCHN_FIFO_AND = 3,   /* fetch-and of value */
    EVTCHN_FIFO_SWAP = 4,  /* exchange for value */
    EVTCHN_FIFO_CAS = 5    /* compare-exchange of old for value; hand back the word seen, taken or not */
};

enum evtchn_fifo_place {
    EVTCHN_FIFO_WORD = 0,  /* event word of port index */
    EVTCHN_FIFO_READY = 1, /* READY of the control block */
    EVTCHN_FIFO_HEAD = 2   /* HEAD of queue index of the control block */
};

static inline int evtchn_fifo_is_access(evtchn_fifo_next next) { return next.code >= 0x100u; }
static inline unsigned evtchn_fifo_kind_of(evtchn_fifo_next next) { return (next.code - 0x100u) / 16u; }
static inline unsigned evtchn_fifo_place_of(evtchn_fifo_next next) { return next.code % 16u; }

/* The name of an answer, without its prefix; "an access" of an access, and "unknown" of any other number. */
static inline const char *evtchn_fifo_name(uint32_t code)
{
    switch (code) {
    case EVTCHN_FIFO_DONE: return "DONE";
    case EVTCHN_FIFO_UPCALL_WANTED: return "UPCALL_WANTED";
    case EVTCHN_FIFO_LINK_ABANDONED: return "LINK_ABANDONED";
    case EVTCHN_FIFO_BAD_PORT: return "BAD_PORT";
    case EVTCHN_FIFO_NOT_BOUND: return "NOT_BOUND";
    case EVTCHN_FIFO_ALREADY_BOUND: return "ALREADY_BOUND";
    case EVTCHN_FIFO_OUTSIDE_ARRAY: return "OUTSIDE_ARRAY";
    case EVTCHN_FIFO_STILL_LINKED: return "STILL_LINKED";
    case EVTCHN_FIFO_BAD_PRIORITY: return "BAD_PRIORITY";
    case EVTCHN_FIFO_ALREADY_GIVEN: return "ALREADY_GIVEN";
    case EVTCHN_FIFO_NOT_GIVEN: return "NOT_GIVEN";
    case EVTCHN_FIFO_BAD_FRAME: return "BAD_FRAME";
    case EVTCHN_FIFO_BAD_OFFSET: return "BAD_OFFSET";
    case EVTCHN_FIFO_TOO_MANY_PAGES: return "TOO_MANY_PAGES";
    case EVTCHN_FIFO_NO_ENTRY: return "NO_ENTRY";
    case EVTCHN_FIFO_CALL_UNDER_WAY: return "CALL_UNDER_WAY";
    case EVTCHN_FIFO_NO_CALL: return "NO_CALL";
    case EVTCHN_FIFO_BAD_VCPU: return "BAD_VCPU";
    case EVTCHN_FIFO_BAD_INDEX: return "BAD_INDEX";
    case EVTCHN_FIFO_HANDED_OVER: return "HANDED_OVER";
    case EVTCHN_FIFO_NOTHING_READY: return "NOTHING_READY";
    case EVTCHN_FIFO_TAKEN: return "TAKEN";
    case EVTCHN_FIFO_CALL_UNMASK: return "CALL_UNMASK";
    case EVTCHN_FIFO_TOO_SHORT: return "TOO_SHORT";
    case EVTCHN_FIFO_NOT_MAPPED: return "NOT_MAPPED";
    default: return code >= 0x100u ? "an access" : "unknown";
    }
}

/* The errno of an answer, as the numbers of Linux and Xen: 0 or above 0; -1 where no hypercall gives it (a dash above). */
static inline int evtchn_fifo_errno(uint32_t code)
{
    switch (code) {
    case EVTCHN_FIFO_DONE:
    case EVTCHN_FIFO_UPCALL_WANTED:
    case EVTCHN_FIFO_LINK_ABANDONED: return 0;
    case EVTCHN_FIFO_BAD_PORT:
    case EVTCHN_FIFO_NOT_BOUND:
    case EVTCHN_FIFO_OUTSIDE_ARRAY:
    case EVTCHN_FIFO_BAD_PRIORITY:
    case EVTCHN_FIFO_ALREADY_GIVEN:
    case EVTCHN_FIFO_NOT_GIVEN:
    case EVTCHN_FIFO_BAD_FRAME:
    case EVTCHN_FIFO_BAD_OFFSET:
    case EVTCHN_FIFO_BAD_VCPU: return 22; /* EINVAL */
    case EVTCHN_FIFO_ALREADY_BOUND:
    case EVTCHN_FIFO_STILL_LINKED: return 16;   /* EBUSY */
    case EVTCHN_FIFO_TOO_MANY_PAGES: return 28; /* ENOSPC */
    default: return -1;
    }
}

/* Of a start and a reply: what it gives is the next access or the answer, and nobody may do without. */
#define EVTCHN_FIFO_USED __attribute__((warn_unused_result))

/* ---- the library's functions, on bytes: each has bytes in its name ---- */

/*
 * For bindings of other languages; C has the same with types below. A buffer is a pointer and a length in bytes; what is beyond a record's
 * size stays. A record that is too short gives TOO_SHORT before any other test; a short ledger gives NO_ENTRY. A port, priority, VCPU or
 * offset above 2^32 - 1 counts as 2^32 - 1, which the test at its place in the order refuses; so does a number of words, which nothing
 * refuses. Each line names the refusals in the order in which they are tested.
 */

uint32_t evtchn_fifo_layout(void);

/* Fresh records and entries, whatever the bytes held: DONE, or TOO_SHORT. */
uint32_t evtchn_fifo_bytes_fresh_domain(uint8_t *domain, size_t domain_length);
uint32_t evtchn_fifo_bytes_fresh_ledger(uint8_t *ledger, size_t ledger_length);
uint32_t evtchn_fifo_bytes_fresh_guest(uint8_t *guest, size_t guest_length);

/* CALL_UNDER_WAY, BAD_VCPU, ALREADY_GIVEN, BAD_FRAME, BAD_OFFSET. The block's frame and offset are checked and not stored. */
EVTCHN_FIFO_USED evtchn_fifo_next evtchn_fifo_bytes_init_control(uint8_t *domain, size_t domain_length, uint64_t vcpu, uint64_t frame,
                                                                 uint64_t frames, uint64_t offset);
/* CALL_UNDER_WAY, NOT_GIVEN, TOO_MANY_PAGES, BAD_FRAME. A page more. */
EVTCHN_FIFO_USED evtchn_fifo_next evtchn_fifo_bytes_expand_array(uint8_t *domain, size_t domain_length, uint64_t frame, uint64_t frames);
/* CALL_UNDER_WAY, NOT_GIVEN, BAD_PORT, NO_ENTRY, ALREADY_BOUND; STILL_LINKED at the reply. */
EVTCHN_FIFO_USED evtchn_fifo_next evtchn_fifo_bytes_bind(uint8_t *domain, size_t domain_length, uint8_t *ledger, size_t ledger_length,
                                                         uint64_t port);
/* CALL_UNDER_WAY, NOT_GIVEN, BAD_PORT, NO_ENTRY, NOT_BOUND. */
EVTCHN_FIFO_USED evtchn_fifo_next evtchn_fifo_bytes_close(uint8_t *domain, size_t domain_length, uint8_t *ledger, size_t ledger_length,
                                                          uint64_t port);
/* CALL_UNDER_WAY, NOT_GIVEN, BAD_PORT, NO_ENTRY, BAD_PRIORITY. Bound or not; felt when the port is linked next. */
EVTCHN_FIFO_USED evtchn_fifo_next evtchn_fifo_bytes_set_priority(uint8_t *domain, size_t domain_length, uint8_t *ledger,
                                                                 size_t ledger_length, uint64_t port, uint64_t priority);
/* CALL_UNDER_WAY, NOT_GIVEN, BAD_PORT, NO_ENTRY, NOT_BOUND, OUTSIDE_ARRAY. */
EVTCHN_FIFO_USED evtchn_fifo_next evtchn_fifo_bytes_raise(uint8_t *domain, size_t domain_length, uint8_t *ledger, size_t ledger_length,
                                                          uint64_t port);
/* CALL_UNDER_WAY, NOT_GIVEN, BAD_PORT, NO_ENTRY, NOT_BOUND, OUTSIDE_ARRAY. */
EVTCHN_FIFO_USED evtchn_fifo_next evtchn_fifo_bytes_unmask(uint8_t *domain, size_t domain_length, uint8_t *ledger, size_t ledger_length,
                                                           uint64_t port);
/* The reply to the access that was named last: NO_CALL, NO_ENTRY; STILL_LINKED where that was a bind's. */
EVTCHN_FIFO_USED evtchn_fifo_next evtchn_fifo_bytes_reply(uint8_t *domain, size_t domain_length, uint8_t *ledger, size_t ledger_length,
                                                          uint32_t seen);
/* The access that the call under way waits for, once more: NO_CALL. */
EVTCHN_FIFO_USED evtchn_fifo_next evtchn_fifo_bytes_due(const uint8_t *domain, size_t domain_length);

/* The guest's side. A service hands over at most one event: CALL_UNDER_WAY, where a service or a clear_mask is under way. */
EVTCHN_FIFO_USED evtchn_fifo_next evtchn_fifo_bytes_service(uint8_t *guest, size_t guest_length);
/* The reply to the access that was named last, the clear_mask's while one is under way, else the service's: NO_CALL, BAD_INDEX. */
EVTCHN_FIFO_USED evtchn_fifo_next evtchn_fifo_bytes_service_reply(uint8_t *guest, size_t guest_length, uint32_t seen);
/* The access that the clear_mask under way waits for, else the service, once more: NO_CALL. */
EVTCHN_FIFO_USED evtchn_fifo_next evtchn_fifo_bytes_service_due(const uint8_t *guest, size_t guest_length);
/* BAD_PORT, OUTSIDE_ARRAY. An access comes together with its answer DONE and its count 1, and takes no reply. */
EVTCHN_FIFO_USED evtchn_fifo_next evtchn_fifo_mask(uint64_t port, uint64_t words);
/*
 * Clears MASKED by one read and at most one cas, or answers CALL_UNMASK: CALL_UNDER_WAY, where a clear_mask is under way, BAD_PORT,
 * OUTSIDE_ARRAY by the record's number of words.
 */
EVTCHN_FIFO_USED evtchn_fifo_next evtchn_fifo_bytes_clear_mask(uint8_t *guest, size_t guest_length, uint64_t port);
/* The number of words becomes the larger of old and told. */
EVTCHN_FIFO_USED evtchn_fifo_next evtchn_fifo_bytes_tell(uint8_t *guest, size_t guest_length, uint64_t words);

/* ---- the same with types: a domain's record is no guest's ---- */

typedef struct evtchn_fifo_domain {
    uint8_t bytes[EVTCHN_FIFO_DOMAIN_SIZE];
} evtchn_fifo_domain;

typedef struct evtchn_fifo_guest {
    uint8_t bytes[EVTCHN_FIFO_GUEST_SIZE];
} evtchn_fifo_guest;

static inline void evtchn_fifo_domain_fresh(evtchn_fifo_domain *domain)
{
    evtchn_fifo_bytes_fresh_domain(domain->bytes, sizeof domain->bytes);
}

static inline void evtchn_fifo_guest_fresh(evtchn_fifo_guest *guest)
{
    evtchn_fifo_bytes_fresh_guest(guest->bytes, sizeof guest->bytes);
}

EVTCHN_FIFO_USED static inline evtchn_fifo_next evtchn_fifo_domain_init_control(evtchn_fifo_domain *domain, uint64_t vcpu, uint64_t frame,
                                                                                uint64_t frames, uint64_t offset)
{
    return evtchn_fifo_bytes_init_control(domain->bytes, sizeof domain->bytes, vcpu, frame, frames, offset);
}

EVTCHN_FIFO_USED static inline evtchn_fifo_next evtchn_fifo_domain_expand_array(evtchn_fifo_domain *domain, uint64_t frame, uint64_t frames)
{
    return evtchn_fifo_bytes_expand_array(domain->bytes, sizeof domain->bytes, frame, frames);
}

EVTCHN_FIFO_USED static inline evtchn_fifo_next evtchn_fifo_domain_due(const evtchn_fifo_domain *domain)
{
    return evtchn_fifo_bytes_due(domain->bytes, sizeof domain->bytes);
}

/* A ledger as numbers of 16 bits: their bytes are the ledger's, since x86-64 is little endian. */
static inline void evtchn_fifo_ledger_fresh(uint16_t *ledger, size_t entries)
{
    evtchn_fifo_bytes_fresh_ledger((uint8_t *)ledger, entries * EVTCHN_FIFO_ENTRY_SIZE);
}

EVTCHN_FIFO_USED static inline evtchn_fifo_next evtchn_fifo_domain_bind(evtchn_fifo_domain *domain, uint16_t *ledger, size_t entries,
                                                                        uint64_t port)
{
    return evtchn_fifo_bytes_bind(domain->bytes, sizeof domain->bytes, (uint8_t *)ledger, entries * EVTCHN_FIFO_ENTRY_SIZE, port);
}

EVTCHN_FIFO_USED static inline evtchn_fifo_next evtchn_fifo_domain_close(evtchn_fifo_domain *domain, uint16_t *ledger, size_t entries,
                                                                         uint64_t port)
{
    return evtchn_fifo_bytes_close(domain->bytes, sizeof domain->bytes, (uint8_t *)ledger, entries * EVTCHN_FIFO_ENTRY_SIZE, port);
}

EVTCHN_FIFO_USED static inline evtchn_fifo_next evtchn_fifo_domain_set_priority(evtchn_fifo_domain *domain, uint16_t *ledger,
                                                                                size_t entries, uint64_t port, uint64_t priority)
{
    return evtchn_fifo_bytes_set_priority(domain->bytes, sizeof domain->bytes, (uint8_t *)ledger, entries * EVTCHN_FIFO_ENTRY_SIZE, port,
                                          priority);
}

EVTCHN_FIFO_USED static inline evtchn_fifo_next evtchn_fifo_domain_raise(evtchn_fifo_domain *domain, uint16_t *ledger, size_t entries,
                                                                         uint64_t port)
{
    return evtchn_fifo_bytes_raise(domain->bytes, sizeof domain->bytes, (uint8_t *)ledger, entries * EVTCHN_FIFO_ENTRY_SIZE, port);
}

EVTCHN_FIFO_USED static inline evtchn_fifo_next evtchn_fifo_domain_unmask(evtchn_fifo_domain *domain, uint16_t *ledger, size_t entries,
                                                                          uint64_t port)
{
    return evtchn_fifo_bytes_unmask(domain->bytes, sizeof domain->bytes, (uint8_t *)ledger, entries * EVTCHN_FIFO_ENTRY_SIZE, port);
}

EVTCHN_FIFO_USED static inline evtchn_fifo_next evtchn_fifo_domain_reply(evtchn_fifo_domain *domain, uint16_t *ledger, size_t entries,
                                                                         uint32_t seen)
{
    return evtchn_fifo_bytes_reply(domain->bytes, sizeof domain->bytes, (uint8_t *)ledger, entries * EVTCHN_FIFO_ENTRY_SIZE, seen);
}

EVTCHN_FIFO_USED static inline evtchn_fifo_next evtchn_fifo_guest_service(evtchn_fifo_guest *guest)
{
    return evtchn_fifo_bytes_service(guest->bytes, sizeof guest->bytes);
}

EVTCHN_FIFO_USED static inline evtchn_fifo_next evtchn_fifo_guest_service_reply(evtchn_fifo_guest *guest, uint32_t seen)
{
    return evtchn_fifo_bytes_service_reply(guest->bytes, sizeof guest->bytes, seen);
}

EVTCHN_FIFO_USED static inline evtchn_fifo_next evtchn_fifo_guest_service_due(const evtchn_fifo_guest *guest)
{
    return evtchn_fifo_bytes_service_due(guest->bytes, sizeof guest->bytes);
}

EVTCHN_FIFO_USED static inline evtchn_fifo_next evtchn_fifo_guest_clear_mask(evtchn_fifo_guest *guest, uint64_t port)
{
    return evtchn_fifo_bytes_clear_mask(guest->bytes, sizeof guest->bytes, port);
}

static inline evtchn_fifo_next evtchn_fifo_guest_tell(evtchn_fifo_guest *guest, uint64_t words)
{
    return evtchn_fifo_bytes_tell(guest->bytes, sizeof guest->bytes, words);
}

/* ---- what records and ledgers say ---- */

static inline uint32_t evtchn_fifo_word_at(const uint8_t *bytes, size_t at)
{
    return bytes[at] | (uint32_t)bytes[at + 1] << 8 | (uint32_t)bytes[at + 2] << 16 | (uint32_t)bytes[at + 3] << 24;
}

/* Whether the control block was given (init_control), and how many pages the array has. */
static inline int evtchn_fifo_domain_given(const evtchn_fifo_domain *domain) { return evtchn_fifo_word_at(domain->bytes, 0) != 0; }
static inline uint32_t evtchn_fifo_domain_pages(const evtchn_fifo_domain *domain) { return evtchn_fifo_word_at(domain->bytes, 4); }

/* How many words the guest was told of. */
static inline uint32_t evtchn_fifo_guest_words(const evtchn_fifo_guest *guest) { return evtchn_fifo_word_at(guest->bytes, 68); }

/* What is under way: of a domain one of the first five; of a guest IDLE, SERVICE, CLEAR_MASK, or SERVICE + CLEAR_MASK. */
enum evtchn_fifo_under_way {
    EVTCHN_FIFO_IDLE = 0,
    EVTCHN_FIFO_BIND = 1,
    EVTCHN_FIFO_CLOSE = 2,
    EVTCHN_FIFO_RAISE = 3,
    EVTCHN_FIFO_UNMASK = 4,
    EVTCHN_FIFO_SERVICE = 8,
    EVTCHN_FIFO_CLEAR_MASK = 16
};

static inline uint32_t evtchn_fifo_domain_under_way(const evtchn_fifo_domain *domain)
{
    uint32_t owner = evtchn_fifo_word_at(domain->bytes, 72), stage = evtchn_fifo_word_at(domain->bytes, 76);
    return owner <= EVTCHN_FIFO_UNMASK && stage <= 7 ? owner : (uint32_t)EVTCHN_FIFO_IDLE;
}

static inline uint32_t evtchn_fifo_guest_under_way(const evtchn_fifo_guest *guest)
{
    uint32_t service = evtchn_fifo_word_at(guest->bytes, 72), clear_mask = evtchn_fifo_word_at(guest->bytes, 88), calls = EVTCHN_FIFO_IDLE;
    if (service >= 1 && service <= 5)
        calls += EVTCHN_FIFO_SERVICE;
    if (clear_mask >= 1 && clear_mask <= 2)
        calls += EVTCHN_FIFO_CLEAR_MASK;
    return calls;
}

/* Whether a port is bound, and its priority, by its entry of the ledger. */
static inline int evtchn_fifo_entry_bound(uint16_t entry) { return (entry & EVTCHN_FIFO_ENTRY_BOUND) != 0; }
static inline uint32_t evtchn_fifo_entry_priority(uint16_t entry) { return entry & 15u; }

#ifdef __cplusplus
}
#endif

#endif
