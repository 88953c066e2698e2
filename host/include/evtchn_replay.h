/*
 * evtchn_replay: plays the recorded log of a domain, and compares it line by line with what the library does.
 *
 * A log has a line for each call, each access with the word seen, and each answer; evtchn_fifo_trace.h has its form and writes it. A
 * replay makes the calls once more, over memory of its own that it has made fresh, and finds that all lines agree, or the first that
 * does not:
 *
 *     static evtchn_replay replay;
 *     static uint16_t ledger[EVTCHN_FIFO_PORTS];
 *     static uint32_t words[EVTCHN_FIFO_PORTS];
 *
 *     evtchn_replay_begin(&replay, ledger, EVTCHN_FIFO_PORTS, words, EVTCHN_FIFO_PORTS);
 *     while ((bytes = fread(piece, 1, sizeof piece, file)) > 0)
 *         evtchn_replay_play(&replay, piece, bytes);
 *     result = evtchn_replay_end(&replay);
 *     if (result.kind != EVTCHN_REPLAY_AGREES)
 *         printf("line %llu\n", (unsigned long long)result.line);
 *
 * A night is handed over in pieces of any size, cut anywhere: the report is that of the whole log. What is lent does not grow with the
 * log. The report may be asked for at any time, and is then that of a log which ends here; the replay can go on afterwards.
 *
 * So a host can check as it runs, by playing what it records. The trace lock, under which a trace writes, then keeps the replay too:
 *
 *     static void check(void *replay, const char *line, size_t length) { evtchn_replay_play((evtchn_replay *)replay, line, length); }
 *     evtchn_fifo_trace trace = {.write = check, .context = &replay};
 *
 * The same proved code is in libevtchn_fifo.a and libevtchn_fifo_kernel.a (not in the bitcode), as an object of its own that is linked only
 * where it is used. It has no globals and needs no other object of the archive. It may call memset and memcpy of the environment, which
 * the other object does not. Beside what these two need, no function needs more than EVTCHN_REPLAY_STACK bytes of stack.
 *
 * There is no lock: one thread at a time for what one replay is lent. Buffers of one call must not overlap; words and block are aligned as
 * uint32_t is, the others may have any alignment, and those with a length may be NULL where it is 0. Nothing traps, whatever position,
 * buffers and text hold, and nothing beyond what is lent is touched; but only what evtchn_replay_bytes_start made and
 * evtchn_replay_bytes_feed alone changed is a replay.
 */
#ifndef EVTCHN_REPLAY_H
#define EVTCHN_REPLAY_H

#include "evtchn_fifo.h"

#ifdef __cplusplus
extern "C" {
#endif

/* ---- sizes ---- */

/* The bytes of a line that are kept. A line of the form has at most 53, its newline counted. */
#define EVTCHN_REPLAY_LINE 64u

/*
 * The most stack that a call of either archive needs, return addresses with it. The archive for user space may write to the red zone
 * below that.
 */
#define EVTCHN_REPLAY_STACK 1056u

/* ---- what a replay comes to ---- */

/*
 * Lines count from 1, the header is the first. A line that is not of the form is reported as such, before it could differ; a last line
 * without its newline is not of the form. Where a header, an answer or a mask's access is still due at the end, the line after the last
 * differs. A call, a service or a clear_mask that is under way at the end is no difference. While a service and a clear_mask are both under
 * way, the guest's accesses are the clear_mask's.
 *
 * Every log is played by the rules of this library's layout. One that a library of layout 1 wrote differs where a first cas was not taken
 * and its word kept LINKED: there it has a second cas, and the or that sets BUSY is due.
 */
enum evtchn_replay_kind {
    EVTCHN_REPLAY_AGREES = 0,           /* all lines agree */
    EVTCHN_REPLAY_DIFFERS = 1,          /* a line of the form that is not the one due, or where none is due */
    EVTCHN_REPLAY_NOT_OF_THE_FORM = 22, /* not a line of the form */
    EVTCHN_REPLAY_NOT_LENT = 33         /* an expand_array that would add a page past those lent */
};

typedef struct evtchn_replay_result {
    uint32_t kind; /* a number above */
    uint64_t line; /* of AGREES the number of lines, of the others the number of that line */
} evtchn_replay_result;

/* Where a replay is. Numbers of lines stay at 2^64 - 1. */
typedef struct evtchn_replay_position {
    uint64_t lines; /* how many lines agreed */
    size_t line;    /* bytes of the line that is being read, or at which it stopped: its first 64, kept in line */
    size_t due;     /* bytes of the line that is due, kept in due; 0: none. They mean nothing where it stopped otherwise than by DIFFERS */
    uint32_t mask;  /* 1: that line is a mask's access, and the mask's answer DONE is due after it */
    uint32_t stop;  /* 0, or the kind at which it stopped */
} evtchn_replay_position;

/* ---- the functions, on bytes: each has bytes in its name ---- */

/*
 * domain    the record of the domain that is played; guest the record of its guest
 * ledger    its entries, as many as the ledger had that the recorded domain used; the length is in bytes, a last odd byte is no entry.
 *           131,072 entries serve every port
 * words     its event array; the length is in words. So many whole pages are lent: 131,072 words, 128 pages, serve every log
 * block     its control block: READY, a reserved word, HEAD of queues 0 to 15
 * line, due the line that is being read, and the one that is due, as the position says
 * text      the next piece of the log
 */

/* The start of a replay, at which the header is due: all that is lent is made fresh, whatever it held. */
evtchn_replay_position evtchn_replay_bytes_start(uint8_t domain[100], uint8_t *ledger, size_t ledger_length, uint8_t guest[104],
                                                 uint32_t *words, size_t words_length, uint32_t block[18], uint8_t due[64]);
/* The position after a piece of the log. A replay that has stopped takes no more: position and buffers stay. */
evtchn_replay_position evtchn_replay_bytes_feed(evtchn_replay_position position, uint8_t domain[100], uint8_t *ledger,
                                                size_t ledger_length, uint8_t guest[104], uint32_t *words, size_t words_length,
                                                uint32_t block[18], uint8_t line[64], uint8_t due[64], const uint8_t *text,
                                                size_t text_length);
/* The report, if the log ends here. */
evtchn_replay_result evtchn_replay_bytes_report(evtchn_replay_position position);

/* ---- the same with a type: a replay and what it is lent ---- */

typedef struct evtchn_replay {
    evtchn_fifo_domain domain;
    evtchn_fifo_guest guest;
    uint32_t block[EVTCHN_FIFO_CONTROL_WORDS];
    uint8_t line[EVTCHN_REPLAY_LINE], due[EVTCHN_REPLAY_LINE];
    evtchn_replay_position position;
    uint16_t *ledger; /* lent by the host until the last piece is played */
    size_t entries;
    uint32_t *words;  /* likewise: count words, of which count / EVTCHN_FIFO_PAGE_WORDS pages are used */
    size_t count;
} evtchn_replay;

static inline void evtchn_replay_begin(evtchn_replay *replay, uint16_t *ledger, size_t entries, uint32_t *words, size_t count)
{
    replay->ledger = ledger;
    replay->entries = entries;
    replay->words = words;
    replay->count = count;
    replay->position = evtchn_replay_bytes_start(replay->domain.bytes, (uint8_t *)ledger, entries * EVTCHN_FIFO_ENTRY_SIZE,
                                                 replay->guest.bytes, words, count, replay->block, replay->due);
}

/* The next piece of the log: 1 while all whole lines agree, 0 as soon as one does not, and from then on. */
static inline int evtchn_replay_play(evtchn_replay *replay, const void *text, size_t bytes)
{
    replay->position = evtchn_replay_bytes_feed(replay->position, replay->domain.bytes, (uint8_t *)replay->ledger,
                                                replay->entries * EVTCHN_FIFO_ENTRY_SIZE, replay->guest.bytes, replay->words,
                                                replay->count, replay->block, replay->line, replay->due, (const uint8_t *)text, bytes);
    return replay->position.stop == 0;
}

static inline evtchn_replay_result evtchn_replay_end(const evtchn_replay *replay) { return evtchn_replay_bytes_report(replay->position); }

/* A text of a replay, without its newline. No zero ends it, and its bytes are there until the next piece is played. */
typedef struct evtchn_replay_text {
    const uint8_t *bytes;
    size_t length;
} evtchn_replay_text;

static inline evtchn_replay_text evtchn_replay_text_of(const uint8_t *line, size_t length)
{
    evtchn_replay_text text = {line, length < EVTCHN_REPLAY_LINE ? length : EVTCHN_REPLAY_LINE};
    if (text.length > 0 && line[text.length - 1] == '\n')
        text.length--;
    return text;
}

/* What the log has where the replay is: the line at which it stopped, or what was read of the present one; empty where the log ends. */
static inline evtchn_replay_text evtchn_replay_log_has(const evtchn_replay *replay)
{
    return evtchn_replay_text_of(replay->line, replay->position.line);
}

/* What was due there; empty where nothing was. */
static inline evtchn_replay_text evtchn_replay_was_due(const evtchn_replay *replay)
{
    return evtchn_replay_text_of(replay->due, replay->position.stop <= EVTCHN_REPLAY_DIFFERS ? replay->position.due : 0);
}

#ifdef __cplusplus
}
#endif

#endif
