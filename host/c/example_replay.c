/*
 * A host that plays a recorded log: the file that is named, or standard input. The exit status is 0 only if all lines agree, 1 for any
 * other report, 2 where the log can't be read.
 */
#define _POSIX_C_SOURCE 200809L
#include <stdio.h>
#include <unistd.h>

#include "evtchn_replay.h"

/* A counter is shown once in so many pieces. */
#define PIECES_SHOWN 64u

static evtchn_replay replay;
static uint16_t ledger[EVTCHN_FIFO_PORTS];
static uint32_t words[EVTCHN_FIFO_PORTS];
static char piece[65536];

/* Pieces until the log's end, or until a line does not agree; whether they could be read. */
static int play(FILE *log, int is_shown)
{
    size_t bytes, pieces = 0;
    while ((bytes = fread(piece, 1, sizeof piece, log)) > 0 && evtchn_replay_play(&replay, piece, bytes))
        if (++pieces % PIECES_SHOWN == 0 && is_shown)
            fprintf(stderr, "\r%llu lines", (unsigned long long)replay.position.lines);
    if (is_shown)
        fprintf(stderr, "\r                          \r");
    return !ferror(log);
}

/* A byte that is neither a tab nor printable is shown as a question mark. */
static void print_text(const char *what, evtchn_replay_text text, const char *none)
{
    size_t k;
    printf("%s: %s", what, text.length == 0 ? none : "");
    for (k = 0; k < text.length; k++)
        putchar(text.bytes[k] == '\t' || (text.bytes[k] >= 32 && text.bytes[k] <= 126) ? text.bytes[k] : '?');
    putchar('\n');
}

static void print_result(evtchn_replay_result result)
{
    unsigned long long line = result.line;
    switch (result.kind) {
    case EVTCHN_REPLAY_AGREES:
        printf("all agree, %llu lines\n", line);
        break;
    case EVTCHN_REPLAY_DIFFERS:
        printf("line %llu differs\n", line);
        print_text("the log has", evtchn_replay_log_has(&replay), "(the log ends)");
        print_text("what was due", evtchn_replay_was_due(&replay), "(nothing)");
        break;
    case EVTCHN_REPLAY_NOT_OF_THE_FORM:
        printf("line %llu: refused with 22 (not a line of the form)\n", line);
        break;
    default:
        printf("line %llu: refused with 33 (an expand would add a page past those lent)\n", line);
        break;
    }
}

int main(int count, char **arguments)
{
    FILE *log = count > 1 ? fopen(arguments[1], "rb") : stdin;
    evtchn_replay_result result;
    evtchn_replay_begin(&replay, ledger, EVTCHN_FIFO_PORTS, words, EVTCHN_FIFO_PORTS);
    if (log == NULL || !play(log, isatty(STDERR_FILENO))) {
        fprintf(stderr, "example_replay: the log can't be read\n");
        return 2;
    }
    result = evtchn_replay_end(&replay);
    print_result(result);
    return result.kind != EVTCHN_REPLAY_AGREES;
}
