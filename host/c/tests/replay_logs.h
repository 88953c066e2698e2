/* The logs that replay.c plays: one of every call, and those whose reports are worked out by hand. */
#ifndef REPLAY_LOGS_H
#define REPLAY_LOGS_H

#include "evtchn_fifo.h"

/* what is lent unless a row says otherwise: entries of ports up to 1,500, and two pages */
#define ENTRIES 1501u
#define LEDGER_BYTES (ENTRIES * EVTCHN_FIFO_ENTRY_SIZE)
#define WORDS (2 * EVTCHN_FIFO_PAGE_WORDS)

/* ---- a log of every call ---- */

/* A line; and where it is dropped, or stands twice, how many lines later the first one differs. */
typedef struct good_line {
    const char *text;
    unsigned dropped, doubled;
} good_line;

/*
 * What follows a dropped line is not due in its place, but for the raise of 9 and the clear_mask of 5: the call that is refused during it
 * is then one that starts, and its answer differs. A line's double is not due either; but a second call during a call is refused, and the
 * first access stands in that answer's place.
 */
static const good_line good_lines[] = {
    {"accesses\t1\n", 0, 1},
    {"X\tcall\texpand_array\t-\t2\t-\n", 0, 1},
    {"X\tanswer\t10\t-\t-\t-\n", 0, 1},
    {"X\tcall\tinit_control\t0\t1\t0\n", 0, 1},
    {"X\tanswer\t0\t-\t-\t-\n", 0, 1},
    {"X\tcall\texpand_array\t-\t2\t-\n", 0, 1},
    {"X\tanswer\t0\t-\t-\t-\n", 0, 1},
    {"X\tcall\tbind\t5\t-\t-\n", 0, 2},
    {"X\tread\tw5\t-\t-\t00000000\n", 0, 1},
    {"X\tanswer\t0\t-\t-\t-\n", 0, 1},
    {"X\tcall\tbind\t9\t-\t-\n", 0, 2},
    {"X\tread\tw9\t-\t-\t00000000\n", 0, 1},
    {"X\tanswer\t0\t-\t-\t-\n", 0, 1},
    {"X\tcall\tset_priority\t9\t16\t-\n", 0, 1},
    {"X\tanswer\t8\t-\t-\t-\n", 0, 1},
    {"X\tcall\tset_priority\t9\t7\t-\n", 0, 1},
    {"X\tanswer\t0\t-\t-\t-\n", 0, 1},
    {"X\tcall\traise\t5\t-\t-\n", 0, 2},
    {"X\tor\tw5\t-\t80000000\t00000000\n", 0, 1},
    {"X\tor\tw5\t-\t20000000\t80000000\n", 0, 1},
    {"X\tstore\th7\t-\t00000005\t-\n", 0, 1},
    {"X\tor\tready\t-\t00000080\t00000000\n", 0, 1},
    {"X\tanswer\t1\t-\t-\t-\n", 0, 1},
    {"X\tcall\traise\t9\t-\t-\n", 1, 2},
    {"X\tcall\traise\t5\t-\t-\n", 0, 1},
    {"X\tanswer\t15\t-\t-\t-\n", 0, 1},
    {"X\tor\tw9\t-\t80000000\t00000000\n", 0, 1},
    {"X\tor\tw9\t-\t20000000\t80000000\n", 0, 1},
    {"X\tread\tw5\t-\t-\tA0000000\n", 0, 1},
    {"X\tcas\tw5\tA0000000\tA0000009\tA0000000\n", 0, 1},
    {"X\tanswer\t0\t-\t-\t-\n", 0, 1},
    {"G\tcall\tservice\t-\t-\t-\n", 0, 2},
    {"G\tswap\tready\t-\t00000000\t00000080\n", 0, 1},
    {"G\tread\th7\t-\t-\t00000005\n", 0, 1},
    {"G\tand\tw5\t-\tDFFE0000\tA0000009\n", 0, 1},
    {"G\tread\tw5\t-\t-\t80000000\n", 0, 1},
    {"G\tand\tw5\t-\t7FFFFFFF\t80000000\n", 0, 1},
    {"G\tanswer\t19\t5\t-\t-\n", 0, 1},
    {"G\tcall\tmask\t9\t-\t-\n", 0, 1},
    {"G\tor\tw9\t-\t40000000\tA0000000\n", 0, 1},
    {"G\tanswer\t0\t-\t-\t-\n", 0, 1},
    {"G\tcall\tservice\t-\t-\t-\n", 0, 2},
    {"G\tswap\tready\t-\t00000000\t00000000\n", 0, 1},
    {"G\tand\tw9\t-\tDFFE0000\tE0000000\n", 0, 1},
    {"G\tread\tw9\t-\t-\tC0000000\n", 0, 1},
    {"G\tanswer\t21\t9\t-\t-\n", 0, 1},
    {"G\tcall\tservice\t-\t-\t-\n", 0, 2},
    {"G\tswap\tready\t-\t00000000\t00000000\n", 0, 1},
    {"G\tanswer\t20\t-\t-\t-\n", 0, 1},
    {"G\tcall\tmask\t1024\t-\t-\n", 0, 1},
    {"G\tanswer\t6\t-\t-\t-\n", 0, 1},
    {"G\tcall\tclear_mask\t1024\t-\t-\n", 0, 1},
    {"G\tanswer\t6\t-\t-\t-\n", 0, 1},
    {"G\tcall\tclear_mask\t9\t-\t-\n", 0, 2},
    {"G\tread\tw9\t-\t-\tC0000000\n", 0, 1},
    {"G\tanswer\t35\t-\t-\t-\n", 0, 1},
    {"G\tcall\tmask\t5\t-\t-\n", 0, 1},
    {"G\tor\tw5\t-\t40000000\t00000000\n", 0, 1},
    {"G\tanswer\t0\t-\t-\t-\n", 0, 1},
    {"G\tcall\tclear_mask\t5\t-\t-\n", 1, 2},
    {"G\tcall\tservice\t-\t-\t-\n", 0, 1},
    {"G\tanswer\t15\t-\t-\t-\n", 0, 1},
    {"G\tread\tw5\t-\t-\t40000000\n", 0, 1},
    {"G\tcas\tw5\t40000000\t00000000\t40000000\n", 0, 1},
    {"G\tanswer\t0\t-\t-\t-\n", 0, 1},
    {"X\tcall\traise\t9\t-\t-\n", 0, 2},
    {"X\tor\tw9\t-\t80000000\tC0000000\n", 0, 1},
    {"X\tanswer\t0\t-\t-\t-\n", 0, 1},
    {"X\tcall\tunmask\t9\t-\t-\n", 0, 2},
    {"X\tand\tw9\t-\tBFFFFFFF\tC0000000\n", 0, 1},
    {"X\tor\tw9\t-\t20000000\t80000000\n", 0, 1},
    {"X\tstore\th7\t-\t00000009\t-\n", 0, 1},
    {"X\tor\tready\t-\t00000080\t00000000\n", 0, 1},
    {"X\tanswer\t1\t-\t-\t-\n", 0, 1},
    {"X\tcall\texpand_array\t-\t3\t-\n", 0, 1},
    {"X\tanswer\t0\t-\t-\t-\n", 0, 1},
    {"X\tcall\tbind\t1500\t-\t-\n", 0, 2},
    {"X\tread\tw1500\t-\t-\t00000000\n", 0, 1},
    {"X\tanswer\t0\t-\t-\t-\n", 0, 1},
    {"X\tcall\traise\t1500\t-\t-\n", 0, 2},
    {"X\tor\tw1500\t-\t80000000\t00000000\n", 0, 1},
    {"X\tor\tw1500\t-\t20000000\t80000000\n", 0, 1},
    {"X\tread\tw9\t-\t-\tA0000000\n", 0, 1},
    {"X\tcas\tw9\tA0000000\tA00005DC\tA0000000\n", 0, 1},
    {"X\tanswer\t0\t-\t-\t-\n", 0, 1},
    {"X\tcall\tclose\t5\t-\t-\n", 0, 2},
    {"X\tand\tw5\t-\t7FFFFFFF\t00000000\n", 0, 1},
    {"X\tanswer\t0\t-\t-\t-\n", 0, 1},
    {"X\tcall\traise\t5\t-\t-\n", 0, 1},
    {"X\tanswer\t4\t-\t-\t-\n", 0, 1},
    {"G\tcall\tservice\t-\t-\t-\n", 0, 2},
    {"G\tswap\tready\t-\t00000000\t00000080\n", 0, 1},
    {"G\tread\th7\t-\t-\t00000009\n", 0, 1},
    {"G\tand\tw9\t-\tDFFE0000\tA00005DC\n", 0, 1},
    {"G\tread\tw9\t-\t-\t80000000\n", 0, 1},
    {"G\tand\tw9\t-\t7FFFFFFF\t80000000\n", 0, 1},
    {"G\tanswer\t19\t9\t-\t-\n", 0, 1},
};
#define GOOD_LINES (sizeof good_lines / sizeof good_lines[0])
#define GOOD_COUNT 97u

/* ---- lines ---- */

#define HEADER "accesses\t1\n"
#define DONE "X\tanswer\t0\t-\t-\t-\n"
#define BEGIN_INIT "X\tcall\tinit_control\t0\t1\t0\n"
#define GIVEN HEADER BEGIN_INIT DONE /* 3 lines */
#define BEGIN_PAGE "X\tcall\texpand_array\t-\t2\t-\n"
#define PAGED GIVEN BEGIN_PAGE DONE /* 5 */
#define BEGIN_BIND "X\tcall\tbind\t5\t-\t-\n"
#define READ_5 "X\tread\tw5\t-\t-\t00000000\n"
#define BOUND PAGED BEGIN_BIND READ_5 DONE /* 8 */
#define BEGIN_RAISE "X\tcall\traise\t5\t-\t-\n"
#define R1 "X\tor\tw5\t-\t80000000\t00000000\n"
#define R2 "X\tor\tw5\t-\t20000000\t80000000\n"
#define R5 "X\tstore\th7\t-\t00000005\t-\n"
#define R6 "X\tor\tready\t-\t00000080\t00000000\n"
#define WANTED "X\tanswer\t1\t-\t-\t-\n"
#define RAISED BOUND BEGIN_RAISE R1 R2 R5 R6 WANTED /* 14 */
#define BEGIN_SERVICE "G\tcall\tservice\t-\t-\t-\n"
#define G0 "G\tswap\tready\t-\t00000000\t00000080\n"
#define G0_IDLE "G\tswap\tready\t-\t00000000\t00000000\n"
#define G1 "G\tread\th7\t-\t-\t00000005\n"
#define G2 "G\tand\tw5\t-\tDFFE0000\tA0000000\n"
#define G3 "G\tread\tw5\t-\t-\t80000000\n"
#define G4 "G\tand\tw5\t-\t7FFFFFFF\t80000000\n"
#define IDLE "G\tanswer\t20\t-\t-\t-\n"
#define BEGIN_MASK "G\tcall\tmask\t5\t-\t-\n"
#define MASKS "G\tor\tw5\t-\t40000000\t00000000\n"
#define MASKED "G\tanswer\t0\t-\t-\t-\n"
#define PAGED_MASKED PAGED BEGIN_MASK MASKS MASKED /* 8 */
#define BOUND_MASKED BOUND BEGIN_MASK MASKS MASKED /* 11 */
#define BEGIN_CLEAR "G\tcall\tclear_mask\t5\t-\t-\n"
#define SEES_CLEAR "G\tread\tw5\t-\t-\t00000000\n"
#define SEES_MASKED "G\tread\tw5\t-\t-\t40000000\n"
#define CLEARS "G\tcas\tw5\t40000000\t00000000\t40000000\n"
#define CLEARED MASKED
#define CALL_UNMASK "G\tanswer\t35\t-\t-\t-\n"
#define BEGIN_CLEAR_9 "G\tcall\tclear_mask\t9\t-\t-\n"
#define SEES_CLEAR_9 "G\tread\tw9\t-\t-\t00000000\n"
#define UNDER_WAY "X\tanswer\t15\t-\t-\t-\n"
#define SERVING "G\tanswer\t15\t-\t-\t-\n"
#define NO_ENTRY "X\tanswer\t14\t-\t-\t-\n"
#define LONGEST "X\tcall\tinit_control\t4294967295\t4294967295\t4294967295\n" /* 53 bytes */
#define TEN "0123456789"
#define SIXTY TEN TEN TEN TEN TEN TEN

/* ---- logs worked out by hand ---- */

/* A log and its report; what the log has there, and what was due: NULL after 22 and 33, where it means nothing. */
typedef struct row {
    const char *what, *log;
    uint32_t kind;
    uint64_t line;
    const char *has, *due;
} row;

static const row header_rows[] = {
    {"an empty log", "", 1, 1, "", HEADER},
    {"the header alone", HEADER, 0, 1, "", ""},
    {"no header", BEGIN_INIT DONE, 1, 1, BEGIN_INIT, HEADER},
    {"an answer for a header", DONE, 1, 1, DONE, HEADER},
    {"a header of 2", "accesses\t2\n" BEGIN_INIT, 22, 1, "accesses\t2\n", NULL},
    {"a header of 01", "accesses\t01\n", 22, 1, "accesses\t01\n", NULL},
    {"a header with a field more", "accesses\t1\t-\n", 22, 1, "accesses\t1\t-\n", NULL},
    {"a header with a space", "accesses 1\n", 22, 1, "accesses 1\n", NULL},
    {"a header with a CR", "accesses\t1\r\n", 22, 1, "accesses\t1\r\n", NULL},
    {"a header without its newline", "accesses\t1", 22, 1, "accesses\t1", HEADER},
    {"half a header", "acc", 22, 1, "acc", HEADER},
    {"a second header", HEADER HEADER, 1, 2, HEADER, ""},
    {"a header where an answer is due", HEADER BEGIN_INIT HEADER, 1, 3, HEADER, DONE},
    {NULL, NULL, 0, 0, NULL, NULL}};

static const row form_rows[] = {
    {"an empty line", HEADER "\n", 22, 2, "\n", NULL},
    {"an empty line first", "\n" HEADER, 22, 1, "\n", NULL},
    {"CR before the newline", HEADER "X\tcall\tinit_control\t0\t1\t0\r\n" DONE, 22, 2, "X\tcall\tinit_control\t0\t1\t0\r\n", NULL},
    {"lower-case digits", BOUND BEGIN_RAISE "X\tor\tw5\t-\t80000000\t0000000a\n", 22, 10, "X\tor\tw5\t-\t80000000\t0000000a\n", NULL},
    {"a lower-case side", HEADER "x\tcall\tinit_control\t0\t1\t0\n", 22, 2, "x\tcall\tinit_control\t0\t1\t0\n", NULL},
    {"2^32", GIVEN "X\tcall\traise\t4294967296\t-\t-\n", 22, 4, "X\tcall\traise\t4294967296\t-\t-\n", NULL},
    {"2^32 - 1", GIVEN "X\tcall\traise\t4294967295\t-\t-\nX\tanswer\t3\t-\t-\t-\n", 0, 5, "", ""},
    {"2^32 and 5", BOUND "X\tcall\traise\t4294967301\t-\t-\n" R1, 22, 9, "X\tcall\traise\t4294967301\t-\t-\n", NULL},
    {"2^64", GIVEN "X\tcall\traise\t18446744073709551616\t-\t-\n", 22, 4, "X\tcall\traise\t18446744073709551616\t-\t-\n", NULL},
    {"a leading zero in a port", PAGED "X\tcall\tbind\t05\t-\t-\n", 22, 6, "X\tcall\tbind\t05\t-\t-\n", NULL},
    {"a leading zero in a place", PAGED BEGIN_BIND "X\tread\tw05\t-\t-\t00000000\n", 22, 7, "X\tread\tw05\t-\t-\t00000000\n", NULL},
    {"a leading zero in an answer", HEADER BEGIN_INIT "X\tanswer\t00\t-\t-\t-\n", 22, 3, "X\tanswer\t00\t-\t-\t-\n", NULL},
    {"a place without a number", PAGED BEGIN_BIND "X\tread\tw\t-\t-\t00000000\n", 22, 7, "X\tread\tw\t-\t-\t00000000\n", NULL},
    {"seven hex digits", PAGED BEGIN_BIND "X\tread\tw5\t-\t-\t0000000\n", 22, 7, "X\tread\tw5\t-\t-\t0000000\n", NULL},
    {"nine hex digits", PAGED BEGIN_BIND "X\tread\tw5\t-\t-\t000000000\n", 22, 7, "X\tread\tw5\t-\t-\t000000000\n", NULL},
    {"the guest's raise", BOUND "G\tcall\traise\t5\t-\t-\n", 22, 9, "G\tcall\traise\t5\t-\t-\n", NULL},
    {"the hypervisor's service", BOUND "X\tcall\tservice\t-\t-\t-\n", 22, 9, "X\tcall\tservice\t-\t-\t-\n", NULL},
    {"the hypervisor's clear_mask", BOUND "X\tcall\tclear_mask\t5\t-\t-\n", 22, 9, "X\tcall\tclear_mask\t5\t-\t-\n", NULL},
    {"a clear_mask without a port", PAGED "G\tcall\tclear_mask\t-\t-\t-\n", 22, 6, "G\tcall\tclear_mask\t-\t-\t-\n", NULL},
    {"a clear_mask with an argument", PAGED "G\tcall\tclear_mask\t5\t1\t-\n", 22, 6, "G\tcall\tclear_mask\t5\t1\t-\n", NULL},
    {"a clear_mask of port 05", PAGED "G\tcall\tclear_mask\t05\t-\t-\n", 22, 6, "G\tcall\tclear_mask\t05\t-\t-\n", NULL},
    {"a call clear", PAGED "G\tcall\tclear\t5\t-\t-\n", 22, 6, "G\tcall\tclear\t5\t-\t-\n", NULL},
    {"35 with a port", PAGED "G\tanswer\t35\t5\t-\t-\n", 22, 6, "G\tanswer\t35\t5\t-\t-\n", NULL},
    {"a tell", PAGED "G\tcall\ttell\t1024\t-\t-\n", 22, 6, "G\tcall\ttell\t1024\t-\t-\n", NULL},
    {"a side of its own", HEADER "Y\tanswer\t0\t-\t-\t-\n", 22, 2, "Y\tanswer\t0\t-\t-\t-\n", NULL},
    {"a service with a port", PAGED "G\tcall\tservice\t5\t-\t-\n", 22, 6, "G\tcall\tservice\t5\t-\t-\n", NULL},
    {"an expand with a port", GIVEN "X\tcall\texpand_array\t2\t-\t-\n", 22, 4, "X\tcall\texpand_array\t2\t-\t-\n", NULL},
    {"a read with an operand", PAGED BEGIN_BIND "X\tread\tw5\t-\t00000000\t00000000\n", 22, 7,
     "X\tread\tw5\t-\t00000000\t00000000\n", NULL},
    {"a store with a word seen", BOUND BEGIN_RAISE R1 R2 "X\tstore\th7\t-\t00000005\t00000000\n", 22, 12,
     "X\tstore\th7\t-\t00000005\t00000000\n", NULL},
    {"an or without a word seen", BOUND BEGIN_RAISE "X\tor\tw5\t-\t80000000\t-\n", 22, 10, "X\tor\tw5\t-\t80000000\t-\n", NULL},
    {"19 without a port", RAISED "G\tanswer\t19\t-\t-\t-\n", 22, 15, "G\tanswer\t19\t-\t-\t-\n", NULL},
    {"an answer 0 with a port", HEADER BEGIN_INIT "X\tanswer\t0\t5\t-\t-\n", 22, 3, "X\tanswer\t0\t5\t-\t-\n", NULL},
    {"five fields", BOUND "X\tcall\traise\t5\t-\n", 22, 9, "X\tcall\traise\t5\t-\n", NULL},
    {"seven fields", BOUND "X\tcall\traise\t5\t-\t-\t-\n", 22, 9, "X\tcall\traise\t5\t-\t-\t-\n", NULL},
    {"a line of one tab", HEADER "\t\n", 22, 2, "\t\n", NULL},
    {NULL, NULL, 0, 0, NULL, NULL}};

static const row long_rows[] = {
    {"a line of 53 bytes", HEADER LONGEST "X\tanswer\t17\t-\t-\t-\n", 0, 3, "", ""},
    {"a line of 54 bytes", HEADER "X\tcall\tinit_control\t42949672950\t4294967295\t4294967295\n", 22, 2,
     "X\tcall\tinit_control\t42949672950\t4294967295\t4294967295\n", NULL},
    {"a line of 63 bytes", HEADER SIXTY "01\n", 22, 2, SIXTY "01\n", NULL},
    {"a line of 64 bytes", HEADER SIXTY "012\n", 22, 2, SIXTY "012\n", NULL},
    {"a line of 65 bytes", HEADER SIXTY "0123\n", 22, 2, SIXTY "0123", NULL},
    {"a line of 200 bytes", HEADER SIXTY SIXTY SIXTY TEN "012345678\n" BEGIN_INIT, 22, 2, SIXTY "0123", NULL},
    {"200 bytes without a newline", HEADER SIXTY SIXTY SIXTY TEN TEN, 22, 2, SIXTY "0123", ""},
    {"the line due and more, 64 bytes", PAGED BEGIN_BIND "X\tread\tw5\t-\t-\t00000000" TEN TEN TEN TEN "0\n", 22, 7,
     "X\tread\tw5\t-\t-\t00000000" TEN TEN TEN TEN "0\n", NULL},
    {"the line due and more, 83 bytes", PAGED BEGIN_BIND "X\tread\tw5\t-\t-\t00000000" SIXTY "\n", 22, 7,
     "X\tread\tw5\t-\t-\t00000000" TEN TEN TEN TEN "01", NULL},
    {"the answer due and more", HEADER BEGIN_INIT "X\tanswer\t0\t-\t-\t-" SIXTY "\n" DONE, 22, 3,
     "X\tanswer\t0\t-\t-\t-" TEN TEN TEN TEN "01234567", NULL},
    {NULL, NULL, 0, 0, NULL, NULL}};

static const row difference_rows[] = {
    {"another word seen", BOUND BEGIN_RAISE "X\tor\tw5\t-\t80000000\t00000001\n", 1, 10, "X\tor\tw5\t-\t80000000\t00000001\n", R1},
    {"another operand", BOUND BEGIN_RAISE "X\tor\tw5\t-\t80000001\t00000000\n", 1, 10, "X\tor\tw5\t-\t80000001\t00000000\n", R1},
    {"another kind", BOUND BEGIN_RAISE "X\tand\tw5\t-\t80000000\t00000000\n", 1, 10, "X\tand\tw5\t-\t80000000\t00000000\n", R1},
    {"another place", BOUND BEGIN_RAISE R1 R2 "X\tstore\th8\t-\t00000005\t-\n", 1, 12, "X\tstore\th8\t-\t00000005\t-\n", R5},
    {"word 0 is of the form", PAGED BEGIN_BIND "X\tread\tw0\t-\t-\t00000000\n", 1, 7, "X\tread\tw0\t-\t-\t00000000\n", READ_5},
    {"the last word is of the form", PAGED BEGIN_BIND "X\tread\tw4294967295\t-\t-\tFFFFFFFF\n", 1, 7,
     "X\tread\tw4294967295\t-\t-\tFFFFFFFF\n", READ_5},
    {"queue 16 is of the form", BOUND BEGIN_RAISE R1 R2 "X\tstore\th16\t-\t00000005\t-\n", 1, 12, "X\tstore\th16\t-\t00000005\t-\n", R5},
    {"a cas that none named", BOUND BEGIN_RAISE "X\tcas\tw5\t00000000\t80000000\t00000000\n", 1, 10,
     "X\tcas\tw5\t00000000\t80000000\t00000000\n", R1},
    {"the guest's access", PAGED BEGIN_BIND "G\tread\tw5\t-\t-\t00000000\n", 1, 7, "G\tread\tw5\t-\t-\t00000000\n", ""},
    {"an access with no call", HEADER READ_5, 1, 2, READ_5, ""},
    {"an answer for an access", PAGED BEGIN_BIND DONE, 1, 7, DONE, ""},
    {"an access for an answer", HEADER BEGIN_INIT READ_5, 1, 3, READ_5, DONE},
    {"a call for an answer", HEADER BEGIN_INIT BEGIN_INIT, 1, 3, BEGIN_INIT, DONE},
    {"another answer", HEADER BEGIN_INIT WANTED, 1, 3, WANTED, DONE},
    {"answer 99 is of the form", HEADER BEGIN_INIT "X\tanswer\t99\t-\t-\t-\n", 1, 3, "X\tanswer\t99\t-\t-\t-\n", DONE},
    {"an answer with a port", HEADER BEGIN_INIT "X\tanswer\t19\t5\t-\t-\n", 1, 3, "X\tanswer\t19\t5\t-\t-\n", DONE},
    {"the guest's answer", HEADER BEGIN_INIT MASKED, 1, 3, MASKED, DONE},
    {"an answer that nothing brought", HEADER DONE, 1, 2, DONE, ""},
    {"a call that is left out", PAGED READ_5 DONE, 1, 6, READ_5, ""},
    {"a difference before a line not of the form", HEADER DONE "\n", 1, 2, DONE, ""},
    {"a line not of the form before a difference", HEADER "\n" DONE, 22, 2, "\n", NULL},
    {"another port of an event taken", RAISED BEGIN_SERVICE G0 G1 G2 G3 G4 "G\tanswer\t19\t6\t-\t-\n", 1, 21,
     "G\tanswer\t19\t6\t-\t-\n", "G\tanswer\t19\t5\t-\t-\n"},
    {NULL, NULL, 0, 0, NULL, NULL}};

static const row end_rows[] = {
    {"an answer due at the end", HEADER BEGIN_INIT, 1, 3, "", DONE},
    {"an answer due after an access", PAGED BEGIN_BIND READ_5, 1, 8, "", DONE},
    {"a torn last line", GIVEN "X\tcall", 22, 4, "X\tcall", ""},
    {"a torn answer that is due", HEADER BEGIN_INIT "X\tanswer\t0\t-\t-\t-", 22, 3, "X\tanswer\t0\t-\t-\t-", DONE},
    {"a call under way at the end", BOUND BEGIN_RAISE, 0, 9, "", ""},
    {"a call under way after an access", BOUND BEGIN_RAISE R1, 0, 10, "", ""},
    {"a service under way at the end", RAISED BEGIN_SERVICE G0 G1, 0, 17, "", ""},
    {"both sides under way", RAISED BEGIN_SERVICE BEGIN_RAISE, 0, 16, "", ""},
    {NULL, NULL, 0, 0, NULL, NULL}};

static const row mask_rows[] = {
    {"a mask", PAGED BEGIN_MASK MASKS MASKED, 0, 8, "", ""},
    {"its access due at the end", PAGED BEGIN_MASK, 1, 7, "", MASKS},
    {"its answer due at the end", PAGED BEGIN_MASK MASKS, 1, 8, "", MASKED},
    {"its access, with another word seen", PAGED BEGIN_MASK "G\tor\tw5\t-\t40000000\t40000000\n", 1, 7,
     "G\tor\tw5\t-\t40000000\t40000000\n", MASKS},
    {"its access, by the other side", PAGED BEGIN_MASK "X\tor\tw5\t-\t40000000\t00000000\n", 1, 7,
     "X\tor\tw5\t-\t40000000\t00000000\n", MASKS},
    {"its answer before its access", PAGED BEGIN_MASK MASKED, 1, 7, MASKED, MASKS},
    {"its answer, by the other side", PAGED BEGIN_MASK MASKS DONE, 1, 8, DONE, MASKED},
    {"its access twice", PAGED BEGIN_MASK MASKS MASKS, 1, 8, MASKS, MASKED},
    {"a call for its access", PAGED BEGIN_MASK BEGIN_BIND, 1, 7, BEGIN_BIND, MASKS},
    {"its access, not of the form", PAGED BEGIN_MASK "G\tor\tw5\t-\t4000000\t00000000\n", 22, 7, "G\tor\tw5\t-\t4000000\t00000000\n", NULL},
    {"its access, torn", PAGED BEGIN_MASK "G\tor\tw5\t-\t40000000\t00000000", 22, 7, "G\tor\tw5\t-\t40000000\t00000000", MASKS},
    {"a mask of port 0", PAGED "G\tcall\tmask\t0\t-\t-\nG\tanswer\t3\t-\t-\t-\n", 0, 7, "", ""},
    {"a mask outside the array", PAGED "G\tcall\tmask\t1024\t-\t-\nG\tanswer\t6\t-\t-\t-\n", 0, 7, "", ""},
    {"a mask with no array", GIVEN BEGIN_MASK MASKS, 1, 5, MASKS, "G\tanswer\t6\t-\t-\t-\n"},
    {"a mask in a service", RAISED BEGIN_SERVICE G0 G1 G2 BEGIN_MASK "G\tor\tw5\t-\t40000000\t80000000\n" MASKED
     "G\tread\tw5\t-\t-\tC0000000\nG\tanswer\t21\t5\t-\t-\n", 0, 23, "", ""},
    {"a mask in a service, whose access comes first", RAISED BEGIN_SERVICE G0 BEGIN_MASK G1, 1, 18, G1,
     "G\tor\tw5\t-\t40000000\tA0000000\n"},
    {NULL, NULL, 0, 0, NULL, NULL}};

static const row clear_mask_rows[] = {
    {"a clear_mask of a port that is not masked", PAGED BEGIN_CLEAR SEES_CLEAR CLEARED, 0, 8, "", ""},
    {"a clear_mask", PAGED_MASKED BEGIN_CLEAR SEES_MASKED CLEARS CLEARED, 0, 12, "", ""},
    {"its answer due at the end", PAGED_MASKED BEGIN_CLEAR SEES_MASKED CLEARS, 1, 12, "", CLEARED},
    {"under way at the end", PAGED BEGIN_CLEAR, 0, 6, "", ""},
    {"under way at the end, before its cas", PAGED_MASKED BEGIN_CLEAR SEES_MASKED, 0, 10, "", ""},
    {"35 by its read", BOUND_MASKED BEGIN_RAISE "X\tor\tw5\t-\t80000000\t40000000\n" DONE BEGIN_CLEAR "G\tread\tw5\t-\t-\tC0000000\n" CALL_UNMASK,
     0, 17, "", ""},
    {"35 by its cas", BOUND_MASKED BEGIN_CLEAR SEES_MASKED BEGIN_RAISE "X\tor\tw5\t-\t80000000\t40000000\n" DONE
     "G\tcas\tw5\t40000000\t00000000\tC0000000\n" CALL_UNMASK, 0, 18, "", ""},
    {"0 for its 35", BOUND_MASKED BEGIN_CLEAR SEES_MASKED BEGIN_RAISE "X\tor\tw5\t-\t80000000\t40000000\n" DONE
     "G\tcas\tw5\t40000000\t00000000\tC0000000\n" CLEARED, 1, 18, CLEARED, CALL_UNMASK},
    {"its cas before its read", PAGED_MASKED BEGIN_CLEAR CLEARS, 1, 10, CLEARS, SEES_MASKED},
    {"an answer for its cas", PAGED_MASKED BEGIN_CLEAR SEES_MASKED CLEARED, 1, 11, CLEARED, ""},
    {"an and for its cas", PAGED_MASKED BEGIN_CLEAR SEES_MASKED "G\tand\tw5\t-\tBFFFFFFF\t40000000\n", 1, 11,
     "G\tand\tw5\t-\tBFFFFFFF\t40000000\n", CLEARS},
    {"its read, by the other side", PAGED BEGIN_CLEAR READ_5, 1, 7, READ_5, ""},
    {"a clear_mask of port 0", PAGED "G\tcall\tclear_mask\t0\t-\t-\nG\tanswer\t3\t-\t-\t-\n", 0, 7, "", ""},
    {"a clear_mask outside the array", PAGED "G\tcall\tclear_mask\t1024\t-\t-\nG\tanswer\t6\t-\t-\t-\n", 0, 7, "", ""},
    {"a clear_mask with no array", GIVEN BEGIN_CLEAR SEES_CLEAR, 1, 5, SEES_CLEAR, "G\tanswer\t6\t-\t-\t-\n"},
    {"15 of a second clear_mask", PAGED BEGIN_CLEAR BEGIN_CLEAR_9 SERVING SEES_CLEAR CLEARED, 0, 10, "", ""},
    {"15 of a service during a clear_mask", PAGED BEGIN_CLEAR BEGIN_SERVICE SERVING SEES_CLEAR CLEARED, 0, 10, "", ""},
    {"an access where that 15 is due", PAGED BEGIN_CLEAR BEGIN_SERVICE G0_IDLE, 1, 8, G0_IDLE, SERVING},
    {"a mask in a clear_mask", PAGED_MASKED BEGIN_CLEAR SEES_MASKED BEGIN_MASK "G\tor\tw5\t-\t40000000\t40000000\n" MASKED CLEARS CLEARED, 0, 15,
     "", ""},
    {"a clear_mask in a service", RAISED BEGIN_SERVICE G0 BEGIN_CLEAR_9 SEES_CLEAR_9 CLEARED G1 G2 G3 G4 "G\tanswer\t19\t5\t-\t-\n", 0, 24,
     "", ""},
    {"a clear_mask in a service, whose access comes first", RAISED BEGIN_SERVICE G0 BEGIN_CLEAR_9 G1, 1, 18, G1, SEES_CLEAR_9},
    {NULL, NULL, 0, 0, NULL, NULL}};

/* port 9 behind port 5, which is masked between R3 and the first cas */
#define BEGIN_9 RAISED "X\tcall\tbind\t9\t-\t-\nX\tread\tw9\t-\t-\t00000000\n" DONE "X\tcall\traise\t9\t-\t-\n" /* 18 */
#define READ_TAIL "X\tor\tw9\t-\t80000000\t00000000\nX\tor\tw9\t-\t20000000\t80000000\nX\tread\tw5\t-\t-\tA0000000\n"
#define FIRST_LOST BEGIN_9 READ_TAIL BEGIN_MASK "G\tor\tw5\t-\t40000000\tA0000000\n" MASKED "X\tcas\tw5\tA0000000\tA0000009\tE0000000\n" /* 25 */
#define SETS_BUSY "X\tor\tw5\t-\t10000000\tE0000000\n"
#define LINKS "X\tcas\tw5\tF0000000\tE0000009\tF0000000\n"
#define SECOND_CAS "X\tcas\tw5\tE0000000\tE0000009\tE0000000\n"

static const row busy_rows[] = {
    {"a link with BUSY", FIRST_LOST SETS_BUSY LINKS DONE, 0, 28, "", ""},
    {"a second cas without BUSY", FIRST_LOST SECOND_CAS DONE, 1, 26, SECOND_CAS, SETS_BUSY},
    {"a second cas that leaves BUSY", FIRST_LOST SETS_BUSY "X\tcas\tw5\tF0000000\tF0000009\tF0000000\n", 1, 27,
     "X\tcas\tw5\tF0000000\tF0000009\tF0000000\n", LINKS},
    {"35 while BUSY is set", FIRST_LOST SETS_BUSY BEGIN_CLEAR "G\tread\tw5\t-\t-\tF0000000\n" CALL_UNMASK LINKS DONE, 0, 31, "", ""},
    {"LINKED lost while BUSY is set", FIRST_LOST SETS_BUSY BEGIN_SERVICE G0 G1 "G\tand\tw5\t-\tDFFE0000\tF0000000\n"
     "X\tcas\tw5\tF0000000\tE0000009\tD0000000\nX\tand\tw5\t-\tEFFFFFFF\tD0000000\nX\tstore\th7\t-\t00000009\t-\n" R6 WANTED
     "G\tread\tw5\t-\t-\tC0000000\nG\tanswer\t21\t5\t-\t-\n", 0, 37, "", ""},
    {"HEAD before BUSY is cleared", FIRST_LOST SETS_BUSY BEGIN_SERVICE G0 G1 "G\tand\tw5\t-\tDFFE0000\tF0000000\n"
     "X\tcas\tw5\tF0000000\tE0000009\tD0000000\nX\tstore\th7\t-\t00000009\t-\n", 1, 32, "X\tstore\th7\t-\t00000009\t-\n",
     "X\tand\tw5\t-\tEFFFFFFF\tD0000000\n"},
    {NULL, NULL, 0, 0, NULL, NULL}};

static const row call_rows[] = {
    {"15 during a call", BOUND BEGIN_RAISE BEGIN_BIND UNDER_WAY R1 R2 R5 R6 WANTED, 0, 16, "", ""},
    {"15 due at the end", BOUND BEGIN_RAISE BEGIN_BIND, 1, 11, "", UNDER_WAY},
    {"an access where 15 is due", BOUND BEGIN_RAISE BEGIN_BIND R1, 1, 11, R1, UNDER_WAY},
    {"15 during a call, for an expand", BOUND BEGIN_RAISE BEGIN_PAGE UNDER_WAY R1, 0, 12, "", ""},
    {"15 during a service", RAISED BEGIN_SERVICE G0 BEGIN_SERVICE SERVING G1, 0, 19, "", ""},
    {"an access where a service's 15 is due", RAISED BEGIN_SERVICE BEGIN_SERVICE G0, 1, 17, G0, SERVING},
    {"both sides in turn", BOUND BEGIN_RAISE BEGIN_SERVICE R1 G0_IDLE IDLE R2 R5 BEGIN_SERVICE G0_IDLE IDLE R6 WANTED, 0, 20, "", ""},
    {"both sides in another order", BOUND BEGIN_RAISE BEGIN_SERVICE R1 R2 R5 R6 WANTED G0_IDLE IDLE, 1, 16, G0_IDLE, G0},
    {"the other side's access, both under way", BOUND BEGIN_RAISE BEGIN_SERVICE "G\tor\tw5\t-\t80000000\t00000000\n", 1, 11,
     "G\tor\tw5\t-\t80000000\t00000000\n", G0_IDLE},
    {"VCPU 7", HEADER "X\tcall\tinit_control\t7\t1\t0\nX\tanswer\t17\t-\t-\t-\n", 0, 3, "", ""},
    {"frame 1024", HEADER "X\tcall\tinit_control\t0\t1024\t0\nX\tanswer\t11\t-\t-\t-\n", 0, 3, "", ""},
    {"frame 1023", HEADER "X\tcall\tinit_control\t0\t1023\t4024\n" DONE, 0, 3, "", ""},
    {"offset 4", HEADER "X\tcall\tinit_control\t0\t1\t4\nX\tanswer\t12\t-\t-\t-\n", 0, 3, "", ""},
    {"priority 16", BOUND "X\tcall\tset_priority\t5\t16\t-\nX\tanswer\t8\t-\t-\t-\n", 0, 10, "", ""},
    {"another priority, felt at the next raise", BOUND "X\tcall\tset_priority\t5\t3\t-\n" DONE BEGIN_RAISE R1 R2 R5, 1, 14, R5,
     "X\tstore\th3\t-\t00000005\t-\n"},
    {"a port bound twice", BOUND BEGIN_BIND "X\tanswer\t5\t-\t-\t-\n", 0, 10, "", ""},
    {"a port outside the array", BOUND "X\tcall\tbind\t1500\t-\t-\n" DONE "X\tcall\traise\t1500\t-\t-\nX\tanswer\t6\t-\t-\t-\n", 0, 12,
     "", ""},
    {"a port that the ledger has no entry of", BOUND "X\tcall\tbind\t1501\t-\t-\n" NO_ENTRY, 0, 10, "", ""},
    {NULL, NULL, 0, 0, NULL, NULL}};

static const row *const tables[] = {header_rows, form_rows, long_rows, difference_rows, end_rows, mask_rows, clear_mask_rows, busy_rows, call_rows};
#define TABLES (sizeof tables / sizeof tables[0])

/* ---- sizes lent ---- */

#define SECOND_PAGE "X\tcall\texpand_array\t-\t3\t-\n" DONE

typedef struct size_row {
    const char *what;
    size_t ledger, words;
    const char *log;
    uint32_t kind;
    uint64_t line;
} size_row;

static const size_row size_rows[] = {
    {"no words", LEDGER_BYTES, 0, PAGED SECOND_PAGE, 33, 4},
    {"a word", LEDGER_BYTES, 1, PAGED SECOND_PAGE, 33, 4},
    {"1,023 words", LEDGER_BYTES, 1023, PAGED SECOND_PAGE, 33, 4},
    {"1,024 words", LEDGER_BYTES, 1024, PAGED SECOND_PAGE, 33, 6},
    {"1,024 words, one page", LEDGER_BYTES, 1024, RAISED, 0, 14},
    {"1,025 words", LEDGER_BYTES, 1025, PAGED SECOND_PAGE, 33, 6},
    {"2,047 words", LEDGER_BYTES, 2047, PAGED SECOND_PAGE, 33, 6},
    {"2,048 words", LEDGER_BYTES, 2048, PAGED SECOND_PAGE, 0, 7},
    {"2,048 words, three pages", LEDGER_BYTES, 2048, PAGED SECOND_PAGE BEGIN_PAGE DONE, 33, 8},
    {"no words, an expand refused with 10", LEDGER_BYTES, 0, HEADER BEGIN_PAGE "X\tanswer\t10\t-\t-\t-\n", 0, 3},
    {"no words, an expand refused with 11", LEDGER_BYTES, 0, GIVEN "X\tcall\texpand_array\t-\t1024\t-\nX\tanswer\t11\t-\t-\t-\n", 0, 5},
    {"no words, an expand where an answer is due", LEDGER_BYTES, 0, HEADER BEGIN_INIT BEGIN_PAGE, 1, 3},
    {"no words, an expand not of the form", LEDGER_BYTES, 0, GIVEN "X\tcall\texpand_array\t-\t02\t-\n", 22, 4},
    {"no words, an expand without its newline", LEDGER_BYTES, 0, GIVEN "X\tcall\texpand_array\t-\t2\t-", 22, 4},
    {"no words, bind and mask", LEDGER_BYTES, 0, GIVEN BEGIN_BIND DONE BEGIN_MASK "G\tanswer\t6\t-\t-\t-\n", 0, 7},
    {"no words, a clear_mask", LEDGER_BYTES, 0, GIVEN BEGIN_CLEAR "G\tanswer\t6\t-\t-\t-\n", 0, 5},
    {"no words, a service", LEDGER_BYTES, 0, GIVEN BEGIN_SERVICE G0_IDLE IDLE, 0, 6},
    {"no ledger", 0, WORDS, PAGED BEGIN_BIND NO_ENTRY, 0, 7},
    {"no ledger, an access for its 14", 0, WORDS, BOUND, 1, 7},
    {"a byte of ledger", 1, WORDS, PAGED BEGIN_BIND NO_ENTRY, 0, 7},
    {"11 bytes of ledger", 11, WORDS, PAGED BEGIN_BIND NO_ENTRY, 0, 7},
    {"12 bytes of ledger", 12, WORDS, RAISED, 0, 14},
    {"12 bytes of ledger, port 6", 12, WORDS, PAGED "X\tcall\tbind\t6\t-\t-\n" NO_ENTRY, 0, 7},
    {"13 bytes of ledger", 13, WORDS, RAISED, 0, 14},
    {"13 bytes of ledger, port 6", 13, WORDS, PAGED "X\tcall\tbind\t6\t-\t-\n" NO_ENTRY, 0, 7},
    {"neither", 0, 0, GIVEN BEGIN_RAISE NO_ENTRY BEGIN_PAGE, 33, 6},
    {NULL, 0, 0, NULL, 0, 0}};

#endif
