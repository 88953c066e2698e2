/* A recording ends when it has lines enough, always between two moments: nothing is due then, and calls may be under way. */
#include "recording.h"

#define MOST_LINES 200000u

static void write_line(void *context, const char *line, size_t length)
{
    recording *r = context;
    if (r->ended)
        return;
    evtchn_fifo_trace_to_file(r->file, line, length);
    r->lines++;
}

static void lock(void *context)
{
    recording *r = context;
    pthread_mutex_lock(&r->lock);
}

static void unlock(void *context)
{
    recording *r = context;
    r->ended = r->lines >= MOST_LINES;
    pthread_mutex_unlock(&r->lock);
}

bool recording_begin(recording *r, const char *name)
{
    *r = (recording){.trace = {.write = write_line, .lock = lock, .unlock = unlock, .context = r}, .file = fopen(name, "w")};
    if (r->file == NULL)
        return false;
    pthread_mutex_init(&r->lock, NULL);
    evtchn_fifo_trace_header(&r->trace);
    return true;
}

bool recording_end(recording *r)
{
    bool whole = ferror(r->file) == 0;
    return fclose(r->file) == 0 && whole;
}
