#include "progress.h"

#include "files.h"

enum { WIDTH = 40, LINE = 79 };

/* Shows the bar, as it is told, where it was before. */
static void show(const struct progress *progress)
{
    if (!progress->is_shown)
        return;
    fprintf(stderr, "\r[");
    for (uint32_t k = 0; k < WIDTH; k++)
        fputc(k * 100 < progress->told * WIDTH ? '#' : '-', stderr);
    fprintf(stderr, "] %3u %%, %u of %u moves", progress->told, progress->done, progress->total);
    fflush(stderr);
}

void begin_progress(struct progress *progress, uint32_t total, bool is_quiet)
{
    *progress = (struct progress){ .total = total, .is_shown = !is_quiet && is_terminal(stderr) };
    show(progress);
}

void add_progress(struct progress *progress, uint32_t moves)
{
    progress->done += moves;
    uint32_t share = (uint64_t)100 * progress->done / progress->total;
    if (share == progress->told)
        return;
    progress->told = share;
    show(progress);
}

void end_progress(struct progress *progress)
{
    if (progress->is_shown)
        fprintf(stderr, "\r%*s\r", LINE, "");
}
