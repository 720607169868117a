#include "entries.h"

#include <string.h>

#include "lanes.h"
#include "svg.h"

/* The side of the drawing, in units of the page; a large matrix is drawn in cells of several rows, one of up to SINGLE
 * rows entry by entry. */
enum { HEADING = 30, SIDE = 800, CELLS = 800, SINGLE = 200, END = 20 };

double height_of_entries(void)
{
    return HEADING + STRIP + SIDE + END;
}

/* Draws a row of cells: a stroke for each stretch of them that has entries, or for each that has one. */
static void draw_cells(FILE *out, const bool *has, uint32_t cells, uint32_t at)
{
    for (uint32_t cell = 0; cell < cells; cell++) {
        uint32_t from = cell;
        while (cells > SINGLE && cell + 1 < cells && has[cell] && has[cell + 1])
            cell++;
        if (has[from] && cells > SINGLE)
            fprintf(out, "M%u %u.5h%u", from, at, cell + 1 - from);
        else if (has[from])
            fprintf(out, "M%u.15 %u.5h.7", from, at);
    }
}

/* Draws the entries, cell by cell, as one path in units of cells. */
static void draw_all(FILE *out, const struct plan *plan, const struct net *net, double y)
{
    static uint32_t positions[MZK_ROWS];
    static bool has[CELLS];
    uint32_t wide = (net->n + CELLS - 1) / CELLS, cells = (net->n + wide - 1) / wide; /* a cell's rows, and cells */
    find_positions(positions, plan);
    fprintf(out, "<path class=\"%s\" transform=\"translate(%d %.0f) scale(%.5f)\" d=\"",
            cells > SINGLE ? "entries" : "single", LEFT, y, (double)SIDE * wide / net->n);
    for (uint32_t at = 0; at < cells; at++) {
        memset(has, 0, sizeof has);
        for (uint32_t position = wide * at; position < wide * (at + 1) && position < net->n; position++) {
            uint32_t row = row_at(plan, position);
            for (uint32_t entry = row_start(net, row); entry < row_start(net, row + 1); entry++)
                has[positions[column_at(net, entry)] / wide] = true;
        }
        draw_cells(out, has, cells, at);
    }
    fprintf(out, "\"/>\n");
}

void draw_entries(FILE *out, const struct plan *plan, const struct net *net, const struct work *work, double y)
{
    static const char *const frames[] = { "frame", "redframe", "blueframe" };
    double top = y + HEADING + STRIP, unit = (double)SIDE / net->n;
    put_words(out, "head", LEFT, y + 20, "The matrix in plan order: its entries, and a box around each group's rows");
    draw_strip(out, work, 1, unit, y + HEADING);
    for (uint32_t index = 0; index < work->groups; index++) {
        const struct group *group = &work->group[index];
        double side = unit * group->length;
        if (group->length > 0)
            put_box(out, frames[group->colour], LEFT + unit * group->start, top + unit * group->start, side, side,
                    "group %u", index);
    }
    draw_all(out, plan, net, top);
}
