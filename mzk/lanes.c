#include "lanes.h"

#include "svg.h"

enum { HEADING = 30, LANE = 25, BAR = 16, SCALE = 50, WORDS = 14 };

/* How boxes and labels of a colour are drawn, by the colour. */
static const char *const kinds[] = { "whole", "red", "blue" };
static const char *const labels[] = { "middle", "middle", "light" };

double height_of_places(const struct work *work)
{
    return HEADING + STRIP * (work->depth + 1.0) + HEADING + LANE * (double)work->workers + SCALE;
}

double height_of_times(const struct work *work)
{
    return HEADING + LANE * (double)work->workers + SCALE;
}

/* Draws the empty lanes, with their workers' names. */
static void draw_lanes(FILE *out, uint32_t workers, double y)
{
    for (uint32_t worker = 0; worker < workers; worker++) {
        put_box(out, "lane", LEFT, y + LANE * worker, ACROSS, BAR, "");
        put_words(out, "end", LEFT - 8, y + LANE * worker + WORDS - 2, "worker %u", worker);
    }
}

/* Prints what a group is, for a remark. */
static void describe(char *words, size_t room, const struct work *work, uint32_t index)
{
    const struct group *group = &work->group[index];
    snprintf(words, room, "group %u, %s, depth %u: positions %u to %u, workers %u to %u", index, kinds[group->colour],
             group->depth, group->start, group->start + group->length - 1, group->first,
             group->first + group->workers - 1);
}

void draw_strip(FILE *out, const struct work *work, uint32_t depth, double unit, double y)
{
    char words[160];
    for (uint32_t index = 0; index < work->groups; index++) {
        const struct group *group = &work->group[index];
        double x = LEFT + unit * group->start, width = unit * group->length;
        if (group->depth != depth || group->length == 0)
            continue;
        describe(words, sizeof words, work, index);
        put_box(out, kinds[group->colour], x, y, width, STRIP - 1, "%s", words);
        put_label(out, labels[group->colour], x, y + WORDS, width, "%u", index);
    }
}

double draw_places(FILE *out, const struct plan *plan, const struct work *work, double y)
{
    double depths = y + HEADING, lanes = depths + STRIP * (work->depth + 1.0) + HEADING;
    put_words(out, "head", LEFT, y + 20, "Which rows: the groups, by depth, and below them the worker of each");
    for (uint32_t depth = 0; depth <= work->depth; depth++) {
        put_words(out, "end", LEFT - 8, depths + STRIP * depth + WORDS, "depth %u", depth);
        draw_strip(out, work, depth, (double)ACROSS / plan->n, depths + STRIP * depth);
    }
    put_scale(out, lanes, LANE * (double)work->workers, plan->n, "position of a row in plan order");
    draw_lanes(out, work->workers, lanes);
    for (uint32_t leaf = 0; leaf < work->leaves; leaf++) {
        const struct group *group = &work->group[work->leaf[leaf].group];
        double x = LEFT + scaled(group->start, plan->n), width = scaled(group->length, plan->n);
        double top = lanes + LANE * (double)group->first;
        if (group->length == 0)
            continue;
        put_box(out, kinds[group->colour], x, top, width, BAR, "worker %u: %u rows from position %u, group %u",
                group->first, group->length, group->start, work->leaf[leaf].group);
        put_label(out, labels[group->colour], x, top + WORDS - 2, width, "%u", group->length);
    }
    return y + height_of_places(work);
}

/* Draws a leaf in time, and where it waits: for how long, and what comes last. */
static void draw_leaf(FILE *out, const struct work *work, uint32_t index, double lanes)
{
    const struct leaf *leaf = &work->leaf[index];
    const struct group *group = &work->group[leaf->group];
    double x = LEFT + scaled(leaf->begin, work->chain), top = lanes + LANE * (double)group->first;
    double width = scaled(leaf->updates, work->chain), waited = scaled(leaf->begin - leaf->reached, work->chain);
    if (leaf->updates == 0)
        return;
    put_box(out, kinds[group->colour], x, top, width, BAR, "worker %u: ticks %u to %u, group %u", group->first,
            leaf->begin, leaf->end, leaf->group);
    put_label(out, labels[group->colour], x, top + WORDS - 2, width, "%u", leaf->group);
    if (leaf->after == NO_LEAF || leaf->begin == leaf->reached)
        return;
    uint32_t awaited = work->group[work->leaf[leaf->after].group].first;
    put_box(out, "wait", x - waited, top + 3, waited, BAR - 6, "worker %u waits %u ticks, longest for worker %u",
            group->first, leaf->begin - leaf->reached, awaited);
    if (!put_label(out, "middle", x - waited, top + WORDS - 2, waited, "waits for worker %u", awaited))
        put_label(out, "middle", x - waited, top + WORDS - 2, waited, "for %u", awaited);
}

/* Draws what a leaf comes after: an arrow from the lane of the worker that it waits for to its own. */
static void draw_after(FILE *out, const struct work *work, const struct leaf *leaf, double lanes)
{
    if (leaf->updates == 0 || leaf->after == NO_LEAF)
        return;
    uint32_t own = work->group[leaf->group].first, other = work->group[work->leaf[leaf->after].group].first;
    double from = lanes + LANE * (double)other + (own > other ? BAR : 0);
    double to = lanes + LANE * (double)own + (own > other ? 0 : BAR);
    if (own != other)
        put_arrow(out, LEFT + scaled(leaf->begin, work->chain), from, to);
}

double draw_times(FILE *out, const struct work *work, double y, const char *what)
{
    double lanes = y + HEADING;
    put_words(out, "head", LEFT, y + 20, "When: each worker's groups in time, and for whom it waits: an arrow comes from "
              "the one that ends last");
    put_scale(out, lanes, LANE * (double)work->workers, work->chain, what);
    draw_lanes(out, work->workers, lanes);
    for (uint32_t leaf = 0; leaf < work->leaves; leaf++)
        draw_leaf(out, work, leaf, lanes);
    for (uint32_t leaf = 0; leaf < work->leaves; leaf++)
        draw_after(out, work, &work->leaf[leaf], lanes);
    return y + height_of_times(work);
}
