#include "nets.h"

void take_rows(struct net *net, uint32_t n)
{
    net->n = n;
    net->entries = row_start(net, n);
}

void read_matrix(struct net *net, const char *path)
{
    struct text text;
    read_text(&text, path, MZK_TEXT_BYTES);
    net->name = text.name;
    take_rows(net, accepted(&text, mzk_read(text.bytes, text.length, net->starts, sizeof net->starts,
                                            net->columns, sizeof net->columns, net->values, sizeof net->values)));
    free_text(&text);
}

void write_matrix(const struct net *net, const char *path)
{
    struct text text = { .name = path, .bytes = room(MZK_WRITTEN_BYTES) };
    text.length = accepted(&text, mzk_write(MATRIX(net), text.bytes, MZK_WRITTEN_BYTES));
    write_bytes(path, text.bytes, text.length);
    free_text(&text);
}

void read_movements(struct movements *movements, const struct net *net, const char *path)
{
    read_counted(&movements->list, path, net->n, "movement", MZK_MOVEMENTS);
    narrow(movements->bytes, &movements->list);
}

void find_forces(uint8_t *forces, const struct net *net, const struct movements *movements)
{
    accepted(&movements->list.text, mzk_product(MATRIX(net), MOVEMENTS(movements), FORCES(net, forces)));
}

uint32_t row_start(const struct net *net, uint32_t row)
{
    return number_in(net->starts + 4 * (size_t)row, 4);
}

uint32_t column_at(const struct net *net, uint32_t entry)
{
    return number_in(net->columns + 4 * (size_t)entry, 4);
}
