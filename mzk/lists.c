#include "lists.h"

#include <stdlib.h>

enum { WIDTH = 8 }; /* bytes of a number */

/* Puts a number of 64 bits. */
static void put_wide(uint8_t *bytes, uint64_t number)
{
    for (int byte = 0; byte < WIDTH; byte++)
        bytes[byte] = number >> 8 * byte;
}

void read_list(struct list *list, const char *path)
{
    read_text(&list->text, path, UINT32_MAX); /* so that its numbers can be counted in 32 bits */
    if (list->text.length > UINT32_MAX) {
        fprintf(stderr, "%s: longer than %u bytes\n", list->text.name, UINT32_MAX);
        exit(REFUSED);
    }
    size_t most = WIDTH * (list->text.length / 2); /* a number and its line feed are two bytes at least */
    list->numbers = room(most);
    uint64_t word = mzk_numbers_read(list->text.bytes, list->text.length, list->numbers, most);
    list->count = accepted_list(&list->text, word);
}

void read_counted(struct list *list, const char *path, uint32_t wanted, const char *what, uint32_t refusal)
{
    read_list(list, path);
    if (list->count != wanted)
        refuse_count(&list->text, list->count, what, wanted, refusal);
}

void free_list(struct list *list)
{
    free_text(&list->text);
    free(list->numbers);
}

struct text text_of(const uint8_t *numbers, uint32_t count)
{
    size_t most = MZK_LINE_BYTES * (size_t)count + 1;
    struct text text = { .name = "list", .bytes = room(most) };
    text.length = accepted(&text, mzk_numbers_write(numbers, WIDTH * (size_t)count, text.bytes, most));
    return text;
}

void write_list(const char *path, const uint8_t *numbers, uint32_t count)
{
    struct text text = text_of(numbers, count);
    write_bytes(path, text.bytes, text.length);
    free_text(&text);
}

void write_narrow(const char *path, const uint8_t *narrowed, uint32_t count)
{
    uint8_t *numbers = room(WIDTH * (size_t)count);
    for (uint32_t k = 0; k < count; k++)
        put_wide(numbers + WIDTH * (size_t)k, (int64_t)(int32_t)number_in(narrowed + 4 * (size_t)k, 4));
    write_list(path, numbers, count);
    free(numbers);
}

void narrow(uint8_t *narrowed, const struct list *list)
{
    for (uint32_t k = 0; k < list->count; k++) {
        int64_t number = (int64_t)number_in(list->numbers + WIDTH * (size_t)k, WIDTH);
        number = number < INT32_MIN ? INT32_MIN : number > INT32_MAX ? INT32_MAX : number;
        put_number(narrowed + 4 * (size_t)k, (uint32_t)number);
    }
}

uint64_t number_in(const uint8_t *bytes, int width)
{
    uint64_t number = 0;
    while (width-- > 0)
        number = number << 8 | bytes[width];
    return number;
}

void put_number(uint8_t *bytes, uint32_t number)
{
    for (int byte = 0; byte < 4; byte++)
        bytes[byte] = number >> 8 * byte;
}
