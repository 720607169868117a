/* Lists compared: by the control number over the radio, or line by line. */

#include <string.h>

#include "commands.h"
#include "forces.h"

int control_command(const struct arguments *arguments)
{
    struct list list;
    read_list(&list, arguments->operands[0]);
    printf("%u\n", control_of(list.numbers, list.count));
    end_output(stdout, "-");
    free_list(&list);
    return GOOD;
}

/* Prints what a list has in a line. */
static void print_line(const struct list *list, uint32_t number)
{
    struct line line = line_of(&list->text, number);
    if (line.is_there)
        printf("%.*s in %s", (int)line.length, (const char *)line.bytes, list->text.name);
    else
        printf("%s has ended", list->text.name);
}

/* The first line in which two lists differ, 0 if they are the same. */
static uint32_t first_difference(const struct list *one, const struct list *other)
{
    uint32_t both = one->count < other->count ? one->count : other->count;
    for (size_t k = 0; k < both; k++)
        if (memcmp(one->numbers + 8 * k, other->numbers + 8 * k, 8) != 0)
            return k + 1;
    return one->count == other->count ? 0 : both + 1;
}

int diff_command(const struct arguments *arguments)
{
    struct list one, other;
    read_list(&one, arguments->operands[0]);
    read_list(&other, arguments->operands[1]);
    uint32_t line = first_difference(&one, &other);
    if (line > 0) {
        printf("line %u: ", line);
        print_line(&one, line);
        printf(", ");
        print_line(&other, line);
        printf("\n");
        end_output(stdout, "-");
    }
    free_list(&one);
    free_list(&other);
    return line > 0 ? DIFFERENT : GOOD;
}
