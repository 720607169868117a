/* Prints the sentence of each refusal from 1 to 27, all at place 7; more stands in the bits above a number. */

#include "../../mzk/refusals.h"

int main(void)
{
    struct text text = { .name = "FILE", .bytes = (uint8_t *)"1\n2\n3\n4\n5\n6\n7\n8\n", .length = 16 };
    for (uint64_t number = 1; number <= 27; number++)
        print_refusal(stdout, &text, (uint64_t)0xabcd << 40 | number << 32 | 7);
    return 0;
}
