#include "kept.h"

#include <errno.h>
#include <stdlib.h>
#include <string.h>
#include <unistd.h>

enum { MOST = 1048576 }; /* far more than a run or a unit has */

/* Ends the program if the file is not there: it has to be begun. */
static void check_begun(const char *path)
{
    if (access(path, F_OK) == 0 || errno != ENOENT)
        return;
    fprintf(stderr, "%s: cannot be read: %s; --fresh begins it\n", path, strerror(errno));
    exit(FAILED);
}

void read_kept(struct text *text, const struct arguments *arguments, const char *path, size_t fresh)
{
    if (is_standard(path))
        refuse_arguments(arguments->command, "what is kept has a file, found -");
    if (is_given(arguments, FRESH)) {
        *text = (struct text){ .name = path, .bytes = room(fresh), .length = fresh };
    } else {
        check_begun(path);
        read_text(text, path, MOST);
    }
    if (text->length > MOST) {
        fprintf(stderr, "%s: longer than %d bytes\n", path, MOST);
        exit(REFUSED);
    }
}

void keep(const struct text *text, const struct arguments *arguments, bool is_changed)
{
    if (is_changed || is_given(arguments, FRESH))
        write_bytes(text->name, text->bytes, text->length);
}
