#include "files.h"

#include <errno.h>
#include <stdlib.h>
#include <string.h>
#include <sys/stat.h>
#include <unistd.h>

#include "refusals.h"

enum { FIRST_ROOM = 65536 };

/* Ends the program because a file cannot be read or written. */
static void fail(const char *name, const char *verb)
{
    fprintf(stderr, "%s: cannot be %s: %s\n", name, verb, strerror(errno));
    exit(FAILED);
}

bool is_standard(const char *path)
{
    return strcmp(path, "-") == 0;
}

bool is_terminal(FILE *file)
{
    return isatty(fileno(file)) == 1;
}

void *room(size_t bytes)
{
    void *made = calloc(bytes > 0 ? bytes : 1, 1);
    if (made == NULL)
        fail("memory", "had");
    return made;
}

/* Reads an open file to its end, or to the bytes that are wanted of it. */
static void read_all(struct text *text, FILE *file, size_t most)
{
    size_t space = 0;
    do {
        if (text->length == space) {
            space = space == 0 ? FIRST_ROOM : 2 * space;
            uint8_t *larger = realloc(text->bytes, space);
            if (larger == NULL)
                fail(text->name, "read");
            text->bytes = larger;
        }
        text->length += fread(text->bytes + text->length, 1, space - text->length, file);
    } while (text->length == space && text->length <= most);
    if (ferror(file)) /* as of a directory */
        fail(text->name, "read");
    if (text->length > most)
        text->length = most + 1;
}

void read_text(struct text *text, const char *path, size_t most)
{
    bool standard = is_standard(path);
    FILE *file = standard ? stdin : fopen(path, "rb");
    *text = (struct text){ .name = standard ? "standard input" : path };
    if (file == NULL)
        fail(text->name, "read");
    read_all(text, file, most);
    if (!standard)
        fclose(file);
}

void free_text(struct text *text)
{
    free(text->bytes);
    text->bytes = NULL;
}

struct line line_of(const struct text *text, uint32_t number)
{
    const uint8_t *at = text->bytes, *end = text->bytes + text->length;
    while (at < end && number > 1) {
        const uint8_t *feed = memchr(at, '\n', end - at);
        at = feed != NULL ? feed + 1 : end;
        number--;
    }
    if (at >= end || number != 1)
        return (struct line){ .is_there = false };
    const uint8_t *feed = memchr(at, '\n', end - at);
    return (struct line){ at, (feed != NULL ? feed : end) - at, feed != NULL, true };
}

/* The name under which a file is written until it is whole, beside it. NULL for what is no file, as a device or a link
 * is not: that is written itself. */
static char *part_of(const char *path)
{
    struct stat found;
    size_t space = strlen(path) + 32;
    if (is_standard(path) || (lstat(path, &found) == 0 && !S_ISREG(found.st_mode)))
        return NULL;
    char *part = room(space);
    snprintf(part, space, "%s.%ld.part", path, (long)getpid());
    return part;
}

/* Ends the program because a file cannot be written; what is written of it is removed. */
static void fail_written(const char *path, const char *part)
{
    int why = errno;
    if (part != NULL)
        remove(part);
    errno = why;
    fail(is_standard(path) ? "standard output" : path, "written");
}

/* Gives a file the permissions of the one that it replaces, if there is one; whether it could. */
static bool take_permissions(FILE *file, const char *path)
{
    struct stat found;
    return stat(path, &found) != 0 || fchmod(fileno(file), found.st_mode & 07777) == 0;
}

FILE *open_output(const char *path)
{
    char *part = part_of(path);
    FILE *file = is_standard(path) ? stdout : fopen(part != NULL ? part : path, "wb");
    if (file == NULL || (part != NULL && !take_permissions(file, path)))
        fail_written(path, part);
    free(part);
    return file;
}

void end_output(FILE *file, const char *path)
{
    char *part = part_of(path);
    bool is_written = !ferror(file);
    is_written = (is_standard(path) ? fflush(file) : fclose(file)) == 0 && is_written;
    if (!is_written || (part != NULL && rename(part, path) != 0))
        fail_written(path, part);
    free(part);
}

void write_bytes(const char *path, const void *bytes, size_t length)
{
    FILE *file = open_output(path);
    fwrite(bytes, 1, length, file);
    end_output(file, path);
}
