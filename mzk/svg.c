#include "svg.h"

#include <stdarg.h>
#include <string.h>

/* The width of a letter of a label, and of a small one, of which there are few; what a label leaves free beside it. */
enum { LETTER = 7, SMALL = 6, FEW = 6, FREE = 4, HEAD = 4, MARKS = 12 };

static const char style[] =
    "text{font-family:sans-serif;font-size:12px;fill:#222}.title{font-size:20px;font-weight:bold}"
    ".head{font-size:14px;font-weight:bold}"
    ".middle{text-anchor:middle}.end{text-anchor:end}.light{fill:#fff;text-anchor:middle}.small{font-size:9px}"
    ".red{fill:#ef8a80;stroke:#fff;stroke-width:.7}.blue{fill:#2b5f9e;stroke:#fff;stroke-width:.7}"
    ".whole{fill:#d5d5d5}.lane{fill:#f3f3f3}.wait{fill:none;stroke:#888;stroke-dasharray:2 2}"
    ".mark{stroke:#bbb;stroke-width:.5}.arrow{stroke:#222;stroke-width:1;fill:#222}"
    ".entries{stroke:#333;stroke-width:1;fill:none}.single{stroke:#333;stroke-width:.7;fill:none}"
    ".redframe{fill:#fdf0ee;stroke:#d9483b}.blueframe{fill:#e7eef6;stroke:#2b5f9e}"
    ".frame{fill:#fff;stroke:#888}";

void begin_page(FILE *out, double height)
{
    fprintf(out, "<svg xmlns=\"http://www.w3.org/2000/svg\" width=\"%d\" height=\"%.0f\" viewBox=\"0 0 %d %.0f\">\n",
            PAGE, height, PAGE, height);
    fprintf(out, "<style>%s</style>\n<rect width=\"%d\" height=\"%.0f\" fill=\"#fff\"/>\n", style, PAGE, height);
}

void end_page(FILE *out)
{
    fprintf(out, "</svg>\n");
}

void put_box(FILE *out, const char *kind, double x, double y, double width, double height, const char *form, ...)
{
    va_list values;
    va_start(values, form);
    fprintf(out, "<rect class=\"%s\" x=\"%.2f\" y=\"%.2f\" width=\"%.2f\" height=\"%.2f\"", kind, x, y, width, height);
    if (*form != '\0') {
        fprintf(out, "><title>");
        vfprintf(out, form, values);
        fprintf(out, "</title></rect>\n");
    } else {
        fprintf(out, "/>\n");
    }
    va_end(values);
}

void put_words(FILE *out, const char *kind, double x, double y, const char *form, ...)
{
    va_list values;
    va_start(values, form);
    fprintf(out, "<text class=\"%s\" x=\"%.1f\" y=\"%.1f\">", kind, x, y);
    vfprintf(out, form, values);
    fprintf(out, "</text>\n");
    va_end(values);
}

void put_name(FILE *out, const char *name)
{
    for (; *name != '\0'; name++)
        if (strchr("&<>", *name) != NULL || (unsigned char)*name < ' ')
            fprintf(out, (unsigned char)*name < ' ' ? "?" : "&#%d;", *name);
        else
            fputc(*name, out);
}

bool put_label(FILE *out, const char *kind, double x, double y, double width, const char *form, ...)
{
    char words[80], small[40];
    va_list values;
    va_start(values, form);
    vsnprintf(words, sizeof words, form, values);
    va_end(values);
    snprintf(small, sizeof small, "%s small", kind);
    size_t letters = strlen(words);
    bool is_large = LETTER * letters + FREE < width;
    bool is_small = !is_large && letters <= FEW && SMALL * letters + FREE / 2 < width;
    if (is_large || is_small)
        put_words(out, is_small ? small : kind, x + width / 2, is_small ? y - 1 : y, "%s", words);
    return is_large || is_small;
}

void put_arrow(FILE *out, double x, double from, double to)
{
    double back = to > from ? -HEAD : HEAD;
    fprintf(out, "<path class=\"arrow\" d=\"M%.2f %.2fV%.2fl-%d %.0fh%dl-%d %.0f\"/>\n", x, from, to, HEAD / 2, back,
            HEAD, HEAD / 2, -back);
}

double scaled(uint32_t number, uint32_t total)
{
    return (double)ACROSS * number / (total > 0 ? total : 1);
}

/* The step between two marks: 1, 2 or 5 and noughts. */
static uint32_t step_of(uint32_t total)
{
    uint32_t step = 1;
    for (int k = 0; total / step > MARKS; k++)
        step = k % 3 == 1 ? step / 2 * 5 : step * 2;
    return step;
}

void put_scale(FILE *out, double y, double height, uint32_t total, const char *what)
{
    uint32_t step = step_of(total);
    for (uint32_t mark = 0; mark <= total; mark += step) {
        double x = LEFT + scaled(mark, total);
        fprintf(out, "<path class=\"mark\" d=\"M%.2f %.2fv%.2f\"/>\n", x, y, height + HEAD);
        put_words(out, "middle", x, y + height + 17, "%u", mark);
    }
    put_words(out, "", LEFT, y + height + 33, "%s", what);
}
