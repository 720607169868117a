/* The strokes of a picture: boxes, words, lines and a scale, as elements of an SVG file. */
#ifndef SVG_H
#define SVG_H

#include <stdbool.h>
#include <stdint.h>
#include <stdio.h>

/* The page, in its own units: its width, the margin for lane names on the left, and what is drawn to scale. */
enum { PAGE = 1200, LEFT = 90, ACROSS = 1090 };

/* Begins and ends a page of a height. */
void begin_page(FILE *out, double height);
void end_page(FILE *out);

/* A box of a kind, with a remark that shows where it is pointed at, in the form of printf. */
void put_box(FILE *out, const char *kind, double x, double y, double width, double height, const char *form, ...);

/* Words of a kind from a place on; a name from outside in them. */
void put_words(FILE *out, const char *kind, double x, double y, const char *form, ...);
void put_name(FILE *out, const char *name);

/* Words in the middle of a box of a width, in small letters if they are few; whether they fit in it. */
bool put_label(FILE *out, const char *kind, double x, double y, double width, const char *form, ...);

/* An arrow up or down from one height to another. */
void put_arrow(FILE *out, double x, double from, double to);

/* The place of a number on a scale that goes across to a total. */
double scaled(uint32_t number, uint32_t total);

/* The scale itself: round numbers with their lines over a height, and what they count. */
void put_scale(FILE *out, double y, double height, uint32_t total, const char *what);

#endif
