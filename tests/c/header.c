/* mazhoketh.h from C and from C++: its macros against real words, its sizes against what calls take and need.
 *
 * Document 01's chain of eight rows is planned, filed, surveyed, changed, sewn to another, run, prepared, and run by two
 * crews; a control number is asked for, numbers are read and written, a barrier unit too; then the longest text that is
 * written is read. */

#include <stdio.h>
#include <stdlib.h>
#include <string.h>

#include "mazhoketh.h"

#define HEAD "%%MatrixMarket matrix coordinate integer symmetric\n"

/* Ends the program with the line of a condition that does not hold. */
#define CHECK(condition) \
    do { \
        if (!(condition)) { \
            printf("line %d: %s\n", __LINE__, #condition); \
            exit(1); \
        } \
    } while (0)

/* Whether a word has this number, and this place or count. */
static int is(uint64_t word, uint32_t number, uint32_t place)
{
    return MZK_NUMBER(word) == number && MZK_PLACE(word) == place && MZK_COUNT(word) == place;
}

static char text[MZK_TEXT_BYTES + 2];
static uint8_t starts[4 * MZK_ROW_STARTS], columns[4 * MZK_ENTRIES], values[4 * MZK_ENTRIES];
static uint8_t movements[4 * MZK_ROWS], order[4 * MZK_ROWS], groups[4 * MZK_GROUP_FIELDS * MZK_GROUPS];
static uint8_t state[MZK_STATE_BYTES], sums[8 * MZK_ROWS], forces[8 * MZK_ROWS];

#define MATRIX(n) n, starts, sizeof starts, columns, sizeof columns, values, sizeof values
#define JOB MATRIX(8), movements, 32, order, sizeof order, groups, sizeof groups, 5

/* Reads so many bytes of the text, with so many bytes less room than the largest matrix needs. */
static uint64_t read_text(size_t length, size_t less_starts, size_t less_columns)
{
    return mzk_read((const uint8_t *)text, length, starts, sizeof starts - less_starts,
                    columns, sizeof columns - less_columns, values, sizeof values);
}

/* Reads line 1 and the rest of a text. */
static uint64_t read_rest(const char *rest)
{
    return read_text((size_t)sprintf(text, "%s%s", HEAD, rest), 0, 0);
}

/* Words of refused texts, and of the least and largest sizes. */
static void check_texts(void)
{
    CHECK(is(read_text(0, 0, 0), MZK_FIRST_LINE, 1));
    CHECK(is(read_rest("1 1 1\n1 1 -0\n"), MZK_FORM, 3));
    CHECK(is(read_rest("4097 4097 0\n"), MZK_SIZE, 2));
    CHECK(is(read_rest("4096 4096 32769\n"), MZK_SIZE, 2));
    CHECK(is(read_rest("2 2 1\n1 2 5\n"), MZK_ENTRY, 3));
    CHECK(is(read_rest("4096 4096 0\n"), MZK_ACCEPTED, MZK_ROWS));
    CHECK(is(read_text(strlen(text), 1, 0), MZK_TOO_SHORT, MZK_ROW_STARTS));
}

/* Document 01's chain: its plan, and its run up to a wait. */
static void check_chain(void)
{
    const uint8_t picks[13] = { 0 };
    char *end = text + sprintf(text, "%s8 8 15\n1 1 2\n", HEAD);
    for (int row = 2; row <= 8; row++)
        end += sprintf(end, "%d %d -1\n%d %d 2\n", row, row - 1, row, row);
    CHECK(is(read_text((size_t)(end - text), 0, 0), MZK_ACCEPTED, 8));
    CHECK(is(mzk_plan(MATRIX(8), 2, 60, 2, order, sizeof order, groups, sizeof groups), MZK_ACCEPTED, 5));
    CHECK(is(mzk_plan(MATRIX(8), 2, 60, 2, order, sizeof order, groups, 4 * 5 * MZK_GROUP_FIELDS - 1),
             MZK_TOO_SHORT, 5));
    CHECK(is(mzk_plan(MATRIX(8), 2, 49, 2, order, sizeof order, groups, sizeof groups), MZK_PARAMETERS, 0));
    CHECK(is(mzk_check(MATRIX(8), order, sizeof order, groups, sizeof groups, 5, 2), MZK_ACCEPTED, 0));
    CHECK(is(mzk_plan(MATRIX(8), 2, 60, 5, order, sizeof order, groups, sizeof groups), MZK_PARAMETERS, 0));
    CHECK(is(mzk_check(MATRIX(8), order, sizeof order, groups, sizeof groups, 5, 3), MZK_UNSOUND, 0));
    CHECK(is(mzk_check(MATRIX(8), order, sizeof order, groups, sizeof groups, 5, 0), MZK_PARAMETERS, 0));
    CHECK(is(mzk_check(MATRIX(8), order, sizeof order, groups, sizeof groups, 4, 2), MZK_UNSOUND, 0));
    CHECK(is(mzk_product(MATRIX(8), movements, 31, forces, sizeof forces), MZK_MOVEMENTS, 0));
    CHECK(is(mzk_product(MATRIX(9), movements, 36, forces, sizeof forces), MZK_NO_MATRIX, 0));
    uint64_t ready = mzk_ready(JOB, state, sizeof state, sums, 64);
    CHECK(MZK_NUMBER(ready) == MZK_ACCEPTED && MZK_READY_SET(ready) == 3 && MZK_READY_COUNT(ready) == 2);
    uint64_t preview = mzk_preview(JOB, state, sizeof state, sums, 64, picks, 13);
    CHECK(is(preview, MZK_WAITS, 12) && MZK_PREVIEW_SET(preview) == 2 && MZK_PREVIEW_COUNT(preview) == 1);
    preview = mzk_preview(JOB, state, sizeof state, sums, 64, picks, 0);
    CHECK(is(preview, MZK_ACCEPTED, 0) && MZK_PREVIEW_SET(preview) == 3 && MZK_PREVIEW_COUNT(preview) == 2);
    preview = mzk_preview(JOB, state, sizeof state - 1, sums, 64, picks, 13);
    CHECK(is(preview, MZK_NO_STATE, 0) && MZK_PREVIEW_SET(preview) == 0 && MZK_PREVIEW_COUNT(preview) == 0);
    static uint8_t begun[MZK_STATE_BYTES], begun_sums[64];
    const uint8_t round[4] = { 1, 0, 1, 2 };
    uint64_t word = mzk_rounds(JOB, begun, sizeof begun, begun_sums, 64, picks, 13);
    CHECK(is(word, MZK_ACCEPTED, 12) && MZK_MOVES(word) == 12);
    word = mzk_rounds(JOB, begun, sizeof begun, begun_sums, 64, round, 4);
    CHECK(is(word, MZK_NO_WORKER, 3) && MZK_MOVES(word) == 2);
    CHECK(is(mzk_picks(JOB, state, sizeof state, sums, 64, picks, 13), MZK_WAITS, 12));
    ready = mzk_ready(JOB, state, sizeof state, sums, 64);
    CHECK(MZK_READY_SET(ready) == 2 && MZK_READY_COUNT(ready) == 1);
    CHECK(is(mzk_picks(JOB, state, sizeof state - 1, sums, 64, picks, 0), MZK_NO_STATE, 0));
    CHECK(is(mzk_forces(JOB, state, sizeof state, sums, 64, forces, sizeof forces), MZK_UNFINISHED, 0));
}

/* The chain's plan as a file, read back; and the largest file. */
static void check_files(void)
{
    static uint8_t file[MZK_FILE_BYTES], all_order[4 * MZK_ROWS], all_groups[4 * MZK_GROUP_FIELDS * MZK_GROUPS_LIMIT];
    const uint32_t length = 28 + 4 * 8 + 4 * MZK_GROUP_FIELDS * 5;
    CHECK(is(mzk_write_plan(8, order, 32, groups, sizeof groups, 5, file, length - 1), MZK_TOO_SHORT, length));
    CHECK(is(mzk_write_plan(8, order, 32, groups, 4 * MZK_GROUP_FIELDS * 5, 5, file, length), MZK_ACCEPTED, length));
    CHECK(is(mzk_write_plan(8, order, 31, groups, sizeof groups, 5, file, sizeof file), MZK_UNSOUND, 0));
    CHECK(is(mzk_write_plan(0, order, 32, groups, sizeof groups, 5, file, sizeof file), MZK_NO_FILE, 0));
    uint64_t word = mzk_read_plan(file, length, all_order, 32, all_groups, 4 * MZK_GROUP_FIELDS * 5);
    CHECK(MZK_NUMBER(word) == MZK_ACCEPTED && MZK_PLAN_ROWS(word) == 8 && MZK_PLAN_GROUPS(word) == 5);
    CHECK(memcmp(order, all_order, 32) == 0 && memcmp(groups, all_groups, 4 * MZK_GROUP_FIELDS * 5) == 0);
    CHECK(is(mzk_read_plan(file, length, all_order, 31, all_groups, 0), MZK_TOO_SHORT, 8));
    CHECK(is(mzk_read_plan(file, length, all_order, 32, all_groups, 4 * MZK_GROUP_FIELDS * 5 - 1), MZK_TOO_SHORT, 5));
    CHECK(is(mzk_read_plan(file, length - 1, all_order, 32, all_groups, sizeof all_groups), MZK_NO_FILE, 0));
    CHECK(is(mzk_write_plan(MZK_ROWS, all_order, sizeof all_order, all_groups, sizeof all_groups, MZK_GROUPS_LIMIT,
                            file, sizeof file), MZK_ACCEPTED, MZK_FILE_BYTES));
    word = mzk_read_plan(file, sizeof file, all_order, sizeof all_order, all_groups, sizeof all_groups);
    CHECK(MZK_PLAN_ROWS(word) == MZK_ROWS && MZK_PLAN_GROUPS(word) == MZK_GROUPS_LIMIT);
}

/* A survey of the chain: amounts, and the shift that reaches the first. */
static void check_survey(void)
{
#define SURVEY(t, row, amounts_bytes, shift_bytes) \
    mzk_survey(MATRIX(8), movements, 32, t, row, forces, amounts_bytes, shift, shift_bytes)
    static uint8_t shift[32];
    const uint8_t amounts[16] = { 9, 0, 0, 0, 0, 0, 0, 0, 12 };
    const uint8_t up_and_down[12] = { 3, 0, 0, 0, 0xfd, 0xff, 0xff, 0xff };
    CHECK(is(SURVEY(3, 0, 64, 32), MZK_ACCEPTED, 1));
    CHECK(memcmp(forces, amounts, sizeof amounts) == 0 && memcmp(shift, up_and_down, sizeof up_and_down) == 0);
    CHECK(is(SURVEY(1000000, 7, 64, 32), MZK_ACCEPTED, 1));
    CHECK(is(SURVEY(1000001, 7, 64, 32), MZK_SURVEY, 0));
    CHECK(is(SURVEY(3, 8, 64, 32), MZK_SURVEY, 0));
    CHECK(is(SURVEY(3, 7, 63, 32), MZK_TOO_SHORT, 8));
    CHECK(is(SURVEY(3, 7, 64, 31), MZK_TOO_SHORT, 8));
    movements[0] = 1;
    CHECK(is(SURVEY(1000000, 7, 64, 0), MZK_ACCEPTED, 0));
    movements[0] = 0;
#undef SURVEY
}

/* Changes of the chain whose movements are all 0: of one movement, and of the entry between two rows. */
static void check_changes(void)
{
#define MOVE(row, value) \
    mzk_set_movement(MATRIX(8), moved, 32, kept, kept_bytes, row, value)
#define ALTER(row, column, value) \
    mzk_set_entry(8, starts, sizeof starts, columns, sizeof columns, own, sizeof own, moved, 32, kept, kept_bytes, \
                  row, column, value)
    static uint8_t moved[32], kept[64], own[sizeof values];
    const uint8_t after_moving[24] = { 6, 0, 0, 0, 0, 0, 0, 0, 0xfd, 0xff, 0xff, 0xff, 0xff, 0xff, 0xff, 0xff };
    size_t kept_bytes = 64;
    memcpy(own, values, sizeof own);
    CHECK(is(MOVE(0, 3), MZK_ACCEPTED, 0));
    CHECK(moved[0] == 3 && memcmp(kept, after_moving, sizeof after_moving) == 0);
    CHECK(is(ALTER(1, 0, 5), MZK_ACCEPTED, 0));
    CHECK(own[4] == 5 && own[8] == 5 && kept[0] == 6 && kept[8] == 15);
    CHECK(is(MOVE(0, 3), MZK_STALE, 0));
    CHECK(is(ALTER(0, 2, 5), MZK_NO_ENTRY, 0));
    CHECK(is(ALTER(8, 8, 5), MZK_NO_ENTRY, 0));
    CHECK(is(ALTER(0, 0, 1000000001), MZK_BEYOND, 0));
    CHECK(is(ALTER(0, 1, -1), MZK_ACCEPTED, 0));
    CHECK(is(MOVE(8, 3), MZK_NO_ENTRY, 0));
    CHECK(is(MOVE(7, -1000001), MZK_BEYOND, 0));
    kept_bytes = 56;
    CHECK(is(MOVE(7, 0), MZK_STALE, 0));
#undef MOVE
#undef ALTER
}

/* The chain and a net of two rows, of which the second falls on the chain's last. */
static void check_join(void)
{
#define JOIN(n2, places_bytes, starts_bytes) \
    mzk_join(MATRIX(8), n2, own_starts, 12, own_columns, 16, own_values, 16, places, places_bytes, \
             new_starts, starts_bytes, new_columns, sizeof new_columns, new_values, sizeof new_values)
    static uint8_t new_starts[40], new_columns[4 * 25], new_values[4 * 25];
    const uint8_t own_starts[12] = { 0, 0, 0, 0, 2, 0, 0, 0, 4 };
    const uint8_t own_columns[16] = { 0, 0, 0, 0, 1, 0, 0, 0, 0, 0, 0, 0, 1 };
    uint8_t own_values[16] = { 5, 0, 0, 0, 1, 0, 0, 0, 1, 0, 0, 0, 7 };
    const uint8_t largest[4] = { 0x00, 0xca, 0x9a, 0x3b };
    uint8_t places[8] = { 8, 0, 0, 0, 7 };
    CHECK(is(JOIN(2, 8, 40), MZK_ACCEPTED, 9));
    CHECK(new_starts[28] == 20 && new_starts[32] == 23 && new_starts[36] == 25);
    CHECK(new_values[84] == 9 && new_columns[88] == 8 && new_values[88] == 1 && new_values[96] == 5);
    CHECK(is(JOIN(2, 8, 39), MZK_TOO_SHORT, 10));
    CHECK(is(JOIN(3, 8, 40), MZK_NO_MATRIX, 0));
    CHECK(is(JOIN(2, 7, 40), MZK_PLACES, 0));
    places[4] = 8;
    CHECK(is(JOIN(2, 8, 40), MZK_PLACES, 0));
    places[4] = 10;
    CHECK(is(JOIN(2, 8, 40), MZK_PLACES, 0));
    places[4] = 7;
    memcpy(own_values + 12, largest, sizeof largest);
    CHECK(is(JOIN(2, 8, 40), MZK_LIMITS, 0));
#undef JOIN
}

/* A run ends after 2 picks a row and 4 a pair of joined rows: 44 of the chain. */
static void check_run(void)
{
    uint32_t taken = 12, stuck = 0; /* check_chain's */
    const uint8_t picks[3] = { 0, 1, 2 };
    for (int worker = 1; stuck < 2; worker = 1 - worker) {
        uint64_t word = mzk_picks(JOB, state, sizeof state, sums, 64, picks + worker, 1);
        taken += MZK_COUNT(word);
        stuck = MZK_COUNT(word) > 0 ? 0 : stuck + 1;
    }
    CHECK(taken == 2 * 8 + 4 * 7);
    CHECK(is(mzk_picks(JOB, state, sizeof state, sums, 64, picks, 1), MZK_DONE, 0));
    CHECK(is(mzk_picks(JOB, state, sizeof state, sums, 64, picks + 2, 1), MZK_NO_WORKER, 0));
    CHECK(is(mzk_forces(JOB, state, sizeof state, sums, 64, forces, sizeof forces), MZK_ACCEPTED, 0));
}

/* The same job prepared: 22 updates and 8 rows. Rounds by its list end with the forces of check_run. */
static void check_prepared(void)
{
    enum { BYTES = 144 + 22 * 16 + 8 * 68 };
    static uint8_t prepared[MZK_PREPARED_BYTES], begun[MZK_STATE_BYTES], begun_sums[64], ended[64];
    const uint8_t everyone[2] = { 0, 1 };
#define PREPARED prepared, BYTES, begun, sizeof begun, begun_sums, 64
    CHECK(is(mzk_prepare(JOB, prepared, BYTES - 1), MZK_TOO_SHORT, BYTES));
    CHECK(is(mzk_prepared_ready(PREPARED), MZK_UNPREPARED, 0));
    CHECK(is(mzk_prepare(JOB, prepared, sizeof prepared), MZK_ACCEPTED, BYTES));
    CHECK(MZK_READY_SET(mzk_prepared_ready(PREPARED)) == 3);
    CHECK(is(mzk_prepared_picks(PREPARED, everyone, 2), MZK_ACCEPTED, 2));
    CHECK(is(mzk_prepared_forces(PREPARED, ended, sizeof ended), MZK_UNFINISHED, 0));
    uint32_t moves = 2, more = 1;
    for (; more > 0; moves += more)
        more = MZK_MOVES(mzk_prepared_rounds(PREPARED, everyone, 2));
    CHECK(moves == 2 * 8 + 4 * 7);
    CHECK(is(mzk_prepared_forces(PREPARED, ended, sizeof ended), MZK_ACCEPTED, 0));
    CHECK(memcmp(ended, forces, sizeof ended) == 0);
#undef PREPARED
}

/* Two crews on the chain: its first row has 6 moves, and a worker inside it for one crew is not the other's. */
static void check_crews(void)
{
#define BOTH_JOB MATRIX(8), movements, 32, movements1, 32, order, sizeof order, groups, sizeof groups, 5
#define BOTH_AT states[0], MZK_STATE_BYTES, both_sums[0], 64, states[1], MZK_STATE_BYTES, both_sums[1], 64
#define PICK(pick) (picks[0] = (pick), mzk_picks_both(BOTH_JOB, BOTH_AT, picks, 1))
    static uint8_t movements1[32], states[2][MZK_STATE_BYTES], both_sums[2][64], picks[6];
    uint64_t ready = mzk_ready_both(BOTH_JOB, BOTH_AT);
    CHECK(MZK_NUMBER(ready) == MZK_ACCEPTED);
    CHECK(MZK_CREW_SET(ready, 0) == 3 && MZK_CREW_SET(ready, 1) == 3);
    CHECK(MZK_CREW_COUNT(ready, 0) == 2 && MZK_CREW_COUNT(ready, 1) == 2);
    CHECK(is(PICK(MZK_PICK(1, 0)), MZK_ACCEPTED, 1));
    ready = mzk_ready_both(BOTH_JOB, BOTH_AT);
    CHECK(MZK_CREW_SET(ready, 0) == 2 && MZK_CREW_SET(ready, 1) == 3);
    CHECK(MZK_CREW_COUNT(ready, 0) == 1 && MZK_CREW_COUNT(ready, 1) == 2);
    CHECK(is(PICK(MZK_PICK(0, 0)), MZK_ELSEWHERE, 0));
    CHECK(is(PICK(MZK_PICK(1, 2)), MZK_NO_WORKER, 0));
    CHECK(is(PICK(MZK_PICK(2, 2)), MZK_NO_CREW, 0));
    memset(picks, MZK_PICK(1, 0), 5);
    picks[5] = MZK_PICK(0, 0);
    CHECK(is(mzk_picks_both(BOTH_JOB, BOTH_AT, picks, 6), MZK_ACCEPTED, 6));
    CHECK(states[0][0] == 1 && states[1][0] == 6);
    movements1[3] = 0x7f;
    CHECK(is(mzk_ready_both(BOTH_JOB, BOTH_AT), MZK_MOVEMENTS, 0));
    movements1[3] = 0;
    states[1][8] = 1;
    CHECK(is(mzk_ready_both(BOTH_JOB, BOTH_AT), MZK_NO_STATE, 0));
#undef BOTH_JOB
#undef BOTH_AT
#undef PICK
}

/* A control number of three forces and a trailing part, and of none. */
static void check_control(void)
{
    const uint8_t list[27] = { 5, 0, 0, 0, 0, 0, 0, 0, 0xfd, 0xff, 0xff, 0xff, 0xff, 0xff, 0xff, 0xff, 1, 0, 0, 0, 1 };
    CHECK(is(mzk_control(list, sizeof list), MZK_ACCEPTED, 5 - 2 * 3 + 3));
    CHECK(is(mzk_control(list, 16), MZK_ACCEPTED, 0xffffffff));
    CHECK(is(mzk_control(list, 7), MZK_ACCEPTED, 0));
}

/* Three numbers, from their text and back; too little room, a number past 64 bits, a line without its end. */
static void check_numbers(void)
{
    uint8_t lines[] = "5\n-3\n-9223372036854775808\n", written[3 * MZK_LINE_BYTES], numbers[24], list[24] = { 5 };
    const uint32_t length = sizeof lines - 1;
    memset(list + 8, 0xff, 8);
    list[8] = 0xfd;
    list[23] = 0x80;
    CHECK(is(mzk_numbers_read(lines, length, numbers, 23), MZK_TOO_SHORT, 3));
    CHECK(is(mzk_numbers_read(lines, length, numbers, 24), MZK_ACCEPTED, 3));
    CHECK(memcmp(numbers, list, sizeof list) == 0);
    CHECK(is(mzk_numbers_write(list, 24, written, length - 1), MZK_TOO_SHORT, length));
    CHECK(is(mzk_numbers_write(list, 24, written, sizeof written), MZK_ACCEPTED, length));
    CHECK(memcmp(written, lines, length) == 0);
    lines[length - 2] = '9';
    CHECK(is(mzk_numbers_read(lines, length, numbers, 24), MZK_ENTRY, 3));
    CHECK(is(mzk_numbers_read(lines, length - 1, numbers, 24), MZK_FORM, 3));
    CHECK(is(mzk_numbers_read(lines, 0, numbers, 0), MZK_ACCEPTED, 0));
}

/* A barrier unit of two members, from all zeros to a release. */
static void check_unit(void)
{
    uint8_t unit[MZK_UNIT_BYTES] = { 0 };
    CHECK(is(mzk_barrier_write(unit, sizeof unit, 0, 3), MZK_ACCEPTED, 0));
    CHECK(is(mzk_barrier_write(unit, sizeof unit, 5, 1), MZK_ACCEPTED, 0));
    CHECK(is(mzk_barrier_write(unit, sizeof unit, 2, 5), MZK_ACCEPTED, 0));
    CHECK(is(mzk_barrier_read(unit, sizeof unit, 2), MZK_ACCEPTED, 1));
    CHECK(is(mzk_barrier_line(unit, sizeof unit), MZK_ACCEPTED, 0));
    CHECK(is(mzk_barrier_write(unit, sizeof unit, 2, 2), MZK_ACCEPTED, 0));
    CHECK(is(mzk_barrier_line(unit, sizeof unit), MZK_ACCEPTED, 1));
    CHECK(is(mzk_barrier_releases(unit, sizeof unit), MZK_ACCEPTED, 1));
    CHECK(is(mzk_barrier_write(unit, sizeof unit - 1, 6, 1), MZK_NO_REGISTER, 0));
    CHECK(is(mzk_barrier_read(unit, sizeof unit - 1, 0), MZK_TOO_SHORT, MZK_UNIT_BYTES));
}

/* The longest text that is written: the most entries, off the diagonal, each with its longest line. */
static void check_longest(void)
{
    static uint8_t written[MZK_WRITTEN_BYTES];
    int entries = 0;
    char *end = text + sprintf(text, "%s4096 4096 %d\n", HEAD, MZK_STORED);
    for (int column = 1000; entries < MZK_STORED; column++)
        for (int row = column + 1; row <= MZK_ROWS && row <= column + 20 && entries < MZK_STORED; row++, entries++)
            end += sprintf(end, "%d %d -1000000000\n", row, column);
    CHECK(end - text == MZK_WRITTEN_BYTES);
    CHECK(is(read_text(MZK_WRITTEN_BYTES, 0, 1), MZK_TOO_SHORT, MZK_ENTRIES));
    CHECK(is(read_text(MZK_WRITTEN_BYTES, 0, 0), MZK_ACCEPTED, MZK_ROWS));
    CHECK(is(mzk_write(MATRIX(MZK_ROWS), written, sizeof written - 1), MZK_TOO_SHORT, MZK_WRITTEN_BYTES));
    CHECK(is(mzk_write(MATRIX(MZK_ROWS), written, sizeof written), MZK_ACCEPTED, MZK_WRITTEN_BYTES));
    CHECK(memcmp(text, written, MZK_WRITTEN_BYTES) == 0);
}

/* A text as long as may be, and one byte longer. */
static void check_text_bytes(void)
{
    const char *rest = "\n1 1 0\n";
    for (size_t more = 0; more < 2; more++) {
        size_t length = MZK_TEXT_BYTES + more;
        memset(text, '%', length);
        memcpy(text, HEAD, strlen(HEAD));
        memcpy(text + length - strlen(rest), rest, strlen(rest));
        CHECK(is(read_text(length, 0, 0), more ? MZK_FORM : MZK_ACCEPTED, more ? 0u : 1u));
    }
}

int main(void)
{
    uint64_t word = (uint64_t)0xabcdef0d << 32 | 0x89abcdef; /* more in the bits above a number */
    CHECK(is(word, MZK_WAITS, 0x89abcdef));
    check_texts();
    check_chain();
    check_files();
    check_survey();
    check_changes();
    check_join();
    check_run();
    check_prepared();
    check_crews();
    check_control();
    check_numbers();
    check_unit();
    check_longest();
    check_text_bytes();
    return 0;
}
