/* Mazhoketh: force lists on shared cores. The functions of libmazhoketh.a, for C and C++.
 *
 * A list is a pair: a pointer to bytes and their number. Numbers in a list are little-endian, low byte first: row
 * starts, columns, order and group fields are 32 bits without sign; values, movements and shifts 32 bits in two's
 * complement; sums, forces and amounts 64 bits in two's complement. A list's length in numbers is its bytes divided by
 * the number's width, rounded down; a trailing part is neither read nor written.
 * Text, plan files and picks are read whole, and movements, sums and state have exactly the length needed: lend lengths
 * there, not capacities. Other lists may be longer than what is read or written; but a call decodes what it is lent, up
 * to the largest sizes below, so exact lengths are the fastest.
 *
 * Values are whole N/mm, at most 1,000,000,000 either side of 0; movements whole micrometres, at most 1,000,000 either
 * side of 0; forces then mN. A matrix is symmetric and held in full rows, each by ascending column.
 *
 * The lists belong to the caller, and nothing is kept between calls. Calls may run at the same time if none writes a
 * list of another; lists that are only read may be shared. In a call, a list that is written overlaps no other list.
 * No pointer is null, also of an empty list.
 *
 * Stack: mzk_join uses up to 2.6 MiB, mzk_read up to 2.5 MiB, mzk_picks, mzk_rounds and mzk_preview up to 1.6 MiB,
 * mzk_picks_both and mzk_ready_both up to 1.5 MiB, mzk_prepare up to 1.3 MiB, mzk_plan, mzk_ready and mzk_forces up to
 * 1 MiB, mzk_set_movement and mzk_set_entry up to 0.7 MiB, the calls on a prepared list, mzk_write_plan, mzk_read_plan,
 * mzk_numbers_read, mzk_numbers_write, mzk_control and the calls on a barrier unit up to 8 KiB, the others up to
 * 0.6 MiB. A thread with MZK_STACK_BYTES and its own needs can make any call. */
#ifndef MAZHOKETH_H
#define MAZHOKETH_H

#include <stddef.h>
#include <stdint.h>

#ifdef __cplusplus
extern "C" {
#endif

/* Sizes, in numbers where they do not say bytes. */
enum {
    MZK_ROWS = 4096,             /* rows of a matrix, its order, movements, sums and forces, at most */
    MZK_ROW_STARTS = 4097,       /* row starts, one more than rows, at most */
    MZK_ENTRIES = 65536,         /* columns, and values, of all full rows, at most */
    MZK_STORED = 32768,          /* entries on and below the diagonal, at most */
    MZK_WORKERS = 16,            /* workers, at most */
    MZK_DISTANCE = 4,            /* the greatest distance of a plan */
    MZK_GROUPS = 481,            /* records of a sound plan, at most: the room that mzk_plan needs */
    MZK_GROUPS_LIMIT = 512,      /* records that may be lent: a higher group_count is refused */
    MZK_GROUP_FIELDS = 7,        /* numbers of a record */
    MZK_STATE_BYTES = 192,       /* the state of a run, always */
    MZK_TEXT_BYTES = 1048576,    /* a text that is read, at most */
    MZK_WRITTEN_BYTES = 720963,  /* a text that is written, at most: 51 + 16 + 32,768 x 22 */
    MZK_FILE_BYTES = 28 + 4 * MZK_ROWS + 4 * MZK_GROUP_FIELDS * MZK_GROUPS_LIMIT, /* a plan file, at most */
    MZK_UNIT_BYTES = 10,         /* a barrier unit */
    MZK_PREPARED_BYTES = 1392784, /* a prepared list, at most */
    MZK_STACK_BYTES = 2752512    /* the stack of a call, at most */
};

/* Every call returns one word: the refusal's number, 0 if it was accepted, and the refusal's place or the accepted
 * call's count, 0 where none is named. The number is bits 32 to 39 alone; mzk_rounds and mzk_preview carry more above
 * it. */
#define MZK_NUMBER(word) ((uint32_t)((uint64_t)(word) >> 32 & 0xff))
#define MZK_PLACE(word) ((uint32_t)((uint64_t)(word) & 0xffffffff))
#define MZK_COUNT(word) ((uint32_t)((uint64_t)(word) & 0xffffffff))

/* The numbers of refusals, with their place (0 unless named). On a refusal nothing is written, but by the picks of a
 * list before the one that is refused. */
enum {
    MZK_ACCEPTED = 0,
    MZK_FIRST_LINE = 1,   /* line 1 of the text differs (1) */
    MZK_FORM = 2,         /* text too long (0), or a line breaks the form, is missing or is one too many (its line) */
    MZK_SIZE = 3,         /* rows differ from columns, or rows or entries are outside their limits (line) */
    MZK_ENTRY = 4,        /* entry above the diagonal, outside the rows, given before, or value too large (line) */
    MZK_NO_MATRIX = 5,    /* the lists are no matrix of n rows */
    MZK_MOVEMENTS = 6,    /* not n movements (0), or one is too large (its index) */
    MZK_PARAMETERS = 7,   /* workers not 1 to 16, or p not 50 to 99 */
    MZK_UNSOUND = 8,      /* the plan is not sound for the matrix, or its lists fall short of its counts */
    MZK_TOO_SHORT = 9,    /* a list to be written is too short (the numbers it needs; groups: the records) */
    MZK_NO_WORKER = 10,   /* the pick names no worker of the plan (its index) */
    MZK_NO_STATE = 11,    /* not 192 bytes of state, not n sums, or a count past its worker's moves */
    MZK_DONE = 12,        /* the pick's worker is done: it has made all its moves (index) */
    MZK_WAITS = 13,       /* the pick's worker waits: pick it again when another worker has moved (index) */
    MZK_OVERFLOW = 14,    /* the sum to store passes 64 bits (index); never met in a run that began with zeros */
    MZK_UNFINISHED = 15,  /* a worker has moves left */
    MZK_NO_FILE = 16,     /* no plan file; or a plan of other than 1 to 4,096 rows or 1 to 512 groups */
    MZK_SURVEY = 17,      /* a survey error above 1,000,000, or no such row */
    MZK_NO_CREW = 18,     /* the pick names no crew (its index) */
    MZK_ELSEWHERE = 19,   /* the pick's worker is inside a row of the other crew: pick it there first (index) */
    MZK_STALE = 20,       /* forces that are not those of the matrix and the movements, in number or in value */
    MZK_NO_ENTRY = 21,    /* no such row, or an entry that is not stored */
    MZK_BEYOND = 22,      /* a new movement or value beyond its limit */
    MZK_PLACES = 23,      /* not one place for each row of the second matrix, or a place repeats or leaves a gap */
    MZK_LIMITS = 24,      /* the joined matrix has too many rows or entries, or a value too large */
    MZK_NO_REGISTER = 25, /* a barrier unit has no register above 5 */
    MZK_UNPREPARED = 26   /* not a prepared list, or less of one than its head says */
};

/* The matrix of a text, in full rows, into row_starts, columns and values; returns its number of rows. It has one row
 * start more than rows; the last one is the number of its columns and of its values.
 * The text is Matrix Market's. Line 1 is `%%MatrixMarket matrix coordinate integer symmetric`. Then come any lines that
 * begin with %, a line of rows, columns and number of entries, and for each entry a line of row, column and value,
 * counted from 1, on or below the diagonal, in any order. One or more spaces stand between numbers, none at the ends of
 * a line; a number has 1 to 10 digits, no needless leading zero, and before a value other than 0 perhaps a minus sign.
 * Every line ends in one line feed, and nothing follows the last.
 * Refused: 1, 2, 3, 4 line by line; 9 (row_starts, columns, values). */
uint64_t mzk_read(const uint8_t *text, size_t text_bytes,
                  uint8_t *row_starts, size_t row_starts_bytes,
                  uint8_t *columns, size_t columns_bytes,
                  uint8_t *values, size_t values_bytes);

/* A matrix of n rows as such a text, by column, then row, without lines that begin with %; returns its bytes. It is
 * measured before it is written.
 * Refused: 5; 9 (text). */
uint64_t mzk_write(uint32_t n,
                   const uint8_t *row_starts, size_t row_starts_bytes,
                   const uint8_t *columns, size_t columns_bytes,
                   const uint8_t *values, size_t values_bytes,
                   uint8_t *text, size_t text_bytes);

/* The forces of a matrix of n rows: the full product with the movements, n numbers into forces.
 * Refused: 5; 6; 9 (forces). */
uint64_t mzk_product(uint32_t n,
                     const uint8_t *row_starts, size_t row_starts_bytes,
                     const uint8_t *columns, size_t columns_bytes,
                     const uint8_t *values, size_t values_bytes,
                     const uint8_t *movements, size_t movements_bytes,
                     uint8_t *forces, size_t forces_bytes);

/* How far a survey error reaches. Each movement is good to within t micrometres, 0 to 1,000,000: a shift is allowed if
 * it changes each movement by at most t and leaves it within its limit. Into amounts go n numbers of 64 bits, for each
 * row an amount beyond which no allowed shift moves its force: t times the sum of the row's values without sign. If
 * every movement, without sign, plus t is at most 1,000,000, an allowed shift that moves the named row's force by just
 * its amount goes into shift, n numbers: t with the sign of the row's value, 0 where that is 0 or absent. The call then
 * returns 1. Otherwise it returns 0, and shift, of any length, is unchanged.
 * Refused: 5; 6; 17; 9 (amounts; shift, if it is to be written). */
uint64_t mzk_survey(uint32_t n,
                    const uint8_t *row_starts, size_t row_starts_bytes,
                    const uint8_t *columns, size_t columns_bytes,
                    const uint8_t *values, size_t values_bytes,
                    const uint8_t *movements, size_t movements_bytes,
                    uint32_t t,
                    uint32_t row,
                    uint8_t *amounts, size_t amounts_bytes,
                    uint8_t *shift, size_t shift_bytes);

/* Forces kept current. Forces are the n forces of the matrix and the movements, as mzk_product gives them or as these
 * calls left them. A new movement is written for one row, and the forces of the row and of those adjacent to it are
 * brought up to date; no other force changes. After any calls the forces are again the product.
 * Refused: 5; 6; 20; 21; 22. */
uint64_t mzk_set_movement(uint32_t n,
                          const uint8_t *row_starts, size_t row_starts_bytes,
                          const uint8_t *columns, size_t columns_bytes,
                          const uint8_t *values, size_t values_bytes,
                          uint8_t *movements, size_t movements_bytes,
                          uint8_t *forces, size_t forces_bytes,
                          uint32_t row,
                          int32_t value);

/* The same for a new value of a stored entry, named by either half: it is written there and in its mirror, and the
 * forces of its two rows are brought up to date. Values past the last row's are unchanged.
 * Refused: 5; 6; 20; 21; 22. */
uint64_t mzk_set_entry(uint32_t n,
                       const uint8_t *row_starts, size_t row_starts_bytes,
                       const uint8_t *columns, size_t columns_bytes,
                       uint8_t *values, size_t values_bytes,
                       const uint8_t *movements, size_t movements_bytes,
                       uint8_t *forces, size_t forces_bytes,
                       uint32_t row,
                       uint32_t column,
                       int32_t value);

/* Two nets sewn together. For each row of the second matrix places has the number, of 32 bits, of a row of the joined
 * one, where the first keeps its rows; places from n1 on leave no gap, and the joined matrix has as many rows as the
 * first and those. Values that fall together are added; an entry is stored if either matrix stores it, also where the
 * sum is 0. The joined matrix goes into row_starts, columns and values; returns its number of rows.
 * Refused: 5 (the first, then the second); 23; 24; 9 (row_starts; columns; values). */
uint64_t mzk_join(uint32_t n1,
                  const uint8_t *row_starts1, size_t row_starts1_bytes,
                  const uint8_t *columns1, size_t columns1_bytes,
                  const uint8_t *values1, size_t values1_bytes,
                  uint32_t n2,
                  const uint8_t *row_starts2, size_t row_starts2_bytes,
                  const uint8_t *columns2, size_t columns2_bytes,
                  const uint8_t *values2, size_t values2_bytes,
                  const uint8_t *places, size_t places_bytes,
                  uint8_t *row_starts, size_t row_starts_bytes,
                  uint8_t *columns, size_t columns_bytes,
                  uint8_t *values, size_t values_bytes);

/* The plan of a matrix at the distance k: its n rows into order, and for each group a record into groups (start,
 * length, first worker, workers, colour, parent, depth); returns the number of groups. Start and length are positions
 * in the order, the colour is 0 for the whole, 1 for red and 2 for blue, the parent is the number of its record, and
 * the depth is the parent's plus 1; the whole's parent and depth are 0.
 * p, 50 to 99, is how near, in per cent, the load of a red and a blue group must come to a whole number of workers.
 * Take 60 first: on the matrices of data/ 50 to 70 keep about as many workers moving, and 99 less than half as many.
 * k, 1 to 4: no path of k joins or fewer links two groups of the same colour and parent. The calls on a run take plans
 * made with 2, 3 or 4; a sweep that writes only its own row needs 1.
 * Refused: 5; 7 (workers, p or k outside its limits); 9 (order, groups). */
uint64_t mzk_plan(uint32_t n,
                  const uint8_t *row_starts, size_t row_starts_bytes,
                  const uint8_t *columns, size_t columns_bytes,
                  const uint8_t *values, size_t values_bytes,
                  uint32_t workers,
                  uint32_t p,
                  uint32_t k,
                  uint8_t *order, size_t order_bytes,
                  uint8_t *groups, size_t groups_bytes);

/* Whether a plan of group_count records is sound at the distance k for a matrix: it has each row once, its groups are
 * a tree as mzk_plan makes them, with their depths, and no path of k joins or fewer links a row of a group with a row
 * of a sibling of the same colour. Plans of mzk_plan are at the k that they were made with, and at every smaller one;
 * the calls on a run ask for 2.
 * Refused: 5; 7 (k outside 1 to 4); 8. */
uint64_t mzk_check(uint32_t n,
                   const uint8_t *row_starts, size_t row_starts_bytes,
                   const uint8_t *columns, size_t columns_bytes,
                   const uint8_t *values, size_t values_bytes,
                   const uint8_t *order, size_t order_bytes,
                   const uint8_t *groups, size_t groups_bytes,
                   uint32_t group_count,
                   uint32_t k);

/* A plan file carries a plan from where it is made to where it runs. It starts with seven numbers of 32 bits without
 * sign, low byte first: 2 (bodies); then 1 (order), 28 and the bytes of the order, 4 a row; then 3 (groups), where the
 * order ends, and the bytes of the groups, 28 a group. The order follows, then the groups, and nothing else: each plan
 * has one file, and each file is of one plan. A file with 2 in place of the 3, as it was when records had no depth, is
 * refused. No matrix is asked for, and soundness is not judged: mzk_check and the calls on a run do so. */

/* The file of a plan of n rows and group_count records, 1 to 512; returns its bytes.
 * Refused: 16; 8 (order or groups fall short of the counts); 9 (file). */
uint64_t mzk_write_plan(uint32_t n,
                        const uint8_t *order, size_t order_bytes,
                        const uint8_t *groups, size_t groups_bytes,
                        uint32_t group_count,
                        uint8_t *file, size_t file_bytes);

/* The plan in a file, into order and groups; returns its number of rows, and 65,536 times its number of groups.
 * Refused: 16; 9 (order, groups). */
#define MZK_PLAN_ROWS(word) (MZK_COUNT(word) & 0xffff)
#define MZK_PLAN_GROUPS(word) (MZK_COUNT(word) >> 16)
uint64_t mzk_read_plan(const uint8_t *file, size_t file_bytes,
                       uint8_t *order, size_t order_bytes,
                       uint8_t *groups, size_t groups_bytes);

/* A text of whole numbers has one a line, each line ended by one line feed: decimal digits with no needless zero, `-`
 * before a negative number, and no `-0`; nothing else. The empty text is the empty list. Numbers are 64 bits in two's
 * complement, from -9,223,372,036,854,775,808 to 9,223,372,036,854,775,807, so a list has eight bytes for each. A text
 * and a list may have any length; of a count or a place past 32 bits the word has the low 32. A list that is written
 * and then read is the same list, and a text that is read is the text of its list: each list has one.
 *
 * MZK_LINE_BYTES for each number are always room enough for a text. */
enum { MZK_LINE_BYTES = 21 };

/* The list of a text; returns how many numbers it has. Refused, by the first line that is wrong: 2 (its line) if it
 * breaks the form, as a last line without a line feed does, or 4 (its line) if its number passes 64 bits; then 9, at
 * how many numbers need room. */
uint64_t mzk_numbers_read(const uint8_t *text, size_t text_bytes, uint8_t *list, size_t list_bytes);

/* The text of a list; returns its length in bytes. Refused: 9. */
uint64_t mzk_numbers_write(const uint8_t *list, size_t list_bytes, uint8_t *text, size_t text_bytes);

/* The control number of a list of forces, of any length, to be read out before lists are compared: the sum over the
 * rows of (row + 1) times its force, modulo 4,294,967,296, a negative one counted as its remainder. Returns it, and
 * refuses nothing; an empty list's is 0. One changed force changes it, unless (row + 1) times the change is a multiple
 * of 4,294,967,296; lists added row by row have the sum of their control numbers, modulo the same. */
uint64_t mzk_control(const uint8_t *forces, size_t forces_bytes);

/* A model of the cabinet's barrier unit, to try a driver on. The caller keeps a unit in ten bytes, at first all 0: its
 * registers 0 to 5, and the count of its releases in 32 bits without sign, low byte first. Bytes past the ten are not
 * touched. Calls on one unit are made one at a time.
 *
 * Registers 0 and 1 are the member set and 2 and 3 the arrived set, low byte first, bit 0 for worker 0; of register 4,
 * status, and 5, enable, bit 0 alone counts, and the others read 0. */

/* A byte is written to a register. A member byte is set, and the arrived set clears. Of a byte written to the arrived
 * set the bits of members are added; when all members have arrived, and there is one, the arrived set clears, bit 0 of
 * status is set and a release is counted. Bit 0 written to status clears bit 0 of status. Enable keeps bit 0.
 * Refused: 25; 9 (unit). */
uint64_t mzk_barrier_write(uint8_t *unit, size_t unit_bytes, uint32_t address, uint8_t byte);

/* What a register reads; returns its byte.
 * Refused: 25; 9 (unit). */
uint64_t mzk_barrier_read(const uint8_t *unit, size_t unit_bytes, uint32_t address);

/* The interrupt line; returns 1 while it is up, which is while bit 0 of status and of enable are both set, else 0.
 * Refused: 9 (unit). */
uint64_t mzk_barrier_line(const uint8_t *unit, size_t unit_bytes);

/* How often all members have come since the unit was all 0, modulo 4,294,967,296.
 * Refused: 9 (unit). */
uint64_t mzk_barrier_releases(const uint8_t *unit, size_t unit_bytes);

/* A run of a matrix of n rows, n movements and a sound plan is kept by the caller: a state of 192 bytes, and n sums in
 * plan order. The state has 16 counts of 32 bits without sign, the moves that each worker has made, and then the 16
 * numbers of 64 bits in two's complement that they hold. A run begins with zeros, in state and sums, and is finished
 * after 2 picks a row and 4 a pair of joined rows. Calls on one run are made one at a time, in any order, by any
 * threads. Each checks matrix and plan anew, which takes about as long as three products: make lists of picks long, or
 * prepare the job (below). */

/* A list of picks, one byte each, the worker that moves: each makes its worker's next load or store on the sums, in
 * turn. Returns how many were taken, all of them. A pick that is refused has its index as place, which is how many were
 * taken before it, and state and sums are as these left them.
 * Refused: 5; 6; 8; 11; then pick by pick 10, 12, 13, 14. */
uint64_t mzk_picks(uint32_t n,
                   const uint8_t *row_starts, size_t row_starts_bytes,
                   const uint8_t *columns, size_t columns_bytes,
                   const uint8_t *values, size_t values_bytes,
                   const uint8_t *movements, size_t movements_bytes,
                   const uint8_t *order, size_t order_bytes,
                   const uint8_t *groups, size_t groups_bytes,
                   uint32_t group_count,
                   uint8_t *state, size_t state_bytes,
                   uint8_t *sums, size_t sums_bytes,
                   const uint8_t *picks, size_t picks_bytes);

/* Rounds: as mzk_picks, but a pick that would be refused with 12 or 13 is passed over. Returns the moves made, also
 * above the number, where they stand if the call is refused, too (0 for 5, 6, 8 and 11); a refusal's place is the
 * pick's index, of which a list of 4 GiB and more leaves the low 32 bits.
 * In a run that began with zeros a list that names each worker of the plan, and nobody else, in any order, makes at
 * least one move until the run is finished: call again until it makes none.
 * Refused: 5; 6; 8; 11; then pick by pick 10, 14. */
#define MZK_MOVES(word) ((uint32_t)((uint64_t)(word) >> 40))
uint64_t mzk_rounds(uint32_t n,
                    const uint8_t *row_starts, size_t row_starts_bytes,
                    const uint8_t *columns, size_t columns_bytes,
                    const uint8_t *values, size_t values_bytes,
                    const uint8_t *movements, size_t movements_bytes,
                    const uint8_t *order, size_t order_bytes,
                    const uint8_t *groups, size_t groups_bytes,
                    uint32_t group_count,
                    uint8_t *state, size_t state_bytes,
                    uint8_t *sums, size_t sums_bytes,
                    const uint8_t *picks, size_t picks_bytes);

/* What picks would do in a run, which stays as it is: just what mzk_picks would return for a copy of state and sums,
 * and above that the ready set that mzk_ready would tell of the copy then: a bit for each worker, and the count of
 * those set; none where mzk_picks would be refused with 5, 6, 8 or 11.
 * Refused: 5; 6; 8; 11; then pick by pick 10, 12, 13, 14, as mzk_picks. */
#define MZK_PREVIEW_COUNT(word) ((uint32_t)((uint64_t)(word) >> 40 & 0xff))
#define MZK_PREVIEW_SET(word) ((uint32_t)((uint64_t)(word) >> 48))
uint64_t mzk_preview(uint32_t n,
                     const uint8_t *row_starts, size_t row_starts_bytes,
                     const uint8_t *columns, size_t columns_bytes,
                     const uint8_t *values, size_t values_bytes,
                     const uint8_t *movements, size_t movements_bytes,
                     const uint8_t *order, size_t order_bytes,
                     const uint8_t *groups, size_t groups_bytes,
                     uint32_t group_count,
                     const uint8_t *state, size_t state_bytes,
                     const uint8_t *sums, size_t sums_bytes,
                     const uint8_t *picks, size_t picks_bytes);

/* The ready set of a run: the workers whose next pick would be taken. Returns sixteen bits, bit 0 for worker 0, and
 * 65,536 times the count of those set.
 * Refused: 5; 6; 8; 11. */
#define MZK_READY_SET(word) (MZK_COUNT(word) & 0xffff)
#define MZK_READY_COUNT(word) (MZK_COUNT(word) >> 16)
uint64_t mzk_ready(uint32_t n,
                   const uint8_t *row_starts, size_t row_starts_bytes,
                   const uint8_t *columns, size_t columns_bytes,
                   const uint8_t *values, size_t values_bytes,
                   const uint8_t *movements, size_t movements_bytes,
                   const uint8_t *order, size_t order_bytes,
                   const uint8_t *groups, size_t groups_bytes,
                   uint32_t group_count,
                   const uint8_t *state, size_t state_bytes,
                   const uint8_t *sums, size_t sums_bytes);

/* The forces of a finished run, its sums in the order of the rows, n numbers into forces: the full product, if the run
 * began with zeros.
 * Refused: 5; 6; 8; 11; 15; 9 (forces). */
uint64_t mzk_forces(uint32_t n,
                    const uint8_t *row_starts, size_t row_starts_bytes,
                    const uint8_t *columns, size_t columns_bytes,
                    const uint8_t *values, size_t values_bytes,
                    const uint8_t *movements, size_t movements_bytes,
                    const uint8_t *order, size_t order_bytes,
                    const uint8_t *groups, size_t groups_bytes,
                    uint32_t group_count,
                    const uint8_t *state, size_t state_bytes,
                    const uint8_t *sums, size_t sums_bytes,
                    uint8_t *forces, size_t forces_bytes);

/* A job prepared once. What the calls above find anew each time, that matrix, movements and plan are fit and the tables
 * of updates and waits, stands in one list of bytes: mzk_prepare makes it, and the four calls after it answer with it
 * just as those above do with the job. The list holds no pointer: it can be copied, filed, and shared by runs and
 * threads. It stands for its matrix, movements and plan as they were when it was made.
 * To prepare takes about as long as two of the calls above. So prepare a job whose run has more calls than that, as by
 * threads, which may then pick one move a call; take the calls above for one or two, and for a preview. Picks of two
 * crews have no prepared call; the forces of each have.
 * A list that mzk_prepare did not make, or that was changed since, is refused with 26 if its length or its first 16
 * bytes show it. Otherwise it is taken: whatever stands in it, no byte outside the lent lists is read or written, but
 * then nothing is said of forces. */

/* The prepared list of a run's matrix, movements and plan; returns its bytes. A list of MZK_PREPARED_BYTES has always
 * room.
 * Refused: 5; 6; 8; 9 (prepared: the bytes it needs). */
uint64_t mzk_prepare(uint32_t n,
                     const uint8_t *row_starts, size_t row_starts_bytes,
                     const uint8_t *columns, size_t columns_bytes,
                     const uint8_t *values, size_t values_bytes,
                     const uint8_t *movements, size_t movements_bytes,
                     const uint8_t *order, size_t order_bytes,
                     const uint8_t *groups, size_t groups_bytes,
                     uint32_t group_count,
                     uint8_t *prepared, size_t prepared_bytes);

/* As mzk_picks.
 * Refused: 26; 11; then pick by pick 10, 12, 13, 14. */
uint64_t mzk_prepared_picks(const uint8_t *prepared, size_t prepared_bytes,
                            uint8_t *state, size_t state_bytes,
                            uint8_t *sums, size_t sums_bytes,
                            const uint8_t *picks, size_t picks_bytes);

/* As mzk_rounds.
 * Refused: 26; 11; then pick by pick 10, 14. */
uint64_t mzk_prepared_rounds(const uint8_t *prepared, size_t prepared_bytes,
                             uint8_t *state, size_t state_bytes,
                             uint8_t *sums, size_t sums_bytes,
                             const uint8_t *picks, size_t picks_bytes);

/* As mzk_ready.
 * Refused: 26; 11. */
uint64_t mzk_prepared_ready(const uint8_t *prepared, size_t prepared_bytes,
                            const uint8_t *state, size_t state_bytes,
                            const uint8_t *sums, size_t sums_bytes);

/* As mzk_forces.
 * Refused: 26; 11; 15; 9 (forces). */
uint64_t mzk_prepared_forces(const uint8_t *prepared, size_t prepared_bytes,
                             const uint8_t *state, size_t state_bytes,
                             const uint8_t *sums, size_t sums_bytes,
                             uint8_t *forces, size_t forces_bytes);

/* Two crews, 0 and 1, may share the workers of one plan: two runs of the same matrix and plan, each with movements,
 * state and sums of its own. A worker that has begun a row for one crew finishes it before it serves the other; between
 * rows it is free. Begin both with zeros and write them by mzk_picks_both alone: then some worker can move until both
 * runs are finished, though one crew's ready set may be empty sooner, the forces of each finished run (mzk_forces) are
 * the product with its own movements, and nothing that one crew gets, answers or sums, depends on the movements of the
 * other. */

/* A list of picks for both, one byte each, 16 x crew + worker; otherwise as mzk_picks. Returns how many were taken, all
 * of them. A pick that is refused has its index as place, and states and sums are as the picks before it left them.
 * Refused: 5; 6 of crew 0, of crew 1; 8; 11 of either; then pick by pick 18, 10, 12, 13, 19, 14. */
#define MZK_PICK(crew, worker) ((uint8_t)(MZK_WORKERS * (crew) + (worker)))
uint64_t mzk_picks_both(uint32_t n,
                        const uint8_t *row_starts, size_t row_starts_bytes,
                        const uint8_t *columns, size_t columns_bytes,
                        const uint8_t *values, size_t values_bytes,
                        const uint8_t *movements0, size_t movements0_bytes,
                        const uint8_t *movements1, size_t movements1_bytes,
                        const uint8_t *order, size_t order_bytes,
                        const uint8_t *groups, size_t groups_bytes,
                        uint32_t group_count,
                        uint8_t *state0, size_t state0_bytes,
                        uint8_t *sums0, size_t sums0_bytes,
                        uint8_t *state1, size_t state1_bytes,
                        uint8_t *sums1, size_t sums1_bytes,
                        const uint8_t *picks, size_t picks_bytes);

/* The ready sets of both: for each crew the workers whose next pick for it would be taken. Returns sixteen bits for
 * crew 0, 65,536 times those for crew 1, and above the number the count of those set, 8 bits for each crew.
 * Refused: 5; 6 of crew 0, of crew 1; 8; 11 of either. */
#define MZK_CREW_SET(word, crew) ((uint32_t)((uint64_t)(word) >> 16 * (crew) & 0xffff))
#define MZK_CREW_COUNT(word, crew) ((uint32_t)((uint64_t)(word) >> (40 + 8 * (crew)) & 0xff))
uint64_t mzk_ready_both(uint32_t n,
                        const uint8_t *row_starts, size_t row_starts_bytes,
                        const uint8_t *columns, size_t columns_bytes,
                        const uint8_t *values, size_t values_bytes,
                        const uint8_t *movements0, size_t movements0_bytes,
                        const uint8_t *movements1, size_t movements1_bytes,
                        const uint8_t *order, size_t order_bytes,
                        const uint8_t *groups, size_t groups_bytes,
                        uint32_t group_count,
                        const uint8_t *state0, size_t state0_bytes,
                        const uint8_t *sums0, size_t sums0_bytes,
                        const uint8_t *state1, size_t state1_bytes,
                        const uint8_t *sums1, size_t sums1_bytes);

#ifdef __cplusplus
}
#endif

#endif
