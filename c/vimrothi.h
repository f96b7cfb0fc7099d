/*
 * Vimrothi for C and C++: the calls of documents 01 and 02 over lent memory, from the static library libexport.a.
 * The calls are proved in Rattle. Each does its work or refuses with a number, whatever numbers it is given.
 *
 * The library is compiled for x86-64 Linux: size_t has 64 bits, and numbers are little-endian.
 *
 * WHAT A CALLER OWES
 *
 * The proofs are of functions over slices and references. A C caller passes pointers and lengths instead,
 * and nothing tests those. So, for every call:
 *
 * - No pointer is null, even where its length is 0.
 * - Each pointer is aligned for its type.
 * - Each length is true: so many numbers (not bytes) lie at the pointer.
 * - Memory behind a pointer without const overlaps nothing else that is passed, the head's numbers,
 *   *taken and *offset included. Memory behind pointers to const may overlap other such memory.
 * - While a call runs, no other thread writes what it was lent, nor reads what it may write.
 *
 * What the numbers say is not owed: settings out of range, wrong lengths, a table that is spoilt are refused.
 * Memory for fresh, load and report need not be cleared before.
 * No call allocates, keeps a pointer, or uses memory that it was not lent, but for its own stack.
 * For threads with a small stack: measured, of the library as an older toolchain compiled it, were 181,000 bytes of it
 * for enter, 182,000 for merge, 280,000 for withdraw, 165,000 for list, 149,000 for filter, 35,000 for load and 146,000
 * for report. Fresh has no large arrays of its own. As today's compiles it, example.c, which makes all of these calls,
 * took 284,000 bytes on a thread of its own. A thread with 320 KB has room for every call.
 *
 * A TABLE
 *
 * A table is a head (six numbers) and four lent arrays:
 *
 *   keys    d * C        int32_t    the first d coordinates of each point
 *   sums    2 * C        int64_t    mass, then value sum, of each point
 *   index   2 * C        uint16_t   where points are found by their key; 0 is empty, i + 1 names point i
 *   book    (d + 3) * B  int32_t    the readings that the table holds, in order of entry, merged ones behind
 *
 * A reading in the book is d + 3 numbers: its own number, d + 1 coordinates, the value. No two readings of a table
 * have one number. Reading i of n begins at book[(d + 3) * i]; past the n-th anything may stand.
 *
 * A call that hands a head back takes the addresses of its six numbers: VIMROTHI_HEAD(h). A call that only
 * reads a table takes their values: VIMROTHI_HEAD_VALUES(h).
 *
 * Every call that is lent a table tests all of it first, its book with it: each of the book's readings is spread
 * again, and the sums are compared. For a full table that takes about a millisecond, so enter lists, not single
 * readings.
 *
 * REFUSALS
 *
 * A call answers 0 where it was done, and else the number of the refusal. Numbers are tested in the order in
 * which each call below names them, and the first that is met is answered. A call refused as a whole changes
 * no lent memory and leaves the head as it was given; fresh and load say what they do with theirs.
 */
#ifndef VIMROTHI_H
#define VIMROTHI_H

#include <stddef.h>
#include <stdint.h>

#ifdef __cplusplus
extern "C" {
#endif

/* The settings: dimension d, fineness S, capacity C (points) and the book's room B (readings) are from 1 to these. */
#define VIMROTHI_MOST_D 5
#define VIMROTHI_MOST_FINENESS 64
#define VIMROTHI_MOST_CAPACITY 8192
#define VIMROTHI_MOST_ROOM 4096

/* A coordinate and a value are within plus and minus these. A value is in hundredths of a ppb. */
#define VIMROTHI_COORDINATE_LIMIT 1000000
#define VIMROTHI_VALUE_LIMIT 1000000

/* A buffer of so many bytes suffices for the report of every log. */
#define VIMROTHI_REPORT_ROOM 200000

/* The refusal numbers, and 0. */
#define VIMROTHI_DONE 0
#define VIMROTHI_SETTINGS_OUT_OF_RANGE 1 /* d, S, C or B out of range */
#define VIMROTHI_OTHER_LENGTH 2          /* another length than the settings give, or not whole items */
#define VIMROTHI_NOT_SOUND 3             /* the table is not sound */
#define VIMROTHI_COORDINATE_BEYOND 4     /* a coordinate is beyond the limit */
#define VIMROTHI_SUM_NOT_ZERO 5          /* the coordinates don't sum to 0 */
#define VIMROTHI_VALUE_BEYOND 6          /* a value is beyond the limit */
#define VIMROTHI_TOO_MANY_READINGS 7     /* more than B readings would be held */
#define VIMROTHI_TOO_MANY_POINTS 8       /* more than C points would be stored */
#define VIMROTHI_SETTINGS_DIFFER 9       /* merge: d or S differ */
#define VIMROTHI_NO_POINT_MET 10         /* no stored point has weight above 0 for the query */
#define VIMROTHI_NO_MASS_MET 11          /* one has, but the blurred mass sum is 0: never met */
#define VIMROTHI_KIND_NOT_LISTED 12      /* log: kind byte not listed */
#define VIMROTHI_SETTINGS_MISPLACED 13   /* log: settings not first, or met again */
#define VIMROTHI_OTHER_DIMENSION 14      /* log: item of another dimension than the settings */
#define VIMROTHI_BODY_CUT 15             /* log: body cut short */
#define VIMROTHI_PROGRAM_LIMIT 16        /* report: log over 16,384 bytes, or C over 512 */
#define VIMROTHI_RAW_OUT_OF_RANGE 17     /* raw number or multiplier out of range: no call tells it yet */
#define VIMROTHI_NUMBER_NOT_HELD 19      /* withdraw: number not held */
#define VIMROTHI_NUMBER_HELD 20          /* number held already */

/* A table's head. */
struct vimrothi_head {
    size_t d;
    uint32_t fineness; /* S */
    size_t capacity;   /* C */
    size_t room;       /* B */
    size_t readings;   /* n */
    size_t points;     /* m */
};

/* The six addresses of a head, for a call that hands a head back. */
#define VIMROTHI_HEAD(h) &(h).d, &(h).fineness, &(h).capacity, &(h).room, &(h).readings, &(h).points

/* The six numbers of a head, for a call that only reads it. */
#define VIMROTHI_HEAD_VALUES(h) (h).d, (h).fineness, (h).capacity, (h).room, (h).readings, (h).points

/*
 * Makes a fresh table of the settings *d, *fineness, *capacity and *room. *readings and *points are not read.
 * Refuses: 1, 2.
 * Done: *readings and *points are 0, and the four arrays are filled with 0.
 * Refused: *readings and *points are 0; the settings and the arrays are as they were.
 */
uint8_t vimrothi_fresh(size_t *d, uint32_t *fineness, size_t *capacity, size_t *room, size_t *readings, size_t *points,
                       int32_t *keys, size_t keys_len,
                       int64_t *sums, size_t sums_len,
                       uint16_t *index, size_t index_len,
                       int32_t *book, size_t book_len);

/*
 * Enters a list of readings in the book's form. Each is its number, d + 1 coordinates and then the value; list_len
 * counts numbers, so it is d + 3 for each reading.
 * Refuses: 1, 2, 3 for the whole call, an empty list too; then each reading with 4, 5, 6, 20, 7, 8. 20 is told of a
 * number that the table holds by then, also from earlier in the same list.
 * Done: every reading is in the table and behind the others in its book, and *taken says how many they are.
 * Refused as a whole: *taken is 0; head and arrays are as they were.
 * Refused at a reading: it stops there. *taken says how many were taken before, and so which one it is. The
 * table holds those and nothing of the refused one.
 * The call writes the pairs of points that it adds or raises, keys and index places of new points, and the book's
 * new readings. What stands in keys and sums past the last point, and in the book past the last reading, stays.
 */
uint8_t vimrothi_enter(size_t *d, uint32_t *fineness, size_t *capacity, size_t *room, size_t *readings, size_t *points,
                       int32_t *keys, size_t keys_len,
                       int64_t *sums, size_t sums_len,
                       uint16_t *index, size_t index_len,
                       int32_t *book, size_t book_len,
                       const int32_t *list, size_t list_len,
                       size_t *taken);

/*
 * Adds a source table, which is only read, to a target table. Capacities and rooms may differ. The arrays of the two
 * are not the same; a copy of a table with readings is refused with 20, since their numbers are held already.
 * Refuses: 1, 2, 3, for each the target before the source; then 9, 20, 7, 8. All or nothing. 20 is told where some
 * number of the source's book is held in the target. 7 is above the target's B.
 * Done: each pair of the source is added to the target's, new points are appended in the source's order, and the
 * source's readings stand behind the target's in its book, in their own order.
 * Refused: the target's head and arrays are as they were.
 */
uint8_t vimrothi_merge(size_t *d, uint32_t *fineness, size_t *capacity, size_t *room, size_t *readings, size_t *points,
                       int32_t *keys, size_t keys_len,
                       int64_t *sums, size_t sums_len,
                       uint16_t *index, size_t index_len,
                       int32_t *book, size_t book_len,
                       size_t source_d, uint32_t source_fineness, size_t source_capacity, size_t source_room,
                       size_t source_readings, size_t source_points,
                       const int32_t *source_keys, size_t source_keys_len,
                       const int64_t *source_sums, size_t source_sums_len,
                       const uint16_t *source_index, size_t source_index_len,
                       const int32_t *source_book, size_t source_book_len);

/*
 * Takes one reading back: the one of this number.
 * Refuses: 1, 2, 3, 19.
 * Done: the reading's weights are subtracted. A point whose mass becomes 0 leaves the table, and the last point takes
 * its number; where several leave, they go in ascending remainder. The places that the points vacate in keys and sums
 * become 0. The index is that of entering the points afresh by number. In the book the readings behind move up by one,
 * and the last one's place becomes 0. The list of points, and every answer, is that of a table never given the reading.
 * Refused: head and arrays are as they were.
 */
uint8_t vimrothi_withdraw(size_t *d, uint32_t *fineness, size_t *capacity, size_t *room, size_t *readings,
                          size_t *points,
                          int32_t *keys, size_t keys_len,
                          int64_t *sums, size_t sums_len,
                          uint16_t *index, size_t index_len,
                          int32_t *book, size_t book_len,
                          int32_t number);

/*
 * Lists the points of a table, which is only read. The list has C numbers.
 * Refuses: 1, 2, 3.
 * Done: the list has the point numbers, from 0, ordered by coordinate 0, then 1 and so on, ascending, and 0 in
 * the rest. Point i has keys[d * i] to keys[d * i + d - 1], mass sums[2 * i] and value sum sums[2 * i + 1];
 * its last coordinate is minus the sum of its keys.
 * Refused: the list is as it was.
 */
uint8_t vimrothi_list(size_t d, uint32_t fineness, size_t capacity, size_t room, size_t readings, size_t points,
                      const int32_t *keys, size_t keys_len,
                      const int64_t *sums, size_t sums_len,
                      const uint16_t *index, size_t index_len,
                      const int32_t *book, size_t book_len,
                      uint16_t *list, size_t list_len);

/*
 * Answers queries over a table, which is only read. A query is d + 1 coordinates; queries_len counts numbers.
 * The two work sheets have 2 * C numbers each. There is exactly one value and one code for each query.
 * Refuses: 1, 2, 3 for the whole call, without queries too.
 * Done: each query has its code, which is the first that is met of 4, 5, 10, 11, or else 0, and its value, in
 * hundredths of a ppb, which is 0 beside any code but 0. The first 2 * m numbers of the first sheet are the
 * blurred pairs (mass, value sum) in stored order; every other number of both sheets is 0.
 * Refused: sheets, values and codes are as they were.
 */
uint8_t vimrothi_filter(size_t d, uint32_t fineness, size_t capacity, size_t room, size_t readings, size_t points,
                        const int32_t *keys, size_t keys_len,
                        const int64_t *sums, size_t sums_len,
                        const uint16_t *index, size_t index_len,
                        const int32_t *book, size_t book_len,
                        int64_t *first, size_t first_len,
                        int64_t *second, size_t second_len,
                        const int32_t *queries, size_t queries_len,
                        int32_t *values, size_t values_len,
                        uint8_t *codes, size_t codes_len);

/*
 * Loads a log: makes a fresh table of the log's settings, with a book of room book_room, in the four arrays, which
 * have the lengths that those settings and that room give, and enters its readings in order. Queries are passed over.
 * What the head was before is not read.
 * A numbered reading (kinds 71 to 75, hexadecimal) keeps its number. An unnumbered one (11 to 15) gets the lowest from
 * 0 up that the table does not hold when it is met: so tables of two such logs hold the same numbers, and a merge of
 * them is refused with 20. Logs whose tables are to be merged want numbered readings.
 * Refuses each item with 12, 13, 14, 15; then settings with 1, told of book_room too, and 2, a reading with 4, 5, 6,
 * 20, 7, 8. An empty log is 13 at offset 0.
 * Done: *offset is log_len, and the head and the arrays are the table.
 * Refused: it stops at that item, and *offset is where its kind byte stands. Head and arrays are the table with
 * exactly the readings before that place. Where no settings were accepted, or the arrays were refused with 2,
 * the arrays are as they were and the six numbers of the head are 0.
 */
uint8_t vimrothi_load(const uint8_t *log, size_t log_len, size_t book_room,
                      size_t *d, uint32_t *fineness, size_t *capacity, size_t *room, size_t *readings, size_t *points,
                      int32_t *keys, size_t keys_len,
                      int64_t *sums, size_t sums_len,
                      uint16_t *index, size_t index_len,
                      int32_t *book, size_t book_len,
                      size_t *offset);

/*
 * Writes what the program dyemap prints for a log at the start of a buffer of at least VIMROTHI_REPORT_ROOM
 * bytes, and answers how many bytes that is. No 0 byte is put after them, and the rest of the buffer stays.
 * A refusal is printed, as one line "REFUSED number offset"; 16 is among the numbers.
 * A shorter buffer is left as it was, and the answer is 0, which no report's length is.
 */
size_t vimrothi_report(const uint8_t *log, size_t log_len, uint8_t *out, size_t out_len);

#ifdef __cplusplus
}
#endif

#endif
