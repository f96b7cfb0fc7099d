/*
 * A small use of vimrothi.h: one table is made by hand, a second one comes from a log that was cut, and the two
 * are merged, listed and asked. Then one reading is taken back, and what is left is listed and asked again; last, the
 * log's report is printed. It ends with status 1 where something is refused that should not be.
 *
 *   cc -std=c99 -Wall -Wextra -Wpedantic -Werror -O2 -o example example.c ../target/staticlib/libexport.a
 */
#include "vimrothi.h"

#include <stdio.h>
#include <stdlib.h>

/* Dimension 1, fineness 2, room for 8 points and for 4 readings; so many numbers of a reading. */
enum { D = 1, FINENESS = 2, CAPACITY = 8, ROOM = 4, WIDTH = D + 3, QUERIES = 4 };

struct table {
    struct vimrothi_head head;
    int32_t keys[D * CAPACITY];
    int64_t sums[2 * CAPACITY];
    uint16_t index[2 * CAPACITY];
    int32_t book[WIDTH * ROOM];
};

/* The four arrays of a table with their lengths, as every call takes them. */
#define MEMORY(t) (t)->keys, D * CAPACITY, (t)->sums, 2 * CAPACITY, (t)->index, 2 * CAPACITY, (t)->book, WIDTH * ROOM

/* Ends the program unless a call answered the number that was expected of it. */
static void expect(const char *call, uint8_t answered, uint8_t expected) {
    if (answered != expected) {
        fprintf(stderr, "%s answered %d, not %d\n", call, answered, expected);
        exit(EXIT_FAILURE);
    }
}

/* The first tablet: reading 101 is 10 at (3, -3) and 102 is 4 at (2, -2), entered as one list. */
static void enter_by_hand(struct table *t) {
    const int32_t list[2 * WIDTH] = {101, 3, -3, 10, 102, 2, -2, 4};
    size_t taken = 0;
    t->head = (struct vimrothi_head){D, FINENESS, CAPACITY, ROOM, 0, 0};
    expect("fresh", vimrothi_fresh(VIMROTHI_HEAD(t->head), MEMORY(t)), VIMROTHI_DONE);
    expect("enter", vimrothi_enter(VIMROTHI_HEAD(t->head), MEMORY(t), list, 2 * WIDTH, &taken), VIMROTHI_DONE);
    printf("by hand: %zu readings taken, %zu points\n", taken, t->head.points);
}

/* The second tablet: reading 201 is 12 at (5, -5), and the battery went flat in 202. Numbered readings are of kinds 71
 * to 75. Unnumbered ones get 0, 1 and so on in each log, and a merge of two such tables is refused with 20. */
static const uint8_t cut_log[] = {
    0x01, 1, 2, 8, 0,
    0x71, 201, 0, 0, 0, 5, 0, 0, 0, 0xFB, 0xFF, 0xFF, 0xFF, 12, 0, 0, 0,
    0x71, 202, 0, 0, 0, 4, 0, 0, 0, 0xFC, 0xFF,
};

/* Loads the readings before the cut, and answers where the cut is. */
static size_t load_what_is_there(struct table *t) {
    size_t offset = 0;
    uint8_t number = vimrothi_load(cut_log, sizeof cut_log, ROOM, VIMROTHI_HEAD(t->head), MEMORY(t), &offset);
    expect("load", number, VIMROTHI_BODY_CUT);
    printf("log: refused with %d at byte %zu; readings before it: %zu\n", number, offset, t->head.readings);
    return offset;
}

/* The book can be read: its entries are the readings that the table holds. */
static void print_readings(const struct table *t) {
    for (size_t i = 0; i < t->head.readings; i++) {
        const int32_t *entry = t->book + WIDTH * i;
        printf("reading %d: %d at %d %d\n", (int)entry[0], (int)entry[3], (int)entry[1], (int)entry[2]);
    }
}

static void print_points(const struct table *t) {
    uint16_t list[CAPACITY] = {0};
    uint8_t number = vimrothi_list(VIMROTHI_HEAD_VALUES(t->head), MEMORY(t), list, CAPACITY);
    expect("list", number, VIMROTHI_DONE);
    for (size_t i = 0; i < t->head.points; i++) {
        size_t point = list[i];
        printf("point %d %d: mass %lld, value sum %lld\n", (int)t->keys[point], (int)-t->keys[point],
               (long long)t->sums[2 * point], (long long)t->sums[2 * point + 1]);
    }
}

static void print_answers(const struct table *t) {
    const int32_t queries[QUERIES * (D + 1)] = {4, -4, 3, -3, 100, -100, 5, -4};
    int64_t first[2 * CAPACITY] = {0};
    int64_t second[2 * CAPACITY] = {0};
    int32_t values[QUERIES] = {0};
    uint8_t codes[QUERIES] = {0};
    uint8_t number = vimrothi_filter(VIMROTHI_HEAD_VALUES(t->head), MEMORY(t), first, 2 * CAPACITY, second,
                                     2 * CAPACITY, queries, QUERIES * (D + 1), values, QUERIES, codes, QUERIES);
    expect("filter", number, VIMROTHI_DONE);
    for (size_t i = 0; i < QUERIES; i++) {
        printf("query %d %d: value %d, code %d\n", (int)queries[2 * i], (int)queries[2 * i + 1], (int)values[i],
               codes[i]);
    }
}

/* What dyemap prints for so many bytes of the log. The buffer is static: a thread's stack may be smaller. */
static void print_report(size_t bytes) {
    static uint8_t out[VIMROTHI_REPORT_ROOM];
    size_t written = vimrothi_report(cut_log, bytes, out, sizeof out);
    if (written == 0) {
        fprintf(stderr, "report had no room\n");
        exit(EXIT_FAILURE);
    }
    printf("report of %zu bytes:\n%.*s", bytes, (int)written, (const char *)out);
}

static void print_table(const char *how, const struct table *t) {
    printf("%s: %zu readings, %zu points\n", how, t->head.readings, t->head.points);
    print_readings(t);
    print_points(t);
    print_answers(t);
}

/* The probe of reading 201 was fouled: what is left is as if it had never been taken. */
static void take_back(struct table *t) {
    uint8_t number = vimrothi_withdraw(VIMROTHI_HEAD(t->head), MEMORY(t), 201);
    expect("withdraw", number, VIMROTHI_DONE);
    number = vimrothi_withdraw(VIMROTHI_HEAD(t->head), MEMORY(t), 201);
    expect("withdraw once more", number, VIMROTHI_NUMBER_NOT_HELD);
}

int main(void) {
    static struct table ours, theirs;
    enter_by_hand(&ours);
    size_t cut = load_what_is_there(&theirs);
    uint8_t number = vimrothi_merge(VIMROTHI_HEAD(ours.head), MEMORY(&ours),
                                    VIMROTHI_HEAD_VALUES(theirs.head), MEMORY(&theirs));
    expect("merge", number, VIMROTHI_DONE);
    print_table("merged", &ours);
    take_back(&ours);
    print_table("without 201", &ours);
    print_report(sizeof cut_log);
    print_report(cut);
    return EXIT_SUCCESS;
}
