/*
 * vimrothi.h from C++: the two readings of document 01's worked log are entered, as 1 and 2, and the place (4, -4) is
 * asked. It ends with status 0 where the answer is the document's. It uses nothing of C++'s own library, so cc alone
 * links it:
 *
 *   cc -x c++ -std=c++11 -Wall -Wextra -Wpedantic -Werror -O2 -o example example.cpp \
 *      -x none ../target/staticlib/libexport.a
 */
#include "vimrothi.h"

namespace {

const size_t D = 1, CAPACITY = 8, ROOM = 2;

struct Table {
    vimrothi_head head;
    int32_t keys[D * CAPACITY];
    int64_t sums[2 * CAPACITY];
    uint16_t index[2 * CAPACITY];
    int32_t book[(D + 3) * ROOM];
};

/* The four arrays of a table with their lengths, as every call takes them. */
#define MEMORY(t) (t).keys, D * CAPACITY, (t).sums, 2 * CAPACITY, (t).index, 2 * CAPACITY, (t).book, (D + 3) * ROOM

/* The value at (4, -4), or -1 where a call or the query is refused. */
int32_t answer(Table &t) {
    const int32_t list[] = {1, 3, -3, 10, 2, 2, -2, 4};
    const int32_t query[] = {4, -4};
    int64_t first[2 * CAPACITY], second[2 * CAPACITY];
    int32_t value = 0;
    uint8_t code = 0;
    size_t taken = 0;
    t.head = vimrothi_head{D, 2, CAPACITY, ROOM, 0, 0};
    if (vimrothi_fresh(VIMROTHI_HEAD(t.head), MEMORY(t)) != VIMROTHI_DONE ||
        vimrothi_enter(VIMROTHI_HEAD(t.head), MEMORY(t), list, 8, &taken) != VIMROTHI_DONE ||
        vimrothi_filter(VIMROTHI_HEAD_VALUES(t.head), MEMORY(t), first, 2 * CAPACITY, second, 2 * CAPACITY,
                        query, D + 1, &value, 1, &code, 1) != VIMROTHI_DONE) {
        return -1;
    }
    return code == VIMROTHI_DONE ? value : -1;
}

}

int main() {
    static Table table;
    return answer(table) == 7 ? 0 : 1;
}
