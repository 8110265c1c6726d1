/* Checks the rows of W of paper 01, a while loop; then without the last row, and with a zero row after it. */
#include "reactive.h"

#include <inttypes.h>
#include <stdio.h>

enum { ROW_WORDS = 6, ROWS = 6 };

static const uint32_t tree[ROWS + 1][ROW_WORDS] = {
    {2},          /* LOAD place 0 */
    {25, 3, 3},   /* CONTINUE 3 Implicit */
    {9, 1},       /* BLOCK of one statement */
    {14, 1, 3},   /* WHILE, label 3 */
    {22, 0, 4},   /* RETURN of place 0 */
    {9, 2},       /* BLOCK of two statements: the root */
    {0},
};

static void check(size_t rows) {
    uint32_t at;
    uint32_t code = reactive_tree_check(tree[0], rows * ROW_WORDS, &at);
    printf("%zu rows: code %" PRIu32 " at %" PRIu32 "\n", rows, code, at);
}

int main(void) {
    check(ROWS);
    check(ROWS - 1);
    check(ROWS + 1);
    return 0;
}
