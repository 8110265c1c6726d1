/* Finds the while loop of W of paper 01 by its label; then a label that no line has, and the loop in a tree that lacks its closing row. */
#include "reactive.h"

#include <inttypes.h>
#include <stdio.h>

enum { ROW_WORDS = 6, ROWS = 6, LINES = 1 };

static const uint32_t tree[ROWS][ROW_WORDS] = {
    {2},          /* LOAD place 0 */
    {25, 3, 3},   /* CONTINUE 3 Implicit */
    {9, 1},       /* BLOCK of one statement */
    {14, 1, 3},   /* WHILE, label 3 */
    {22, 0, 4},   /* RETURN of place 0 */
    {9, 2},       /* BLOCK of two statements: the root */
};

/* label, first row, closing row; then zeros */
static const uint32_t labels[2][REACTIVE_TREE_LOOKUP_LINE_WORDS] = {{3, 0, 3}};

static void find(uint32_t label, size_t rows) {
    uint32_t at;
    size_t begin, end;
    size_t label_words = sizeof labels / sizeof labels[0][0];
    uint32_t code = reactive_tree_lookup(labels[0], label_words, LINES, label, tree[0], rows * ROW_WORDS, &at, &begin, &end);
    printf("label %" PRIu32 " in %zu rows: code %" PRIu32 " at %" PRIu32 ", words %zu to %zu\n", label, rows, code, at, begin, end);
}

int main(void) {
    find(3, ROWS);
    find(0, ROWS);
    find(3, 3);
    return 0;
}
