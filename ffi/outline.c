/* Prints the tree of a while loop as an outline, each node above its parts, with no word of its own for any op: names, columns and parts
 * are those of reactive_names.c. Then a refusal in words. */
#include "reactive.h"
#include "while_table.h"

#include <inttypes.h>
#include <stdio.h>

enum { ROWS = 16, COLUMNS = 5 };

static uint32_t tree[ROWS][REACTIVE_BUILD_ROW_WORDS];
static uint32_t labels[REACTIVE_BUILD_MOST_LINES * REACTIVE_BUILD_LINE_WORDS];

/* Of each row: where the rows of the part that ends in it begin. */
static uint32_t first[ROWS];

static void print_column(reactive_column column, uint32_t word) {
    switch (column.kind) {
    case REACTIVE_COLUMN_UNUSED: break;
    case REACTIVE_COLUMN_OPERATOR: printf(" %s", reactive_operator_name(word)); break;
    case REACTIVE_COLUMN_KIND: printf(" %s", reactive_kind_name(word)); break;
    case REACTIVE_COLUMN_BLOCK_OR_NONE:
    case REACTIVE_COLUMN_PLACE_OR_NONE:
        if (word == REACTIVE_NONE) break;
        /* fall through */
    default: printf(" %s %" PRIu32, column.name, word);
    }
}

/* The node of a row, at a depth, and then its parts. Those of a SWITCH stand last case first in the rows, and here in the order of the
 * source. */
static void print(uint32_t row, int depth) {
    uint32_t parts[ROWS], count = (uint32_t)reactive_row_parts(tree[row]);
    const reactive_column *columns = reactive_op_columns(tree[row][0]);
    printf("%*s%s", 2 * depth, "", reactive_op_name(tree[row][0]));
    for (int column = 0; column < COLUMNS; column++) print_column(columns[column], tree[row][1 + column]);
    printf("\n");
    for (uint32_t part = count, end = row; part > 0; part--) {
        parts[part - 1] = end - 1;
        end = first[end - 1];
    }
    for (uint32_t part = 0; part < count; part++) print(parts[tree[row][0] == REACTIVE_OP_SWITCH ? count - 1 - part : part], depth + 1);
}

/* Fills `first`: the parts of a row are the last that are no part of another yet. */
static void find_parts(uint32_t rows) {
    uint32_t open[ROWS], count = 0;
    for (uint32_t row = 0; row < rows; row++) {
        uint32_t parts = (uint32_t)reactive_row_parts(tree[row]);
        count -= parts;
        first[row] = parts == 0 ? row : open[count];
        open[count++] = first[row];
    }
}

static uint32_t build(size_t words, uint32_t *rows) {
    uint32_t at, visits, lines;
    size_t tree_words = sizeof tree / sizeof tree[0][0], label_words = sizeof labels / sizeof labels[0];
    return reactive_build(table, words, tree[0], tree_words, labels, label_words, &at, rows, &visits, &lines);
}

int main(void) {
    uint32_t rows;
    if (build(TABLE_WORDS, &rows) != 0) return 1;
    find_parts(rows);
    print(rows - 1, 0);

    uint32_t code = build(TABLE_WORDS - 1, &rows);
    printf("%" PRIu32 ": %s\n", code, reactive_refusal_sentence(code));
    return 0;
}
