/* Builds W of paper 01, a while loop, with an instruction before its return, and prints its rows with their spans and the lines of its
 * index, each with the rows that its label finds; then with a tree buffer, and with an index, that is too short. */
#include "reactive.h"
#include "while_table.h"

#include <inttypes.h>
#include <stdio.h>

static uint32_t tree[16 * REACTIVE_BUILD_ROW_WORDS];
static uint32_t labels[4 * REACTIVE_BUILD_LINE_WORDS];

static void print_row(const uint32_t *words) {
    reactive_span span = reactive_row_span(words);
    printf("%" PRIu32 " %" PRIu32 " %" PRIu32 " %" PRIu32 " %" PRIu32 " %" PRIu32, words[0], words[1], words[2], words[3], words[4], words[5]);
    if (span.from != 0 || span.to != 0) printf(" from %" PRIu32 " to %" PRIu32, span.from, span.to);
    printf("\n");
}

static void print_line(const uint32_t *line, size_t label_words, uint32_t lines, size_t tree_words) {
    uint32_t at;
    size_t begin, end;
    uint32_t code = reactive_tree_lookup(labels, label_words, lines, line[0], tree, tree_words, &at, &begin, &end);
    printf("line %" PRIu32 " %" PRIu32 " %" PRIu32 ": code %" PRIu32 ", words %zu to %zu\n", line[0], line[1], line[2], code, begin, end);
}

static void build(size_t rows_lent, size_t lines_lent) {
    uint32_t at, rows, visits, lines;
    size_t tree_words = rows_lent * REACTIVE_BUILD_ROW_WORDS, label_words = lines_lent * REACTIVE_BUILD_LINE_WORDS;
    uint32_t code =
        reactive_build(table, TABLE_WORDS, tree, tree_words, labels, label_words, &at, &rows, &visits, &lines);
    printf("code %" PRIu32 " at %" PRIu32 " rows %" PRIu32 " visits %" PRIu32 " lines %" PRIu32 "\n", code, at, rows, visits, lines);
    if (code != 0) return;
    for (uint32_t row = 0; row < rows; row++) print_row(tree + row * REACTIVE_BUILD_ROW_WORDS);
    for (uint32_t line = 0; line < lines; line++) print_line(labels + line * REACTIVE_BUILD_LINE_WORDS, label_words, lines, tree_words);
}

int main(void) {
    build(16, 4);
    build(5, 4);
    build(16, 0);
    return 0;
}
