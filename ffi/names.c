/* Prints all that reactive_names.c has: names.txt, which the crate's tests compare with the crate and with refusals.txt. */
#include "reactive.h"

#include <inttypes.h>
#include <stdio.h>

static const char *const kinds[] = {
    "unused", "block", "block or none", "place", "place or none", "instruction", "case",
    "count", "number", "flag", "variant", "operator", "kind",
};

static void print_columns(const reactive_column *columns) {
    for (int column = 0; column < 5 && columns[column].kind != REACTIVE_COLUMN_UNUSED; column++)
        printf("\t%s: %s", kinds[columns[column].kind], columns[column].name);
    printf("\n");
}

/* Every number that has a name, and that the next has none. */
static void print_names(const char *what, const char *(*name)(uint32_t), uint32_t number) {
    for (; name(number) != NULL; number++) printf("%s\t%" PRIu32 "\t%s\n", what, number, name(number));
    if (name(UINT32_MAX) != NULL) printf("%s: a name for any number\n", what);
}

int main(void) {
    for (uint32_t op = 1; reactive_op_name(op) != NULL; op++) {
        /* with each column 1, and then 2 */
        const uint32_t one[] = {op, 1, 1, 1, 1, 1}, two[] = {op, 2, 2, 2, 2, 2};
        printf("op\t%" PRIu32 "\t%s\t%" PRIu64 " %" PRIu64, op, reactive_op_name(op), reactive_row_parts(one), reactive_row_parts(two));
        print_columns(reactive_op_columns(op));
    }
    for (uint32_t code = 0; reactive_ending_name(code) != NULL; code++) {
        printf("ending\t%" PRIu32 "\t%s", code, reactive_ending_name(code));
        print_columns(reactive_ending_columns(code));
    }
    print_names("variant", reactive_variant_name, 0);
    print_names("operator", reactive_operator_name, 0);
    print_names("kind", reactive_kind_name, 0);
    print_names("value", reactive_value_name, 0);
    for (uint32_t code = 0; code < 100; code++)
        if (reactive_refusal_sentence(code) != NULL)
            printf("refusal\t%" PRIu32 "\t%s\t%s\n", code, reactive_refusal_place(code), reactive_refusal_sentence(code));
    const uint32_t none[] = {0, 1, 1, 1, 1, 1};
    if (reactive_op_name(0) != NULL || reactive_op_columns(26) != NULL || reactive_row_parts(none) != 0) printf("something of no op\n");
    return 0;
}
