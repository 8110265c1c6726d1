/* Converts a file of the old form into the new one and back, writes a table's words, and asks for what is refused. */
#include "reactive.h"

#include <inttypes.h>
#include <stdio.h>
#include <string.h>

static const char old_file[] =
    "entry blocks instructions cases places identifiers\n0 1 0 0 1 1\n"
    "first count code a b c d e id span\n0 0 3 0 0 0 0 0 7 12\n"
    "id lvalue code p q span\ntest block\nidentifier\n0\nnamed\n1\n";

/* the same as words of the new form, but with a span from 3 to 9 */
static const uint32_t words[] = {0, 1, 0, 0, 1, 1, 0, 0, 3, 0, 0, 0, 0, 0, 7, 3, 9, 0, 1};

static uint8_t new_text[256], old_text[256];

static void print(const char *what, uint32_t code, uint32_t at, size_t length, const uint8_t *text) {
    printf("%s: code %" PRIu32 " at %" PRIu32 " length %zu\n", what, code, at, length);
    fwrite(text, 1, length, stdout);
}

int main(void) {
    uint32_t at;
    size_t length;
    uint32_t code = reactive_table_old_to_new((const uint8_t *)old_file, strlen(old_file), new_text, sizeof new_text, &at, &length);
    print("old to new", code, at, length, new_text);
    size_t new_length = length;
    code = reactive_table_new_to_old(new_text, new_length, old_text, sizeof old_text, &at, &length);
    print("and back", code, at, length, old_text);
    printf("the same: %d\n", length == strlen(old_file) && memcmp(old_text, old_file, length) == 0);
    code = reactive_table_old_to_new((const uint8_t *)old_file, strlen(old_file), new_text, new_length - 1, &at, &length);
    print("a byte too few lent", code, at, length, new_text);
    code = reactive_table_write(words, sizeof words / sizeof words[0], new_text, sizeof new_text, &at, &length);
    print("written", code, at, length, new_text);
    code = reactive_table_new_to_old(new_text, length, old_text, sizeof old_text, &at, &length);
    print("two ends", code, at, length, old_text);
    return 0;
}
