/* Names and sentences for what the library gives (reactive.h, "Names and sentences"): compile this file with your own, as C11 or C++.
 * It asks nothing of the library. The sentences are those of refusals.txt. */
#include "reactive.h"

#define LENGTH(table) (sizeof(table) / sizeof((table)[0]))

enum { COLUMNS = 5 };

#define UNUSED {"", REACTIVE_COLUMN_UNUSED}
#define BLOCK REACTIVE_COLUMN_BLOCK
#define BLOCK_OR_NONE REACTIVE_COLUMN_BLOCK_OR_NONE
#define PLACE REACTIVE_COLUMN_PLACE
#define PLACE_OR_NONE REACTIVE_COLUMN_PLACE_OR_NONE
#define INSTRUCTION REACTIVE_COLUMN_INSTRUCTION
#define CASE REACTIVE_COLUMN_CASE
#define COUNT REACTIVE_COLUMN_COUNT
#define NUMBER REACTIVE_COLUMN_NUMBER
#define FLAG REACTIVE_COLUMN_FLAG
#define VARIANT REACTIVE_COLUMN_VARIANT
#define OPERATOR REACTIVE_COLUMN_OPERATOR
#define KIND REACTIVE_COLUMN_KIND

/* A name, and what the columns a to e hold. */
typedef struct {
    const char *name;
    reactive_column columns[COLUMNS];
} named;

/* Op n is at n - 1. */
static const named ops[] = {
    {"PLAIN", {{"instruction", INSTRUCTION}, UNUSED, UNUSED, UNUSED, UNUSED}},
    {"LOAD", {{"place", PLACE}, UNUSED, UNUSED, UNUSED, UNUSED}},
    {"UNDEF", {{"from", NUMBER}, {"to", NUMBER}, UNUSED, UNUSED, UNUSED}},
    {"INSTR", {{"id", NUMBER}, {"lvalue", PLACE}, {"from", NUMBER}, {"to", NUMBER}, UNUSED}},
    {"SEQ", {{"instructions", COUNT}, {"id", NUMBER}, UNUSED, UNUSED, UNUSED}},
    {"LOGICAL", {{"operator", OPERATOR}, UNUSED, UNUSED, UNUSED, UNUSED}},
    {"COND", {UNUSED, UNUSED, UNUSED, UNUSED, UNUSED}},
    {"OPTIONAL", {{"optional", FLAG}, UNUSED, UNUSED, UNUSED, UNUSED}},
    {"BLOCK", {{"statements", COUNT}, UNUSED, UNUSED, UNUSED, UNUSED}},
    {"IF", {{"test", PLACE}, {"alternate", FLAG}, {"id", NUMBER}, {"label", BLOCK_OR_NONE}, UNUSED}},
    {"CASE", {{"test", PLACE_OR_NONE}, UNUSED, UNUSED, UNUSED, UNUSED}},
    {"SWITCH", {{"test", PLACE}, {"cases", COUNT}, {"id", NUMBER}, {"label", BLOCK_OR_NONE}, UNUSED}},
    {"DOWHILE", {{"id", NUMBER}, {"label", BLOCK_OR_NONE}, UNUSED, UNUSED, UNUSED}},
    {"WHILE", {{"id", NUMBER}, {"label", BLOCK_OR_NONE}, UNUSED, UNUSED, UNUSED}},
    {"FOR", {{"id", NUMBER}, {"label", BLOCK_OR_NONE}, {"update", FLAG}, UNUSED, UNUSED}},
    {"FOROF", {{"id", NUMBER}, {"label", BLOCK_OR_NONE}, {"from", NUMBER}, {"to", NUMBER}, UNUSED}},
    {"FORIN", {{"id", NUMBER}, {"label", BLOCK_OR_NONE}, {"from", NUMBER}, {"to", NUMBER}, UNUSED}},
    {"LABEL", {{"id", NUMBER}, {"label", BLOCK_OR_NONE}, UNUSED, UNUSED, UNUSED}},
    {"TRY", {{"id", NUMBER}, {"label", BLOCK_OR_NONE}, {"binding", PLACE_OR_NONE}, UNUSED, UNUSED}},
    {"SCOPE", {{"scope", NUMBER}, UNUSED, UNUSED, UNUSED, UNUSED}},
    {"PRUNED", {{"scope", NUMBER}, UNUSED, UNUSED, UNUSED, UNUSED}},
    {"RETURN", {{"value", PLACE}, {"id", NUMBER}, UNUSED, UNUSED, UNUSED}},
    {"THROW", {{"value", PLACE}, {"id", NUMBER}, UNUSED, UNUSED, UNUSED}},
    {"BREAK", {{"target", BLOCK}, {"id", NUMBER}, {"kind", KIND}, {"loops_left", COUNT}, UNUSED}},
    {"CONTINUE", {{"target", BLOCK}, {"id", NUMBER}, {"kind", KIND}, {"loops_left", COUNT}, UNUSED}},
};

/* By code. */
static const named endings[] = {
    {"no such block", {UNUSED, UNUSED, UNUSED, UNUSED, UNUSED}},
    {"Unreachable", {UNUSED, UNUSED, UNUSED, UNUSED, UNUSED}},
    {"Throw", {{"value", PLACE}, UNUSED, UNUSED, UNUSED, UNUSED}},
    {"Return", {{"value", PLACE}, UNUSED, UNUSED, UNUSED, UNUSED}},
    {"Goto", {{"block", BLOCK}, {"variant", VARIANT}, UNUSED, UNUSED, UNUSED}},
    {"If", {{"test", PLACE}, {"consequent", BLOCK}, {"alternate", BLOCK}, {"fallthrough", BLOCK}, UNUSED}},
    {"Branch", {{"test", PLACE}, {"consequent", BLOCK}, {"alternate", BLOCK}, UNUSED, UNUSED}},
    {"Switch", {{"test", PLACE}, {"first_case", CASE}, {"cases", COUNT}, {"fallthrough", BLOCK}, UNUSED}},
    {"DoWhile", {{"loop_block", BLOCK}, {"test", BLOCK}, {"fallthrough", BLOCK}, UNUSED, UNUSED}},
    {"While", {{"test", BLOCK}, {"loop_block", BLOCK}, {"fallthrough", BLOCK}, UNUSED, UNUSED}},
    {"For", {{"init", BLOCK}, {"test", BLOCK}, {"update", BLOCK_OR_NONE}, {"loop_block", BLOCK}, {"fallthrough", BLOCK}}},
    {"ForOf", {{"init", BLOCK}, {"test", BLOCK}, {"loop_block", BLOCK}, {"fallthrough", BLOCK}, UNUSED}},
    {"ForIn", {{"init", BLOCK}, {"loop_block", BLOCK}, {"fallthrough", BLOCK}, UNUSED, UNUSED}},
    {"Logical", {{"operator", OPERATOR}, {"test", BLOCK}, {"fallthrough", BLOCK}, UNUSED, UNUSED}},
    {"Ternary", {{"test", BLOCK}, {"fallthrough", BLOCK}, UNUSED, UNUSED, UNUSED}},
    {"Optional", {{"optional", FLAG}, {"test", BLOCK}, {"fallthrough", BLOCK}, UNUSED, UNUSED}},
    {"Label", {{"block", BLOCK}, {"fallthrough", BLOCK}, UNUSED, UNUSED, UNUSED}},
    {"Sequence", {{"block", BLOCK}, {"fallthrough", BLOCK}, UNUSED, UNUSED, UNUSED}},
    {"MaybeThrow", {{"continuation", BLOCK}, UNUSED, UNUSED, UNUSED, UNUSED}},
    {"Try", {{"block", BLOCK}, {"handler", BLOCK}, {"fallthrough", BLOCK}, {"binding", PLACE_OR_NONE}, UNUSED}},
    {"Scope", {{"block", BLOCK}, {"fallthrough", BLOCK}, {"scope", NUMBER}, UNUSED, UNUSED}},
    {"PrunedScope", {{"block", BLOCK}, {"fallthrough", BLOCK}, {"scope", NUMBER}, UNUSED, UNUSED}},
};

/* The parts of a row: so many, and as many more as this column says, where it is not 0. Op n is at n - 1. */
static const struct {
    unsigned char parts, column;
} parts[] = {
    {0, 0}, {0, 0}, {0, 0}, {1, 0}, {1, 1}, {2, 0}, {3, 0}, {1, 0}, {0, 1},
    {1, 2}, {1, 0}, {0, 2}, {2, 0}, {2, 0}, {3, 3}, {3, 0}, {2, 0}, {1, 0},
    {2, 0}, {1, 0}, {1, 0}, {0, 0}, {0, 0}, {0, 0}, {0, 0},
};

static const struct {
    uint32_t code;
    const char *place, *sentence;
} refusals[] = {
    {1, "0", "There are fewer than six words, or not as many as the head says."},
    {2, "word of the head", "A count is over its limit: blocks 1,024, instructions 4,096, cases 1,024, places 4,096, "
     "identifiers 4,096."},
    {3, "0", "The entry is no block."},
    {4, "word", "The column does not allow this word, or a to is below its from."},
    {10, "block that is missing", "A block is named that is not there: its code is 0."},
    {11, "block", "The block was emitted before."},
    {12, "block: the consequent", "The consequent of an If is scheduled already."},
    {13, "block: the alternate", "The alternate of an If is scheduled already."},
    {14, "block with the Switch", "The block of a case is scheduled already."},
    {15, "block: the continue block", "The continue block of a loop is scheduled already."},
    {16, "block with the loop", "The loop block is scheduled already, or is the fallthrough."},
    {17, "block with the Label", "The block of a Label is scheduled already."},
    {18, "block with the Scope", "The block of a Scope is scheduled already."},
    {19, "block with the Branch", "The alternate of a Branch is scheduled already."},
    {20, "block: the target", "No open statement ends where a break goes."},
    {21, "block: the target", "No open loop continues where a continue goes."},
    {22, "block with the Goto", "A break out of a scope is not Implicit."},
    {23, "block: the fallthrough", "The fallthrough of a value was reached before its end."},
    {24, "block", "A block of a value is only a Goto."},
    {25, "block with the value", "A test does not end in a Branch."},
    {26, "block", "A Label stands in a value."},
    {27, "block", "A terminal stands in a value that no value has."},
    {28, "block", "A MaybeThrow with no instruction stands as a value."},
    {29, "block with the Goto or Branch", "By the rule of the language: no statement around a Labeled jump has the "
     "label that it names; of a continue, its own loop has not."},
    {30, "block not visited", "The walk is deeper than 128 visits."},
    {31, "block not visited", "The walk has more than 8,192 visits."},
    {40, "0", "The tree has more rows than were lent: rows is the number needed."},
    {41, "0", "The tree has more labelled rows than lines were lent for the index."},
    {42, "0", "No line of the index has the label."},
    {43, "0", "The line with the label does not fit the tree: its first row is after its closing row, or its closing "
     "row is beyond the rows."},
    {44, "0", "The text of the drawing is longer than the lent buffer."},
    {45, "0", "An output of the rearrangement, or of its inverse, is shorter or longer than just needed."},
    {46, "0", "The list handed to the inverse is no permutation of the block numbers."},
    {50, "byte of the file", "The file is not in the form: no good file has this byte here, or the file ends too early."},
    {51, "0", "The file is too long: a table has at most 32,768 bytes, a file of rows 262,144."},
    {52, "word", "A to differs from its from: the old form has one end."},
    {53, "0", "The written text is longer than the lent buffer."},
    {54, "0", "The file has more words than were lent."},
    {60, "row", "The op of this row, or one of its columns, is out of range."},
    {61, "row", "This row does not find its parts before it."},
    {62, "0", "The rows are not one tree: no row, over 2,048 rows, words that are no multiple of six, or something "
     "else left at the end than one BLOCK."},
    {63, "row", "This jump was reached, and nothing around it is a target of its sort."},
    {64, "row", "LOGICAL, COND, OPTIONAL, TRY, FOROF and FORIN are not run."},
    {65, "row", "The lent buffer has no room for the instruction of this PLAIN."},
};

const char *reactive_op_name(uint32_t op) { return op - 1 < LENGTH(ops) ? ops[op - 1].name : NULL; }

const reactive_column *reactive_op_columns(uint32_t op) { return op - 1 < LENGTH(ops) ? ops[op - 1].columns : NULL; }

const char *reactive_ending_name(uint32_t code) { return code < LENGTH(endings) ? endings[code].name : NULL; }

const reactive_column *reactive_ending_columns(uint32_t code) { return code < LENGTH(endings) ? endings[code].columns : NULL; }

/* The name with this number, of three. */
static const char *of_three(uint32_t number, const char *first, const char *second, const char *third) {
    return number == 0 ? first : number == 1 ? second : number == 2 ? third : NULL;
}

const char *reactive_variant_name(uint32_t variant) { return of_three(variant, "Break", "Continue", "Try"); }

const char *reactive_operator_name(uint32_t operator_number) { return of_three(operator_number, "or", "and", "coalesce"); }

const char *reactive_kind_name(uint32_t kind) { return of_three(kind, "Implicit", "Labeled", "Unlabeled"); }

const char *reactive_value_name(uint32_t code) { return of_three(code, "other", "LoadLocal", "StoreLocal"); }

const char *reactive_refusal_sentence(uint32_t code) {
    for (size_t line = 0; line < LENGTH(refusals); line++)
        if (refusals[line].code == code) return refusals[line].sentence;
    return NULL;
}

const char *reactive_refusal_place(uint32_t code) {
    for (size_t line = 0; line < LENGTH(refusals); line++)
        if (refusals[line].code == code) return refusals[line].place;
    return NULL;
}

uint64_t reactive_row_parts(const uint32_t *row) {
    uint32_t op = row[0];
    if (op - 1 >= LENGTH(parts)) return 0;
    unsigned char column = parts[op - 1].column;
    return parts[op - 1].parts + (column == 0 ? 0 : (uint64_t)row[column]);
}
