/* The library, for C11 and C++: build_reactive_function, proved, and what goes with it. Link libreactive.a, or libreactive.so of the
 * package (ffi/README.md says how they are made). docs/FORMAT.md tells the tables, the rows and the codes. Every name begins with
 * reactive_ or REACTIVE_.
 *
 * Of every call: no pointer is null, also where the length is 0. What is passed is valid for its length and aligned; what is written to
 * overlaps nothing else that is passed, and no other thread uses it during the call. The content of what is read does not matter: any
 * words and any bytes may be passed. A call takes no memory but the stack (how much each takes at most is said with it), keeps nothing,
 * and may be made from any number of threads. */
#ifndef REACTIVE_H
#define REACTIVE_H

#include <stddef.h>
#include <stdint.h>

#ifdef __cplusplus
extern "C" {
#endif

/* The version of this header. */
#define REACTIVE_VERSION "0.1.0"
#define REACTIVE_VERSION_MAJOR 0
#define REACTIVE_VERSION_MINOR 1
#define REACTIVE_VERSION_PATCH 0

/* The first word of a row of the tree; beside it its columns from a on, and its parts, whose rows stand before it. Columns that are not
 * named are 0. A place, a block and an instruction are rows of the table. A label, a test of a CASE or a binding that is not there is
 * REACTIVE_NONE. */
enum reactive_op {
    REACTIVE_OP_PLAIN = 1, /* instruction */
    REACTIVE_OP_LOAD = 2, /* place */
    REACTIVE_OP_UNDEF = 3, /* from, to */
    REACTIVE_OP_INSTR = 4, /* id, place: lvalue, from, to; parts: a value */
    REACTIVE_OP_SEQ = 5, /* number of INSTRs, id; parts: its INSTRs, a value */
    REACTIVE_OP_LOGICAL = 6, /* operator; parts: left, right */
    REACTIVE_OP_COND = 7, /* parts: test, consequent, alternate */
    REACTIVE_OP_OPTIONAL = 8, /* flag; parts: a value */
    REACTIVE_OP_BLOCK = 9, /* number of statements; parts: its statements */
    REACTIVE_OP_IF = 10, /* place: test, 1 if there is an alternate, id, block: label; parts: one BLOCK, or two */
    REACTIVE_OP_CASE = 11, /* place: test; parts: a BLOCK */
    REACTIVE_OP_SWITCH = 12, /* place: test, number of cases, id, block: label; parts: its CASEs, last first */
    REACTIVE_OP_DOWHILE = 13, /* id, block: label; parts: a BLOCK, the test */
    REACTIVE_OP_WHILE = 14, /* id, block: label; parts: the test, a BLOCK */
    REACTIVE_OP_FOR = 15, /* id, block: label, 1 if there is an update; parts: init, test, update, a BLOCK */
    REACTIVE_OP_FOROF = 16, /* id, block: label, from, to; parts: init, test, a BLOCK */
    REACTIVE_OP_FORIN = 17, /* id, block: label, from, to; parts: init, a BLOCK */
    REACTIVE_OP_LABEL = 18, /* id, block: label; parts: a BLOCK */
    REACTIVE_OP_TRY = 19, /* id, block: label, place: binding; parts: two BLOCKs: body, handler */
    REACTIVE_OP_SCOPE = 20, /* scope; parts: a BLOCK */
    REACTIVE_OP_PRUNED = 21, /* scope; parts: a BLOCK */
    REACTIVE_OP_RETURN = 22, /* place: value, id */
    REACTIVE_OP_THROW = 23, /* place: value, id */
    REACTIVE_OP_BREAK = 24, /* block: target, id, kind, loops left */
    REACTIVE_OP_CONTINUE = 25, /* block: target, id, kind, loops left */
};

/* The code of a block: what it ends in, and what its columns a to e hold. Columns that are not named are 0. */
enum reactive_ending {
    REACTIVE_ENDING_MISSING = 0, /* there is no such block: its whole row is 0 */
    REACTIVE_ENDING_UNREACHABLE = 1, /* no column */
    REACTIVE_ENDING_THROW = 2, /* place: value */
    REACTIVE_ENDING_RETURN = 3, /* place: value */
    REACTIVE_ENDING_GOTO = 4, /* block, variant */
    REACTIVE_ENDING_IF = 5, /* place: test; blocks: consequent, alternate, fallthrough */
    REACTIVE_ENDING_BRANCH = 6, /* place: test; blocks: consequent, alternate */
    REACTIVE_ENDING_SWITCH = 7, /* place: test; first case, number of cases; block: fallthrough */
    REACTIVE_ENDING_DO_WHILE = 8, /* blocks: loop, test, fallthrough */
    REACTIVE_ENDING_WHILE = 9, /* blocks: test, loop, fallthrough */
    REACTIVE_ENDING_FOR = 10, /* blocks: init, test, update (or REACTIVE_NONE), loop, fallthrough */
    REACTIVE_ENDING_FOR_OF = 11, /* blocks: init, test, loop, fallthrough */
    REACTIVE_ENDING_FOR_IN = 12, /* blocks: init, loop, fallthrough */
    REACTIVE_ENDING_LOGICAL = 13, /* operator; blocks: test, fallthrough */
    REACTIVE_ENDING_TERNARY = 14, /* blocks: test, fallthrough */
    REACTIVE_ENDING_OPTIONAL = 15, /* flag (0, 1); blocks: test, fallthrough */
    REACTIVE_ENDING_LABEL = 16, /* blocks: body, fallthrough */
    REACTIVE_ENDING_SEQUENCE = 17, /* blocks: body, fallthrough */
    REACTIVE_ENDING_MAYBE_THROW = 18, /* block: continuation */
    REACTIVE_ENDING_TRY = 19, /* blocks: body, handler, fallthrough; place: binding (or REACTIVE_NONE) */
    REACTIVE_ENDING_SCOPE = 20, /* blocks: body, fallthrough; scope, a number */
    REACTIVE_ENDING_PRUNED_SCOPE = 21, /* blocks: body, fallthrough; scope, a number */
};

/* The variant of a Goto, the operator of a Logical and of a LOGICAL, the kind of a BREAK and of a CONTINUE, what an instruction is. */
enum reactive_variant {
    REACTIVE_VARIANT_BREAK = 0, REACTIVE_VARIANT_CONTINUE = 1, REACTIVE_VARIANT_TRY = 2,
};
enum reactive_operator {
    REACTIVE_OPERATOR_OR = 0, REACTIVE_OPERATOR_AND = 1, REACTIVE_OPERATOR_COALESCE = 2,
};
enum reactive_kind {
    REACTIVE_KIND_IMPLICIT = 0, REACTIVE_KIND_LABELED = 1, REACTIVE_KIND_UNLABELED = 2,
};
enum reactive_value {
    REACTIVE_VALUE_OTHER = 0, /* p and q are 0 */
    REACTIVE_VALUE_LOAD_LOCAL = 1, /* of the place p; q is 0 */
    REACTIVE_VALUE_STORE_LOCAL = 2, /* to the place p, the value at the place q */
};

/* A label, a test of a case, a binding or an update that is not there. */
#define REACTIVE_NONE 65535

/* The codes of refusals. 0 is none. */
enum reactive_refusal {
    REACTIVE_REFUSAL_WORD_COUNT = 1, /* There are fewer than six words, or not as many as the head says. */
    REACTIVE_REFUSAL_COUNT_LIMIT = 2, /* A count is over its limit: blocks 1,024, instructions 4,096, cases 1,024, places 4,096, identifiers 4,096. */
    REACTIVE_REFUSAL_ENTRY = 3, /* The entry is no block. */
    REACTIVE_REFUSAL_WORD = 4, /* The column does not allow this word, or a to is below its from. */
    REACTIVE_REFUSAL_MISSING_BLOCK = 10, /* A block is named that is not there: its code is 0. */
    REACTIVE_REFUSAL_EMITTED = 11, /* The block was emitted before. */
    REACTIVE_REFUSAL_CONSEQUENT_SCHEDULED = 12, /* The consequent of an If is scheduled already. */
    REACTIVE_REFUSAL_ALTERNATE_SCHEDULED = 13, /* The alternate of an If is scheduled already. */
    REACTIVE_REFUSAL_CASE_SCHEDULED = 14, /* The block of a case is scheduled already. */
    REACTIVE_REFUSAL_CONTINUE_SCHEDULED = 15, /* The continue block of a loop is scheduled already. */
    REACTIVE_REFUSAL_LOOP_SCHEDULED = 16, /* The loop block is scheduled already, or is the fallthrough. */
    REACTIVE_REFUSAL_LABEL_SCHEDULED = 17, /* The block of a Label is scheduled already. */
    REACTIVE_REFUSAL_SCOPE_SCHEDULED = 18, /* The block of a Scope is scheduled already. */
    REACTIVE_REFUSAL_BRANCH_SCHEDULED = 19, /* The alternate of a Branch is scheduled already. */
    REACTIVE_REFUSAL_NO_BREAK_TARGET = 20, /* No open statement ends where a break goes. */
    REACTIVE_REFUSAL_NO_CONTINUE_TARGET = 21, /* No open loop continues where a continue goes. */
    REACTIVE_REFUSAL_SCOPE_BREAK = 22, /* A break out of a scope is not Implicit. */
    REACTIVE_REFUSAL_FALLTHROUGH_REACHED = 23, /* The fallthrough of a value was reached before its end. */
    REACTIVE_REFUSAL_EMPTY_GOTO = 24, /* A block of a value is only a Goto. */
    REACTIVE_REFUSAL_TEST_WITHOUT_BRANCH = 25, /* A test does not end in a Branch. */
    REACTIVE_REFUSAL_LABEL_IN_VALUE = 26, /* A Label stands in a value. */
    REACTIVE_REFUSAL_NOT_A_VALUE = 27, /* A terminal stands in a value that no value has. */
    REACTIVE_REFUSAL_EMPTY_MAYBE_THROW = 28, /* A MaybeThrow with no instruction stands as a value. */
    REACTIVE_REFUSAL_NO_LABEL = 29, /* By the rule of the language: no statement around a Labeled jump has the label that it names; of a continue, its own loop has not. */
    REACTIVE_REFUSAL_DEPTH = 30, /* The walk is deeper than 128 visits. */
    REACTIVE_REFUSAL_VISITS = 31, /* The walk has more than 8,192 visits. */
    REACTIVE_REFUSAL_ROWS_LENT = 40, /* The tree has more rows than were lent: rows is the number needed. */
    REACTIVE_REFUSAL_LINES_LENT = 41, /* The tree has more labelled rows than lines were lent for the index. */
    REACTIVE_REFUSAL_LABEL_NOT_FOUND = 42, /* No line of the index has the label. */
    REACTIVE_REFUSAL_LINE_NOT_OF_TREE = 43, /* The line with the label does not fit the tree: its first row is after its closing row, or its closing row is beyond the rows. */
    REACTIVE_REFUSAL_DRAWING_LENT = 44, /* The text of the drawing is longer than the lent buffer. */
    REACTIVE_REFUSAL_LENGTH_LENT = 45, /* An output of the rearrangement, or of its inverse, is shorter or longer than just needed. */
    REACTIVE_REFUSAL_NO_PERMUTATION = 46, /* The list handed to the inverse is no permutation of the block numbers. */
    REACTIVE_REFUSAL_FORM = 50, /* The file is not in the form: no good file has this byte here, or the file ends too early. */
    REACTIVE_REFUSAL_FILE_LENGTH = 51, /* The file is too long: a table has at most 32,768 bytes, a file of rows 262,144. */
    REACTIVE_REFUSAL_TWO_ENDS = 52, /* A to differs from its from: the old form has one end. */
    REACTIVE_REFUSAL_TEXT_LENT = 53, /* The written text is longer than the lent buffer. */
    REACTIVE_REFUSAL_WORDS_LENT = 54, /* The file has more words than were lent. */
    REACTIVE_REFUSAL_ROW_OUT_OF_RANGE = 60, /* The op of this row, or one of its columns, is out of range. */
    REACTIVE_REFUSAL_PARTS_MISSING = 61, /* This row does not find its parts before it. */
    REACTIVE_REFUSAL_NOT_ONE_TREE = 62, /* The rows are not one tree: no row, over 2,048 rows, words that are no multiple of six, or something else left at the end than one BLOCK. */
    REACTIVE_REFUSAL_NO_TARGET = 63, /* This jump was reached, and nothing around it is a target of its sort. */
    REACTIVE_REFUSAL_NOT_RUN = 64, /* LOGICAL, COND, OPTIONAL, TRY, FOROF and FORIN are not run. */
    REACTIVE_REFUSAL_PERFORMED_LENT = 65, /* The lent buffer has no room for the instruction of this PLAIN. */
};

/* ---- The tree of a table ---- */

/* A row of the tree has six words: op, a, b, c, d, e (docs/FORMAT.md). In a BREAK (24) and a CONTINUE (25) d is the number of loops that the
 * jump leaves before its target, at most 128. */
#define REACTIVE_BUILD_ROW_WORDS 6

/* A line of the index has three words: label, first row of the statement, closing row. No two lines of one tree have the same label, and
 * there are at most REACTIVE_BUILD_MOST_LINES. */
#define REACTIVE_BUILD_LINE_WORDS 3
#define REACTIVE_BUILD_MOST_LINES 1023

/* Rows of a table: first, count, code, a, b, c, d, e, id, from, to of a block; id, lvalue, code, p, q, from, to of an instruction. */
#define REACTIVE_BUILD_BLOCK_WORDS 11
#define REACTIVE_BUILD_INSTRUCTION_WORDS 7

/* A span: where it begins and ends in the source. 0 and 0 is none. */
typedef struct {
    uint32_t from, to;
} reactive_span;

/* The span of a row of the tree: UNDEF's, INSTR's, FOROF's, FORIN's; none of any other row. */
static inline reactive_span reactive_row_span(const uint32_t *row) {
    reactive_span span = {0, 0};
    switch (row[0]) {
    case 3:
        span.from = row[1], span.to = row[2];
        break;
    case 4:
    case 16:
    case 17:
        span.from = row[3], span.to = row[4];
        break;
    }
    return span;
}

/* Builds the tree of a table of blocks, and the index of its labels: a line for each statement that has one, in the order of closing rows.
 *
 * words, word_count      the table, of any content and length
 * tree, tree_length      a buffer of any length, in words
 * index, index_length    another, for the lines; reactive_tree_lookup reads them
 *
 * Returns the code: 0, and the buffers hold *rows rows and *lines lines, and then zeros; or a refusal (docs/FORMAT.md), and both hold
 * zeros. *at is the refusal's place, *visits the number of visits. If refused *lines is 0, and *rows but for code 40: then it is the number
 * of rows to lend. Code 41 says that the rows would have fitted and the lines did not. reactive_preview gives both numbers beforehand.
 * Stack: reactive_build 92 KB. */
uint32_t reactive_build(const uint32_t *words, size_t word_count, uint32_t *tree, size_t tree_length, uint32_t *index,
                        size_t index_length, uint32_t *at, uint32_t *rows, uint32_t *visits, uint32_t *lines);

/* The same by the language's rule (docs/FORMAT.md): a break to a loop is Labeled also where a switch is being built in between, and the label
 * that a Labeled jump names is there; else the refusal is 29, which reactive_build never gives.
 * Stack: reactive_build_language 92 KB. */
uint32_t reactive_build_language(const uint32_t *words, size_t word_count, uint32_t *tree, size_t tree_length, uint32_t *index,
                                 size_t index_length, uint32_t *at, uint32_t *rows, uint32_t *visits, uint32_t *lines);

/* ---- What a build will need ---- */

/* The five numbers that reactive_build gives of these words where both of its buffers are large enough: six words a row, three a line.
 *
 * words, word_count    the table, of any content and length
 *
 * Returns the code, never 40 or 41; the others are as of reactive_build. With fewer places for rows than *rows reactive_build
 * gives 40, else with fewer for lines than *lines 41.
 * Stack: reactive_preview 92 KB. */
uint32_t reactive_preview(const uint32_t *words, size_t word_count, uint32_t *at, uint32_t *rows, uint32_t *visits,
                          uint32_t *lines);

/* The same of reactive_build_language. Stack: reactive_preview_language 92 KB. */
uint32_t reactive_preview_language(const uint32_t *words, size_t word_count, uint32_t *at, uint32_t *rows, uint32_t *visits,
                                   uint32_t *lines);

/* ---- A statement by its label ---- */

/* Words in a line of the index: label, first row of the statement, closing row. */
#define REACTIVE_TREE_LOOKUP_LINE_WORDS 3

/* Finds the rows of the statement that has a label.
 *
 * index, index_length    the index, words of any content and number
 * lines                  the number of its lines, as the build gave it: the zeros after them are none
 * label                  any word
 * tree, tree_length      the rows, words of any content and number
 *
 * Returns the code: 0, and the statement's own rows are the words from *begin up to before *end of tree, the closing row last; or a
 * refusal, and *begin and *end are 0. 42: no line has the label. 43: the first line that has it does not tell rows of this tree. *at is 0.
 * Stack: reactive_tree_lookup 4 KB. */
uint32_t reactive_tree_lookup(const uint32_t *index, size_t index_length, uint32_t lines, uint32_t label, const uint32_t *tree,
                              size_t tree_length, uint32_t *at, size_t *begin, size_t *end);

/* ---- Whether a list of rows reads as one tree ---- */

/* The longest list that is accepted, in rows of six words. */
#define REACTIVE_TREE_CHECK_MOST_ROWS 2048

/* Checks a list of rows.
 *
 * tree, tree_length    the rows, words of any content and number. Of a buffer that was lent to reactive_build hand over 6 * rows words: the
 *                      zeros after them are no rows
 *
 * Returns the code: 0 if the list is the rows of one tree; 60, 61 or 62 (docs/FORMAT.md). *at is the row refused 60 or 61, else 0.
 * Stack: reactive_tree_check 12 KB. */
uint32_t reactive_tree_check(const uint32_t *tree, size_t tree_length, uint32_t *at);

/* ---- A tree run on paper ---- */

/* Why a run stopped. */
#define REACTIVE_TREE_RUN_RETURN 1
#define REACTIVE_TREE_RUN_THROW 2
#define REACTIVE_TREE_RUN_END 3
#define REACTIVE_TREE_RUN_NO_ANSWER 4

/* Runs a list of rows by answers.
 *
 * tree, tree_length              the rows, words of any content and number. Of a buffer that was lent to reactive_build hand over 6 * rows words
 * answers, answers_length        one word for each IF, WHILE, FOR and DOWHILE that asks, 0 being no; for a SWITCH the place of the case in source order,
 *                                from 0. Answers left over do not matter
 * performed, performed_length    lent: the instruction rows performed, in order, and then zeros; all zeros where the run is refused
 *
 * Returns the code: 0 if the tree was run; 60 to 62 as reactive_tree_check gives them; 64 at the first row that is not run (LOGICAL,
 * COND, OPTIONAL, TRY, FOROF, FORIN); 63 at a jump reached that has no target; 65 at the first PLAIN reached that the buffer can't
 * take. *at is that row of the tree, or 0; *number the number of rows performed, 0 where refused; *reason one of the four above, 0
 * where refused.
 * The call ends: each round of a loop takes an answer.
 * Stack: reactive_tree_run 60 KB. */
uint32_t reactive_tree_run(const uint32_t *tree, size_t tree_length, const uint32_t *answers, size_t answers_length,
                           uint32_t *performed, size_t performed_length, uint32_t *at, size_t *number, uint32_t *reason);

/* ---- The blocks of a table as a graph in DOT ---- */

/* So many bytes hold the text of any table: two lines of 12 and 2 bytes, and at most 1,049,600 of 16. The text of one table needs 14
 * bytes and 16 for each time that a row names a block; a Switch names its fallthrough and the block of each of its cases. */
#define REACTIVE_BLOCKS_TO_DOT_LARGEST 16793614

/* Draws the blocks of a table: a line for each time that a row names a block.
 *
 * words, word_count      the table, of any content and length
 * text, text_length      a buffer of any length, in bytes
 *
 * Returns the code: 0, and the buffer holds *length bytes of text and then zeros; or a refusal (docs/FORMAT.md), and the buffer holds
 * zeros. *at is the refusal's place. *length is 0 if refused. 44: the text does not fit.
 * Stack: reactive_blocks_to_dot 4 KB. */
uint32_t reactive_blocks_to_dot(const uint32_t *words, size_t word_count, uint8_t *text, size_t text_length, uint32_t *at,
                                size_t *length);

/* ---- The text of a table, and texts of the old form ---- */

/* So many bytes hold the new text of any old file, and the old text of any new one. */
#define REACTIVE_TABLE_TEXT_NEW_LARGEST 65542
#define REACTIVE_TABLE_TEXT_OLD_LARGEST 32768

/* Writes the words of a table in the form of docs/FORMAT.md.
 *
 * words, word_count      the table, of any content and length
 * text, text_length      a buffer of any length, in bytes
 *
 * Returns the code: 0, and the buffer holds *length bytes of text and then zeros; or a refusal (1 to 4, docs/FORMAT.md), and the buffer
 * holds zeros. *at is the refusal's place. *length is 0 if refused. 53: the text does not fit.
 * Stack: reactive_table_write 4 KB. */
uint32_t reactive_table_write(const uint32_t *words, size_t word_count, uint8_t *text, size_t text_length, uint32_t *at,
                              size_t *length);

/* So many words hold those of any file; and half as many words as the file has bytes hold those of that file. */
#define REACTIVE_TABLE_READ_MOST_WORDS 16384

/* Reads a file in the form of docs/FORMAT.md: the words of its table.
 *
 * file, file_length      bytes of any content and number
 * words, word_count      a buffer of any length, in words
 *
 * Returns the code: 0, and the buffer holds *count words and then zeros; or a refusal (docs/FORMAT.md), and the buffer holds zeros. 51
 * for a file that is too long; 50 for one that is not in the form, and *at is the byte; 54: there are more words than were lent. *at
 * is 0 but for 50, *count is 0 if refused. That the words are a table (refusals 1 to 4) is not checked: reactive_table_check does, and
 * every call that takes them.
 * Stack: reactive_table_read 4 KB. */
uint32_t reactive_table_read(const uint8_t *file, size_t file_length, uint32_t *words, size_t word_count, uint32_t *at,
                             size_t *count);

/* A file of the old form, with one span column, in the new one: a span s becomes from s and to s. 50 and 51 for a file that is not in
 * the form, 1 to 4 with *at in words of the old form, 53.
 * Stack: reactive_table_old_to_new 144 KB. */
uint32_t reactive_table_old_to_new(const uint8_t *file, size_t file_length, uint8_t *text, size_t text_length, uint32_t *at,
                                   size_t *length);

/* A file of the new form in the old one. The same refusals, with *at in words of the new form, and before 53: 52, at the word of the first
 * `to` that differs from its `from`.
 * Stack: reactive_table_new_to_old 68 KB. */
uint32_t reactive_table_new_to_old(const uint8_t *file, size_t file_length, uint8_t *text, size_t text_length, uint32_t *at,
                                   size_t *length);

/* ---- The blocks in walking order ---- */

/* Numbers the blocks of a table anew: the entry is 0, the others follow as a breadth-first walk along the lines of
 * reactive_blocks_to_dot first names them, and those that it never names come last in their old order.
 *
 * words, word_count                  the table, of any content and length
 * new_words, new_word_count          for the new table: word_count words
 * old_numbers, old_number_count      for the old number of each block: as many words as the table has blocks (words[1])
 *
 * Returns the code: 0, and both buffers are full; or a refusal (docs/FORMAT.md), and both hold zeros. *at is the refusal's place.
 * 45: a buffer is shorter or longer than just needed.
 * Stack: reactive_blocks_rearrange 8 KB. */
uint32_t reactive_blocks_rearrange(const uint32_t *words, size_t word_count, uint32_t *new_words, size_t new_word_count,
                                   uint32_t *old_numbers, size_t old_number_count, uint32_t *at);

/* Gives every block of a table, the entry too, its old number in the list: of a table and a list that reactive_blocks_rearrange gave,
 * the first table.
 *
 * words, word_count                  the table, of any content and length
 * old_numbers, old_number_count      the list, of any content and length
 * first_words, first_word_count      for the table: word_count words
 *
 * As above. 46: the list is no permutation of the block numbers; tested after 45.
 * Stack: reactive_blocks_restore 8 KB. */
uint32_t reactive_blocks_restore(const uint32_t *words, size_t word_count, const uint32_t *old_numbers, size_t old_number_count,
                                 uint32_t *first_words, size_t first_word_count, uint32_t *at);

/* ---- Whether words are a table ---- */

/* The check that each call makes first of the words of a table.
 *
 * words, word_count    the table, of any content and length
 *
 * Returns the code: 0, or the refusal 1, 2, 3 or 4 (docs/FORMAT.md). *at is its place.
 * Stack: reactive_table_check 4 KB. */
uint32_t reactive_table_check(const uint32_t *words, size_t word_count, uint32_t *at);

/* Which run law speaks of a table (docs/DIFFERENCES.md): one of these numbers. */
enum reactive_law {
    REACTIVE_LAW_NONE = 0, /* No law. */
    REACTIVE_LAW_PLAIN = 1, /* Of plain tables without Switch: the trees of both entries run as the blocks do. */
    REACTIVE_LAW_SWITCHES = 2, /* With Switch: of reactive_build_language. */
    REACTIVE_LAW_LOOPS = 3, /* With the loops and switches that compilers make: as with Switch; where no block ends in Switch, of both. */
};

/* words, word_count    the table, of any content and length
 *
 * Returns the code, as reactive_table_check does, with its place in *at. *number is the first law that speaks of the table, one of
 * reactive_law; 0 where the words are refused. The time grows with the square of the number of blocks.
 * Stack: reactive_table_plain 4 KB. */
uint32_t reactive_table_plain(const uint32_t *words, size_t word_count, uint32_t *at, uint32_t *number);

/* ---- Names and sentences ---- */

/* These are in reactive_names.c, which you compile with your own files. A function gives NULL where there is no such number. */

/* "IF" of an op, "If" of what a block ends in, "Break" of a variant, "or" of an operator, "Implicit" of a kind, "LoadLocal" of what an
 * instruction is. */
const char *reactive_op_name(uint32_t op);
const char *reactive_ending_name(uint32_t code);
const char *reactive_variant_name(uint32_t variant);
const char *reactive_operator_name(uint32_t operator_number);
const char *reactive_kind_name(uint32_t kind);
const char *reactive_value_name(uint32_t code);

/* What a refusal means: the sentence of docs/FORMAT.md. And what its place counts: a text that begins with "byte", "word", "block" or
 * "row", or is "0" where the place is always 0. */
const char *reactive_refusal_sentence(uint32_t code);
const char *reactive_refusal_place(uint32_t code);

/* What a column holds. */
enum reactive_column_kind {
    REACTIVE_COLUMN_UNUSED = 0, /* 0 */
    REACTIVE_COLUMN_BLOCK = 1, /* a row of the blocks */
    REACTIVE_COLUMN_BLOCK_OR_NONE = 2, /* or REACTIVE_NONE */
    REACTIVE_COLUMN_PLACE = 3, /* a row of the places */
    REACTIVE_COLUMN_PLACE_OR_NONE = 4, /* or REACTIVE_NONE */
    REACTIVE_COLUMN_INSTRUCTION = 5, /* a row of the instructions */
    REACTIVE_COLUMN_CASE = 6, /* a row of the cases */
    REACTIVE_COLUMN_COUNT = 7, /* how many */
    REACTIVE_COLUMN_NUMBER = 8, /* a number that is copied: an id, an end of a span, a scope */
    REACTIVE_COLUMN_FLAG = 9, /* 0 or 1 */
    REACTIVE_COLUMN_VARIANT = 10, /* of reactive_variant */
    REACTIVE_COLUMN_OPERATOR = 11, /* of reactive_operator */
    REACTIVE_COLUMN_KIND = 12, /* of reactive_kind */
};
typedef struct {
    const char *name; /* "" of one that is not used */
    enum reactive_column_kind kind;
} reactive_column;

/* The five columns a to e of a row of the tree with this op, and of a block with this code. */
const reactive_column *reactive_op_columns(uint32_t op);
const reactive_column *reactive_ending_columns(uint32_t code);

/* How many parts a row of the tree has: their rows stand before it, each as the last row of its own part. 0 of no op. */
uint64_t reactive_row_parts(const uint32_t *row);

/* ---- Old names ---- */

/* For this version alone; left out where REACTIVE_NO_OLD_NAMES is defined before the header is included. */
#ifndef REACTIVE_NO_OLD_NAMES
#define blocks_rearrange reactive_blocks_rearrange
#define blocks_restore reactive_blocks_restore
#define blocks_to_dot reactive_blocks_to_dot
#define table_check reactive_table_check
#define table_new_to_old reactive_table_new_to_old
#define table_old_to_new reactive_table_old_to_new
#define table_plain reactive_table_plain
#define table_read reactive_table_read
#define table_write reactive_table_write
#define tree_check reactive_tree_check
#define tree_lookup reactive_tree_lookup
#define tree_run reactive_tree_run
#define BLOCKS_TO_DOT_LARGEST REACTIVE_BLOCKS_TO_DOT_LARGEST
#define REACTIVE_LAW_PAPER_01 REACTIVE_LAW_PLAIN
#define TABLE_READ_MOST_WORDS REACTIVE_TABLE_READ_MOST_WORDS
#define TABLE_TEXT_NEW_LARGEST REACTIVE_TABLE_TEXT_NEW_LARGEST
#define TABLE_TEXT_OLD_LARGEST REACTIVE_TABLE_TEXT_OLD_LARGEST
#define TREE_CHECK_MOST_ROWS REACTIVE_TREE_CHECK_MOST_ROWS
#define TREE_LOOKUP_LINE_WORDS REACTIVE_TREE_LOOKUP_LINE_WORDS
#define TREE_RUN_END REACTIVE_TREE_RUN_END
#define TREE_RUN_NO_ANSWER REACTIVE_TREE_RUN_NO_ANSWER
#define TREE_RUN_RETURN REACTIVE_TREE_RUN_RETURN
#define TREE_RUN_THROW REACTIVE_TREE_RUN_THROW
#endif

#ifdef __cplusplus
}
#endif

#endif
