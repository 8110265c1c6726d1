/* Bytes as calls: of each input, some bytes, a table is made (in range, spoilt, raw words, or a file's text) or a list of rows. Every
 * function of ffi/reactive.h is called on it, with buffers of all lengths around those that are just enough, and what the header promises
 * is checked: a refusal leaves zeros, the preview is the build's, an index line finds its rows, text and order can be had back, a renamed
 * table builds the renamed tree. The first promise that is broken ends the program (abort).
 *
 * Linked with -fsanitize=fuzzer it is a fuzzer. With -DREPLAY it reads inputs from standard input, each behind its length (four bytes,
 * the lowest first), and prints how many calls were made, what was refused, and a sum of all answers and all that was written to lent
 * buffers. With -DTHREADS it does the same by one thread and then by 8 at once, whose sums must be those of the one. With -DFILL lent
 * buffers are full before a call, else they have nothing in them, which MemorySanitizer and memcheck know. */
#include "reactive.h"
#include <stdio.h>
#include <stdlib.h>
#include <string.h>

#define DIE(...) (fprintf(stderr, "CONTRACT line %d: ", __LINE__), fprintf(stderr, __VA_ARGS__), fputc('\n', stderr), abort())
#define MUST(c)                                                                                                                            \
    do {                                                                                                                                   \
        if (!(c)) DIE("%s", #c);                                                                                                           \
    } while (0)

#ifdef THREADS
#define OWN static _Thread_local
#else
#define OWN static
#endif
OWN unsigned long calls, accepted, refused[100];
OWN const uint8_t *in; /* what is left of the input */
OWN size_t left;

#define FIRST_SUM 14695981039346656037u
OWN uint64_t sum = FIRST_SUM; /* FNV-1a of all that was answered and written */
static void mix(const void *p, size_t n) {
    const uint8_t *b = p;
    for (size_t i = 0; i < n; i++) sum = (sum ^ b[i]) * 1099511628211u;
}
static uint32_t u8(void) {
    if (!left) return 0;
    left--;
    return *in++;
}
static uint32_t u16(void) {
    uint32_t a = u8();
    return a | u8() << 8;
}
static uint32_t u32(void) {
    uint32_t a = u16();
    return a | u16() << 16;
}

/* What is lent: of the very length, and never null. */
static void *lend(size_t n, int fill) {
    (void)fill;
    void *p = malloc(n ? n : 1);
    if (!p) abort();
#ifdef FILL
    memset(p, fill, n);
#endif
    return p;
}
static uint32_t *words_of(const uint32_t *w, size_t n) {
    uint32_t *p = lend(n * 4, 0);
    if (n) memcpy(p, w, n * 4);
    return p;
}
static int zeros(const void *p, size_t n) {
    const uint8_t *b = p;
    for (size_t i = 0; i < n; i++)
        if (b[i]) return 0;
    return 1;
}
static void note(uint32_t code) {
    calls++;
    mix(&code, 4);
    if (!code) accepted++;
    else if (code < 100) refused[code]++;
    else DIE("code %u", code);
}

typedef struct {
    uint32_t code, at, rows, visits, lines;
} built;
typedef uint32_t entry(const uint32_t *, size_t, uint32_t *, size_t, uint32_t *, size_t, uint32_t *, uint32_t *, uint32_t *, uint32_t *);
typedef uint32_t ahead(const uint32_t *, size_t, uint32_t *, uint32_t *, uint32_t *, uint32_t *);
static built call_build(entry *e, const uint32_t *w, size_t n, uint32_t *tree, size_t tl, uint32_t *index, size_t il) {
    built b = {9, 9, 9, 9, 9};
    b.code = e(w, n, tree, tl, index, il, &b.at, &b.rows, &b.visits, &b.lines);
    note(b.code);
    return b;
}
static void rows_of(const uint32_t *rows, size_t length, const uint32_t *index, size_t il, uint32_t lines, int good);

/* One entry: the preview, and builds with room enough, just enough, one word less, and odd lengths. */
static built entries(entry *e, ahead *a, const uint32_t *w, size_t n, uint32_t odd, uint32_t **kept) {
    built p = {9, 9, 9, 9, 9};
    p.code = a(w, n, &p.at, &p.rows, &p.visits, &p.lines);
    note(p.code);
    MUST(p.code != 40 && p.code != 41 && p.lines <= REACTIVE_BUILD_MOST_LINES && p.visits <= 8193);
    if (p.code) MUST(!p.rows && !p.lines);
    size_t need = p.code ? 60 : (size_t)p.rows * 6, needl = p.code ? 30 : (size_t)p.lines * 3;
    size_t tls[4] = {need, need + odd % 31, need ? need - 1 : 0, odd % 97},
           ils[4] = {needl, needl + odd % 17, needl, needl ? needl - 1 : 0};
    *kept = NULL;
    for (int k = 0; k < 4; k++) {
        size_t tl = tls[k], il = ils[k];
        uint32_t *tree = lend(tl * 4, k), *index = lend(il * 4, 255 - k);
        built b = call_build(e, w, n, tree, tl, index, il);
        mix(&b, sizeof b);
        mix(tree, tl * 4);
        mix(index, il * 4);
        if (p.code) MUST(!memcmp(&b, &p, sizeof b));
        else if (tl < need) MUST(b.code == 40 && b.at == 0 && b.rows == p.rows && b.visits == p.visits && !b.lines);
        else if (il < needl) MUST(b.code == 41 && b.at == 0 && b.rows == 0 && b.visits == p.visits && !b.lines);
        else MUST(!memcmp(&b, &p, sizeof b) && b.at == 0);
        if (b.code) MUST(zeros(tree, tl * 4) && zeros(index, il * 4));
        else {
            MUST(zeros(tree + need, (tl - need) * 4) && zeros(index + needl, (il - needl) * 4));
            for (uint32_t r = 0; r < b.rows; r++) MUST(tree[6 * r] >= 1 && tree[6 * r] <= 25);
            MUST(tree[6 * (b.rows - 1)] == 9);
            for (uint32_t i = 0; i < b.lines; i++) {
                MUST(index[3 * i + 1] <= index[3 * i + 2] && index[3 * i + 2] < b.rows && (!i || index[3 * i - 1] < index[3 * i + 2]));
                for (uint32_t j = 0; j < i; j++) MUST(index[3 * j] != index[3 * i]);
            }
            if (k == 1) rows_of(tree, need, index, il, b.lines, 1);
            if (!*kept) {
                *kept = tree;
                tree = NULL;
            } else MUST(!memcmp(*kept, tree, need * 4));
        }
        free(tree);
        free(index);
    }
    return p;
}

static void rows_of(const uint32_t *rows, size_t length, const uint32_t *index, size_t il, uint32_t lines, int good) {
    uint32_t at = 9, again = 9, reason = 9;
    uint32_t *tree = words_of(rows, length);
    uint32_t code = tree_check(tree, length, &at);
    note(code);
    MUST(code == 0 || (code >= 60 && code <= 62));
    if (good) MUST(code == 0 || (code == 62 && length > 6 * 2048));
    if (code == 0 || code == 62) MUST(at == 0);
    for (uint32_t i = 0; i < lines + 2; i++) {
        uint32_t label = i < lines ? index[3 * i] : i == lines ? u16() : u32(), f = 9;
        size_t begin = 9, end = 9;
        uint32_t c = tree_lookup(index, il, lines, label, tree, length, &f, &begin, &end);
        note(c);
        MUST(f == 0 && (c == 0 || c == 42 || c == 43));
        if (c) MUST(!begin && !end);
        else MUST(begin < end && end <= length && begin % 6 == 0 && end % 6 == 0);
        if (good && i < lines) MUST(c == 0 && begin == 6 * (size_t)index[3 * i + 1] && end == 6 * ((size_t)index[3 * i + 2] + 1));
    }
    size_t n = u8() % 24;
    uint32_t *answers = lend(n * 4, 0);
    for (size_t i = 0; i < n; i++) answers[i] = u8() % 5;
    size_t room = u8() * 9u;
    size_t number = 9, number2 = 9;
    uint32_t at2, reason2;
    uint32_t *done = lend(room * 4, 1), *done2 = lend(room * 4, 2);
    uint32_t c = tree_run(tree, length, answers, n, done, room, &again, &number, &reason);
    note(c);
    MUST(tree_run(tree, length, answers, n, done2, room, &at2, &number2, &reason2) == c && at2 == again && number2 == number &&
         reason2 == reason && !memcmp(done, done2, room * 4));
    mix(done, room * 4);
    mix(&again, 4);
    if (code) MUST(c == code && again == at);
    else MUST(c == 0 || (c >= 63 && c <= 65));
    if (c) MUST(!number && !reason && zeros(done, room * 4));
    else MUST(reason >= 1 && reason <= 4 && number <= room && zeros(done + number, (room - number) * 4));
    free(tree);
    free(answers);
    free(done);
    free(done2);
}

static void text_of(const uint8_t *bytes, size_t length, uint32_t odd);
static void table_of(const uint32_t *made, size_t n, uint32_t odd, int inner) {
    uint32_t *w = words_of(made, n);
    uint32_t at = 9, at2 = 9, law = 9;
    size_t length = 9;
    uint32_t good = table_check(w, n, &at);
    note(good);
    MUST(good <= 4);
    if (!good || good == 1 || good == 3) MUST(at == 0);
    uint32_t c = table_plain(w, n, &at2, &law);
    note(c);
    MUST(c == good && at2 == at && law <= 3 && (!c || !law));
    uint32_t *t1, *t2;
    built b = entries(reactive_build, reactive_preview, w, n, odd, &t1),
          l = entries(reactive_build_language, reactive_preview_language, w, n, odd * 7, &t2);
    if (good) MUST(b.code == good && b.at == at && !b.visits && !memcmp(&b, &l, sizeof b));
    else {
        MUST(b.code == 0 || (b.code >= 10 && b.code <= 31 && b.code != 29));
        MUST(l.code == 29 || (l.code == b.code && l.at == b.at && l.rows == b.rows && l.visits == b.visits));
        if (!l.code)
            for (size_t i = 0; i < (size_t)b.rows * 6; i++)
                if (t1[i] != t2[i]) MUST(i % 6 == 3 && (t1[i - 3] == 24 || t1[i - 3] == 25));
    }
    free(t1);
    free(t2);
    /* the drawing and the text, with room enough, just enough, and a byte less */
    uint8_t *big = lend(1 << 18, 3);
    c = blocks_to_dot(w, n, big, 1 << 18, &at2, &length);
    note(c);
    MUST(c == good || (!good && c == 44));
    if (c == good) MUST(at2 == at);
    if (c) MUST(!length && zeros(big, 1 << 18));
    else {
        mix(big, length);
        MUST(length >= 14 && !memcmp(big, "digraph g {\n", 12) && !memcmp(big + length - 2, "}\n", 2) &&
             zeros(big + length, (1 << 18) - length));
        for (int less = 0; less < 2; less++) {
            uint8_t *text = lend(length - less, 4);
            size_t len2 = 9;
            c = blocks_to_dot(w, n, text, length - less, &at2, &len2);
            note(c);
            if (less) MUST(c == 44 && !at2 && !len2 && zeros(text, length - 1));
            else MUST(!c && len2 == length && !memcmp(text, big, length));
            free(text);
        }
    }
    c = table_write(w, n, big, 1 << 18, &at2, &length);
    note(c);
    MUST(c == good || (!good && c == 53));
    if (c == good) MUST(at2 == at);
    if (c) MUST(!length && zeros(big, 1 << 18));
    else {
        MUST(zeros(big + length, (1 << 18) - length));
        uint8_t *text = lend(length - 1, 4);
        size_t len2 = 9;
        c = table_write(w, n, text, length - 1, &at2, &len2);
        note(c);
        MUST(c == 53 && !at2 && !len2 && zeros(text, length - 1));
        free(text);
        text = lend(length, 5);
        memcpy(text, big, length);
        uint32_t *back = lend(n * 4 + 12, 6);
        size_t count = 9;
        c = table_read(text, length, back, n + 3, &at2, &count);
        note(c);
        if (length > 32768) MUST(c == 51);
        else MUST(c == 0 && count == n && !memcmp(back, w, n * 4) && zeros(back + n, 12));
        if (!c) {
            c = table_read(text, length, back, n - 1, &at2, &count);
            note(c);
            MUST(c == 54 && !at2 && !count && zeros(back, (n - 1) * 4));
        }
        free(back);
        if (!inner) text_of(text, length, odd | 1u << 31);
        free(text);
    }
    free(big);
    /* walking order and back */
    size_t nb = good ? odd % 7 : w[1];
    for (int d = good ? 0 : -1; d < 1; d++) {
        size_t nl = n + (d ? odd % 3 : 0), ol = nb + (d ? 1 - odd % 2 : 0);
        uint32_t *nw = lend(nl * 4, 7), *old = lend(ol * 4, 8);
        c = blocks_rearrange(w, n, nw, nl, old, ol, &at2);
        note(c);
        if (good) MUST(c == good && at2 == at);
        else MUST(c == (nl == n && ol == nb ? 0 : 45) && at2 == 0);
        mix(nw, nl * 4);
        mix(old, ol * 4);
        if (c) MUST(zeros(nw, nl * 4) && zeros(old, ol * 4));
        else {
            uint32_t *first = lend(n * 4, 9), *nw2 = lend(n * 4, 1), *old2 = lend(nb * 4, 2);
            c = blocks_restore(nw, n, old, nb, first, n, &at2);
            note(c);
            MUST(!c && !at2 && !memcmp(first, w, n * 4));
            c = blocks_rearrange(nw, n, nw2, n, old2, nb, &at2);
            note(c);
            MUST(!c && !memcmp(nw, nw2, n * 4));
            for (size_t i = 0; i < nb; i++) MUST(old2[i] == i);
            built r = {0, 0, 0, 0, 0};
            r.code = reactive_preview(nw, n, &r.at, &r.rows, &r.visits, &r.lines);
            note(r.code);
            MUST(r.code == b.code && r.rows == b.rows && r.visits == b.visits && r.lines == b.lines);
            if (r.code) MUST(r.at < nb && old[r.at] == b.at);
            r.code = reactive_preview_language(nw, n, &r.at, &r.rows, &r.visits, &r.lines);
            note(r.code);
            MUST(r.code == l.code && r.rows == l.rows && r.visits == l.visits && r.lines == l.lines);
            uint32_t law2;
            c = table_plain(nw, n, &at2, &law2);
            note(c);
            MUST(!c && law2 == law);
            if (nb) old[odd % nb] ^= odd >> 8;
            c = blocks_restore(nw, n, old, nb, first, n, &at2);
            note(c);
            MUST(c == 0 || c == 46);
            if (c) MUST(zeros(first, n * 4));
            free(first);
            free(nw2);
            free(old2);
        }
        free(nw);
        free(old);
    }
    free(w);
}

static void text_of(const uint8_t *bytes, size_t length, uint32_t odd) {
    uint8_t *file = lend(length, 0);
    if (length) memcpy(file, bytes, length);
    uint32_t at = 9, at2 = 9;
    size_t count = 9, len = 9, len2 = 9;
    uint32_t *w = lend(16384 * 4, 1);
    uint32_t c = table_read(file, length, w, 16384, &at, &count);
    note(c);
    MUST(c == 0 || c == 50 || c == 51);
    if (c != 50) MUST(at == 0);
    else MUST(at <= length);
    mix(w, count * 4);
    mix(&at, 4);
    MUST(zeros(w + count, (16384 - count) * 4));
    if (c) MUST(!count);
    uint8_t *old = lend(32768, 2), *new = lend(65542, 3), *again = lend(65542, 3);
    uint32_t o = table_new_to_old(file, length, old, 32768, &at2, &len);
    note(o);
    if (c) MUST(o == c && at2 == at && !len && zeros(old, 32768));
    else MUST(o <= 4 || o == 52);
    if (!o) {
        uint8_t *cut = lend(len, 4);
        memcpy(cut, old, len);
        o = table_old_to_new(cut, len, new, 65542, &at2, &len2);
        note(o);
        MUST(!o && len2 == length && !memcmp(new, file, length) && zeros(new + len2, 65542 - len2));
        o = table_old_to_new(cut, len, again, len2 - 1, &at2, &len2);
        note(o);
        MUST(o == 53 && !at2 && !len2 && zeros(again, length - 1));
        free(cut);
    } else MUST(!len && zeros(old, 32768));
    o = table_old_to_new(file, length, new, 65542, &at2, &len2);
    note(o);
    MUST(o <= 4 || o == 50 || o == 51);
    if (!o && len2 <= 32768) {
        uint8_t *cut = lend(len2, 4);
        memcpy(cut, new, len2);
        o = table_new_to_old(cut, len2, old, 32768, &at2, &len);
        note(o);
        MUST(!o && len == length && !memcmp(old, file, length));
        free(cut);
    }
    free(old);
    free(new);
    free(again);
    if (!c && !(odd >> 31)) table_of(w, count, odd, 1);
    free(w);
    free(file);
}

/* The columns of a block by its code: b a block, p a place, u a block or none, q a place or none, 2 and 3 a number below it, s any byte.
 * The cases of a Switch, c, are two columns. */
static const char *const columns[] = {"", "", "p", "p", "b3", "pbbb", "pbb", "pcb", "bbb", "bbb", "bbubb",
                                      "bbbb", "bbb", "3bb", "bb", "2bb", "bb", "bb", "b", "bbbq", "bbs", "bbs"};

/* A table whose columns are in range. */
static size_t make(uint32_t *w) {
    uint32_t blocks = 1 + u8() % 40, instructions = u8() % 20, cases = u8() % 12, places = 1 + u8() % 6, named = 1 + u8() % 4;
    size_t n = 6;
    memcpy(w, (uint32_t[]){u8() % blocks, blocks, instructions, cases, places, named}, 24);
    for (uint32_t i = 0; i < blocks; i++) {
        uint32_t *r = w + n;
        n += 11;
        memset(r, 0, 44);
        uint32_t code = u8() % 23;
        if (code == 22) code = 4;
        r[2] = code;
        if (!code) continue;
        uint32_t own = u8();
        r[1] = (own & 3) > instructions ? instructions : own & 3;
        r[0] = r[1] ? (own >> 2) % (instructions - r[1] + 1) : 0;
        uint32_t *word = r + 3;
        for (const char *kind = columns[code]; *kind; kind++) {
            uint32_t v = u8();
            switch (*kind) {
            case 'b': *word++ = v % blocks; break;
            case 'p': *word++ = v % places; break;
            case 'u': *word++ = v & 1 ? REACTIVE_NONE : (v >> 1) % blocks; break;
            case 'q': *word++ = v & 1 ? REACTIVE_NONE : (v >> 1) % places; break;
            case '2': *word++ = v % 2; break;
            case '3': *word++ = v % 3; break;
            case 's': *word++ = v; break;
            case 'c':
                word[1] = v % (cases + 1);
                word[0] = word[1] ? u8() % (cases - word[1] + 1) : 0;
                word += 2;
                break;
            }
        }
        r[8] = u8();
        r[9] = u8();
        r[10] = r[9] + u8() % 3;
    }
    for (uint32_t i = 0; i < instructions; i++) {
        uint32_t *r = w + n;
        n += 7;
        memset(r, 0, 28);
        r[0] = u8();
        r[1] = u8() % places;
        r[2] = u8() % 3;
        if (r[2]) r[3] = u8() % places;
        if (r[2] == 2) r[4] = u8() % places;
        r[5] = u8();
        r[6] = r[5] + u8() % 2;
    }
    for (uint32_t i = 0; i < cases; i++) {
        uint32_t test = u8();
        w[n++] = test & 1 ? REACTIVE_NONE : (test >> 1) % places;
        w[n++] = u8() % blocks;
    }
    for (uint32_t i = 0; i < places; i++) w[n++] = u8() % named;
    for (uint32_t i = 0; i < named; i++) w[n++] = u8() & 1;
    return n;
}

enum { MOST_WORDS = 51000 }; /* more than any table has */

int LLVMFuzzerTestOneInput(const uint8_t *data, size_t size) {
    OWN uint32_t w[MOST_WORDS];
    if (size < 3 || size > 2 * MOST_WORDS) return 0;
    uint32_t mode = data[0] % 8, odd = data[1] | data[2] << 8;
    size_t n = 0;
    in = data + 3;
    left = size - 3;
    if (mode <= 3) { /* made; by every second mode then spoilt */
        n = make(w);
        if (mode & 1)
            for (uint32_t k = odd % 3 + 1; k && left; k--) {
                size_t i = u16() % n;
                uint32_t v = u8();
                w[i] = v < 200 ? v : v < 210 ? 65535 : v < 220 ? 65536 : u32();
            }
        if (mode == 3 && odd & 1) n = odd % (n + 8);
        table_of(w, n, odd, 0);
    } else if (mode == 4) { /* words as they are */
        while (left && n < MOST_WORDS) w[n++] = odd & 1 ? u32() : u16();
        table_of(w, n, odd, 0);
    } else if (mode <= 6) text_of(in, left, odd);
    else { /* rows, and an index of any content */
        uint32_t index[64];
        for (int i = 0; i < 64; i++) index[i] = u8();
        uint32_t il = u8() % 65, lines = u8() % 24;
        if (odd & 2) lines = u32();
        uint32_t *lent = words_of(index, il);
        if (lines > 30) {
            uint32_t at;
            size_t b, e;
            note(tree_lookup(lent, il, lines, u8(), w, 600, &at, &b, &e));
            lines = 20;
        }
        if (il < 3 * lines) lines = il / 3;
        while (left > 28 && n < 13000) {
            uint32_t v = u8();
            w[n++] = v == 255 ? REACTIVE_NONE : v == 254 ? u32() : v;
        } /* the last 28 bytes are for a label, answers and room */
        if (odd & 4) n -= n % 6;
        rows_of(w, n, lent, il, lines, 0);
        free(lent);
    }
    return 0;
}

#if defined REPLAY || defined THREADS
static uint8_t bytes[1 << 17];
/* The next input of standard input, in memory of its very length; none at the end. */
static uint8_t *next(size_t *n) {
    uint8_t head[4];
    if (fread(head, 1, 4, stdin) < 4) return NULL;
    *n = head[0] | head[1] << 8 | head[2] << 16 | (size_t)head[3] << 24;
    if (*n > sizeof bytes || fread(bytes, 1, *n, stdin) < *n) DIE("no list of inputs");
    uint8_t *input = malloc(*n ? *n : 1);
    if (!input) abort();
    memcpy(input, bytes, *n);
    return input;
}
#endif

#ifdef THREADS
#include <pthread.h>
enum { THREADS_AT_ONCE = 8, MOST_INPUTS = 20000, STACK = 512 << 10 };
static struct {
    uint8_t *bytes;
    size_t n;
    uint64_t sum;
} inputs[MOST_INPUTS];
static int many;

static uint64_t sum_of(int i) {
    sum = FIRST_SUM;
    LLVMFuzzerTestOneInput(inputs[i].bytes, inputs[i].n);
    return sum;
}

/* A thread: all inputs, from one of its own on. */
static void *thread(void *number) {
    for (int k = 0; k < many; k++) {
        int i = (k + (int)(size_t)number * many / THREADS_AT_ONCE) % many;
        if (sum_of(i) != inputs[i].sum) DIE("input %d differs", i);
    }
    return (void *)calls;
}

int main(void) {
    pthread_t threads[THREADS_AT_ONCE];
    pthread_attr_t small;
    unsigned long all = 0;
    for (; many < MOST_INPUTS && (inputs[many].bytes = next(&inputs[many].n)); many++) inputs[many].sum = sum_of(many);
    pthread_attr_init(&small);
    pthread_attr_setstacksize(&small, STACK);
    for (size_t i = 0; i < THREADS_AT_ONCE; i++)
        if (pthread_create(&threads[i], &small, thread, (void *)i)) abort();
    for (int i = 0; i < THREADS_AT_ONCE; i++) {
        void *made;
        pthread_join(threads[i], &made);
        all += (unsigned long)made;
    }
    printf("%d inputs, %lu calls by %d threads, each answer and buffer as of one thread\n", many, all, THREADS_AT_ONCE);
    return 0;
}
#elif defined REPLAY
int main(void) {
    unsigned long many = 0;
    size_t n;
    for (uint8_t *input; (input = next(&n)); many++) {
        LLVMFuzzerTestOneInput(input, n);
        free(input);
    }
    printf("%lu inputs, %lu calls, %lu accepted; refused:", many, calls, accepted);
    for (int i = 0; i < 100; i++)
        if (refused[i]) printf(" %d:%lu", i, refused[i]);
    printf("; sum %016llx\n", (unsigned long long)sum);
    return 0;
}
#endif
