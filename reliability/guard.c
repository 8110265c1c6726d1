/* Stacks that are too small: each function of ffi/reactive.h is called on threads' stacks of 16 to 192 KB. A call either gives its answer
 * or ends at the guard page of 4 KB below the stack (SIGSEGV): no byte below that page may change. */
#define _GNU_SOURCE
#include "reactive.h"
#include <pthread.h>
#include <signal.h>
#include <stdio.h>
#include <string.h>
#include <sys/mman.h>
#include <sys/resource.h>
#include <sys/wait.h>
#include <unistd.h>

enum { BELOW = 1 << 20, PAGE = 4096, FILL = 0x5a, WRONG = 50, NO_THREAD = 77 };

static const uint32_t table[] = {0, 1, 0, 0, 1, 1, 0, 0, 3, 0, 0, 0, 0, 0, 7, 0, 0, 0, 1}, tree[] = {22, 0, 7, 0, 0, 0, 9, 1, 0, 0, 0, 0};
#define TEXT(ends, span)                                                                                                                   \
    "entry blocks instructions cases places identifiers\n0 1 0 0 1 1\nfirst count code a b c d e id " ends "\n0 0 3 0 0 0 0 0 7 " span     \
    "\nid lvalue code p q " ends "\ntest block\nidentifier\n0\nnamed\n1\n"
static const uint8_t text[] = TEXT("from to", "0 0"), old[] = TEXT("span", "0");
static uint32_t words[64], list[64], a, b, c, d;
static const uint32_t line[3] = {5, 0, 1}, answer[1] = {1}, first[1] = {0};
static uint8_t bytes[400];
static size_t m, n;

#define CALL(name, ...)                                                                                                                    \
    static uint32_t call_##name(void) { return name(__VA_ARGS__); }
CALL(reactive_build, table, 19, words, 12, list, 3, &a, &b, &c, &d)
CALL(reactive_build_language, table, 19, words, 12, list, 3, &a, &b, &c, &d)
CALL(reactive_preview, table, 19, &a, &b, &c, &d)
CALL(reactive_preview_language, table, 19, &a, &b, &c, &d)
CALL(tree_check, tree, 12, &a)
CALL(tree_run, tree, 12, answer, 1, words, 3, &a, &n, &b)
CALL(tree_lookup, line, 3, 1, 5, tree, 12, &a, &m, &n)
CALL(blocks_to_dot, table, 19, bytes, sizeof bytes, &a, &n)
CALL(table_write, table, 19, bytes, sizeof bytes, &a, &n)
CALL(table_read, text, sizeof text - 1, words, 64, &a, &n)
CALL(table_old_to_new, old, sizeof old - 1, bytes, sizeof bytes, &a, &n)
CALL(table_new_to_old, text, sizeof text - 1, bytes, sizeof bytes, &a, &n)
CALL(blocks_rearrange, table, 19, words, 19, list, 1, &a)
CALL(blocks_restore, table, 19, first, 1, words, 19, &a)
CALL(table_check, table, 19, &a)
CALL(table_plain, table, 19, &a, &b)

#define NAMED(name) {#name, call_##name}
static const struct {
    const char *name;
    uint32_t (*call)(void);
} functions[] = {NAMED(reactive_build),   NAMED(reactive_build_language), NAMED(reactive_preview), NAMED(reactive_preview_language),
                 NAMED(tree_check),       NAMED(tree_run),                NAMED(tree_lookup),      NAMED(blocks_to_dot),
                 NAMED(table_write),      NAMED(table_read),              NAMED(table_old_to_new), NAMED(table_new_to_old),
                 NAMED(blocks_rearrange), NAMED(blocks_restore),          NAMED(table_check),      NAMED(table_plain)};
static uint32_t (*called)(void);

static void *thread(void *unused) {
    (void)unused;
    _exit(called() ? WRONG : 0);
}

/* How a process ends that makes the call on a thread with this stack. */
static int ended(char *stack, size_t size) {
    pid_t child = fork();
    if (!child) {
        pthread_attr_t small;
        pthread_t made;
        setrlimit(RLIMIT_CORE, &(struct rlimit){0, 0});
        pthread_attr_init(&small);
        pthread_attr_setstack(&small, stack, size);
        if (pthread_create(&made, &small, thread, NULL)) _exit(NO_THREAD);
        pthread_join(made, NULL);
        _exit(WRONG);
    }
    int status = 0;
    waitpid(child, &status, 0);
    return status;
}

int main(void) {
    int runs = 0, at_guard = 0, failed = 0;
    for (size_t f = 0; f < sizeof functions / sizeof *functions; f++) {
        called = functions[f].call;
        size_t least = 0;
        for (size_t kb = 16; kb <= 192; kb += 4, runs++) {
            size_t size = kb << 10, all = BELOW + PAGE + size;
            unsigned char *lent = mmap(NULL, all, PROT_READ | PROT_WRITE, MAP_SHARED | MAP_ANONYMOUS, -1, 0);
            char *guard = (char *)lent + BELOW;
            memset(lent, FILL, BELOW);
            mprotect(guard, PAGE, PROT_NONE);
            int status = ended(guard + PAGE, size), below = 1;
            for (size_t i = 0; i < BELOW; i++) below &= lent[i] == FILL;
            munmap(lent, all);
            int stopped = WIFSIGNALED(status) && WTERMSIG(status) == SIGSEGV;
            int none = WIFEXITED(status) && WEXITSTATUS(status) == NO_THREAD;
            at_guard += stopped;
            if (!status && !least) least = kb;
            if (below && (!status || stopped || none)) continue;
            failed++;
            const char *more = below ? "" : ", a byte below the page changed";
            printf("guard: FAILED: %s, %zu KB: status %#x%s\n", functions[f].name, kb, status, more);
        }
        if (!least) {
            failed++;
            printf("guard: FAILED: %s gave no answer on a stack of 192 KB\n", functions[f].name);
        }
    }
    printf("guard: %d stacks, %d calls ended at the guard page, %d failed\n", runs, at_guard, failed);
    return failed != 0;
}
