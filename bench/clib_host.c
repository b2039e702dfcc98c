/*
 * A C host of the library, for bench/clib. It reads cases from the standard input: a line with the numbers
 *
 *     flags room space queue look nodes turns script_len input_len
 *
 * and then the bytes of the script and of the input. What it does with them is its first argument:
 *
 *     run            calls sed_check and sed_edit once for each, and prints for both what they report, and the bytes written
 *     refuse         calls sed_edit again and again, and refuses each of its requests for memory in turn
 *     threads COUNT  calls sed_edit for all cases in so many threads at once, and compares with calls made alone
 *     stack KIB      calls both for all cases in a thread with so small a stack
 *     time COUNT     calls sed_edit so often for each case, and prints the nanoseconds of one call
 *     memory         calls sed_edit for each case, and prints the most bytes that it held
 *
 * It is linked with --wrap for malloc, realloc and free. Where something is wrong it says so, with status 1.
 */
#define _POSIX_C_SOURCE 200809L
#include "csed.h"

#include <inttypes.h>
#include <malloc.h>
#include <pthread.h>
#include <stdbool.h>
#include <stdio.h>
#include <stdlib.h>
#include <string.h>
#include <time.h>

enum { GUARD = 64, FILLER = '#' };

struct one_case {
    uint32_t flags;
    size_t room, script_len, input_len;
    struct sed_limits limits;
    uint8_t *script, *input;
};

struct answer {
    int32_t status;
    struct sed_report report;
    uint8_t *output; /* room bytes and a guard after them */
};

/* What the library asks for memory, where it is counted: only while one thread runs. */
static bool counts;
static long requests, live, refused_request;
static size_t held, most_held;

void *__real_malloc(size_t size);
void *__real_realloc(void *block, size_t size);
void __real_free(void *block);

static bool is_refused(void) {
    return counts && ++requests == refused_request;
}

static void take(void *block) {
    if (!counts || !block) return;
    live++;
    held += malloc_usable_size(block);
    if (held > most_held) most_held = held;
}

static void give_back(void *block) {
    if (!counts || !block) return;
    live--;
    held -= malloc_usable_size(block);
}

void *__wrap_malloc(size_t size) {
    if (is_refused()) return NULL;
    void *block = __real_malloc(size);
    take(block);
    return block;
}

void *__wrap_realloc(void *block, size_t size) {
    if (is_refused()) return NULL;
    give_back(block);
    void *moved = __real_realloc(block, size);
    take(moved ? moved : block);
    return moved;
}

void __wrap_free(void *block) {
    give_back(block);
    __real_free(block);
}

/* Counts from here on. */
static void count_from_zero(long refused) {
    requests = live = 0;
    held = most_held = 0;
    refused_request = refused;
    counts = true;
}

static void fail(const char *what, size_t number) {
    fprintf(stderr, "clib_host: case %zu: %s\n", number, what);
    exit(1);
}

/* A block is asked for even where it holds nothing, so that no pointer is NULL. */
static void *block_of(size_t size) {
    void *block = malloc(size + 1);
    if (!block) fail("no memory for the host", 0);
    return block;
}

static uint8_t *bytes_from(FILE *from, size_t count) {
    uint8_t *bytes = block_of(count);
    if (fread(bytes, 1, count, from) != count) fail("the cases end early", 0);
    return bytes;
}

static size_t read_cases(FILE *from, struct one_case **cases) {
    size_t count = 0, held = 0;
    struct one_case c;
    *cases = NULL;
    while (fscanf(from, "%" SCNu32 "%zu%zu%zu%zu%zu%" SCNu64 "%zu%zu", &c.flags, &c.room, &c.limits.space, &c.limits.queue,
                  &c.limits.look, &c.limits.nodes, &c.limits.turns, &c.script_len, &c.input_len) == 9) {
        if (fgetc(from) != '\n') fail("a line of numbers isn't ended", count);
        c.script = bytes_from(from, c.script_len);
        c.input = bytes_from(from, c.input_len);
        if (count == held) {
            held = held ? 2 * held : 64;
            *cases = realloc(*cases, held * sizeof c);
            if (!*cases) fail("no memory for the host", count);
        }
        (*cases)[count++] = c;
    }
    return count;
}

static struct answer answer_for(const struct one_case *c) {
    struct answer a = {0};
    a.output = block_of(c->room + GUARD);
    return a;
}

/* Calls sed_edit, and looks whether only the bytes that it reports were touched. */
static void edit(const struct one_case *c, struct answer *a, size_t number) {
    memset(a->output, FILLER, c->room + GUARD);
    memset(&a->report, 0xa5, sizeof a->report);
    a->status = sed_edit(c->script, c->script_len, c->flags, c->input, c->input_len, a->output, c->room, &c->limits, &a->report);
    if (a->report.written > c->room) fail("more is reported as written than there is room for", number);
    for (size_t at = a->report.written; at < c->room + GUARD; at++)
        if (a->output[at] != FILLER) fail("a byte past those written was touched", number);
    bool has_written = a->status == SED_DONE || a->status == SED_STOPPED;
    if (!has_written && a->report.written) fail("a call that wrote nothing reports bytes", number);
    if (a->report.spare) fail("the spare field isn't 0", number);
}

static void print(const char *call, int32_t status, const struct sed_report *r) {
    printf("%s %" PRId32 " %zu %zu %" PRIu64 " %" PRIu32 " %" PRIu32 " %" PRIu32 "\n", call, status, r->written, r->place, r->line,
           r->fault, r->expression, r->cause);
}

static void run(const struct one_case *cases, size_t count) {
    for (size_t number = 0; number < count; number++) {
        const struct one_case *c = &cases[number];
        struct answer a = answer_for(c);
        struct sed_report report;
        memset(&report, 0xa5, sizeof report);
        int32_t status = sed_check(c->script, c->script_len, c->flags, &c->limits, &report);
        print("check", status, &report);
        edit(c, &a, number);
        print("edit", a.status, &a.report);
        fwrite(a.output, 1, a.report.written, stdout);
        putchar('\n');
        free(a.output);
    }
}

static bool is_same(const struct answer *a, const struct answer *b) {
    return a->status == b->status && !memcmp(&a->report, &b->report, sizeof a->report) &&
           !memcmp(a->output, b->output, a->report.written);
}

/* Refuses request after request of a case, until the call makes fewer. */
static long refuse_each(const struct one_case *c, size_t number) {
    static const struct sed_report blank;
    struct answer plain = answer_for(c), a = answer_for(c);
    edit(c, &plain, number);
    long refused = 0;
    for (bool is_over = false; !is_over;) {
        count_from_zero(refused + 1);
        edit(c, &a, number);
        counts = false;
        is_over = requests < refused_request;
        if (live) fail("a block wasn't given back", number);
        if (is_over) break;
        refused++;
        if (a.status != SED_NO_MEMORY) fail("a refused request was passed over", number);
        if (memcmp(&a.report, &blank, sizeof blank)) fail("a call without memory reports something", number);
    }
    if (!is_same(&a, &plain)) fail("a call that is counted answers otherwise", number);
    free(plain.output);
    free(a.output);
    return refused;
}

static void refuse(const struct one_case *cases, size_t count) {
    long all = 0, most = 0;
    for (size_t number = 0; number < count; number++) {
        long refused = refuse_each(&cases[number], number);
        all += refused;
        if (refused > most) most = refused;
    }
    printf("%ld requests refused in turn, %ld of one call at most\n", all, most);
}

struct share {
    const struct one_case *cases;
    const struct answer *alone;
    size_t count;
    bool differs;
};

static void *run_share(void *argument) {
    struct share *s = argument;
    for (size_t number = 0; number < s->count; number++) {
        struct answer a = answer_for(&s->cases[number]);
        struct sed_report report;
        sed_check(s->cases[number].script, s->cases[number].script_len, s->cases[number].flags, &s->cases[number].limits, &report);
        edit(&s->cases[number], &a, number);
        if (!is_same(&a, &s->alone[number])) s->differs = true;
        free(a.output);
    }
    return NULL;
}

/* Runs all cases in each of some threads with stacks of this size, or of the usual one at 0. */
static void run_threads(const struct one_case *cases, size_t count, size_t threads, size_t stack) {
    struct answer *alone = block_of(count * sizeof *alone);
    for (size_t number = 0; number < count; number++) {
        alone[number] = answer_for(&cases[number]);
        edit(&cases[number], &alone[number], number);
    }
    pthread_t *handles = block_of(threads * sizeof *handles);
    struct share *shares = block_of(threads * sizeof *shares);
    pthread_attr_t attributes;
    pthread_attr_init(&attributes);
    if (stack && pthread_attr_setstacksize(&attributes, stack)) fail("no thread has so small a stack", 0);
    for (size_t t = 0; t < threads; t++) {
        shares[t] = (struct share){cases, alone, count, false};
        if (pthread_create(&handles[t], &attributes, run_share, &shares[t])) fail("a thread doesn't start", 0);
    }
    for (size_t t = 0; t < threads; t++) {
        pthread_join(handles[t], NULL);
        if (shares[t].differs) fail("a thread has another answer", 0);
    }
    printf("%zu at once agree on %zu cases\n", threads, count);
    for (size_t number = 0; number < count; number++) free(alone[number].output);
    free(alone);
    free(handles);
    free(shares);
}

static void take_memory(const struct one_case *cases, size_t count) {
    for (size_t number = 0; number < count; number++) {
        struct answer a = answer_for(&cases[number]);
        count_from_zero(0);
        edit(&cases[number], &a, number);
        counts = false;
        printf("%zu\n", most_held);
        free(a.output);
    }
}

static double seconds(void) {
    struct timespec now;
    clock_gettime(CLOCK_MONOTONIC, &now);
    return (double)now.tv_sec + (double)now.tv_nsec / 1e9;
}

static void take_time(const struct one_case *cases, size_t count, long calls) {
    for (size_t number = 0; number < count; number++) {
        const struct one_case *c = &cases[number];
        struct answer a = answer_for(c);
        double least = 1e9;
        for (long call = 0; call < calls; call++) {
            double start = seconds();
            a.status = sed_edit(c->script, c->script_len, c->flags, c->input, c->input_len, a.output, c->room, &c->limits, &a.report);
            double taken = seconds() - start;
            if (taken < least) least = taken;
        }
        printf("%.0f %" PRId32 "\n", least * 1e9, a.status);
        free(a.output);
    }
}

int main(int argc, char **argv) {
    struct one_case *cases;
    size_t count = read_cases(stdin, &cases);
    const char *what = argc > 1 ? argv[1] : "run";
    long number = argc > 2 ? strtol(argv[2], NULL, 10) : 1;
    if (!strcmp(what, "run")) run(cases, count);
    if (!strcmp(what, "refuse")) refuse(cases, count);
    if (!strcmp(what, "threads")) run_threads(cases, count, (size_t)number, 0);
    if (!strcmp(what, "stack")) run_threads(cases, count, 1, (size_t)number * 1024);
    if (!strcmp(what, "time")) take_time(cases, count, number);
    if (!strcmp(what, "memory")) take_memory(cases, count);
    for (size_t at = 0; at < count; at++) {
        free(cases[at].script);
        free(cases[at].input);
    }
    free(cases);
    return 0;
}
