/* Measures the jobs over one library. bench/run and bench/growth build one such program for each.

     measure show            each job's whole answer, a line to a job
     measure count           under callgrind: one profile to a job, of one call
     measure growth          the same, for inputs of growing length
     measure memory          bytes of stack, and the most heap at one time, of one call of each job
     measure time MS JOB     nanoseconds of a call: the best of 15 spells of MS milliseconds

   Each measured call comes after one of the same job that is not measured. */
#define _GNU_SOURCE
#include "jobs.h"
#include <malloc.h>
#include <stdio.h>
#include <stdlib.h>
#include <string.h>
#include <time.h>
#include <ucontext.h>
#include <valgrind/callgrind.h>

static void put(const char *text) { fputs(text, stdout); }

/* ---- instructions */
static void count(const char *name, void (*call)(void))
{
    call();
    CALLGRIND_ZERO_STATS;
    CALLGRIND_TOGGLE_COLLECT;
    call();
    CALLGRIND_TOGGLE_COLLECT;
    CALLGRIND_DUMP_STATS_AT(name);
}

/* ---- growth: one length grows, the rest is as in the job of the smallest key, or of the area */
enum { LONGEST_AREA = 4096 };
static uint8_t long_area[LONGEST_AREA]; /* attributes of four bytes that are stepped over, one AT_KDF, an empty name */
static size_t length;

static void key_length(void) { kv_usage_key(emsk, 64, label20, 20, data, 0, length, out, sizeof out); }
static void data_length(void) { kv_usage_key(emsk, 64, label20, 20, data, length, 64, out, sizeof out); }
static void area_length(void) { kv_read_area(long_area + LONGEST_AREA - length, length, own_name, 0, offers, 17); }
static void area_offers(void)
{
    size_t left_out = 4 * (OFFERS - length);
    kv_read_area(area + left_out, sizeof area - left_out, own_name, NAME, offers, 17);
}

static void grow(const char *what, void (*call)(void), size_t from, size_t to, size_t step)
{
    char name[64];
    for (length = from; length <= to; length += step) {
        snprintf(name, sizeof name, "%s-%zu", what, length);
        count(name, call);
    }
}

static void growth(void)
{
    for (size_t at = 0; at < LONGEST_AREA; at += 4)
        long_area[at] = 1, long_area[at + 1] = 1;
    memcpy(long_area + LONGEST_AREA - 8, "\x18\x01\x00\x01\x17\x01\x00\x00", 8);
    count("none", jobs[0].call);
    grow("key", key_length, 32, 32, 1);
    grow("key", key_length, 480, 8160, 480);
    grow("data", data_length, 0, 2048, 128);
    grow("skipped", area_length, 8, 8, 1);
    grow("skipped", area_length, 256, LONGEST_AREA, 256);
    grow("offers", area_offers, 1, OFFERS, 1);
}

/* ---- heap: the program is linked with --wrap for these, so that a library's own calls are counted */
void *__real_malloc(size_t n);
void *__real_calloc(size_t n, size_t size);
void *__real_realloc(void *p, size_t n);
void __real_free(void *p);
void *__wrap_malloc(size_t n);
void *__wrap_calloc(size_t n, size_t size);
void *__wrap_realloc(void *p, size_t n);
void __wrap_free(void *p);
static size_t live, most;

static void *taken(void *p)
{
    live += p ? malloc_usable_size(p) : 0;
    most = live > most ? live : most;
    return p;
}
void *__wrap_malloc(size_t n) { return taken(__real_malloc(n)); }
void *__wrap_calloc(size_t n, size_t size) { return taken(__real_calloc(n, size)); }
void *__wrap_realloc(void *p, size_t n)
{
    live -= p ? malloc_usable_size(p) : 0;
    return taken(__real_realloc(p, n));
}
void __wrap_free(void *p)
{
    live -= p ? malloc_usable_size(p) : 0;
    __real_free(p);
}

/* ---- stack: the call runs on a stack of its own, painted before */
enum { WORDS = 1 << 16 };
static const uint64_t paint = 0x5bd1e995a5c3f00d;
static uint64_t stack[WORDS];
static ucontext_t here, there;

static size_t deepest(void (*call)(void))
{
    for (size_t i = 0; i < WORDS; i++)
        stack[i] = paint;
    getcontext(&there);
    there.uc_stack.ss_sp = stack;
    there.uc_stack.ss_size = sizeof stack;
    there.uc_link = &here;
    makecontext(&there, call, 0);
    swapcontext(&here, &there);
    size_t at = 0;
    while (stack[at] == paint)
        at++;
    if (at == 0) {
        fprintf(stderr, "measure: the painted stack is too small\n");
        exit(1);
    }
    return sizeof stack - at * sizeof stack[0];
}

static void memory(void)
{
    size_t none = deepest(jobs[0].call);
    for (int i = 1; i < JOBS; i++) {
        jobs[i].call();
        size_t before = live;
        most = live;
        size_t used = deepest(jobs[i].call) - none;
        printf("%s %zu %zu\n", jobs[i].name, used, most - before);
    }
}

/* ---- time */
static double spell(void (*call)(void), long calls)
{
    struct timespec a, b;
    clock_gettime(CLOCK_MONOTONIC, &a);
    for (long i = 0; i < calls; i++)
        call();
    clock_gettime(CLOCK_MONOTONIC, &b);
    return (double)(b.tv_sec - a.tv_sec) * 1e9 + (double)(b.tv_nsec - a.tv_nsec);
}

static double nanoseconds(void (*call)(void), double ms)
{
    long calls = 1;
    double took, best = 1e300;
    while ((took = spell(call, calls)) < 5e4)
        calls *= 2;
    calls = (long)((double)calls * ms * 1e6 / took) + 1;
    for (int i = 0; i < 15; i++) {
        took = spell(call, calls) / (double)calls;
        best = took < best ? took : best;
    }
    return best;
}

int main(int argc, char **argv)
{
    const char *mode = argc > 1 ? argv[1] : "";
    prepare_jobs();
    if (!strcmp(mode, "show")) {
        for (int i = 0; i < JOBS; i++)
            show_job(&jobs[i], put);
    } else if (!strcmp(mode, "count")) {
        for (int i = 0; i < JOBS; i++)
            count(jobs[i].name, jobs[i].call);
    } else if (!strcmp(mode, "growth")) {
        growth();
    } else if (!strcmp(mode, "memory")) {
        memory();
    } else if (!strcmp(mode, "time") && argc == 4) {
        for (int i = 0; i < JOBS; i++)
            if (!strcmp(jobs[i].name, argv[3]))
                printf("%.2f\n", nanoseconds(jobs[i].call, atof(argv[2])));
    } else {
        fprintf(stderr, "usage: measure show | count | growth | memory | time MS JOB\n");
        return 2;
    }
    return 0;
}
