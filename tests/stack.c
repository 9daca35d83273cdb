/* Measures the stack that each call needs: the call runs on a stack of its own that was filled with a pattern, and what it
   overwrote is counted. The areas are those with the deepest walks: terms that are each over the one before, and a variable bound to
   the last; variables that are each bound to the next; and the same as a circle, which is refused. The first two books are also stored and
   restored, and a third, in which every term gets another number. Then each call runs on a stack that is too small, above a guard page
   and other memory: it ends at the guard page. By hand: `tests/run stack`. */
#include "fit.h"
#include <pthread.h>
#include <signal.h>
#include <stdio.h>
#include <stdlib.h>
#include <string.h>
#include <sys/mman.h>
#include <sys/wait.h>
#include <unistd.h>

#define TERMS FIT_MAX_TERMS
#define CAPACITY FIT_MAX_CAPACITY
#define STACK (4u << 20)
#define SMALL (128u << 10)
#define OTHER (1u << 20)
#define PAGE 4096u
#define PATTERN 0xA5

static uint8_t book[3 * (2 + 10 * TERMS)], *area, out[FIT_REPORT_BYTES], stored[FIT_BOOK_BYTES], list[FIT_LIST_BYTES];
static size_t book_length, area_length;
static uint32_t refusal, first, second, fields[FIT_FIELDS], stored_length, list_length;
static uint32_t chosen = TERMS - 1; /* what variable 0 is bound to */

static void number(uint32_t n)
{
    while (n > 127) {
        book[book_length++] = (uint8_t)(n % 128 + 128);
        n /= 128;
    }
    book[book_length++] = (uint8_t)n;
}

/* Term 0 is a variable, term 1 a constant; each other term has seven times term 1 and the term before it. */
static void make_terms(void)
{
    book_length = 0;
    number(TERMS);
    number(0);
    number(1), number(0);
    for (uint32_t t = 2; t < TERMS; t++) {
        number(2), number(8);
        for (int a = 0; a < 7; a++)
            number(1);
        number(t - 1);
    }
}

/* Variables alone. */
static void make_variables(void)
{
    book_length = 0;
    number(TERMS);
    for (uint32_t t = 0; t < TERMS; t++)
        number(0);
}

/* The variables behind the others, which are each over the constant. */
static void make_variables_last(void)
{
    book_length = 0;
    number(TERMS);
    number(1), number(0);
    for (uint32_t t = 1; t < TERMS / 2; t++) {
        number(FIT_MAX_SYMBOL + 1), number(FIT_MAX_ARGUMENTS);
        for (int a = 0; a < FIT_MAX_ARGUMENTS; a++)
            number(0);
    }
    for (uint32_t t = TERMS / 2; t < TERMS; t++)
        number(0);
}

static void run_length(void) { refusal = fit_area_length(CAPACITY) != area_length; }
static void run_open(void) { refusal = fit_open(CAPACITY, book, book_length, area, area_length); }
static void run_copy(void) { refusal = fit_copy_book(book, book_length, out, sizeof out, &first); }
static void run_store(void)
{
    refusal = fit_store_book(book, book_length, stored, sizeof stored, list, sizeof list, &stored_length, &list_length);
}
static void run_restore(void) { refusal = fit_restore_book(stored, stored_length, list, list_length, out, sizeof out, &first); }
static void run_bind(void) { refusal = fit_bind(area, area_length, 0, chosen, &first, &second); }
static void run_add(void) { refusal = fit_add(area, area_length, 0, TERMS - 1, &first); }
static void run_entry(void) { refusal = fit_entry(area, area_length, 0, fields); }
static void run_report(void) { refusal = fit_report(area, area_length, out, sizeof out, &first); }
static void run_write(void) { refusal = fit_write(area, area_length, out, sizeof out, &first); }
static void run_nothing(void) { refusal = 0; }

static void *on_own_stack(void *call)
{
    ((void (*)(void))call)();
    return NULL;
}

/* The bytes of a fresh stack that the call overwrote. */
static size_t used(void (*call)(void))
{
    uint8_t *stack = NULL;
    if (posix_memalign((void **)&stack, 4096, STACK))
        exit(1);
    memset(stack, PATTERN, STACK);
    pthread_attr_t attr;
    pthread_t thread;
    pthread_attr_init(&attr);
    if (pthread_attr_setstack(&attr, stack, STACK) || pthread_create(&thread, &attr, on_own_stack, (void *)call))
        exit(1);
    pthread_join(thread, NULL);
    size_t untouched = 0;
    while (untouched < STACK && stack[untouched] == PATTERN)
        untouched++;
    free(stack);
    return STACK - untouched;
}

/* Other memory, the guard page, and the small stack, from low to high. */
static uint8_t *low;

/* The process ends with 0 where it was the guard page that was touched, and nothing below it. */
static void on_fault(int signal, siginfo_t *fault, void *context)
{
    uint8_t *at = fault->si_addr;
    size_t kept = 0;
    (void)signal, (void)context;
    while (kept < OTHER && low[kept] == PATTERN)
        kept++;
    _exit(!(kept == OTHER && low + OTHER <= at && at < low + OTHER + PAGE));
}

static void *on_small_stack(void *call)
{
    static uint8_t spare[65536];
    stack_t handlers = {.ss_sp = spare, .ss_size = sizeof spare};
    sigaltstack(&handlers, NULL);
    return on_own_stack(call);
}

/* Whether the call ends at the guard page of a stack that is too small for it. */
static int ends_at_guard(void (*call)(void), size_t small)
{
    pthread_attr_t attr;
    pthread_t thread;
    struct sigaction action = {.sa_sigaction = on_fault, .sa_flags = SA_SIGINFO | SA_ONSTACK};
    int status = 1;
    fflush(stdout);
    if (fork() == 0) {
        low = mmap(NULL, OTHER + PAGE + small, PROT_READ | PROT_WRITE, MAP_PRIVATE | MAP_ANONYMOUS, -1, 0);
        if (low == MAP_FAILED)
            _exit(1);
        memset(low, PATTERN, OTHER);
        mprotect(low + OTHER, PAGE, PROT_NONE);
        sigaction(SIGSEGV, &action, NULL);
        pthread_attr_init(&attr);
        pthread_attr_setstack(&attr, low + OTHER + PAGE, small);
        if (pthread_create(&thread, &attr, on_small_stack, (void *)call) == 0)
            pthread_join(thread, NULL);
        _exit(1);
    }
    return wait(&status) > 0 && status == 0;
}

static int failed;

enum { LENGTH, OPEN, COPY, STORE, RESTORE, BIND, ADD, ENTRY, REPORT, WRITE, CALLS };

static void (*const calls[CALLS])(void) = {
    run_length, run_open, run_copy, run_store, run_restore, run_bind, run_add, run_entry, run_report, run_write};
static const char *const names[CALLS] = {"fit_area_length", "fit_open", "fit_copy_book", "fit_store_book", "fit_restore_book",
    "fit_bind", "fit_add", "fit_entry", "fit_report", "fit_write"};
static size_t most[CALLS];

/* Makes a call, with this answer, and keeps the most that it has needed. */
static void measure(int call, uint32_t expected)
{
    size_t base = used(run_nothing), n = used(calls[call]) - base;
    failed |= refusal != expected;
    if (most[call] < n)
        most[call] = n;
}

static void measure_from(int first, int last, uint32_t expected)
{
    for (int call = first; call <= last; call++)
        measure(call, expected);
}

/* Binds each variable from this one on to the next. */
static void bind_from(uint32_t v)
{
    for (; v + 1 < TERMS; v++)
        failed |= fit_bind(area, area_length, v, v + 1, &first, &second) != FIT_OK;
}

int main(void)
{
    area_length = fit_area_length(CAPACITY);
    area = calloc(area_length, 1);
    make_variables_last();
    measure_from(STORE, RESTORE, FIT_OK); /* what was stored is restored */
    make_terms();
    measure_from(LENGTH, WRITE, FIT_OK);
    make_variables();
    measure_from(STORE, RESTORE, FIT_OK);
    run_open();
    bind_from(1);
    chosen = 1;
    measure_from(BIND, WRITE, FIT_OK);
    /* the last variable is bound to the first (docs/LAYOUT.md) */
    area[40976 + 4 * (TERMS - 1)] = 1;
    measure_from(BIND, WRITE, FIT_NOT_SOUND);
    for (int call = 0; call < CALLS; call++)
        printf("%s: %zu bytes of stack\n", names[call], most[call]);
    int guarded = 1;
    for (int call = OPEN; call <= WRITE; call++)
        guarded &= ends_at_guard(calls[call], SMALL / 4) && (call < BIND || ends_at_guard(calls[call], SMALL));
    printf("on a small stack each call %s\n", guarded ? "ends at the guard page" : "does NOT end at the guard page");
    printf("%s\n", failed ? "a call did NOT answer as it had to" : "all answers as they have to be");
    free(area);
    return failed || !guarded;
}
