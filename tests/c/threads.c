/* Eight threads ask at once over the same lent buffers, each on a stack of 1 MB,
 * as the header advises; every answer must be the one that document 01 gives and
 * that one thread alone got before. A stack that is too small is a crash.
 *
 * usage: threads TURNS
 *
 * In each turn a thread asks the usual questions, in every 100th also the deepest,
 * in every 2,000th a slow one; each thread begins with another question. Under a
 * watcher take fewer turns.
 *
 * Built with -fsanitize=thread only this file's own reads and writes are watched:
 * that finds a fault of the test. Writes within the archive, to a lent buffer or
 * to a state of its own, are seen by valgrind's helgrind. Without either, a state
 * shared by the threads shows by a wrong answer, if it is met at the wrong time. */
#define _POSIX_C_SOURCE 200809L
#include "fidshore.h"
#include <pthread.h>
#include <stdio.h>
#include <stdlib.h>
#include <string.h>

#define THREADS 8
/* What -fsanitize=thread keeps for a thread lies on its stack too, some 785 KB. */
#ifdef __SANITIZE_THREAD__
#define STACK ((size_t)2 << 20)
#else
#define STACK ((size_t)1 << 20)
#endif
#define QUESTIONS 16

struct bytes { uint8_t *at; size_t len; };

/* The matcher has no rules and no name, the ignore question no name: `kind` says which it is. */
struct question {
    enum { MATCH, IGNORE, ATTRIBUTE } kind;
    struct bytes first, second, name;
    uint64_t flags;
    uint32_t want;
    size_t every;
};

static struct question questions[QUESTIONS];
static size_t count, turns;
static pthread_barrier_t start;

/* So many of the unit between a front and a back, on the heap. */
static struct bytes row(const char *front, const char *unit, size_t times, const char *back)
{
    size_t f = strlen(front), u = strlen(unit), b = strlen(back);
    struct bytes made = { malloc(f + u * times + b + 1), f + u * times + b };
    if (!made.at) exit(2);
    memcpy(made.at, front, f);
    for (size_t i = 0; i < times; i++) memcpy(made.at + f + i * u, unit, u);
    memcpy(made.at + f + u * times, back, b);
    return made;
}

static struct bytes text(const char *s) { return row(s, "", 0, ""); }

static void put(int kind, struct bytes first, struct bytes second, struct bytes name, uint64_t flags, uint32_t want)
{
    struct question *q = &questions[count++];
    q->kind = kind;
    q->first = first, q->second = second, q->name = name;
    q->flags = flags, q->want = want;
    q->every = 1;
}

static void seldom(size_t every) { questions[count - 1].every = every; }

/* The usual ones, a broken pattern and a refusal. */
static void usual(void)
{
    struct bytes rules = text("cal/\n*.tmp\n!keep.tmp\n/2026/**/h17.nc\n"), none = { NULL, 0 };
    struct bytes attributes = text("*.nc fill\nh17.nc -fill\nflat/* fill=mean\nh03.nc !fill gap\n"), fill = text("fill");
    put(IGNORE, rules, text("cal/h07.jpg"), none, 0, FIDSHORE_IGNORED);
    put(IGNORE, rules, text("a/keep.tmp"), none, 0, FIDSHORE_RE_INCLUDED);
    put(IGNORE, rules, text("2026/03/h16.nc"), none, FIDSHORE_FOLD, FIDSHORE_NOTHING_SAID);
    put(IGNORE, rules, text("a/../b"), none, 0, FIDSHORE_REFUSED + 1);
    put(ATTRIBUTE, attributes, text("2026/h17.nc"), fill, 0, FIDSHORE_UNSET);
    put(ATTRIBUTE, attributes, text("flat/h12.nc"), fill, 0, FIDSHORE_VALUE);
    put(ATTRIBUTE, attributes, text("h03.nc"), fill, 0, FIDSHORE_UNSPECIFIED);
    put(ATTRIBUTE, attributes, text("h03.nc"), text("gap"), 0, FIDSHORE_SET);
    put(MATCH, text("2026/**/h[0-9]?.nc"), text("2026/03/05/h05.nc"), none, FIDSHORE_PATH_MODE, FIDSHORE_MATCH);
    put(MATCH, text("2026/**/h[0-9?.nc"), text("2026/03/05/h05.nc"), none, FIDSHORE_PATH_MODE, FIDSHORE_BROKEN);
}

/* The deepest known (docs/COSTS.md): `**` and `/` 681 times against 2,048
 * components; 682 times before a broken end; and a broken class that fills the
 * pattern. The ignore question goes down to the top directory first and meets
 * the pattern there, so it is as deep when that directory is ignored at once. */
static void deepest(void)
{
    struct bytes path = row("", "a/", 2047, "ab"), none = { NULL, 0 };
    put(MATCH, row("", "**/", 681, "[b]"), path, none, FIDSHORE_PATH_MODE, FIDSHORE_NO_MATCH);
    seldom(100);
    put(MATCH, row("", "**/", 682, "["), path, none, FIDSHORE_PATH_MODE, FIDSHORE_BROKEN);
    seldom(100);
    put(MATCH, row("[", "[:", 1023, "a"), path, none, 0, FIDSHORE_BROKEN);
    seldom(100);
    put(ATTRIBUTE, row("", "**/", 680, "ab fill"), path, text("fill"), 0, FIDSHORE_SET);
    seldom(100);
    put(IGNORE, row("", "**/", 681, "[a]\n"), path, none, 0, FIDSHORE_IGNORED);
    seldom(100);
    put(IGNORE, row("", "**/", 681, "[b]\n"), path, none, 0, FIDSHORE_NOTHING_SAID);
    seldom(2000);
}

static uint32_t ask(const struct question *q)
{
    if (q->kind == MATCH) return fidshore_match(q->first.at, q->first.len, q->second.at, q->second.len, q->flags);
    if (q->kind == IGNORE) return fidshore_ignore(q->first.at, q->first.len, q->second.at, q->second.len, q->flags);
    return fidshore_attribute(q->first.at, q->first.len, q->second.at, q->second.len, q->name.at, q->name.len, q->flags);
}

/* Judges one answer; 1 if it is wrong. */
static size_t judge(size_t i, uint32_t got)
{
    if (got == questions[i].want) return 0;
    printf("threads: question %zu: %u, not %u\n", i, got, questions[i].want);
    return 1;
}

struct thread { pthread_t id; size_t number, asked, wrong; };

/* A thread's first wrong answer ends it. */
static void *run(void *argument)
{
    struct thread *self = argument;
    pthread_barrier_wait(&start);
    for (size_t k = 0; k < turns * count && self->wrong == 0; k++) {
        size_t i = (k + self->number) % count, turn = k / count + 1;
        if (turn % questions[i].every != 0) continue;
        self->asked++;
        self->wrong += judge(i, ask(&questions[i]));
    }
    return NULL;
}

/* All at once. */
static struct thread run_threads(void)
{
    static struct thread threads[THREADS], all;
    pthread_attr_t attributes;
    pthread_attr_init(&attributes);
    pthread_barrier_init(&start, NULL, THREADS);
    if (pthread_attr_setstacksize(&attributes, STACK) != 0) exit(2);
    for (size_t i = 0; i < THREADS; i++) {
        threads[i].number = i;
        if (pthread_create(&threads[i].id, &attributes, run, &threads[i]) != 0) exit(2);
    }
    for (size_t i = 0; i < THREADS; i++) {
        pthread_join(threads[i].id, NULL);
        all.asked += threads[i].asked;
        all.wrong += threads[i].wrong;
    }
    pthread_barrier_destroy(&start);
    pthread_attr_destroy(&attributes);
    return all;
}

int main(int argc, char **argv)
{
    size_t wrong = 0;
    turns = argc == 2 ? strtoul(argv[1], NULL, 10) : 0;
    if (turns < 100) {
        fprintf(stderr, "usage: threads TURNS, at least 100\n");
        return 2;
    }
    usual();
    deepest();
    for (size_t i = 0; i < count; i++) wrong += judge(i, ask(&questions[i]));
    struct thread all = run_threads();
    wrong += all.wrong;
    printf("threads: %d threads, %zu asked, %zu wrong\n", THREADS, count + all.asked, wrong);
    return wrong > 0;
}
