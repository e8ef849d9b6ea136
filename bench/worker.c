/* A worker: reads a command a line and answers each with a line.
 *
 *   check FILE SECONDS    the answers of the file's questions, in order; the
 *                         worker ends by SIGPROF if they take longer
 *   time FILE MS          nanoseconds a question, asked for at least so long
 *
 * A file's first line names the call: match, ignore or attribute. Each further
 * line is a question: the two byte strings in hex, then the flags. `-` is
 * the empty string, `=` the one that stands there in the line before: a rule
 * file is given once. */
#define _GNU_SOURCE
#include "clock.h"
#include "worker.h"
#include <stdio.h>
#include <stdlib.h>
#include <string.h>
#include <sys/time.h>

struct question {
    struct bytes first, second;
    unsigned flags;
};

struct work {
    ask *ask;
    struct question *questions;
    size_t count;
};

static void stop(const char *words, const char *about)
{
    fprintf(stderr, "worker: %s: %s\n", words, about);
    exit(2);
}

static void *room(size_t bytes)
{
    void *at = malloc(bytes);
    if (!at)
        stop("no memory", "for a workload");
    return at;
}

static struct bytes unhex(const char *field, struct bytes before)
{
    if (!strcmp(field, "="))
        return before;
    size_t len = strcmp(field, "-") ? strlen(field) / 2 : 0;
    char *at = room(len + 1);
    for (size_t i = 0; i < len; i++) {
        const char two[] = { field[2 * i], field[2 * i + 1], 0 };
        at[i] = (char)strtoul(two, NULL, 16);
    }
    at[len] = 0;
    return (struct bytes){ at, len };
}

static ask *named(const char *call)
{
    return !strcmp(call, "match")  ? library.match
         : !strcmp(call, "ignore") ? library.ignore
                                   : library.attribute;
}

static struct work load(const char *name)
{
    struct work work = { 0 };
    struct question last = { 0 };
    char *line = NULL;
    size_t size = 0;
    FILE *file = fopen(name, "r");
    if (!file || getline(&line, &size, file) < 0)
        stop("cannot read", name);
    work.ask = named(strtok(line, "\n"));
    if (!work.ask)
        stop("this library lacks the call of", name);
    while (getline(&line, &size, file) > 0) {
        last.first = unhex(strtok(line, "\t"), last.first);
        last.second = unhex(strtok(NULL, "\t"), last.second);
        last.flags = (unsigned)atoi(strtok(NULL, "\t"));
        work.questions = realloc(work.questions, (work.count + 1) * sizeof last);
        if (!work.questions)
            stop("no memory for", name);
        work.questions[work.count++] = last;
    }
    free(line);
    fclose(file);
    return work;
}

static int answer(const struct work *work, size_t i)
{
    const struct question *q = &work->questions[i];
    return work->ask(q->first, q->second, q->flags);
}

/* Whole passes only, so that every worker is asked the same questions equally
 * often. They double at first, so that reading the clock costs nothing. */
static double nanoseconds(const struct work *work, double budget)
{
    size_t asked = 0, passes = 1;
    double begun = now(), spent;
    do {
        for (size_t pass = 0; pass < passes; pass++)
            for (size_t i = 0; i < work->count; i++)
                answer(work, i);
        asked += passes * work->count;
        spent = now() - begun;
        if (spent < budget / 4)
            passes *= 2;
    } while (spent < budget);
    return spent / (double)asked;
}

/* The work stays loaded until another is named; a run names few, so that none is freed. */
static const struct work *loaded(const char *name)
{
    static struct work work;
    static char *current;
    if (!current || strcmp(current, name)) {
        current = strdup(name);
        work = load(name);
    }
    return &work;
}

/* 0 seconds: as long as it takes. */
static void allow(double seconds)
{
    struct itimerval left = { .it_value = { .tv_sec = (time_t)seconds } };
    setitimer(ITIMER_PROF, &left, NULL);
}

static void check(const struct work *work, double seconds)
{
    allow(seconds);
    for (size_t i = 0; i < work->count; i++)
        printf("%d ", answer(work, i));
    allow(0);
}

int main(void)
{
    char line[PATH_ROOM + 64], verb[8], name[PATH_ROOM];
    double amount;
    if (library.start)
        library.start();
    while (fgets(line, sizeof line, stdin)) {
        if (sscanf(line, "%7s %4095s %lf", verb, name, &amount) < 3)
            stop("no command", line);
        const struct work *work = loaded(name);
        if (!strcmp(verb, "time"))
            printf("%.3f", nanoseconds(work, amount * 1e6));
        else
            check(work, amount);
        puts("");
        fflush(stdout);
    }
    return 0;
}
