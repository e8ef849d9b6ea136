/* Asks an archive the questions of standard input, one a line, for tests/rules:
 *
 *     match PATTERN TEXT FLAGS
 *     ignore RULES PATH FLAGS
 *     attribute RULES PATH NAME FLAGS
 *
 * Bytes are hex, `-` is the empty string; the rules are one file of base 0.
 * Prints a line each: the code number. Built with -DTESTCALLS and linked with
 * libtestcalls.a in place of libfidshore.a, it prints what comes with the code too:
 * a broken item's place; entry length, file, line; value start and length, file,
 * line. Status 2 at a line that is no question. */
#include "fidshore.h"
#include <stdio.h>
#include <stdlib.h>
#include <string.h>

#define SLICE(name) const uint8_t *name, size_t name##_len
#define NUMBERS(name) const size_t *name, size_t name##_len
#define LENT(b) (b).at, (b).len

struct bytes { uint8_t *at; size_t len; };

/* What the calls told beside the code; UNTOLD where they told nothing. */
#define TOLD 4
#define UNTOLD SIZE_MAX
static size_t told[TOLD];

#ifdef TESTCALLS
uint32_t testcalls_match(SLICE(pattern), SLICE(text), uint64_t flags, size_t *out, size_t out_len);
uint32_t testcalls_ignore(SLICE(path), SLICE(rules), NUMBERS(ends), NUMBERS(bases), uint64_t flags, size_t *out,
                          size_t out_len);
uint32_t testcalls_attribute(SLICE(path), SLICE(rules), NUMBERS(ends), NUMBERS(bases), SLICE(name), uint64_t flags,
                             size_t *out, size_t out_len);
static const size_t top = 0;
#define ASK_MATCH(p, t, f) testcalls_match(LENT(p), LENT(t), f, told, TOLD)
#define ASK_IGNORE(r, p, f) testcalls_ignore(LENT(p), LENT(r), &(r).len, 1, &top, 1, f, told, TOLD)
#define ASK_ATTRIBUTE(r, p, n, f) testcalls_attribute(LENT(p), LENT(r), &(r).len, 1, &top, 1, LENT(n), f, told, TOLD)
#else
#define ASK_MATCH(p, t, f) fidshore_match(LENT(p), LENT(t), f)
#define ASK_IGNORE(r, p, f) fidshore_ignore(LENT(r), LENT(p), f)
#define ASK_ATTRIBUTE(r, p, n, f) fidshore_attribute(LENT(r), LENT(p), LENT(n), f)
#endif

static void stop(const char *reason)
{
    fprintf(stderr, "rules: %s\n", reason);
    exit(2);
}

/* The bytes that a word writes, put in its place. */
static struct bytes spelled(char *word)
{
    struct bytes out = { (uint8_t *)word, 0 };
    if (!strcmp(word, "-")) return out;
    for (unsigned byte; *word; word += 2) {
        if (strspn(word, "0123456789abcdef") < 2 || sscanf(word, "%2x", &byte) != 1) stop("bytes that are not hex");
        out.at[out.len++] = (uint8_t)byte;
    }
    return out;
}

static uint32_t ask(char *line)
{
    char *words[6] = { NULL };
    size_t count = 0;
    for (char *word = strtok(line, " \n"); word && count < 6; word = strtok(NULL, " \n")) words[count++] = word;
    if (count < 4) stop("too few words");
    struct bytes first = spelled(words[1]), second = spelled(words[2]);
    char *end;
    uint64_t flags = strtoull(words[count - 1], &end, 10);
    if (*end) stop("flags that are no number");
    if (count == 4 && !strcmp(words[0], "match")) return ASK_MATCH(first, second, flags);
    if (count == 4 && !strcmp(words[0], "ignore")) return ASK_IGNORE(first, second, flags);
    if (count != 5 || strcmp(words[0], "attribute")) stop("not a question");
    struct bytes name = spelled(words[3]);
    return ASK_ATTRIBUTE(first, second, name, flags);
}

int main(void)
{
    static char line[65536];
    while (fgets(line, sizeof line, stdin)) {
        if (!strchr(line, '\n')) stop("a line too long, or without its newline");
        for (size_t i = 0; i < TOLD; i++) told[i] = UNTOLD;
        printf("%u", (unsigned)ask(line));
        for (size_t i = 0; i < TOLD && told[i] != UNTOLD; i++) printf(" %zu", told[i]);
        putchar('\n');
    }
    return 0;
}
