/* Whether a class name lists a byte, asked of two builds in one program; built
 * by bench/names, which gives each build's calls a name of their own.
 *
 *   names compare        the answers of the two: every name and byte, and
 *                        numbers that are no names; status 1 if any is wrong
 *   names once CALL      every name and byte once, for counting instructions
 *   names time ROUNDS    nanoseconds a call by turns, the least of the rounds: a
 *                        line a call and order
 */
#define _GNU_SOURCE
#include "clock.h"
#include <stddef.h>
#include <stdint.h>
#include <stdio.h>
#include <stdlib.h>
#include <string.h>

#define NAMES 12
#define BYTES 256
#define TURNS 32 /* so often each pair stands in an order, which is then too long to be foretold */
#define PAIRS (NAMES * BYTES * TURNS)

typedef uint32_t match(const uint8_t *pattern, size_t pattern_len,
                       const uint8_t *text, size_t text_len, uint64_t flags);
typedef uint32_t named(size_t name, uint8_t byte);

extern named old_named, new_named;
extern match old_match, new_match;

static const char *const patterns[NAMES] = {
    "[[:alnum:]]", "[[:alpha:]]", "[[:blank:]]", "[[:cntrl:]]", "[[:digit:]]", "[[:graph:]]",
    "[[:lower:]]", "[[:print:]]", "[[:punct:]]", "[[:space:]]", "[[:upper:]]", "[[:xdigit:]]",
};

/* What the loop and a call cost by themselves. */
__attribute__((noinline)) static uint32_t empty(size_t name, uint8_t byte)
{
    __asm__ volatile("" : : "r"(name), "r"(byte));
    return 0;
}

static uint32_t by_match(match *call, size_t name, uint8_t byte)
{
    const char *pattern = patterns[name];
    return call((const uint8_t *)pattern, strlen(pattern), &byte, 1, 0);
}

static uint32_t old_by_match(size_t name, uint8_t byte)
{
    return by_match(old_match, name, byte);
}

static uint32_t new_by_match(size_t name, uint8_t byte)
{
    return by_match(new_match, name, byte);
}

static const struct {
    const char *name;
    named *call;
} calls[] = {
    { "empty", empty },
    { "old_named", old_named },
    { "new_named", new_named },
    { "old_match", old_by_match },
    { "new_match", new_by_match },
};
#define CALLS (sizeof calls / sizeof *calls)

struct pair {
    size_t name;
    uint8_t byte;
};

static struct pair in_order[PAIRS], mixed[PAIRS];

static void draw_orders(void)
{
    uint64_t state = 20260314;
    for (size_t i = 0; i < PAIRS; i++)
        mixed[i] = in_order[i] = (struct pair){ i / BYTES % NAMES, (uint8_t)(i % BYTES) };
    for (size_t i = PAIRS - 1; i > 0; i--) {
        state = state * 6364136223846793005u + 1442695040888963407u;
        size_t j = (size_t)(state >> 33) % (i + 1);
        struct pair other = mixed[i];
        mixed[i] = mixed[j];
        mixed[j] = other;
    }
}

static int differs(const char *call, size_t name, uint8_t byte, uint32_t before, uint32_t after)
{
    if (before != after)
        printf("%s: name %zu, byte %d: %u before, %u after\n", call, name, byte, before, after);
    return before != after;
}

/* 0 to 999, of which the first twelve are names; numbers that would be names if they were cut to 8, 16, 32 or 63
 * bits; the greatest. */
#define NUMBERS (1000 + 4 * NAMES + 1)

static size_t number(size_t i)
{
    static const int bits[] = { 8, 16, 32, 63 };
    if (i < 1000)
        return i;
    i -= 1000;
    return i < 4 * NAMES ? ((size_t)1 << bits[i / NAMES]) + i % NAMES : SIZE_MAX;
}

/* How many of the answers about one name and byte are wrong. */
static int wrong(size_t name, uint8_t byte, uint32_t after)
{
    if (name >= NAMES)
        return differs("no name", name, byte, 0, after) + differs("named", name, byte, old_named(name, byte), after);
    return differs("named", name, byte, old_named(name, byte), after)
         + differs("match", name, byte, old_by_match(name, byte), new_by_match(name, byte));
}

static int compare(void)
{
    long asked = 0, listed = 0, found = 0;
    for (size_t i = 0; i < NUMBERS; i++)
        for (int byte = 0; byte < BYTES; byte++, asked++) {
            uint32_t after = new_named(number(i), (uint8_t)byte);
            listed += after;
            found += wrong(number(i), (uint8_t)byte, after);
        }
    printf("names: %ld asked of both, %ld listed, %ld wrong\n", asked, listed, found);
    return found > 0;
}

static double pass(named *call, const struct pair *pairs)
{
    uint32_t sum = 0;
    double begun = now();
    for (size_t i = 0; i < PAIRS; i++)
        sum += call(pairs[i].name, pairs[i].byte);
    __asm__ volatile("" : : "r"(sum));
    return (now() - begun) / PAIRS;
}

static int measure(size_t rounds)
{
    static double least[CALLS][2];
    draw_orders();
    for (size_t round = 0; round < rounds; round++)
        for (size_t i = 0; i < CALLS; i++)
            for (int order = 0; order < 2; order++) {
                double ns = pass(calls[i].call, order ? mixed : in_order);
                if (round == 0 || ns < least[i][order])
                    least[i][order] = ns;
            }
    for (size_t i = 0; i < CALLS; i++)
        for (int order = 0; order < 2; order++)
            printf("%s %s %.4f\n", calls[i].name, order ? "mixed" : "order", least[i][order]);
    return 0;
}

static int once(const char *name)
{
    for (size_t i = 0; i < CALLS; i++)
        if (!strcmp(calls[i].name, name)) {
            for (size_t k = 0; k < NAMES; k++)
                for (int byte = 0; byte < BYTES; byte++)
                    calls[i].call(k, (uint8_t)byte);
            return 0;
        }
    return 2;
}

int main(int count, char **words)
{
    if (count == 2 && !strcmp(words[1], "compare"))
        return compare();
    if (count == 3 && !strcmp(words[1], "once"))
        return once(words[2]);
    if (count == 3 && !strcmp(words[1], "time"))
        return measure((size_t)atoi(words[2]));
    return 2;
}
