/* A bounded soak of the archive from C: random questions, judged by what must
 * hold without knowing the answer.
 *
 * usage: soak ROUNDS SEED
 *
 * In each round one question is made (making.c) and asked (asking.c: more than
 * once, lent exactly, buffers and errno unchanged, refused exactly when document
 * 01's table says so). If it is accepted it is changed in ways after which
 * document 01 leaves one answer (the laws), and asked again.
 *
 * Same seed, same questions. Ends at the first wrong answer, with status 1 and
 * the question in hex. Also wrong: a code or a law that no question came to,
 * since then the soak has shown nothing of it; 1,500 rounds come to all with
 * nearly every seed. */
#include "soak.h"
#include "fidshore.h"
#include <stdio.h>
#include <stdlib.h>
#include <string.h>

static struct law *const laws[] = { match_laws, ignore_laws, attribute_laws };
static const char *const call_names[] = { "match", "ignore", "attribute" };

/* Every code that C can get from each call, ended by -1: 16 plus 2 is none. */
static const int codes[][13] = {
    { 0, 1, 2, 23, 24, 25, -1 },
    { 0, 1, 2, 17, 19, 20, 21, 25, -1 },
    { 0, 1, 2, 3, 4, 17, 19, 20, 21, 22, 25, -1 },
};
static size_t given[3][FIDSHORE_REFUSED + 10];

static size_t round_now;
static const char *law_now;

/* Says where a wrong answer was found; without one it is silent. */
static void say_where(void)
{
    if (law_now) printf("soak: in round %zu: %s\n", round_now, law_now);
}

static void try_law(struct law *law, const struct question *q, uint32_t code)
{
    law_now = law->name;
    law->tried += law->holds(q, code) != 0;
}

/* All laws; of a large question, which takes its time, any one. */
static void try_laws(const struct question *q, uint32_t code)
{
    size_t count = 0, only;
    while (laws[q->call][count].name) count++;
    only = q->first.len + q->second.len > 3000 ? below(count) : count;
    for (size_t i = 0; i < count; i++)
        if (only == count || only == i) try_law(&laws[q->call][i], q, code);
}

static void one_round(void)
{
    static struct question q;
    law_now = "the question as it was made";
    make_question(&q);
    uint32_t code = ask(&q);
    given[q.call][code]++;
    if (code < FIDSHORE_REFUSED) try_laws(&q, code);
}

/* How often each code was given; 1 if one never was, or a law was never tried. */
static int missing(void)
{
    int missed = 0;
    for (size_t call = 0; call < 3; call++) {
        printf("soak: %s:", call_names[call]);
        for (const int *code = codes[call]; *code >= 0; code++) {
            printf(" %d x %zu", *code, given[call][*code]);
            if (given[call][*code] == 0) missed = 1, printf(" (never)");
        }
        printf("\n");
        for (const struct law *law = laws[call]; law->name; law++)
            if (law->tried == 0) missed = 1, printf("soak: %s: never tried: %s\n", call_names[call], law->name);
    }
    return missed;
}

int main(int argc, char **argv)
{
    if (argc != 3) {
        fprintf(stderr, "usage: soak ROUNDS SEED\n");
        return 2;
    }
    size_t rounds = strtoul(argv[1], NULL, 10);
    start_random(strtoull(argv[2], NULL, 10));
    atexit(say_where);
    for (round_now = 0; round_now < rounds; round_now++) one_round();
    law_now = NULL;
    int missed = missing();
    printf("soak: %zu rounds, seed %s: %zu asked, %s\n", rounds, argv[2], asked, missed ? "too few rounds" : "0 wrong");
    return missed;
}
