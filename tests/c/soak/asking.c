/* Asks a question, the one before, and the question again, and watches each call
 * from outside: a call that remembers anything would mix them up.
 *
 * Everything is lent in heap blocks of exactly its size. The archive's own code
 * carries no checks of AddressSanitizer, so that sees to this program's memory
 * and, at times, to what a stray write does to the heap. A stray read within the
 * archive is seen by valgrind alone. Without either, what is seen is a changed
 * byte, an errno that was touched, and a code that changes or is not allowed. */
#include "soak.h"
#include "fidshore.h"
#include <errno.h>
#include <stdio.h>
#include <stdlib.h>
#include <string.h>

size_t asked;

static const char *const call_names[] = { "match", "ignore", "attribute" };
static const uint32_t highest[] = { FIDSHORE_BROKEN, FIDSHORE_RE_INCLUDED, FIDSHORE_UNSPECIFIED };

static void show(const char *what, const struct buffer *b)
{
    printf("  %s, %zu bytes:", what, b->len);
    for (size_t i = 0; i < b->len && i < 400; i++) printf(" %02x", b->at[i]);
    printf("%s\n", b->len > 400 ? " ..." : "");
}

/* The first wrong answer ends the soak: the same seed comes back to it. */
void wrong(const struct question *q, const char *what, uint32_t got, uint32_t want)
{
    printf("soak: %s, flags %llu: %s: %u, not %u\n", call_names[q->call], (unsigned long long)q->flags, what, got, want);
    show(q->call == MATCH ? "pattern" : "rules", &q->first);
    show(q->call == MATCH ? "text" : "path", &q->second);
    if (q->call == ATTRIBUTE) show("name", &q->name);
    exit(1);
}

struct lent { uint8_t *block, *at; };

/* A block of exactly these bytes. With a shift it begins so many bytes later,
 * at an odd address, and ends as exactly; the bytes before are left unset.
 * No bytes are lent by a null pointer or, with a shift, by one to the block's end. */
static struct lent lend(const struct buffer *b, size_t shift)
{
    struct lent lent = { NULL, NULL };
    if (b->len + shift == 0) return lent;
    lent.block = malloc(b->len + shift);
    if (!lent.block) exit(2);
    lent.at = lent.block + shift;
    memcpy(lent.at, b->at, b->len);
    return lent;
}

static void take_back(const struct question *q, struct lent lent, const struct buffer *b)
{
    if (b->len > 0 && memcmp(lent.at, b->at, b->len) != 0) wrong(q, "a lent buffer was changed", 1, 0);
    free(lent.block);
}

static uint32_t ask_once(const struct question *q, size_t shift)
{
    struct lent first = lend(&q->first, shift), second = lend(&q->second, shift), name = lend(&q->name, shift);
    uint32_t code;
    errno = 4711;
    if (q->call == MATCH)
        code = fidshore_match(first.at, q->first.len, second.at, q->second.len, q->flags);
    else if (q->call == IGNORE)
        code = fidshore_ignore(first.at, q->first.len, second.at, q->second.len, q->flags);
    else
        code = fidshore_attribute(first.at, q->first.len, second.at, q->second.len, name.at, q->name.len, q->flags);
    if (errno != 4711) wrong(q, "errno was touched", (uint32_t)errno, 4711);
    take_back(q, first, &q->first);
    take_back(q, second, &q->second);
    take_back(q, name, &q->name);
    asked++;
    return code;
}

static void ask_again(const struct question *q, uint32_t code)
{
    uint32_t again = ask_once(q, 1 + below(7));
    if (again != code) wrong(q, "the same question again", again, code);
}

uint32_t ask(const struct question *q)
{
    /* To begin with: the empty pattern takes the empty text. */
    static struct question before;
    static uint32_t code_before = FIDSHORE_MATCH;
    uint32_t code = ask_once(q, 0);
    ask_again(&before, code_before);
    ask_again(q, code);
    copy_question(&before, q);
    code_before = code;
    unsigned number = refusal(q);
    if (number && code != FIDSHORE_REFUSED + number) wrong(q, "refusal by the table", code, FIDSHORE_REFUSED + number);
    if (!number && code > FIDSHORE_REFUSED) wrong(q, "refused, by the table accepted", code, 0);
    if (!number && code > highest[q->call]) wrong(q, "a code that the header does not name; at most", code, highest[q->call]);
    return code;
}
