/* Laws of the matcher, and what ties the questions to it. */
#include "soak.h"
#include "fidshore.h"
#include <string.h>

static int path_mode(const struct question *q) { return q->flags & 1; }

/* The pattern and the text with these before them; 0 over the limits. */
static int with_fronts(const struct question *q, const char *pattern, const char *text)
{
    if (q->first.len + strlen(pattern) > 2048 || q->second.len + strlen(text) > 4096) return 0;
    copy_question(&changed, q);
    put_before(&changed.first, pattern, strlen(pattern));
    put_before(&changed.second, text, strlen(text));
    return 1;
}

/* A `/` before both: a run that starts the pattern now follows a `/`, and crosses as before. */
static int slash_before_both(const struct question *q, uint32_t code)
{
    return with_fronts(q, "/", "/") && gives(code);
}

/* Then nothing can match; a broken pattern stays so. */
static int slash_before_pattern(const struct question *q, uint32_t code)
{
    if (q->second.len > 0 && q->second.at[0] == '/') return 0;
    return with_fronts(q, "/", "") && gives(code == FIDSHORE_BROKEN ? FIDSHORE_BROKEN : FIDSHORE_NO_MATCH);
}

/* A literal before both; in path mode a run would no longer start the pattern. */
static int literal_before_both(const struct question *q, uint32_t code)
{
    return !path_mode(q) && with_fronts(q, "\\*", "*") && gives(code);
}

/* What matched, still matches below any directory and with none. */
static int crossing_before(const struct question *q, uint32_t code)
{
    static const char *const above[] = { "", "a/", "b/a/", "/", "*/[/" };
    static const char *const crossing[] = { "**/", "***/", "**********/" };
    return code == 1 && path_mode(q) && with_fronts(q, PICK(crossing), PICK(above)) && gives(1);
}

/* "any run of two or more as it treats two" (document 02, R-2): more stars at the
 * front of two change nothing. Behind a `\` the two may be a literal and a run of
 * one; in a class they are listed twice. */
static int longer_run(const struct question *q, uint32_t code)
{
    static const char stars[] = "********";
    const uint8_t *p = q->first.at;
    size_t at = below(q->first.len + 1), more = 1 + below(strlen(stars));
    while (at + 1 < q->first.len && (p[at] != '*' || p[at + 1] != '*' || (at > 0 && p[at - 1] == '\\'))) at++;
    if (at + 1 >= q->first.len || q->first.len + more > 2048) return 0;
    copy_question(&changed, q);
    changed.first.len = at;
    add(&changed.first, stars, more);
    add(&changed.first, p + at, q->first.len - at);
    return gives(code);
}

static int star_before(const struct question *q, uint32_t code)
{
    return code == 1 && !path_mode(q) && with_fronts(q, "*", chance(50) ? "" : "x/\xff") && gives(1);
}

static int star_behind(const struct question *q, uint32_t code)
{
    if (code != 1 || path_mode(q) || q->first.len + 1 > 2048 || q->second.len + 3 > 4096) return 0;
    copy_question(&changed, q);
    add_text(&changed.first, "*");
    add_text(&changed.second, chance(50) ? "" : "x/\xff");
    return gives(1);
}

/* An unbroken pattern with a broken end is broken (document 02, R-14), whether it matched or not. */
static int broken_behind(const struct question *q, uint32_t code)
{
    static const char *const broken[] = { "\\", "[", "[a-", "[!", "[[:nope:]]", "[[::]]", "[[:alpha:]", "*[]" };
    const char *end = PICK(broken);
    if (code == FIDSHORE_BROKEN || q->first.len + strlen(end) > 2048) return 0;
    copy_question(&changed, q);
    add_text(&changed.first, end);
    return gives(FIDSHORE_BROKEN);
}

/* What stands behind a broken item is not read: a name that is none breaks every pattern. */
static int broken_before(const struct question *q, uint32_t code)
{
    static const char *const broken[] = { "[[:nope:]]", "a[![::]]", "**/[x[:ALPHA:]" };
    (void)code;
    return with_fronts(q, PICK(broken), "") && gives(FIDSHORE_BROKEN);
}

/* Whether a pattern is broken does not hang on the text or the mode. */
static int broken_in_any_call(const struct question *q, uint32_t code)
{
    static const char *const texts[] = { "", "a", "/", "a/b", "\x01", "[" };
    copy_question(&changed, q);
    changed.flags = below(4);
    if (chance(80)) changed.second.len = 0, add_text(&changed.second, PICK(texts));
    uint32_t got = ask(&changed);
    if ((got == FIDSHORE_BROKEN) != (code == FIDSHORE_BROKEN)) wrong(&changed, "broken with another text or mode; before", got, code);
    return 1;
}

/* With no `/` in either, path mode makes no difference. */
static int no_slash_no_mode(const struct question *q, uint32_t code)
{
    if (memchr(q->first.at, '/', q->first.len) || memchr(q->second.at, '/', q->second.len)) return 0;
    copy_question(&changed, q);
    changed.flags ^= 1;
    return gives(code);
}

/* The text, each byte escaped, takes the text; one byte changed or added does not. */
static int escaped_text(const struct question *q, uint32_t code)
{
    (void)code;
    if (q->second.len == 0 || q->second.len > 1023) return 0;
    copy_question(&changed, q);
    changed.first.len = 0;
    for (size_t i = 0; i < q->second.len; i++) {
        add_byte(&changed.first, '\\');
        add_byte(&changed.first, q->second.at[i]);
    }
    gives(1);
    uint8_t *byte = &changed.first.at[2 * below(q->second.len) + 1];
    uint8_t was = *byte;
    *byte = was == 1 ? 2 : was ^ 1;
    gives(0);
    *byte = was;
    add_byte(&changed.second, was);
    return gives(0);
}

/* `?` for each byte, and the runs alone: only `/` in path mode stands against `?`
 * and one star. */
static int wildcards_alone(const struct question *q, uint32_t code)
{
    uint32_t free = !path_mode(q) || !memchr(q->second.at, '/', q->second.len);
    (void)code;
    if (q->second.len > 2047) return 0;
    copy_question(&changed, q);
    changed.first.len = 0;
    add_times(&changed.first, "?", q->second.len);
    gives(free);
    add_text(&changed.first, "?");
    gives(0);
    changed.first.len = 0;
    add_text(&changed.first, "*");
    gives(free);
    add_text(&changed.first, "*");
    gives(1);
    add_times(&changed.first, "*", 1 + below(20));
    return gives(1);
}

/* The pattern behind a `/` as the only line: the attribute question must answer
 * as the matcher in path mode; the ignore question too, for one component, and
 * for more if the whole path is taken. To both, broken is no match: their own
 * code 2 is another. */
static int as_a_line(const struct question *q, uint32_t code)
{
    static struct question line;
    const uint32_t said = code == FIDSHORE_MATCH;
    if (!path_mode(q) || q->first.len == 0 || q->first.len > 2040 || holds_any(&q->first, "\n\r\t ")) return 0;
    if (q->first.at[q->first.len - 1] == '/') return 0;
    copy_question(&line, q);
    put_before(&line.first, "/", 1);
    line.flags = q->flags & 2;
    line.call = IGNORE;
    if (refusal(&line)) return 0;
    copy_question(&changed, &line);
    if (said || !last_slash(&q->second)) gives(said);
    changed.call = ATTRIBUTE;
    add_text(&changed.first, " n");
    add_text(&changed.name, "n");
    return gives(said);
}

struct law match_laws[] = {
    { "the text in another case, folding", other_case, 0 },
    { "`/` before both", slash_before_both, 0 },
    { "`/` before the pattern alone", slash_before_pattern, 0 },
    { "a literal before both", literal_before_both, 0 },
    { "a crossing run before the pattern", crossing_before, 0 },
    { "a longer run", longer_run, 0 },
    { "`*` before the pattern", star_before, 0 },
    { "`*` behind the pattern", star_behind, 0 },
    { "a broken end", broken_behind, 0 },
    { "a broken front", broken_before, 0 },
    { "broken, whatever the text and the mode", broken_in_any_call, 0 },
    { "no `/`: path mode says nothing", no_slash_no_mode, 0 },
    { "the text escaped", escaped_text, 0 },
    { "`?` and runs alone", wildcards_alone, 0 },
    { "the pattern as a line", as_a_line, 0 },
    { NULL, NULL, 0 },
};
