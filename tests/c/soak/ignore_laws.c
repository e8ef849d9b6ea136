/* Laws of the ignore question. */
#include "soak.h"

/* Lines that say nothing: comments, empty patterns, broken patterns. */
static int silent_last(const struct question *q, uint32_t code)
{
    static const char *const silent[] = {
        "", " ", "   ", "\r", "#", "#*", "# \xff\x01 !*", "!", "! ", "/", "//", "!/", "\\", "*\\", "[", "*[a", "[[:nope:]]", "!*[", "\\/",
    };
    return with_last(q, PICK(silent)) && gives(code);
}

/* A last line that takes the top entry, whatever stands before: all below it is ignored. */
static int ignoring_last(const struct question *q, uint32_t code)
{
    static const char *const all[] = { "*", "**", "*  ", "***", "[!/]*", "?*", "/*", "/**", "/***", "**/*", "*\r" };
    (void)code;
    return with_last(q, PICK(all)) && gives(1);
}

/* A last line that re-includes every entry. */
static int reincluding_last(const struct question *q, uint32_t code)
{
    static const char *const all[] = { "!*", "!**", "!?*", "!**/*", "!***/*", "!/**", "!/****", "!*  \r" };
    (void)code;
    return with_last(q, PICK(all)) && gives(2);
}

/* The code of the entry that is so many bytes of the path, a directory. */
static uint32_t of_parent(const struct question *q, size_t len)
{
    static struct question parent;
    copy_question(&parent, q);
    parent.second.len = len;
    parent.flags |= 1;
    return ask(&parent);
}

/* `*` as the first line ignores each entry of which the others say nothing. So the
 * path stays re-included only if the path and each of its parents were. */
static int ignoring_first(const struct question *q, uint32_t code)
{
    static struct buffer entry;
    uint32_t want = code == 2 ? 2 : 1;
    copy_buffer(&entry, &q->second);
    while (want == 2 && (entry.len = last_slash(&entry)) > 0)
        if (of_parent(q, entry.len) != 2) want = 1;
    return with_first(q, "*") && gives(want);
}

/* `!*` as the first line speaks only where no other does. */
static int reincluding_first(const struct question *q, uint32_t code)
{
    return with_first(q, "!*") && gives(code == 0 ? 2 : code);
}

/* Nothing below an ignored directory comes back. */
static int parent_ignored(const struct question *q, uint32_t code)
{
    size_t parent = last_slash(&q->second);
    if (parent == 0 || of_parent(q, parent) != 1) return 0;
    if (code != 1) wrong(q, "its parent is ignored", code, 1);
    return 1;
}

static int named_last(const struct question *q, uint32_t code)
{
    (void)code;
    return with_last(q, naming("/", &q->second, q->second.len, "")) && gives(1);
}

/* Re-included by its own name, unless a parent is ignored. */
static int named_back(const struct question *q, uint32_t code)
{
    size_t parent = last_slash(&q->second);
    uint32_t want = parent > 0 && of_parent(q, parent) == 1 ? 1 : 2;
    (void)code;
    return with_last(q, naming("!/", &q->second, q->second.len, "")) && gives(want);
}

/* Named with a last `/`: it counts for a directory alone. */
static int named_as_directory(const struct question *q, uint32_t code)
{
    return with_last(q, naming("/", &q->second, q->second.len, "/")) && gives(q->flags & 1 ? 1 : code);
}

/* The parent is named, as a directory, and then the path negated: too late. */
static int parent_named(const struct question *q, uint32_t code)
{
    size_t parent = last_slash(&q->second);
    (void)code;
    if (parent == 0 || !with_last(q, naming("/", &q->second, parent, "/"))) return 0;
    gives(1);
    return with_last(&changed, naming("!/", &q->second, q->second.len, "")) && gives(1);
}

struct law ignore_laws[] = {
    { "all lines overwritten with spaces", blanked, 0 },
    { "the rules twice", said_twice, 0 },
    { "a BOM before", with_bom, 0 },
    { "a CR at each line's end", with_crs, 0 },
    { "the path in another case, folding", other_case, 0 },
    { "a control byte in the path", with_control, 0 },
    { "no `/` in the rules: the directory flag says nothing", no_slash_no_directory, 0 },
    { "a last line that says nothing", silent_last, 0 },
    { "a last line `*`", ignoring_last, 0 },
    { "a last line `!*`", reincluding_last, 0 },
    { "a first line `*`", ignoring_first, 0 },
    { "a first line `!*`", reincluding_first, 0 },
    { "an ignored parent", parent_ignored, 0 },
    { "a last line with the path's name", named_last, 0 },
    { "a last line with the path's name, negated", named_back, 0 },
    { "a last line with the path's name and `/`", named_as_directory, 0 },
    { "the parent's name, then the path's negated", parent_named, 0 },
    { NULL, NULL, 0 },
};
