/* Laws of the attribute question. In the forms of lines `@` is the name asked for. */
#include "soak.h"
#include <string.h>

static const char *spelled(const char *form, const struct question *q)
{
    static struct buffer line;
    line.len = 0;
    for (; *form; form++) {
        if (*form == '@')
            add(&line, q->name.at, q->name.len);
        else
            add_byte(&line, (uint8_t)*form);
    }
    add_byte(&line, 0);
    return (const char *)line.at;
}

/* Comments, lines that are dropped whole, other names, empty and broken patterns. */
static int silent_last(const struct question *q, uint32_t code)
{
    static const char *const silent[] = {
        "", " ", "\t\r", "#* @", " \t#* @", "!* @", "\"* @", "\"*\" @", "[attr]x @", "* @ =v", "* @ -", "* @ !", "* @ --x", "* @ !-x", "* @ -=",
        "* @ a/b", "* a,b @ -@", "* @ \xff", "*", "* @x", "* x@ -@x=v", "/ @", "// @", "\\ @", "*[ @", "[[:nope:]] @",
    };
    return with_last(q, spelled(PICK(silent), q)) && gives(code);
}

struct speaking { const char *form; uint32_t code; };
static const struct speaking speaking[] = {
    { "* @", 1 }, { "* -@", 2 }, { "* @=v", 3 }, { "* @=", 3 }, { "* !@", 4 }, { "* @ -@", 2 }, { "* -@ @", 1 }, { "* @ @=v", 3 },
    { "* @=v !@", 4 }, { "* !@=v", 4 }, { "* !@=v x -@=v", 2 }, { " \t* \r @\t\r ", 1 }, { "** -@", 2 }, { "/** @", 1 },
    { "**/* !@", 4 }, { "/*** -@", 2 }, { "***/* @", 1 }, { "?* @=v=w", 3 }, { "* @x -@ x@", 2 }, { "* @=!@", 3 }, { "* @=@", 3 },
};

/* Every path is taken and the name is mentioned: the last mention decides. */
static int speaking_last(const struct question *q, uint32_t code)
{
    struct speaking line = PICK(speaking);
    (void)code;
    return with_last(q, spelled(line.form, q)) && gives(line.code);
}

/* The same as the first line speaks only where no other does; `!name` is no silence. */
static int speaking_first(const struct question *q, uint32_t code)
{
    struct speaking line = PICK(speaking);
    return with_first(q, spelled(line.form, q)) && gives(code == 0 ? line.code : code);
}

/* Names are compared byte by byte, folding or not. */
static int name_in_other_case(const struct question *q, uint32_t code)
{
    static struct question other;
    int letters = 0;
    copy_question(&other, q);
    for (size_t i = 0; i < other.name.len; i++) {
        uint8_t lower = other.name.at[i] | 32;
        if (lower < 'a' || lower > 'z') continue;
        other.name.at[i] ^= 32;
        letters = 1;
    }
    return letters && with_last(q, spelled("* @", &other)) && gives(code);
}

static int named_last(const struct question *q, uint32_t code)
{
    (void)code;
    return with_last(q, naming("/", &q->second, q->second.len, spelled(" -@", q))) && gives(2);
}

static int named_as_directory(const struct question *q, uint32_t code)
{
    return with_last(q, naming("/", &q->second, q->second.len, spelled("/ @=v", q))) && gives(q->flags & 1 ? 3 : code);
}

/* There is no rule about parents. */
static int parent_named(const struct question *q, uint32_t code)
{
    size_t parent = last_slash(&q->second);
    if (parent == 0) return 0;
    return with_last(q, naming("/", &q->second, parent, spelled(chance(50) ? "/ @" : " !@", q))) && gives(code);
}

struct law attribute_laws[] = {
    { "all lines overwritten with spaces", blanked, 0 },
    { "the rules twice", said_twice, 0 },
    { "a BOM before", with_bom, 0 },
    { "a CR at each line's end", with_crs, 0 },
    { "the path in another case, folding", other_case, 0 },
    { "a control byte in the path", with_control, 0 },
    { "no `/` in the rules: the directory flag says nothing", no_slash_no_directory, 0 },
    { "a last line that says nothing", silent_last, 0 },
    { "a last line that takes every path", speaking_last, 0 },
    { "a first line that takes every path", speaking_first, 0 },
    { "the name in another case", name_in_other_case, 0 },
    { "a last line with the path's name", named_last, 0 },
    { "a last line with the path's name and `/`", named_as_directory, 0 },
    { "a last line with the parent's name", parent_named, 0 },
    { NULL, NULL, 0 },
};
