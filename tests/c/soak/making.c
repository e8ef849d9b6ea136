/* Random questions. Most are small, of bytes that mean something on a line, and
 * their lines are written for the path, so that lines decide; some are at or
 * around the limits, some are any bytes at all.
 *
 * The sizes are kept apart on purpose: an ignore question reads the rules again
 * for each component, so a deep path gets few and short lines. */
#include "soak.h"
#include <string.h>

static const char *const words[] = {
    "a", "b", "A", "ab", "aB", "cal", "h07.nc", "...", ".a", "x y", "[", "*", "\\", "\xef\xbb\xbf", "#a", "!a", "-", "a]", "\xc3\xa9", "z~",
};
static const char *const names[] = { "fill", "a", "Fill", "a.b_c-9", "_", ".", "..", "9", "fill-x", "text" };
static const char *const faults[] = { "", "/", ".", "..", "/..", "./", "//", "/.", "\n", "z\r", "\x7f" };

/* Any bytes, at times byte 0 too, or those that mean something to the readers. */
static void add_noise(struct buffer *b, size_t most)
{
    static const char dense[] = "abA/*?[]\\!^-: \t\r\n#.=\"";
    size_t length = below(most + 1), low = chance(10) ? 0 : 1;
    int any = chance(30);
    for (size_t i = 0; i < length; i++) add_byte(b, any ? low + below(256 - low) : (uint8_t)dense[below(sizeof dense - 1)]);
}

/* Around this limit, or nothing, or a single byte, or far over. */
static size_t edge(size_t limit)
{
    size_t at[] = { 0, 1, limit - 1, limit, limit, limit + 1, limit + 1 + below(limit / 8) };
    return PICK(at);
}

static uint64_t make_flags(void)
{
    static const uint64_t over[] = { 4, 5, 7, 8, 256, UINT64_C(1) << 31, UINT64_C(1) << 32, (UINT64_C(1) << 32) + 3, UINT64_C(1) << 63, UINT64_MAX };
    return chance(96) ? below(4) : PICK(over);
}

/* A byte for which the text or path is refused: a text may hold every control byte but 0. */
static uint8_t refused_byte(enum call call) { return call == MATCH || chance(30) ? 0 : control(); }

/* Components, and in some paths a fault. */
static void make_path(struct buffer *path, enum call call)
{
    size_t components = 1 + below(chance(90) ? 4 : 60);
    for (size_t i = 0; i < components; i++) {
        if (i > 0) add_byte(path, '/');
        add_text(path, chance(60) ? words[below(5)] : PICK(words));
    }
    if (chance(4)) add_text(path, PICK(faults));
    if (chance(2)) put_before(path, "/", 1);
    if (chance(2)) path->at[below(path->len)] = refused_byte(call);
}

/* Noise, in which control bytes mostly give way to a letter, or few would be accepted. */
static void make_noise_path(struct buffer *path)
{
    int keep = chance(10);
    add_noise(path, 12);
    for (size_t i = 0; i < path->len && !keep; i++)
        if (path->at[i] < 32 || path->at[i] == 127) path->at[i] = 'b';
}

/* Bytes of the path, some of them made wildcards; classes may hold control bytes, though no path does. */
static void add_likeness(struct buffer *line, const uint8_t *at, size_t len)
{
    static const char *const wild[] = { "?", "*", "**", "[!x]", "[^/]", "[[:print:]]", "***", "[!\x01\x7f]", "[\x01-\xff]" };
    for (size_t i = 0; i < len; i++) {
        if (at[i] == '\n' || at[i] == 0 || chance(12))
            add_text(line, PICK(wild));
        else if (strchr("*?[\\ #!\"\r", at[i]) && chance(90))
            add_byte(line, '\\'), add_byte(line, at[i]);
        else
            add_byte(line, at[i]);
    }
}

/* A pattern for the path or for one of its parents. */
static void add_pattern(struct buffer *line, const struct buffer *path)
{
    static const char *const fronts[] = { "", "", "/", "**/", "***/", "***\\/", "*", "**/*/", "a/**/", "a/****/", "a/**\\/" };
    static const char *const backs[] = { "", "", "", "", "/", "*", "/**", "/***", " ", "\\", "[", "\t" };
    size_t parent = last_slash(path), start = chance(50) && parent > 0 ? parent + 1 : 0;
    size_t end = chance(30) && parent > start ? parent : path->len;
    if (end - start > 200) start = end - 1 - below(200);
    add_text(line, PICK(fronts));
    add_likeness(line, path->at + start, end - start);
    add_text(line, PICK(backs));
}

/* One to three mentions, at times bad ones or of another name. */
static void add_mentions(struct buffer *line, const struct buffer *name)
{
    static const char *const signs[] = { "", "", "-", "!", "!-", "=" };
    static const char *const values[] = { "", "", "", "=", "=v", "=-v=w", "/" };
    for (size_t left = 1 + below(3); left > 0; left--) {
        add_text(line, chance(90) ? " " : "\t \r");
        add_text(line, chance(85) ? signs[below(4)] : PICK(signs));
        if (chance(80))
            add(line, name->at, name->len);
        else
            add_text(line, PICK(names));
        add_text(line, chance(85) ? values[below(6)] : PICK(values));
    }
}

static void add_line(struct buffer *rules, const struct question *q)
{
    static const char *const others[] = { "", "#", "# a fill", " ", "*", "!*", "/", "!", "**", "\\#a", "[attr]a fill", "!a fill", "\"a\" fill" };
    static const char *const odd_ends[] = { "\r\r\n", "\\\r\n", "\x7f\n" };
    if (chance(12)) {
        add_noise(rules, 12);
    } else if (chance(15)) {
        add_text(rules, PICK(others));
    } else {
        if (q->call == IGNORE && chance(40)) add_byte(rules, '!');
        add_pattern(rules, &q->second);
        if (q->call == ATTRIBUTE) add_mentions(rules, &q->name);
    }
    add_text(rules, chance(85) ? "\n" : chance(80) ? "\r\n" : PICK(odd_ends));
}

/* A line of 2,047 to 2,049 bytes, BOM and CR among them. */
static void add_long_line(struct buffer *rules)
{
    static const char *const fills[] = { "a", " ", "#", "*", "/", "\\", "?", "!", "\t", "=" };
    const char *fill = PICK(fills);
    size_t length = 2047 + below(3), cr = below(2);
    if (rules->len == 0 && chance(50)) {
        add_text(rules, "\xef\xbb\xbf");
        length -= 3;
    }
    add_times(rules, fill, length - cr);
    add_text(rules, cr ? "\r" : "");
    add_text(rules, "\n");
}

/* Cheap lines up to 65,535 to 65,537 bytes, the last of them for the path. */
static void make_large_rules(struct question *q)
{
    static const char *const units[] = { "\n", "b\n", "!b\n", "#23456789 123456789 123456789 12\n", "b x\n", "/b/\n" };
    static struct buffer tail;
    const char *unit = PICK(units);
    size_t size = 65535 + below(3);
    tail.len = 0;
    add_line(&tail, q);
    while (q->first.len + strlen(unit) + tail.len <= size) add_text(&q->first, unit);
    add_times(&q->first, "\n", size - tail.len - q->first.len);
    add(&q->first, tail.at, tail.len);
}

static void make_rules(struct question *q)
{
    if (chance(8)) add_text(&q->first, "\xef\xbb\xbf");
    if (chance(3)) add_long_line(&q->first);
    for (size_t left = below(chance(90) ? 5 : 30); left > 0; left--) add_line(&q->first, q);
    if (chance(3)) add_long_line(&q->first);
    if (chance(30) && q->first.len > 0) q->first.len--;
    if (chance(2) && q->first.len > 0) q->first.at[below(q->first.len)] = 0;
}

static void make_name(struct buffer *name)
{
    add_text(name, chance(70) ? "fill" : PICK(names));
    if (chance(3)) add_noise(name, 3);
    if (chance(2)) name->len = 0;
    if (chance(2)) put_before(name, "-", 1);
    if (chance(3)) add_times(name, "n", edge(255 - name->len));
}

static void make_match(struct question *q)
{
    size_t kind = below(10);
    make_path(&q->second, MATCH);
    if (chance(8)) q->second.at[below(q->second.len)] = control();
    if (kind < 4)
        add_likeness(&q->first, q->second.at, q->second.len);
    else if (kind < 8)
        add_pattern(&q->first, &q->second);
    else
        add_noise(&q->first, 20);
    if (chance(10)) q->second.len = 0, add_noise(&q->second, 20);
}

/* Each argument by itself nothing, a byte, or around its limit; of plain
 * letters, so that lengths decide, and at times with a byte that is refused. */
static void make_edges(struct question *q)
{
    size_t first = edge(q->call == MATCH ? 2048 : 65536), line = 2047 + below(3);
    add_times(&q->first, "a", first);
    if (q->call != MATCH)
        for (size_t i = line; i < first; i += line + 1) q->first.at[i] = '\n';
    add_times(&q->second, "a", edge(4096));
    if (q->call == ATTRIBUTE) add_times(&q->name, "n", edge(255));
    if (chance(10) && q->first.len > 0) q->first.at[below(2) * (q->first.len - 1)] = 0;
    if (chance(10) && q->second.len > 0) q->second.at[below(2) * (q->second.len - 1)] = refused_byte(q->call);
}

/* A path, or text, of up to 2,048 components and few short lines. */
static void make_deep(struct question *q)
{
    static const char *const rules[] = { "", "b\n", "!a\n", "#\n", "/a/a/a/b\n", "a/\n!b\n" };
    static const char *const attributes[] = { "", "**/a fill\n", "* fill\na fill=v", "a -fill\nb !fill\n" };
    size_t components = 2040 + below(10);
    add_times(&q->second, "a/", components - 1);
    add_times(&q->second, chance(50) ? "b" : "a", 1 + below(2));
    if (q->call == MATCH)
        add_times(&q->first, chance(50) ? "**/" : "a/*/", 500 + below(200)), add_text(&q->first, "**");
    else
        add_text(&q->first, q->call == IGNORE ? PICK(rules) : PICK(attributes));
    if (q->call == ATTRIBUTE) add_text(&q->name, "fill");
}

void make_question(struct question *q)
{
    size_t kind = below(1000);
    q->call = (enum call)below(3);
    q->flags = make_flags();
    q->first.len = q->second.len = q->name.len = 0;
    if (kind < 50) {
        make_edges(q);
    } else if (kind < 55) {
        make_deep(q);
    } else if (kind < 100) {
        add_noise(&q->first, 60);
        if (q->call == MATCH) add_noise(&q->second, 12); else make_noise_path(&q->second);
        if (q->call == ATTRIBUTE) add_noise(&q->name, 4);
    } else if (q->call == MATCH) {
        make_match(q);
    } else {
        make_path(&q->second, q->call);
        if (q->call == ATTRIBUTE) make_name(&q->name);
        if (kind < 120) make_large_rules(q); else make_rules(q);
    }
}
