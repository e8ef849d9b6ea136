/* The archive from C: the frames P1 to P13 and the rows on long runs and on broken
 * patterns in the four modes, the rows of the two questions that C can ask, the
 * examples of the header, each way for a pattern to be broken, each refusal that C
 * can reach, on both sides of its limits, and for every argument no bytes and the
 * most. Prints one line; status 1 if any answer differs or a row cannot be read.
 *
 * usage: smoke MATCHES IGNORES ATTRIBUTES
 *
 * These are document-01.tsv, ignore.tsv and attributes.tsv of crates/testtables/data;
 * their first lines say how they are written.
 *
 * Refusal 2 cannot be reached from C: it is about how several rule files are
 * lent, and each call lends one. target/twin/release/questions has it. */
#include "fidshore.h"
#include "sheet.h"
#include <stdio.h>
#include <string.h>

/* A C string's bytes, or none at all. */
static struct bytes str(const char *s) { return (struct bytes){ s, strlen(s) }; }
static const struct bytes none = { NULL, 0 };
#define BYTES(s) (struct bytes){ s, sizeof(s) - 1 }
#define BOM "\xef\xbb\xbf"
#define LENT(b) (const uint8_t *)(b).at, (b).len

static int asked, wrong;

/* How many of the bytes a message shows. */
static int shown(struct bytes b) { return b.len < 20 ? (int)b.len : 20; }

static void judge(const char *call, struct bytes first, struct bytes second, uint64_t flags, uint32_t got, uint32_t want)
{
    asked++;
    if (got == want) return;
    wrong++;
    printf("%s `%.*s` `%.*s` flags %llu: %u, not %u\n", call, shown(first), first.at ? first.at : "", shown(second),
           second.at ? second.at : "", (unsigned long long)flags, got, want);
}

static void match(struct bytes pattern, struct bytes text, uint64_t flags, uint32_t want)
{
    judge("match", pattern, text, flags, fidshore_match(LENT(pattern), LENT(text), flags), want);
}

static void ignore(struct bytes rules, struct bytes path, uint64_t flags, uint32_t want)
{
    judge("ignore", rules, path, flags, fidshore_ignore(LENT(rules), LENT(path), flags), want);
}

static void attribute(struct bytes rules, struct bytes path, struct bytes name, uint64_t flags, uint32_t want)
{
    judge("attribute", rules, path, flags, fidshore_attribute(LENT(rules), LENT(path), LENT(name), flags), want);
}

/* Both questions, for the refusals that they share. */
static void both(struct bytes rules, struct bytes path, uint64_t flags, uint32_t want)
{
    ignore(rules, path, flags, want);
    attribute(rules, path, str("fill"), flags, want);
}

static char filled[1 << 20];

/* So many bytes of one letter. */
static struct bytes fill(size_t len)
{
    memset(filled, 'a', len);
    return (struct bytes){ filled, len };
}

/* Where the bytes of a row are put. */
static char rooms[2][SHEET_LIMIT];

/* Is it `broken` with a place? C is not told the place. */
static int says_broken(const char *answers)
{
    static const char word[] = "broken ";
    const char *place = answers + strlen(word);
    return !strncmp(answers, word, strlen(word)) && *place && strspn(place, "0123456789") == strlen(place);
}

/* The answers of the four columns are code numbers, a digit each, or all are broken. */
static int match_row(char *row)
{
    static const uint64_t columns[] = { FIDSHORE_PATH_MODE, FIDSHORE_PATH_MODE | FIDSHORE_FOLD, 0, FIDSHORE_FOLD };
    struct bytes pattern, text;
    char *fields[4];
    if (!sheet_cut(row, fields, 4)) return 0;
    if (!sheet_decode(fields[1], rooms[0], &pattern) || !sheet_decode(fields[2], rooms[1], &text)) return 0;
    int broken = says_broken(fields[3]);
    if (!broken && (strlen(fields[3]) != 4 || strspn(fields[3], "01") != 4)) return 0;
    for (size_t k = 0; k < 4; k++) match(pattern, text, columns[k], broken ? FIDSHORE_BROKEN : (uint32_t)(fields[3][k] - '0'));
    return 1;
}

/* The code number of a complete answer: what stands behind its first word is not
 * in the code, but for a refusal's number. */
static int code_of(const char *answer, int is_attribute, uint32_t *code)
{
    static const char *const verdicts[] = {
        [FIDSHORE_NOTHING_SAID] = "nothing", [FIDSHORE_IGNORED] = "ignored", [FIDSHORE_RE_INCLUDED] = "re-included", NULL
    };
    static const char *const states[] = {
        [FIDSHORE_NOTHING_SAID] = "nothing", [FIDSHORE_SET] = "set", [FIDSHORE_UNSET] = "unset",
        [FIDSHORE_VALUE] = "value", [FIDSHORE_UNSPECIFIED] = "unspecified", NULL
    };
    const char *const *words = is_attribute ? states : verdicts;
    size_t len = strcspn(answer, " ");
    for (*code = 0; words[*code]; ++*code)
        if (strlen(words[*code]) == len && !strncmp(answer, words[*code], len)) return 1;
    unsigned number = 0;
    int is_refusal = sscanf(answer, "refused %u", &number) == 1;
    *code = FIDSHORE_REFUSED + number;
    return is_refusal;
}

/* The files, the path, the flags with the attribute's name behind them, and the
 * answer. C lends one file of base 0; rows that lend others are for `questions`. */
static int question_row(char *row)
{
    struct bytes rules, path;
    char *fields[5];
    uint32_t want;
    if (!sheet_cut(row, fields, 5)) return 0;
    const char *files = fields[1], *flags = fields[3], *name = flags[0] && flags[1] ? flags + 2 : NULL;
    if (strspn(flags, "0123456789") != 1 || (name && flags[1] != ' ') || !code_of(fields[4], !!name, &want)) return 0;
    if (*files != '=' || strchr(files, ' ')) return 1;
    const char *file = sheet_file(files);
    if (!file || !sheet_decode(file, rooms[0], &rules) || !sheet_decode(fields[2], rooms[1], &path)) return 0;
    if (name) attribute(rules, path, str(name), (uint64_t)(*flags - '0'), want);
    else ignore(rules, path, (uint64_t)(*flags - '0'), want);
    return 1;
}

/* Asks the rows of a data file. With none to ask, no answer would be wrong. */
static void table(const char *name, int (*ask)(char *row))
{
    int before = asked;
    size_t rows = sheet_read(name);
    for (size_t i = 0; i < rows; i++) {
        if (ask(sheet_row(i))) continue;
        wrong++;
        printf("%s: malformed: %s\n", name, sheet_row(i));
    }
    if (asked > before) return;
    wrong++;
    printf("%s: missing, too long, or without a row to ask\n", name);
}

static void matcher(void)
{
    match(none, none, FIDSHORE_PATH_MODE, FIDSHORE_MATCH);
    match(str(""), none, 0, FIDSHORE_MATCH);
    match(none, str(""), 0, FIDSHORE_MATCH);
    match(none, str("a"), 0, FIDSHORE_NO_MATCH);
    match(str("a"), none, 0, FIDSHORE_NO_MATCH);
    match(str("*"), none, 0, FIDSHORE_MATCH);
}

/* Refusals 7, 8 and 9, and both sides of the limits. Pattern and text overlap
 * in `filled`, as buffers may. */
static void matcher_refusals(void)
{
    match(fill(FIDSHORE_PATTERN_LIMIT), fill(FIDSHORE_PATTERN_LIMIT), 0, FIDSHORE_MATCH);
    match(fill(FIDSHORE_PATTERN_LIMIT), fill(FIDSHORE_TEXT_LIMIT), 0, FIDSHORE_NO_MATCH);
    match(fill(FIDSHORE_PATTERN_LIMIT + 1), fill(FIDSHORE_PATTERN_LIMIT + 1), 0, FIDSHORE_REFUSED + 7);
    match(fill(FIDSHORE_PATTERN_LIMIT + 1), none, 0, FIDSHORE_REFUSED + 7);
    match(str("*"), fill(FIDSHORE_TEXT_LIMIT), 0, FIDSHORE_MATCH);
    match(str("*"), fill(FIDSHORE_TEXT_LIMIT + 1), 0, FIDSHORE_REFUSED + 7);
    match(none, fill(FIDSHORE_TEXT_LIMIT + 1), 0, FIDSHORE_REFUSED + 7);
    match(fill(sizeof filled), fill(sizeof filled), 0, FIDSHORE_REFUSED + 7);
    match(BYTES("a\0"), str("a"), 0, FIDSHORE_REFUSED + 8);
    match(BYTES("\0"), none, 0, FIDSHORE_REFUSED + 8);
    match(str("a"), BYTES("\0a"), 0, FIDSHORE_REFUSED + 8);
    match(none, BYTES("\0"), 0, FIDSHORE_REFUSED + 8);
    struct bytes longest = fill(FIDSHORE_TEXT_LIMIT);
    filled[longest.len - 1] = 0;
    match(str("*"), longest, 0, FIDSHORE_REFUSED + 8);
    match(str("A"), str("a"), 3, FIDSHORE_MATCH);
    match(str("a"), str("a"), 4, FIDSHORE_REFUSED + 9);
    match(str("a"), str("a"), UINT64_C(1) << 32, FIDSHORE_REFUSED + 9);
    match(none, none, UINT64_MAX, FIDSHORE_REFUSED + 9);
    /* Several hold: the lowest is answered. */
    longest = fill(FIDSHORE_TEXT_LIMIT + 1);
    filled[0] = 0;
    match(str("a"), longest, 4, FIDSHORE_REFUSED + 7);
    match(str("a"), BYTES("\0a"), UINT64_MAX, FIDSHORE_REFUSED + 8);
}

/* In every mode, and with every text: what the pattern's own bytes are, one that
 * its front takes, one that fails at once, and none. A refusal comes first. */
static void pattern_is_broken(struct bytes pattern)
{
    const struct bytes texts[] = { pattern, str("a"), str("\x01"), none };
    for (size_t i = 0; i < 4 * sizeof texts / sizeof *texts; i++) match(pattern, texts[i / 4], i % 4, FIDSHORE_BROKEN);
    match(pattern, none, 4, FIDSHORE_REFUSED + 9);
    match(pattern, BYTES("\0"), 4, FIDSHORE_REFUSED + 8);
    match(pattern, fill(FIDSHORE_TEXT_LIMIT + 1), 4, FIDSHORE_REFUSED + 7);
}

/* Each way to be broken: at the start, behind an item, and up to the last byte of
 * the longest pattern; one byte more is refused. */
static void matcher_broken(void)
{
    static const char *const ways[] = {
        "\\", "[", "[!", "[^", "[]", "[!]", "[a-z", "[a-", "[[:", "[[:alpha:", "[[:alpha:]", "[[:foo:]]", "[[::]]", "[a\\", "[a-\\", "[\\]",
    };
    static char long_room[FIDSHORE_PATTERN_LIMIT + 1], room[16];
    for (size_t i = 0; i < sizeof ways / sizeof *ways; i++) {
        const struct bytes way = str(ways[i]);
        pattern_is_broken(way);
        snprintf(room, sizeof room, "a%s", way.at);
        pattern_is_broken(str(room));
        memset(long_room, 'a', sizeof long_room);
        memcpy(long_room + sizeof long_room - way.len, way.at, way.len);
        pattern_is_broken((struct bytes){ long_room + 1, FIDSHORE_PATTERN_LIMIT });
        match((struct bytes){ long_room, sizeof long_room }, none, 0, FIDSHORE_REFUSED + 7);
    }
    match(str("foo\\"), str("foo\\"), 0, FIDSHORE_BROKEN);
    match(BYTES("[\0"), str("a"), 0, FIDSHORE_REFUSED + 8);
}

/* Nearly broken, and the empty pattern. */
static void matcher_unbroken(void)
{
    match(none, str("a"), 0, FIDSHORE_NO_MATCH);
    match(str("\\\\"), str("\\"), 0, FIDSHORE_MATCH);
    match(str("foo\\/"), str("foo/"), 0, FIDSHORE_MATCH);
    match(str("\\[a-z"), str("[a-z"), 0, FIDSHORE_MATCH);
    match(str("[]]"), str("]"), 0, FIDSHORE_MATCH);
    match(str("[!]]"), str("]"), 0, FIDSHORE_NO_MATCH);
    match(str("[\\]]"), str("]"), 0, FIDSHORE_MATCH);
    match(str("[[:]"), str("["), 0, FIDSHORE_MATCH);
    match(str("[[=a=]]"), str("=]"), 0, FIDSHORE_MATCH);
}

/* To both questions a line with a broken pattern does not match; 2 is another
 * answer there. `foo\/` as a line leaves `foo\`: its last `/` is not the pattern's. */
static void broken_lines(void)
{
    ignore(str("*\n![a-z\n"), str("q"), 0, FIDSHORE_IGNORED);
    ignore(str("*\n![a-z]\n"), str("q"), 0, FIDSHORE_RE_INCLUDED);
    ignore(str("foo\\/\n"), str("foo\\"), FIDSHORE_DIRECTORY, FIDSHORE_NOTHING_SAID);
    attribute(str("* fill\n[a-z -fill\n"), str("q"), str("fill"), 0, FIDSHORE_SET);
    attribute(str("foo\\/ fill\n"), str("foo\\"), str("fill"), FIDSHORE_DIRECTORY, FIDSHORE_NOTHING_SAID);
}

/* A text is no path: it and the pattern may hold every byte but 0. */
static void matcher_bytes(void)
{
    match(str("*"), str("a\nb"), FIDSHORE_PATH_MODE, FIDSHORE_MATCH);
    match(str("a\r*"), str("a\r\n"), 0, FIDSHORE_MATCH);
    match(str("[[:space:]]"), str("\v"), 0, FIDSHORE_MATCH);
    for (int x = 1; x < 256; x++) {
        char text[] = { (char)x }, pattern[] = { '\\', (char)x };
        match(str("?"), (struct bytes){ text, 1 }, 0, FIDSHORE_MATCH);
        match((struct bytes){ pattern, 2 }, (struct bytes){ text, 1 }, 0, FIDSHORE_MATCH);
    }
}

/* The examples in the header's comments, as they stand there. */
static void header_examples(void)
{
    {
        static const uint8_t pattern[] = "2026*.nc", text[] = "2026/h05.nc";
        struct bytes p = { (const char *)pattern, 8 }, t = { (const char *)text, 11 };
        judge("match", p, t, 0, fidshore_match(pattern, 8, text, 11, 0), FIDSHORE_MATCH);
        judge("match", p, t, 1, fidshore_match(pattern, 8, text, 11, FIDSHORE_PATH_MODE), FIDSHORE_NO_MATCH);
        judge("match", p, t, 4, fidshore_match(pattern, 8, text, 11, 4), FIDSHORE_REFUSED + 9);
        judge("match", str("[a-z"), t, 0, fidshore_match((const uint8_t *)"[a-z", 4, text, 11, 0), FIDSHORE_BROKEN);
        match(str("[a-z"), str("[a-z"), 0, FIDSHORE_BROKEN);
    }
    {
        static const uint8_t rules[] = "cal/\n!cal/h07.jpg\n", path[] = "cal/h07.jpg";
        uint32_t code = fidshore_ignore(rules, sizeof rules - 1, path, 11, 0);
        judge("ignore", str((const char *)rules), str((const char *)path), 0, code, FIDSHORE_IGNORED);
    }
    {
        static const uint8_t rules[] = "*.nc fill\nh17.nc -fill\n", path[] = "h17.nc", name[] = "fill";
        uint32_t code = fidshore_attribute(rules, sizeof rules - 1, path, 6, name, 4, 0);
        judge("attribute", str((const char *)rules), str((const char *)path), 0, code, FIDSHORE_UNSET);
    }
}

/* Both questions about a path of which lines speak, unless it is refused. */
static void path_is(int good, struct bytes path)
{
    ignore(str("*\n"), path, 0, good ? FIDSHORE_IGNORED : FIDSHORE_REFUSED + 1);
    attribute(str("* fill\n"), path, str("fill"), 0, good ? FIDSHORE_SET : FIDSHORE_REFUSED + 1);
}

/* Refusal 1 of both questions. The last of the bad ones is a line of a listing with CRLF ends. */
static void paths(void)
{
    static const char *const bad[] = {
        "/", "/a", "a/", "a//b", "//", ".", "..", "./a", "../a", "a/.", "a/..", "a/./b", "a/../b",
        "\n", "\r", "\x1f", "\x7f", "a\nb", "a\tb/c", "a/\x01", "a/b\x7f", "h17.nc\r",
    };
    static const char *const good[] = {
        "a", "...", "a/...", ".a", "..a/b", "a./b..", " ", "a b", "~", "a~/b", "\x80", "a\x80/b", "a/\xff", "\xc3\xa9", "h17.nc",
    };
    for (size_t i = 0; i < sizeof bad / sizeof *bad; i++) path_is(0, str(bad[i]));
    for (size_t i = 0; i < sizeof good / sizeof *good; i++) path_is(1, str(good[i]));
    both(str("*\n"), none, 0, FIDSHORE_REFUSED + 1);
    both(str("*\n"), str(""), 0, FIDSHORE_REFUSED + 1);
    both(none, none, 0, FIDSHORE_REFUSED + 1);
    both(none, str("a\r"), 0, FIDSHORE_REFUSED + 1);
    both(str("*\n"), BYTES("\0"), 0, FIDSHORE_REFUSED + 1);
    both(str("*\n"), BYTES("a\0"), 0, FIDSHORE_REFUSED + 1);
    both(none, fill(FIDSHORE_PATH_LIMIT), 0, FIDSHORE_NOTHING_SAID);
    both(none, fill(FIDSHORE_PATH_LIMIT + 1), 0, FIDSHORE_REFUSED + 1);
    both(none, fill(sizeof filled), 0, FIDSHORE_REFUSED + 1);
}

/* Every byte in a parent: alone, first and last there, and in a parent below another. */
static void parent_bytes(void)
{
    for (int x = 0; x < 256; x++) {
        char alone[] = { (char)x, '/', 'b' }, first[] = { (char)x, 'a', '/', 'b' }, last[] = { 'a', (char)x, '/', 'b' }, below[] = { 'a', '/', (char)x, '/', 'b' };
        int good = x >= 32 && x != 127 && x != '/';
        path_is(good && x != '.', (struct bytes){ alone, sizeof alone });
        path_is(good, (struct bytes){ first, sizeof first });
        path_is(good, (struct bytes){ last, sizeof last });
        path_is(good && x != '.', (struct bytes){ below, sizeof below });
    }
}

/* A byte on each side, as the first, the middle and the last of a path so long. */
static void path_places(size_t len)
{
    static const int bytes[] = { 1, 11, 31, 127, 32, 126, 128, 255 };
    for (size_t i = 0; i < 3 * sizeof bytes / sizeof *bytes; i++) {
        size_t place = i % 3 * (len - 1) / 2;
        struct bytes path = fill(len);
        filled[place] = (char)bytes[i / 3];
        path_is(i / 3 >= 4, path);
    }
}

/* Is a path of so many letters taken with this byte at this place? */
static int taken(int x, size_t place, size_t len)
{
    if (x == '/') return place > 0 && place + 1 < len;
    return x >= 32 && x != 127 && (x != '.' || len > 1);
}

/* Each byte at each place of a path so long. */
static void path_whole(size_t len)
{
    for (size_t i = 0; i < 256 * len; i++) {
        int x = (int)(i % 256);
        struct bytes path = fill(len);
        filled[i / 256] = (char)x;
        path_is(taken(x, i / 256, len), path);
    }
}

/* Short paths, which are scanned in parts, as a whole; longer ones by places. */
static void path_lengths(void)
{
    static const size_t others[] = { 100, 127, 128, 129, FIDSHORE_PATH_LIMIT - 1, FIDSHORE_PATH_LIMIT };
    for (size_t len = 1; len <= 70; len++) path_whole(len);
    for (size_t i = 0; i < sizeof others / sizeof *others; i++) path_places(others[i]);
}

/* Refusals 3, 4 and 9 of both questions. */
static void rule_bytes(void)
{
    struct bytes rules = str("a fill\n");
    both(none, str("a"), 0, FIDSHORE_NOTHING_SAID);
    both(str(""), str("a"), 0, FIDSHORE_NOTHING_SAID);
    for (size_t i = 0; i < 2; i++) {
        struct bytes long_rules = fill(FIDSHORE_RULES_LIMIT + i);
        for (size_t at = 63; at < long_rules.len; at += 64) filled[at] = '\n';
        both(long_rules, str("b"), 0, i ? FIDSHORE_REFUSED + 3 : FIDSHORE_NOTHING_SAID);
    }
    both(fill(sizeof filled), str("b"), 0, FIDSHORE_REFUSED + 3);
    both(BYTES("a\0\n"), str("a"), 0, FIDSHORE_REFUSED + 4);
    both(BYTES("\0"), str("a"), 0, FIDSHORE_REFUSED + 4);
    both(BYTES("#\n#\0"), str("a"), 0, FIDSHORE_REFUSED + 4);
    /* Byte 0 alone: patterns and values may hold what no path may. */
    ignore(str("a\x01\n*"), str("b"), 0, FIDSHORE_IGNORED);
    ignore(str("[\x1f" "b\x7f]\n"), str("b"), 0, FIDSHORE_IGNORED);
    attribute(str("a\x01 -fill\n* fill=\x1f\x7f\n"), str("b"), str("fill"), 0, FIDSHORE_VALUE);
    both(rules, str("b"), 3, FIDSHORE_NOTHING_SAID);
    both(rules, str("b"), 4, FIDSHORE_REFUSED + 9);
    both(rules, str("b"), UINT64_C(1) << 32, FIDSHORE_REFUSED + 9);
    both(none, str("b"), UINT64_MAX, FIDSHORE_REFUSED + 9);
}

/* The front, letters up to this length, and the back. */
static struct bytes line(const char *front, size_t len, const char *back)
{
    size_t letters = len - strlen(back);
    fill(letters);
    memcpy(filled, front, strlen(front));
    memcpy(filled + letters, back, strlen(back));
    return (struct bytes){ filled, len };
}

/* Refusal 5 of both questions: a line is counted with BOM and CR, without its newline. */
static void lines(void)
{
    static const char *const fronts[] = { "", BOM, "#", "\n", "b\n", BOM "\n" };
    static const char *const backs[] = { "", "\r", "\n", "\r\n", "\n\n", "\nb", "\n#" };
    for (size_t f = 0; f < sizeof fronts / sizeof *fronts; f++) {
        for (size_t b = 0; b < sizeof backs / sizeof *backs; b++) {
            const char *start = strchr(fronts[f], '\n'), *end = strchr(backs[b], '\n');
            size_t uncounted = (start ? (size_t)(start - fronts[f]) + 1 : 0) + (end ? strlen(end) : 0);
            both(line(fronts[f], FIDSHORE_LINE_LIMIT + uncounted, backs[b]), str("c"), 0, FIDSHORE_NOTHING_SAID);
            both(line(fronts[f], FIDSHORE_LINE_LIMIT + 1 + uncounted, backs[b]), str("c"), 0, FIDSHORE_REFUSED + 5);
        }
    }
}

/* Refusal 6. */
static void names(void)
{
    struct bytes rules = str("a fill\n"), path = str("a");
    attribute(rules, path, none, 0, FIDSHORE_REFUSED + 6);
    attribute(rules, path, str(""), 0, FIDSHORE_REFUSED + 6);
    attribute(none, path, none, 0, FIDSHORE_REFUSED + 6);
    attribute(rules, path, str("-fill"), 0, FIDSHORE_REFUSED + 6);
    attribute(rules, path, str("fill-"), 0, FIDSHORE_NOTHING_SAID);
    attribute(rules, path, fill(FIDSHORE_NAME_LIMIT), 0, FIDSHORE_NOTHING_SAID);
    attribute(rules, path, fill(FIDSHORE_NAME_LIMIT + 1), 0, FIDSHORE_REFUSED + 6);
    attribute(rules, path, fill(sizeof filled), 0, FIDSHORE_REFUSED + 6);
    for (int x = 0; x < 256; x++) {
        char name[] = { 'n', (char)x };
        int letter = (x >= 'a' && x <= 'z') || (x >= 'A' && x <= 'Z'), digit = x >= '0' && x <= '9';
        int good = letter || digit || x == '-' || x == '.' || x == '_';
        attribute(rules, path, (struct bytes){ name, 2 }, 0, good ? FIDSHORE_NOTHING_SAID : FIDSHORE_REFUSED + 6);
    }
}

/* All that the questions can be refused for at once, taken away from the lowest
 * on: the next is answered each time. */
static void several(void)
{
    struct bytes name = str("-fill"), path = str("a/");
    struct bytes over = line("", FIDSHORE_RULES_LIMIT + 1, ""), zero, long_line;
    filled[0] = 0;
    both(over, path, 4, FIDSHORE_REFUSED + 1);
    attribute(over, path, name, 4, FIDSHORE_REFUSED + 1);
    path = str("a\x02");
    both(over, path, 4, FIDSHORE_REFUSED + 1);
    attribute(over, path, name, 4, FIDSHORE_REFUSED + 1);
    path = str("a");
    both(over, path, 4, FIDSHORE_REFUSED + 3);
    attribute(over, path, name, 4, FIDSHORE_REFUSED + 3);
    zero = (struct bytes){ filled, FIDSHORE_RULES_LIMIT };
    both(zero, path, 4, FIDSHORE_REFUSED + 4);
    attribute(zero, path, name, 4, FIDSHORE_REFUSED + 4);
    long_line = fill(FIDSHORE_RULES_LIMIT);
    both(long_line, path, 4, FIDSHORE_REFUSED + 5);
    attribute(long_line, path, name, 4, FIDSHORE_REFUSED + 5);
    attribute(none, path, name, 4, FIDSHORE_REFUSED + 6);
    both(none, path, 4, FIDSHORE_REFUSED + 9);
}

/* The most of everything: 65,536 rule bytes in lines of 2,048, of which the last
 * alone speaks, if any; a path of 4,096 bytes and 2,048 components; a name of 255. */
static void largest(void)
{
    static char rules[FIDSHORE_RULES_LIMIT], path[FIDSHORE_PATH_LIMIT], name[FIDSHORE_NAME_LIMIT];
    const struct bytes r = { rules, sizeof rules }, p = { path, sizeof path }, n = { name, sizeof name };
    const size_t last = sizeof rules / (FIDSHORE_LINE_LIMIT + 1) * (FIDSHORE_LINE_LIMIT + 1);
    memset(name, 'n', sizeof name);
    for (size_t i = 0; i < sizeof path; i++) path[i] = i % 2 && i < sizeof path - 1 ? '/' : 'b';
    memset(rules, 'a', last);
    memset(rules + last, ' ', sizeof rules - last);
    for (size_t i = FIDSHORE_LINE_LIMIT; i < last; i += FIDSHORE_LINE_LIMIT + 1) rules[i] = '\n';
    ignore(r, p, 3, FIDSHORE_NOTHING_SAID);
    attribute(r, p, n, 3, FIDSHORE_NOTHING_SAID);
    rules[last] = '*';
    ignore(r, p, 3, FIDSHORE_IGNORED);
    memcpy(rules + last + 2, name, sizeof name);
    attribute(r, p, n, 3, FIDSHORE_SET);
    memcpy(rules + last, "!**/bb", 6);
    memset(rules + last + 6, ' ', sizeof name);
    ignore(r, p, 3, FIDSHORE_RE_INCLUDED);
}

int main(int count, char **words)
{
    if (count != 4) {
        fprintf(stderr, "usage: smoke MATCHES IGNORES ATTRIBUTES\n");
        return 2;
    }
    table(words[1], match_row);
    table(words[2], question_row);
    table(words[3], question_row);
    matcher();
    matcher_refusals();
    matcher_bytes();
    matcher_broken();
    matcher_unbroken();
    broken_lines();
    header_examples();
    paths();
    path_lengths();
    parent_bytes();
    rule_bytes();
    lines();
    names();
    several();
    largest();
    printf("smoke: %d asked, %d wrong\n", asked, wrong);
    return wrong > 0;
}
