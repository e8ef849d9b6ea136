/* A small loader: which files of an archive are kept out, and which gaps may be
 * filled. It needs include/fidshore.h and libfidshore.a only.
 *
 * usage: loader FOLDER
 *
 * FOLDER holds the rule files of each layer (fleet.ignore, fleet.attributes,
 * site.ignore, site.attributes) and listing.txt, one path of a file a line, ended
 * by a newline alone: the CR of a CRLF line end would be part of the path, which
 * is then refused (1), and so neither loaded nor filled.
 * Prints one line a path. Status 0; 1 if a question was refused; 2 if a file
 * could not be read, and then nothing is loaded or filled.
 *
 * Why the files are laid end to end
 *
 * The calls take one rule file at the archive's top. All files here stand at
 * the top (base 0), so they are laid end to end, lowest first, and asked about
 * as one. That is safe: rules are lines in an order, the last one that has an effect on
 * an entry wins, and laid so the lines are those of the fleet file and then
 * those of the site file, byte for byte. lay() minds the two things that could
 * change a line where two files meet. All layers together may have 65,536 bytes;
 * beyond that each question is refused (3), and nothing is loaded or filled.
 *
 * To ask file by file and combine the codes is not safe. An ignore answer has
 * its own file's parents in it, and such answers do not compose:
 *
 * - fleet `flat/`, site `!flat/`, path flat/h12.jpg. The fleet file alone says
 *   ignored; the site file alone says nothing of this path, so the fleet's
 *   answer would stand and a sky frame be lost. Together the site re-includes
 *   the directory, and the frame is loaded.
 * - fleet `cal/`, site `!cal/h07.jpg`, path cal/h07.jpg. The site file alone says
 *   re-included, and a calibration frame would get in. Together the directory
 *   is ignored first, and nothing below it comes back.
 *
 * Attribute answers have no parents in them and would compose, but only for a
 * caller who remembers that "unspecified" is an answer and "nothing said" is
 * none. Laid end to end, both questions are asked alike.
 *
 * A rule file of a directory below the top must not be laid so: its patterns
 * start at its own directory. */
#include "fidshore.h"

#include <errno.h>
#include <stdio.h>
#include <stdlib.h>
#include <string.h>

/* Lowest first: a site line beats a fleet line. In March it was the other way round. */
static const char *const layers[] = { "fleet", "site" };

static const char *const reasons[] = {
    [1] = "the path is empty or too long, holds a control byte (below 32, as the CR of a CRLF line end, or 127; shown as `?`), or has a misplaced `/` or a component `.` or `..`",
    [3] = "the rules have over 65,536 bytes",
    [4] = "byte 0 in the rules",
    [5] = "a line of the rules has over 2,048 bytes",
    [6] = "the attribute's name is bad",
    [9] = "the flags are above 3",
};

struct bytes { uint8_t *at; size_t len; };

static int paths, kept_out, fillable, refusals;

static void stop(const char *name)
{
    perror(name);
    exit(2);
}

static void put(struct bytes *all, const void *more, size_t len)
{
    uint8_t *at = realloc(all->at, all->len + len);
    if (!at) stop("memory");
    memcpy(at + all->len, more, len);
    all->at = at;
    all->len += len;
}

static struct bytes read_file(const char *folder, const char *stem, const char *ending)
{
    char name[4096], part[4096];
    struct bytes all = { NULL, 0 };
    int len = snprintf(name, sizeof name, "%s/%s.%s", folder, stem, ending);
    if (len < 0 || (size_t)len >= sizeof name) {
        errno = ENAMETOOLONG;
        stop("FOLDER");
    }
    FILE *file = fopen(name, "rb");
    if (!file) stop(name);
    for (size_t got; (got = fread(part, 1, sizeof part, file)) > 0;) put(&all, part, got);
    if (ferror(file)) stop(name);
    fclose(file);
    return all;
}

/* Lays one more file behind those that lie already.
 *
 * A BOM counts as one only at a file's start: behind another file it would
 * become part of the first line's pattern, so it is dropped. (It then no longer
 * counts towards that line's 2,048 bytes.) And a last line without its newline
 * would run into the first line of the next file, so it gets one. */
static void lay(struct bytes *all, struct bytes file)
{
    if (all->len > 0 && file.len >= 3 && memcmp(file.at, "\xEF\xBB\xBF", 3) == 0) {
        file.at += 3;
        file.len -= 3;
    }
    if (file.len == 0) return;
    if (all->len > 0 && all->at[all->len - 1] != '\n') put(all, "\n", 1);
    put(all, file.at, file.len);
}

static struct bytes read_rules(const char *folder, const char *ending)
{
    struct bytes all = { NULL, 0 };
    for (size_t i = 0; i < sizeof layers / sizeof *layers; i++) {
        struct bytes file = read_file(folder, layers[i], ending);
        lay(&all, file);
        free(file.at);
    }
    return all;
}

/* A code that is no answer: a refusal, with its number and reason. */
static void say_refused(uint32_t code)
{
    uint32_t number = code - FIDSHORE_REFUSED;
    const char *reason = number < sizeof reasons / sizeof *reasons ? reasons[number] : NULL;
    printf("refused %u (%s)", (unsigned)number, reason ? reason : "a code that this loader does not know");
    refusals++;
}

/* May a gap be filled? Only a line that sets `fill` says yes. The desk's
 * default, wherever no line says yes or never, is not to fill. */
static void say_fill(struct bytes rules, const uint8_t *path, size_t len)
{
    static const uint8_t fill[] = "fill";
    uint32_t code = fidshore_attribute(rules.at, rules.len, path, len, fill, sizeof fill - 1, 0);
    switch (code) {
    case FIDSHORE_SET: fillable++; printf("may be filled"); break;
    case FIDSHORE_UNSET: printf("never fill"); break;
    case FIDSHORE_VALUE: printf("not filled by default (a line gives a value)"); break;
    case FIDSHORE_UNSPECIFIED: printf("not filled by default (a line leaves it unspecified)"); break;
    case FIDSHORE_NOTHING_SAID: printf("not filled by default (nothing said)"); break;
    default: printf("not filled: "); say_refused(code);
    }
}

/* Control bytes as `?`: a CR would let what follows overwrite the path. */
static void show(const uint8_t *path, size_t len)
{
    for (size_t i = 0; i < len; i++) putchar(path[i] < 32 || path[i] == 127 ? '?' : path[i]);
    printf("%*s", len < 28 ? (int)(28 - len) : 1, "");
}

static void judge(struct bytes ignores, struct bytes attributes, const uint8_t *path, size_t len)
{
    uint32_t code = fidshore_ignore(ignores.at, ignores.len, path, len, 0);
    paths++;
    show(path, len);
    switch (code) {
    case FIDSHORE_IGNORED: kept_out++; printf("kept out"); break;
    case FIDSHORE_RE_INCLUDED: printf("loaded (re-included), "); say_fill(attributes, path, len); break;
    case FIDSHORE_NOTHING_SAID: printf("loaded, "); say_fill(attributes, path, len); break;
    default: printf("not loaded, not filled: "); say_refused(code);
    }
    putchar('\n');
}

int main(int argc, char **argv)
{
    if (argc != 2) {
        fputs("usage: loader FOLDER\n", stderr);
        return 2;
    }
    struct bytes ignores = read_rules(argv[1], "ignore"), attributes = read_rules(argv[1], "attributes");
    struct bytes listing = read_file(argv[1], "listing", "txt");
    for (size_t start = 0; start < listing.len;) {
        const uint8_t *path = listing.at + start, *end = memchr(path, '\n', listing.len - start);
        size_t len = end ? (size_t)(end - path) : listing.len - start;
        judge(ignores, attributes, path, len);
        start += len + 1;
    }
    printf("%d paths: %d kept out, %d may be filled, %d refused\n", paths, kept_out, fillable, refusals);
    free(ignores.at);
    free(attributes.at);
    free(listing.at);
    return refusals > 0;
}
