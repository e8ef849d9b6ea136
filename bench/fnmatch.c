/* glibc's fnmatch, and the loop over it that a loader without a library might
 * have. The loop is not the whole ignore question: `**` does not cross a `/`,
 * and escapes, trailing spaces, BOM and CR are not read. It shows what the
 * calls of fnmatch alone would cost; run says how many answers differ. */
#define _GNU_SOURCE
#include "worker.h"
#include <fnmatch.h>
#include <string.h>

static int match(struct bytes pattern, struct bytes text, unsigned flags)
{
    return fnmatch(pattern.at, text.at, (flags & 1) ? FNM_PATHNAME : 0) == 0;
}

/* What one line says of an entry: 0 nothing, 1 ignored, 2 re-included. */
static int said(struct bytes line, const char *entry, const char *component, int directory)
{
    char pattern[PATH_ROOM];
    if (line.len == 0 || line.len >= sizeof pattern || line.at[0] == '#')
        return 0;
    int again = line.at[0] == '!';
    line.at += again;
    line.len -= (size_t)again;
    if (line.len && line.at[line.len - 1] == '/') {
        if (!directory)
            return 0;
        line.len--;
    }
    int whole = memchr(line.at, '/', line.len) != NULL;
    int anchored = line.len && line.at[0] == '/';
    memcpy(pattern, line.at + anchored, line.len - (size_t)anchored);
    pattern[line.len - (size_t)anchored] = 0;
    if (fnmatch(pattern, whole ? entry : component, FNM_PATHNAME) != 0)
        return 0;
    return again ? 2 : 1;
}

/* The last line that speaks decides, so they are read from the end. */
static int verdict(struct bytes rules, const char *entry, const char *component, int directory)
{
    size_t end = rules.len;
    while (end > 0) {
        end--;   /* the line's newline */
        const char *before = memrchr(rules.at, '\n', end);
        size_t start = before ? (size_t)(before - rules.at) + 1 : 0;
        int code = said((struct bytes){ rules.at + start, end - start }, entry, component, directory);
        if (code)
            return code;
        end = start;
    }
    return 0;
}

/* The directories above the path first, from the top: an ignored one decides. */
static int ignore(struct bytes rules, struct bytes path, unsigned flags)
{
    char entry[PATH_ROOM + 1];
    size_t component = 0;
    memcpy(entry, path.at, path.len + 1);
    for (size_t i = 0; i < path.len; i++) {
        if (entry[i] != '/')
            continue;
        entry[i] = 0;
        if (verdict(rules, entry, entry + component, 1) == 1)
            return 1;
        entry[i] = '/';
        component = i + 1;
    }
    return verdict(rules, entry, entry + component, flags & 1);
}

const struct library library = { .match = match, .ignore = ignore };
