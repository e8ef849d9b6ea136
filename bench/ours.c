/* The archive's calls, by its header. */
#include "fidshore.h"
#include "worker.h"

#define LENT(s) (const uint8_t *)(s).at, (s).len

/* Broken is read as no match: git and fnmatch, and an archive from before R-14, tell no more. */
static int match(struct bytes pattern, struct bytes text, unsigned flags)
{
    uint32_t code = fidshore_match(LENT(pattern), LENT(text), flags);
    return code == FIDSHORE_BROKEN ? FIDSHORE_NO_MATCH : (int)code;
}

static int ignore(struct bytes rules, struct bytes path, unsigned flags)
{
    return (int)fidshore_ignore(LENT(rules), LENT(path), flags);
}

static int attribute(struct bytes rules, struct bytes path, unsigned flags)
{
    static const struct bytes name = { ATTRIBUTE, sizeof ATTRIBUTE - 1 };
    return (int)fidshore_attribute(LENT(rules), LENT(path), LENT(name), flags);
}

const struct library library = { .match = match, .ignore = ignore, .attribute = attribute };
