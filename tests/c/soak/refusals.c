/* Document 01's table "When a question is turned away", with what document 02
 * adds to it, read once more and as plainly as can be. The limits are the
 * papers' numbers and not the header's names, so that a wrong name shows too.
 * Refusal 2 is missing: it is about how several files are lent, and each C call
 * lends one. */
#include "soak.h"
#include <string.h>

static int holds_zero(const struct buffer *b) { return memchr(b->at, 0, b->len) != NULL; }

/* 02, R-8: "Refusal 1 now also covers any path byte below 32 and byte 127." Byte 0
 * is one of them. The bytes have no sign, so that 128 and above are not below 32. */
static int holds_control(const struct buffer *b)
{
    for (size_t i = 0; i < b->len; i++)
        if (b->at[i] < 32 || b->at[i] == 127) return 1;
    return 0;
}

/* A component is empty where a `/` is first, last or doubled. */
static int bad_component(const uint8_t *at, size_t len)
{
    return len == 0 || (len == 1 && at[0] == '.') || (len == 2 && at[0] == '.' && at[1] == '.');
}

static int bad_path(const struct buffer *path)
{
    if (path->len == 0 || path->len > 4096 || holds_control(path)) return 1;
    size_t start = 0;
    for (size_t i = 0; i <= path->len; i++) {
        if (i < path->len && path->at[i] != '/') continue;
        if (bad_component(path->at + start, i - start)) return 1;
        start = i + 1;
    }
    return 0;
}

/* The newline is not counted; BOM and CR are bytes like any other here. */
static int long_line(const struct buffer *rules)
{
    size_t length = 0;
    for (size_t i = 0; i < rules->len; i++) {
        length = rules->at[i] == '\n' ? 0 : length + 1;
        if (length > 2048) return 1;
    }
    return 0;
}

static int bad_name(const struct buffer *name)
{
    static const char good[] = "abcdefghijklmnopqrstuvwxyzABCDEFGHIJKLMNOPQRSTUVWXYZ0123456789-._";
    if (name->len == 0 || name->len > 255 || name->at[0] == '-') return 1;
    for (size_t i = 0; i < name->len; i++)
        if (!memchr(good, name->at[i], sizeof good - 1)) return 1;
    return 0;
}

/* From the lowest up, since the lowest is answered. */
unsigned refusal(const struct question *q)
{
    if (q->call == MATCH) {
        if (q->first.len > 2048 || q->second.len > 4096) return 7;
        if (holds_zero(&q->first) || holds_zero(&q->second)) return 8;
    } else {
        if (bad_path(&q->second)) return 1;
        if (q->first.len > 65536) return 3;
        if (holds_zero(&q->first)) return 4;
        if (long_line(&q->first)) return 5;
        if (q->call == ATTRIBUTE && bad_name(&q->name)) return 6;
    }
    return q->flags > 3 ? 9 : 0;
}
