/* Random numbers by the seed, and buffers that grow at their end. */
#include "soak.h"
#include <stdio.h>
#include <stdlib.h>
#include <string.h>

static uint64_t state;

void start_random(uint64_t seed) { state = seed; }

/* A number under n. The high bits of a linear step: good enough to choose by. */
size_t below(size_t n)
{
    state = state * UINT64_C(6364136223846793005) + UINT64_C(1442695040888963407);
    return (size_t)(state >> 33) % n;
}

int chance(size_t percent) { return below(100) < percent; }

uint8_t control(void)
{
    size_t x = 1 + below(32);
    return x < 32 ? (uint8_t)x : 127;
}

void add(struct buffer *b, const void *bytes, size_t len)
{
    if (len > MOST - b->len) {
        fprintf(stderr, "soak: a buffer is full\n");
        exit(2);
    }
    memcpy(b->at + b->len, bytes, len);
    b->len += len;
}

void add_text(struct buffer *b, const char *text) { add(b, text, strlen(text)); }

void add_byte(struct buffer *b, size_t byte)
{
    uint8_t x = (uint8_t)byte;
    add(b, &x, 1);
}

void add_times(struct buffer *b, const char *unit, size_t times)
{
    for (size_t i = 0; i < times; i++) add_text(b, unit);
}

void put_before(struct buffer *b, const void *bytes, size_t len)
{
    static struct buffer rest;
    copy_buffer(&rest, b);
    b->len = 0;
    add(b, bytes, len);
    add(b, rest.at, rest.len);
}

void copy_buffer(struct buffer *to, const struct buffer *from)
{
    to->len = from->len;
    memcpy(to->at, from->at, from->len);
}

/* Only what is lent: the rest of the buffers is large. */
void copy_question(struct question *to, const struct question *from)
{
    if (to == from) return;
    to->call = from->call;
    to->flags = from->flags;
    copy_buffer(&to->first, &from->first);
    copy_buffer(&to->second, &from->second);
    copy_buffer(&to->name, &from->name);
}

int holds_any(const struct buffer *b, const char *bytes)
{
    for (size_t i = 0; i < b->len; i++)
        if (b->at[i] && strchr(bytes, b->at[i])) return 1;
    return 0;
}

/* The length of the path's parent, 0 at the top. */
size_t last_slash(const struct buffer *path)
{
    size_t at = path->len;
    while (at > 0 && path->at[at - 1] != '/') at--;
    return at > 0 ? at - 1 : 0;
}
