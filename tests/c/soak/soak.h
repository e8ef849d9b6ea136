/* What the parts of the soak share: buffers, questions, and who makes, asks and
 * judges them. */
#ifndef SOAK_H
#define SOAK_H

#include <stddef.h>
#include <stdint.h>

/* Room for what is far over every limit. */
#define MOST 80000

#define COUNT(list) (sizeof(list) / sizeof *(list))
#define PICK(list) (list)[below(COUNT(list))]

struct buffer { size_t len; uint8_t at[MOST]; };

enum call { MATCH, IGNORE, ATTRIBUTE };

/* Of the matcher, `first` is the pattern and `second` the text; of the questions
 * they are the rules and the path. `name` is the attribute question's alone. */
struct question {
    enum call call;
    struct buffer first, second, name;
    uint64_t flags;
};

/* buffers.c: numbers by the seed, and bytes added at a buffer's end. */
void start_random(uint64_t seed);
size_t below(size_t n);
int chance(size_t percent);
uint8_t control(void); /* 1 to 31, or 127 */
void add(struct buffer *b, const void *bytes, size_t len);
void add_text(struct buffer *b, const char *text);
void add_byte(struct buffer *b, size_t byte);
void add_times(struct buffer *b, const char *unit, size_t times);
void put_before(struct buffer *b, const void *bytes, size_t len);
void copy_buffer(struct buffer *to, const struct buffer *from);
void copy_question(struct question *to, const struct question *from);
int holds_any(const struct buffer *b, const char *bytes);
size_t last_slash(const struct buffer *path);

/* refusals.c: the number that document 01's table gives, 0 if it gives none. */
unsigned refusal(const struct question *q);

/* making.c: a random question; see there what kinds. */
void make_question(struct question *q);

/* asking.c: the code of a question, asked more than once and watched. */
uint32_t ask(const struct question *q);
void wrong(const struct question *q, const char *what, uint32_t got, uint32_t want);
extern size_t asked;

/* A law takes an accepted question with its code, changes the question and says
 * what must be answered then. It gives 0 where it has nothing to say. */
struct law {
    const char *name;
    int (*holds)(const struct question *q, uint32_t code);
    size_t tried;
};

/* match_laws.c, ignore_laws.c, attribute_laws.c: each list ends with no name. */
extern struct law match_laws[], ignore_laws[], attribute_laws[];

/* laws.c: what the lists share. The changed question is `changed`; a line that
 * is NULL, or has no room, changes nothing and gives 0. */
extern struct question changed;
int gives(uint32_t want);
int with_last(const struct question *q, const char *line);
int with_first(const struct question *q, const char *line);
const char *naming(const char *front, const struct buffer *path, size_t len, const char *back);
int blanked(const struct question *q, uint32_t code);
int said_twice(const struct question *q, uint32_t code);
int with_bom(const struct question *q, uint32_t code);
int with_crs(const struct question *q, uint32_t code);
int other_case(const struct question *q, uint32_t code);
int with_control(const struct question *q, uint32_t code);
int no_slash_no_directory(const struct question *q, uint32_t code);

#endif
