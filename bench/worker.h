/* What a worker can ask one library; worker.c is built once with each. A call
 * that a library does not have is null.
 *
 * Answers are the codes of fidshore.h, so that they can be compared. The one
 * flag, 1, is path mode for the matcher and "a directory" for the questions. */
#ifndef WORKER_H
#define WORKER_H
#include <stddef.h>

/* The attribute that is asked for, and the longest path of a workload. */
#define ATTRIBUTE "fill"
#define PATH_ROOM 4096

/* A byte 0 that is not counted follows, so that C strings need no copy. */
struct bytes {
    const char *at;
    size_t len;
};

/* The first is a pattern or a rule file, the second a text or a path. */
typedef int ask(struct bytes first, struct bytes second, unsigned flags);

struct library {
    ask *match, *ignore, *attribute;
    void (*start)(void);
};
extern const struct library library;

#endif
