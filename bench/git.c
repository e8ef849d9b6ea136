/* git's wildmatch, dir.c and attr.c. The two files are taken in whole from
 * where git's source is unpacked, since the functions that read rules from
 * memory are their own; so no work tree is needed and no file is opened. */
#include "dir.c"
#include "attr.c"
#include "worker.h"

/* What they want of the rest of git: the first four only where something goes
 * wrong or a default is asked for, the index never, since an entry's type is
 * always told. */
int ignore_case;

unsigned long git_env_ulong(const char *name, unsigned long otherwise)
{
    return otherwise;
}

int common_exit(const char *file, int line, int code)
{
    return code;
}

void trace2_cmd_error_va_fl(const char *file, int line, const char *format, va_list words)
{
}

int index_name_pos(struct index_state *index, const char *name, int len)
{
    abort();
}

struct cache_entry *index_file_exists(struct index_state *index, const char *name, int len, int fold)
{
    abort();
}

static int match(struct bytes pattern, struct bytes text, unsigned flags)
{
    return wildmatch(pattern.at, text.at, (flags & 1) ? WM_PATHNAME : 0) == WM_MATCH;
}

/* The directories above the path first, from the top, as git does it when it
 * goes down a tree: an ignored one decides. */
static int judge(struct pattern_list *list, struct bytes path, unsigned flags)
{
    char entry[PATH_ROOM + 1];
    size_t component = 0;
    memcpy(entry, path.at, path.len + 1);
    for (size_t i = 0;; i++) {
        int last = i == path.len;
        if (!last && entry[i] != '/')
            continue;
        int type = !last || (flags & 1) ? DT_DIR : DT_REG;
        entry[i] = 0;
        struct path_pattern *by = last_matching_pattern_from_list(entry, i, entry + component, &type, list, NULL);
        int code = !by ? 0 : by->flags & PATTERN_FLAG_NEGATIVE ? 2 : 1;
        if (last || code == 1)
            return code;
        entry[i] = '/';
        component = i + 1;
    }
}

/* git writes into the rules while it reads them and frees them with the list. */
static int ignore(struct bytes rules, struct bytes path, unsigned flags)
{
    struct pattern_list list = { 0 };
    add_patterns_from_buffer(xmemdupz(rules.at, rules.len), rules.len, "", 0, &list);
    int code = judge(&list, path, flags);
    clear_pattern_list(&list);
    return code;
}

static struct attr_stack *read_lines(struct bytes rules)
{
    struct attr_stack *stack;
    char *copy = xmemdupz(rules.at, rules.len), *end;
    int number = 0;
    CALLOC_ARRAY(stack, 1);
    for (char *line = copy; (end = strchr(line, '\n')); line = end + 1) {
        *end = 0;
        handle_attr_line(stack, line, "rules", ++number, 0);
    }
    free(copy);
    return stack;
}

static int state(const char *value)
{
    return value == ATTR__UNKNOWN ? 0 : ATTR_TRUE(value) ? 1 : ATTR_FALSE(value) ? 2 : ATTR_UNSET(value) ? 4 : 3;
}

/* Its built-in macro is left out: no line of the workloads uses one. A
 * directory is told by a last `/`, as git has it. */
static int attribute(struct bytes rules, struct bytes path, unsigned flags)
{
    char entry[PATH_ROOM + 2];
    memcpy(entry, path.at, path.len + 1);
    const char *slash = strrchr(entry, '/');
    int component = slash ? (int)(slash + 1 - entry) : 0, directory = flags & 1;
    if (directory)
        memcpy(entry + path.len, "/", 2);
    struct attr_check *check = attr_check_initl(ATTRIBUTE, NULL);
    check->stack = read_lines(rules);
    all_attrs_init(&g_attr_hashmap, check);
    determine_macros(check->all_attrs, check->stack);
    fill(entry, (int)path.len + directory, component, check->stack, check->all_attrs, check->all_attrs_nr);
    int code = state(check->all_attrs[check->items[0].attr->attr_nr].value);
    attr_check_free(check);
    return code;
}

const struct library library = { .match = match, .ignore = ignore, .attribute = attribute, .start = attr_start };
