/* The words of a command line: the options by one table, read as getopt_long reads them, and what is no option. */
#define _GNU_SOURCE
#include "command.h"

#include <errno.h>
#include <getopt.h>
#include <stdlib.h>
#include <string.h>

enum kind { NUMBER, SIZE, TEXT, FLAG };

static const struct {
    const char *name;
    enum kind kind;
    size_t at; /* in struct arguments */
    long long most;
    char letter;
} options[] = {
    {"resource", NUMBER, offsetof(struct arguments, resource), 65535, 0},
    {"type", NUMBER, offsetof(struct arguments, type), 255, 0},
    {"update", NUMBER, offsetof(struct arguments, update), 255, 0},
    {"protection", NUMBER, offsetof(struct arguments, protection), 255, 0},
    {"rows", NUMBER, offsetof(struct arguments, rows), 255, 0},
    {"size", SIZE, offsetof(struct arguments, size), BH_USABLE_STORE, 0},
    {"edition", NUMBER, offsetof(struct arguments, edition), 65535, 0},
    {"length", NUMBER, offsetof(struct arguments, length), INT64_MAX, 0},
    {"count", NUMBER, offsetof(struct arguments, packets), UINT32_MAX, 0},
    {"service", NUMBER, offsetof(struct arguments, service), 65535, 0},
    {"kind", NUMBER, offsetof(struct arguments, kind), 255, 0},
    {"charset", NUMBER, offsetof(struct arguments, charset), 255, 0},
    {"wait", NUMBER, offsetof(struct arguments, wait), 1000000, 0},
    {"order", TEXT, offsetof(struct arguments, order), 0, 0},
    {"mode", TEXT, offsetof(struct arguments, mode), 0, 0},
    {"name", TEXT, offsetof(struct arguments, name), 0, 0},
    {"title", TEXT, offsetof(struct arguments, title), 0, 0},
    {"summary", TEXT, offsetof(struct arguments, summary), 0, 0},
    {"keywords", TEXT, offsetof(struct arguments, keywords), 0, 0},
    {"path", TEXT, offsetof(struct arguments, path), 0, 0},
    {"file", TEXT, offsetof(struct arguments, file), 0, 0},
    {"from", TEXT, offsetof(struct arguments, from), 0, 0},
    {"until", TEXT, offsetof(struct arguments, until), 0, 0},
    {"output", TEXT, offsetof(struct arguments, output), 0, 'o'},
    {"delete", FLAG, offsetof(struct arguments, delete), 0, 0},
    {"json", FLAG, offsetof(struct arguments, json), 0, 0},
    {"each", FLAG, offsetof(struct arguments, each), 0, 0},
    {"force", FLAG, offsetof(struct arguments, force), 0, 'f'},
    {"strict", FLAG, offsetof(struct arguments, strict), 0, 0},
    {"mend", FLAG, offsetof(struct arguments, mend), 0, 0},
    {"despite-conflicts", FLAG, offsetof(struct arguments, despite_conflicts), 0, 0},
    {"help", FLAG, offsetof(struct arguments, help), 0, 'h'},
    {"quiet", FLAG, offsetof(struct arguments, quiet), 0, 'q'},
    {"verbose", FLAG, offsetof(struct arguments, verbose), 0, 'v'},
};
enum { OPTIONS = sizeof options / sizeof *options };

/* a whole number; a size may end in K or M, which count by 1024 */
static long long number_of(const char *text, int k)
{
    char *end;
    errno = 0;
    long long v = strtoll(text, &end, 10);
    int shift = options[k].kind != SIZE || *end == '\0' || end[1] != '\0' ? 0 : *end == 'K' || *end == 'k' ? 10 : *end == 'M' || *end == 'm' ? 20 : 0;
    if (shift > 0)
        end++;
    if (*text < '0' || *text > '9' || *end != '\0' || errno != 0 || v > options[k].most >> shift)
        usage("--%s takes a whole number from 0 to %lld%s, not '%s'", options[k].name, options[k].most, options[k].kind == SIZE ? ", or so many K or M" : "", text);
    return v << shift;
}

/* whether a name stands in a list of names with a space between them */
static int is_among(const char *name, const char *list)
{
    size_t n = strlen(name);
    for (const char *at = strstr(list, name); at != NULL; at = strstr(at + n, name))
        if ((at == list || at[-1] == ' ') && (at[n] == ' ' || at[n] == '\0'))
            return 1;
    return 0;
}

/* every command has these */
static int is_taken(int k, const char *allowed)
{
    return is_among(options[k].name, allowed) || is_among(options[k].name, "help quiet verbose");
}

static struct arguments none(void)
{
    struct arguments a = {0};
    for (size_t k = 0; k < OPTIONS; k++)
        if (options[k].kind <= SIZE)
            *(long long *)(void *)((char *)&a + options[k].at) = -1;
    return a;
}

static void take(struct arguments *a, int k, const char *value)
{
    void *to = (char *)a + options[k].at;
    if (options[k].kind == FLAG)
        *(int *)to = 1;
    else if (options[k].kind == TEXT)
        *(const char **)to = value;
    else
        *(long long *)to = number_of(value, k);
}

/* what getopt_long could make nothing of: `optopt` is 0, a letter, or 256 and a place in the table */
static void not_taken(const char *command, const char *word, int what) __attribute__((noreturn));
static void not_taken(const char *command, const char *word, int what)
{
    char letter[3] = {'-', (char)optopt, '\0'};
    if (optopt >= 256)
        usage("--%s %s", options[optopt - 256].name, what == ':' ? "wants a value" : "takes no value");
    if (optopt > 0 && what == ':')
        usage("%s wants a value", letter);
    usage("%s does not take %.*s", command, (int)strcspn(word, "="), optopt > 0 ? letter : word);
}

struct arguments parse(int argc, char **argv, const char *allowed)
{
    struct arguments a = none();
    struct option longs[OPTIONS + 1] = {0};
    char letters[2 * OPTIONS + 2] = ":";
    int n = 0, got;
    for (int k = 0; k < OPTIONS; k++) {
        if (!is_taken(k, allowed))
            continue;
        longs[n++] = (struct option){options[k].name, options[k].kind == FLAG ? no_argument : required_argument, NULL, 256 + k};
        if (options[k].letter != 0)
            snprintf(letters + strlen(letters), 3, "%c%s", options[k].letter, options[k].kind == FLAG ? "" : ":");
    }
    opterr = 0;
    /* the command's own name stands where a program's would */
    optind = 1;
    while ((got = getopt_long(argc - 1, argv + 1, letters, longs, NULL)) != -1) {
        if (got == '?' || got == ':')
            not_taken(argv[1], argv[optind], got);
        for (int k = 0; k < OPTIONS; k++)
            if (got == 256 + k || (got < 256 && got == options[k].letter))
                take(&a, k, optarg);
    }
    a.names = argv + 1 + optind;
    a.count = argc - 1 - optind;
    return a;
}

uint8_t type_named(const struct arguments *a)
{
    return a->type < 0 ? FILE_TYPE : (uint8_t)a->type;
}

void want(int there, const char *command, const char *what)
{
    if (!there)
        usage("%s wants %s", command, what);
}
