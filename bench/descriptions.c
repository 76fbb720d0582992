/* Description files read and written: one as stations send it, beside a plain C reader and snprintf, and some whose texts are long. */
#include "bench.h"
#include "brithelva.h"
#include "plain.h"

#include <stdio.h>
#include <stdlib.h>
#include <string.h>

enum { LONG = 1 << 20 };

struct description {
    uint8_t *text, *out;
    size_t n;
    uint64_t values[BH_DESCRIPTION_VALUES];
};

static void our_read(void *w)
{
    struct description *d = w;
    sink += bh_read_description(d->text, d->n, d->values, BH_DESCRIPTION_VALUES) + d->values[BH_D_DELETE];
}

static void plain_c_read(void *w)
{
    struct description *d = w;
    sink += plain_read(d->text, d->n, d->values, BH_DESCRIPTION_VALUES) + d->values[BH_D_DELETE];
}

static void our_write(void *w)
{
    struct description *d = w;
    sink += bh_write_description(d->values, BH_DESCRIPTION_VALUES, d->text, d->n, d->out, d->n) + d->out[d->n / 2];
}

/* the fifteen lines of a file with both times in one snprintf, nothing judged */
static void snprintf_write(void *w)
{
    struct description *d = w;
    const uint64_t *v = d->values, *s = v + BH_D_START_YEAR, *e = v + BH_D_END_YEAR;
    const char *t = (const char *)d->text;
#define NUMBER(k) (unsigned)v[k]
#define TEXT(k) (int)v[k + 1], t + v[k]
#define TIME(t) (unsigned)t[0], (unsigned)t[1], (unsigned)t[2], (unsigned)t[3], (unsigned)t[4], (unsigned)t[5]
    sink += (uint64_t)snprintf((char *)d->out, d->n + 1,
                               "01:%u\n02:%u\n03:%u\n04:%u\n05:%.*s\n06:%u\n07:%.*s\n08:%.*s\n09:%.*s\n10:%u\n11:%.*s\n12:%u\n"
                               "13:%04u.%02u.%02u/%02u:%02u:%02u\n14:%04u.%02u.%02u/%02u:%02u:%02u\n15:%u\n",
                               NUMBER(BH_D_SERVICE), NUMBER(BH_D_MODE), NUMBER(BH_D_RESOURCE), NUMBER(BH_D_UPDATE), TEXT(BH_D_NAME_AT), NUMBER(BH_D_KIND),
                               TEXT(BH_D_TITLE_AT), TEXT(BH_D_SUMMARY_AT), TEXT(BH_D_KEYWORDS_AT), NUMBER(BH_D_CHARSET), TEXT(BH_D_PATH_AT),
                               NUMBER(BH_D_FILE_LENGTH), TIME(s), TIME(e), NUMBER(BH_D_DELETE));
}

/* the text that is long judged, and all copied */
static void plain_c_write(void *w)
{
    struct description *d = w;
    sink += (uint64_t)plain_text(d->text + d->values[BH_D_SUMMARY_AT], (size_t)d->values[BH_D_SUMMARY_LENGTH]);
    memcpy(d->out, d->text, d->n);
    sink += d->out[d->n / 2];
}

/* a description whose summary is the piece so often */
static struct description describe(const char *title, const char *piece, size_t times)
{
    static const char before[] = "01:9001\n02:1\n03:4711\n04:12\n05:annual-report-2026.txt\n06:21\n07:";
    static const char behind[] = "\n09:radio, archive, annual report, 年度报告\n10:3\n11:.\\reports\\2026\n12:1048576\n"
                                 "13:2026.01.01/00:00:00\n14:2026.12.31/23:59:59\n15:0\n";
    size_t each = strlen(piece), room = sizeof before + strlen(title) + 4 + times * each + sizeof behind;
    struct description d = {.text = malloc(room), .out = malloc(room)};
    must(d.text != NULL && d.out != NULL, "no memory");
    d.n = (size_t)sprintf((char *)d.text, "%s%s\n08:", before, title);
    for (size_t i = 0; i < times; i++, d.n += each)
        memcpy(d.text + d.n, piece, each);
    memcpy(d.text + d.n, behind, sizeof behind - 1);
    d.n += sizeof behind - 1;
    return d;
}

static void compare(struct description *d)
{
    uint64_t theirs[BH_DESCRIPTION_VALUES];
    must(bh_read_description(d->text, d->n, d->values, BH_DESCRIPTION_VALUES) == 0, "a description");
    must(plain_read(d->text, d->n, theirs, BH_DESCRIPTION_VALUES) == 0 && memcmp(theirs, d->values, sizeof theirs) == 0, "a description in plain C");
    must(bh_write_description(d->values, BH_DESCRIPTION_VALUES, d->text, d->n, d->out, d->n) == 256 * (uint64_t)d->n, "a description written");
    must(memcmp(d->text, d->out, d->n) == 0, "the description written back");
}

static void drop(struct description *d)
{
    free(d->text);
    free(d->out);
}

void descriptions(void)
{
    static const struct {
        const char *name, *piece;
    } longs[] = {{"ASCII", "All that was sent, in the order in which it came. "},
                 {"Chinese", "按播出顺序记录的全部内容。"},
                 {"mixed", "第 4711 号资源, Änderungen: 12. 📻 "}};
    char name[80];
    struct description d = describe("Annual report of the archive, 2026", "All that was sent, in the order in which it came, 全部内容. ", 6);
    double mb = 1e-6 * (double)d.n;
    compare(&d);
    snprintf(name, sizeof name, "read a description of %zu bytes", d.n);
    tell_asked(name, mb / best(our_read, &d), mb / best(plain_c_read, &d), "MB/s", "plain C", "0.5x");
    snprintf_write(&d);
    must(memcmp(d.text, d.out, d.n) == 0, "the description by snprintf");
    snprintf(name, sizeof name, "write a description of %zu bytes", d.n);
    tell(name, mb / best(our_write, &d), mb / best(snprintf_write, &d), "MB/s", "snprintf, nothing judged");
    drop(&d);
    for (size_t k = 0; k < sizeof longs / sizeof *longs; k++) {
        d = describe("Annual report", longs[k].piece, LONG / strlen(longs[k].piece));
        mb = 1e-6 * (double)d.n;
        compare(&d);
        snprintf(name, sizeof name, "read a description of 1 MiB, %s", longs[k].name);
        tell_asked(name, mb / best(our_read, &d), mb / best(plain_c_read, &d), "MB/s", "plain C", "200");
        snprintf(name, sizeof name, "write a description of 1 MiB, %s", longs[k].name);
        tell(name, mb / best(our_write, &d), mb / best(plain_c_write, &d), "MB/s", "plain C check, memcpy");
        drop(&d);
    }
}
