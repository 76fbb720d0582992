/* description: a description file written from what the options name. */
#define _GNU_SOURCE
#include "command.h"

#include <stdlib.h>
#include <string.h>

/* what no attribute holds, for what is named and is none: the library then refuses its line, in its turn */
static const uint64_t impossible = UINT64_MAX;

static uint64_t mode_of(const char *given)
{
    static const char *const names[] = {"stream", "file", "0", "1"};
    for (uint64_t k = 0; k < 4; k++)
        if (strcmp(given, names[k]) == 0)
            return k % 2;
    usage("--mode takes stream or file, not '%s'", given);
}

/* a number that is named never stands for 'none' */
static uint64_t number_or(long long given, uint64_t none)
{
    return given < 0 ? none : (uint64_t)given == none ? impossible : (uint64_t)given;
}

static uint64_t described_length(const struct arguments *a)
{
    if (a->length >= 0 && a->file != NULL)
        usage("description takes --length or --file, not both");
    if (a->file == NULL)
        return number_or(a->length, 0);
    uint64_t length = file_length(a->file);
    return length == 0 ? impossible : length;
}

/* six numbers of yyyy.mm.dd/hh:mm:ss; six that are no time where it has another form */
static void put_time(const char *given, uint64_t *to)
{
    static const char form[] = "0000.11.22/33:44:55";
    size_t n = given == NULL ? 0 : strlen(given);
    memset(to, 0, 6 * sizeof *to);
    if (n == 0)
        return;
    int formed = n == sizeof form - 1, all = 0;
    for (size_t i = 0; formed && i < n; i++) {
        int digit = given[i] >= '0' && given[i] <= '9', wanted = form[i] >= '0' && form[i] <= '9';
        formed = wanted ? digit : given[i] == form[i];
        if (wanted && digit)
            to[form[i] - '0'] = to[form[i] - '0'] * 10 + (uint64_t)(given[i] - '0');
        all |= wanted && given[i] != '0';
    }
    if (!formed || !all)
        to[0] = impossible;
}

/* the five texts behind each other */
static struct bytes put_texts(const struct arguments *a, uint64_t *v)
{
    const struct {
        const char *given;
        int at;
    } texts[] = {{a->name, BH_D_NAME_AT}, {a->title, BH_D_TITLE_AT}, {a->summary, BH_D_SUMMARY_AT}, {a->keywords, BH_D_KEYWORDS_AT}, {a->path, BH_D_PATH_AT}};
    struct bytes b = {NULL, 0};
    for (size_t k = 0; k < sizeof texts / sizeof *texts; k++) {
        size_t n = texts[k].given == NULL ? 0 : strlen(texts[k].given);
        b.at = realloc(b.at, b.n + n + 1);
        if (b.at == NULL)
            trouble("no memory for the texts");
        if (n > 0)
            memcpy(b.at + b.n, texts[k].given, n);
        v[texts[k].at] = b.n;
        v[texts[k].at + 1] = n;
        b.n += n;
    }
    return b;
}

static struct bytes put_values(const struct arguments *a, uint64_t *v)
{
    v[BH_D_SERVICE] = (uint64_t)a->service;
    v[BH_D_MODE] = mode_of(a->mode);
    v[BH_D_RESOURCE] = (uint64_t)a->resource;
    v[BH_D_UPDATE] = (uint64_t)a->update;
    v[BH_D_KIND] = (uint64_t)a->kind;
    v[BH_D_CHARSET] = number_or(a->charset, BH_NO_CHARSET);
    v[BH_D_FILE_LENGTH] = described_length(a);
    put_time(a->from, v + BH_D_START_YEAR);
    put_time(a->until, v + BH_D_END_YEAR);
    v[BH_D_DELETE] = (uint64_t)a->delete;
    return put_texts(a, v);
}

int description(const struct arguments *a)
{
    want(a->count == 0, "description", "options and no file");
    want(a->service >= 0, "description", "--service");
    want(a->mode != NULL, "description", "--mode stream or --mode file");
    want(a->resource >= 0, "description", "--resource");
    want(a->update >= 0, "description", "--update");
    want(a->name != NULL, "description", "--name");
    want(a->kind >= 0, "description", "--kind");
    want(a->output != NULL, "description", "-o TEXT");
    struct output o = plan_output(a->output, a->force, a->file, "the file that is described");
    uint64_t values[BH_DESCRIPTION_VALUES];
    struct bytes texts = put_values(a, values);
    size_t room = BH_DESCRIPTION_FIXED + texts.n;
    uint8_t *out = malloc(room);
    if (out == NULL)
        trouble("no memory for a description of %zu bytes", room);
    uint64_t answer = bh_write_description(values, BH_DESCRIPTION_VALUES, texts.at, texts.n, out, room);
    if (bh_number(answer) == BH_ACCEPTED) {
        begin_output(&o);
        write_output(&o, out, (size_t)bh_value(answer));
        finish_output(&o);
    }
    free(out);
    release(texts);
    return refused(answer, "description");
}
