/* describe: a description file, told to a person or as JSON. */
#include "command.h"

#include <inttypes.h>
#include <stdio.h>
#include <stdlib.h>

/* ---- texts. They come from the air: nothing in them may move a terminal's cursor, or turn what is read around. */

/* The length of the character at p if it is a control character or one that turns the direction of writing or breaks a line; else 0.
 * The bytes are valid UTF-8. */
static size_t unshown(const uint8_t *p, size_t n)
{
    if (p[0] < 0x20 || p[0] == 0x7F)
        return 1;
    if (n >= 2 && ((p[0] == 0xC2 && p[1] < 0xA0) || (p[0] == 0xD8 && p[1] == 0x9C)))
        return 2;
    if (n < 3 || p[0] != 0xE2)
        return 0;
    if (p[1] == 0x80 && (p[2] == 0x8E || p[2] == 0x8F || (p[2] >= 0xA8 && p[2] <= 0xAE)))
        return 3;
    return p[1] == 0x81 && p[2] >= 0xA6 && p[2] <= 0xA9 ? 3 : 0;
}

static void put_escaped(const uint8_t *p, size_t n, int json)
{
    static const uint8_t lead[4] = {0, 0x7F, 0x1F, 0x0F};
    uint32_t point = p[0] & lead[n];
    for (size_t i = 0; i < n; i++) {
        point = i > 0 ? point << 6 | (p[i] & 0x3F) : point;
        if (!json)
            printf("\\x%02X", p[i]);
    }
    if (json)
        printf("\\u%04" PRIx32, point);
}

static void put_text(const uint8_t *p, size_t n, int json)
{
    size_t from = 0, i = 0;
    while (i < n) {
        size_t hidden = unshown(p + i, n - i);
        int quoted = json && (p[i] == '"' || p[i] == '\\');
        if (hidden > 0 || quoted) {
            fwrite(p + from, 1, i - from, stdout);
            from = i + hidden;
        }
        if (hidden > 0)
            put_escaped(p + i, hidden, json);
        if (quoted)
            putchar('\\');
        i += hidden > 0 ? hidden : 1;
    }
    fwrite(p + from, 1, n - from, stdout);
}

static void put_time(const uint64_t *t)
{
    printf("%04" PRIu64 ".%02" PRIu64 ".%02" PRIu64 "/%02" PRIu64 ":%02" PRIu64 ":%02" PRIu64, t[0], t[1], t[2], t[3], t[4], t[5]);
}

/* ---- to a person */

static void say_text(const char *label, const uint8_t *text, const uint64_t *part)
{
    printf("%-13s", label);
    if (part[1] == 0)
        fputs("(none)", stdout);
    put_text(text + part[0], (size_t)part[1], 0);
    putchar('\n');
}

static void say_time(const char *label, const uint64_t *time, const char *none)
{
    printf("%-13s", label);
    if (time[0] == 0)
        fputs(none, stdout);
    else
        put_time(time);
    putchar('\n');
}

static void say_number(const char *label, uint64_t number, const char *words)
{
    printf("%-13s%" PRIu64 "%s%s\n", label, number, *words ? ", " : "", words);
}

static void tell_person(const uint8_t *text, const uint64_t *v)
{
    say_text("name", text, v + BH_D_NAME_AT);
    say_text("title", text, v + BH_D_TITLE_AT);
    say_text("summary", text, v + BH_D_SUMMARY_AT);
    say_text("keywords", text, v + BH_D_KEYWORDS_AT);
    say_text("path", text, v + BH_D_PATH_AT);
    say_time("valid from", v + BH_D_START_YEAR, "(at once)");
    say_time("valid until", v + BH_D_END_YEAR, "(the next update)");
    say_number("kind", v[BH_D_KIND], kind_words(v[BH_D_KIND]));
    if (v[BH_D_CHARSET] == BH_NO_CHARSET)
        puts("charset      (none)");
    else
        say_number("charset", v[BH_D_CHARSET], charset_words(v[BH_D_CHARSET]));
    if (v[BH_D_FILE_LENGTH] == 0)
        puts("length       (none)");
    else
        printf("length       %" PRIu64 " bytes\n", v[BH_D_FILE_LENGTH]);
    say_number("service", v[BH_D_SERVICE], "");
    say_number("mode", v[BH_D_MODE], v[BH_D_MODE] == 1 ? "file" : "stream");
    say_number("resource", v[BH_D_RESOURCE], "");
    say_number("update", v[BH_D_UPDATE], "");
    printf("delete       %s\n", v[BH_D_DELETE] == 1 ? "yes" : "no");
}

/* ---- as JSON: one object, null where a line is empty */

static void json_text(const char *name, const uint8_t *text, const uint64_t *part)
{
    printf(", \"%s\": ", name);
    if (part[1] == 0) {
        fputs("null", stdout);
        return;
    }
    putchar('"');
    put_text(text + part[0], (size_t)part[1], 1);
    putchar('"');
}

static void json_time(const char *name, const uint64_t *time)
{
    printf(", \"%s\": ", name);
    if (time[0] == 0) {
        fputs("null", stdout);
        return;
    }
    putchar('"');
    put_time(time);
    putchar('"');
}

static void tell_json(const uint8_t *text, const uint64_t *v)
{
    printf("{\"service\": %" PRIu64 ", \"mode\": \"%s\", \"resource\": %" PRIu64 ", \"update\": %" PRIu64, v[BH_D_SERVICE],
           v[BH_D_MODE] == 1 ? "file" : "stream", v[BH_D_RESOURCE], v[BH_D_UPDATE]);
    json_text("name", text, v + BH_D_NAME_AT);
    printf(", \"kind\": %" PRIu64 ", \"kind_words\": \"%s\"", v[BH_D_KIND], kind_words(v[BH_D_KIND]));
    json_text("title", text, v + BH_D_TITLE_AT);
    json_text("summary", text, v + BH_D_SUMMARY_AT);
    json_text("keywords", text, v + BH_D_KEYWORDS_AT);
    if (v[BH_D_CHARSET] == BH_NO_CHARSET)
        fputs(", \"charset\": null, \"charset_words\": null", stdout);
    else
        printf(", \"charset\": %" PRIu64 ", \"charset_words\": \"%s\"", v[BH_D_CHARSET], charset_words(v[BH_D_CHARSET]));
    json_text("path", text, v + BH_D_PATH_AT);
    if (v[BH_D_FILE_LENGTH] == 0)
        fputs(", \"length\": null", stdout);
    else
        printf(", \"length\": %" PRIu64, v[BH_D_FILE_LENGTH]);
    json_time("from", v + BH_D_START_YEAR);
    json_time("until", v + BH_D_END_YEAR);
    printf(", \"delete\": %s}\n", v[BH_D_DELETE] == 1 ? "true" : "false");
}

int describe(const struct arguments *a)
{
    want(a->count == 1, "describe", "one description file");
    struct bytes b = read_file(a->names[0], SIZE_MAX - 1);
    uint64_t values[BH_DESCRIPTION_VALUES];
    uint64_t answer = bh_read_description(b.at, b.n, values, BH_DESCRIPTION_VALUES);
    int result = refused_text(answer, "describe", b);
    if (result == EXIT_ACCEPTED)
        (a->json ? tell_json : tell_person)(b.at, values);
    release(b);
    return result;
}
