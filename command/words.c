/* Numbers in words: which place is meant; what numbers of a description mean, and what its lines must hold or have wrong (source document 001, section 7.2,
 * tables 2 to 4). */
#include "command.h"

#include <stddef.h>
#include <string.h>

/* ---- places */

const char *type_words(unsigned type)
{
    return type == FILE_TYPE ? "(file)" : type == DESCRIPTION_TYPE ? "(description)" : "";
}

const char *place_words(uint16_t resource, uint8_t type)
{
    static char words[48];
    snprintf(words, sizeof words, "resource %u, type %u%s%s", resource, type, *type_words(type) ? " " : "", type_words(type));
    return words;
}

const char *of_place(const char *command, uint16_t resource, uint8_t type)
{
    static char words[64];
    snprintf(words, sizeof words, "%s of %s", command, place_words(resource, type));
    return words;
}

/* ---- descriptions */

static const struct {
    unsigned kind;
    const char *words;
} kinds[] = {
    {0, "file of unknown kind"},
    {1, "PNG image file"},
    {2, "JPEG image file"},
    {3, "GIF image file"},
    {4, "BMP image file"},
    {21, "text file"},
    {22, "binary file"},
    {23, "web page file"},
    {24, "compressed file"},
    {41, "MPEG-1 Layer I/II audio file"},
    {42, "MPEG-1 Layer III audio file"},
    {43, "WAV audio file"},
    {44, "DRA/DRA+ audio file"},
    {61, "application file"},
    {128, "DRA/DRA+ audio stream"},
    {129, "PCM audio stream"},
    {130, "AAC audio stream"},
    {131, "data stream"},
};

static const char *const charsets[] = {"GB/T 2312-1980", "GB 18030-2022", "GB/T 13000-2025", "UTF-8", "Unicode"};

#define UTF8 "valid UTF-8 without a line break"
static const char *const lines[] = {
    "there is no such line",
    "the service must be a number from 9000 to 9999",
    "the mode must be 0 (stream) or 1 (file)",
    "the resource must be a number from 1 to 65535, without leading zeros",
    "the update must be a number from 0 to 15, without leading zeros",
    "the name must not be empty, and " UTF8,
    "the kind must be 0 to 4, 21 to 24, 41 to 44 or 61 in mode 1 (file), and 128 to 131 in mode 0 (stream)",
    "the title must be empty or " UTF8,
    "the summary must be empty or " UTF8,
    "the keywords must be empty or " UTF8,
    "the charset must be 0 to 4 where the kind is 21 (text), and empty where it is not",
    "the path must be empty or " UTF8,
    "the length must be 1 to 16777216 in mode 1 (file), without leading zeros, and empty in mode 0 (stream)",
    "the start must be empty or a real date and time, as yyyy.mm.dd/hh:mm:ss",
    "the end must be empty or a real date and time, as yyyy.mm.dd/hh:mm:ss, and not before the start",
    "the delete mark must be 0 or 1",
};

const char *kind_words(uint64_t kind)
{
    for (size_t k = 0; k < sizeof kinds / sizeof *kinds; k++)
        if (kinds[k].kind == kind)
            return kinds[k].words;
    return "reserved";
}

const char *charset_words(uint64_t charset)
{
    return charset < sizeof charsets / sizeof *charsets ? charsets[charset] : "reserved";
}

const char *line_words(uint64_t line)
{
    return lines[line < sizeof lines / sizeof *lines ? line : 0];
}

/* its form, or else its value */
const char *what_is_wrong(struct bytes b, uint64_t line)
{
    static char sentence[48];
    size_t at = 0, left = b.n;
    const uint8_t *end = NULL;
    for (uint64_t k = 1; k <= line; k++) {
        end = left > 0 ? memchr(b.at + at, '\n', left) : NULL;
        if (end == NULL)
            return left > 0 ? "it must end in a line feed" : "it is missing";
        if (k < line)
            at = (size_t)(end - b.at) + 1;
        left = b.n - at;
    }
    const uint8_t *p = b.at + at;
    if (end - p >= 3 && p[0] == '0' + line / 10 && p[1] == '0' + line % 10 && p[2] == ':')
        return line_words(line);
    if (line == 1 && end - p >= 3 && memcmp(p, "\xEF\xBB\xBF", 3) == 0)
        return "a byte order mark stands before it";
    snprintf(sentence, sizeof sentence, "it must begin with '%02u:'", (unsigned)(line % 100));
    return sentence;
}
