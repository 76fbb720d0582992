/* Messages. A refusal is told by its number, its name and one plain sentence, with its cause where more can be said. */
#include "command.h"

#include <inttypes.h>
#include <stdarg.h>
#include <stdlib.h>
#include <string.h>
#include <unistd.h>

static const struct {
    const char *name, *sentence;
} refusals[] = {
    {"Accepted", "accepted"},
    {"Short", "the packet has fewer than 19 bytes"},
    {"Mark", "the start mark is not 49 59 69"},
    {"Length", "the length field differs from the packet's length"},
    {"Type", "the type is 3, which nothing uses"},
    {"Protection", "the protection is unknown, or names no rows"},
    {"Number", "the packet number and the count do not go together"},
    {"Rows", "the payload of a protected packet is not whole rows"},
    {"Resource", "the resource is 0"},
    {"Record", "the archive's record is damaged"},
    {"Unknown", "the resource is not open under this type"},
    {"Other", "update, count, protection or rows differ from those that were opened"},
    {"Wide", "the payload is longer than the slots that were opened"},
    {"Repair", "a row has more wrong bytes than can be repaired"},
    {"CRC", "the CRC differs"},
    {"Slot", "the archive's store is damaged at this place"},
    {"Conflict", "a different payload with this number came before, and stays"},
    {"Field", "an argument is out of its range"},
    {"Held", "the resource is open already under this type"},
    {"Full", "all eight places are in use"},
    {"Room", "the store has no room for so many slots"},
    {"Missing", "a packet has not come yet"},
    {"Shape", "what came is not whole tables"},
    {"Size", "the length is not one that the file can have"},
    {"Padding", "a byte beyond the length is not 0, so the length is wrong"},
    {"Count", "the file would need more than 1048575 packets"},
    {"Output", "the output is too short"},
    [BH_LINE] = {"Line", "a line of the description has a fault"},
    [BH_EXTRA] = {"Extra", "bytes stand behind line 15 of the description"},
    [BH_LOST] = {"Lost", "a row lacks more than sixteen bytes, so it cannot be restored yet"},
    [BH_CODE] = {"Code", "what came of a row fits no coded row"},
    [BH_EDITION] = {"Edition", "the packet is not of the edition that was opened"},
};

enum talk talk = PLAIN;
int hushed;

const char *colour(FILE *to, enum colour which)
{
    static const char *const codes[] = {"\033[0m", "\033[31m", "\033[32m", "\033[33m"};
    const char *no = getenv("NO_COLOR"), *terminal = getenv("TERM");
    if ((no != NULL && *no != '\0') || terminal == NULL || strcmp(terminal, "dumb") == 0 || !isatty(fileno(to)))
        return "";
    return codes[which];
}

static void say(enum colour lead, const char *format, va_list words)
{
    fprintf(stderr, "%sbrithelva:%s ", lead == NO_COLOUR ? "" : colour(stderr, lead), lead == NO_COLOUR ? "" : colour(stderr, NO_COLOUR));
    vfprintf(stderr, format, words);
    fputc('\n', stderr);
}

#define SAY(lead)                                                                                                                                  \
    do {                                                                                                                                           \
        va_list words;                                                                                                                             \
        va_start(words, format);                                                                                                                   \
        say(lead, format, words);                                                                                                                  \
        va_end(words);                                                                                                                             \
    } while (0)

void trouble(const char *format, ...)
{
    SAY(RED);
    exit(EXIT_TROUBLE);
}

void usage(const char *format, ...)
{
    SAY(RED);
    fputs("brithelva: 'brithelva --help' lists the commands\n", stderr);
    exit(EXIT_TROUBLE);
}

void complain(const char *format, ...)
{
    if (!hushed)
        SAY(YELLOW);
}

void remark(const char *format, ...)
{
    if (talk > QUIET && !hushed)
        SAY(NO_COLOUR);
}

void detail(const char *format, ...)
{
    if (talk == VERBOSE && !hushed)
        SAY(NO_COLOUR);
}

/* ---- refusals */

const char *refusal_name(unsigned number)
{
    return number < sizeof refusals / sizeof *refusals && refusals[number].name != NULL ? refusals[number].name : "?";
}

int refused_since(uint64_t answer, const char *what, const char *format, ...)
{
    unsigned number = bh_number(answer);
    char cause[256];
    va_list words;
    va_start(words, format);
    vsnprintf(cause, sizeof cause, format, words);
    va_end(words);
    complain("%s refused: %u %s: %s%s%s", what, number, refusal_name(number), refusals[number].sentence, *cause ? ": " : "", cause);
    return EXIT_REFUSED;
}

int refused_line(uint64_t answer, const char *what, const char *sentence)
{
    complain("%s refused: %u %s: line %02" PRIu64 ": %s", what, bh_number(answer), refusal_name(bh_number(answer)), bh_value(answer), sentence);
    return EXIT_REFUSED;
}

int refused(uint64_t answer, const char *what)
{
    if (bh_number(answer) == BH_ACCEPTED)
        return EXIT_ACCEPTED;
    if (bh_number(answer) == BH_LINE)
        return refused_line(answer, what, line_words(bh_value(answer)));
    return refused_since(answer, what, "%s", "");
}

int refused_text(uint64_t answer, const char *what, struct bytes text)
{
    if (bh_number(answer) == BH_LINE)
        return refused_line(answer, what, what_is_wrong(text, bh_value(answer)));
    return refused(answer, what);
}

int refused_unknown(const char *command, const uint8_t *record, uint16_t resource, uint8_t type)
{
    const char *what = of_place(command, resource, type);
    for (uint8_t other = FILE_TYPE; other <= DESCRIPTION_TYPE; other++)
        if (find_place(record, resource, other) >= 0)
            return refused_since(BH_UNKNOWN, what, "it is open as type %u %s, which --type %u names", other, type_words(other), other);
    return refused_since(BH_UNKNOWN, what, "%s", type == FILE_TYPE || type == DESCRIPTION_TYPE ? "" : "a place has type 1 (file) or 2 (description)");
}
