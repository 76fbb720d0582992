/* The command brithelva: which commands there are, what each is for, and what happens before and after it. */
#define _GNU_SOURCE
#include "command.h"

#include <errno.h>
#include <fcntl.h>
#include <stdlib.h>
#include <string.h>
#include <unistd.h>

#ifndef BRITHELVA_VERSION
#define BRITHELVA_VERSION "development"
#endif

static const struct command {
    const char *name, *options; /* the options that it takes beside help, quiet and verbose */
    int (*run)(const struct arguments *);
    const char *form, *what;
} commands[] = {
    {"pack", "resource type update protection rows size edition order output force", pack,
     "pack FILE -o PACKETS --resource N [--type 1|2] [--update U]\n"
     "                 [--protection 0|1] [--rows M] [--size P] [--edition 1|2] [--order rows|columns] [--force]",
     "writes all packets of FILE end to end. Where none of protection, rows and size is named, the\n"
     "      house setting: protection 1, tables of 32 rows, payloads of 3825 bytes, which are fifteen rows. The edition\n"
     "      is that of the spare bits: 1 all one (GY/T 268.2), 2 all zero, which is meant where none is named. The order is\n"
     "      that in which the table of a protected file is sent: by rows, which is meant where none is named, or by\n"
     "      columns, and then payloads have 255 bytes where no size is named"},
    {"new", "size", make_archive, "new ARCHIVE --size BYTES",
     "makes an archive with a store of so many bytes (4M, 512K), at most 16M. C packets with payloads\n"
     "      of P bytes take C * (P + 2) of them"},
    {"open", "resource type update protection rows size edition order count wait", open_place,
     "open ARCHIVE --resource N --count C [--type 1|2] [--update U]\n"
     "                 [--protection 0|1] [--rows M] [--size S] [--edition 1|2] [--order rows|columns] [--wait SECONDS]",
     "opens a place for the C packets of a file (type 1), or of its description (type 2) beside it: a\n"
     "      slot of S bytes for each, settings as in pack. It takes packets of its own edition alone. By columns\n"
     "      S has to be the size that the station sends, and not every packet has to come"},
    {"offer", "json each strict wait", offer, "offer ARCHIVE RECORDING.. [--each] [--json] [--strict] [--wait SECONDS]",
     "offers every packet found in the recordings (- for standard input), past noise, as they come, and\n"
     "      tells the tally, bytes mended among it; with --each also a line for every packet: resource, type,\n"
     "      number, answer, bytes mended. Exit status 1 where a sound packet of an open place was refused, or\n"
     "      none was found; with --strict for any refusal"},
    {"status", "resource type json wait", status, "status ARCHIVE [--resource N [--type 1|2]] [--json] [--wait SECONDS]",
     "how far each place, or one, has come, what was refused of it, and the room in the store"},
    {"verify", "resource type json mend wait", verify, "verify ARCHIVE [--resource N [--type 1|2]] [--mend] [--json] [--wait SECONDS]",
     "looks whether every packet is as it was stored, and names those that are not; with --mend puts\n"
     "      right what can be: rows with at most eight wrong bytes; and empties a damaged slot that was sent by\n"
     "      columns, so that it counts as lost and can be offered again"},
    {"hand-out", "resource type length output force despite-conflicts wait", hand_out,
     "hand-out ARCHIVE --resource N [--type 1|2] [--length L] -o FILE [--force]\n"
     "                 [--despite-conflicts] [--wait SECONDS]",
     "writes what a place has collected, L bytes, once every packet is there, or by columns so many that the\n"
     "      rest can be restored, and each is as it was stored. Without --length a file has the length that its\n"
     "      collected description names, and a description ends with its last line"},
    {"close", "resource type force wait", close_place, "close ARCHIVE --resource N [--type 1|2] [--force] [--wait SECONDS]",
     "gives a place up; one that is complete, or can be restored, and was never handed out only with --force"},
    {"describe", "json", describe, "describe TEXT [--json]",
     "what a description file (- for standard input) says: name, title, dates, kind, length and the rest"},
    {"description", "service mode resource update name kind title summary keywords charset path length file from until delete output force", description,
     "description -o TEXT --service N --mode stream|file --resource N --update U --name S --kind N\n"
     "                 [--length L | --file FILE] [--title S] [--summary S] [--keywords S] [--charset N]\n"
     "                 [--path S] [--from TIME] [--until TIME] [--delete] [--force]",
     "writes a description file; a TIME is yyyy.mm.dd/hh:mm:ss, --file takes the length of FILE"},
};
enum { HOW_MANY = sizeof commands / sizeof *commands };

static void help_of(const struct command *c)
{
    printf("  brithelva %s\n      %s\n", c->form, c->what);
}

static void help_all(void)
{
    puts("brithelva: files from the data service of FM digital radio\n");
    for (size_t k = 0; k < HOW_MANY; k++)
        help_of(commands + k);
    fputs("  brithelva COMMAND --help | --help | --version\n"
          "\n"
          "Every command takes -q, --quiet (errors and refusals only) and -v, --verbose. -o is --output, - standard output; what is\n"
          "there is replaced only with -f, --force. A place is named by its resource and its type: 1 for a file, which is meant where\n"
          "none is named, and 2 for its description. --wait is for how long another command may be at work, 5 seconds where it is\n"
          "not named.\n"
          "\n"
          "Exit status: 0 accepted, 1 refused, 2 usage or file trouble. A refusal is told by its number, as the library's\n"
          "documents list them. 'man brithelva' says more.\n",
          stdout);
}

static const struct command *command_named(const char *name)
{
    for (size_t k = 0; k < HOW_MANY; k++)
        if (strcmp(name, commands[k].name) == 0)
            return commands + k;
    usage("no command '%s'", name);
}

/* A descriptor that is closed would be given to the archive, and messages would be written into it. What takes its place can be neither read (0) nor written
 * (1, 2), so that a command that needs it says so. */
static void fill_descriptors(void)
{
    for (int fd = 0; fd <= 2; fd++)
        if (fcntl(fd, F_GETFD) < 0 && errno == EBADF && open("/dev/null", fd == 0 ? O_WRONLY : O_RDONLY) != fd)
            _exit(EXIT_TROUBLE);
}

/* standard output is part of what a command does */
static int told_all(int result)
{
    errno = 0;
    if (fflush(stdout) != 0 || ferror(stdout))
        trouble("standard output: %s", errno != 0 ? strerror(errno) : "not all of it was written");
    return result;
}

int main(int argc, char **argv)
{
    fill_descriptors();
    watch_signals();
    if (argc < 2)
        usage("no command");
    int asked = strcmp(argv[1], "--help") == 0 || strcmp(argv[1], "-h") == 0 || strcmp(argv[1], "help") == 0;
    if (asked && argc > 2)
        help_of(command_named(argv[2]));
    else if (asked)
        help_all();
    else if (strcmp(argv[1], "--version") == 0)
        puts("brithelva " BRITHELVA_VERSION);
    else {
        const struct command *c = command_named(argv[1]);
        struct arguments a = parse(argc, argv, c->options);
        talk = a.quiet ? QUIET : a.verbose ? VERBOSE : PLAIN;
        if (!a.help)
            return told_all(c->run(&a));
        help_of(c);
    }
    return told_all(EXIT_ACCEPTED);
}
