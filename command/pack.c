/* pack: a file as packets, end to end. */
#include "command.h"

#include <inttypes.h>

static uint64_t pack_one(struct bytes file, const struct settings *s, uint32_t number, uint8_t *packet)
{
    if (s->house)
        return bh_pack_house(file.at, file.n, s->resource, s->type, s->update, number, packet, BH_LARGEST_PACKET);
    return bh_pack_as(file.at, file.n, s->resource, s->type, s->update, s->protection, s->rows, s->size, s->edition, s->order, number, packet, BH_LARGEST_PACKET);
}

static int not_packed(uint64_t answer, const struct arguments *a, struct bytes file, const struct settings *s)
{
    if (bh_number(answer) == BH_FIELD)
        return refused_since(answer, "pack", "%s", field_cause(s, -1));
    if (bh_number(answer) == BH_SIZE)
        return refused_since(answer, "pack", "%s has %s; a file has 1 to %d bytes", a->names[0], file.n == 0 ? "none" : "more", BH_LARGEST_FILE);
    return refused_since(answer, "pack", "%s", bh_number(answer) == BH_COUNT ? "a larger --size makes fewer" : "");
}

int pack(const struct arguments *a)
{
    want(a->count == 1, "pack", "one file");
    want(a->output != NULL, "pack", "-o PACKETS");
    want(a->resource >= 0, "pack", "--resource");
    struct settings s = settings_of(a);
    struct output out = plan_output(a->output, a->force, a->names[0], "the file that is packed");
    struct bytes file = read_file(a->names[0], BH_LARGEST_FILE);
    uint8_t packet[BH_LARGEST_PACKET];
    for (uint32_t n = 0;; n++) {
        uint64_t answer = pack_one(file, &s, n, packet);
        if (n > 0 && bh_number(answer) == BH_NUMBER) {
            finish_output(&out);
            remark("%" PRIu32 " packets", n);
            break;
        }
        if (bh_number(answer) != BH_ACCEPTED)
            return not_packed(answer, a, file, &s);
        if (n == 0)
            begin_output(&out);
        write_output(&out, packet, (size_t)bh_value(answer));
    }
    detail("resource %u, %zu bytes: opened by --count with the same settings", s.resource, file.n);
    release(file);
    return EXIT_ACCEPTED;
}
