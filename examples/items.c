/*
 * Walks over the items of a packet, without a table, and prints a line for each: its tag and kind, the place and length of its value, and
 * its name. The packet is in the file named, or on standard input.
 * It ends with 0, with 1 where the packet is refused, and with 2 where there is no packet to read or the output is broken.
 */
#include "common.h"

static const char *name_of(uint64_t tag)
{
#define NAME_OF(tag, name, unit) case tag: return name;
    switch (tag) { OYK_ITEMS(NAME_OF) }
    return "not in the catalogue";
}

static const char *kind_of(uint64_t kind)
{
    switch (kind) {
    case OYK_READING:
        return "reading";
    case OYK_MARK:
        return "mark";
    case OYK_TEXT:
        return "text";
    case OYK_CARRIED:
        return "carried";
    case OYK_WITHDRAWN:
        return "withdrawn";
    }
    return "no more"; /* OYK_NO_MORE, with which the walk ends */
}

static void print_item(oyk_row item)
{
    printf("%" PRIu64 "\t%s\t%zu\t%zu\t%s\n", item.tag, kind_of(item.kind), item.place, item.length, name_of(item.tag));
}

/* Prints the items, or the refusal. The packet is judged once, at the start; from there on each step gives the place of the next. */
static int print_items(const uint8_t *packet, size_t length)
{
    oyk_start_answer start = oyk_start(packet, length, OYK_KNOWS_ALL_LOW, OYK_KNOWS_ALL_HIGH);
    oyk_next_answer at;
    if (start.refusal.number)
        return refused(stdout, start.refusal);
    printf("tag\tkind\tplace\tlength\tname\n");
    for (at = oyk_next(packet, length, OYK_KNOWS_ALL_LOW, OYK_KNOWS_ALL_HIGH, start.place); at.row.kind != OYK_NO_MORE;
         at = oyk_next(packet, length, OYK_KNOWS_ALL_LOW, OYK_KNOWS_ALL_HIGH, at.next))
        print_item(at.row);
    return DONE;
}

int main(int argc, char **argv)
{
    uint8_t packet[ROOM];
    size_t length;
    if (!version_fits("items") || !read_packet("items", argc - 1, argv + 1, packet, &length))
        return FAILED;
    return finish(print_items(packet, length));
}
