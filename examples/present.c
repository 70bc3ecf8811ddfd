/*
 * Says which items of a packet are there: whether it has a frame centre, how many items of the catalogue, their tags, and which of them are
 * withdrawn, where any is. The packet is in the file named, or on standard input.
 * It ends with 0, with 1 where the packet is refused, and with 2 where there is no packet to read or the output is broken.
 */
#include "common.h"

/* The words have a bit for each tag below this. */
#define TAGS 128

static int is_in(oyk_present words, uint64_t tag)
{
    return oyk_has(words.low, words.high, tag) == 1;
}

/* What is withdrawn is there, and has no value. */
static int has_value(const oyk_count_answer *checked, uint64_t tag)
{
    return is_in(checked->present, tag) && !is_in(checked->withdrawn, tag);
}

/*
 * What a screen asks at every picture: it has kept the words, and needs neither the packet nor a table. Where the drone has taken one half back,
 * an earlier frame centre no longer holds.
 */
static const char *frame_centre(const oyk_count_answer *checked)
{
    if (has_value(checked, 23) && has_value(checked, 24))
        return "there";
    return is_in(checked->withdrawn, 23) || is_in(checked->withdrawn, 24) ? "withdrawn" : "not there";
}

static int count_items(oyk_present words)
{
    int count = 0;
    uint64_t tag;
    for (tag = 0; tag < TAGS; tag++)
        count += is_in(words, tag);
    return count;
}

static void print_tags(const char *name, oyk_present words)
{
    uint64_t tag;
    printf("%s:", name);
    for (tag = 0; tag < TAGS; tag++)
        if (is_in(words, tag))
            printf(" %" PRIu64, tag);
    printf("\n");
}

/* Prints which items are there, or the refusal. The packet is judged once, and the words come with that. */
static int print_present(const uint8_t *packet, size_t length)
{
    oyk_count_answer checked = oyk_check(packet, length, OYK_KNOWS_ALL_LOW, OYK_KNOWS_ALL_HIGH);
    if (checked.refusal.number)
        return refused(stdout, checked.refusal);
    printf("frame centre: %s\n", frame_centre(&checked));
    printf("known items: %d of %zu\n", count_items(checked.present), checked.count);
    print_tags("tags", checked.present);
    if (count_items(checked.withdrawn) > 0)
        print_tags("withdrawn", checked.withdrawn);
    return DONE;
}

int main(int argc, char **argv)
{
    uint8_t packet[ROOM];
    size_t length;
    if (!version_fits("present") || !read_packet("present", argc - 1, argv + 1, packet, &length))
        return FAILED;
    return finish(print_present(packet, length));
}
