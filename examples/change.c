/*
 * Changes one reading of a packet, and writes the new packet to standard output:
 *
 *     change TAG VALUE [FILE]
 *
 * The value is in house units, so "change 19 -70000000 samples/tower.klv" sets the camera's mounting to 7 degrees below the platform's
 * plane. The packet is in the file named, or on standard input. All other items come out as they were, also those that nobody knows; the
 * checksum is new, and lengths take their shortest form.
 * It ends with 0, with 1 where packet or value are refused or the packet has no such item or one that is withdrawn, and with 2 where the
 * arguments are no numbers, there is no packet to read, or the output is broken.
 */
#include <errno.h>
#include <stdlib.h>

#include "common.h"

/* Reads a number that is all of the text; 0 where it is none. */
static int read_number(const char *text, int64_t *number)
{
    char *end;
    errno = 0;
    *number = strtoll(text, &end, 10);
    return end != text && *end == '\0' && errno == 0;
}

/* The number of the row with the tag, from 0; the count where there is none. A known tag stands once in a packet. */
static size_t find_row(const uint64_t *table, size_t count, const uint8_t *packet, size_t length, uint64_t tag)
{
    size_t n;
    for (n = 0; n < count; n++) {
        oyk_row_answer taken =
            oyk_take_row(table, OYK_TABLE_WORDS, count, n, packet, length, OYK_KNOWS_ALL_LOW, OYK_KNOWS_ALL_HIGH);
        if (taken.row.tag == tag)
            break;
    }
    return n;
}

/* How many bytes the value of a row has: the low part of its fourth word, as OYK_PART puts it together. */
static size_t length_of(const uint64_t *row)
{
    return (size_t)(row[3] % 65536);
}

/*
 * Reads the packet into a table, changes the row of the tag, and writes all rows again. Text and carried rows point into the packet, so
 * it is the writer's buffer. The value keeps its length, by which the scale of an extended height goes.
 */
static int change(const uint8_t *packet, size_t length, uint64_t tag, int64_t value)
{
    uint64_t table[OYK_TABLE_WORDS];
    uint8_t out[OYK_LONGEST_PACKET];
    oyk_count_answer rows = oyk_read(packet, length, OYK_KNOWS_ALL_LOW, OYK_KNOWS_ALL_HIGH, table, OYK_TABLE_WORDS);
    oyk_code_answer code;
    size_t n;
    if (rows.refusal.number)
        return refused(stderr, rows.refusal);
    n = find_row(table, rows.count, packet, length, tag);
    if (n == rows.count) {
        fprintf(stderr, "change: the packet has no item %" PRIu64 "\n", tag);
        return REFUSED;
    }
    /* A withdrawn item has length 0, and no reading to change. */
    if (oyk_has(rows.withdrawn.low, rows.withdrawn.high, tag)) {
        fprintf(stderr, "change: the packet has withdrawn item %" PRIu64 "\n", tag);
        return REFUSED;
    }
    code = oyk_to_code(tag, length_of(&table[4 * n]), value);
    if (code.refusal.number)
        return refused(stderr, code.refusal);
    /* The kind too: where a mark stood, the code is a reading now, and a row whose kind and code disagree is bad. */
    table[4 * n + 1] = OYK_READING;
    table[4 * n + 2] = code.code;
    return put_packet(out, oyk_write(table, OYK_TABLE_WORDS, rows.count, packet, length, OYK_KNOWS_ALL_LOW, OYK_KNOWS_ALL_HIGH, out,
                                     sizeof out));
}

int main(int argc, char **argv)
{
    uint8_t packet[ROOM];
    size_t length;
    int64_t tag, value;
    if (argc < 3 || !read_number(argv[1], &tag) || tag < 0 || !read_number(argv[2], &value)) {
        fprintf(stderr, "change: a tag, a value in house units, and one file or none for standard input\n");
        return FAILED;
    }
    if (!version_fits("change") || !read_packet("change", argc - 3, argv + 3, packet, &length))
        return FAILED;
    return change(packet, length, (uint64_t)tag, value);
}
