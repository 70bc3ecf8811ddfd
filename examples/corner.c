/*
 * Prints where the four corners of a packet's picture are, in degrees: the packet is in the file named, or on standard input.
 * It ends with 0, with 1 where the packet is refused, and with 2 where there is no packet to read or the output is broken.
 */
#include "common.h"

/* Prints ten-millionths of a degree as degrees. The sign goes apart: -0.5 has no whole number that could carry it. */
static void print_degrees(int64_t value)
{
    uint64_t size = value < 0 ? UINT64_C(0) - (uint64_t)value : (uint64_t)value;
    printf("%s%" PRIu64 ".%07" PRIu64, value < 0 ? "-" : "", size / 10000000, size % 10000000);
}

static void print_corner(int k, oyk_corner_answer corner)
{
    printf("corner %d: ", k);
    switch (corner.kind) {
    case OYK_POINT:
        print_degrees(corner.latitude);
        printf(", ");
        print_degrees(corner.longitude);
        break;
    case OYK_OFF_THE_EARTH:
        printf("off the Earth");
        break;
    case OYK_MISSING:
        printf("missing");
        break;
    }
    printf("\n");
}

/* Prints the corners, or the refusal. */
static int print_corners(const uint8_t *packet, size_t length)
{
    int k;
    for (k = 1; k <= 4; k++) {
        oyk_corner_answer corner = oyk_corner(packet, length, OYK_KNOWS_ALL_LOW, OYK_KNOWS_ALL_HIGH, (uint64_t)k);
        if (corner.refusal.number)
            return refused(stdout, corner.refusal);
        print_corner(k, corner);
    }
    return DONE;
}

int main(int argc, char **argv)
{
    uint8_t packet[ROOM];
    size_t length;
    if (!version_fits("corner") || !read_packet("corner", argc - 1, argv + 1, packet, &length))
        return FAILED;
    return finish(print_corners(packet, length));
}
