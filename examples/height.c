/*
 * Prints how high the sensor and the frame centre are, each height with its kind, as receivers of three ages have it: one that knows the whole
 * catalogue, one that is older than the extended heights, and one that is older than all heights over the ellipsoid. The packet is in the file
 * named, or on standard input.
 * It ends with 0, with 1 where the packet is refused, and with 2 where there is no packet to read or the output is broken.
 */
#include "common.h"

/* A tag from 64 to 127 as its bit of a knowing set's high word. */
#define BIT(tag) (UINT64_C(1) << ((tag) - 64))

#define EXTENDED (BIT(103) | BIT(104) | BIT(105))
#define OVER_ELLIPSOID (BIT(75) | BIT(78))

/* What a receiver is called, and which items of the catalogue it does not know. */
typedef struct receiver {
    const char *name;
    uint64_t unknown;
} receiver;

static const receiver receivers[] = {
    {"the whole catalogue", 0},
    {"without 103 to 105", EXTENDED},
    {"without 75, 78 and 103 to 105", OVER_ELLIPSOID | EXTENDED},
};

/* Prints millimetres as metres. The sign goes apart: -0.5 has no whole number that could carry it. */
static void print_metres(int64_t value)
{
    uint64_t size = value < 0 ? UINT64_C(0) - (uint64_t)value : (uint64_t)value;
    printf("%s%" PRIu64 ".%03" PRIu64 " m", value < 0 ? "-" : "", size / 1000, size % 1000);
}

static void print_height(const char *what, oyk_height_answer height)
{
    printf("%s ", what);
    switch (height.kind) {
    case OYK_OVER_ELLIPSOID:
        print_metres(height.height);
        printf(" over the ellipsoid");
        break;
    case OYK_OVER_SEA_LEVEL:
        print_metres(height.height);
        printf(" over mean sea level");
        break;
    case OYK_MISSING:
        printf("missing");
        break;
    }
}

/* Prints the heights as each receiver has them, or the refusal. What the first accepts, those that know less accept too. */
static int print_heights(const uint8_t *packet, size_t length)
{
    size_t n;
    for (n = 0; n < sizeof receivers / sizeof receivers[0]; n++) {
        const uint64_t high = OYK_KNOWS_ALL_HIGH & ~receivers[n].unknown;
        oyk_height_answer sensor = oyk_sensor_height(packet, length, OYK_KNOWS_ALL_LOW, high);
        if (sensor.refusal.number)
            return refused(stdout, sensor.refusal);
        printf("%s: ", receivers[n].name);
        print_height("sensor", sensor);
        print_height(", frame centre", oyk_frame_centre_height(packet, length, OYK_KNOWS_ALL_LOW, high));
        printf("\n");
    }
    return DONE;
}

int main(int argc, char **argv)
{
    uint8_t packet[ROOM];
    size_t length;
    if (!version_fits("height") || !read_packet("height", argc - 1, argv + 1, packet, &length))
        return FAILED;
    return finish(print_heights(packet, length));
}
