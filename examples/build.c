/*
 * Builds a packet from nothing, and writes it to standard output: time, version, a mission, where the camera is, a corner of the picture that
 * looks above the horizon, and an item that is not in the catalogue.
 * It ends with 0, with 1 where a value or a row is refused, and with 2 where the output is broken.
 */
#include <stdlib.h>

#include "common.h"

/* 2026-05-19 08:15:30.25, in microseconds from the start of 1970 on. Leap seconds are not counted. */
#define TIME UINT64_C(1779178530250000)

/* The mark of a number of four bytes: only the top bit is set. */
#define MARK UINT64_C(0x80000000)

#define MISSION "TOWER 17 NORTH"
#define BASE "BASE01"

/* What text and carried rows point into. The zero byte behind is no part of a text. */
static const uint8_t buffer[] = MISSION BASE;

/* The code of so many bytes for a value in house units. A value outside the item's range has none, and that ends the program. */
static uint64_t code_of(uint64_t tag, size_t length, int64_t value)
{
    oyk_code_answer answer = oyk_to_code(tag, length, value);
    if (answer.refusal.number)
        exit(refused(stderr, answer.refusal));
    return answer.code;
}

static int build(void)
{
    /*
     * A row is tag, kind, code, part. Item 2 comes first, item 1 last, 65 is among them, and a tag of the catalogue stands once; else the
     * order is free. Of a number's part only the length counts, and it is the catalogue's (oyk_item has it): a row with another is bad.
     */
    const uint64_t words[] = {
        2, OYK_READING, TIME, OYK_PART(0, 8),
        65, OYK_READING, 17, OYK_PART(0, 1), /* of ST 0601.17 */
        3, OYK_TEXT, 0, OYK_PART(0, sizeof MISSION - 1),
        13, OYK_READING, code_of(13, 4, 468995000), OYK_PART(0, 4), /* 46.8995 degrees north, in 10^-7 degree */
        14, OYK_READING, code_of(14, 4, -82995000), OYK_PART(0, 4), /* 8.2995 degrees west */
        75, OYK_READING, code_of(75, 2, 690000), OYK_PART(0, 2),    /* 690 m, in mm; a step is 0.3 m, so 689.935 m will be read */
        82, OYK_MARK, MARK, OYK_PART(0, 4),                         /* corner 1 is off the Earth, which only the mark can say */
        83, OYK_MARK, MARK, OYK_PART(0, 4),
        107, OYK_CARRIED, 0, OYK_PART(sizeof MISSION - 1, sizeof BASE - 1), /* operational base: its bytes go out as they are */
        1, OYK_READING, 0, OYK_PART(0, 2), /* the code is not looked at: the writer works the checksum out */
    };
    const size_t length = sizeof words / sizeof words[0];
    uint8_t out[OYK_LONGEST_PACKET];
    return put_packet(out, oyk_write(words, length, length / 4, buffer, sizeof buffer - 1, OYK_KNOWS_ALL_LOW, OYK_KNOWS_ALL_HIGH, out,
                                     sizeof out));
}

int main(void)
{
    return version_fits("build") ? build() : FAILED;
}
