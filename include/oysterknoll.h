/*
 * Oysterknoll: MISB ST 0601 packets, the metadata that travels with drone video, read, judged, built and sent on.
 *
 * The functions are those of a proved library, an archive of machine code for Linux on x86-64 (System V calling convention). Make it
 * with "scripts/archive" at the root of the repository and link it:
 *
 *     cc -std=c99 -Iinclude program.c target/staticlib/liboysterknoll.a
 *
 * On Arm (aarch64) link target/staticlib/aarch64/liboysterknoll.a, which "scripts/archive" makes beside it: the same proved source and the
 * same calls, compiled by another back end of LLVM.
 *
 * What each function answers is defined in the project's scope paper ("document 01") and its change requests ("document 02"), and proved of
 * the code. examples/ has programs that print the corners of a picture and the heights, say which items are there, build a packet from
 * nothing, and read, change and write one.
 *
 * Every input gets an answer. Nothing has to be true of a packet, a table of rows, a knowing set, a place, a tag, a code or a value
 * before it is given to a function: what is not accepted is refused by number, place and tag.
 *
 * Memory
 *   - All memory lent stays the caller's. Nothing is allocated, and nothing is kept after a call, so that threads may call at the same
 *     time. Of the C library no more is needed than memcmp, memcpy, memmove and memset.
 *   - A pointer is followed by its length, in elements. It is good for so many, aligned for its type, and not NULL even where the
 *     length is 0.
 *   - What is lent as const is only read. Inputs may overlap each other; an output may not overlap any input.
 *   - On a refusal no memory lent changes, and none carries a part of the refusal: all of it is in the answer.
 *   - On x86-64 oyk_list takes 5,320 bytes of stack, and any other call at most 1,464 bytes.
 *
 * Knowing set
 *   Which items of the catalogue a receiver knows, as two words: tag t from 0 to 63 is bit t of low, tag t from 64 to 127 is bit t - 64
 *   of high. A set is good when it holds 1, 2 and 65 and nothing outside the catalogue. Any other item of a packet is carried: its
 *   bytes, of whatever length, are handed on and not looked into. A receiver that does not know item 104, for example:
 *
 *     oyk_sensor_height(packet, length, OYK_KNOWS_ALL_LOW, OYK_KNOWS_ALL_HIGH & ~(UINT64_C(1) << (104 - 64)))
 *
 * Which items are there
 *   oyk_check and oyk_read answer two pairs of words beside the count, present and withdrawn. In each, tag t is bit t of the pair, as in a
 *   knowing set. In present it is set where a row of tag t is not carried: then oyk_has answers for a tag just what a scan of all rows would, and
 *   the number of set bits is the number of rows that are not carried. In withdrawn it is set where the row is withdrawn.
 *
 *   For whoever draws what is there: a sender withdraws an item, by length 0, to say that its earlier value no longer holds. Such an item is a
 *   row like others, so that its bit is set in present, though it has no value and heights and corners treat it as absent. A tag has a value
 *   exactly where its bit is set in present and not in withdrawn. A planner's screen that asks thirty times a second whether its packet has a
 *   frame centre (23 and 24) takes the words of one check, keeps those of the values, and needs neither a table nor a scan:
 *
 *     oyk_count_answer checked = oyk_check(packet, length, OYK_KNOWS_ALL_LOW, OYK_KNOWS_ALL_HIGH);
 *     uint64_t low = checked.present.low & ~checked.withdrawn.low;
 *     uint64_t high = checked.present.high & ~checked.withdrawn.high;
 *     ...
 *     if (oyk_has(low, high, 23) && oyk_has(low, high, 24))
 *
 *   Whether the drone took its frame centre back, oyk_has says of the words in withdrawn.
 *
 *   A carried item sets no bit: the words of an older receiver, which does not know 23, lack it though the packet has such an item and hands
 *   it on. Both pairs are the newer receiver's within the older one's knowing set. A mark is there, and is a value, like any other known item.
 *
 * House units
 *   Values are whole numbers of 10^-7 degree, mm, mm/s, 0.001 mbar, 0.001 percent or 0.001 degree C. The items that have a scale, each
 *   with how it is stored, its bytes and its range; oyk_item answers the same, in house units:
 *
 *     5, 35, 64, 71                       unsigned  2  0 to 360 degrees
 *     6                                   signed    2  -20 to 20 degrees
 *     7                                   signed    2  -50 to 50 degrees
 *     8, 9, 56                            unsigned  1  0 to 255 m/s
 *     13, 23, 67, 82, 84, 86, 88, 90, 91  signed    4  -90 to 90 degrees
 *     14, 19, 24, 68, 83, 85, 87, 89      signed    4  -180 to 180 degrees
 *     15, 25, 38, 75, 78                  unsigned  2  -900 to 19000 m
 *     16, 17                              unsigned  2  0 to 180 degrees
 *     18, 20                              unsigned  4  0 to 360 degrees
 *     21, 57                              unsigned  4  0 to 5000000 m
 *     22                                  unsigned  2  0 to 10000 m
 *     26, 27, 28, 29, 30, 31, 32, 33      signed    2  -0.075 to 0.075 degrees
 *     36                                  unsigned  1  0 to 100 m/s
 *     37                                  unsigned  2  0 to 5000 mbar
 *     39                                  signed    1  -128 to 127 degrees C
 *     55                                  unsigned  1  0 to 100 percent
 *     79, 80                              signed    2  -327 to 327 m/s
 *     103, 104, 105                       extended  2 to 4  -900 to 40000 m
 *
 *   Of the signed ones the lowest code is a mark, but for 39. Without scale are 1, 2 (microseconds), 34 (codes 0 to 2), 63 (codes 0 to 8)
 *   and 65, and the texts, 3, 4, 10, 11, 12, 59 and 70.
 *
 *   An extended height is an unsigned number of 2, 3 or 4 bytes, and its scale goes by its length: -900 m plus the code divided by
 *   2^(8 * length - 17) per metre, so that a code counts 2 m, 7.8125 mm or about 0.03 mm. The highest codes are 4FE2, 4FE200 and 4FE20000, which
 *   are 40,000 m; what is beyond is refused. Therefore both conversions are told the length that stands in oyk_row and in the fourth word
 *   of a row. At every other tag they do not ask for it, whatever it is.
 *
 * Rows
 *   A table has four words for each row: tag; kind; the stored code (0 for text, carried and withdrawn); OYK_PART(place, length) of the value in
 *   the buffer, which is the packet if the rows were read from one. A known item of length 0 is a withdrawn row, whatever the catalogue stores
 *   it as; only 1, 2 and 65 may not be withdrawn. A row is bad, and is refused by 17, if
 *   - its tag is not 1 to 2,097,151;
 *   - its kind is not one that this receiver gives the tag: carried for a tag that it does not know; for one that it knows withdrawn, but for
 *     1, 2 and 65, or text for a text, for a number the mark where the code is the item's mark and else the reading;
 *   - it is text or carried and has a code other than 0, or its place plus its length is beyond the buffer;
 *   - it is text of length 0;
 *   - it is withdrawn and has a code or a length other than 0;
 *   - it is a number with another length than the catalogue's (2, 3 or 4 for an extended height), or a code that is too wide for its length.
 *   The place of a number or of a withdrawn row is not looked at, nor is the code of item 1: the writer works the checksum out. What makes no
 *   row bad but a packet wrong (a text of over 127 bytes, a known tag twice, withdrawn or not, item 34 or 63 outside its codes, an extended
 *   height beyond 40,000 m, an order that starts or ends wrongly) is refused by its own number. Up to version 3 a text row of length 0 was
 *   refused by 12, and a packet with a known item of length 0 as well.
 *
 * Receivers of different age
 *   An item that a receiver does not know is as if it were not there for heights and corners. So the receivers of one packet may say different
 *   things, each of them rightly: of a newer drone an older receiver, which does not know 104, says the sensor height by 75 or 15, where a
 *   newer one says it by 104, with another number and, against 15, another kind. Whoever compares heights of several receivers looks at the
 *   kind first. An item that the sender withdraws is known to be so by the newer one alone: the older one carries an empty value and hands it on.
 */
#ifndef OYSTERKNOLL_H
#define OYSTERKNOLL_H

#include <stddef.h>
#include <stdint.h>

#ifdef __cplusplus
extern "C" {
#endif

/* The version of what this header and an archive say to each other: an archive that goes with it answers this number to oyk_version. */
#define OYK_VERSION 4

/* The words of a table that oyk_read fills: four for each of at most 128 rows. */
#define OYK_TABLE_WORDS 512
/* The bytes of the longest packet: an output of so many is never too short for oyk_write, oyk_write_with and oyk_forward. */
#define OYK_LONGEST_PACKET 8192
/* No listing has more bytes: an output of so many is never too short for oyk_list. */
#define OYK_LONGEST_LISTING 21781

/* The fourth word of a row: where its value stands in the buffer, and how many bytes it has (under 65,536). */
#define OYK_PART(place, length) ((uint64_t)(place) * 65536 + (uint64_t)(length))

/* The knowing set with the whole catalogue, 67 items. */
#define OYK_KNOWS_ALL_LOW UINT64_C(0x8b8000fffffffffe)
#define OYK_KNOWS_ALL_HIGH UINT64_C(0x000003800ffdc8db)

/*
 * Refusals, by number; 0 where nothing is refused. Beside each, what place and tag are; those not named are 0.
 */

/* Of the knowing set and of the reader. A start is the place in the packet of an item's first byte. */
#define OYK_REFUSED_SET_NOT_GOOD 1        /* knowing set not good */
#define OYK_REFUSED_TABLE_TOO_SHORT 2     /* lent table under 512 words */
#define OYK_REFUSED_PACKET_TOO_LONG 3     /* packet over 8,192 bytes */
#define OYK_REFUSED_KEY_DIFFERS 4         /* under 16 bytes or another key */
#define OYK_REFUSED_OUTER_LENGTH_WRONG 5  /* outer length cut, forbidden or unequal to the rest; place 16 */
#define OYK_REFUSED_TOO_MANY_ITEMS 6      /* bytes remain after 128 items; the next item's start */
#define OYK_REFUSED_TAG_BROKEN 7          /* tag cut or forbidden; the item's start */
#define OYK_REFUSED_LENGTH_BROKEN 8       /* item length cut, forbidden or past the end; the item's start and tag */
#define OYK_REFUSED_FIRST_NOT_TIME_STAMP 9 /* first item absent or not tag 2; its start (packet length if absent) and tag */
#define OYK_REFUSED_LAST_NOT_CHECKSUM 10  /* last item not tag 1 of length 2; its start and tag */
#define OYK_REFUSED_CHECKSUM_DIFFERS 11   /* checksum differs; its value's place, tag 1 */
#define OYK_REFUSED_LENGTH_NOT_ALLOWED 12 /* known item of wrong length (0 is wrong at 1, 2 and 65 alone); its start and tag */
#define OYK_REFUSED_KNOWN_TAG_TWICE 13    /* known tag a second time, withdrawn or not; the second one's start and tag */
#define OYK_REFUSED_CODE_NOT_ALLOWED 14   /* item 34 or 63 outside its codes, or an extended height beyond 40,000 m; its start and tag */
#define OYK_REFUSED_VERSION_MISSING 15    /* no item 65 */

/* Of the writer, which also gives 1, 3, 9, 10 and 12 to 15: its place in 9, 10, 12 to 14 and 17 is the row number, from 0. */
#define OYK_REFUSED_ROW_COUNT_TOO_LARGE 16 /* row count over 128 or four times it over the words lent */
#define OYK_REFUSED_ROW_BAD 17             /* bad row (see Rows above); its number, and its tag if that is 1 to 2,097,151 */
#define OYK_REFUSED_OUTPUT_TOO_SHORT 18    /* output too short */
#define OYK_REFUSED_WORDS_DISAGREE 22      /* words disagree: oyk_write_with is handed others than a scan of its rows gives */

/* Of the conversions, each with the tag as given. */
#define OYK_REFUSED_NO_SCALE 19           /* tag has no scale, or an extended height has another length than 2, 3 or 4 */
#define OYK_REFUSED_NOT_A_NUMBER 20       /* code is a mark or too wide, or an extended height beyond 40,000 m */
#define OYK_REFUSED_VALUE_OUT_OF_RANGE 21 /* value outside the range */

/* Kinds of a row (oyk_row, and the second word of each row in a table). */
#define OYK_READING 1   /* a number, by its stored code */
#define OYK_MARK 2      /* the mark that stands in place of a number */
#define OYK_TEXT 3      /* a text */
#define OYK_CARRIED 4   /* an item that the receiver does not know */
#define OYK_WITHDRAWN 5 /* a known item without a value: the earlier one no longer holds */

/* The kind that oyk_next gives where no item is left. */
#define OYK_NO_MORE 0

/* What a height or a corner is where the packet has none that the receiver knows. */
#define OYK_MISSING 0

/* Kinds of a height (oyk_sensor_height, oyk_frame_centre_height). Nothing turns one kind into the other. */
#define OYK_OVER_ELLIPSOID 1
#define OYK_OVER_SEA_LEVEL 2 /* mean sea level */

/* Kinds of a corner (oyk_corner). */
#define OYK_POINT 1
#define OYK_OFF_THE_EARTH 2 /* above the horizon by the drone's own mark, or past a pole: there is no pin to draw */

/* How the catalogue stores an item (oyk_item). */
#define OYK_NOT_LISTED 0      /* the catalogue has no item of this tag: every receiver carries it */
#define OYK_STORED_UNSIGNED 1 /* an unsigned number */
#define OYK_STORED_SIGNED 2   /* a number in two's complement */
#define OYK_STORED_TEXT 3     /* a text of 1 to 127 bytes, which may be any; one of 0 bytes is withdrawn */
#define OYK_STORED_EXTENDED 4 /* an extended height: an unsigned number of 2, 3 or 4 bytes, whose scale goes by its length */

/* Units (oyk_item): what a value in house units counts. A person's unit is 10^7 of them for degrees, and else 1,000. */
#define OYK_UNIT_NONE 0             /* no unit: a text, or a number whose code is all there is */
#define OYK_UNIT_DEGREE 1           /* 10^-7 degree */
#define OYK_UNIT_METRE 2            /* mm */
#define OYK_UNIT_METRE_PER_SECOND 3 /* mm/s */
#define OYK_UNIT_MILLIBAR 4         /* 0.001 mbar */
#define OYK_UNIT_PERCENT 5          /* 0.001 percent */
#define OYK_UNIT_CELSIUS 6          /* 0.001 degree C */
#define OYK_UNIT_MICROSECOND 7      /* item 2, which has no scale: its code counts microseconds */

/*
 * The catalogue as a list: ITEM(tag, name, unit) for each item, in the order of the tags. The name is that of ST 0601, the unit what follows
 * OYK_UNIT_. A switch that gives the name of a tag, for example:
 *
 *     #define NAME_OF(tag, name, unit) case tag: return name;
 *     switch (tag) { OYK_ITEMS(NAME_OF) }
 */
#define OYK_ITEMS(ITEM)                                      \
    ITEM(1, "Checksum", NONE)                                \
    ITEM(2, "Precision Time Stamp", MICROSECOND)             \
    ITEM(3, "Mission ID", NONE)                              \
    ITEM(4, "Platform Tail Number", NONE)                    \
    ITEM(5, "Platform Heading Angle", DEGREE)                \
    ITEM(6, "Platform Pitch Angle", DEGREE)                  \
    ITEM(7, "Platform Roll Angle", DEGREE)                   \
    ITEM(8, "Platform True Airspeed", METRE_PER_SECOND)      \
    ITEM(9, "Platform Indicated Airspeed", METRE_PER_SECOND) \
    ITEM(10, "Platform Designation", NONE)                   \
    ITEM(11, "Image Source Sensor", NONE)                    \
    ITEM(12, "Image Coordinate System", NONE)                \
    ITEM(13, "Sensor Latitude", DEGREE)                      \
    ITEM(14, "Sensor Longitude", DEGREE)                     \
    ITEM(15, "Sensor True Altitude", METRE)                  \
    ITEM(16, "Sensor Horizontal Field of View", DEGREE)      \
    ITEM(17, "Sensor Vertical Field of View", DEGREE)        \
    ITEM(18, "Sensor Relative Azimuth Angle", DEGREE)        \
    ITEM(19, "Sensor Relative Elevation Angle", DEGREE)      \
    ITEM(20, "Sensor Relative Roll Angle", DEGREE)           \
    ITEM(21, "Slant Range", METRE)                           \
    ITEM(22, "Target Width", METRE)                          \
    ITEM(23, "Frame Center Latitude", DEGREE)                \
    ITEM(24, "Frame Center Longitude", DEGREE)               \
    ITEM(25, "Frame Center Elevation", METRE)                \
    ITEM(26, "Offset Corner Latitude Point 1", DEGREE)       \
    ITEM(27, "Offset Corner Longitude Point 1", DEGREE)      \
    ITEM(28, "Offset Corner Latitude Point 2", DEGREE)       \
    ITEM(29, "Offset Corner Longitude Point 2", DEGREE)      \
    ITEM(30, "Offset Corner Latitude Point 3", DEGREE)       \
    ITEM(31, "Offset Corner Longitude Point 3", DEGREE)      \
    ITEM(32, "Offset Corner Latitude Point 4", DEGREE)       \
    ITEM(33, "Offset Corner Longitude Point 4", DEGREE)      \
    ITEM(34, "Icing Detected", NONE)                         \
    ITEM(35, "Wind Direction", DEGREE)                       \
    ITEM(36, "Wind Speed", METRE_PER_SECOND)                 \
    ITEM(37, "Static Pressure", MILLIBAR)                    \
    ITEM(38, "Density Altitude", METRE)                      \
    ITEM(39, "Outside Air Temperature", CELSIUS)             \
    ITEM(55, "Relative Humidity", PERCENT)                   \
    ITEM(56, "Platform Ground Speed", METRE_PER_SECOND)      \
    ITEM(57, "Ground Range", METRE)                          \
    ITEM(59, "Platform Call Sign", NONE)                     \
    ITEM(63, "Sensor Field of View Name", NONE)              \
    ITEM(64, "Platform Magnetic Heading", DEGREE)            \
    ITEM(65, "UAS Datalink LS Version Number", NONE)         \
    ITEM(67, "Alternate Platform Latitude", DEGREE)          \
    ITEM(68, "Alternate Platform Longitude", DEGREE)         \
    ITEM(70, "Alternate Platform Name", NONE)                \
    ITEM(71, "Alternate Platform Heading", DEGREE)           \
    ITEM(75, "Sensor Ellipsoid Height", METRE)               \
    ITEM(78, "Frame Center Height Above Ellipsoid", METRE)   \
    ITEM(79, "Sensor North Velocity", METRE_PER_SECOND)      \
    ITEM(80, "Sensor East Velocity", METRE_PER_SECOND)       \
    ITEM(82, "Corner Latitude Point 1 (Full)", DEGREE)       \
    ITEM(83, "Corner Longitude Point 1 (Full)", DEGREE)      \
    ITEM(84, "Corner Latitude Point 2 (Full)", DEGREE)       \
    ITEM(85, "Corner Longitude Point 2 (Full)", DEGREE)      \
    ITEM(86, "Corner Latitude Point 3 (Full)", DEGREE)       \
    ITEM(87, "Corner Longitude Point 3 (Full)", DEGREE)      \
    ITEM(88, "Corner Latitude Point 4 (Full)", DEGREE)       \
    ITEM(89, "Corner Longitude Point 4 (Full)", DEGREE)      \
    ITEM(90, "Platform Pitch Angle (Full)", DEGREE)          \
    ITEM(91, "Platform Roll Angle (Full)", DEGREE)           \
    ITEM(103, "Density Altitude Extended", METRE)            \
    ITEM(104, "Sensor Ellipsoid Height Extended", METRE)     \
    ITEM(105, "Alternate Platform Ellipsoid Height Extended", METRE)

/* A refusal. If number is 0, nothing is refused, and place and tag are 0. */
typedef struct oyk_refusal {
    uint64_t number; /* one of OYK_REFUSED_..., or 0 */
    size_t place;    /* where: beside each number above */
    uint64_t tag;    /* of which item: beside each number above */
} oyk_refusal;

/* A row: an item as the receiver sees it. */
typedef struct oyk_row {
    uint64_t tag;
    uint64_t kind; /* OYK_READING, OYK_MARK, OYK_TEXT, OYK_CARRIED or OYK_WITHDRAWN */
    uint64_t code; /* the stored code of a reading or a mark; 0 for the other kinds */
    size_t place;  /* where the value's bytes stand in the packet or the buffer, or would stand if it were not withdrawn */
    size_t length; /* how many they are: what oyk_to_house is told; 0 where it is withdrawn */
} oyk_row;

/* Which known items are there, or which of them are withdrawn (see above). No bit is set where none is. */
typedef struct oyk_present {
    uint64_t low;  /* tag t from 0 to 63 is bit t */
    uint64_t high; /* tag t from 64 to 127 is bit t - 64 */
} oyk_present;

/*
 * Answers. The refusal comes first in each that can be one; if its number is not 0, all that follows it is 0.
 */

/*
 * How many items or rows there are, which known ones, and which of these are withdrawn (oyk_check, oyk_read). A tag has a value where its bit is
 * set in present and not in withdrawn; what is withdrawn is always present.
 */
typedef struct oyk_count_answer {
    oyk_refusal refusal;
    size_t count;
    oyk_present present;
    oyk_present withdrawn;
} oyk_count_answer;

/* How many bytes were written at the front of the output (oyk_write, oyk_write_with, oyk_forward, oyk_list). */
typedef struct oyk_size_answer {
    oyk_refusal refusal;
    size_t size;
} oyk_size_answer;

/* A row of a table (oyk_take_row). */
typedef struct oyk_row_answer {
    oyk_refusal refusal;
    oyk_row row;
} oyk_row_answer;

/* Where the items of a packet begin (oyk_start). */
typedef struct oyk_start_answer {
    oyk_refusal refusal;
    size_t place;
} oyk_start_answer;

/* An item of a packet and the place after it (oyk_next). Nothing is refused: where there is no item, the row's kind is OYK_NO_MORE. */
typedef struct oyk_next_answer {
    oyk_row row;
    size_t next;
} oyk_next_answer;

/* A value in house units (oyk_to_house). */
typedef struct oyk_value_answer {
    oyk_refusal refusal;
    int64_t value;
} oyk_value_answer;

/* A stored code (oyk_to_code). */
typedef struct oyk_code_answer {
    oyk_refusal refusal;
    uint64_t code;
} oyk_code_answer;

/* A height, with the kind that it was (oyk_sensor_height, oyk_frame_centre_height). */
typedef struct oyk_height_answer {
    oyk_refusal refusal;
    uint64_t kind;  /* OYK_MISSING, OYK_OVER_ELLIPSOID or OYK_OVER_SEA_LEVEL */
    int64_t height; /* in mm; 0 where it is missing */
} oyk_height_answer;

/* A corner of the picture on the ground (oyk_corner). */
typedef struct oyk_corner_answer {
    oyk_refusal refusal;
    uint64_t kind;     /* OYK_MISSING, OYK_POINT or OYK_OFF_THE_EARTH */
    int64_t latitude;  /* in 10^-7 degree, north of the equator, from -900000000 to 900000000; 0 where it is no point */
    int64_t longitude; /* in 10^-7 degree, east of Greenwich, from -1800000000 to 1799999999; 0 where it is no point */
} oyk_corner_answer;

/* What the catalogue has for a tag (oyk_item). Nothing is refused: for a tag that it does not have, all is 0. */
typedef struct oyk_item_answer {
    uint64_t stored; /* OYK_NOT_LISTED or one of OYK_STORED_... */
    size_t width;    /* the bytes of a number; 0 for a text and for an extended height */
    int64_t low;     /* the least value, in house units */
    int64_t high;    /* the greatest; equal to low where there is no scale */
    uint64_t unit;   /* one of OYK_UNIT_... */
    uint64_t marked; /* 1 where the lowest code (only the top bit set) is a mark and no number, else 0 */
} oyk_item_answer;

/* The version that the archive was made for: OYK_VERSION, if it goes with this header. */
uint64_t oyk_version(void);

/* Judges a packet. count: the number of its items; present: which known ones are there; withdrawn: which of these. Never refusal 2. */
oyk_count_answer oyk_check(const uint8_t *packet, size_t packet_len, uint64_t low, uint64_t high);

/*
 * Reads a packet into a table of at least 512 words. count: the number of rows; present: which known items are there; withdrawn: which of
 * these. The table is filled row after row (see Rows above), and the rest of its first 512 words is set to 0; words beyond stay.
 */
oyk_count_answer oyk_read(const uint8_t *packet, size_t packet_len, uint64_t low, uint64_t high, uint64_t *table, size_t table_len);

/*
 * Whether an item is there: 1 where the bit of the tag is set in the two words, else 0. Any tag may be asked for; from 128 on there is none.
 * Nothing but the words is looked at: neither packet nor table has to be kept. Of the words in withdrawn it says whether the item is withdrawn,
 * and of those in present without them whether it has a value.
 */
uint64_t oyk_has(uint64_t present_low, uint64_t present_high, uint64_t tag);

/*
 * Takes row n, from 0, out of the count rows in words. The buffer is what text and carried rows point into: the packet, if the rows
 * were read from one. A bad row is refused by 17, and so is a row number from count on, with tag 0.
 */
oyk_row_answer oyk_take_row(const uint64_t *words, size_t words_len, size_t count, size_t n, const uint8_t *buffer, size_t buffer_len,
                            uint64_t low, uint64_t high);

/*
 * Starts a walk over the items of a packet, which needs no table: judges it as oyk_check does. place: where the first item starts.
 */
oyk_start_answer oyk_start(const uint8_t *packet, size_t packet_len, uint64_t low, uint64_t high);

/*
 * The item that starts at a place, and the place after it. From the place that oyk_start answers, and then from each next, the items of an
 * accepted packet come in their order, each as the row that oyk_read has for it, until the kind is OYK_NO_MORE:
 *
 *     oyk_next_answer at;
 *     for (at = oyk_next(packet, length, low, high, start.place); at.row.kind != OYK_NO_MORE;
 *          at = oyk_next(packet, length, low, high, at.next))
 *
 * Where no item starts at the place, next is the place and all else is 0. Any bytes and any place get an answer; what an item of a packet
 * that was not accepted holds need not be what its tag asks, and of a number of over eight bytes the last eight count.
 */
oyk_next_answer oyk_next(const uint8_t *packet, size_t packet_len, uint64_t low, uint64_t high, size_t place);

/*
 * Writes the count rows in words as a packet at the front of the output. size: the number of bytes written.
 * The order of the rows is kept, lengths take their shortest form, and the checksum is worked out afresh. Bytes after the packet stay.
 * The first row is item 2 and the last item 1, and item 65 is among them. Which row is bad stands at Rows above.
 */
oyk_size_answer oyk_write(const uint64_t *words, size_t words_len, size_t count, const uint8_t *buffer, size_t buffer_len, uint64_t low,
                          uint64_t high, uint8_t *out, size_t out_len);

/*
 * Writes as oyk_write does, handed beside the rows the words that say which items are there. They have to be just those that a scan of the
 * rows gives, which is what oyk_read answered as present if the rows are as it left them: others, a bit too many like one too few, are refused
 * by 22. That comes straight after 17, so before a packet that is too long. Of a known tag that stands twice the scan sets the bit once, and a
 * withdrawn row sets it like another.
 */
oyk_size_answer oyk_write_with(const uint64_t *words, size_t words_len, size_t count, const uint8_t *buffer, size_t buffer_len,
                               uint64_t low, uint64_t high, uint64_t present_low, uint64_t present_high, uint8_t *out, size_t out_len);

/*
 * Sends a packet on: reads it, and writes all its rows at the front of the output. size: the number of bytes written.
 * What the receiver does not know is handed on unharmed. Bytes after the packet stay. Never refusal 2.
 */
oyk_size_answer oyk_forward(const uint8_t *packet, size_t packet_len, uint64_t low, uint64_t high, uint8_t *out, size_t out_len);

/*
 * Turns a stored code of length bytes into house units. value: the nearest whole number. A tie never occurs but at an extended height, where
 * it goes upward, below zero too. The length is asked at an extended height alone (see House units above).
 */
oyk_value_answer oyk_to_house(uint64_t tag, size_t length, uint64_t code);

/*
 * Turns a value in house units into a code of length bytes. code: the nearest; a value half way between two codes gets the one further from
 * the low end of an unsigned item, and the one further from zero of a signed item. An extended height gets the code at or below: 2F921E of
 * three bytes is 23,456,234.375 mm and read as 23,456,234, which is sent as 2F921D.
 */
oyk_code_answer oyk_to_code(uint64_t tag, size_t length, int64_t value);

/*
 * How high the sensor is: by item 104, over the ellipsoid, if the packet has it, else by item 75, over the ellipsoid too, else by item 15, over
 * mean sea level. An item that is withdrawn is as if it were not there. Never refusal 2. Items 103 and 105 are no heights of the sensor and are
 * not asked.
 */
oyk_height_answer oyk_sensor_height(const uint8_t *packet, size_t packet_len, uint64_t low, uint64_t high);

/* How high the frame centre is: by item 78, over the ellipsoid, if the packet has it, else by item 25. As oyk_sensor_height. */
oyk_height_answer oyk_frame_centre_height(const uint8_t *packet, size_t packet_len, uint64_t low, uint64_t high);

/*
 * Where corner k of the picture is on the ground: 1 is the upper left one, 2 the upper right, 3 the lower right, 4 the lower left; any other
 * k is missing.
 * By items 80 + 2k and 81 + 2k if both are there, else by the frame centre (23 and 24) plus the offsets 24 + 2k and 25 + 2k if all four
 * are there. A mark in any row used is off the Earth; an item that is withdrawn is as if it were not there. Never refusal 2.
 * A longitude of 180 degrees or more comes back by one turn of 360 degrees, and so does one below -180: the 180th meridian is -1800000000. A
 * latitude above 90 or below -90 degrees is off the Earth; 90 itself is the pole. Rows, conversions and listing say what was sent.
 */
oyk_corner_answer oyk_corner(const uint8_t *packet, size_t packet_len, uint64_t low, uint64_t high, uint64_t k);

/* What the catalogue has for a tag: how the item is stored, its range and unit, and whether it has a mark. */
oyk_item_answer oyk_item(uint64_t tag);

/*
 * Lists a packet as text at the front of the output, the whole catalogue being known. size: the number of bytes.
 * A head line, then a line an item: the value's place, tag, kind and value, parted by tabs; of a withdrawn item nothing follows the last tab.
 * Every line ends with a newline byte; no zero byte follows the last. A packet that is not accepted is refused, and no line is written; an
 * output shorter than the listing is refused by 18.
 */
oyk_size_answer oyk_list(const uint8_t *packet, size_t packet_len, uint8_t *out, size_t out_len);

#ifdef __cplusplus
}
#endif

#endif
