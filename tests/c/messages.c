/*
 * Messages of ANSI C12.18 by the C interface, with octets and replies worked out by hand from document 02; and
 * the places of ranges, on which a read stands. All that a call is lent is guarded memory (lend.h), both ways;
 * a message is written into rooms of its length, of more octets and of fewer. What was lent is then compared,
 * every octet of it. Prints how many checks there were; fails where one does, and ends at the tenth.
 */
#include "bilashonge.h"
#include "lend.h"

#include <stdio.h>
#include <stdlib.h>
#include <string.h>

static unsigned checks, failures;

/* What is asked, for what is told of a check that fails. */
static const char *asked = "";

static void check(bool met, const char *what, int line)
{
    checks++;
    if (!met) {
        failures++;
        fprintf(stderr, "messages.c:%d: %s: not so: %s\n", line, asked, what);
    }
    if (failures == 10)
        exit(1);
}

#define CHECK(condition) check((condition), #condition, __LINE__)

#define COUNT_OF(array) (sizeof array / sizeof array[0])

/* ------------------------------------------------------------------------------------------------ octets */

static void add_octet(struct octets *octets, uint8_t octet)
{
    set_length(octets, octets->length + 1);
    octets->at[octets->length - 1] = octet;
}

static void add_octets(struct octets *octets, const struct octets *more)
{
    size_t before = octets->length;
    set_length(octets, before + more->length);
    if (more->length != 0)
        memcpy(octets->at + before, more->at, more->length);
}

static void copy_octets(struct octets *into, const struct octets *from)
{
    set_length(into, 0);
    add_octets(into, from);
}

static uint8_t hex_value(char digit)
{
    static const char digits[] = "0123456789abcdef";
    const char *found = memchr(digits, digit, 16);
    if (found == NULL)
        violation("not a digit in hex");
    return (uint8_t)(found - digits);
}

/* A text in hex; its blanks are for people. */
static void set_hex(struct octets *octets, const char *text)
{
    set_length(octets, 0);
    for (text += strspn(text, " "); *text != '\0'; text += 2, text += strspn(text, " "))
        add_octet(octets, (uint8_t)(16 * hex_value(text[0]) + hex_value(text[1])));
}

/* Long data: octet k is 7 k + 3, wrapped. Any 256 in a row are all octets there are, with a sum of 80 hex,
 * wrapped; so 65,536 have a sum of 0. The last of these is -7 + 3, and the one before it -14 + 3. So
 * 65,535 have a sum of 4 and the check octet fc, and 65,534 a sum of 15 and the check octet f1. */
enum { LONGEST = 65535, LONGEST_CHECK = 0xfc, SHORTER = 65534, SHORTER_CHECK = 0xf1 };

static void add_data(struct octets *octets, size_t count)
{
    for (size_t k = 0; k < count; k++)
        add_octet(octets, (uint8_t)(7 * k + 3));
}

/* A long message: what stands before its data, these, and a check octet. */
static void set_long(struct octets *octets, const char *before, size_t count, uint8_t check_octet)
{
    set_hex(octets, before);
    add_data(octets, count);
    add_octet(octets, check_octet);
}

/* ------------------------------------------------------------------------------------------ what is lent */

/* Copies of what is lent, and what the image is to hold then. */
static struct octets description, image, image_later, data, message, room;

/* The message that is to be written. Where there is to be none, the call is refused in a room of any
 * length. */
static struct octets expected;
static bool expected_none;

static void expect(const char *text)
{
    set_hex(&expected, text);
    expected_none = false;
}

/* Takes a part back, which is to hold those octets. */
static void take(enum part part, enum way way, const struct octets *held)
{
    static struct octets later;
    take_back(part, way, &later);
    CHECK(same_octets(&later, held));
}

static bool fits_in(size_t room_length)
{
    return !expected_none && expected.length <= room_length;
}

/* Full of that way's guard octets, so that an octet which isn't written is another one in the other way. */
static uint8_t *lend_room(enum way way, size_t room_length)
{
    set_length(&room, room_length);
    memset(room.at, guard_octet(way), room_length);
    return lend_to_write(ROOM, way, &room);
}

/* What was told, and the room: the message, and behind it what was there; or 21 and all that was there. */
static void take_room(enum way way, struct bilashonge_total total)
{
    bool fits = fits_in(room.length);
    CHECK(total.refusal.number == (fits ? 0 : 21));
    CHECK(total.refusal.item == 0 && total.refusal.octet == 0 && total.refusal.depth == 0);
    CHECK(total.total == (fits ? expected.length : 0));
    if (fits)
        memcpy(room.at, expected.at, expected.length);
    take(ROOM, way, &room);
}

/* Makes a call in every shorter room than a short message has, in some shorter ones than a long message
 * has, in one of its length and in longer ones. A room of no octets is a null pointer in one of the ways. */
static void in_rooms(void (*call)(enum way way, size_t room_length))
{
    static const size_t more[] = {0, 1, 2, 16, 300};
    size_t length = expected_none ? 12 : expected.length;
    for (enum way way = 0; way < WAYS; way++) {
        for (size_t less = 0; less < length; less++)
            if (length <= 32 || less < 2 || less == 256 || less == length - 4 || less == length - 1)
                call(way, less);
        for (size_t k = 0; k < COUNT_OF(more); k++)
            call(way, length + more[k]);
        if (expected_none)
            call(way, 65544);
    }
}

/* ----------------------------------------------------------------------------------------------- a meter */

/*
 * table           octets        place in the image
 *    0            00 11 22        0..2    read-only; the first is DATA_ORDER
 *    5            a1 b2 c3 d4     3..6
 *    6            e5 f6           7..8    read-only
 *    7            70 02 71 72     9..12   the second is a dimension: it counts those behind it
 *    8                           13
 *    9                           13       read-only
 * 2047            80             13
 *    0, maker's   90 91          14..15
 * 2047, maker's   ff             16       read-only
 * none            de ad          17..18
 */
#define METER                                       \
    "10000002 20100000 30020000 10058001 30040000 " \
    "10060001 30020000 10078004 30010000 20200000 " \
    "50807001 20000000 10088000 10090000 17ff8001 " \
    "30010000 18008001 30020000 1fff0001 30010000"
#define ITS_IMAGE "001122 a1b2c3d4 e5f6 70027172 80 9091 ff dead"

/* 65,534 octets: sixteen BLOCKs of 4,095 and one of 14. */
#define FOUR_BLOCKS "3fff0000 3fff0000 3fff0000 3fff0000"
#define BLOCKS FOUR_BLOCKS FOUR_BLOCKS FOUR_BLOCKS FOUR_BLOCKS "300e0000"

static void set_meter(const char *its_description, const char *its_image)
{
    set_hex(&description, its_description);
    set_hex(&image, its_image);
}

/* ----------------------------------------------------------------------------------- where a range stands */

/* The place of a range, in both ways. */
static void range_is(uint32_t manufacturer, uint32_t number, size_t offset, size_t length,
                     struct bilashonge_place place)
{
    for (enum way way = 0; way < WAYS; way++) {
        const uint8_t *lent_description = lend_to_read(DESCRIPTION, way, &description);
        const uint8_t *lent_image = lend_to_read(IMAGE, way, &image);
        struct bilashonge_place told =
            bilashonge_range_place(lent_description, description.length, lent_image, image.length,
                                   manufacturer, number, offset, length);
        CHECK(told.refusal.number == place.refusal.number);
        CHECK(told.refusal.item == place.refusal.item && told.refusal.octet == place.refusal.octet);
        CHECK(told.refusal.depth == 0);
        CHECK(told.start == place.start && told.length == place.length);
        take(DESCRIPTION, way, &description);
        take(IMAGE, way, &image);
    }
}

static void range_at(uint32_t manufacturer, uint32_t number, size_t offset, size_t length, uint64_t start)
{
    struct bilashonge_place place = {{0, 0, 0, 0}, start, length};
    range_is(manufacturer, number, offset, length, place);
}

static void no_range(uint32_t manufacturer, uint32_t number, size_t offset, size_t length, uint64_t refusal)
{
    struct bilashonge_place place = {{refusal, 0, 0, 0}, 0, 0};
    range_is(manufacturer, number, offset, length, place);
}

static void ranges(void)
{
    asked = "a range";
    set_meter(METER, ITS_IMAGE);
    range_at(0, 5, 0, 4, 3);
    range_at(0, 5, 1, 2, 4);
    range_at(0, 5, 3, 1, 6);
    range_at(0, 5, 0, 0, 3);
    range_at(0, 5, 2, 0, 5);
    range_at(0, 5, 4, 0, 7);
    range_at(0, 0, 0, 3, 0);
    range_at(0, 6, 1, 1, 8); /* read-only */
    range_at(0, 7, 1, 1, 10); /* a dimension */
    range_at(0, 8, 0, 0, 13);
    range_at(0, 9, 0, 0, 13);
    range_at(0, 2047, 0, 1, 13);
    range_at(1, 0, 0, 2, 14);
    range_at(1, 2047, 0, 1, 16);
    range_at(1, 2047, 1, 0, 17);
    for (size_t offset = 0; offset < 8; offset++)
        for (size_t length = 0; length < 8; length++)
            if (offset + length <= 4)
                range_at(0, 5, offset, length, 3 + offset);
            else
                no_range(0, 5, offset, length, 12);
    no_range(0, 8, 0, 1, 12);
    no_range(1, 2047, 1, 1, 12);
    /* Sums that 64 bits don't hold, and numbers that fewer would cut */
    no_range(0, 5, SIZE_MAX, 0, 12);
    no_range(0, 5, 0, SIZE_MAX, 12);
    no_range(0, 5, SIZE_MAX, 1, 12);
    no_range(0, 5, 1, SIZE_MAX, 12);
    no_range(0, 5, 4, SIZE_MAX - 3, 12);
    no_range(0, 5, SIZE_MAX, SIZE_MAX, 12);
    no_range(0, 5, 4294967296, 1, 12);
    no_range(0, 5, 0, 4294967297, 12);
    no_range(0, 5, 65536, 1, 12);
    /* No such table, before what the range would be */
    no_range(0, 1, 0, 0, 10);
    no_range(0, 1, SIZE_MAX, SIZE_MAX, 10);
    no_range(1, 5, 0, 1, 10);
    no_range(2, 5, 0, 1, 10);
    no_range(256, 5, 0, 1, 10);
    no_range(UINT32_MAX, 0, 0, 0, 10);
    no_range(0, 2048, 0, 0, 10);
    no_range(0, 5 + 4096, 0, 1, 10);
    no_range(0, 5 + 65536, 0, 1, 10);
    no_range(1, 2048, 0, 0, 10);
    no_range(0, UINT32_MAX, 0, 0, 10);
}

static void ranges_of_no_layout(void)
{
    static const struct bilashonge_place unset = {{7, 3, 0, 0}, 0, 0}, empty = {{9, 1, 0, 0}, 0, 0},
                                         cut = {{9, 19, 16, 0}, 0, 0};
    asked = "a range of a meter that can't be laid out";
    set_meter("", ITS_IMAGE);
    no_range(0, 5, 0, 1, 1);
    set_meter("", "");
    no_range(0, 5, 0, 1, 1);
    set_meter("10000002 20100000 300200", ITS_IMAGE);
    no_range(0, 0, 0, 1, 1);
    set_meter("10000001 20100000 10058001 40807000", ITS_IMAGE); /* a SET of a slot never set */
    range_is(0, 5, 0, 1, unset);
    range_is(0, 6, SIZE_MAX, 1, unset);
    set_meter(METER, "");
    range_is(0, 5, 0, 1, empty);
    set_meter(METER, "001122 a1b2c3d4 e5f6 70027172 80 9091");
    range_is(0, 5, 0, 1, cut);
    range_is(0, 1, 0, 1, cut);
    set_meter(METER, ITS_IMAGE);
    add_data(&image, LONGEST - 19);
    range_at(0, 5, 0, 4, 3);
    add_octet(&image, 0);
    no_range(0, 5, 0, 4, 8);
}

/* A table of as many octets as an image may have. */
static void longest_ranges(void)
{
    asked = "a range of a long table";
    set_hex(&description, "10000012 20100000" BLOCKS);
    set_length(&image, 0);
    add_data(&image, LONGEST);
    range_at(0, 0, 0, 65535, 0);
    range_at(0, 0, 65534, 1, 65534);
    range_at(0, 0, 65535, 0, 65535);
    range_at(0, 0, 32767, 32768, 32767);
    no_range(0, 0, 65535, 1, 12);
    no_range(0, 0, 65536, 0, 12);
    no_range(0, 0, 0, 65536, 12);
    no_range(0, 0, 32768, 32768, 12);
}

/* ------------------------------------------------------------------------------------- requests answered */

static void call_serve(enum way way, size_t room_length)
{
    const uint8_t *lent_description = lend_to_read(DESCRIPTION, way, &description);
    uint8_t *lent_image = lend_to_write(IMAGE, way, &image);
    const uint8_t *lent_request = lend_to_read(MESSAGE, way, &message);
    uint8_t *lent_room = lend_room(way, room_length);
    struct bilashonge_total total =
        bilashonge_serve(lent_description, description.length, lent_image, image.length, lent_request,
                         message.length, lent_room, room_length);
    take_room(way, total);
    take(DESCRIPTION, way, &description);
    take(IMAGE, way, fits_in(room_length) ? &image_later : &image);
    take(MESSAGE, way, &message);
}

/* The message that is set has the reply that is expected, and the image stays as it is. */
static void serve_without_change(void)
{
    copy_octets(&image_later, &image);
    in_rooms(call_serve);
}

struct exchange {
    const char *request, *reply;
};

static void answers(const char *request, const char *reply)
{
    asked = request;
    set_hex(&message, request);
    expect(reply);
    serve_without_change();
}

static void all_answer(const struct exchange *exchanges, size_t count)
{
    for (size_t k = 0; k < count; k++)
        answers(exchanges[k].request, exchanges[k].reply);
}

/* A good write: from that octet of the image on then stands what is written. */
static void writes(const char *request, size_t octet, const char *now)
{
    asked = request;
    set_hex(&message, request);
    set_hex(&data, now);
    expect("00");
    copy_octets(&image_later, &image);
    memcpy(image_later.at + octet, data.at, data.length);
    in_rooms(call_serve);
}

/* Sums, in hex: of table 0 33, of 5 2ea, of 6 1db, of 7 155; of the maker's 0 121. */
static void full_reads(void)
{
    static const struct exchange exchanges[] = {
        {"30 0000", "00 0003 001122 cd"},
        {"30 0005", "00 0004 a1b2c3d4 16"},
        {"30 0006", "00 0002 e5f6 25"},
        {"30 0007", "00 0004 70027172 ab"},
        {"30 0008", "00 0000 00"},
        {"30 0009", "00 0000 00"},
        {"30 07ff", "00 0001 80 80"},
        {"30 0800", "00 0002 9091 df"},
        {"30 0fff", "00 0001 ff 01"},
        {"30 0001", "04"},
        {"30 0805", "04"}, /* the maker's 5 */
        {"30 0ffe", "04"},
        {"30 1000", "04"}, /* 4,096 */
        {"30 1005", "04"}, /* cut to twelve bits it would be 5 */
        {"30 1800", "04"},
        {"30 8005", "04"},
        {"30 ffff", "04"},
        {"30 0500", "04"}, /* 5 with its octets exchanged */
    };
    all_answer(exchanges, COUNT_OF(exchanges));
}

static void offset_reads(void)
{
    static const struct exchange exchanges[] = {
        {"3f 0005 000000 0004", "00 0004 a1b2c3d4 16"},
        {"3f 0005 000001 0002", "00 0002 b2c3 8b"}, /* 175 */
        {"3f 0005 000003 0001", "00 0001 d4 2c"},
        {"3f 0005 000000 0000", "00 0000 00"},
        {"3f 0005 000002 0000", "00 0000 00"},
        {"3f 0005 000004 0000", "00 0000 00"},
        {"3f 0005 000005 0000", "04"},
        {"3f 0005 000004 0001", "04"},
        {"3f 0005 000001 0004", "04"},
        {"3f 0005 000000 0005", "04"},
        {"3f 0005 000000 0104", "04"}, /* a count cut to an octet would be 4 */
        {"3f 0005 000000 0400", "04"},
        {"3f 0005 000000 ffff", "04"},
        {"3f 0005 000100 0001", "04"}, /* an offset cut to an octet would be 0 */
        {"3f 0005 010000 0001", "04"}, /* or to two */
        {"3f 0005 ffffff 0000", "04"},
        {"3f 0005 ffffff 0001", "04"},
        {"3f 0005 ffffff ffff", "04"},
        {"3f 0000 000002 0001", "00 0001 22 de"},
        {"3f 0007 000001 0001", "00 0001 02 fe"}, /* a dimension */
        {"3f 0009 000000 0000", "00 0000 00"},
        {"3f 0009 000000 0001", "04"},
        {"3f 0800 000001 0001", "00 0001 91 6f"},
        {"3f 0fff 000000 0001", "00 0001 ff 01"},
        {"3f 0fff 000001 0001", "04"}, /* an octet of no table */
        {"3f 0001 000000 0000", "04"},
        {"3f 1000 000000 0000", "04"},
        {"3f 1005 000000 0001", "04"},
    };
    all_answer(exchanges, COUNT_OF(exchanges));
}

static void full_writes(void)
{
    static const struct exchange refused[] = {
        {"40 0005 0003 010203 fa", "04"}, /* not the table's length */
        {"40 0005 0005 0102030405 f1", "04"},
        {"40 0005 0000 00", "04"},
        {"40 0008 0001 01 ff", "04"},
        {"40 0009 0001 01 ff", "04"}, /* its length, before that it is read-only */
        {"40 0006 0001 01 ff", "04"},
        {"40 0006 0003 010203 fa", "04"},
        {"40 0fff 0002 0000 00", "04"},
        {"40 0000 0001 01 ff", "04"},
        {"40 0006 0002 0102 fd", "03"}, /* read-only */
        {"40 0006 0002 e5f6 25", "03"},
        {"40 0fff 0001 00 00", "03"},
        {"40 0009 0000 00", "03"}, /* though nothing is written */
        {"40 0000 0003 001122 cd", "03"}, /* before that it has a dimension */
        {"40 0007 0004 5e025f60 e1", "04"}, /* a dimension; 11f */
        {"40 0007 0004 70027172 ab", "04"}, /* though it would stay as it is */
        {"40 0001 0000 00", "04"},
        {"40 0805 0004 01020304 f6", "04"},
        {"40 1005 0004 01020304 f6", "04"},
    };
    writes("40 0005 0004 01020304 f6", 3, "01020304");
    writes("40 0005 0004 80808080 00", 3, "80808080"); /* 200 */
    writes("40 0005 0004 ffffffff 04", 3, "ffffffff"); /* 3fc */
    writes("40 0005 0004 00000000 00", 3, "00000000");
    writes("40 0005 0004 a1b2c3d4 16", 3, "a1b2c3d4"); /* what is there */
    writes("40 07ff 0001 7f 81", 13, "7f");
    writes("40 0800 0002 aabb 9b", 14, "aabb"); /* 165 */
    writes("40 0008 0000 00", 13, "");
    all_answer(refused, COUNT_OF(refused));
}

static void offset_writes(void)
{
    static const struct exchange refused[] = {
        {"4f 0005 000005 0000 00", "04"}, /* past the end */
        {"4f 0005 000004 0001 5e a2", "04"},
        {"4f 0005 000003 0002 5e5f 43", "04"},
        {"4f 0005 000100 0001 5e a2", "04"},
        {"4f 0005 010000 0001 5e a2", "04"},
        {"4f 0005 ffffff 0001 5e a2", "04"},
        {"4f 0006 000002 0001 01 ff", "04"}, /* before that it is read-only */
        {"4f 0006 000003 0000 00", "04"},
        {"4f 0fff 000001 0001 00 00", "04"},
        {"4f 0000 000003 0001 00 00", "04"},
        {"4f 0006 000000 0001 01 ff", "03"}, /* read-only */
        {"4f 0006 000001 0000 00", "03"},
        {"4f 0006 000002 0000 00", "03"},
        {"4f 0009 000000 0000 00", "03"},
        {"4f 0fff 000000 0001 00 00", "03"},
        {"4f 0000 000000 0001 00 00", "03"}, /* before that it is a dimension */
        {"4f 0007 000001 0001 02 fe", "04"}, /* a dimension */
        {"4f 0007 000000 0002 7002 8e", "04"},
        {"4f 0007 000001 0002 0271 8d", "04"},
        {"4f 0007 000001 0004 01010101 fc", "04"}, /* and past the end */
        {"4f 0001 000000 0000 00", "04"},
        {"4f 0805 000000 0001 5e a2", "04"},
        {"4f 1005 000000 0001 5e a2", "04"},
    };
    writes("4f 0005 000000 0004 01020304 f6", 3, "01020304");
    writes("4f 0005 000001 0002 5566 45", 4, "5566"); /* bb */
    writes("4f 0005 000003 0001 5e a2", 6, "5e");
    writes("4f 0005 000000 0000 00", 3, "");
    writes("4f 0005 000004 0000 00", 7, "");
    writes("4f 0007 000000 0001 5e a2", 9, "5e"); /* before the dimension */
    writes("4f 0007 000002 0002 5e5f 43", 11, "5e5f"); /* behind it; bd */
    writes("4f 0007 000001 0000 00", 10, ""); /* no octet of it */
    writes("4f 07ff 000000 0001 00 00", 13, "00");
    writes("4f 0800 000001 0001 92 6e", 15, "92");
    writes("4f 0008 000000 0000 00", 13, "");
    all_answer(refused, COUNT_OF(refused));
}

/* What is wrong with the request itself comes first: the tables named here would refuse all that is asked
 * of them. */
static const struct exchange faulty[] = {
    {"", "01"},
    {"30", "01"},
    {"30 00", "01"},
    {"30 0001 00", "01"},
    {"3f", "01"},
    {"3f 0001 000000 00", "01"},
    {"3f 0001 000000 0000 00", "01"},
    {"40", "01"},
    {"40 0006 00", "01"}, /* no whole count */
    {"40 0006 0000", "01"}, /* no check octet */
    {"40 0006 0000 00 00", "01"},
    {"40 0006 0000 01", "01"}, /* a wrong one, of no data */
    {"40 0006 0002 0102 fc", "01"},
    {"40 0006 0002 0102 fe", "01"},
    {"40 0006 0002 0102 03", "01"}, /* the sum itself */
    {"40 0006 0002 0102 fb", "01"}, /* over the count too */
    {"40 0006 0002 0102 f5", "01"}, /* and over the id */
    {"40 0006 0002 8080 80", "01"},
    {"40 0006 0001 0102 fd", "01"}, /* a count that isn't the data's */
    {"40 0006 0003 0102 fd", "01"},
    {"40 0006 0200 0102 fd", "01"},
    {"40 0001 0003 0102 fe", "01"},
    {"4f", "01"},
    {"4f 0006 000000 00", "01"},
    {"4f 0006 000000 0000", "01"},
    {"4f 0006 000000 0000 00 00", "01"},
    {"4f 0006 000000 0000 ff", "01"},
    {"4f 0006 000000 0001 01 fe", "01"},
    {"4f 0006 000000 0002 01 ff", "01"},
    {"4f 0006 000009 0001 01 f5", "01"}, /* over the offset and the count too */
    {"4f 1006 ffffff 0001 01 01", "01"},
    {"00", "02"}, /* unknown, whatever follows */
    {"2f 0006", "02"},
    {"31 0006", "02"},
    {"3e 0006 000000 0001", "02"},
    {"41 0006 0002 0102 fd", "02"},
    {"41 0006 0002 0102 fc", "02"},
    {"50 0006 000000 0001 01 ff", "02"},
    {"ff", "02"},
};

/* Good requests, which only the tables can refuse. */
static const char *const good[] = {
    "30 0005", "3f 0005 000000 0001", "3f 0005 000000 0000", "40 0005 0004 01020304 f6",
    "4f 0005 000000 0001 5e a2", "4f 0005 000000 0000 00", "30 1005", "40 0006 0002 0102 fd",
};

static void faulty_requests(void)
{
    all_answer(faulty, COUNT_OF(faulty));
}

/* Every first octet but the four, alone and before what would be good behind one of them. */
static void unknown_requests(void)
{
    expect("02");
    asked = "a first octet that is none of the four";
    for (unsigned first = 0; first < 256; first++)
        for (size_t k = 0; k < COUNT_OF(good); k++) {
            if (first == 0x30 || first == 0x3f || first == 0x40 || first == 0x4f)
                continue;
            set_hex(&message, good[k]);
            message.at[0] = (uint8_t)first;
            copy_octets(&image_later, &image);
            call_serve(ENDING, 1);
            call_serve(STARTING, 5);
            set_length(&message, 1);
            call_serve(ENDING, 1);
            call_serve(STARTING, 0);
        }
}

/* Every good request cut, and with octets behind it. */
static void wrong_lengths(void)
{
    expect("01");
    asked = "a request of a wrong length";
    for (size_t k = 0; k < COUNT_OF(good); k++) {
        set_hex(&message, good[k]);
        copy_octets(&image_later, &image);
        for (size_t length = message.length; length-- != 0;) {
            set_length(&message, length);
            call_serve(ENDING, 1);
            call_serve(STARTING, 300);
        }
        set_hex(&message, good[k]);
        for (unsigned more = 0; more < 300; more++) {
            add_octet(&message, 0);
            call_serve(ENDING, 1);
            call_serve(STARTING, 0);
        }
    }
}

/* Each check octet behind the same data: one is right. And each octet read alone: x and what it lacks to
 * 256. */
static void check_octets(void)
{
    asked = "a check octet";
    for (unsigned x = 0; x < 256; x++) {
        set_hex(&message, "40 0005 0004 01020304 f6");
        set_hex(&data, "01020304");
        message.at[message.length - 1] = (uint8_t)x;
        expect(x == 0xf6 ? "00" : "01");
        copy_octets(&image_later, &image);
        if (x == 0xf6)
            memcpy(image_later.at + 3, data.at, 4);
        in_rooms(call_serve);
    }
    for (unsigned x = 0; x < 256; x++) {
        set_hex(&message, "30 07ff");
        image.at[13] = (uint8_t)x;
        expect("00 0001 00 00");
        expected.at[3] = (uint8_t)x;
        expected.at[4] = (uint8_t)(x == 0 ? 0 : 256 - x);
        serve_without_change();
    }
    image.at[13] = 0x80;
}

/* Numbers in a message stand most significant octet first, whichever the meter's order is. */
static void other_data_order(void)
{
    image.at[0] = 0x01;
    answers("30 0000", "00 0003 011122 cc");
    answers("30 0800", "00 0002 9091 df");
    answers("3f 0005 000001 0002", "00 0002 b2c3 8b");
    answers("3f 0005 000100 0001", "04");
    answers("30 0500", "04");
    writes("40 0800 0002 aabb 9b", 14, "aabb");
    writes("4f 0005 000001 0002 5566 45", 4, "5566");
    image.at[0] = 0x00;
}

/* Meters that can't be laid out answer every good request by 04, and the others as always. */
static void meters_of_no_layout(void)
{
    static const char *const descriptions[] = {
        "",                                    /* 1 */
        "10000001 201000",                     /* 1 */
        "10000001 20100000 10058001 2c000000", /* 2 */
        "10058001 30040000",                   /* 3 */
        "10000001 20100000 10058002 30040000", /* 4 */
        "10000007 20100000 50400005 50400004 50400003 50400002 50400001 20000000", /* 5 */
        "10000001 20100000 10058001 30040000 10050000", /* 6 */
        "10000001 20100000 10058001 40807000",          /* 7 */
    };
    static const char *const images[] = {"", "00", "001122 a1b2c3", "001122 a1b2c3d4 e5f6 70027172 80 9091"};
    for (size_t k = 0; k < COUNT_OF(descriptions); k++) {
        set_meter(descriptions[k], ITS_IMAGE);
        for (size_t request = 0; request < COUNT_OF(good); request++)
            answers(good[request], "04");
        all_answer(faulty, COUNT_OF(faulty));
    }
    for (size_t k = 0; k < COUNT_OF(images); k++) {
        set_meter(METER, images[k]);
        for (size_t request = 0; request < COUNT_OF(good); request++)
            answers(good[request], "04");
        all_answer(faulty, COUNT_OF(faulty));
    }
    set_meter("", "");
    answers("30 0000", "04");
    answers("", "01");
    answers("29", "02");
    set_meter(METER, ITS_IMAGE);
    add_data(&image, LONGEST - 19);
    answers("30 0005", "00 0004 a1b2c3d4 16");
    writes("4f 0005 000003 0001 5e a2", 6, "5e");
    add_octet(&image, 0);
    answers("30 0005", "04");
    answers("4f 0005 000003 0001 5e a2", "04");
    answers("4f 0005 000003 0001 5e a1", "01");
    answers("05", "02");
}

/* What was written is there for the next request, and nothing else is kept. */
static void one_after_another(void)
{
    set_meter(METER, ITS_IMAGE);
    for (int turn = 0; turn < 3; turn++) {
        answers("30 0005", "00 0004 a1b2c3d4 16");
        writes("4f 0005 000001 0002 5566 45", 4, "5566");
        copy_octets(&image, &image_later);
        answers("30 0005", "00 0004 a15566d4 d0"); /* 230 */
        answers("4f 0005 000001 0002 b2c3 8c", "01");
        answers("30 0005", "00 0004 a15566d4 d0");
        writes("40 0005 0004 a1b2c3d4 16", 3, "a1b2c3d4");
        copy_octets(&image, &image_later);
    }
    static struct octets at_first;
    set_hex(&at_first, ITS_IMAGE);
    CHECK(same_octets(&image, &at_first));
}

static void expect_long(const char *before, size_t count, uint8_t check_octet)
{
    set_long(&expected, before, count, check_octet);
    expected_none = false;
}

/* The longest reply, and the longest request, which no table can grant: it would write the whole image,
 * and so DATA_ORDER too. */
static void longest_serves(void)
{
    asked = "a long reply";
    set_hex(&description, "10000012 20100000" BLOCKS);
    set_length(&image, 0);
    add_data(&image, LONGEST);
    expect_long("00 ffff", LONGEST, LONGEST_CHECK);
    CHECK(expected.length == 65539);
    set_hex(&message, "30 0000");
    serve_without_change();
    set_hex(&message, "3f 0000 000000 ffff");
    serve_without_change();
    expect_long("00 fffe", SHORTER, SHORTER_CHECK);
    set_hex(&message, "3f 0000 000000 fffe");
    serve_without_change();
    answers("3f 0000 000001 ffff", "04");
    answers("3f 0000 00ffff 0000", "00 0000 00");
    answers("3f 0000 010000 0000", "04");
    asked = "a long request";
    for (int is_writable = 0; is_writable < 2; is_writable++) {
        set_hex(&description, is_writable ? "10008012 20100000" BLOCKS : "10000012 20100000" BLOCKS);
        expect(is_writable ? "04" : "03");
        set_long(&message, "4f 0000 000000 ffff", LONGEST, LONGEST_CHECK);
        CHECK(message.length == 65544);
        serve_without_change();
        set_long(&message, "40 0000 ffff", LONGEST, LONGEST_CHECK);
        CHECK(message.length == 65541);
        serve_without_change();
        expect("04");
        set_long(&message, "4f 0000 000001 ffff", LONGEST, LONGEST_CHECK);
        serve_without_change();
        expect("01");
        set_long(&message, "4f 0000 000000 ffff", LONGEST, LONGEST_CHECK - 1);
        serve_without_change();
        set_long(&message, "4f 0000 000000 ffff", LONGEST + 1, 0);
        serve_without_change();
        add_data(&message, 60000);
        serve_without_change();
    }
}

/* The longest write that is good: all but DATA_ORDER, 65,534 octets. */
static void longest_writes(void)
{
    static struct octets written;
    set_hex(&description, "10000001 20100000 10058011" BLOCKS);
    set_length(&image, 0);
    for (size_t k = 0; k < LONGEST; k++)
        add_octet(&image, (uint8_t)k);
    set_hex(&written, "00");
    add_data(&written, SHORTER);
    asked = "a long write";
    expect("00");
    copy_octets(&image_later, &written);
    set_long(&message, "40 0005 fffe", SHORTER, SHORTER_CHECK);
    in_rooms(call_serve);
    set_long(&message, "4f 0005 000000 fffe", SHORTER, SHORTER_CHECK);
    in_rooms(call_serve);
    expect("04");
    set_long(&message, "40 0005 ffff", LONGEST, LONGEST_CHECK);
    serve_without_change();
    set_long(&message, "4f 0005 000000 ffff", LONGEST, LONGEST_CHECK);
    serve_without_change();
}

/* ----------------------------------------------------------------------- requests read, requests written */

static void reads_request(struct bilashonge_request request)
{
    for (enum way way = 0; way < WAYS; way++) {
        const uint8_t *lent = lend_to_read(MESSAGE, way, &message);
        struct bilashonge_request told = bilashonge_read_request(lent, message.length);
        CHECK(told.code == request.code);
        CHECK(told.kind == request.kind);
        CHECK(told.id == request.id);
        CHECK(told.offset == request.offset);
        CHECK(told.count == request.count);
        CHECK(told.start == request.start);
        take(MESSAGE, way, &message);
    }
}

/* Refused by that octet, and nothing else is told. */
static void reads_no_request(uint64_t code)
{
    struct bilashonge_request request = {code, 0, 0, 0, 0, 0};
    reads_request(request);
}

/* The request that is to be written; its data stand in `data`. */
static struct bilashonge_request to_write;

static void call_write_request(enum way way, size_t room_length)
{
    const uint8_t *lent_data = lend_to_read(DATA, way, &data);
    uint8_t *lent_room = lend_room(way, room_length);
    struct bilashonge_total total =
        bilashonge_write_request(to_write.kind, to_write.id, to_write.offset, to_write.count, lent_data,
                                 data.length, lent_room, room_length);
    take_room(way, total);
    take(DATA, way, &data);
}

static void set_to_write(uint64_t kind, uint64_t id, uint64_t offset, uint64_t count)
{
    struct bilashonge_request request = {0, kind, id, offset, count, 0};
    to_write = request;
}

/* The data that are set and those numbers make that request. */
static void writes_request(uint64_t kind, uint64_t id, uint64_t offset, uint64_t count, const char *request)
{
    asked = request;
    set_to_write(kind, id, offset, count);
    expect(request);
    in_rooms(call_write_request);
}

static void writes_no_request(uint64_t kind, uint64_t id, uint64_t offset, uint64_t count)
{
    asked = "a request that can't be written";
    set_to_write(kind, id, offset, count);
    expected_none = true;
    in_rooms(call_write_request);
}

/* Each is read as those numbers, and they are written as it. */
static const struct {
    const char *octets;
    struct bilashonge_request request;
} requests[] = {
    {"30 0000", {0, 0x30, 0, 0, 0, 0}},
    {"30 0005", {0, 0x30, 5, 0, 0, 0}},
    {"30 0100", {0, 0x30, 256, 0, 0, 0}},
    {"30 0fff", {0, 0x30, 4095, 0, 0, 0}},
    {"30 1000", {0, 0x30, 4096, 0, 0, 0}},
    {"30 ffff", {0, 0x30, 65535, 0, 0, 0}},
    {"3f 0000 000000 0000", {0, 0x3f, 0, 0, 0, 0}},
    {"3f 0102 030405 0607", {0, 0x3f, 258, 197637, 1543, 0}},
    {"3f 0000 000001 0000", {0, 0x3f, 0, 1, 0, 0}},
    {"3f 0000 000000 0001", {0, 0x3f, 0, 0, 1, 0}},
    {"3f ffff ffffff ffff", {0, 0x3f, 65535, 16777215, 65535, 0}},
    {"40 0000 0000 00", {0, 0x40, 0, 0, 0, 5}},
    {"40 0102 0001 03 fd", {0, 0x40, 258, 0, 1, 5}},
    {"40 0005 0002 8080 00", {0, 0x40, 5, 0, 2, 5}},
    {"40 ffff 0003 ffffff 03", {0, 0x40, 65535, 0, 3, 5}},
    {"4f 0000 000000 0000 00", {0, 0x4f, 0, 0, 0, 8}},
    {"4f 0102 030405 0001 06 fa", {0, 0x4f, 258, 197637, 1, 8}},
    {"4f 0005 000001 0002 5566 45", {0, 0x4f, 5, 1, 2, 8}},
    {"4f ffff ffffff 0004 00000000 00", {0, 0x4f, 65535, 16777215, 4, 8}},
};

/* A request's data: none of a read. */
static void set_data_of(const struct bilashonge_request *request)
{
    set_length(&data, 0);
    for (uint64_t k = 0; request->start != 0 && k < request->count; k++)
        add_octet(&data, message.at[request->start + k]);
}

static void requests_read_and_written(void)
{
    for (size_t k = 0; k < COUNT_OF(requests); k++) {
        const struct bilashonge_request *request = &requests[k].request;
        set_hex(&message, requests[k].octets);
        asked = requests[k].octets;
        reads_request(*request);
        set_data_of(request);
        writes_request(request->kind, request->id, request->offset, request->count, requests[k].octets);
        /* Cut anywhere, or longer, it can't be read. */
        for (size_t length = message.length; length-- != 0;) {
            set_length(&message, length);
            reads_no_request(1);
        }
        set_hex(&message, requests[k].octets);
        for (unsigned more = 0; more < 20; more++) {
            add_octet(&message, 0);
            reads_no_request(1);
        }
    }
}

/* What is wrong with a request is told whether it names a table or not. */
static void requests_that_cant_be_read(void)
{
    for (size_t k = 0; k < COUNT_OF(faulty); k++) {
        asked = faulty[k].request;
        set_hex(&message, faulty[k].request);
        reads_no_request(faulty[k].reply[1] - '0');
    }
    asked = "a first octet that is none of the four";
    for (unsigned first = 0; first < 256; first++)
        for (size_t k = 0; k < COUNT_OF(good); k++) {
            if (first == 0x30 || first == 0x3f || first == 0x40 || first == 0x4f)
                continue;
            set_hex(&message, good[k]);
            message.at[0] = (uint8_t)first;
            reads_no_request(2);
        }
    asked = "a check octet";
    for (unsigned x = 0; x < 256; x++) {
        static const struct bilashonge_request right = {0, 0x4f, 5, 1, 2, 8};
        set_hex(&message, "4f 0005 000001 0002 5566 45");
        message.at[message.length - 1] = (uint8_t)x;
        if (x == 0x45)
            reads_request(right);
        else
            reads_no_request(1);
    }
}

/* What a form lacks isn't looked at: data and count of a full read, data of an offset read, the offset of
 * a full write, and the count of both writes, which is that of the data. */
static void what_a_form_lacks(void)
{
    static const uint64_t any[] = {0, 1, 3, 65536, 16777216, UINT64_MAX};
    for (size_t k = 0; k < COUNT_OF(any); k++) {
        set_hex(&data, "010203");
        writes_request(0x30, 5, any[k], any[COUNT_OF(any) - 1 - k], "30 0005");
        writes_request(0x3f, 5, 258, 772, "3f 0005 000102 0304");
        writes_request(0x40, 5, any[k], any[COUNT_OF(any) - 1 - k], "40 0005 0003 010203 fa");
        writes_request(0x4f, 5, 258, any[k], "4f 0005 000102 0003 010203 fa");
        set_length(&data, 0);
        writes_request(0x40, 5, any[k], any[k], "40 0005 0000 00");
        writes_request(0x4f, 5, 0, any[k], "4f 0005 000000 0000 00");
        add_data(&data, LONGEST + 1);
        writes_request(0x30, 5, any[k], any[k], "30 0005");
        writes_request(0x3f, 5, 0, 0, "3f 0005 000000 0000");
    }
}

/* Numbers that just fit their fields and that don't, among them those that would if they were cut. */
static void fields_of_requests(void)
{
    static const uint64_t kinds[] = {0x30, 0x3f, 0x40, 0x4f};
    static const uint64_t ids[] = {65536, 65541, 16777216, 4294967301, UINT64_MAX};
    static const uint64_t offsets[] = {16777216, 16777217, 4294967296, UINT64_MAX};
    static const uint64_t counts[] = {65536, 65537, 16777216, 4294967297, UINT64_MAX};
    set_hex(&data, "01");
    for (size_t k = 0; k < COUNT_OF(ids); k++)
        for (size_t kind = 0; kind < COUNT_OF(kinds); kind++)
            writes_no_request(kinds[kind], ids[k], 0, 1);
    for (size_t k = 0; k < COUNT_OF(offsets); k++) {
        writes_no_request(0x3f, 5, offsets[k], 1);
        writes_no_request(0x4f, 5, offsets[k], 1);
    }
    for (size_t k = 0; k < COUNT_OF(counts); k++)
        writes_no_request(0x3f, 5, 0, counts[k]);
    writes_no_request(0x3f, 65536, 16777216, 65536);
    writes_request(0x4f, 65535, 16777215, 0, "4f ffff ffffff 0001 01 ff");
    writes_request(0x40, 65535, 16777216, 0, "40 ffff 0001 01 ff");
}

/* Every kind but the four is none. */
static void kinds_of_requests(void)
{
    static const uint64_t others[] = {0x130, 0x13f, 0x140,      0x14f,
                                      65584, 65599, 4294967344, UINT64_MAX};
    set_hex(&data, "01");
    for (uint64_t kind = 0; kind < 256; kind++)
        if (kind != 0x30 && kind != 0x3f && kind != 0x40 && kind != 0x4f)
            writes_no_request(kind, 5, 0, 1);
    for (size_t k = 0; k < COUNT_OF(others); k++)
        writes_no_request(others[k], 5, 0, 1);
    set_length(&data, 0);
    writes_no_request(0, 0, 0, 0);
}

static void longest_requests(void)
{
    static const struct bilashonge_request full = {0, 0x40, 65535, 0, 65535, 5};
    static const struct bilashonge_request offset = {0, 0x4f, 258, 16777215, 65535, 8};
    asked = "a long request";
    set_long(&message, "40 ffff ffff", LONGEST, LONGEST_CHECK);
    CHECK(message.length == 65541);
    reads_request(full);
    set_data_of(&full);
    set_to_write(0x40, 65535, 7, 7);
    copy_octets(&expected, &message);
    expected_none = false;
    in_rooms(call_write_request);
    set_long(&message, "4f 0102 ffffff ffff", LONGEST, LONGEST_CHECK);
    CHECK(message.length == 65544);
    reads_request(offset);
    set_to_write(0x4f, 258, 16777215, 7);
    copy_octets(&expected, &message);
    in_rooms(call_write_request);
    message.at[message.length - 1]++;
    reads_no_request(1);
    set_long(&message, "4f 0102 ffffff ffff", LONGEST + 1, 0);
    reads_no_request(1);
    set_long(&message, "40 0102 0000", LONGEST + 1, 0);
    reads_no_request(1);
    add_octet(&data, 0x5e);
    writes_no_request(0x40, 5, 0, 0);
    writes_no_request(0x4f, 5, 0, 0);
    writes_no_request(0x4f, 5, 0, 1);
}

/* -------------------------------------------------------------------------- replies read, replies written */

static void reads_reply_as(uint64_t refusal, uint64_t kind, uint64_t code, uint64_t count, uint64_t start)
{
    for (enum way way = 0; way < WAYS; way++) {
        const uint8_t *lent = lend_to_read(MESSAGE, way, &message);
        struct bilashonge_reply told = bilashonge_read_reply(lent, message.length);
        CHECK(told.refusal.number == refusal);
        CHECK(told.refusal.item == 0 && told.refusal.octet == 0 && told.refusal.depth == 0);
        CHECK(told.kind == kind);
        CHECK(told.code == code);
        CHECK(told.count == count);
        CHECK(told.start == start);
        take(MESSAGE, way, &message);
    }
}

static void reads_no_reply(void)
{
    reads_reply_as(43, 0, 0, 0, 0);
}

/* The reply that is to be written. */
static uint64_t reply_kind, reply_code;

static void call_write_reply(enum way way, size_t room_length)
{
    const uint8_t *lent_data = lend_to_read(DATA, way, &data);
    uint8_t *lent_room = lend_room(way, room_length);
    struct bilashonge_total total =
        bilashonge_write_reply(reply_kind, reply_code, lent_data, data.length, lent_room, room_length);
    take_room(way, total);
    take(DATA, way, &data);
}

/* The data that are set and those numbers make that reply. */
static void writes_reply(uint64_t kind, uint64_t code, const char *reply)
{
    asked = reply;
    reply_kind = kind;
    reply_code = code;
    expect(reply);
    in_rooms(call_write_reply);
}

static void writes_no_reply(uint64_t kind, uint64_t code)
{
    asked = "a reply that can't be written";
    reply_kind = kind;
    reply_code = code;
    expected_none = true;
    in_rooms(call_write_reply);
}

static void replies_read_and_written(void)
{
    static const struct {
        const char *octets;
        uint64_t kind, code, count;
    } replies[] = {
        {"00", 2, 0, 0},
        {"01", 3, 1, 0},
        {"02", 3, 2, 0},
        {"03", 3, 3, 0},
        {"04", 3, 4, 0},
        {"00 0000 00", 1, 0, 0},
        {"00 0001 00 00", 1, 0, 1},
        {"00 0001 80 80", 1, 0, 1},
        {"00 0002 8080 00", 1, 0, 2},
        {"00 0003 010203 fa", 1, 0, 3},
        {"00 0004 a1b2c3d4 16", 1, 0, 4},
        {"00 0004 ffffffff 04", 1, 0, 4},
    };
    for (size_t k = 0; k < COUNT_OF(replies); k++) {
        asked = replies[k].octets;
        set_hex(&message, replies[k].octets);
        reads_reply_as(0, replies[k].kind, replies[k].code, replies[k].count, replies[k].kind == 1 ? 3 : 0);
        set_length(&data, 0);
        for (size_t octet = 0; octet < replies[k].count; octet++)
            add_octet(&data, message.at[3 + octet]);
        writes_reply(replies[k].kind, replies[k].code, replies[k].octets);
        /* Cut anywhere it is none, but that 00 is left of one of data; and longer it is none, but what begins
         * as one of no data does. */
        for (size_t length = message.length; length-- != 0;) {
            set_length(&message, length);
            if (length == 1)
                reads_reply_as(0, 2, 0, 0, 0);
            else
                reads_no_reply();
        }
        set_hex(&message, replies[k].octets);
        for (unsigned more = 1; more < 20; more++) {
            add_octet(&message, 0);
            if (replies[k].kind == 2 && more == 3)
                reads_reply_as(0, 1, 0, 0, 3);
            else
                reads_no_reply();
        }
    }
}

static void replies_that_cant_be_read(void)
{
    static const char *const octets[] = {
        "", "00 00", "00 0000", "00 0000 01", "00 0000 ff", "00 0001 00", "00 0001 80 7f", "00 0001 80 81",
        "00 0001 80 7e", /* over the count too */
        "00 0003 010203 06", "00 0003 010203 f9", "00 0003 010203 fb", "00 0003 010203 f7",
        "00 0002 010203 fa", "00 0004 010203 fa", "00 0300 010203 fa", "01 0003 010203 fa", "01 0000 00",
        "01 01", "04 00", "05", "05 0000 00", "30 0005", "80 0000 00", "ff",
    };
    for (size_t k = 0; k < COUNT_OF(octets); k++) {
        asked = octets[k];
        set_hex(&message, octets[k]);
        reads_no_reply();
    }
    asked = "a reply of one octet";
    for (unsigned x = 0; x < 256; x++) {
        set_length(&message, 0);
        add_octet(&message, (uint8_t)x);
        if (x == 0)
            reads_reply_as(0, 2, 0, 0, 0);
        else if (x <= 4)
            reads_reply_as(0, 3, x, 0, 0);
        else
            reads_no_reply();
    }
    asked = "a check octet, a first octet";
    for (unsigned x = 0; x < 256; x++) {
        set_hex(&message, "00 0003 010203 fa");
        message.at[6] = (uint8_t)x;
        if (x == 0xfa)
            reads_reply_as(0, 1, 0, 3, 3);
        else
            reads_no_reply();
        set_hex(&message, "00 0003 010203 fa");
        message.at[0] = (uint8_t)x;
        if (x == 0)
            reads_reply_as(0, 1, 0, 3, 3);
        else
            reads_no_reply();
    }
}

/* A code is looked at in a refusal alone, and data in a reply to a read alone. */
static void what_a_reply_lacks(void)
{
    static const uint64_t any[] = {0, 1, 4, 5, 256, UINT64_MAX};
    for (size_t k = 0; k < COUNT_OF(any); k++) {
        set_hex(&data, "010203");
        writes_reply(1, any[k], "00 0003 010203 fa");
        writes_reply(2, any[k], "00");
        set_length(&data, 0);
        writes_reply(1, any[k], "00 0000 00");
        writes_reply(2, any[k], "00");
        add_data(&data, LONGEST + 1);
        writes_reply(2, any[k], "00");
    }
    writes_reply(3, 3, "03");
    set_hex(&data, "010203");
    writes_reply(3, 1, "01");
    writes_reply(3, 4, "04");
}

/* Codes but 1 to 4, and kinds but 1 to 3. */
static void codes_and_kinds_of_replies(void)
{
    static const uint64_t codes[] = {0, 5, 6, 43, 255, 256, 257, 260, 65537, 4294967297, UINT64_MAX};
    static const uint64_t kinds[] = {0, 4, 5, 48, 255, 256, 257, 258, 259, 65537, 4294967297, UINT64_MAX};
    for (int has_data = 0; has_data < 2; has_data++) {
        set_hex(&data, has_data ? "010203" : "");
        for (size_t k = 0; k < COUNT_OF(codes); k++)
            writes_no_reply(3, codes[k]);
        for (size_t k = 0; k < COUNT_OF(kinds); k++) {
            writes_no_reply(kinds[k], 0);
            writes_no_reply(kinds[k], 1);
        }
    }
}

static void longest_replies(void)
{
    asked = "a long reply";
    set_long(&message, "00 ffff", LONGEST, LONGEST_CHECK);
    CHECK(message.length == 65539);
    reads_reply_as(0, 1, 0, 65535, 3);
    set_length(&data, 0);
    add_data(&data, LONGEST);
    reply_kind = 1;
    reply_code = 7;
    expect_long("00 ffff", LONGEST, LONGEST_CHECK);
    in_rooms(call_write_reply);
    add_octet(&data, 0x5e);
    writes_no_reply(1, 0);
    message.at[message.length - 1]--;
    reads_no_reply();
    set_long(&message, "00 ffff", LONGEST + 1, 0);
    reads_no_reply();
    set_long(&message, "00 0000", LONGEST + 1, 0);
    reads_no_reply();
    add_data(&message, 60000);
    reads_no_reply();
}

int main(void)
{
    watch_touches();
    ranges();
    ranges_of_no_layout();
    longest_ranges();
    set_meter(METER, ITS_IMAGE);
    full_reads();
    offset_reads();
    full_writes();
    offset_writes();
    faulty_requests();
    unknown_requests();
    wrong_lengths();
    check_octets();
    other_data_order();
    meters_of_no_layout();
    one_after_another();
    longest_serves();
    longest_writes();
    requests_read_and_written();
    requests_that_cant_be_read();
    what_a_form_lacks();
    fields_of_requests();
    kinds_of_requests();
    longest_requests();
    replies_read_and_written();
    replies_that_cant_be_read();
    what_a_reply_lacks();
    codes_and_kinds_of_replies();
    longest_replies();
    printf("%u checks, %u failed\n", checks, failures);
    return failures == 0 ? 0 : 1;
}
