/*
 * Calls of the C interface with octets and replies written by hand: what the line language can't ask, document
 * 01's starred examples, and why there is no such element. There is more on messages in messages.c, and on
 * weekdays in weekdays.c. Prints how many checks there were; fails where one does.
 */
#include "bilashonge.h"

#include <stdbool.h>
#include <stdio.h>
#include <string.h>

static unsigned checks, failures;

static void check(bool met, const char *what, int line)
{
    checks++;
    if (!met) {
        failures++;
        fprintf(stderr, "calls.c:%d: not so: %s\n", line, what);
    }
}

#define CHECK(condition) check((condition), #condition, __LINE__)

/* An array and how many octets or subscripts it has, as the interface takes them. */
#define OCTETS(array) array, sizeof array
#define SUBSCRIPTS(array) array, sizeof array / sizeof array[0]
#define NONE NULL, 0

/* ----------------------------------------------------------------------------------- what is asked about */

/* D of document 01. Table 0: DATA_ORDER (slot 1) and an octet (slot 2). Table 5, writable: where bit
 * 7 of slot 2 is set, a BLOCK of 2 octets (item 5); then UINTs of 2 octets (item 7), as many as bits 0..2 of
 * slot 2 say. */
static const uint8_t D[] = {
    0x10, 0x00, 0x00, 0x02, 0x20, 0x10, 0x00, 0x00, 0x20, 0x20, 0x00, 0x00, 0x10, 0x05, 0x80, 0x04,
    0x60, 0x8e, 0x00, 0x40, 0x30, 0x02, 0x00, 0x00, 0x50, 0x80, 0x20, 0x01, 0x24, 0x00, 0x00, 0x00,
};
/* D with table 0 writable */
static const uint8_t D_writable[] = {
    0x10, 0x00, 0x80, 0x02, 0x20, 0x10, 0x00, 0x00, 0x20, 0x20, 0x00, 0x00, 0x10, 0x05, 0x80, 0x04,
    0x60, 0x8e, 0x00, 0x40, 0x30, 0x02, 0x00, 0x00, 0x50, 0x80, 0x20, 0x01, 0x24, 0x00, 0x00, 0x00,
};
/* D whose item 4 refers to slot 4, never set */
static const uint8_t D_unset[] = {
    0x10, 0x00, 0x00, 0x02, 0x20, 0x10, 0x00, 0x00, 0x20, 0x20, 0x00, 0x00, 0x10, 0x05, 0x80, 0x04,
    0x61, 0x00, 0x00, 0x40, 0x30, 0x02, 0x00, 0x00, 0x50, 0x80, 0x20, 0x01, 0x24, 0x00, 0x00, 0x00,
};
static const uint8_t first_image[] = {0x00, 0x82, 0xaa, 0xbb, 0x34, 0x12, 0x78, 0x56};
static const uint8_t second_image[] = {0x01, 0x02, 0x34, 0x12, 0x78, 0x56};
static const uint8_t bare_image[] = {0x00, 0x00};

/* Table 256, writable, with a BLOCK of one octet. Its item's first three octets are a full read of it. */
static const uint8_t asking_description[] = {
    0x10, 0x00, 0x00, 0x01, 0x20, 0x10, 0x00, 0x00, 0x11, 0x00, 0x80, 0x01, 0x30, 0x01, 0x00, 0x00,
};
static const uint8_t asking_image[] = {0x00, 0x5a};
static const uint8_t full_read[] = {0x30, 0x01, 0x00};
static const uint8_t its_reply[] = {0x00, 0x00, 0x01, 0x5a, 0xa6};

/* The starred calendar. Table 51 is a BLOCK of 9 octets and Table 54 one of 12. A record selects season 0
 * from 1 January 2024 on; each day of it has schedule 1, which switches at 00:00 to tier 0 and at 07:30 to
 * tier 2. */
static const uint8_t clock_description[] = {
    0x10, 0x00, 0x00, 0x01, 0x20, 0x10, 0x00, 0x00, 0x10, 0x33, 0x00, 0x01,
    0x30, 0x09, 0x00, 0x00, 0x10, 0x36, 0x00, 0x01, 0x30, 0x0c, 0x00, 0x00,
};
static const uint8_t clock_image[] = {
    0x00,                                                                   /* Table 00 */
    0x00, 0x00, 0x01, 0x01, 0x00, 0x02, 0x00, 0x00, 0x00,                   /* Table 51 */
    0x98, 0x08, 0x03, 0x00, 0x00, 0x01, 0xc2, 0x3b, 0x01, 0x01, 0x01, 0x01, /* Table 54 */
};

/* A new meter's calendar: the starred one without its record. Table 54 has 9 octets. */
static const uint8_t new_description[] = {
    0x10, 0x00, 0x00, 0x01, 0x20, 0x10, 0x00, 0x00, 0x10, 0x33, 0x00, 0x01,
    0x30, 0x09, 0x00, 0x00, 0x10, 0x36, 0x00, 0x01, 0x30, 0x09, 0x00, 0x00,
};
static const uint8_t new_image[] = {
    0x00,                                                 /* Table 00 */
    0x00, 0x00, 0x01, 0x00, 0x00, 0x02, 0x00, 0x00, 0x00, /* Table 51 */
    0x00, 0x00, 0x01, 0xc2, 0x3b, 0x01, 0x01, 0x01, 0x01, /* Table 54 */
};

/* No seasons, records or switches: Table 54 has no octets. */
static const uint8_t empty_description[] = {
    0x10, 0x00, 0x00, 0x01, 0x20, 0x10, 0x00, 0x00, 0x10, 0x33,
    0x00, 0x01, 0x30, 0x09, 0x00, 0x00, 0x10, 0x36, 0x00, 0x00,
};
static const uint8_t empty_image[10] = {0};

/* Two seasons, and a Table 54 of 15 octets. A record selects season 1 from 1 January 2024 on. Each day of
 * season 0 has schedule 1, which is tier 0 all day; each of season 1 has schedule 2, which is tier 5. */
static const uint8_t two_description[] = {
    0x10, 0x00, 0x00, 0x01, 0x20, 0x10, 0x00, 0x00, 0x10, 0x33, 0x00, 0x01,
    0x30, 0x09, 0x00, 0x00, 0x10, 0x36, 0x00, 0x01, 0x30, 0x0f, 0x00, 0x00,
};
static const uint8_t two_image[] = {
    0x00,                                                 /* Table 00 */
    0x00, 0x00, 0x02, 0x01, 0x00, 0x02, 0x00, 0x00, 0x00, /* Table 51 */
    0x98, 0x08, 0x04, 0x00, 0x00, 0x01, 0x05, 0x00, 0x02, /* Table 54 */
    0x01, 0x01, 0x01, 0x02, 0x02, 0x02,
};

/* Five records and no seasons: Table 54 is an anchor date, 1 January 2020, and the records, 17 octets. They
 * are a notice (action 31) on 1 March 2024, season 1 from 1 June 2024 on, season 0 from 1 May 2024 on, season
 * 0 from 29 February 2023 on, which is no real date, and special schedule 0 on 1 April 2024. Once with the
 * least significant octet first, once with it last. */
static const uint8_t dated_description[] = {
    0x10, 0x00, 0x00, 0x01, 0x20, 0x10, 0x00, 0x00, 0x10, 0x33, 0x00, 0x01,
    0x30, 0x09, 0x00, 0x00, 0x10, 0x36, 0x00, 0x01, 0x30, 0x11, 0x00, 0x00,
};
static const uint8_t dated_image[] = {
    0x00,                                                       /* Table 00 */
    0x20, 0x00, 0x00, 0x05, 0x00, 0x00, 0x00, 0x00, 0x00,       /* Table 51 */
    0x94, 0x08, 0x98, 0x09, 0x1f, 0x18, 0x0b, 0x04, 0x98, 0x0a, /* Table 54 */
    0x03, 0x17, 0xe9, 0x03, 0x18, 0x0a, 0x13,
};
static const uint8_t dated_image_turned[] = {
    0x01,                                                       /* Table 00 */
    0x20, 0x00, 0x00, 0x05, 0x00, 0x00, 0x00, 0x00, 0x00,       /* Table 51 */
    0x08, 0x94, 0x09, 0x98, 0x1f, 0x0b, 0x18, 0x04, 0x0a, 0x98, /* Table 54 */
    0x03, 0xe9, 0x17, 0x03, 0x0a, 0x18, 0x13,
};

/* Demands apart from summations, and a Table 54 of 18 octets. A record selects season 0 from 1 January
 * 2020 on; schedule 1 switches at 00:00 to tier 1 for both, at 06:00 to tier 2 for summations, at 07:00 to
 * tier 3 for demands, and at 08:00 to tier 4 for neither. */
static const uint8_t apart_description[] = {
    0x10, 0x00, 0x00, 0x01, 0x20, 0x10, 0x00, 0x00, 0x10, 0x33, 0x00, 0x01,
    0x30, 0x09, 0x00, 0x00, 0x10, 0x36, 0x00, 0x01, 0x30, 0x12, 0x00, 0x00,
};
static const uint8_t apart_image[] = {
    0x00,                                                                   /* Table 00 */
    0x00, 0x04, 0x01, 0x01, 0x00, 0x04, 0x00, 0x00, 0x00,                   /* Table 51 */
    0x94, 0x08, 0x03, 0x19, 0x00, 0x01, 0x0a, 0x30, 0x01, 0x13, 0x38, 0x01, /* Table 54 */
    0x04, 0x40, 0x01, 0x01, 0x01, 0x01,
};

/* Fifteen seasons and fifteen special schedules, weekdays apart, no dates and no switches: Table 54 is the
 * matrix alone, 330 octets. The image is made in `full_matrix`. */
static const uint8_t full_description[] = {
    0x10, 0x00, 0x00, 0x01, 0x20, 0x10, 0x00, 0x00, 0x10, 0x33, 0x00, 0x01,
    0x30, 0x09, 0x00, 0x00, 0x10, 0x36, 0x00, 0x01, 0x31, 0x4a, 0x00, 0x00,
};
static const uint8_t full_table51[] = {0x00, 0x02, 0xff, 0x00, 0x00, 0x00, 0x00, 0x00, 0x00};

/* Table 0, writable: DATA_ORDER, then a UINT of one octet (item 6) inside four ARRAYs. Each has as many
 * elements as bit 0 of DATA_ORDER's octet says. */
static const uint8_t deep_description[] = {
    0x10, 0x00, 0x80, 0x06, 0x20, 0x10, 0x00, 0x00, 0x50, 0x40, 0x00, 0x04, 0x50, 0x40,
    0x00, 0x03, 0x50, 0x40, 0x00, 0x02, 0x50, 0x40, 0x00, 0x01, 0x20, 0x00, 0x00, 0x00,
};
static const uint8_t deep_image[] = {0x01, 0xaa};

/* A maze. Table 5, not writable, has an ARRAY (item 4) of an IF (item 5). True, it has an ARRAY (item 6) of a
 * UINT of one octet (item 7) and a BLOCK of one (item 8); false, an ARRAY (item 9) of a SET (item 10), and
 * behind it a UINT of one octet (item 11). Of slot 2 bits 0 and 1 are the outer count and how many octets the
 * SET has, bit 2 decides the IF, and bits 3 and 4 are both inner counts. */
static const uint8_t maze_description[] = {
    0x10, 0x00, 0x00, 0x02, 0x20, 0x10, 0x00, 0x00, 0x20, 0x20, 0x00, 0x00, 0x10, 0x05, 0x00, 0x08,
    0x50, 0x80, 0x10, 0x07, 0x60, 0x84, 0x00, 0xc3, 0x50, 0x86, 0x10, 0x02, 0x20, 0x00, 0x00, 0x00,
    0x30, 0x01, 0x00, 0x00, 0x50, 0x86, 0x10, 0x01, 0x40, 0x80, 0x10, 0x00, 0x20, 0x00, 0x00, 0x00,
};
/* Which octet of it has the bits that say whether table 0 and table 5 are writable. */
enum { MAZE_TABLE_0 = 2, MAZE_TABLE_5 = 14 };
/* Twice the true branch, of two; twice the false branch, of two and two octets; none outside, which would be
 * true and of two; none inside the true branch, twice; none inside the false branch, twice. */
static const uint8_t maze_true[] = {0x00, 0x16, 0x70, 0x80, 0x71, 0x81, 0x72, 0x82, 0x73, 0x83};
static const uint8_t maze_false[] = {0x00, 0x12, 0xa0, 0xa1, 0xa2, 0xa3, 0xb0, 0xa4, 0xa5, 0xa6, 0xa7, 0xb1};
static const uint8_t maze_none[] = {0x00, 0x14};
static const uint8_t maze_true_none[] = {0x00, 0x06};
static const uint8_t maze_false_none[] = {0x00, 0x02, 0xb0, 0xb1};

/* Table 0, writable: DATA_ORDER, an octet (slot 2), and a UINT of one octet (item 7) inside an IF, an ARRAY, an
 * IF and an ARRAY, from the outside in. Bit k of slot 2 decides the k-th of them: whether the IF is true, and
 * how many the ARRAY has. */
static const uint8_t winding_description[] = {
    0x10, 0x00, 0x80, 0x07, 0x20, 0x10, 0x00, 0x00, 0x20, 0x20, 0x00, 0x00, 0x60, 0x80, 0x01, 0x00,
    0x50, 0x82, 0x00, 0x03, 0x60, 0x84, 0x00, 0x80, 0x50, 0x86, 0x00, 0x01, 0x20, 0x00, 0x00, 0x00,
};

/* Table 5 of the manufacturer, writable, with one UINT of two octets (item 3). */
static const uint8_t manufacturer_description[] = {
    0x10, 0x00, 0x00, 0x01, 0x20, 0x10, 0x00, 0x00, 0x18, 0x05, 0x80, 0x01, 0x24, 0x00, 0x00, 0x00,
};
static const uint8_t manufacturer_image[] = {0x00, 0x34, 0x12};

/* Table 0, writable: DATA_ORDER, an octet (slot 2), and a SET of as many octets as that says (item 3). */
static const uint8_t set_description[] = {
    0x10, 0x00, 0x80, 0x03, 0x20, 0x10, 0x00, 0x00, 0x20, 0x20, 0x00, 0x00, 0x40, 0x80, 0x70, 0x00,
};

typedef uint8_t cells_of_matrix[BILASHONGE_MATRIX_ROWS][BILASHONGE_MATRIX_COLUMNS];

static const size_t zero[] = {0};
static const size_t one[] = {1};

/* ------------------------------------------------------------------------------------------- comparisons */

static bool is_refusal(struct bilashonge_refusal refusal, uint64_t number, uint64_t item, uint64_t octet)
{
    return refusal.number == number && refusal.item == item && refusal.octet == octet && refusal.depth == 0;
}

/* Refused with a number and a depth. */
static bool refused_at(struct bilashonge_refusal refusal, uint64_t number, uint64_t depth)
{
    return refusal.number == number && refusal.item == 0 && refusal.octet == 0 && refusal.depth == depth;
}

/* Refused with nothing but a number. */
static bool refused(struct bilashonge_refusal refusal, uint64_t number)
{
    return refused_at(refusal, number, 0);
}

static bool answered(struct bilashonge_refusal refusal)
{
    return is_refusal(refusal, 0, 0, 0);
}

static bool is_total(struct bilashonge_total total, uint64_t value)
{
    return answered(total.refusal) && total.total == value;
}

static bool is_place(struct bilashonge_place place, uint64_t start, uint64_t length)
{
    return answered(place.refusal) && place.start == start && place.length == length;
}

static bool no_place_at(struct bilashonge_place place, uint64_t number, uint64_t depth)
{
    return refused_at(place.refusal, number, depth) && place.start == 0 && place.length == 0;
}

static bool no_place(struct bilashonge_place place, uint64_t number)
{
    return no_place_at(place, number, 0);
}

/* Nothing is told of a request but the octet that refuses it. */
static bool no_request(struct bilashonge_request request, uint64_t code)
{
    return request.code == code && request.kind == 0 && request.id == 0 && request.offset == 0
           && request.count == 0 && request.start == 0;
}

static bool is_reply(struct bilashonge_reply reply, uint64_t kind, uint64_t code, uint64_t count,
                     uint64_t start)
{
    return answered(reply.refusal) && reply.kind == kind && reply.code == code && reply.count == count
           && reply.start == start;
}

static bool no_reply(struct bilashonge_reply reply)
{
    return refused(reply.refusal, 43) && reply.kind == 0 && reply.code == 0 && reply.count == 0
           && reply.start == 0;
}

static bool no_message(struct bilashonge_total total)
{
    return refused(total.refusal, 21) && total.total == 0;
}

static bool is_number(struct bilashonge_number number, uint64_t value)
{
    return answered(number.refusal) && number.number == value;
}

static bool no_number_at(struct bilashonge_number number, uint64_t refusal, uint64_t depth)
{
    return refused_at(number.refusal, refusal, depth) && number.number == 0;
}

static bool no_number(struct bilashonge_number number, uint64_t refusal)
{
    return no_number_at(number, refusal, 0);
}

static bool is_tier(struct bilashonge_tier tier, uint64_t value)
{
    return answered(tier.refusal) && tier.none == 0 && tier.tier == value;
}

static bool no_tier(struct bilashonge_tier tier, uint64_t number)
{
    return refused(tier.refusal, number) && tier.none == 0 && tier.tier == 0;
}

static bool is_answer(struct bilashonge_answer answer, uint64_t yes)
{
    return answered(answer.refusal) && answer.yes == yes;
}

static bool no_answer(struct bilashonge_answer answer, uint64_t number)
{
    return refused(answer.refusal, number) && answer.yes == 0;
}

static bool is_weekday(struct bilashonge_weekday weekday, uint64_t value)
{
    return answered(weekday.refusal) && weekday.weekday == value;
}

static bool no_weekday(struct bilashonge_weekday weekday)
{
    return refused(weekday.refusal, 16) && weekday.weekday == 0;
}

#define SAME(array, other) (sizeof array == sizeof other && memcmp(array, other, sizeof array) == 0)

/* -------------------------------------------------------------------------------------------- the header */

static void structs(void)
{
    CHECK(sizeof(struct bilashonge_refusal) == 32);
    CHECK(offsetof(struct bilashonge_refusal, number) == 0);
    CHECK(offsetof(struct bilashonge_refusal, item) == 8);
    CHECK(offsetof(struct bilashonge_refusal, octet) == 16);
    CHECK(offsetof(struct bilashonge_refusal, depth) == 24);
    CHECK(sizeof(struct bilashonge_total) == 40);
    CHECK(offsetof(struct bilashonge_total, refusal) == 0);
    CHECK(offsetof(struct bilashonge_total, total) == 32);
    CHECK(sizeof(struct bilashonge_place) == 48);
    CHECK(offsetof(struct bilashonge_place, refusal) == 0);
    CHECK(offsetof(struct bilashonge_place, start) == 32);
    CHECK(offsetof(struct bilashonge_place, length) == 40);
    CHECK(sizeof(struct bilashonge_number) == 40);
    CHECK(offsetof(struct bilashonge_number, refusal) == 0);
    CHECK(offsetof(struct bilashonge_number, number) == 32);
    CHECK(sizeof(struct bilashonge_tier) == 48);
    CHECK(offsetof(struct bilashonge_tier, refusal) == 0);
    CHECK(offsetof(struct bilashonge_tier, none) == 32);
    CHECK(offsetof(struct bilashonge_tier, tier) == 40);
    CHECK(sizeof(struct bilashonge_answer) == 40);
    CHECK(offsetof(struct bilashonge_answer, refusal) == 0);
    CHECK(offsetof(struct bilashonge_answer, yes) == 32);
    CHECK(sizeof(struct bilashonge_weekday) == 40);
    CHECK(offsetof(struct bilashonge_weekday, refusal) == 0);
    CHECK(offsetof(struct bilashonge_weekday, weekday) == 32);
    CHECK(sizeof(struct bilashonge_request) == 48);
    CHECK(offsetof(struct bilashonge_request, code) == 0);
    CHECK(offsetof(struct bilashonge_request, kind) == 8);
    CHECK(offsetof(struct bilashonge_request, id) == 16);
    CHECK(offsetof(struct bilashonge_request, offset) == 24);
    CHECK(offsetof(struct bilashonge_request, count) == 32);
    CHECK(offsetof(struct bilashonge_request, start) == 40);
    CHECK(sizeof(struct bilashonge_reply) == 64);
    CHECK(offsetof(struct bilashonge_reply, refusal) == 0);
    CHECK(offsetof(struct bilashonge_reply, kind) == 32);
    CHECK(offsetof(struct bilashonge_reply, code) == 40);
    CHECK(offsetof(struct bilashonge_reply, count) == 48);
    CHECK(offsetof(struct bilashonge_reply, start) == 56);
}

static void enums(void)
{
    CHECK(BILASHONGE_ANSWERED == 0);
    CHECK(BILASHONGE_DESCRIPTION_LENGTH == 1);
    CHECK(BILASHONGE_MALFORMED_ITEM == 2);
    CHECK(BILASHONGE_MISPLACED_ITEM == 3);
    CHECK(BILASHONGE_BODY_OVERRUNS == 4);
    CHECK(BILASHONGE_FIFTH_LEVEL == 5);
    CHECK(BILASHONGE_GIVEN_TWICE == 6);
    CHECK(BILASHONGE_BAD_REFERENCE == 7);
    CHECK(BILASHONGE_IMAGE_TOO_LONG == 8);
    CHECK(BILASHONGE_IMAGE_SHORT == 9);
    CHECK(BILASHONGE_NO_TABLE == 10);
    CHECK(BILASHONGE_RESERVED_11 == 11);
    CHECK(BILASHONGE_OUTSIDE_TABLE == 12);
    CHECK(BILASHONGE_NOT_WRITABLE == 13);
    CHECK(BILASHONGE_HOLDS_DIMENSION == 14);
    CHECK(BILASHONGE_WRONG_SIZE == 15);
    CHECK(BILASHONGE_NOT_A_DATE == 16);
    CHECK(BILASHONGE_RESERVED_17 == 17);
    CHECK(BILASHONGE_SEASON_CHANGE_ARMED == 18);
    CHECK(BILASHONGE_NO_ROW_OR_COLUMN == 19);
    CHECK(BILASHONGE_NOT_A_CALENDAR == 20);
    CHECK(BILASHONGE_NO_ROOM == 21);
    CHECK(BILASHONGE_NOT_AN_ELEMENT == 22);
    CHECK(BILASHONGE_BRANCH_NOT_CHOSEN == 23);
    CHECK(BILASHONGE_SUBSCRIPT_COUNT == 24);
    CHECK(BILASHONGE_SUBSCRIPT_TOO_LARGE == 25);
    CHECK(BILASHONGE_NOT_A_NUMBER == 26);
    CHECK(BILASHONGE_NOT_A_REPLY == 43);
    CHECK(BILASHONGE_FULL_READ == 48);
    CHECK(BILASHONGE_OFFSET_READ == 63);
    CHECK(BILASHONGE_FULL_WRITE == 64);
    CHECK(BILASHONGE_OFFSET_WRITE == 79);
    CHECK(BILASHONGE_REPLY_DATA == 1);
    CHECK(BILASHONGE_REPLY_DONE == 2);
    CHECK(BILASHONGE_REPLY_REFUSED == 3);
    CHECK(BILASHONGE_SUMMATIONS == 0);
    CHECK(BILASHONGE_DEMANDS == 1);
    CHECK(BILASHONGE_MATRIX_ROWS == 15);
    CHECK(BILASHONGE_MATRIX_COLUMNS == 22);
}

/* ---------------------------------------------------------------------------------- the starred examples */

static void starred_reads(void)
{
    CHECK(answered(bilashonge_check(OCTETS(D))));
    CHECK(is_refusal(bilashonge_check(OCTETS(D_unset)), 7, 4, 0));

    CHECK(is_total(bilashonge_layout(OCTETS(D), OCTETS(first_image)), 8));
    CHECK(is_place(bilashonge_table_place(OCTETS(D), OCTETS(first_image), 0, 5), 2, 6));
    CHECK(is_number(bilashonge_element_number(OCTETS(D), OCTETS(first_image), 7, SUBSCRIPTS(one)), 0x5678));

    CHECK(is_total(bilashonge_layout(OCTETS(D), OCTETS(second_image)), 6));
    CHECK(is_number(bilashonge_element_number(OCTETS(D), OCTETS(second_image), 7, SUBSCRIPTS(zero)),
                    0x3412));
    CHECK(no_place(bilashonge_element_place(OCTETS(D), OCTETS(second_image), 5, NONE), 23));

    struct bilashonge_total cut = bilashonge_layout(OCTETS(D), first_image, 7);
    CHECK(is_refusal(cut.refusal, 9, 6, 4) && cut.total == 0);
    struct bilashonge_total empty = bilashonge_layout(OCTETS(D), first_image, 0);
    CHECK(is_refusal(empty.refusal, 9, 1, 0) && empty.total == 0);

    CHECK(is_total(bilashonge_layout(OCTETS(D), OCTETS(bare_image)), 2));
    CHECK(is_place(bilashonge_table_place(OCTETS(D), OCTETS(bare_image), 0, 5), 2, 0));
    static const size_t some[] = {0, 1, 2, 255, 65535, 4294967296, SIZE_MAX};
    for (size_t k = 0; k < sizeof some / sizeof some[0]; k++)
        CHECK(no_place_at(bilashonge_element_place(OCTETS(D), OCTETS(bare_image), 7, &some[k], 1), 25, 0));
}

static void starred_writes(void)
{
    uint8_t image[sizeof first_image];
    memcpy(image, first_image, sizeof image);
    for (unsigned x = 0; x < 256; x++) {
        const uint8_t data[] = {(uint8_t)x};
        CHECK(refused(bilashonge_write_range(OCTETS(D), OCTETS(image), 0, 0, 1, OCTETS(data)), 13));
        CHECK(refused(bilashonge_write_range(OCTETS(D_writable), OCTETS(image), 0, 0, 1, OCTETS(data)),
                      14));
        CHECK(refused(bilashonge_write_range(OCTETS(D), OCTETS(image), 0, 5, 6, OCTETS(data)), 12));
        CHECK(answered(bilashonge_write_range(OCTETS(D), OCTETS(image), 0, 5, 6, data, 0)));
        CHECK(SAME(image, first_image));
    }
}

/* The days before the record are in season 0 as well, so they have its schedule: document 02. */
static void starred_tiers(void)
{
    for (uint32_t quantity = 0; quantity < 2; quantity++) {
        CHECK(is_tier(bilashonge_tier_at(OCTETS(clock_description), OCTETS(clock_image), 2024, 3, 5, 7, 30,
                                         quantity), 2));
        CHECK(is_tier(bilashonge_tier_at(OCTETS(clock_description), OCTETS(clock_image), 2024, 3, 5, 7, 29,
                                         quantity), 0));
        CHECK(is_tier(bilashonge_tier_at(OCTETS(clock_description), OCTETS(clock_image), 2023, 12, 31, 0, 0,
                                         quantity), 0));
        CHECK(is_tier(bilashonge_tier_at(OCTETS(clock_description), OCTETS(clock_image), 2023, 12, 31, 7,
                                         29, quantity), 0));
        CHECK(is_tier(bilashonge_tier_at(OCTETS(clock_description), OCTETS(clock_image), 2023, 12, 31, 7,
                                         30, quantity), 2));
    }
}

/* ------------------------------------------------------------------ what the line language can't ask for */

/* Four zeros name the element inside four ARRAYs. Fewer name none, nor do five or more. */
static void many_subscripts(void)
{
    static const size_t zeros[100] = {0};
    static const uint8_t data[] = {0xbb}, after[] = {0x01, 0xbb};
    uint8_t image[sizeof deep_image];
    memcpy(image, deep_image, sizeof image);
    for (size_t count = 0; count <= 100; count++) {
        if (count == 4)
            continue;
        CHECK(no_place(bilashonge_element_place(OCTETS(deep_description), OCTETS(image), 6, zeros, count),
                       24));
        CHECK(no_number(bilashonge_element_number(OCTETS(deep_description), OCTETS(image), 6, zeros,
                                                  count), 24));
        CHECK(refused(bilashonge_write_octets(OCTETS(deep_description), OCTETS(image), 6, zeros, count,
                                              OCTETS(data)), 24));
        CHECK(refused(bilashonge_write_number(OCTETS(deep_description), OCTETS(image), 6, zeros, count,
                                              0xbb), 24));
        CHECK(SAME(image, deep_image));
    }
    CHECK(is_place(bilashonge_element_place(OCTETS(deep_description), OCTETS(image), 6, zeros, 4), 1, 1));
    CHECK(is_number(bilashonge_element_number(OCTETS(deep_description), OCTETS(image), 6, zeros, 4), 0xaa));
    CHECK(answered(bilashonge_write_number(OCTETS(deep_description), OCTETS(image), 6, zeros, 4, 0xbb)));
    CHECK(SAME(image, after));
    static const size_t one_and_zeros[] = {1, 0, 0, 0, 0};
    CHECK(no_place(bilashonge_element_place(OCTETS(D), OCTETS(first_image), 7, SUBSCRIPTS(one_and_zeros)),
                   24));
}

/* 0 is a table of the standard, 1 one of the manufacturer; a number past 2^11 or 2^16 is no other table. */
static void table_names(void)
{
    static const uint32_t others[] = {2, 3, 7, 256, 257, 65537, 0x80000001, UINT32_MAX};
    static const uint32_t numbers[] = {4, 6, 5 + 256, 5 + 2048, 5 + 65536, 0x80000005, UINT32_MAX};
    static const uint8_t data[] = {0xcc}, after[] = {0x00, 0xcc, 0x12};
    uint8_t image[sizeof manufacturer_image];
    memcpy(image, manufacturer_image, sizeof image);
#define THAT_METER OCTETS(manufacturer_description), OCTETS(image)
    CHECK(is_place(bilashonge_table_place(THAT_METER, 1, 5), 1, 2));
    CHECK(no_place(bilashonge_table_place(THAT_METER, 0, 5), 10));
    CHECK(refused(bilashonge_write_range(THAT_METER, 0, 5, 0, OCTETS(data)), 10));
    for (size_t k = 0; k < sizeof others / sizeof others[0]; k++) {
        CHECK(no_place(bilashonge_table_place(THAT_METER, others[k], 5), 10));
        CHECK(no_place(bilashonge_table_place(THAT_METER, others[k], 0), 10));
        CHECK(refused(bilashonge_write_range(THAT_METER, others[k], 5, 0, OCTETS(data)), 10));
    }
    for (size_t k = 0; k < sizeof numbers / sizeof numbers[0]; k++) {
        CHECK(no_place(bilashonge_table_place(THAT_METER, 1, numbers[k]), 10));
        CHECK(refused(bilashonge_write_range(THAT_METER, 1, numbers[k], 0, OCTETS(data)), 10));
    }
    CHECK(SAME(image, manufacturer_image));
    CHECK(answered(bilashonge_write_range(THAT_METER, 1, 5, 0, OCTETS(data))));
    CHECK(SAME(image, after));
    CHECK(no_place(bilashonge_table_place(OCTETS(D), OCTETS(first_image), 2, 5), 10));
}

static void quantities(void)
{
    static const uint32_t demands[] = {1, 2, 7, 256, 65536, 0x80000000, UINT32_MAX};
    CHECK(is_tier(bilashonge_tier_at(OCTETS(apart_description), OCTETS(apart_image), 2024, 3, 5, 8, 0, 0),
                  2));
    for (size_t k = 0; k < sizeof demands / sizeof demands[0]; k++)
        CHECK(is_tier(bilashonge_tier_at(OCTETS(apart_description), OCTETS(apart_image), 2024, 3, 5, 8, 0,
                                         demands[k]), 3));
}

/* A description of no octets, and a null pointer to it: 1 of every function. */
static void null_description(void)
{
    uint8_t image[sizeof first_image];
    cells_of_matrix cells = {{0}};
    static const uint8_t data[] = {0xcc, 0xdd};
    memcpy(image, first_image, sizeof image);
    CHECK(refused(bilashonge_check(NONE), 1));
    struct bilashonge_total total = bilashonge_layout(NONE, OCTETS(image));
    CHECK(refused(total.refusal, 1) && total.total == 0);
    CHECK(no_place(bilashonge_table_place(NONE, OCTETS(image), 0, 5), 1));
    CHECK(no_place(bilashonge_element_place(NONE, OCTETS(image), 7, SUBSCRIPTS(one)), 1));
    CHECK(no_number(bilashonge_element_number(NONE, OCTETS(image), 7, SUBSCRIPTS(one)), 1));
    CHECK(refused(bilashonge_write_range(NONE, OCTETS(image), 0, 5, 0, OCTETS(data)), 1));
    CHECK(refused(bilashonge_write_octets(NONE, OCTETS(image), 7, SUBSCRIPTS(one), OCTETS(data)), 1));
    CHECK(refused(bilashonge_write_number(NONE, OCTETS(image), 7, SUBSCRIPTS(one), 1), 1));
    CHECK(no_tier(bilashonge_tier_at(NONE, OCTETS(image), 2024, 3, 5, 7, 30, 0), 1));
    CHECK(no_answer(bilashonge_seasoned(NONE, OCTETS(image), 2024, 3, 5), 1));
    CHECK(no_answer(bilashonge_seasoned(NONE, NONE, 2024, 3, 5), 1));
    CHECK(refused(bilashonge_matrix(NONE, OCTETS(image), cells), 1));
    CHECK(no_place(bilashonge_range_place(NONE, OCTETS(image), 0, 5, 0, 1), 1));
    CHECK(no_place(bilashonge_range_place(NONE, NONE, 0, 5, 0, 1), 1));
    CHECK(SAME(image, first_image));
    total = bilashonge_layout(NONE, NONE);
    CHECK(refused(total.refusal, 1) && total.total == 0);
}

/* An image of no octets, and a null pointer to it: it ends inside item 1, at octet 0. */
static void null_image(void)
{
    cells_of_matrix cells = {{0}};
    static const uint8_t data[] = {0xcc, 0xdd};
    struct bilashonge_total total = bilashonge_layout(OCTETS(D), NONE);
    CHECK(is_refusal(total.refusal, 9, 1, 0) && total.total == 0);
    struct bilashonge_place place = bilashonge_table_place(OCTETS(D), NONE, 0, 5);
    CHECK(is_refusal(place.refusal, 9, 1, 0) && place.start == 0 && place.length == 0);
    place = bilashonge_element_place(OCTETS(D), NONE, 7, SUBSCRIPTS(one));
    CHECK(is_refusal(place.refusal, 9, 1, 0) && place.start == 0 && place.length == 0);
    struct bilashonge_number number = bilashonge_element_number(OCTETS(D), NONE, 7, SUBSCRIPTS(one));
    CHECK(is_refusal(number.refusal, 9, 1, 0) && number.number == 0);
    CHECK(is_refusal(bilashonge_write_range(OCTETS(D), NONE, 0, 5, 0, OCTETS(data)), 9, 1, 0));
    CHECK(is_refusal(bilashonge_write_octets(OCTETS(D), NONE, 7, SUBSCRIPTS(one), OCTETS(data)), 9, 1, 0));
    CHECK(is_refusal(bilashonge_write_number(OCTETS(D), NONE, 7, SUBSCRIPTS(one), 1), 9, 1, 0));
    struct bilashonge_tier tier = bilashonge_tier_at(OCTETS(clock_description), NONE, 2024, 3, 5, 7, 30, 0);
    CHECK(is_refusal(tier.refusal, 9, 1, 0) && tier.none == 0 && tier.tier == 0);
    struct bilashonge_answer answer = bilashonge_seasoned(OCTETS(clock_description), NONE, 2024, 3, 5);
    CHECK(is_refusal(answer.refusal, 9, 1, 0) && answer.yes == 0);
    CHECK(is_refusal(bilashonge_matrix(OCTETS(clock_description), NONE, cells), 9, 1, 0));
    place = bilashonge_range_place(OCTETS(D), NONE, 0, 5, 0, 0);
    CHECK(is_refusal(place.refusal, 9, 1, 0) && place.start == 0 && place.length == 0);
}

/* A message of no octets, a room of none, and null pointers to them. A meter without description or image
 * answers a good request by 04, an empty one by 01. */
static void null_messages(void)
{
    static const uint8_t one_octet[] = {0x01, 0xcc}, four[] = {0x04, 0xcc}, data[] = {0x01};
    uint8_t image[sizeof asking_image], room[2] = {0xcc, 0xcc};
    memcpy(image, asking_image, sizeof image);
    CHECK(no_message(bilashonge_serve(NONE, NONE, NONE, NONE)));
    CHECK(no_message(bilashonge_serve(OCTETS(asking_description), OCTETS(image), NONE, NONE)));
    CHECK(no_message(bilashonge_serve(OCTETS(asking_description), OCTETS(image), OCTETS(full_read), NONE)));
    CHECK(is_total(bilashonge_serve(NONE, NONE, NONE, OCTETS(room)), 1) && SAME(room, one_octet));
    CHECK(is_total(bilashonge_serve(NONE, NONE, OCTETS(full_read), OCTETS(room)), 1) && SAME(room, four));
    CHECK(is_total(bilashonge_serve(OCTETS(asking_description), OCTETS(image), NONE, OCTETS(room)), 1));
    CHECK(SAME(room, one_octet));
    CHECK(is_total(bilashonge_serve(NONE, OCTETS(image), OCTETS(full_read), OCTETS(room)), 1));
    CHECK(SAME(room, four) && SAME(image, asking_image));
    CHECK(no_request(bilashonge_read_request(NONE), 1));
    CHECK(no_reply(bilashonge_read_reply(NONE)));
    CHECK(no_message(bilashonge_write_request(BILASHONGE_FULL_READ, 5, 0, 0, NONE, NONE)));
    CHECK(no_message(bilashonge_write_request(BILASHONGE_FULL_WRITE, 5, 0, 0, OCTETS(data), NONE)));
    CHECK(no_message(bilashonge_write_request(0, 0, 0, 0, NONE, NONE)));
    CHECK(no_message(bilashonge_write_reply(BILASHONGE_REPLY_DONE, 0, NONE, NONE)));
    CHECK(no_message(bilashonge_write_reply(BILASHONGE_REPLY_DATA, 0, NONE, NONE)));
    CHECK(no_message(bilashonge_write_reply(0, 0, NONE, NONE)));
    CHECK(is_total(bilashonge_write_reply(BILASHONGE_REPLY_DONE, 0, NONE, OCTETS(room)), 1));
    CHECK(room[0] == 0x00 && room[1] == 0xcc);
}

/* Data of no octets: accepted up to a table's end, too short for a BLOCK, and all that a SET of none has. */
static void null_data(void)
{
    uint8_t image[sizeof first_image], bare[sizeof bare_image];
    memcpy(image, first_image, sizeof image);
    memcpy(bare, bare_image, sizeof bare);
    CHECK(answered(bilashonge_write_range(OCTETS(D), OCTETS(image), 0, 5, 0, NONE)));
    CHECK(answered(bilashonge_write_range(OCTETS(D), OCTETS(image), 0, 5, 6, NONE)));
    CHECK(refused(bilashonge_write_range(OCTETS(D), OCTETS(image), 0, 5, 7, NONE), 12));
    CHECK(refused(bilashonge_write_range(OCTETS(D), OCTETS(image), 0, 5, SIZE_MAX, NONE), 12));
    CHECK(refused(bilashonge_write_range(OCTETS(D), OCTETS(image), 0, 0, 0, NONE), 13));
    CHECK(refused(bilashonge_write_octets(OCTETS(D), OCTETS(image), 5, NONE, NONE), 15));
    CHECK(SAME(image, first_image));
    CHECK(is_place(bilashonge_element_place(OCTETS(set_description), OCTETS(bare), 3, NONE), 2, 0));
    CHECK(answered(bilashonge_write_octets(OCTETS(set_description), OCTETS(bare), 3, NONE, NONE)));
    CHECK(SAME(bare, bare_image));
}

/* No subscripts: an element inside no ARRAY. */
static void null_subscripts(void)
{
    static const uint8_t data[] = {0xcc, 0xdd};
    static const uint8_t block_after[] = {0x00, 0x82, 0xcc, 0xdd, 0x34, 0x12, 0x78, 0x56};
    static const uint8_t number_after[] = {0x00, 0x02, 0x01};
    uint8_t image[sizeof first_image], small[sizeof manufacturer_image];
    memcpy(image, first_image, sizeof image);
    memcpy(small, manufacturer_image, sizeof small);
    CHECK(is_place(bilashonge_element_place(OCTETS(D), OCTETS(image), 5, NONE), 2, 2));
    CHECK(no_place(bilashonge_element_place(OCTETS(D), OCTETS(image), 7, NONE), 24));
    CHECK(is_number(bilashonge_element_number(OCTETS(D), OCTETS(image), 2, NONE), 0x82));
    CHECK(no_number(bilashonge_element_number(OCTETS(D), OCTETS(image), 5, NONE), 26));
    CHECK(answered(bilashonge_write_octets(OCTETS(D), OCTETS(image), 5, NONE, OCTETS(data))));
    CHECK(SAME(image, block_after));
    CHECK(answered(bilashonge_write_number(OCTETS(manufacturer_description), OCTETS(small), 3, NONE,
                                           0x0102)));
    CHECK(SAME(small, number_after));
}

/* -------------------------------------------------------------------------- why there is no such element */

struct cause {
    uint64_t number, depth;
};

/* A name of an element, and what it is refused by: where its octets are asked for or written, and where its
 * number is; all 0 where there is such an element or number. */
struct name {
    size_t item, count, subscripts[5];
    struct cause octets, value;
};

#define TOP ((size_t)1 << 63)

static const struct name names_true[] = {
    {7, 2, {1, 1}, {0, 0}, {0, 0}},
    {8, 2, {0, 1}, {0, 0}, {26, 0}},
    /* TABLEs, ARRAYs, an IF and what is past the last item, whatever the subscripts */
    {0, 0, {0}, {22, 0}, {22, 0}},
    {3, 0, {0}, {22, 0}, {22, 0}},
    {3, 1, {0}, {22, 0}, {22, 0}},
    {4, 0, {0}, {22, 0}, {22, 0}},
    {4, 1, {9}, {22, 0}, {22, 0}},
    {5, 1, {0}, {22, 0}, {22, 0}},
    {5, 1, {2}, {22, 0}, {22, 0}},
    {6, 1, {1}, {22, 0}, {22, 0}},
    {6, 2, {1, 1}, {22, 0}, {22, 0}},
    {9, 1, {1}, {22, 0}, {22, 0}},
    {9, 5, {0}, {22, 0}, {22, 0}},
    {12, 0, {0}, {22, 0}, {22, 0}},
    {12, 1, {0}, {22, 0}, {22, 0}},
    {12, 5, {9, 9, 9, 9, 9}, {22, 0}, {22, 0}},
    /* a number of the BLOCK or of the SET, with whatever else is wrong with them */
    {8, 0, {0}, {24, 0}, {26, 0}},
    {8, 1, {0}, {24, 0}, {26, 0}},
    {8, 3, {0}, {24, 0}, {26, 0}},
    {8, 5, {0}, {24, 0}, {26, 0}},
    {8, 2, {2, 0}, {25, 0}, {26, 0}},
    {8, 2, {0, 2}, {25, 1}, {26, 0}},
    {10, 1, {0}, {24, 0}, {26, 0}},
    {10, 2, {0, 0}, {23, 0}, {26, 0}},
    {10, 2, {1, 9}, {23, 0}, {26, 0}},
    {10, 2, {2, 0}, {25, 0}, {26, 0}},
    /* too few and too many subscripts, also large ones and of a branch that isn't chosen */
    {1, 1, {0}, {24, 0}, {24, 0}},
    {2, 1, {9}, {24, 0}, {24, 0}},
    {2, 5, {0}, {24, 0}, {24, 0}},
    {7, 0, {0}, {24, 0}, {24, 0}},
    {7, 1, {0}, {24, 0}, {24, 0}},
    {7, 1, {9}, {24, 0}, {24, 0}},
    {7, 3, {0}, {24, 0}, {24, 0}},
    {7, 3, {9, 9, 9}, {24, 0}, {24, 0}},
    {7, 4, {0}, {24, 0}, {24, 0}},
    {7, 5, {1, 1, 1, 1, 1}, {24, 0}, {24, 0}},
    {11, 0, {0}, {24, 0}, {24, 0}},
    {11, 2, {0, 0}, {24, 0}, {24, 0}},
    {11, 5, {9}, {24, 0}, {24, 0}},
    /* too large: of two the outer one; the IF between them isn't counted; some whose octet would wrap */
    {7, 2, {2, 0}, {25, 0}, {25, 0}},
    {7, 2, {3, 0}, {25, 0}, {25, 0}},
    {7, 2, {0, 2}, {25, 1}, {25, 1}},
    {7, 2, {1, 3}, {25, 1}, {25, 1}},
    {7, 2, {2, 2}, {25, 0}, {25, 0}},
    {7, 2, {SIZE_MAX, SIZE_MAX}, {25, 0}, {25, 0}},
    {7, 2, {1, SIZE_MAX}, {25, 1}, {25, 1}},
    {7, 2, {TOP, 0}, {25, 0}, {25, 0}},
    {7, 2, {TOP / 2, 1}, {25, 0}, {25, 0}},
    {7, 2, {0, TOP}, {25, 1}, {25, 1}},
    {7, 2, {1, TOP + 1}, {25, 1}, {25, 1}},
    /* not chosen, but for an outer subscript that is too large */
    {11, 1, {0}, {23, 0}, {23, 0}},
    {11, 1, {1}, {23, 0}, {23, 0}},
    {11, 1, {2}, {25, 0}, {25, 0}},
};

static const struct name names_false[] = {
    {10, 2, {1, 1}, {0, 0}, {26, 0}},
    {11, 1, {1}, {0, 0}, {0, 0}},
    {7, 2, {0, 0}, {23, 0}, {23, 0}},
    {7, 2, {1, 9}, {23, 0}, {23, 0}},
    {7, 2, {2, 0}, {25, 0}, {25, 0}},
    {7, 2, {9, 9}, {25, 0}, {25, 0}},
    {7, 1, {0}, {24, 0}, {24, 0}},
    {8, 2, {1, 1}, {23, 0}, {26, 0}},
    {8, 2, {9, 9}, {25, 0}, {26, 0}},
    {10, 2, {0, 2}, {25, 1}, {26, 0}},
    {10, 2, {2, 0}, {25, 0}, {26, 0}},
    {10, 1, {0}, {24, 0}, {26, 0}},
    {11, 1, {2}, {25, 0}, {25, 0}},
    {11, 2, {0, 0}, {24, 0}, {24, 0}},
    {5, 1, {0}, {22, 0}, {22, 0}},
    {6, 1, {0}, {22, 0}, {22, 0}},
    {9, 1, {0}, {22, 0}, {22, 0}},
};

/* No count outside: every subscript is too large, and no branch is asked after. */
static const struct name names_none[] = {
    {7, 2, {0, 0}, {25, 0}, {25, 0}},
    {7, 2, {9, 9}, {25, 0}, {25, 0}},
    {8, 2, {0, 0}, {25, 0}, {26, 0}},
    {10, 2, {0, 0}, {25, 0}, {26, 0}},
    {11, 1, {0}, {25, 0}, {25, 0}},
    {11, 1, {9}, {25, 0}, {25, 0}},
    {11, 0, {0}, {24, 0}, {24, 0}},
    {4, 1, {0}, {22, 0}, {22, 0}},
};

/* None inside: the same, but where a branch round it isn't chosen. */
static const struct name names_true_none[] = {
    {7, 2, {1, 0}, {25, 1}, {25, 1}},
    {7, 2, {1, 9}, {25, 1}, {25, 1}},
    {7, 2, {2, 0}, {25, 0}, {25, 0}},
    {8, 2, {0, 0}, {25, 1}, {26, 0}},
    {10, 2, {0, 0}, {23, 0}, {26, 0}},
    {11, 1, {1}, {23, 0}, {23, 0}},
};
static const struct name names_false_none[] = {
    {11, 1, {1}, {0, 0}, {0, 0}},
    {7, 2, {1, 0}, {23, 0}, {23, 0}},
    {7, 2, {2, 0}, {25, 0}, {25, 0}},
    {8, 2, {1, 0}, {23, 0}, {26, 0}},
    {10, 2, {1, 0}, {25, 1}, {26, 0}},
    {10, 2, {2, 0}, {25, 0}, {26, 0}},
};

#define IMAGE_AND_NAMES(end) OCTETS(maze##end), names##end, sizeof names##end / sizeof names##end[0]

static const struct {
    const uint8_t *image;
    size_t image_length;
    const struct name *names;
    size_t name_count;
} mazes[] = {
    {IMAGE_AND_NAMES(_true)},
    {IMAGE_AND_NAMES(_false)},
    {IMAGE_AND_NAMES(_none)},
    {IMAGE_AND_NAMES(_true_none)},
    {IMAGE_AND_NAMES(_false_none)},
};

#define NAMED(name) (name)->item, (name)->subscripts, (name)->count

/* Asks for it in all four ways. The writes are of more octets, and of a larger number, than an element of the
 * maze has: where there is one they are refused by `later`, and where there is none, not. */
static void ask_named(const uint8_t *description, const uint8_t *before, size_t image_length,
                      const struct name *name, uint64_t later)
{
    static const uint8_t data[] = {0xcc, 0xdd, 0xee};
    uint8_t image[sizeof maze_false];
    unsigned failed = failures;
    memcpy(image, before, image_length);
#define THAT_MAZE description, sizeof maze_description, image, image_length
    struct bilashonge_place place = bilashonge_element_place(THAT_MAZE, NAMED(name));
    CHECK(name->octets.number == 0 ? answered(place.refusal)
                                   : no_place_at(place, name->octets.number, name->octets.depth));
    struct bilashonge_number number = bilashonge_element_number(THAT_MAZE, NAMED(name));
    CHECK(name->value.number == 0 ? answered(number.refusal)
                                  : no_number_at(number, name->value.number, name->value.depth));
    struct bilashonge_refusal octets_written =
        bilashonge_write_octets(THAT_MAZE, NAMED(name), OCTETS(data));
    CHECK(name->octets.number == 0 ? refused(octets_written, later)
                                   : refused_at(octets_written, name->octets.number, name->octets.depth));
    struct bilashonge_refusal number_written =
        bilashonge_write_number(THAT_MAZE, NAMED(name), (uint64_t)1 << 40);
    CHECK(name->value.number == 0 ? refused(number_written, later)
                                  : refused_at(number_written, name->value.number, name->value.depth));
    CHECK(memcmp(image, before, image_length) == 0);
    if (failures != failed)
        fprintf(stderr, "calls.c: that was of the image %02x, item %zu, %zu subscripts: %zu %zu\n", before[1],
                name->item, name->count, name->subscripts[0], name->subscripts[1]);
}

/* The causes come before 13, where no table is writable, and before 14 and 15, where each is. */
static void causes(void)
{
    uint8_t writable[sizeof maze_description];
    memcpy(writable, maze_description, sizeof writable);
    writable[MAZE_TABLE_0] |= 0x80;
    writable[MAZE_TABLE_5] |= 0x80;
    for (size_t m = 0; m < sizeof mazes / sizeof mazes[0]; m++)
        for (size_t k = 0; k < mazes[m].name_count; k++) {
            ask_named(maze_description, mazes[m].image, mazes[m].image_length, &mazes[m].names[k], 13);
            ask_named(writable, mazes[m].image, mazes[m].image_length, &mazes[m].names[k], 15);
        }
}

/* What the names that aren't refused have; and a dimension, of which 14 comes before 15. */
static void ways_through(void)
{
    static const size_t one_one[] = {1, 1}, zero_one[] = {0, 1};
    static const uint8_t data[] = {0xcc, 0xdd};
    static const uint8_t after[] = {0x00, 0x12, 0xa0, 0xa1, 0xa2, 0xa3, 0xb0, 0xa4, 0xa5, 0xcc, 0xdd, 0xb1};
#define TRUE_MAZE OCTETS(maze_description), OCTETS(maze_true)
#define FALSE_MAZE OCTETS(maze_description), OCTETS(maze_false)
    CHECK(is_total(bilashonge_layout(TRUE_MAZE), 10));
    CHECK(is_place(bilashonge_element_place(TRUE_MAZE, 7, SUBSCRIPTS(one_one)), 8, 1));
    CHECK(is_number(bilashonge_element_number(TRUE_MAZE, 7, SUBSCRIPTS(one_one)), 0x73));
    CHECK(is_place(bilashonge_element_place(TRUE_MAZE, 8, SUBSCRIPTS(zero_one)), 5, 1));
    CHECK(is_total(bilashonge_layout(FALSE_MAZE), 12));
    CHECK(is_place(bilashonge_element_place(FALSE_MAZE, 10, SUBSCRIPTS(one_one)), 9, 2));
    CHECK(is_place(bilashonge_element_place(FALSE_MAZE, 11, SUBSCRIPTS(one)), 11, 1));
    CHECK(is_number(bilashonge_element_number(FALSE_MAZE, 11, SUBSCRIPTS(one)), 0xb1));
    uint8_t writable[sizeof maze_description], image[sizeof maze_false];
    memcpy(writable, maze_description, sizeof writable);
    memcpy(image, maze_false, sizeof image);
    writable[MAZE_TABLE_0] |= 0x80;
    writable[MAZE_TABLE_5] |= 0x80;
    CHECK(refused(bilashonge_write_octets(OCTETS(writable), OCTETS(image), 2, NONE, OCTETS(data)), 14));
    CHECK(refused(bilashonge_write_number(OCTETS(writable), OCTETS(image), 2, NONE, UINT64_MAX), 14));
    CHECK(SAME(image, maze_false));
    CHECK(answered(bilashonge_write_octets(OCTETS(writable), OCTETS(image), 10, SUBSCRIPTS(one_one),
                                           OCTETS(data))));
    CHECK(SAME(image, after));
}

/* Refused so in all four ways, whatever the name. */
static bool all_refused(const uint8_t *description, size_t description_length, const uint8_t *before,
                        size_t image_length, const struct name *name, uint64_t number, uint64_t item,
                        uint64_t octet)
{
    static uint8_t image[65536];
    static const uint8_t data[] = {0xcc};
    memcpy(image, before, image_length);
#define THAT_ONE description, description_length, image, image_length
    struct bilashonge_place place = bilashonge_element_place(THAT_ONE, NAMED(name));
    struct bilashonge_number read = bilashonge_element_number(THAT_ONE, NAMED(name));
    return is_refusal(place.refusal, number, item, octet) && place.start == 0 && place.length == 0
           && is_refusal(read.refusal, number, item, octet) && read.number == 0
           && is_refusal(bilashonge_write_octets(THAT_ONE, NAMED(name), OCTETS(data)), number, item, octet)
           && is_refusal(bilashonge_write_number(THAT_ONE, NAMED(name), 1), number, item, octet)
           && memcmp(image, before, image_length) == 0;
}

/* 1, 7, 8 and 9 come before any cause. Cut, the image ends inside the outermost ARRAY, item 4, at octet 2. */
static void causes_come_later(void)
{
    static uint8_t longest[65536];
    uint8_t unset[sizeof maze_description];
    memcpy(longest, maze_true, sizeof maze_true);
    memcpy(unset, maze_description, sizeof unset);
    unset[41] = 0xc0; /* item 10, the SET, refers to slot 3, never set */
    for (size_t k = 0; k < sizeof names_true / sizeof names_true[0]; k++) {
        const struct name *name = &names_true[k];
        CHECK(all_refused(NONE, OCTETS(maze_true), name, 1, 0, 0));
        CHECK(all_refused(OCTETS(unset), OCTETS(maze_true), name, 7, 10, 0));
        CHECK(all_refused(OCTETS(maze_description), OCTETS(longest), name, 8, 0, 0));
        CHECK(all_refused(OCTETS(maze_description), maze_true, sizeof maze_true - 1, name, 9, 4, 2));
    }
}

/* 22: D's TABLEs, its IF and its ARRAY; and numbers past the last item, also where four times the number, or
 * the number cut to fewer bits, would be one. */
static void items_that_are_none(void)
{
    static const size_t items[] = {
        0, 3, 4, 6, 8, 9, 255, 256 + 7, 511, 512, 512 + 7, 65535, 65536 + 7, 4294967296, 4294967296 + 7,
        SIZE_MAX / 4 + 1, SIZE_MAX / 4 + 1 + 7, TOP, TOP + 7, SIZE_MAX - 7, SIZE_MAX,
    };
    for (size_t k = 0; k < sizeof items / sizeof items[0]; k++)
        for (size_t count = 0; count <= 5; count++) {
            struct name name = {items[k], count, {1, 0, 0, 0, 0}, {22, 0}, {22, 0}};
            CHECK(all_refused(OCTETS(D), OCTETS(first_image), &name, 22, 0, 0));
        }
    /* All items that there can be: 512 of them. */
    static uint8_t longest[2048], image[511];
    for (size_t i = 0; i < 512; i++)
        longest[4 * i] = i == 0 ? 0x10 : 0x20;
    longest[2] = 0x01; /* 511 items in the body of table 0 */
    longest[3] = 0xff;
    longest[5] = 0x10; /* slot 1 */
    struct name last = {511, 0, {0}, {0, 0}, {0, 0}}, past = {512, 0, {0}, {22, 0}, {22, 0}};
    CHECK(is_place(bilashonge_element_place(OCTETS(longest), OCTETS(image), NAMED(&last)), 510, 1));
    CHECK(all_refused(OCTETS(longest), OCTETS(image), &past, 22, 0, 0));
}

/* Refused by 25 at that depth in all four ways, of four subscripts. */
static void too_large(const uint8_t *before, size_t image_length, const size_t subscripts[4], uint64_t depth)
{
    static const uint8_t data[] = {0xbb};
    uint8_t image[sizeof deep_image];
    memcpy(image, before, image_length);
#define DEEPEST OCTETS(deep_description), image, image_length, 6, subscripts, 4
    CHECK(no_place_at(bilashonge_element_place(DEEPEST), 25, depth));
    CHECK(no_number_at(bilashonge_element_number(DEEPEST), 25, depth));
    CHECK(refused_at(bilashonge_write_octets(DEEPEST, OCTETS(data)), 25, depth));
    CHECK(refused_at(bilashonge_write_number(DEEPEST, 0xbb), 25, depth));
    CHECK(memcmp(image, before, image_length) == 0);
}

/* Of four ARRAYs, each with one element: one subscript that is too large, and it with all behind it. Without an
 * element in any of them, it is the first. */
static void depths(void)
{
    static const size_t large[] = {1, 2, 255, 256, 65536, 4294967296, TOP, SIZE_MAX};
    static const uint8_t none[] = {0x00};
    for (size_t k = 0; k < sizeof large / sizeof large[0]; k++)
        for (uint64_t depth = 0; depth < 4; depth++) {
            size_t subscripts[4] = {0, 0, 0, 0};
            subscripts[depth] = large[k];
            too_large(OCTETS(deep_image), subscripts, depth);
            too_large(OCTETS(none), subscripts, 0);
            for (uint64_t behind = depth + 1; behind < 4; behind++)
                subscripts[behind] = SIZE_MAX;
            too_large(OCTETS(deep_image), subscripts, depth);
        }
}

/* From the outside in: the IF of bit 0, the ARRAY of bit 1, the IF of bit 2, the ARRAY of bit 3. The depth
 * counts the ARRAYs alone. */
static void outside_in(void)
{
    static const uint8_t data[] = {0xbb};
    for (unsigned bits = 0; bits < 16; bits++)
        for (unsigned k = 0; k < 4; k++) {
            const size_t subscripts[] = {k % 2, k / 2};
            uint8_t image[] = {0x00, (uint8_t)bits, 0xaa}, before[] = {0x00, (uint8_t)bits, 0xaa};
            struct cause cause = {0, 0};
            if ((bits & 1) == 0)
                cause.number = 23;
            else if ((bits & 2) == 0 || subscripts[0] == 1)
                cause.number = 25;
            else if ((bits & 4) == 0)
                cause.number = 23;
            else if ((bits & 8) == 0 || subscripts[1] == 1) {
                cause.number = 25;
                cause.depth = 1;
            }
#define AT_THE_END OCTETS(winding_description), OCTETS(image), 7, SUBSCRIPTS(subscripts)
            if (cause.number == 0) {
                CHECK(is_place(bilashonge_element_place(AT_THE_END), 2, 1));
                CHECK(is_number(bilashonge_element_number(AT_THE_END), 0xaa));
                CHECK(answered(bilashonge_write_number(AT_THE_END, 0xbb)) && image[2] == 0xbb);
                continue;
            }
            CHECK(no_place_at(bilashonge_element_place(AT_THE_END), cause.number, cause.depth));
            CHECK(no_number_at(bilashonge_element_number(AT_THE_END), cause.number, cause.depth));
            CHECK(refused_at(bilashonge_write_octets(AT_THE_END, OCTETS(data)), cause.number, cause.depth));
            CHECK(refused_at(bilashonge_write_number(AT_THE_END, 0xbb), cause.number, cause.depth));
            CHECK(SAME(image, before));
        }
}

/* ------------------------------------------------------------------------------------------------- cells */

/* Each refusal that a matrix can have of its own: no Table 51; a Table 54 one octet too long. */
static void cells_untouched(void)
{
    cells_of_matrix cells, before;
    uint8_t longer_description[sizeof clock_description];
    uint8_t longer_image[sizeof clock_image + 1] = {0};
    memcpy(longer_description, clock_description, sizeof clock_description);
    longer_description[21] = 0x0d; /* item 5, the BLOCK of Table 54: 13 octets for 12 */
    memcpy(longer_image, clock_image, sizeof clock_image);
    for (int fill = 0; fill < 256; fill++) {
        memset(cells, fill, sizeof cells);
        memset(before, fill, sizeof before);
        CHECK(refused(bilashonge_matrix(OCTETS(D), OCTETS(first_image), cells), 10));
        CHECK(SAME(cells, before));
        CHECK(refused(bilashonge_matrix(OCTETS(longer_description), OCTETS(longer_image), cells), 20));
        CHECK(SAME(cells, before));
        CHECK(is_refusal(bilashonge_matrix(OCTETS(D_unset), OCTETS(first_image), cells), 7, 4, 0));
        CHECK(SAME(cells, before));
    }
}

/* One row of three columns is used. All others are set to 0, whatever they held. */
static void cells_overwritten(void)
{
    static const cells_of_matrix expected = {{0x01, 0x01, 0x01}};
    cells_of_matrix cells;
    for (int fill = 0; fill < 256; fill++) {
        memset(cells, fill, sizeof cells);
        CHECK(answered(bilashonge_matrix(OCTETS(clock_description), OCTETS(clock_image), cells)));
        CHECK(SAME(cells, expected));
    }
}

/* Every cell is used: cell k of the matrix, row by row, is Table 54's octet k. */
static void full_matrix(void)
{
    uint8_t image[1 + sizeof full_table51 + sizeof(cells_of_matrix)] = {0};
    cells_of_matrix cells = {{0}};
    unsigned wrong = 0;
    memcpy(image + 1, full_table51, sizeof full_table51);
    for (unsigned k = 0; k < sizeof cells; k++)
        image[1 + sizeof full_table51 + k] = (uint8_t)(7 * k + 1);
    CHECK(answered(bilashonge_matrix(OCTETS(full_description), OCTETS(image), cells)));
    for (unsigned row = 0; row < 15; row++)
        for (unsigned column = 0; column < 22; column++)
            wrong += cells[row][column] != (uint8_t)(7 * (22 * row + column) + 1);
    CHECK(wrong == 0);
}

/* ------------------------------------------------------------------------ whether a season record stands */

/* The starred calendar as it stands, and with octets of its image changed. */
#define CLOCK OCTETS(clock_description), OCTETS(clock_image)
#define CHANGED OCTETS(clock_description), OCTETS(image)

/* Which octet of the image has what may be changed. */
enum { FLAGS = 1, MORE_FLAGS, ROWS, RECORDS, RECURRING, SWITCHES, RECORD_DATE = 10, ACTION = 12 };

/* From the record's day on, and on no day before. */
static void stands_from_its_day_on(void)
{
    CHECK(is_answer(bilashonge_seasoned(CLOCK, 2023, 12, 31), 0));
    CHECK(is_answer(bilashonge_seasoned(CLOCK, 2024, 1, 1), 1));
    CHECK(is_answer(bilashonge_seasoned(CLOCK, 2024, 1, 2), 1));
    CHECK(is_answer(bilashonge_seasoned(CLOCK, 2024, 3, 5), 1));
    CHECK(is_answer(bilashonge_seasoned(CLOCK, 2023, 2, 28), 0));
    CHECK(is_answer(bilashonge_seasoned(CLOCK, 2024, 2, 29), 1));
    for (uint32_t year = 1990; year <= 2089; year++) {
        CHECK(is_answer(bilashonge_seasoned(CLOCK, year, 1, 1), year >= 2024));
        CHECK(is_answer(bilashonge_seasoned(CLOCK, year, 12, 31), year >= 2024));
    }
}

/* Asked about no date of 1990 to 2089, also where a number cut to fewer bits would make it one. */
static void asked_of_no_date(void)
{
    static const uint32_t dates[][3] = {
        {2023, 2, 29}, {2024, 2, 30}, {2024, 4, 31}, {2024, 12, 32}, {1989, 12, 31}, {2090, 1, 1},
        {0, 1, 1}, {24, 1, 1}, {2024, 0, 1}, {2024, 13, 1}, {2024, 1, 0}, {0, 0, 0},
        {2024 + 65536, 1, 1}, {2024, 1 + 256, 1}, {2024, 1, 1 + 256},
        {2024, 1 + 65536, 1}, {2024, 1, 1 + 65536},
        {2024 + 0x80000000, 1, 1}, {2024, 0x80000001, 1}, {2024, 1, 0x80000001},
        {UINT32_MAX, 1, 1}, {2024, UINT32_MAX, 1}, {2024, 1, UINT32_MAX},
        {UINT32_MAX, UINT32_MAX, UINT32_MAX},
    };
    for (size_t k = 0; k < sizeof dates / sizeof dates[0]; k++) {
        CHECK(no_answer(bilashonge_seasoned(CLOCK, dates[k][0], dates[k][1], dates[k][2]), 16));
        CHECK(no_weekday(bilashonge_weekday_of(dates[k][0], dates[k][1], dates[k][2])));
    }
}

/* An armed change of season hides the tier, but not whether a record stands. */
static void armed(void)
{
    uint8_t image[sizeof clock_image];
    memcpy(image, clock_image, sizeof image);
    image[FLAGS] = 0x08;
    CHECK(no_tier(bilashonge_tier_at(CHANGED, 2024, 1, 1, 7, 30, 0), 18));
    CHECK(is_answer(bilashonge_seasoned(CHANGED, 2024, 1, 1), 1));
    CHECK(is_answer(bilashonge_seasoned(CHANGED, 2023, 12, 31), 0));
    CHECK(no_answer(bilashonge_seasoned(CHANGED, 2023, 2, 29), 16));
}

/* Bits 0 to 4 of an action select a season where they are 3 to 18, whether it has a row or not. The tier on
 * the record's day: there is a row for season 0 alone, and no column for a special schedule; where nothing is
 * selected, it is season 0's, and so it is on the day before. */
static void actions(void)
{
    uint8_t image[sizeof clock_image];
    memcpy(image, clock_image, sizeof image);
    for (unsigned action = 0; action < 256; action++) {
        image[ACTION] = (uint8_t)action;
        CHECK(is_answer(bilashonge_seasoned(CHANGED, 2024, 1, 1), action % 32 >= 3 && action % 32 <= 18));
        CHECK(is_answer(bilashonge_seasoned(CHANGED, 2023, 12, 31), 0));
    }
    static const struct {
        uint8_t action;
        uint64_t yes;
        uint64_t refusal; /* of the tier; 0 where it is tier 2 */
    } some[] = {{2, 0, 0}, {3, 1, 0}, {4, 1, 19}, {18, 1, 19}, {19, 0, 19}, {30, 0, 19}, {31, 0, 0}};
    for (size_t k = 0; k < sizeof some / sizeof some[0]; k++) {
        image[ACTION] = some[k].action;
        struct bilashonge_tier tier = bilashonge_tier_at(CHANGED, 2024, 1, 1, 7, 30, 0);
        CHECK(is_answer(bilashonge_seasoned(CHANGED, 2024, 1, 1), some[k].yes));
        CHECK(some[k].refusal == 0 ? is_tier(tier, 2) : no_tier(tier, some[k].refusal));
        CHECK(is_tier(bilashonge_tier_at(CHANGED, 2023, 12, 31, 7, 30, 0), 2));
    }
}

/* A record without a real date never stands, so every day is in season 0. */
static void records_of_no_date(void)
{
    static const uint8_t dates[][2] = {
        {0x17, 0xe9}, /* 29 February 2023 */
        {0x18, 0xf1}, /* 30 February 2024 */
        {0x98, 0x00}, /* day 0 of January 2024 */
        {0x18, 0x08}, /* day 1 of month 0, 2024 */
        {0x98, 0x0e}, /* day 1 of month 13, 2024 */
        {0xe4, 0x08}, /* 1 January of year 100 */
        {0xff, 0x08}, /* 1 January of year 127 */
        {0x00, 0x00},
        {0xff, 0xff},
    };
    uint8_t image[sizeof clock_image];
    memcpy(image, clock_image, sizeof image);
    for (size_t k = 0; k < sizeof dates / sizeof dates[0]; k++) {
        memcpy(image + RECORD_DATE, dates[k], 2);
        CHECK(is_answer(bilashonge_seasoned(CHANGED, 2024, 3, 5), 0));
        CHECK(is_answer(bilashonge_seasoned(CHANGED, 2089, 12, 31), 0));
        CHECK(is_tier(bilashonge_tier_at(CHANGED, 2024, 3, 5, 7, 30, 0), 2));
    }
}

/* A record on the first day that a DATE can have, on the last, on the last before 2000, on a leap day. */
static void records_at_the_ends(void)
{
    static const uint8_t first[] = {0xda, 0x08};  /* 1 January 1990 */
    static const uint8_t last[] = {0x59, 0xfe};   /* 31 December 2089 */
    static const uint8_t before[] = {0x63, 0xfe}; /* 31 December 1999 */
    static const uint8_t leap[] = {0x18, 0xe9};   /* 29 February 2024 */
    uint8_t image[sizeof clock_image];
    memcpy(image, clock_image, sizeof image);
    memcpy(image + RECORD_DATE, first, 2);
    CHECK(is_answer(bilashonge_seasoned(CHANGED, 1990, 1, 1), 1));
    memcpy(image + RECORD_DATE, last, 2);
    CHECK(is_answer(bilashonge_seasoned(CHANGED, 2089, 12, 30), 0));
    CHECK(is_answer(bilashonge_seasoned(CHANGED, 2089, 12, 31), 1));
    memcpy(image + RECORD_DATE, before, 2);
    CHECK(is_answer(bilashonge_seasoned(CHANGED, 1999, 12, 30), 0));
    CHECK(is_answer(bilashonge_seasoned(CHANGED, 1999, 12, 31), 1));
    CHECK(is_answer(bilashonge_seasoned(CHANGED, 2000, 1, 1), 1));
    memcpy(image + RECORD_DATE, leap, 2);
    CHECK(is_answer(bilashonge_seasoned(CHANGED, 2024, 2, 28), 0));
    CHECK(is_answer(bilashonge_seasoned(CHANGED, 2024, 2, 29), 1));
}

/* Of several records the earliest that counts decides, wherever it stands among them. There are no seasons,
 * so no day has a tier. */
static void several_records(void)
{
#define DATED OCTETS(dated_description), OCTETS(dated_image)
#define TURNED OCTETS(dated_description), OCTETS(dated_image_turned)
    static const uint32_t before[][3] = {{1990, 1, 1}, {2020, 1, 1}, {2023, 2, 28}, {2023, 3, 1},
                                         {2024, 3, 1}, {2024, 4, 1}, {2024, 4, 30}};
    static const uint32_t after[][3] = {{2024, 5, 1}, {2024, 5, 31}, {2024, 6, 1}, {2089, 12, 31}};
    for (size_t k = 0; k < sizeof before / sizeof before[0]; k++) {
        CHECK(is_answer(bilashonge_seasoned(DATED, before[k][0], before[k][1], before[k][2]), 0));
        CHECK(is_answer(bilashonge_seasoned(TURNED, before[k][0], before[k][1], before[k][2]), 0));
        CHECK(no_tier(bilashonge_tier_at(DATED, before[k][0], before[k][1], before[k][2], 0, 0, 0), 19));
    }
    for (size_t k = 0; k < sizeof after / sizeof after[0]; k++) {
        CHECK(is_answer(bilashonge_seasoned(DATED, after[k][0], after[k][1], after[k][2]), 1));
        CHECK(is_answer(bilashonge_seasoned(TURNED, after[k][0], after[k][1], after[k][2]), 1));
        CHECK(no_tier(bilashonge_tier_at(DATED, after[k][0], after[k][1], after[k][2], 0, 0, 0), 19));
    }
}

/* A recurring record isn't applied: the starred calendar with its record counted as one. */
static void recurring_records(void)
{
    uint8_t image[sizeof clock_image];
    memcpy(image, clock_image, sizeof image);
    image[RECORDS] = 0;
    image[RECURRING] = 1;
    CHECK(is_answer(bilashonge_seasoned(CHANGED, 2024, 1, 1), 0));
    CHECK(is_answer(bilashonge_seasoned(CHANGED, 2089, 12, 31), 0));
    CHECK(is_tier(bilashonge_tier_at(CHANGED, 2024, 1, 1, 7, 30, 0), 2));
}

/* A meter without a record is in season 0 on every day; without a season it has no tier on any. */
static void no_records(void)
{
    static const uint32_t dates[][3] = {{1990, 1, 1}, {2023, 12, 31}, {2024, 3, 5}, {2089, 12, 31}};
#define NEW OCTETS(new_description), OCTETS(new_image)
#define EMPTY OCTETS(empty_description), OCTETS(empty_image)
    for (size_t k = 0; k < sizeof dates / sizeof dates[0]; k++) {
        uint32_t year = dates[k][0], month = dates[k][1], day = dates[k][2];
        CHECK(is_answer(bilashonge_seasoned(NEW, year, month, day), 0));
        CHECK(is_tier(bilashonge_tier_at(NEW, year, month, day, 0, 0, 0), 0));
        CHECK(is_tier(bilashonge_tier_at(NEW, year, month, day, 7, 29, 0), 0));
        CHECK(is_tier(bilashonge_tier_at(NEW, year, month, day, 7, 30, 0), 2));
        CHECK(is_tier(bilashonge_tier_at(NEW, year, month, day, 23, 59, 1), 2));
        CHECK(is_answer(bilashonge_seasoned(EMPTY, year, month, day), 0));
        CHECK(no_tier(bilashonge_tier_at(EMPTY, year, month, day, 0, 0, 0), 19));
    }
    CHECK(no_answer(bilashonge_seasoned(NEW, 2023, 2, 29), 16));
    CHECK(no_answer(bilashonge_seasoned(EMPTY, 2023, 2, 29), 16));
}

/* Season 0 before the record, season 1 from its day on. */
static void two_seasons(void)
{
#define TWO OCTETS(two_description), OCTETS(two_image)
    CHECK(is_answer(bilashonge_seasoned(TWO, 2023, 12, 31), 0));
    CHECK(is_tier(bilashonge_tier_at(TWO, 2023, 12, 31, 0, 0, 0), 0));
    CHECK(is_tier(bilashonge_tier_at(TWO, 1990, 1, 1, 23, 59, 0), 0));
    CHECK(is_answer(bilashonge_seasoned(TWO, 2024, 1, 1), 1));
    CHECK(is_tier(bilashonge_tier_at(TWO, 2024, 1, 1, 0, 0, 0), 5));
}

/* Refused so by the layout, and by the question of a real date and of one that isn't. */
static bool refused_so(const uint8_t *description, size_t description_length, const uint8_t *image,
                       size_t image_length, uint64_t number, uint64_t item, uint64_t octet)
{
    struct bilashonge_total total = bilashonge_layout(description, description_length, image, image_length);
    struct bilashonge_answer real =
        bilashonge_seasoned(description, description_length, image, image_length, 2024, 3, 5);
    struct bilashonge_answer unreal =
        bilashonge_seasoned(description, description_length, image, image_length, 2023, 2, 29);
    return is_refusal(total.refusal, number, item, octet) && total.total == 0
           && is_refusal(real.refusal, number, item, octet) && real.yes == 0
           && is_refusal(unreal.refusal, number, item, octet) && unreal.yes == 0;
}

/* 1 to 7: the starred calendar cut, or with one item changed; for 5, a description of its own. */
static void seasoned_of_unsound(void)
{
    static const uint8_t longest[2052] = {0};
    static const struct {
        size_t item;
        uint8_t octets[4];
        uint64_t number;
    } changes[] = {
        {5, {0x00, 0x0c, 0x00, 0x00}, 2}, /* kind 0 */
        {3, {0x30, 0x09, 0x00, 0x01}, 2}, /* a spare bit */
        {1, {0x30, 0x01, 0x00, 0x00}, 3}, /* item 1 no UINT */
        {5, {0x10, 0x37, 0x00, 0x00}, 3}, /* a TABLE in a body */
        {4, {0x10, 0x36, 0x00, 0x02}, 4}, /* a body of two items where one is left */
        {4, {0x10, 0x33, 0x00, 0x01}, 6}, /* Table 51 again */
        {5, {0x50, 0x80, 0x00, 0x01}, 4}, /* an ARRAY whose body isn't there, of a slot never set */
        {5, {0x40, 0x80, 0x00, 0x00}, 7}, /* a SET of a slot never set */
    };
    /* deep_description with one ARRAY more, item 6 */
    static const uint8_t fifth[] = {
        0x10, 0x00, 0x80, 0x07, 0x20, 0x10, 0x00, 0x00, 0x50, 0x40, 0x00, 0x05, 0x50, 0x40, 0x00, 0x04,
        0x50, 0x40, 0x00, 0x03, 0x50, 0x40, 0x00, 0x02, 0x50, 0x40, 0x00, 0x01, 0x20, 0x00, 0x00, 0x00,
    };
    for (size_t length = 0; length < sizeof clock_description; length++)
        if (length % 4 != 0 || length == 0)
            CHECK(refused_so(clock_description, length, OCTETS(clock_image), 1, 0, 0));
    CHECK(refused_so(OCTETS(longest), OCTETS(clock_image), 1, 0, 0));
    CHECK(refused_so(longest, 2048, OCTETS(clock_image), 2, 0, 0));
    for (size_t k = 0; k < sizeof changes / sizeof changes[0]; k++) {
        uint8_t description[sizeof clock_description];
        memcpy(description, clock_description, sizeof description);
        memcpy(description + 4 * changes[k].item, changes[k].octets, 4);
        CHECK(refused_so(OCTETS(description), OCTETS(clock_image), changes[k].number, changes[k].item, 0));
    }
    CHECK(refused_so(OCTETS(fifth), OCTETS(clock_image), 5, 6, 0));
    CHECK(refused_so(OCTETS(D_unset), OCTETS(first_image), 7, 4, 0));
}

/* 8 and 9: the calendar with octets behind it, as many as an image may have and one more; and cut short. */
static void seasoned_of_long_and_short(void)
{
    static uint8_t image[65536];
    memcpy(image, clock_image, sizeof clock_image);
    CHECK(is_answer(bilashonge_seasoned(OCTETS(clock_description), image, 65535, 2024, 1, 1), 1));
    CHECK(is_answer(bilashonge_seasoned(OCTETS(clock_description), image, 65535, 2023, 12, 31), 0));
    CHECK(refused_so(OCTETS(clock_description), image, 65536, 8, 0, 0));
    CHECK(refused_so(OCTETS(clock_description), clock_image, 0, 9, 1, 0));
    for (size_t length = 1; length < 10; length++)
        CHECK(refused_so(OCTETS(clock_description), clock_image, length, 9, 3, 1));
    for (size_t length = 10; length < sizeof clock_image; length++)
        CHECK(refused_so(OCTETS(clock_description), clock_image, length, 9, 5, 10));
}

/* Refused by that number, whether the date is real or not. */
static bool no_calendar(const uint8_t *description, size_t description_length, const uint8_t *image,
                        size_t image_length, uint64_t number)
{
    struct bilashonge_answer real =
        bilashonge_seasoned(description, description_length, image, image_length, 2024, 3, 5);
    struct bilashonge_answer unreal =
        bilashonge_seasoned(description, description_length, image, image_length, 2023, 2, 29);
    return no_answer(real, number) && no_answer(unreal, number);
}

/* 10: neither table, or not both; and those of the manufacturer aren't they. */
static void seasoned_without_tables(void)
{
    static const struct {
        size_t octet; /* of the description: items 2 and 4 are the tables */
        uint8_t value;
    } changes[] = {{9, 0x34}, {17, 0x37}, {8, 0x18}, {16, 0x18}};
    CHECK(no_calendar(OCTETS(D), OCTETS(first_image), 10));
    for (size_t k = 0; k < sizeof changes / sizeof changes[0]; k++) {
        uint8_t description[sizeof clock_description];
        memcpy(description, clock_description, sizeof description);
        description[changes[k].octet] = changes[k].value;
        CHECK(no_calendar(OCTETS(description), OCTETS(clock_image), 10));
    }
}

/* 20: a table that the description makes an octet shorter or longer, and counts and flags of Table 51 that
 * want another Table 54. The size that Table 51 has last isn't used. */
static void seasoned_of_wrong_size(void)
{
    static const struct {
        size_t octet; /* of the description: items 3 and 5 are the BLOCKs */
        uint8_t value;
    } blocks[] = {{13, 0x08}, {13, 0x0a}, {21, 0x0b}, {21, 0x0d}};
    static const struct {
        size_t octet;
        uint8_t value;
    } counts[] = {{FLAGS, 0x20}, {FLAGS, 0x28}, {MORE_FLAGS, 0x02}, {ROWS, 0x00}, {ROWS, 0x02}, {ROWS, 0x11},
                  {RECORDS, 0}, {RECORDS, 2}, {RECORDS, 255}, {RECURRING, 1}, {RECURRING, 255}, {SWITCHES, 1},
                  {SWITCHES, 3}, {SWITCHES + 1, 1}};
    uint8_t longer_image[sizeof clock_image + 1] = {0};
    memcpy(longer_image, clock_image, sizeof clock_image);
    for (size_t k = 0; k < sizeof blocks / sizeof blocks[0]; k++) {
        uint8_t description[sizeof clock_description];
        memcpy(description, clock_description, sizeof description);
        description[blocks[k].octet] = blocks[k].value;
        CHECK(no_calendar(OCTETS(description), OCTETS(longer_image), 20));
    }
    for (size_t k = 0; k < sizeof counts / sizeof counts[0]; k++) {
        uint8_t image[sizeof clock_image];
        memcpy(image, clock_image, sizeof image);
        image[counts[k].octet] = counts[k].value;
        CHECK(no_calendar(CHANGED, 20));
    }
    uint8_t image[sizeof clock_image];
    memcpy(image, clock_image, sizeof image);
    image[SWITCHES + 2] = image[SWITCHES + 3] = 0xff;
    CHECK(is_answer(bilashonge_seasoned(CHANGED, 2024, 1, 1), 1));
}

/* Answered or refused, what is lent stays as it is. */
static void seasoned_changes_nothing(void)
{
    uint8_t description[sizeof clock_description], image[sizeof clock_image];
    memcpy(description, clock_description, sizeof description);
    memcpy(image, clock_image, sizeof image);
    CHECK(is_answer(bilashonge_seasoned(OCTETS(description), OCTETS(image), 2024, 1, 1), 1));
    CHECK(SAME(description, clock_description) && SAME(image, clock_image));
    CHECK(is_answer(bilashonge_seasoned(OCTETS(description), OCTETS(image), 2023, 12, 31), 0));
    CHECK(SAME(description, clock_description) && SAME(image, clock_image));
    CHECK(no_answer(bilashonge_seasoned(OCTETS(description), OCTETS(image), 2023, 2, 29), 16));
    CHECK(SAME(description, clock_description) && SAME(image, clock_image));
    CHECK(refused_so(OCTETS(description), image, sizeof image - 1, 9, 5, 10));
    CHECK(SAME(description, clock_description) && SAME(image, clock_image));
    CHECK(refused_so(description, sizeof description - 1, OCTETS(image), 1, 0, 0));
    CHECK(SAME(description, clock_description) && SAME(image, clock_image));
}

/* ---------------------------------------------------------------------------------------------- weekdays */

/* Worked out from 1 January 2000, a Saturday. Every date is in weekdays.c. */
static void weekdays_at_the_ends(void)
{
    CHECK(is_weekday(bilashonge_weekday_of(1990, 1, 1), 1));
    CHECK(is_weekday(bilashonge_weekday_of(2089, 12, 31), 6));
    CHECK(is_weekday(bilashonge_weekday_of(1999, 12, 31), 5));
    CHECK(is_weekday(bilashonge_weekday_of(2000, 1, 1), 6));
    CHECK(no_weekday(bilashonge_weekday_of(1989, 12, 31)));
    CHECK(no_weekday(bilashonge_weekday_of(2090, 1, 1)));
}

/* Where a year has a leap day, it takes its place between 28 February and 1 March. */
static void weekdays_round_leap_days(void)
{
    static const struct {
        uint32_t year;
        uint64_t last; /* 28 February's */
        bool leap;
    } years[] = {{1992, 5, true}, {2000, 1, true}, {2023, 2, false}, {2024, 3, true}, {2088, 6, true}};
    for (size_t k = 0; k < sizeof years / sizeof years[0]; k++) {
        uint32_t year = years[k].year;
        uint64_t last = years[k].last;
        struct bilashonge_weekday leap_day = bilashonge_weekday_of(year, 2, 29);
        CHECK(is_weekday(bilashonge_weekday_of(year, 2, 28), last));
        CHECK(years[k].leap ? is_weekday(leap_day, (last + 1) % 7) : no_weekday(leap_day));
        CHECK(is_weekday(bilashonge_weekday_of(year, 3, 1), (last + (years[k].leap ? 2 : 1)) % 7));
        CHECK(no_weekday(bilashonge_weekday_of(year, 2, 30)));
    }
}

/* The first of each month, of a common year and of a leap year; and the last, with the day behind it. */
static void weekdays_of_months(void)
{
    static const struct {
        uint32_t year;
        uint32_t lengths[12];
        uint64_t firsts[12];
    } years[] = {
        {2023, {31, 28, 31, 30, 31, 30, 31, 31, 30, 31, 30, 31}, {0, 3, 3, 6, 1, 4, 6, 2, 5, 0, 3, 5}},
        {2024, {31, 29, 31, 30, 31, 30, 31, 31, 30, 31, 30, 31}, {1, 4, 5, 1, 3, 6, 1, 4, 0, 2, 5, 0}},
    };
    for (size_t k = 0; k < sizeof years / sizeof years[0]; k++)
        for (uint32_t month = 1; month <= 12; month++) {
            uint32_t length = years[k].lengths[month - 1];
            uint64_t first = years[k].firsts[month - 1];
            CHECK(no_weekday(bilashonge_weekday_of(years[k].year, month, 0)));
            CHECK(is_weekday(bilashonge_weekday_of(years[k].year, month, 1), first));
            CHECK(is_weekday(bilashonge_weekday_of(years[k].year, month, length), (first + length - 1) % 7));
            CHECK(no_weekday(bilashonge_weekday_of(years[k].year, month, length + 1)));
        }
}

/* ---------------------------------------------------------------------------------------------- overlaps */

/* The description stands inside the image, past its tables: each reply is as of copies. */
static void description_in_image(void)
{
    uint8_t image[sizeof first_image + sizeof D];
    uint8_t calendar[sizeof clock_image + sizeof clock_description];
    const uint8_t *within = image + sizeof first_image;
    const uint8_t *within_calendar = calendar + sizeof clock_image;
    static const cells_of_matrix expected = {{0x01, 0x01, 0x01}};
    cells_of_matrix cells = {{0}};
    memcpy(image, first_image, sizeof first_image);
    memcpy(image + sizeof first_image, D, sizeof D);
    memcpy(calendar, clock_image, sizeof clock_image);
    memcpy(calendar + sizeof clock_image, clock_description, sizeof clock_description);
    CHECK(is_total(bilashonge_layout(within, sizeof D, OCTETS(image)), 8));
    CHECK(is_place(bilashonge_table_place(within, sizeof D, OCTETS(image), 0, 5), 2, 6));
    CHECK(is_place(bilashonge_range_place(within, sizeof D, OCTETS(image), 0, 5, 1, 4), 3, 4));
    CHECK(is_place(bilashonge_element_place(within, sizeof D, OCTETS(image), 7, SUBSCRIPTS(one)), 6, 2));
    CHECK(is_number(bilashonge_element_number(within, sizeof D, OCTETS(image), 7, SUBSCRIPTS(one)),
                    0x5678));
    CHECK(is_tier(bilashonge_tier_at(within_calendar, sizeof clock_description, OCTETS(calendar), 2024, 3,
                                     5, 7, 30, 0), 2));
    CHECK(is_answer(bilashonge_seasoned(within_calendar, sizeof clock_description, OCTETS(calendar), 2023,
                                        12, 31), 0));
    CHECK(is_answer(bilashonge_seasoned(within_calendar, sizeof clock_description, OCTETS(calendar), 2024, 1,
                                        1), 1));
    CHECK(answered(bilashonge_matrix(within_calendar, sizeof clock_description, OCTETS(calendar), cells)));
    CHECK(SAME(cells, expected));
}

/* D is its own image: slot 2 is its second octet, 0, so table 5 has no octets. The new meter's description is
 * its own: Table 51 is then 00 00 01 20 10 00 00 10 33, of which the fourth octet says 32 records, and Table
 * 54 is too short for them. */
static void description_as_image(void)
{
    CHECK(is_total(bilashonge_layout(OCTETS(D), OCTETS(D)), 2));
    CHECK(is_place(bilashonge_table_place(OCTETS(D), OCTETS(D), 0, 5), 2, 0));
    CHECK(is_place(bilashonge_range_place(OCTETS(D), OCTETS(D), 0, 0, 1, 1), 1, 1));
    CHECK(no_answer(bilashonge_seasoned(OCTETS(new_description), OCTETS(new_description), 2024, 3, 5), 20));
}

/* Data inside the description (its octets 8 and 9 are 20 20), and subscripts inside the image. */
static void other_overlaps(void)
{
    static const uint8_t after[] = {0x00, 0x82, 0x20, 0x20, 0x34, 0x12, 0x78, 0x56};
    uint8_t image[sizeof first_image];
    size_t words[2] = {0, 1};
    memcpy(image, first_image, sizeof image);
    CHECK(answered(bilashonge_write_range(OCTETS(D), OCTETS(image), 0, 5, 0, D + 8, 2)));
    CHECK(SAME(image, after));
    memcpy(image, first_image, sizeof image);
    CHECK(answered(bilashonge_write_octets(OCTETS(D), OCTETS(image), 5, NONE, D + 8, 2)));
    CHECK(SAME(image, after));
    memcpy(&words[0], first_image, sizeof first_image);
    CHECK(is_number(bilashonge_element_number(OCTETS(D), (const uint8_t *)words, sizeof words, 7,
                                              &words[1], 1), 0x5678));
}

/* A request that stands in the description, and data that stand there: its octets 12 to 14 are 30 01 00. */
static void messages_in_description(void)
{
    static const uint8_t written[] = {0x40, 0x01, 0x00, 0x00, 0x03, 0x30, 0x01, 0x00, 0xcf};
    static const uint8_t replied[] = {0x00, 0x00, 0x03, 0x30, 0x01, 0x00, 0xcf};
    const uint8_t *within = asking_description + 12;
    uint8_t image[sizeof asking_image], room[sizeof written];
    memcpy(image, asking_image, sizeof image);
    CHECK(is_total(bilashonge_serve(OCTETS(asking_description), OCTETS(image), within, 3, OCTETS(room)), 5));
    CHECK(memcmp(room, its_reply, sizeof its_reply) == 0 && SAME(image, asking_image));
    struct bilashonge_request request = bilashonge_read_request(within, 3);
    CHECK(request.code == 0 && request.kind == 48 && request.id == 256 && request.offset == 0);
    CHECK(request.count == 0 && request.start == 0);
    CHECK(is_total(bilashonge_write_request(BILASHONGE_FULL_WRITE, 256, 0, 0, within, 3, OCTETS(room)), 9));
    CHECK(SAME(room, written));
    CHECK(is_total(bilashonge_write_reply(BILASHONGE_REPLY_DATA, 0, within, 3, OCTETS(room)), 7));
    CHECK(memcmp(room, replied, sizeof replied) == 0);
}

/* --------------------------------------------------------------------------------------- nothing is kept */

static void two_images_in_turn(void)
{
    for (int turn = 0; turn < 3; turn++) {
        CHECK(is_total(bilashonge_layout(OCTETS(D), OCTETS(first_image)), 8));
        CHECK(is_total(bilashonge_layout(OCTETS(D), OCTETS(second_image)), 6));
        CHECK(is_place(bilashonge_table_place(OCTETS(D), OCTETS(first_image), 0, 5), 2, 6));
        CHECK(is_place(bilashonge_table_place(OCTETS(D), OCTETS(second_image), 0, 5), 2, 4));
        CHECK(is_number(bilashonge_element_number(OCTETS(D), OCTETS(first_image), 7, SUBSCRIPTS(zero)),
                        0x1234));
        CHECK(is_number(bilashonge_element_number(OCTETS(D), OCTETS(second_image), 7, SUBSCRIPTS(zero)),
                        0x3412));
    }
}

static void two_descriptions_in_turn(void)
{
    for (int turn = 0; turn < 3; turn++) {
        CHECK(answered(bilashonge_check(OCTETS(D))));
        CHECK(is_refusal(bilashonge_check(OCTETS(D_unset)), 7, 4, 0));
        CHECK(is_tier(bilashonge_tier_at(OCTETS(clock_description), OCTETS(clock_image), 2024, 3, 5, 8, 0,
                                         1), 2));
        CHECK(is_tier(bilashonge_tier_at(OCTETS(apart_description), OCTETS(apart_image), 2024, 3, 5, 8, 0,
                                         1), 3));
        CHECK(is_answer(bilashonge_seasoned(OCTETS(clock_description), OCTETS(clock_image), 2024, 3, 5), 1));
        CHECK(is_answer(bilashonge_seasoned(OCTETS(new_description), OCTETS(new_image), 2024, 3, 5), 0));
    }
}

static void weekdays_in_turn(void)
{
    for (int turn = 0; turn < 3; turn++) {
        CHECK(is_weekday(bilashonge_weekday_of(2024, 2, 29), 4));
        CHECK(no_weekday(bilashonge_weekday_of(2024, 2, 30)));
        CHECK(is_weekday(bilashonge_weekday_of(2024, 12, 25), 3));
    }
}

/* What was put into a room is read where it stands, and its data are lent on from there. */
static void messages_passed_on(void)
{
    static const uint8_t octets[] = {0x7e};
    uint8_t image[sizeof asking_image], request[16], room[16], again[16];
    memcpy(image, asking_image, sizeof image);
    for (int turn = 0; turn < 3; turn++) {
        struct bilashonge_total written =
            bilashonge_write_request(BILASHONGE_OFFSET_WRITE, 256, 0, 0, OCTETS(octets), OCTETS(request));
        CHECK(is_total(written, 10));
        CHECK(is_total(bilashonge_serve(OCTETS(asking_description), OCTETS(image), request, 10, OCTETS(room)),
                       1));
        CHECK(is_reply(bilashonge_read_reply(room, 1), BILASHONGE_REPLY_DONE, 0, 0, 0));
        CHECK(image[0] == 0x00 && image[1] == 0x7e);
        CHECK(is_total(bilashonge_serve(OCTETS(asking_description), OCTETS(image), OCTETS(full_read),
                                        OCTETS(room)), 5));
        CHECK(is_reply(bilashonge_read_reply(room, 5), BILASHONGE_REPLY_DATA, 0, 1, 3));
        CHECK(is_total(bilashonge_write_reply(BILASHONGE_REPLY_DATA, 0, room + 3, 1, OCTETS(again)), 5));
        CHECK(memcmp(room, again, 5) == 0 && room[3] == 0x7e && room[4] == 0x82);
        CHECK(no_reply(bilashonge_read_reply(room, 4)));
        CHECK(answered(bilashonge_write_range(OCTETS(asking_description), OCTETS(image), 0, 256, 0,
                                              asking_image + 1, 1)));
        CHECK(SAME(image, asking_image));
    }
}

/* The caller changes the image where it stands: the next call sees it. Without bit 7 of slot 2 the BLOCK is
 * gone, and what was its octets are item 7's. */
static void image_changed_in_place(void)
{
    uint8_t image[sizeof first_image];
    memcpy(image, first_image, sizeof image);
    for (int turn = 0; turn < 2; turn++) {
        image[1] = 0x82;
        CHECK(is_total(bilashonge_layout(OCTETS(D), OCTETS(image)), 8));
        CHECK(is_number(bilashonge_element_number(OCTETS(D), OCTETS(image), 7, SUBSCRIPTS(zero)), 0x1234));
        image[1] = 0x02;
        CHECK(is_total(bilashonge_layout(OCTETS(D), OCTETS(image)), 6));
        CHECK(is_number(bilashonge_element_number(OCTETS(D), OCTETS(image), 7, SUBSCRIPTS(zero)), 0xbbaa));
    }
}

/* A write, what is read then, and the write back. Both images: least significant octet first, and last. */
static void written_and_read(void)
{
    static const uint8_t first_after[] = {0x00, 0x82, 0xaa, 0xbb, 0x34, 0x12, 0x02, 0x01};
    static const uint8_t second_after[] = {0x01, 0x02, 0x34, 0x12, 0x01, 0x02};
    uint8_t image[sizeof first_image], other[sizeof second_image];
    memcpy(image, first_image, sizeof image);
    memcpy(other, second_image, sizeof other);
    for (int turn = 0; turn < 2; turn++) {
        CHECK(answered(bilashonge_write_number(OCTETS(D), OCTETS(image), 7, SUBSCRIPTS(one), 0x0102)));
        CHECK(SAME(image, first_after));
        CHECK(is_number(bilashonge_element_number(OCTETS(D), OCTETS(image), 7, SUBSCRIPTS(one)), 0x0102));
        CHECK(answered(bilashonge_write_number(OCTETS(D), OCTETS(other), 7, SUBSCRIPTS(one), 0x0102)));
        CHECK(SAME(other, second_after));
        CHECK(refused(bilashonge_write_number(OCTETS(D), OCTETS(image), 7, SUBSCRIPTS(one), 65536), 15));
        CHECK(refused(bilashonge_write_number(OCTETS(D), OCTETS(image), 7, SUBSCRIPTS(one), UINT64_MAX),
                      15));
        CHECK(SAME(image, first_after));
        CHECK(answered(bilashonge_write_number(OCTETS(D), OCTETS(image), 7, SUBSCRIPTS(one), 0x5678)));
        CHECK(SAME(image, first_image));
        CHECK(answered(bilashonge_write_number(OCTETS(D), OCTETS(other), 7, SUBSCRIPTS(one), 0x7856)));
        CHECK(SAME(other, second_image));
    }
}

int main(void)
{
    structs();
    enums();
    starred_reads();
    starred_writes();
    starred_tiers();
    many_subscripts();
    table_names();
    quantities();
    null_description();
    null_image();
    null_messages();
    null_data();
    null_subscripts();
    causes();
    ways_through();
    causes_come_later();
    items_that_are_none();
    depths();
    outside_in();
    cells_untouched();
    cells_overwritten();
    full_matrix();
    stands_from_its_day_on();
    asked_of_no_date();
    armed();
    actions();
    records_of_no_date();
    records_at_the_ends();
    several_records();
    recurring_records();
    no_records();
    two_seasons();
    seasoned_of_unsound();
    seasoned_of_long_and_short();
    seasoned_without_tables();
    seasoned_of_wrong_size();
    seasoned_changes_nothing();
    weekdays_at_the_ends();
    weekdays_round_leap_days();
    weekdays_of_months();
    description_in_image();
    description_as_image();
    other_overlaps();
    messages_in_description();
    two_images_in_turn();
    two_descriptions_in_turn();
    weekdays_in_turn();
    messages_passed_on();
    image_changed_in_place();
    written_and_read();
    printf("%u checks, %u failed\n", checks, failures);
    return failures == 0 ? 0 : 1;
}
