/*
 * Bilashonge: a meter's tables (ANSI C12.19) worked out from the octets lent to each call.
 *
 * A DESCRIPTION says how a meter's tables are built: 1 to 512 items of four octets, the first octet
 * most significant. An IMAGE holds the octets of those tables, joined in the description's order, at
 * most 65,535 of them. Every function works the layout out anew and keeps nothing: no global, no
 * allocation, no file; of the C library it calls memcpy and memset alone. Calls may run at the same
 * time on any threads, as long as nobody writes to memory that another of them is lent.
 *
 * EVERY CALL IS ANSWERED OR REFUSED. A reply begins with a struct bilashonge_refusal. Where its
 * number is 0 the question is answered. Else it is one of enum bilashonge_refusal_number, the reply's
 * other numbers are 0, and no octet that was lent has changed. Any octets may be lent as description,
 * image, data or message: damaged ones are refused, not misread. (bilashonge_read_request alone has
 * no refusal: what is wrong with a request is told by the octet that a meter replies.)
 *
 * POINTERS. An octet pointer comes with its length right behind it. It may be null where that length
 * is 0, and must otherwise point to that many octets. A pointer to subscripts comes with their count,
 * likewise. cells must not be null. Memory that a call may write (image in the three writes and in
 * bilashonge_serve, cells in bilashonge_matrix, room) must not overlap any other memory lent to that
 * call; memory that is only read may overlap. What is written: image in place, its length never
 * changes; cells whole; of room the octets of the message, from its first on. Nothing else.
 *
 * ITEMS of a description, by bits 31 to 28, with what stands in the other bits (all else is 0):
 *   1 TABLE  27 manufacturer's, 26..16 number, 15 writable, 14..0 items in its body
 *   2 UINT   27..26 octets (0, 1, 2 for 1, 2, 4), 25..20 slot that its number is kept in (0 for none)
 *   3 BLOCK  27..16 octets
 *   4 SET    reference; 11 clear: the value is octets, set: flags, eight to an octet
 *   5 ARRAY  reference (how often), 11..0 items in its body
 *   6 IF     reference (not 0 is true), 11..6 items if true, 5..0 items if false, which follow those
 * A reference is 27..22 slot, 21..17 low bit, 16..12 width less 1: so many bits of the slot's number, bit
 * 0 least significant. Items in a body are counted with all that is nested in them. A UINT that keeps its
 * number in a slot is a dimension: later items are laid out by it, so no write may touch it.
 *
 * MESSAGES of ANSI C12.18, an octet a cell, numbers most significant octet first:
 *
 *   full read     30 | id .. |
 *   offset read   3F | id .. | offset .. .. | count .. |
 *   full write    40 | id .. | count .. | data ... | check |
 *   offset write  4F | id .. | offset .. .. | count .. | data ... | check |
 *
 *   reply to a good read    00 | count .. | data ... | check |
 *   reply to a good write   00 |
 *   a request refused       01 | faulty: empty, of a wrong length, or a wrong check octet
 *                           02 | no such request: the first octet is none of the four
 *                           03 | the table isn't writable (refusal 13)
 *                           04 | any other refusal of the tables, 1 to 9 included
 *
 * id is a table's number, for a manufacturer's table plus 2,048; over 4,095 it names no table. count
 * is that of the data octets; check is what makes the sum of data and check a multiple of 256: the
 * data octets added up, wrapping at 256, then negated. The longest message is an offset write of
 * 65,535 data octets, 65,544 octets in all.
 *
 * NUMBERS. Octets, items, tables' offsets and subscripts count from 0. Structs hold uint64_t alone,
 * so they have no padding. Structs are returned by value. The library is compiled for x86-64 Linux
 * (System V calling convention); a call takes less than 20 kB of stack.
 *
 * Link with -lbilashonge. C99, C11 and C++ compile this header.
 */
#ifndef BILASHONGE_H
#define BILASHONGE_H

#include <stddef.h>
#include <stdint.h>

#ifdef __cplusplus
extern "C" {
#endif

/*
 * Why a question is refused. Of all that apply, a question gives the first in this order: about a
 * table or a range 1 to 9, 10, 12, 13, 14; about an element 1 to 9, 22, 26, 24, then 23 or 25, then
 * 13, 14, 15; about the calendar 1 to 9, 10, 20, 16, 18, 19. A message gives 21 or 43 alone. 2 to 7
 * report the first item that breaks a rule, with the lowest number of those that it breaks. 11 and 17
 * are reserved. 11 was given for any of 22 to 26; 17 was given for a day before every season record,
 * which is now in season 0.
 *
 * 22 to 26 say why there is no such element. What stands round an element is judged from the outside
 * in, and the first in the way is told: 23 for an IF, 25 for an ARRAY. So a subscript that is too
 * large gives 25 even where a branch inside that ARRAY isn't chosen, and a branch that isn't chosen
 * gives 23 even where a subscript inside it is too large. With 25, depth is the place of that
 * subscript: 0 for the outermost ARRAY, 1 for the ARRAY inside it, at most 3. IFs aren't counted in it.
 *
 *   no.  what it means                                  what to tell a crew
 *   22   The item isn't an element: it is a TABLE, an   The description has no entry of that number.
 *        ARRAY or an IF, or past the last item.         Check that the description is the one for
 *                                                       this meter.
 *   23   The element stands in a branch of an IF that   This meter is set up without this entry. Go
 *        isn't chosen.                                  on without it; ask the office if it should
 *                                                       be there.
 *   24   There are fewer or more subscripts than        Too few or too many places were given for
 *        ARRAYs round the element; over four are        this entry. Give one for each list that it
 *        always too many.                               stands in.
 *   25   A subscript isn't below its ARRAY's count,     The list (depth 0 is the outermost) has no
 *        and depth tells which. Where that count is 0,  such place. Look at it again: it may be
 *        every subscript is too large.                  shorter now.
 *   26   A number is read or written, and the element   This entry holds octets and isn't a number.
 *        is a BLOCK or a SET.                           Read or write its octets instead.
 */
enum bilashonge_refusal_number {
    BILASHONGE_ANSWERED = 0,             /* not refused */
    BILASHONGE_DESCRIPTION_LENGTH = 1,   /* description of 0 octets, over 2,048, or not whole items */
    BILASHONGE_MALFORMED_ITEM = 2,       /* kind unknown, width code 3, spare bit set, count or slot too low */
    BILASHONGE_MISPLACED_ITEM = 3,       /* item at a level or place it may not have */
    BILASHONGE_BODY_OVERRUNS = 4,        /* body runs past what encloses it */
    BILASHONGE_FIFTH_LEVEL = 5,          /* an ARRAY or IF inside four others */
    BILASHONGE_GIVEN_TWICE = 6,          /* slot or table given twice */
    BILASHONGE_BAD_REFERENCE = 7,        /* reference to a slot not set earlier, or bits outside it */
    BILASHONGE_IMAGE_TOO_LONG = 8,       /* image over 65,535 octets */
    BILASHONGE_IMAGE_SHORT = 9,          /* image ends inside item, which starts at octet */
    BILASHONGE_NO_TABLE = 10,            /* no such table */
    BILASHONGE_RESERVED_11 = 11,         /* no longer given */
    BILASHONGE_OUTSIDE_TABLE = 12,       /* offset + length over the table's size */
    BILASHONGE_NOT_WRITABLE = 13,        /* table not marked writable */
    BILASHONGE_HOLDS_DIMENSION = 14,     /* what would be written holds an octet of a dimension */
    BILASHONGE_WRONG_SIZE = 15,          /* data of another length than the element, or number too large */
    BILASHONGE_NOT_A_DATE = 16,          /* no real date of 1990 to 2089, or no time 00:00 to 23:59 */
    BILASHONGE_RESERVED_17 = 17,         /* no longer given */
    BILASHONGE_SEASON_CHANGE_ARMED = 18, /* SEASON_CHNG_ARMED_FLAG set */
    BILASHONGE_NO_ROW_OR_COLUMN = 19,    /* season or special schedule without a row or column; no seasons at all */
    BILASHONGE_NOT_A_CALENDAR = 20,      /* Table 51 isn't 9 octets, or Table 54 not of the size it says */
    BILASHONGE_NO_ROOM = 21,             /* message longer than room; a number or a kind that its field can't hold */
    BILASHONGE_NOT_AN_ELEMENT = 22,      /* item that is a TABLE, ARRAY or IF, or past the last item */
    BILASHONGE_BRANCH_NOT_CHOSEN = 23,   /* element in a branch that isn't chosen */
    BILASHONGE_SUBSCRIPT_COUNT = 24,     /* fewer or more subscripts than ARRAYs round the element, or over four */
    BILASHONGE_SUBSCRIPT_TOO_LARGE = 25, /* subscript not below its ARRAY's count; depth tells which */
    BILASHONGE_NOT_A_NUMBER = 26,        /* number read or written of a BLOCK or SET */
    BILASHONGE_NOT_A_REPLY = 43          /* octets that are no reply of a meter */
};

/* number: of enum bilashonge_refusal_number. item: of the description, with 2 to 7 and 9. octet: of
 * the image, with 9. depth: the place of the subscript that is too large, with 25; 0 is that of the
 * outermost ARRAY. All that a refusal doesn't report is 0; all four are 0 where it is answered. */
struct bilashonge_refusal {
    uint64_t number;
    uint64_t item;
    uint64_t octet;
    uint64_t depth;
};

/* total: of octets used: of an image, from octet 0 to the end of the last table; of a room, by the
 * message that was put into it. */
struct bilashonge_total {
    struct bilashonge_refusal refusal;
    uint64_t total;
};

/* start: the first octet, counted in the image. length: in octets; it may be 0. */
struct bilashonge_place {
    struct bilashonge_refusal refusal;
    uint64_t start;
    uint64_t length;
};

/* number: an element's, at most 4,294,967,295. */
struct bilashonge_number {
    struct bilashonge_refusal refusal;
    uint64_t number;
};

/* none: 1 where no switch has come yet that day, and then tier is 0; else 0. tier: 0 to 7. */
struct bilashonge_tier {
    struct bilashonge_refusal refusal;
    uint64_t none;
    uint64_t tier;
};

/* yes: 1 for yes, 0 for no. */
struct bilashonge_answer {
    struct bilashonge_refusal refusal;
    uint64_t yes;
};

/* weekday: 0 for Sunday to 6 for Saturday. */
struct bilashonge_weekday {
    struct bilashonge_refusal refusal;
    uint64_t weekday;
};

/* The kinds of requests: the first octet of each. */
enum bilashonge_request_kind {
    BILASHONGE_FULL_READ = 0x30,
    BILASHONGE_OFFSET_READ = 0x3F,
    BILASHONGE_FULL_WRITE = 0x40,
    BILASHONGE_OFFSET_WRITE = 0x4F
};

/* The kinds of replies. */
enum bilashonge_reply_kind {
    BILASHONGE_REPLY_DATA = 1,
    BILASHONGE_REPLY_DONE = 2,
    BILASHONGE_REPLY_REFUSED = 3
};

/* A request that was read. code: 0, or the octet that a meter refuses it by, 1 or 2, and then all
 * else is 0. kind: of enum bilashonge_request_kind. offset: 0 in the full forms. count: of octets to
 * be read or written, 0 in a full read. start: where a write's data start, counted in the request; 0 in
 * the reads, which have none. */
struct bilashonge_request {
    uint64_t code;
    uint64_t kind;
    uint64_t id;
    uint64_t offset;
    uint64_t count;
    uint64_t start;
};

/* A reply that was read. kind: of enum bilashonge_reply_kind. code: the octet that refuses, 1 to 4,
 * else 0. count: of data octets, and start: where they start, counted in the reply; else 0. */
struct bilashonge_reply {
    struct bilashonge_refusal refusal;
    uint64_t kind;
    uint64_t code;
    uint64_t count;
    uint64_t start;
};

/* What a tier is asked for. Any number but 0 is taken for demands. */
enum bilashonge_quantity {
    BILASHONGE_SUMMATIONS = 0,
    BILASHONGE_DEMANDS = 1
};

/* The matrix: a row a season; columns are days, then special schedules. */
enum bilashonge_matrix_size {
    BILASHONGE_MATRIX_ROWS = 15,
    BILASHONGE_MATRIX_COLUMNS = 22
};

/*
 * IS THIS DESCRIPTION SOUND? Answered where it is; else refused by 1 to 7. The other functions give
 * the same refusals themselves, so nobody has to call this first.
 */
struct bilashonge_refusal bilashonge_check(
    const uint8_t *description, size_t description_length);

/*
 * LAY THE IMAGE OUT: the total of octets used, or 1 to 9. Octets of the image past the total belong
 * to no table.
 */
struct bilashonge_total bilashonge_layout(
    const uint8_t *description, size_t description_length,
    const uint8_t *image, size_t image_length);

/*
 * WHERE IS THIS TABLE? Its octets are image + start, length of them; or 1 to 10. manufacturer is 0
 * for a table of the standard, 1 for one of the manufacturer; with any other there is no such table.
 */
struct bilashonge_place bilashonge_table_place(
    const uint8_t *description, size_t description_length,
    const uint8_t *image, size_t image_length,
    uint32_t manufacturer, uint32_t number);

/*
 * WHERE IS THIS RANGE OF A TABLE? length octets from offset on, offset counted in the table. They are
 * image + start, length of them; or 1 to 10 and 12. A range of no octets, at an offset up to the
 * table's length, is answered.
 */
struct bilashonge_place bilashonge_range_place(
    const uint8_t *description, size_t description_length,
    const uint8_t *image, size_t image_length,
    uint32_t manufacturer, uint32_t number,
    size_t offset, size_t length);

/*
 * WHERE IS THIS ELEMENT? Its octets are image + start, length of them; or 1 to 9 and 22 to 25. An
 * element is a UINT, BLOCK or SET of the description, named by its item and one subscript for each
 * ARRAY round it, outermost first.
 */
struct bilashonge_place bilashonge_element_place(
    const uint8_t *description, size_t description_length,
    const uint8_t *image, size_t image_length,
    size_t item, const size_t *subscripts, size_t subscript_count);

/*
 * THE ELEMENT'S NUMBER, of a UINT, read in the image's DATA_ORDER; or 1 to 9 and 22 to 26.
 */
struct bilashonge_number bilashonge_element_number(
    const uint8_t *description, size_t description_length,
    const uint8_t *image, size_t image_length,
    size_t item, const size_t *subscripts, size_t subscript_count);

/*
 * WRITE A RANGE OF A TABLE: data_length octets from offset on, offset counted in the table. Refused
 * by 1 to 10, 12, 13, 14. Data of no octets, at an offset up to the table's length, change nothing;
 * they are not refused by 12 or 14, but by 13 where the table isn't marked writable.
 */
struct bilashonge_refusal bilashonge_write_range(
    const uint8_t *description, size_t description_length,
    uint8_t *image, size_t image_length,
    uint32_t manufacturer, uint32_t number,
    size_t offset, const uint8_t *data, size_t data_length);

/*
 * WRITE AN ELEMENT'S OCTETS, as many as it has. Refused by 1 to 9, 22 to 25, 13, 14, 15.
 */
struct bilashonge_refusal bilashonge_write_octets(
    const uint8_t *description, size_t description_length,
    uint8_t *image, size_t image_length,
    size_t item, const size_t *subscripts, size_t subscript_count,
    const uint8_t *data, size_t data_length);

/*
 * WRITE AN ELEMENT'S NUMBER, of a UINT, in the image's DATA_ORDER. Refused by 1 to 9, 22 to 26, 13,
 * 14, 15.
 */
struct bilashonge_refusal bilashonge_write_number(
    const uint8_t *description, size_t description_length,
    uint8_t *image, size_t image_length,
    size_t item, const size_t *subscripts, size_t subscript_count,
    uint64_t value);

/*
 * THE TIER at a date and time, of tables 51 and 54; or 1 to 10, 16, 18, 19 and 20. year is written
 * whole (2024), month and day from 1. quantity is of enum bilashonge_quantity. A day before every
 * season record is in season 0, so a meter that has none yet is in season 0 on every day.
 */
struct bilashonge_tier bilashonge_tier_at(
    const uint8_t *description, size_t description_length,
    const uint8_t *image, size_t image_length,
    uint32_t year, uint32_t month, uint32_t day, uint32_t hour, uint32_t minute,
    uint32_t quantity);

/*
 * DOES A SEASON RECORD STAND at or before this date: does any record of Table 54 with a real date
 * select a season by then; or 1 to 10, 16 and 20. Where none stands, the tier of that day is season
 * 0's because no record says otherwise. A record counts though its season has no row, and though a
 * season change is armed.
 */
struct bilashonge_answer bilashonge_seasoned(
    const uint8_t *description, size_t description_length,
    const uint8_t *image, size_t image_length,
    uint32_t year, uint32_t month, uint32_t day);

/*
 * WHICH DAY OF THE WEEK is this date, by the Gregorian calendar; or 16 alone, where it is no real
 * date of 1990 to 2089, as 29 February 2023 and 31 April. No table has a part in it, so nothing is
 * lent.
 */
struct bilashonge_weekday bilashonge_weekday_of(
    uint32_t year, uint32_t month, uint32_t day);

/*
 * THE SCHEDULE MATRIX: into cells, the schedule number of each season (row) and day (column), as they
 * stand in Table 54's rows: Sunday to Saturday or, where Table 51 says that weekdays share a column,
 * Saturday, Sunday, weekday; then the special schedules. Unused cells are set to 0. Refused by 1 to 10
 * and 20, and then cells are left as they are. How many are in use stands in Table 51: octet 2 has the
 * seasons in bits 0 to 3 and the special schedules in bits 4 to 7; bit 1 of octet 1 is set where each
 * day of the week has its own column.
 */
struct bilashonge_refusal bilashonge_matrix(
    const uint8_t *description, size_t description_length,
    const uint8_t *image, size_t image_length,
    uint8_t cells[BILASHONGE_MATRIX_ROWS][BILASHONGE_MATRIX_COLUMNS]);

/*
 * ANSWER A REQUEST, as a meter with these tables would: the reply is put into room, from its first
 * octet on, total octets long. A good write is made in image, as bilashonge_write_range makes it; a
 * full write's count must be the table's length. A request that is refused is answered by the octet
 * that says so, and changes image nowhere. The call itself is refused by 21 alone, where the reply is
 * longer than room: then nothing is written, neither image nor room. A room of one octet holds every
 * reply to a write, one of four octets more than are read the reply to a read; 65,539 hold any.
 */
struct bilashonge_total bilashonge_serve(
    const uint8_t *description, size_t description_length,
    uint8_t *image, size_t image_length,
    const uint8_t *request, size_t request_length,
    uint8_t *room, size_t room_length);

/*
 * READ A REQUEST. Its id is told as it came, also where it names no table. Written again, with
 * request + start and count octets as a write's data and none for a read, it has the same octets.
 */
struct bilashonge_request bilashonge_read_request(
    const uint8_t *request, size_t request_length);

/*
 * WRITE A REQUEST into room, total octets long; or 21: id or count over 65,535, offset over
 * 16,777,215, over 65,535 data octets, room too short, or kind none of enum bilashonge_request_kind.
 * Then room is left as it is. What a form lacks isn't looked at: offset in the full forms, count but
 * in the offset read (a write's is data_length), data in the reads. Reading what was written gives it
 * back.
 */
struct bilashonge_total bilashonge_write_request(
    uint64_t kind, uint64_t id, uint64_t offset, uint64_t count,
    const uint8_t *data, size_t data_length,
    uint8_t *room, size_t room_length);

/*
 * READ A REPLY; or 43, where it has none of the three forms, as a single octet of 05 or more.
 */
struct bilashonge_reply bilashonge_read_reply(
    const uint8_t *reply, size_t reply_length);

/*
 * WRITE A REPLY into room, total octets long; or 21: over 65,535 data octets, a code other than 1 to
 * 4, room too short, or kind none of enum bilashonge_reply_kind. Then room is left as it is. code is
 * looked at in a refusal alone, data in a reply to a read alone.
 */
struct bilashonge_total bilashonge_write_reply(
    uint64_t kind, uint64_t code,
    const uint8_t *data, size_t data_length,
    uint8_t *room, size_t room_length);

#ifdef __cplusplus
}
#endif

#endif
