/*
 * one QUESTION ITEMS [RECORDS]: a single call of the C interface, for tests/instructions to count. Fails where it isn't answered, or not refused as the question says, or otherwise than meant.
 *
 * The description has ITEMS items. Table 00, marked writable, holds UINTs of an octet: a dimension in each slot, as far as there are UINTs for it, but the last UINT is none;
 * that is the element asked for and written. Refused by 24, that element is asked for with a subscript too many; refused by 25, the item before it is an ARRAY of one element
 * round it, and the subscript is 1. For tier_at, seasoned and matrix the last four items are tables 51 and 54, of a BLOCK each; Table 54 has RECORDS season records, one
 * unless told otherwise. serve answers an offset write of that element's octet; read_request, write_request, read_reply and write_reply know of no description, so of them ITEMS is
 * how many data octets the message has. weekday_of knows of nothing but the date.
 */
#include "bilashonge.h"

#include <stdbool.h>
#include <stdio.h>
#include <stdlib.h>
#include <string.h>

enum { MOST = 512, WRITTEN = 0x5a };

/* Tables 51 and 54, and their octets, the most significant first: each record selects season 0, the first of them from 1 January 2024 on, the others from dates of all years and
 * months; each day of season 0 has schedule 1, which switches at 00:00 to tier 0 and at 07:30 to tier 2. */
enum { TABLE_51 = 9, RECORD = 3, MOST_RECORDS = 255, SEASON_0 = 3 };
static const uint8_t flags_to_dates[] = {0x00, 0x00, 0x01};
static const uint8_t recurring_to_size[] = {0x00, 0x00, 0x02, 0x00, 0x00};
static const uint8_t switches_and_row[] = {0x00, 0x00, 0x01, 0x3b, 0xc2, 0x01, 0x01, 0x01, 0x01};
enum { MOST_CALENDAR = TABLE_51 + RECORD * MOST_RECORDS + sizeof switches_and_row };

static uint8_t *put(uint8_t *at, const uint8_t *octets, size_t count)
{
    memcpy(at, octets, count);
    return at + count;
}

/* Puts the octets of both tables, and returns how many there are. */
static size_t put_calendar(uint8_t *octets, size_t records)
{
    uint8_t *at = put(octets, flags_to_dates, sizeof flags_to_dates);
    *at++ = (uint8_t)records;
    at = put(at, recurring_to_size, sizeof recurring_to_size);
    for (size_t k = 0; k < records; k++) {
        size_t year = (24 + k) % 90, month = 1 + k % 12, day = 1 + k % 28, date = year | month << 7 | day << 11;
        *at++ = (uint8_t)(date >> 8);
        *at++ = (uint8_t)date;
        *at++ = SEASON_0;
    }
    at = put(at, switches_and_row, sizeof switches_and_row);
    return (size_t)(at - octets);
}

static uint8_t description[4 * MOST], image[MOST + MOST_CALENDAR];

/* Messages: an offset write of table 0, of so many octets WRITTEN from that offset on; and the reply to a read of as many. */
enum { HEAD = 8, REPLY_HEAD = 3 };
static uint8_t request[HEAD + MOST + 1], replied[REPLY_HEAD + MOST + 1], room[HEAD + MOST + 1];

static void set_messages(size_t offset, size_t count)
{
    const uint8_t head[HEAD] = {BILASHONGE_OFFSET_WRITE, 0, 0, 0, (uint8_t)(offset >> 8), (uint8_t)offset, (uint8_t)(count >> 8), (uint8_t)count};
    memcpy(request, head, HEAD);
    memcpy(replied + 1, head + HEAD - 2, 2);
    memset(request + HEAD, WRITTEN, count);
    memset(replied + REPLY_HEAD, WRITTEN, count);
    request[HEAD + count] = replied[REPLY_HEAD + count] = (uint8_t)(0 - WRITTEN * count);
}

static void set_item(size_t i, uint32_t word)
{
    for (int k = 0; k < 4; k++)
        description[4 * i + k] = (uint8_t)(word >> (24 - 8 * k));
}

int main(int arguments, char **argument)
{
    const char *question = arguments >= 3 ? argument[1] : "";
    size_t items = arguments >= 3 ? strtoul(argument[2], NULL, 10) : 0;
    size_t records = arguments >= 4 ? strtoul(argument[3], NULL, 10) : 1;
    bool arrayed = strcmp(question, "element_place, refused by 25") == 0;
    bool dated = strcmp(question, "tier_at") == 0 || strcmp(question, "seasoned") == 0 || strcmp(question, "matrix") == 0;
    if (items < 8 || items > MOST || records > MOST_RECORDS)
        return 2;

    /* Item `last` is the last of table 00, octet `last - 1` of the image. Octet 0, DATA_ORDER, is 1: the most significant octet first. */
    size_t last = items - 1 - (dated ? 4 : 0);
    set_item(0, 0x10008000 + (uint32_t)last);
    for (size_t i = 1; i <= last; i++)
        set_item(i, 0x20000000 + (i < 64 && i < last ? (uint32_t)i << 20 : 0));
    image[0] = 1;
    size_t used = last;
    if (arrayed) {
        /* counted by bit 0 of slot 1, which is DATA_ORDER */
        set_item(last - 1, 0x50400001);
        used--;
    }
    if (dated) {
        size_t count = put_calendar(image + last, records);
        const uint32_t calendar[] = {0x10330001, 0x30000000 | TABLE_51 << 16, 0x10360001, 0x30000000 | (uint32_t)(count - TABLE_51) << 16};
        for (size_t k = 0; k < 4; k++)
            set_item(last + 1 + k, calendar[k]);
        used += count;
    }
    size_t length = 4 * items;

    const struct bilashonge_refusal answered = {BILASHONGE_ANSWERED, 0, 0, 0};
    struct bilashonge_refusal refusal;
    uint64_t number = BILASHONGE_ANSWERED;
    bool meant;
    const uint8_t data[] = {WRITTEN};
    const size_t subscripts[] = {1};
    if (strcmp(question, "check") == 0) {
        refusal = bilashonge_check(description, length);
        meant = true;
    } else if (strcmp(question, "layout") == 0) {
        struct bilashonge_total reply = bilashonge_layout(description, length, image, used);
        refusal = reply.refusal;
        meant = reply.total == used;
    } else if (strcmp(question, "element_place") == 0) {
        struct bilashonge_place reply = bilashonge_element_place(description, length, image, used, last, NULL, 0);
        refusal = reply.refusal;
        meant = reply.start == last - 1 && reply.length == 1;
    } else if (strcmp(question, "element_place, refused by 24") == 0) {
        refusal = bilashonge_element_place(description, length, image, used, last, subscripts, 1).refusal;
        number = BILASHONGE_SUBSCRIPT_COUNT;
        meant = true;
    } else if (arrayed) {
        refusal = bilashonge_element_place(description, length, image, used, last, subscripts, 1).refusal;
        number = BILASHONGE_SUBSCRIPT_TOO_LARGE;
        meant = refusal.depth == 0;
    } else if (strcmp(question, "element_number") == 0) {
        image[last - 1] = WRITTEN;
        struct bilashonge_number reply = bilashonge_element_number(description, length, image, used, last, NULL, 0);
        refusal = reply.refusal;
        meant = reply.number == WRITTEN;
    } else if (strcmp(question, "range_place") == 0) {
        struct bilashonge_place place = bilashonge_range_place(description, length, image, used, 0, 0, last - 1, 1);
        refusal = place.refusal;
        meant = place.start == last - 1 && place.length == 1;
    } else if (strcmp(question, "serve") == 0) {
        set_messages(last - 1, 1);
        struct bilashonge_total total = bilashonge_serve(description, length, image, used, request, HEAD + 2, room, 1);
        refusal = total.refusal;
        meant = total.total == 1 && room[0] == 0 && image[last - 1] == WRITTEN;
    } else if (strcmp(question, "read_request") == 0) {
        set_messages(0, items);
        struct bilashonge_request read = bilashonge_read_request(request, HEAD + items + 1);
        refusal = answered;
        meant = read.code == 0 && read.kind == BILASHONGE_OFFSET_WRITE && read.count == items && read.start == HEAD;
    } else if (strcmp(question, "write_request") == 0) {
        set_messages(0, items);
        struct bilashonge_total total = bilashonge_write_request(BILASHONGE_OFFSET_WRITE, 0, 0, 0, request + HEAD, items, room, sizeof room);
        refusal = total.refusal;
        meant = total.total == HEAD + items + 1 && memcmp(request, room, HEAD + items + 1) == 0;
    } else if (strcmp(question, "read_reply") == 0) {
        set_messages(0, items);
        struct bilashonge_reply read = bilashonge_read_reply(replied, REPLY_HEAD + items + 1);
        refusal = read.refusal;
        meant = read.kind == BILASHONGE_REPLY_DATA && read.count == items && read.start == REPLY_HEAD;
    } else if (strcmp(question, "write_reply") == 0) {
        set_messages(0, items);
        struct bilashonge_total total = bilashonge_write_reply(BILASHONGE_REPLY_DATA, 0, replied + REPLY_HEAD, items, room, sizeof room);
        refusal = total.refusal;
        meant = total.total == REPLY_HEAD + items + 1 && memcmp(replied, room, REPLY_HEAD + items + 1) == 0;
    } else if (strcmp(question, "write_range") == 0) {
        refusal = bilashonge_write_range(description, length, image, used, 0, 0, last - 1, data, sizeof data);
        meant = image[last - 1] == WRITTEN;
    } else if (strcmp(question, "write_octets") == 0) {
        refusal = bilashonge_write_octets(description, length, image, used, last, NULL, 0, data, sizeof data);
        meant = image[last - 1] == WRITTEN;
    } else if (strcmp(question, "write_number") == 0) {
        refusal = bilashonge_write_number(description, length, image, used, last, NULL, 0, WRITTEN);
        meant = image[last - 1] == WRITTEN;
    } else if (strcmp(question, "tier_at") == 0) {
        struct bilashonge_tier reply = bilashonge_tier_at(description, length, image, used, 2024, 3, 5, 7, 30, BILASHONGE_SUMMATIONS);
        refusal = reply.refusal;
        meant = reply.none == 0 && reply.tier == 2;
    } else if (strcmp(question, "seasoned") == 0) {
        struct bilashonge_answer reply = bilashonge_seasoned(description, length, image, used, 2024, 3, 5);
        refusal = reply.refusal;
        meant = reply.yes == 1;
    } else if (strcmp(question, "weekday_of") == 0) {
        struct bilashonge_weekday reply = bilashonge_weekday_of(2089, 12, 31);
        refusal = reply.refusal;
        meant = reply.weekday == 6;
    } else if (strcmp(question, "matrix") == 0) {
        uint8_t cells[BILASHONGE_MATRIX_ROWS][BILASHONGE_MATRIX_COLUMNS];
        memset(cells, WRITTEN, sizeof cells);
        refusal = bilashonge_matrix(description, length, image, used, cells);
        meant = cells[0][0] == 1 && cells[0][2] == 1 && cells[0][3] == 0 && cells[14][21] == 0;
    } else
        return 2;
    if (refusal.number != number || !meant) {
        fprintf(stderr, "%s, %zu items: not answered as meant; refusal %d\n", question, items, (int)refusal.number);
        return 1;
    }
    return 0;
}
