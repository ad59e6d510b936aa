/*
 * The line language (docs/LINES.md) by the C interface alone: a request a line on standard input, a reply a
 * line on standard output. Its replies are compared with those of the second program.
 *
 * Every question is asked twice, with all that is lent in another place (lend.h). Both must give the same.
 * What a call may not do is a violation: it is told on standard error, and the program ends with status 2.
 *  - it touches an octet that wasn't lent, or writes one that is lent to be read
 *  - it refuses, and changes an octet or gives a value
 *  - it answers otherwise, or writes otherwise, when asked again
 *  - it gives a place that isn't inside the image, or not inside the message that was read
 *  - it writes a message past its end, or past its room
 *  - it takes more stack than the header promises
 * Where there was none, the most stack that was taken is told there: by a call or by what stands beside it.
 */
#include "bilashonge.h"
#include "lend.h"
#include "stack.h"

#include <inttypes.h>
#include <stdio.h>
#include <stdlib.h>
#include <string.h>

/* Numbers of the line language run to 2^64 - 1, and so must items, offsets and subscripts. */
typedef char size_has_64_bits[sizeof(size_t) == 8 ? 1 : -1];

enum {
    LONGEST_LINE = 300000,
    CELLS_LENGTH = BILASHONGE_MATRIX_ROWS * BILASHONGE_MATRIX_COLUMNS,
    SUBSCRIPTS_NAMED = 4, /* a line has four, whatever the count */
    /* The count of a line may be anything, but memory for 2^64 - 1 subscripts can't be lent. Above four no
     * element is named, whichever the subscripts are, so a greater count than this is lent as this one. */
    SUBSCRIPTS_LENT = 9,
    LONGEST_ROOM = 65544 /* the longest message */
};

/* The header's 20 kB. With the address sanitizer more is allowed, as its functions take stack of their own. */
#ifndef STACK_ALLOWED
#define STACK_ALLOWED 20000
#endif

/* ---------------------------------------------------------------------------------------------- requests */

struct request {
    struct octets parts[PARTS]; /* copies of what is lent */
    size_t item;
    size_t subscript_count;
    uint32_t manufacturer;
    uint32_t table;
    size_t offset;
    size_t length;
    uint64_t value;
    uint32_t year, month, day, hour, minute;
    uint32_t quantity;
    uint64_t kind, id, message_offset, count, code; /* of a message to be written */
    uint64_t room;
};

/* The words of a line that haven't been read. After the last one there is nothing, not even an empty word. */
struct words {
    const uint8_t *at;
    const uint8_t *end;
    bool left;
};

struct word {
    const uint8_t *at;
    size_t length;
};

static bool next_word(struct words *words, struct word *word)
{
    if (!words->left)
        return false;
    const uint8_t *space = memchr(words->at, ' ', (size_t)(words->end - words->at));
    const uint8_t *end = space == NULL ? words->end : space;
    word->at = words->at;
    word->length = (size_t)(end - words->at);
    words->left = space != NULL;
    words->at = space == NULL ? words->end : space + 1;
    return true;
}

static bool is_word(const struct word *word, const char *text)
{
    return word->length == strlen(text) && memcmp(word->at, text, word->length) == 0;
}

static bool read_number(struct words *words, uint64_t most, uint64_t *number)
{
    struct word word;
    if (!next_word(words, &word) || word.length == 0)
        return false;
    *number = 0;
    for (size_t i = 0; i < word.length; i++) {
        if (word.at[i] < '0' || word.at[i] > '9')
            return false;
        uint64_t digit = (uint64_t)(word.at[i] - '0');
        if (digit > most || *number > (most - digit) / 10)
            return false;
        *number = *number * 10 + digit;
    }
    return true;
}

static bool read_size(struct words *words, size_t *size)
{
    uint64_t number;
    if (!read_number(words, UINT64_MAX, &number))
        return false;
    *size = number;
    return true;
}

static bool read_short(struct words *words, uint32_t most, uint32_t *number)
{
    uint64_t read;
    if (!read_number(words, most, &read))
        return false;
    *number = (uint32_t)read;
    return true;
}

/* -1 where it is no digit. */
static int hex_value(uint8_t digit)
{
    if (digit >= '0' && digit <= '9')
        return digit - '0';
    if (digit >= 'a' && digit <= 'f')
        return digit - 'a' + 10;
    return -1;
}

static bool read_octets(struct words *words, struct octets *octets)
{
    struct word word;
    if (!next_word(words, &word) || word.length == 0)
        return false;
    if (is_word(&word, "-")) {
        set_length(octets, 0);
        return true;
    }
    if (word.length % 2 != 0)
        return false;
    set_length(octets, word.length / 2);
    for (size_t i = 0; i < octets->length; i++) {
        int high = hex_value(word.at[2 * i]);
        int low = hex_value(word.at[2 * i + 1]);
        if (high < 0 || low < 0)
            return false;
        octets->at[i] = (uint8_t)(16 * high + low);
    }
    return true;
}

static bool read_nothing(struct words *words, struct request *request)
{
    (void)words;
    (void)request;
    return true;
}

static bool read_table(struct words *words, struct request *request)
{
    return read_short(words, 1, &request->manufacturer) && read_short(words, 65535, &request->table);
}

static bool read_range(struct words *words, struct request *request)
{
    return read_table(words, request) && read_size(words, &request->offset)
           && read_octets(words, &request->parts[DATA]);
}

static bool read_range_to_read(struct words *words, struct request *request)
{
    return read_table(words, request) && read_size(words, &request->offset)
           && read_size(words, &request->length);
}

static bool read_element(struct words *words, struct request *request)
{
    size_t count;
    size_t subscripts[SUBSCRIPTS_LENT] = {0};
    if (!read_size(words, &request->item) || !read_size(words, &count))
        return false;
    for (size_t k = 0; k < SUBSCRIPTS_NAMED; k++)
        if (!read_size(words, &subscripts[k]))
            return false;
    request->subscript_count = count < SUBSCRIPTS_LENT ? count : SUBSCRIPTS_LENT;
    struct octets *lent = &request->parts[SUBSCRIPTS];
    set_length(lent, request->subscript_count * sizeof(size_t));
    memcpy(lent->at, subscripts, lent->length);
    return true;
}

static bool read_element_and_data(struct words *words, struct request *request)
{
    return read_element(words, request) && read_octets(words, &request->parts[DATA]);
}

static bool read_element_and_value(struct words *words, struct request *request)
{
    return read_element(words, request) && read_number(words, UINT64_MAX, &request->value);
}

static bool read_date(struct words *words, struct request *request)
{
    return read_short(words, UINT32_MAX, &request->year) && read_short(words, UINT32_MAX, &request->month)
           && read_short(words, UINT32_MAX, &request->day);
}

static bool read_moment(struct words *words, struct request *request)
{
    return read_date(words, request) && read_short(words, UINT32_MAX, &request->hour)
           && read_short(words, UINT32_MAX, &request->minute) && read_short(words, 1, &request->quantity);
}

static bool read_message(struct words *words, struct request *request)
{
    return read_octets(words, &request->parts[MESSAGE]);
}

static bool read_room(struct words *words, struct request *request)
{
    return read_number(words, LONGEST_ROOM, &request->room);
}

static bool read_room_and_message(struct words *words, struct request *request)
{
    return read_room(words, request) && read_message(words, request);
}

static bool read_room_and_data(struct words *words, struct request *request)
{
    return read_room(words, request) && read_octets(words, &request->parts[DATA]);
}

/* The line language has no other kinds than the forms'. */
static bool read_request_to_write(struct words *words, struct request *request)
{
    uint64_t *kind = &request->kind;
    return read_number(words, UINT64_MAX, kind)
           && (*kind == BILASHONGE_FULL_READ || *kind == BILASHONGE_OFFSET_READ
               || *kind == BILASHONGE_FULL_WRITE || *kind == BILASHONGE_OFFSET_WRITE)
           && read_number(words, UINT64_MAX, &request->id)
           && read_number(words, UINT64_MAX, &request->message_offset)
           && read_number(words, UINT64_MAX, &request->count) && read_room_and_data(words, request);
}

static bool read_reply_to_write(struct words *words, struct request *request)
{
    uint64_t *kind = &request->kind;
    return read_number(words, UINT64_MAX, kind)
           && (*kind == BILASHONGE_REPLY_DATA || *kind == BILASHONGE_REPLY_DONE
               || *kind == BILASHONGE_REPLY_REFUSED)
           && read_number(words, UINT64_MAX, &request->code) && read_room_and_data(words, request);
}

/* ------------------------------------------------------------------------------------------------- calls */

/* What one call is lent. Of the two images it is lent one. */
struct lent {
    const uint8_t *description;
    const uint8_t *image;
    uint8_t *image_to_write;
    const uint8_t *data;
    const size_t *subscripts;
    uint8_t (*cells)[BILASHONGE_MATRIX_COLUMNS];
    const uint8_t *message;
    uint8_t *room;
};

/* Which value is which, of a message that was read: of a request, and of a reply, which has a code for an id
 * and no offset. Other replies have at most two values, the first ones. */
enum { KIND, ID, CODE = ID, OFFSET, COUNT, START, VALUES };

/* Any function's reply, with 0 for each value that it doesn't have. What is wrong with a request that was
 * read stands in the refusal's place. */
struct reply {
    struct bilashonge_refusal refusal;
    uint64_t values[VALUES];
};

#define LENT_DESCRIPTION lent->description, request->parts[DESCRIPTION].length
#define LENT_IMAGE lent->image, request->parts[IMAGE].length
#define LENT_IMAGE_TO_WRITE lent->image_to_write, request->parts[IMAGE].length
#define LENT_DATA lent->data, request->parts[DATA].length
#define LENT_ELEMENT request->item, lent->subscripts, request->subscript_count
#define LENT_MESSAGE lent->message, request->parts[MESSAGE].length
#define LENT_ROOM lent->room, request->parts[ROOM].length

static struct reply reply_of(struct bilashonge_refusal refusal, uint64_t first, uint64_t second)
{
    struct reply reply = {refusal, {0}};
    reply.values[0] = first;
    reply.values[1] = second;
    return reply;
}

static struct reply ask_check(const struct request *request, const struct lent *lent)
{
    return reply_of(bilashonge_check(LENT_DESCRIPTION), 0, 0);
}

static struct reply ask_layout(const struct request *request, const struct lent *lent)
{
    struct bilashonge_total total = bilashonge_layout(LENT_DESCRIPTION, LENT_IMAGE);
    return reply_of(total.refusal, total.total, 0);
}

static struct reply ask_table(const struct request *request, const struct lent *lent)
{
    struct bilashonge_place place =
        bilashonge_table_place(LENT_DESCRIPTION, LENT_IMAGE, request->manufacturer, request->table);
    return reply_of(place.refusal, place.start, place.length);
}

static struct reply ask_where(const struct request *request, const struct lent *lent)
{
    struct bilashonge_place place = bilashonge_element_place(LENT_DESCRIPTION, LENT_IMAGE, LENT_ELEMENT);
    return reply_of(place.refusal, place.start, place.length);
}

static struct reply ask_number(const struct request *request, const struct lent *lent)
{
    struct bilashonge_number number = bilashonge_element_number(LENT_DESCRIPTION, LENT_IMAGE, LENT_ELEMENT);
    return reply_of(number.refusal, number.number, 0);
}

static struct reply ask_write_range(const struct request *request, const struct lent *lent)
{
    return reply_of(bilashonge_write_range(LENT_DESCRIPTION, LENT_IMAGE_TO_WRITE, request->manufacturer,
                                           request->table, request->offset, LENT_DATA),
                    0, 0);
}

static struct reply ask_write_octets(const struct request *request, const struct lent *lent)
{
    return reply_of(bilashonge_write_octets(LENT_DESCRIPTION, LENT_IMAGE_TO_WRITE, LENT_ELEMENT, LENT_DATA),
                    0, 0);
}

static struct reply ask_write_number(const struct request *request, const struct lent *lent)
{
    return reply_of(
        bilashonge_write_number(LENT_DESCRIPTION, LENT_IMAGE_TO_WRITE, LENT_ELEMENT, request->value), 0, 0);
}

static struct reply ask_tier(const struct request *request, const struct lent *lent)
{
    struct bilashonge_tier tier =
        bilashonge_tier_at(LENT_DESCRIPTION, LENT_IMAGE, request->year, request->month, request->day,
                           request->hour, request->minute, request->quantity);
    return reply_of(tier.refusal, tier.none, tier.tier);
}

static struct reply ask_seasoned(const struct request *request, const struct lent *lent)
{
    struct bilashonge_answer answer =
        bilashonge_seasoned(LENT_DESCRIPTION, LENT_IMAGE, request->year, request->month, request->day);
    return reply_of(answer.refusal, answer.yes, 0);
}

/* Nothing is lent. */
static struct reply ask_weekday(const struct request *request, const struct lent *lent)
{
    struct bilashonge_weekday weekday = bilashonge_weekday_of(request->year, request->month, request->day);
    (void)lent;
    return reply_of(weekday.refusal, weekday.weekday, 0);
}

static struct reply ask_matrix(const struct request *request, const struct lent *lent)
{
    return reply_of(bilashonge_matrix(LENT_DESCRIPTION, LENT_IMAGE, lent->cells), 0, 0);
}

static struct reply ask_range(const struct request *request, const struct lent *lent)
{
    struct bilashonge_place place =
        bilashonge_range_place(LENT_DESCRIPTION, LENT_IMAGE, request->manufacturer, request->table,
                               request->offset, request->length);
    return reply_of(place.refusal, place.start, place.length);
}

static struct reply ask_serve(const struct request *request, const struct lent *lent)
{
    struct bilashonge_total total =
        bilashonge_serve(LENT_DESCRIPTION, LENT_IMAGE_TO_WRITE, LENT_MESSAGE, LENT_ROOM);
    return reply_of(total.refusal, total.total, 0);
}

static struct reply ask_read_request(const struct request *request, const struct lent *lent)
{
    struct bilashonge_request read = bilashonge_read_request(LENT_MESSAGE);
    struct bilashonge_refusal refusal = {read.code, 0, 0, 0};
    struct reply reply = {refusal, {read.kind, read.id, read.offset, read.count, read.start}};
    return reply;
}

static struct reply ask_write_request(const struct request *request, const struct lent *lent)
{
    struct bilashonge_total total =
        bilashonge_write_request(request->kind, request->id, request->message_offset, request->count,
                                 LENT_DATA, LENT_ROOM);
    return reply_of(total.refusal, total.total, 0);
}

static struct reply ask_read_reply(const struct request *request, const struct lent *lent)
{
    struct bilashonge_reply read = bilashonge_read_reply(LENT_MESSAGE);
    struct reply reply = {read.refusal, {read.kind, read.code, 0, read.count, read.start}};
    return reply;
}

static struct reply ask_write_reply(const struct request *request, const struct lent *lent)
{
    struct bilashonge_total total =
        bilashonge_write_reply(request->kind, request->code, LENT_DATA, LENT_ROOM);
    return reply_of(total.refusal, total.total, 0);
}

/* ----------------------------------------------------------------------------------------------- replies */

static void put_octets(const uint8_t *octets, size_t length)
{
    static const char digits[] = "0123456789abcdef";
    if (length == 0)
        putchar('-');
    for (size_t i = 0; i < length; i++) {
        putchar(digits[octets[i] / 16]);
        putchar(digits[octets[i] % 16]);
    }
}

static void put_refusal(const struct bilashonge_refusal *refusal)
{
    printf("%" PRIu64 " %" PRIu64 " %" PRIu64 " %" PRIu64, refusal->number, refusal->item, refusal->octet,
           refusal->depth);
}

/* What a question's reply is made of: its copies, what came back, and what the parts then hold; of the
 * room the message alone, which has no octets where the call is refused. */
struct outcome {
    const struct request *request;
    struct reply reply;
    struct octets later[PARTS];
};

static void tell_refusal(const struct outcome *outcome)
{
    put_refusal(&outcome->reply.refusal);
}

static void tell_value(const struct outcome *outcome, size_t value)
{
    printf(" %" PRIu64, outcome->reply.values[value]);
}

static void tell_one_value(const struct outcome *outcome)
{
    put_refusal(&outcome->reply.refusal);
    tell_value(outcome, 0);
}

static void tell_two_values(const struct outcome *outcome)
{
    tell_one_value(outcome);
    tell_value(outcome, 1);
}

/* The octets at a place, none where it is refused. */
static void tell_part(const struct outcome *outcome)
{
    const struct octets *image = &outcome->request->parts[IMAGE];
    uint64_t start = outcome->reply.values[0];
    uint64_t length = outcome->reply.values[1];
    if (start > image->length || length > image->length - start)
        violation("a place that isn't inside the image");
    put_octets(image->at + start, outcome->reply.refusal.number == 0 ? length : 0);
}

static void tell_later(const struct outcome *outcome, enum part part)
{
    putchar(' ');
    put_octets(outcome->later[part].at, outcome->later[part].length);
}

static void tell_image(const struct outcome *outcome)
{
    put_refusal(&outcome->reply.refusal);
    tell_later(outcome, IMAGE);
}

/* Refused, the cells are as they were lent. The line language wants zeros then. */
static void tell_cells(const struct outcome *outcome)
{
    static const uint8_t zeros[CELLS_LENGTH];
    put_refusal(&outcome->reply.refusal);
    putchar(' ');
    put_octets(outcome->reply.refusal.number == 0 ? outcome->later[CELLS].at : zeros, CELLS_LENGTH);
}

static void tell_range(const struct outcome *outcome)
{
    tell_two_values(outcome);
    putchar(' ');
    tell_part(outcome);
}

/* Of weekdays and messages a refusal is its number alone. */
static void tell_number(const struct outcome *outcome)
{
    const struct bilashonge_refusal *refusal = &outcome->reply.refusal;
    if (refusal->item != 0 || refusal->octet != 0 || refusal->depth != 0)
        violation("a refusal that reports an item, an octet or a depth");
    printf("%" PRIu64, refusal->number);
}

static void tell_weekday(const struct outcome *outcome)
{
    tell_number(outcome);
    tell_value(outcome, 0);
}

static void tell_message(const struct outcome *outcome)
{
    tell_number(outcome);
    tell_later(outcome, ROOM);
}

static void tell_served(const struct outcome *outcome)
{
    tell_message(outcome);
    tell_later(outcome, IMAGE);
}

/* The data of the message that was read. Where its form has none, they start nowhere. */
static void tell_message_data(const struct outcome *outcome, bool has_data)
{
    const struct octets *message = &outcome->request->parts[MESSAGE];
    uint64_t start = outcome->reply.values[START];
    uint64_t count = has_data ? outcome->reply.values[COUNT] : 0;
    if (start > message->length || count > message->length - start || (!has_data && start != 0))
        violation("data that aren't inside the message");
    putchar(' ');
    put_octets(message->at + start, count);
}

static void tell_request_read(const struct outcome *outcome)
{
    const uint64_t *values = outcome->reply.values;
    tell_number(outcome);
    printf(" %" PRIu64 " %" PRIu64 " %" PRIu64 " %" PRIu64, values[KIND], values[ID], values[OFFSET],
           values[COUNT]);
    tell_message_data(outcome,
                      values[KIND] == BILASHONGE_FULL_WRITE || values[KIND] == BILASHONGE_OFFSET_WRITE);
}

static void tell_reply_read(const struct outcome *outcome)
{
    const uint64_t *values = outcome->reply.values;
    tell_number(outcome);
    printf(" %" PRIu64 " %" PRIu64, values[KIND], values[CODE]);
    tell_message_data(outcome, values[KIND] == BILASHONGE_REPLY_DATA);
}

/* --------------------------------------------------------------------------------------------- questions */

struct question {
    const char *name;
    bool (*read)(struct words *words, struct request *request); /* the words after D and M */
    struct reply (*ask)(const struct request *request, const struct lent *lent);
    void (*tell)(const struct outcome *outcome);
    unsigned parts;   /* that are lent, a bit each */
    unsigned written; /* of these the ones that may be written */
};

enum {
    D = 1 << DESCRIPTION,
    M = 1 << IMAGE,
    D_M = D | M,
    D_M_S = D_M | 1 << SUBSCRIPTS,
    OCTETS = 1 << DATA,
    MATRIX = 1 << CELLS,
    R = 1 << MESSAGE,
    TO_FILL = 1 << ROOM
};

static const struct question questions[] = {
    {"check", read_nothing, ask_check, tell_refusal, D, 0},
    {"layout", read_nothing, ask_layout, tell_one_value, D_M, 0},
    {"table", read_table, ask_table, tell_two_values, D_M, 0},
    {"tablepart", read_table, ask_table, tell_part, D_M, 0},
    {"where", read_element, ask_where, tell_two_values, D_M_S, 0},
    {"octets", read_element, ask_where, tell_part, D_M_S, 0},
    {"number", read_element, ask_number, tell_one_value, D_M_S, 0},
    {"writerange", read_range, ask_write_range, tell_image, D_M | OCTETS, M},
    {"writeoctets", read_element_and_data, ask_write_octets, tell_image, D_M_S | OCTETS, M},
    {"writenumber", read_element_and_value, ask_write_number, tell_image, D_M_S, M},
    {"tier", read_moment, ask_tier, tell_two_values, D_M, 0},
    {"seasoned", read_date, ask_seasoned, tell_one_value, D_M, 0},
    {"weekday", read_date, ask_weekday, tell_weekday, 0, 0},
    {"matrix", read_nothing, ask_matrix, tell_cells, D_M | MATRIX, MATRIX},
    {"readrange", read_range_to_read, ask_range, tell_range, D_M, 0},
    {"serve", read_room_and_message, ask_serve, tell_served, D_M | R | TO_FILL, M | TO_FILL},
    {"readrequest", read_message, ask_read_request, tell_request_read, R, 0},
    {"writerequest", read_request_to_write, ask_write_request, tell_message, OCTETS | TO_FILL, TO_FILL},
    {"readreply", read_message, ask_read_reply, tell_reply_read, R, 0},
    {"writereply", read_reply_to_write, ask_write_reply, tell_message, OCTETS | TO_FILL, TO_FILL},
};

static bool has_part(const struct question *question, enum part part)
{
    return (question->parts >> part & 1) != 0;
}

static bool may_write(const struct question *question, enum part part)
{
    return (question->written >> part & 1) != 0;
}

/* The question that a line asks, or NULL where the line has no form. */
static const struct question *read_request(struct words *words, struct request *request)
{
    struct word name;
    const struct question *question = questions;
    const struct question *end = questions + sizeof questions / sizeof questions[0];
    if (!next_word(words, &name))
        return NULL;
    while (question != end && !is_word(&name, question->name))
        question++;
    if (question == end)
        return NULL;
    if (has_part(question, DESCRIPTION) && !read_octets(words, &request->parts[DESCRIPTION]))
        return NULL;
    if (has_part(question, IMAGE) && !read_octets(words, &request->parts[IMAGE]))
        return NULL;
    return question->read(words, request) && !words->left ? question : NULL;
}

/* Lends what the question needs. The parts that may be written are lent to be written, all others aren't. */
static struct lent lend_parts(const struct question *question, const struct request *request, enum way way)
{
    const void *read[PARTS] = {NULL};
    uint8_t *write[PARTS] = {NULL};
    for (enum part part = 0; part < PARTS; part++) {
        if (may_write(question, part))
            write[part] = lend_to_write(part, way, &request->parts[part]);
        else if (has_part(question, part))
            read[part] = lend_to_read(part, way, &request->parts[part]);
    }
    struct lent lent;
    lent.description = read[DESCRIPTION];
    lent.image = read[IMAGE];
    lent.image_to_write = write[IMAGE];
    lent.data = read[DATA];
    lent.subscripts = read[SUBSCRIPTS];
    lent.cells = (uint8_t(*)[BILASHONGE_MATRIX_COLUMNS])write[CELLS];
    lent.message = read[MESSAGE];
    lent.room = write[ROOM];
    return lent;
}

/* Takes all parts back. What may not have changed is compared with its copy; later is what each part now
 * holds. */
static void take_parts_back(const struct question *question, const struct request *request, enum way way,
                            bool refused, struct octets *later)
{
    for (enum part part = 0; part < PARTS; part++) {
        if (!has_part(question, part))
            continue;
        bool may_change = may_write(question, part) && !refused;
        take_back(part, way, &later[part]);
        if (!may_change && !same_octets(&later[part], &request->parts[part]))
            violation(refused ? "refused, but lent octets have changed" : "octets lent to be read changed");
    }
}

/* Of the room only the message may have changed. Cuts what it now holds down to the message. */
static void cut_to_message(struct octets *later, const struct octets *copy, uint64_t length)
{
    if (length > later->length)
        violation("a message that isn't inside its room");
    if (memcmp(later->at + length, copy->at + length, copy->length - length) != 0)
        violation("room written past the message");
    set_length(later, length);
}

/* Full of that way's guard octets, so that an octet which isn't written is another one in the other way. */
static void fill_with_guard(struct octets *octets, size_t length, enum way way)
{
    set_length(octets, length);
    memset(octets->at, guard_octet(way), length);
}

/* Asks in one way. */
static void ask(const struct question *question, struct request *request, enum way way,
                struct outcome *outcome)
{
    if (has_part(question, CELLS))
        fill_with_guard(&request->parts[CELLS], CELLS_LENGTH, way);
    if (has_part(question, ROOM))
        fill_with_guard(&request->parts[ROOM], request->room, way);
    struct lent lent = lend_parts(question, request, way);
    COUNT_STACK_FROM_HERE();
    struct reply reply = question->ask(request, &lent);
    bool refused = reply.refusal.number != 0;
    take_parts_back(question, request, way, refused, outcome->later);
    for (size_t k = 0; k < VALUES; k++)
        if (refused && reply.values[k] != 0)
            violation("refused, but not every value is 0");
    if (has_part(question, ROOM))
        cut_to_message(&outcome->later[ROOM], &request->parts[ROOM], reply.values[0]);
    outcome->request = request;
    outcome->reply = reply;
}

static bool same_replies(const struct reply *one, const struct reply *other)
{
    return one->refusal.number == other->refusal.number && one->refusal.item == other->refusal.item
           && one->refusal.octet == other->refusal.octet && one->refusal.depth == other->refusal.depth
           && memcmp(one->values, other->values, sizeof one->values) == 0;
}

static void answer(const struct question *question, struct request *request)
{
    static struct outcome first, second;
    ask(question, request, ENDING, &first);
    ask(question, request, STARTING, &second);
    if (!same_replies(&first.reply, &second.reply))
        violation("another reply when asked again");
    for (enum part part = 0; part < PARTS; part++)
        if (may_write(question, part) && first.reply.refusal.number == 0
            && !same_octets(&first.later[part], &second.later[part]))
            violation("other octets written when asked again");
    question->tell(&first);
}

/* ------------------------------------------------------------------------------------------------- lines */

static void answer_line(const uint8_t *line, size_t length)
{
    static struct request request;
    struct words words = {line, line + length, true};
    const struct question *question = length > LONGEST_LINE ? NULL : read_request(&words, &request);
    if (question == NULL)
        putchar('?');
    else
        answer(question, &request);
    putchar('\n');
}

/* Adds octets to the line. What is past the longest line isn't kept, but for one octet which shows that the
 * line is too long: no input can take all memory. */
static void add_to_line(struct octets *line, const uint8_t *octets, size_t length)
{
    size_t before = line->length;
    size_t room = LONGEST_LINE + 1 - before;
    size_t kept = length < room ? length : room;
    set_length(line, before + kept);
    memcpy(line->at + before, octets, kept);
}

static void end_line(struct octets *line)
{
    line_number++;
    answer_line(line->at, line->length);
    set_length(line, 0);
}

static void take_input(struct octets *line, const uint8_t *at, size_t length)
{
    const uint8_t *feed;
    while ((feed = memchr(at, '\n', length)) != NULL) {
        size_t taken = (size_t)(feed - at);
        add_to_line(line, at, taken);
        end_line(line);
        at = feed + 1;
        length -= taken + 1;
    }
    add_to_line(line, at, length);
}

static void answer_all(void)
{
    static uint8_t input[65536];
    static struct octets line;
    size_t length;
    set_length(&line, 0);
    while ((length = fread(input, 1, sizeof input, stdin)) != 0)
        take_input(&line, input, length);
    if (line.length != 0)
        end_line(&line);
    if (ferror(stdin) || fflush(stdout) != 0 || ferror(stdout))
        violation("input or output failed");
}

int main(void)
{
    watch_touches();
    size_t taken = stack_taken_by(answer_all);
    if (taken >= STACK_ALLOWED)
        violation("a call has taken more stack than it may");
    fprintf(stderr, "at most %zu octets of stack\n", taken);
    return 0;
}
