/*
 * What lines.c is there to catch, done on purpose. Linked with it by --wrap, each function here stands before
 * the library's function of that name, calls it, and does the misdeed whose number the environment variable
 * MISDEED has. check.sh wants each of them told; those of messages, 23 to 66 and 91 to 94, by messages.c too,
 * those of weekdays, 67 to 71 and 95, by weekdays.c, and those of why there is no such element, 72 to 90, by
 * calls.c.
 */
#include "bilashonge.h"

#include <stdbool.h>
#include <stdlib.h>

static bool does(long misdeed)
{
    const char *asked = getenv("MISDEED");
    return asked != NULL && strtol(asked, NULL, 10) == misdeed;
}

/* A read or a write that the compiler keeps. By an address, of which it doesn't know where it may point. */
static void touch(uintptr_t octet)
{
    (void)*(const volatile uint8_t *)octet;
}

static void write_to(uintptr_t octet, uint8_t value)
{
    *(volatile uint8_t *)octet = value;
}

/* Apart from its caller, so that no other call has this much stack above it. */
__attribute__((noinline)) static void take_stack(void)
{
    volatile uint8_t frame[20000];
    for (size_t i = 0; i < sizeof frame; i++)
        frame[i] = 0;
}

#define DESCRIPTION const uint8_t *description, size_t description_length
#define IMAGE const uint8_t *image, size_t image_length
#define IMAGE_TO_WRITE uint8_t *image, size_t image_length
#define ELEMENT size_t item, const size_t *subscripts, size_t subscript_count
#define DATA const uint8_t *data, size_t data_length
#define MESSAGE const uint8_t *message, size_t message_length
#define ROOM uint8_t *room, size_t room_length

/* Why there is no such element: misdeeds that are the same for the four functions that take one. */
static void spoil_cause(long misdeed, struct bilashonge_refusal *refusal)
{
    bool too_large = refusal->number == BILASHONGE_SUBSCRIPT_TOO_LARGE;
    bool not_chosen = refusal->number == BILASHONGE_BRANCH_NOT_CHOSEN;
    if (does(misdeed)) /* no depth is told */
        refusal->depth = 0;
    if (does(misdeed + 1) && too_large) /* it is counted from 1 */
        refusal->depth++;
    if (does(misdeed + 2) && (too_large || not_chosen)) { /* one for the other */
        refusal->number = too_large ? BILASHONGE_BRANCH_NOT_CHOSEN : BILASHONGE_SUBSCRIPT_TOO_LARGE;
        refusal->depth = 0;
    }
}

static bool is_cause(const struct bilashonge_refusal *refusal)
{
    return refusal->number >= BILASHONGE_NOT_AN_ELEMENT && refusal->number <= BILASHONGE_NOT_A_NUMBER;
}

/* Whether 24 comes before 26: `place` is what is told of the element's place. */
static bool puts_count_first(const struct bilashonge_refusal *refusal, const struct bilashonge_place *place)
{
    return refusal->number == BILASHONGE_NOT_A_NUMBER && place->refusal.number == BILASHONGE_SUBSCRIPT_COUNT;
}

/* The library's function, and the one that stands before it. */
#define WRAPPED(reply, function, ...)                                                                      \
    struct reply __real_##function(__VA_ARGS__);                                                           \
    struct reply __wrap_##function(__VA_ARGS__);                                                           \
    struct reply __wrap_##function(__VA_ARGS__)

WRAPPED(bilashonge_refusal, bilashonge_check, DESCRIPTION)
{
    if (does(1))
        touch((uintptr_t)description + description_length);
    if (does(2))
        touch((uintptr_t)description - 1);
    if (does(3) && description_length != 0) /* writes what is there, which no comparison would show */
        write_to((uintptr_t)description, description[0]);
    return __real_bilashonge_check(description, description_length);
}

WRAPPED(bilashonge_total, bilashonge_layout, DESCRIPTION, IMAGE)
{
    if (does(4))
        touch((uintptr_t)image + image_length);
    return __real_bilashonge_layout(description, description_length, image, image_length);
}

WRAPPED(bilashonge_place, bilashonge_table_place, DESCRIPTION, IMAGE, uint32_t manufacturer, uint32_t number)
{
    static uint64_t calls;
    struct bilashonge_place place = __real_bilashonge_table_place(description, description_length, image,
                                                                  image_length, manufacturer, number);
    if (does(5) && place.refusal.number == 0) /* something is kept from call to call */
        place.start += calls++;
    return place;
}

WRAPPED(bilashonge_place, bilashonge_element_place, DESCRIPTION, IMAGE, ELEMENT)
{
    struct bilashonge_place place = __real_bilashonge_element_place(
        description, description_length, image, image_length, item, subscripts, subscript_count);
    if (does(6))
        touch((uintptr_t)(subscripts + subscript_count));
    if (does(7) && place.refusal.number == 0)
        place.length += image_length;
    spoil_cause(72, &place.refusal);
    if (does(86) && is_cause(&place.refusal)) { /* the one number that it had before */
        place.refusal.number = BILASHONGE_RESERVED_11;
        place.refusal.depth = 0;
    }
    if (does(89) && place.refusal.number == BILASHONGE_BRANCH_NOT_CHOSEN && subscript_count > 1
        && subscripts[1] > 3) { /* a subscript before the branch round it */
        place.refusal.number = BILASHONGE_SUBSCRIPT_TOO_LARGE;
        place.refusal.depth = 1;
    }
    return place;
}

WRAPPED(bilashonge_number, bilashonge_element_number, DESCRIPTION, IMAGE, ELEMENT)
{
    struct bilashonge_number number = __real_bilashonge_element_number(
        description, description_length, image, image_length, item, subscripts, subscript_count);
    if (does(8) && number.refusal.number != 0)
        number.number = 1;
    spoil_cause(75, &number.refusal);
    if (does(84)) {
        struct bilashonge_place place = __real_bilashonge_element_place(
            description, description_length, image, image_length, item, subscripts, subscript_count);
        if (puts_count_first(&number.refusal, &place))
            number.refusal = place.refusal;
    }
    if (does(90) && number.refusal.number == BILASHONGE_NOT_AN_ELEMENT) /* 26 comes first */
        number.refusal.number = BILASHONGE_NOT_A_NUMBER;
    return number;
}

WRAPPED(bilashonge_refusal, bilashonge_write_range, DESCRIPTION, IMAGE_TO_WRITE, uint32_t manufacturer,
        uint32_t number, size_t offset, DATA)
{
    uintptr_t behind = (uintptr_t)image + image_length;
    if (does(9))
        write_to((uintptr_t)image - 1, 0);
    if (does(10) && behind % 4096 != 0) /* not where the processor would catch it */
        write_to(behind, 0);
    if (does(11))
        touch((uintptr_t)data + data_length);
    return __real_bilashonge_write_range(description, description_length, image, image_length, manufacturer,
                                         number, offset, data, data_length);
}

WRAPPED(bilashonge_refusal, bilashonge_write_octets, DESCRIPTION, IMAGE_TO_WRITE, ELEMENT, DATA)
{
    struct bilashonge_refusal refusal =
        __real_bilashonge_write_octets(description, description_length, image, image_length, item, subscripts,
                                       subscript_count, data, data_length);
    if (does(12) && refusal.number == 0) /* depends on where the image stands */
        image[0] = (uint8_t)((uintptr_t)image % 4096 == 0);
    spoil_cause(78, &refusal);
    if (does(87) && is_cause(&refusal)) { /* after 13 */
        refusal.number = BILASHONGE_NOT_WRITABLE;
        refusal.depth = 0;
    }
    return refusal;
}

WRAPPED(bilashonge_refusal, bilashonge_write_number, DESCRIPTION, IMAGE_TO_WRITE, ELEMENT, uint64_t value)
{
    struct bilashonge_refusal refusal = __real_bilashonge_write_number(
        description, description_length, image, image_length, item, subscripts, subscript_count, value);
    if (does(13) && refusal.number != 0)
        image[image_length - 1] ^= 1;
    spoil_cause(81, &refusal);
    if (does(85)) {
        struct bilashonge_place place = __real_bilashonge_element_place(
            description, description_length, image, image_length, item, subscripts, subscript_count);
        if (puts_count_first(&refusal, &place))
            refusal = place.refusal;
    }
    if (does(88) && refusal.number == BILASHONGE_WRONG_SIZE) /* a depth of no subscript */
        refusal.depth = 1;
    return refusal;
}

WRAPPED(bilashonge_tier, bilashonge_tier_at, DESCRIPTION, IMAGE, uint32_t year, uint32_t month, uint32_t day,
        uint32_t hour, uint32_t minute, uint32_t quantity)
{
    if (does(14))
        write_to((uintptr_t)image, image[0]);
    if (does(15))
        take_stack();
    return __real_bilashonge_tier_at(description, description_length, image, image_length, year, month, day,
                                     hour, minute, quantity);
}

WRAPPED(bilashonge_refusal, bilashonge_matrix, DESCRIPTION, IMAGE,
        uint8_t cells[BILASHONGE_MATRIX_ROWS][BILASHONGE_MATRIX_COLUMNS])
{
    uint8_t *last = &cells[BILASHONGE_MATRIX_ROWS - 1][BILASHONGE_MATRIX_COLUMNS - 1];
    uint8_t before = *last;
    struct bilashonge_refusal refusal =
        __real_bilashonge_matrix(description, description_length, image, image_length, cells);
    if (does(16) && refusal.number == 0) /* a cell isn't set */
        *last = before;
    if (does(17) && refusal.number != 0)
        *last = 0;
    if (does(18))
        touch((uintptr_t)last + 1);
    return refusal;
}

WRAPPED(bilashonge_answer, bilashonge_seasoned, DESCRIPTION, IMAGE, uint32_t year, uint32_t month,
        uint32_t day)
{
    static uint64_t calls;
    struct bilashonge_answer answer = __real_bilashonge_seasoned(description, description_length, image,
                                                                 image_length, year, month, day);
    if (does(19))
        touch((uintptr_t)image + image_length);
    if (does(20) && description_length != 0)
        write_to((uintptr_t)description, description[0]);
    if (does(21) && answer.refusal.number != 0)
        answer.yes = 1;
    if (does(22) && answer.refusal.number == 0) /* yes and no in turn */
        answer.yes = calls++ % 2;
    return answer;
}

WRAPPED(bilashonge_place, bilashonge_range_place, DESCRIPTION, IMAGE, uint32_t manufacturer, uint32_t number,
        size_t offset, size_t length)
{
    struct bilashonge_place place = __real_bilashonge_range_place(
        description, description_length, image, image_length, manufacturer, number, offset, length);
    if (does(23) && place.refusal.number == 0)
        place.length += image_length;
    if (does(24) && place.refusal.number != 0)
        place.start = 1;
    if (does(25))
        touch((uintptr_t)image + image_length);
    return place;
}

/* What a message is written with: the room's own misdeeds, the same for all three that write one. `first`
 * is what the room's first octet was. */
static void spoil_room(long misdeed, struct bilashonge_total *total, ROOM, uint8_t first)
{
    if (does(misdeed))
        touch((uintptr_t)room + room_length);
    if (does(misdeed + 1) && total->refusal.number == 0 && total->total < room_length)
        room[total->total] ^= 1; /* an octet past the message */
    if (does(misdeed + 2) && total->refusal.number != 0 && room_length != 0)
        room[0] ^= 1;
    if (does(misdeed + 3) && total->refusal.number == 0) /* an octet of it isn't written */
        room[0] = first;
    if (does(misdeed + 4) && total->refusal.number == 0)
        total->total = room_length + 1;
    if (does(misdeed + 5) && total->refusal.number != 0)
        total->total = 1;
    if (does(misdeed + 6) && total->refusal.number != 0)
        total->refusal.item = 1;
}

WRAPPED(bilashonge_total, bilashonge_serve, DESCRIPTION, IMAGE_TO_WRITE, MESSAGE, ROOM)
{
    static uint8_t enough[65539];
    uint8_t first = room_length == 0 ? 0 : room[0];
    struct bilashonge_total total = __real_bilashonge_serve(
        description, description_length, image, image_length, message, message_length, room, room_length);
    if (does(26))
        touch((uintptr_t)message + message_length);
    if (does(27) && message_length != 0)
        write_to((uintptr_t)message, message[0]);
    if (does(28))
        touch((uintptr_t)description + description_length);
    if (does(29) && total.refusal.number != 0) /* writes, and only then sees that the reply doesn't fit */
        __real_bilashonge_serve(description, description_length, image, image_length, message, message_length,
                                enough, sizeof enough);
    if (does(30) && total.total > 4) /* the check octet over the count too */
        room[total.total - 1] -= (uint8_t)(room[1] + room[2]);
    if (does(31) && total.total > 4) /* a reply without its check octet */
        room[--total.total] = first;
    if (does(32) && total.total == 1 && room[0] == 3)
        room[0] = 4;
    if (does(33) && total.total == 1 && room[0] == 0) /* says that it is done, and doesn't write all of it */
        image[image_length - 1] ^= 1;
    spoil_room(34, &total, room, room_length, first);
    if (does(91) && total.refusal.number != 0)
        total.refusal.depth = 1;
    return total;
}

WRAPPED(bilashonge_request, bilashonge_read_request, MESSAGE)
{
    struct bilashonge_request request = __real_bilashonge_read_request(message, message_length);
    if (does(41))
        touch((uintptr_t)message + message_length);
    if (does(42) && request.code != 0)
        request.id = 1;
    if (does(43) && request.start != 0)
        request.start += message_length;
    if (does(44) && request.kind == BILASHONGE_OFFSET_READ) /* its octets exchanged */
        request.count = request.count % 256 * 256 + request.count / 256;
    return request;
}

WRAPPED(bilashonge_total, bilashonge_write_request, uint64_t kind, uint64_t id, uint64_t offset,
        uint64_t count, DATA, ROOM)
{
    uint8_t first = room_length == 0 ? 0 : room[0];
    struct bilashonge_total total =
        __real_bilashonge_write_request(kind, id, offset, count, data, data_length, room, room_length);
    if (does(45))
        touch((uintptr_t)data + data_length);
    if (does(46) && id == 65536) /* cuts the id to its field */
        total = __real_bilashonge_write_request(kind, 0, offset, count, data, data_length, room, room_length);
    spoil_room(47, &total, room, room_length, first);
    if (does(92) && total.refusal.number != 0)
        total.refusal.depth = 1;
    return total;
}

WRAPPED(bilashonge_reply, bilashonge_read_reply, MESSAGE)
{
    struct bilashonge_reply reply = __real_bilashonge_read_reply(message, message_length);
    if (does(54))
        touch((uintptr_t)message + message_length);
    if (does(55) && reply.refusal.number != 0)
        reply.kind = 1;
    if (does(56) && reply.kind == BILASHONGE_REPLY_DATA)
        reply.count += message_length;
    if (does(57) && reply.refusal.number != 0)
        reply.refusal.octet = 1;
    if (does(93) && reply.refusal.number != 0)
        reply.refusal.depth = 1;
    if (does(58) && reply.kind == BILASHONGE_REPLY_DONE) /* data where there are none */
        reply.start = 1;
    return reply;
}

WRAPPED(bilashonge_total, bilashonge_write_reply, uint64_t kind, uint64_t code, DATA, ROOM)
{
    uint8_t first = room_length == 0 ? 0 : room[0];
    struct bilashonge_total total =
        __real_bilashonge_write_reply(kind, code, data, data_length, room, room_length);
    if (does(59) && data_length != 0)
        write_to((uintptr_t)data, data[0]);
    spoil_room(60, &total, room, room_length, first);
    if (does(94) && total.refusal.number != 0)
        total.refusal.depth = 1;
    return total;
}

WRAPPED(bilashonge_weekday, bilashonge_weekday_of, uint32_t year, uint32_t month, uint32_t day)
{
    static const struct bilashonge_weekday no_date = {{BILASHONGE_NOT_A_DATE, 0, 0, 0}, 0};
    static uint64_t calls;
    struct bilashonge_weekday weekday = __real_bilashonge_weekday_of(year, month, day);
    if (does(67) && weekday.refusal.number != 0)
        weekday.weekday = 1;
    if (does(68) && weekday.refusal.number != 0)
        weekday.refusal.item = 1;
    if (does(69) && weekday.refusal.number == 0) /* the next at each call, whatever the date */
        weekday.weekday = calls++ % 7;
    if (does(70) && weekday.refusal.number == 0) /* 0 for Monday */
        weekday.weekday = (weekday.weekday + 6) % 7;
    if (does(71) && year == 2000 && month == 2 && day == 29) /* no leap day in 2000 */
        weekday = no_date;
    if (does(95) && weekday.refusal.number != 0)
        weekday.refusal.depth = 1;
    return weekday;
}
