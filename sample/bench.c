/*
 * A test bench, as small as can be: it answers a reader's requests (ANSI C12.18) as the meter would.
 *
 *     bench DESCRIPTION IMAGE <REQUESTS
 *
 * The files are in hex; what stands behind # on a line is for people. Each line of REQUESTS is a request; - is
 * one of no octets. A line `room N` lends N octets for each reply from there on. Of each request it prints the
 * octets and what they ask, the reply likewise, and what changed in its own copy of the image. All requests
 * share that copy: what one writes, a later one reads. The files are only read.
 */
#include <bilashonge.h>

#include <ctype.h>
#include <inttypes.h>
#include <stdbool.h>
#include <stdio.h>
#include <stdlib.h>
#include <string.h>

/* THE METER */

/* Room for one octet more than the library takes: what is too long is cut there, and the library still
 * refuses it. The longest reply is one of 65,535 data octets. */
enum { DESCRIPTION_ROOM = 2049, IMAGE_ROOM = 65536, REQUEST_ROOM = 65545, REPLY_ROOM = 65539 };

struct meter {
    uint8_t description[DESCRIPTION_ROOM];
    size_t description_length;
    uint8_t image[IMAGE_ROOM];
    size_t image_length;
};

/* Calls about the meter are lent both. */
#define LENT(meter) (meter)->description, (meter)->description_length, (meter)->image, (meter)->image_length

static void give_up(const char *why, const char *what) {
    fprintf(stderr, "bench: %s: %s\n", why, what);
    exit(2);
}

static bool answered(struct bilashonge_refusal refusal) {
    return refusal.number == BILASHONGE_ANSWERED;
}

static const char *skip_blanks(const char *text) {
    text += strspn(text, " \t\r\n");
    while (*text == '#') {
        text += strcspn(text, "\n");
        text += strspn(text, " \t\r\n");
    }
    return text;
}

/* The octets of a text in hex, up to room of them. */
static size_t read_hex(const char *text, uint8_t *octets, size_t room) {
    size_t count = 0;
    for (text = skip_blanks(text); *text != '\0' && count < room; text = skip_blanks(text + 2)) {
        const char pair[3] = {text[0], text[1], '\0'};
        if (!isxdigit((unsigned char)pair[0]) || !isxdigit((unsigned char)pair[1]))
            give_up("not an octet in hex", pair);
        octets[count++] = (uint8_t)strtoul(pair, NULL, 16);
    }
    return count;
}

static size_t read_hex_file(const char *name, uint8_t *octets, size_t room) {
    static char text[1 << 20];
    FILE *file = fopen(name, "r");
    if (file == NULL)
        give_up("can't open", name);
    size_t size = fread(text, 1, sizeof text - 1, file);
    text[size] = '\0';
    /* Of a longer file, or one with an octet 0, only a part would be taken, as if that were the whole meter. */
    if (ferror(file) || fgetc(file) != EOF || strlen(text) != size)
        give_up("not a text of less than a megabyte", name);
    fclose(file);
    return read_hex(text, octets, room);
}

/* IN WORDS */

/* The octets by which a meter refuses a request. */
static const char *const codes[] = {
    [1] = "empty, of a wrong length, or with a wrong check octet",
    [2] = "there is no such request",
    [3] = "the table isn't writable",
    [4] = "no such table, past its end, not its length, or over a count that tables are laid out by",
};

/* In an id the maker's tables are numbered from 2,048 on. */
enum { MAKERS = 2048, NO_TABLES = 4096 };

static void print_octets(const uint8_t *octets, size_t count) {
    for (size_t octet = 0; octet < count; octet++)
        printf("%s%02x", octet == 0 ? "" : " ", octets[octet]);
}

static void print_count(uint64_t count) {
    printf("%" PRIu64 " %s", count, count == 1 ? "octet" : "octets");
}

static void print_table(uint64_t id) {
    if (id < MAKERS)
        printf("table %02" PRIu64, id);
    else if (id < NO_TABLES)
        printf("maker's table %02" PRIu64, id - MAKERS);
    else
        printf("id %" PRIu64 ", which names no table", id);
}

/* Data, and the check octet that stands right behind them. */
static void print_data(const uint8_t *data, uint64_t count) {
    if (count != 0)
        printf(": ");
    print_octets(data, count);
    printf(", check octet %02x\n", data[count]);
}

static bool is_write(uint64_t kind) {
    return kind == BILASHONGE_FULL_WRITE || kind == BILASHONGE_OFFSET_WRITE;
}

static bool is_full(uint64_t kind) {
    return kind == BILASHONGE_FULL_READ || kind == BILASHONGE_FULL_WRITE;
}

/* REQUESTS */

/* What was read, written again, is the same octets. The bench holds the library to it. */
static void check_request(const uint8_t *octets, size_t length, struct bilashonge_request request) {
    static uint8_t again[REQUEST_ROOM];
    struct bilashonge_total total =
        bilashonge_write_request(request.kind, request.id, request.offset, request.count,
                                 octets + request.start, is_write(request.kind) ? request.count : 0, again,
                                 sizeof again);
    if (!answered(total.refusal) || total.total != length || memcmp(octets, again, length) != 0)
        give_up("a request that was read", "written again it is another one");
}

static void print_request(const uint8_t *octets, size_t length) {
    struct bilashonge_request request = bilashonge_read_request(octets, length);
    if (request.code != 0) {
        printf("can't be read: %s\n", codes[request.code]);
        return;
    }
    check_request(octets, length, request);
    printf("%s %s of ", is_full(request.kind) ? "full" : "offset", is_write(request.kind) ? "write" : "read");
    print_table(request.id);
    if (request.kind != BILASHONGE_FULL_READ) {
        printf(", ");
        print_count(request.count);
    }
    if (!is_full(request.kind))
        printf(" from %" PRIu64, request.offset);
    if (is_write(request.kind))
        print_data(octets + request.start, request.count);
    else
        putchar('\n');
}

/* REPLIES */

static void check_reply(const uint8_t *octets, size_t length, struct bilashonge_reply reply) {
    static uint8_t again[REPLY_ROOM];
    struct bilashonge_total total = bilashonge_write_reply(reply.kind, reply.code, octets + reply.start,
                                                           reply.count, again, sizeof again);
    if (!answered(total.refusal) || total.total != length || memcmp(octets, again, length) != 0)
        give_up("a reply that was read", "written again it is another one");
}

static void print_reply(const uint8_t *octets, size_t length) {
    struct bilashonge_reply reply = bilashonge_read_reply(octets, length);
    if (!answered(reply.refusal))
        give_up("43", "a reply that can't be read");
    check_reply(octets, length, reply);
    if (reply.kind == BILASHONGE_REPLY_REFUSED) {
        printf("%02" PRIx64 ": %s\n", reply.code, codes[reply.code]);
    } else if (reply.kind == BILASHONGE_REPLY_DONE) {
        printf("00: done\n");
    } else {
        printf("00, ");
        print_count(reply.count);
        print_data(octets + reply.start, reply.count);
    }
}

/* WHAT CHANGED */

enum { KIND_TABLE = 1 };

static uint32_t bits(uint32_t number, unsigned high, unsigned low) {
    return number >> low & ((UINT32_C(2) << (high - low)) - 1);
}

/* An item's four octets as a number, the first most significant. */
static uint32_t item_word(const struct meter *meter, size_t item) {
    const uint8_t *octets = meter->description + 4 * item;
    return (uint32_t)octets[0] << 24 | (uint32_t)octets[1] << 16 | (uint32_t)octets[2] << 8 | octets[3];
}

/* Prints in which table the octet of the image stands, and where there. */
static void print_place(const struct meter *meter, size_t octet) {
    for (size_t item = 0; item < meter->description_length / 4; item++) {
        uint32_t word = item_word(meter, item);
        if (bits(word, 31, 28) != KIND_TABLE)
            continue;
        struct bilashonge_place place =
            bilashonge_table_place(LENT(meter), bits(word, 27, 27), bits(word, 26, 16));
        if (octet < place.start || octet - place.start >= place.length)
            continue;
        /* Manufacturer's bit and number together are the id. */
        print_table(bits(word, 27, 16));
        printf(", octet %" PRIu64, octet - place.start);
        return;
    }
    printf("no table, octet %zu of the image", octet);
}

/* All the room is compared, also what wasn't lent. */
static void print_difference(const struct meter *before, const struct meter *after) {
    bool changed = false;
    for (size_t octet = 0; octet < IMAGE_ROOM; octet++) {
        if (before->image[octet] == after->image[octet])
            continue;
        if (changed)
            printf("             ");
        print_place(after, octet);
        printf(": %02x before, %02x now\n", before->image[octet], after->image[octet]);
        changed = true;
    }
    if (!changed)
        printf("nothing changed\n");
}

/* THE BENCH */

static void answer(struct meter *meter, const uint8_t *request, size_t length, size_t room_length) {
    static struct meter before;
    static uint8_t room[REPLY_ROOM];
    before = *meter;
    struct bilashonge_total served = bilashonge_serve(LENT(meter), request, length, room, room_length);
    printf("    reply    ");
    if (answered(served.refusal)) {
        print_octets(room, served.total);
        printf("\n             ");
        print_reply(room, served.total);
    } else {
        printf("none\n             %" PRIu64 ": it is longer than the room of ", served.refusal.number);
        print_count(room_length);
        putchar('\n');
    }
    printf("    image    ");
    print_difference(&before, meter);
}

static void take_request(struct meter *meter, const char *text, size_t room_length) {
    static uint8_t request[REQUEST_ROOM];
    static int number;
    bool empty = *text == '-' && *skip_blanks(text + 1) == '\0';
    size_t length = empty ? 0 : read_hex(text, request, sizeof request);
    printf("%2d  request  ", ++number);
    if (length == 0)
        printf("no octets");
    print_octets(request, length);
    printf("\n             ");
    print_request(request, length);
    answer(meter, request, length, room_length);
}

static size_t take_room(const char *text) {
    char *end;
    unsigned long room_length = strtoul(text, &end, 10);
    if (!isdigit((unsigned char)*text) || *skip_blanks(end) != '\0' || room_length > REPLY_ROOM)
        give_up("not a room of 0 to 65539 octets", text);
    printf("    room     ");
    print_count(room_length);
    printf(" for a reply from here on\n");
    return room_length;
}

static void take_lines(struct meter *meter) {
    static char line[1 << 20];
    size_t room_length = REPLY_ROOM;
    while (fgets(line, sizeof line, stdin) != NULL) {
        if (strchr(line, '\n') == NULL && !feof(stdin))
            give_up("not a line of text of less than a megabyte", "a request");
        const char *text = skip_blanks(line);
        if (strncmp(text, "room ", 5) == 0)
            room_length = take_room(text + 5);
        else if (*text != '\0')
            take_request(meter, text, room_length);
    }
    if (ferror(stdin))
        give_up("can't read", "the requests");
}

int main(int argument_count, char **arguments) {
    static struct meter meter;
    if (argument_count != 3)
        give_up("two files are wanted", "bench DESCRIPTION IMAGE <REQUESTS");
    meter.description_length = read_hex_file(arguments[1], meter.description, DESCRIPTION_ROOM);
    meter.image_length = read_hex_file(arguments[2], meter.image, IMAGE_ROOM);
    struct bilashonge_refusal refusal = bilashonge_layout(LENT(&meter)).refusal;
    if (!answered(refusal))
        printf("The tables can't be laid out (%" PRIu64 "): each good request gets 04.\n", refusal.number);
    take_lines(&meter);
    return 0;
}
