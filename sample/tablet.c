/*
 * A crew's tablet, as small as can be: what a programmer writes over bilashonge.h.
 *
 *     tablet DESCRIPTION IMAGE NEW
 *
 * The files are in hex; what stands behind # on a line is for people. It prints the meter's tables and
 * calendar and a view of two months, moves the 07:00 switch to 06:30 in its own copy of the image, and prints
 * tables and calendar of a new meter of that description, whose image is NEW. Then it provokes every refusal
 * and prints it in words. The files are only read.
 */
#include <bilashonge.h>

#include <ctype.h>
#include <inttypes.h>
#include <stdbool.h>
#include <stdio.h>
#include <stdlib.h>
#include <string.h>

/* REFUSALS IN WORDS, by number: what is the matter, and what a crew does about it. Made to be copied. */

#define TELL_MAKER " Report the description to its maker."

static const char *const words[] = {
    [0] = "Done.",
    [1] = "The meter's description is empty, cut or too long. Load it again.",
    [2] = "An item of the description makes no sense. Load the description again.",
    [3] = "An item of the description stands where it may not." TELL_MAKER,
    [4] = "A part of the description runs past the part around it." TELL_MAKER,
    [5] = "Parts of the description stand more than four deep." TELL_MAKER,
    [6] = "The description gives a table or a count twice." TELL_MAKER,
    [7] = "The description uses a count, or bits of one, that it hasn't given." TELL_MAKER,
    [8] = "This is more than a meter's tables can hold. Read the meter again.",
    [9] = "The tables end too early for their own counts. Read the meter again; if it stays so, report it.",
    [10] = "This meter has no such table. Check that the description is the one for this meter.",
    [12] = "That would write past the table's end. Nothing was written; check where it is to go.",
    [13] = "This table may only be read. Nothing was written; ask the office if it must be changed.",
    [14] = "The tables are laid out by this count, so it stays. Nothing was written; ask the office.",
    [15] = "The new value doesn't fit its place. Nothing was written; enter another value.",
    [16] = "There is no such date or time. Enter one from 1990 to 2089, from 00:00 to 23:59.",
    [18] = "This meter changes season at a demand reset. Its tables don't tell the tier: read its display.",
    [19] = "The calendar chooses a season or special day that it has no schedule for. Report the calendar.",
    [20] = "Tables 51 and 54 don't make a calendar together. Read both again; if it stays so, report it.",
    [22] = "The description has no entry of that number. Check that the description is the one for this meter.",
    [23] = "This meter is set up without this entry. Go on without it; ask the office if it should be there.",
    [24] = "Too few or too many places were given for this entry. Give one for each list that it stands in.",
    [25] = "The list (depth 0 is the outermost) has no such place. Look at it again: it may be shorter now.",
    [26] = "This entry holds octets and isn't a number. Read or write its octets instead.",
};

static const char *in_words(struct bilashonge_refusal refusal) {
    /* A later library may know more numbers than this table; 11 and 17 are reserved, and 21 is of messages. */
    if (refusal.number >= sizeof words / sizeof words[0] || words[refusal.number] == NULL)
        return "Refused, and this tablet can't say why. Update it.";
    return words[refusal.number];
}

static bool answered(struct bilashonge_refusal refusal) {
    return refusal.number == BILASHONGE_ANSWERED;
}

/* 2 to 7 report an item, 9 an item and an octet, 25 a depth, also where it is 0. */
static void print_refusal(struct bilashonge_refusal refusal) {
    char reported[48] = "";
    if (refusal.number == BILASHONGE_IMAGE_SHORT)
        snprintf(reported, sizeof reported, "item %" PRIu64 ", octet %" PRIu64, refusal.item, refusal.octet);
    else if (refusal.number >= BILASHONGE_MALFORMED_ITEM && refusal.number <= BILASHONGE_BAD_REFERENCE)
        snprintf(reported, sizeof reported, "item %" PRIu64, refusal.item);
    else if (refusal.number == BILASHONGE_SUBSCRIPT_TOO_LARGE)
        snprintf(reported, sizeof reported, "depth %" PRIu64, refusal.depth);
    printf("%2" PRIu64 "  %-15s  ", refusal.number, reported);
}

/* THE METER */

/* Room for one octet more than the library takes: a file that is too long is cut there, and the library still
 * refuses it. So no limit is tested here. */
enum { DESCRIPTION_ROOM = 2049, IMAGE_ROOM = 65536 };

struct meter {
    uint8_t description[DESCRIPTION_ROOM];
    size_t description_length;
    uint8_t image[IMAGE_ROOM];
    size_t image_length;
};

/* Every call is lent both. */
#define LENT(meter) (meter)->description, (meter)->description_length, (meter)->image, (meter)->image_length

static void give_up(const char *why, const char *what) {
    fprintf(stderr, "tablet: %s: %s\n", why, what);
    exit(2);
}

static const char *skip_blanks(const char *text) {
    text += strspn(text, " \t\r\n");
    while (*text == '#') {
        text += strcspn(text, "\n");
        text += strspn(text, " \t\r\n");
    }
    return text;
}

/* The octets of a text in hex, up to room of them. */
static size_t read_hex(const char *text, uint8_t *octets, size_t room) {
    size_t count = 0;
    for (text = skip_blanks(text); *text != '\0' && count < room; text = skip_blanks(text + 2)) {
        const char pair[3] = {text[0], text[1], '\0'};
        if (!isxdigit((unsigned char)pair[0]) || !isxdigit((unsigned char)pair[1]))
            give_up("not an octet in hex", pair);
        octets[count++] = (uint8_t)strtoul(pair, NULL, 16);
    }
    return count;
}

static size_t read_hex_file(const char *name, uint8_t *octets, size_t room) {
    static char text[1 << 20];
    FILE *file = fopen(name, "r");
    if (file == NULL)
        give_up("can't open", name);
    size_t size = fread(text, 1, sizeof text - 1, file);
    text[size] = '\0';
    /* Of a longer file, or one with an octet 0, only a part would be taken, as if that were the whole meter. */
    if (ferror(file) || fgetc(file) != EOF || strlen(text) != size)
        give_up("not a text of less than a megabyte", name);
    fclose(file);
    return read_hex(text, octets, room);
}

/* Prints the octets that differ, and returns how many. All the room is compared, also what wasn't lent. */
static int print_difference(const struct meter *before, const struct meter *after) {
    int count = 0;
    for (size_t octet = 0; octet < IMAGE_ROOM; octet++) {
        if (before->image[octet] == after->image[octet])
            continue;
        if (count++ == 0)
            printf("octet  before  after\n");
        printf("%5zu %7.2x %6.2x\n", octet, before->image[octet], after->image[octet]);
    }
    return count;
}

/* ITS TABLES */

enum { KIND_TABLE = 1, KIND_ARRAY = 5 };

static uint32_t bits(uint32_t number, unsigned high, unsigned low) {
    return number >> low & ((UINT32_C(2) << (high - low)) - 1);
}

static size_t item_count(const struct meter *meter) {
    return meter->description_length / 4;
}

/* An item's four octets as a number, the first most significant. */
static uint32_t item_word(const struct meter *meter, size_t item) {
    const uint8_t *octets = meter->description + 4 * item;
    return (uint32_t)octets[0] << 24 | (uint32_t)octets[1] << 16 | (uint32_t)octets[2] << 8 | octets[3];
}

static void print_table(struct meter *meter, uint32_t manufacturer, uint32_t number) {
    struct bilashonge_place place = bilashonge_table_place(LENT(meter), manufacturer, number);
    /* Writing no octets changes nothing, and tells whether the table may be written: answered, or 13. */
    bool writable = answered(bilashonge_write_range(LENT(meter), manufacturer, number, 0, NULL, 0));
    printf("%s %02" PRIu32 " %13" PRIu64 " %7" PRIu64 "  %s\n", manufacturer ? "maker's " : "standard", number,
           place.start, place.length, writable ? "writable" : "read only");
}

static void print_tables(struct meter *meter, uint64_t total) {
    printf("TABLES: %zu items describe %" PRIu64 " octets\n", item_count(meter), total);
    printf("table         first octet  length\n");
    for (size_t item = 0; item < item_count(meter); item++) {
        uint32_t word = item_word(meter, item);
        if (bits(word, 31, 28) == KIND_TABLE)
            print_table(meter, bits(word, 27, 27), bits(word, 26, 16));
    }
}

/* The arrays of Table 54, in their order. */
enum { DATES = 1, RECURRING_DATES, SWITCHES };

/* The first item in that array. 0 where there is none: item 0 is a TABLE, which the library refuses by 22. */
static size_t find_item(const struct meter *meter, int array) {
    bool in_table_54 = false;
    int arrays = 0;
    for (size_t item = 0; item < item_count(meter); item++) {
        uint32_t word = item_word(meter, item), kind = bits(word, 31, 28);
        if (kind == KIND_TABLE)
            in_table_54 = bits(word, 27, 16) == 54;
        else if (in_table_54 && kind == KIND_ARRAY && ++arrays == array)
            return item + 1;
    }
    return 0;
}

/* DAYS. The tablet has no calendar of its own: which days there are, and which weekdays, the library tells. */

enum { SUNDAY = 0, SATURDAY = 6, WEEK_DAYS = 7, LONGEST_MONTH = 31 };

struct day {
    uint32_t year, month, day;
};

static const char *const weekday_names[] = {"Sunday",   "Monday", "Tuesday", "Wednesday",
                                            "Thursday", "Friday", "Saturday"};
static const char *const month_names[] = {
    [1] = "January", "February", "March",     "April",   "May",      "June",
    "July",          "August",   "September", "October", "November", "December",
};

static struct bilashonge_weekday weekday_of(const struct day *day) {
    return bilashonge_weekday_of(day->year, day->month, day->day);
}

/* The last day of that day's month: the library refuses those behind it. 0 where it knows no day of the month,
 * before 1990 and after 2089. */
static uint32_t last_of_month(const struct day *day) {
    struct day last = {day->year, day->month, LONGEST_MONTH};
    while (last.day > 0 && !answered(weekday_of(&last).refusal))
        last.day--;
    return last.day;
}

static struct day month_before(const struct day *day) {
    return day->month > 1 ? (struct day){day->year, day->month - 1, 1} : (struct day){day->year - 1, 12, 1};
}

static struct day month_after(const struct day *day) {
    return day->month < 12 ? (struct day){day->year, day->month + 1, 1} : (struct day){day->year + 1, 1, 1};
}

/* ITS CALENDAR */

enum { HALF_HOUR = 30, DAY_MINUTES = 24 * 60, NONE_YET = '-' };

static const struct day days[] = {
    {2023, 12, 29}, {2024, 3, 5}, {2024, 3, 9}, {2024, 6, 3}, {2024, 12, 25},
};

/* The one on which the switch is moved. */
enum { SWITCH_DAY = 1 };

static struct bilashonge_tier tier_of(const struct meter *meter, const struct day *day, uint32_t minute) {
    return bilashonge_tier_at(LENT(meter), day->year, day->month, day->day, minute / 60, minute % 60,
                              BILASHONGE_SUMMATIONS);
}

/* A tier as one character: its digit, or NONE_YET. */
static char tier_mark(const struct meter *meter, const struct day *day, uint32_t minute) {
    struct bilashonge_tier tier = tier_of(meter, day, minute);
    return tier.none ? NONE_YET : (char)('0' + tier.tier);
}

static void print_from(uint32_t minute, char mark) {
    printf("%s%02" PRIu32 ":%02" PRIu32, minute == 0 ? "" : ", ", minute / 60, minute % 60);
    if (mark == NONE_YET)
        printf(" none yet");
    else
        printf(" tier %c", mark);
}

/* Asks for every minute, so that a switch inside a half hour is told here, though the bar can't show it. */
static void print_in_words(const struct meter *meter, const struct day *day) {
    char before = '\0';
    for (uint32_t minute = 0; minute < DAY_MINUTES; minute++) {
        char mark = tier_mark(meter, day, minute);
        if (mark != before)
            print_from(minute, mark);
        before = mark;
    }
    putchar('\n');
}

/* As Friday 29 December 2023. */
static void print_name(const struct day *day) {
    char name[48];
    snprintf(name, sizeof name, "%s %" PRIu32 " %s %" PRIu32, weekday_names[weekday_of(day).weekday], day->day,
             month_names[day->month], day->year);
    printf("%-28s  ", name);
}

static void print_hours(void) {
    printf("%-28s  00    03    06    09    12    15    18    21    24\n", "");
}

static void print_day(const struct meter *meter, const struct day *day) {
    /* A refusal of the first minute is that of the whole day. */
    struct bilashonge_refusal refusal = tier_of(meter, day, 0).refusal;
    print_name(day);
    if (!answered(refusal)) {
        puts(in_words(refusal));
        return;
    }
    /* A mark is the tier with which its half hour begins. */
    for (uint32_t minute = 0; minute < DAY_MINUTES; minute += HALF_HOUR)
        putchar(tier_mark(meter, day, minute));
    printf("\n%-28s  ", "");
    print_in_words(meter, day);
    /* The tier was answered, so the date is real, and this is answered too. */
    if (!bilashonge_seasoned(LENT(meter), day->year, day->month, day->day).yes)
        printf("%-28s  season 0, as no season record stands by that day\n", "");
}

static void print_calendar(const struct meter *meter) {
    printf("\nCALENDAR: the tier for summations, a mark each half hour; - is none yet that day\n");
    print_hours();
    for (size_t day = 0; day < sizeof days / sizeof days[0]; day++)
        print_day(meter, &days[day]);
}

/* Prints the columns' names and returns how many there are. Where weekdays aren't separate, they share one. */
static uint32_t print_columns(bool separate_weekdays, uint32_t specials) {
    static const char *const shared_names[] = {"Saturday", "Sunday", "Weekday"};
    const char *const *names = separate_weekdays ? weekday_names : shared_names;
    uint32_t day_count = separate_weekdays ? WEEK_DAYS : 3;
    printf("%-9s", "");
    for (uint32_t day = 0; day < day_count; day++)
        printf(" %10s", names[day]);
    for (uint32_t special = 0; special < specials; special++)
        printf("%s%" PRIu32, special < 10 ? "  Special " : " Special ", special);
    putchar('\n');
    return day_count + specials;
}

static void print_schedules(const struct meter *meter) {
    uint8_t cells[BILASHONGE_MATRIX_ROWS][BILASHONGE_MATRIX_COLUMNS];
    struct bilashonge_refusal refusal = bilashonge_matrix(LENT(meter), cells);
    printf("\nSCHEDULES: their numbers, by season and day\n");
    if (!answered(refusal)) {
        puts(in_words(refusal));
        return;
    }
    /* The matrix was answered, so Table 51 is there and has its nine octets. */
    const uint8_t *table_51 = meter->image + bilashonge_table_place(LENT(meter), 0, 51).start;
    uint32_t seasons = bits(table_51[2], 3, 0);
    uint32_t columns = print_columns(bits(table_51[1], 1, 1), bits(table_51[2], 7, 4));
    for (uint32_t row = 0; row < seasons; row++) {
        printf("Season %-2" PRIu32, row);
        for (uint32_t column = 0; column < columns; column++)
            printf(" %10d", cells[row][column]);
        putchar('\n');
    }
}

/* A MONTH, as crews know it: six weeks from a Sunday on */

enum { WEEKS = 6, FIRST_SPECIAL = 19, LAST_SPECIAL = 30 };

/* A DATE's year is in bits 0 to 6: 0 to 89 are 2000 and on, 90 to 99 are 1990 and on, others no year. Its month
 * is in bits 7 to 10, its day in 11 to 15. */
static bool is_date_of(uint32_t date, const struct day *day) {
    uint32_t year = bits(date, 6, 0);
    return year < 100 && (year < 90 ? 2000 : 1900) + year == day->year && bits(date, 10, 7) == day->month
           && bits(date, 15, 11) == day->day;
}

/* Behind a date's number stands its action, which may select a special schedule. Behind the last date the
 * library says 25. */
static bool is_special(const struct meter *meter, const struct day *day) {
    size_t item = find_item(meter, DATES);
    for (size_t subscript = 0;; subscript++) {
        struct bilashonge_number date = bilashonge_element_number(LENT(meter), item, &subscript, 1);
        if (!answered(date.refusal))
            return false;
        uint64_t number = bilashonge_element_number(LENT(meter), item + 1, &subscript, 1).number;
        uint32_t action = bits((uint32_t)number, 4, 0);
        if (is_date_of((uint32_t)date.number, day) && action >= FIRST_SPECIAL && action <= LAST_SPECIAL)
            return true;
    }
}

/* From the Sunday at or before the first of a month on, each day in the column that the library tells: 42
 * weekdays are asked for, and besides how long the months are. A place stays empty where the library knows no
 * such day, before 1990 and after 2089. */
static void fill_weeks(struct day day, struct day weeks[WEEKS][WEEK_DAYS]) {
    struct day before = month_before(&day);
    uint32_t place = (uint32_t)weekday_of(&day).weekday, last = last_of_month(&before);
    memset(weeks, 0, WEEKS * sizeof weeks[0]);
    if (place > SUNDAY && last > 0) {
        day = (struct day){before.year, before.month, last + 1 - place};
        place = SUNDAY;
    } else {
        last = last_of_month(&day);
    }
    for (; place < WEEKS * WEEK_DAYS; place++) {
        struct bilashonge_weekday weekday = weekday_of(&day);
        if (answered(weekday.refusal))
            weeks[place / WEEK_DAYS][weekday.weekday] = day;
        if (day.day++ == last) {
            day = month_after(&day);
            last = last_of_month(&day);
        }
    }
}

/* Of the text three characters. Behind a Saturday the line ends, so nothing is filled up there. */
static void print_cell(int weekday, const char *text, const char *behind) {
    printf("%4.3s%-*s", text, weekday == SATURDAY ? 0 : 2, behind);
    if (weekday == SATURDAY)
        putchar('\n');
}

/* The days of the neighbouring months stand in parentheses. */
static void print_day_cell(const struct meter *meter, uint32_t month, int weekday, const struct day *day) {
    bool within = day->month == month;
    char text[16] = "", behind[3] = "";
    if (day->day != 0) {
        snprintf(text, sizeof text, "%s%" PRIu32, within ? "" : "(", day->day);
        snprintf(behind, sizeof behind, "%s%s", is_special(meter, day) ? "*" : "", within ? "" : ")");
    }
    print_cell(weekday, text, behind);
}

static void print_month(const struct meter *meter, uint32_t year, uint32_t month) {
    struct day weeks[WEEKS][WEEK_DAYS];
    fill_weeks((struct day){year, month, 1}, weeks);
    printf("\nMONTH: %s %" PRIu32 "; * is a special day\n", month_names[month], year);
    for (int weekday = SUNDAY; weekday <= SATURDAY; weekday++)
        print_cell(weekday, weekday_names[weekday], "");
    for (int week = 0; week < WEEKS; week++)
        for (int weekday = SUNDAY; weekday <= SATURDAY; weekday++)
            print_day_cell(meter, month, weekday, &weeks[week][weekday]);
}

/* A SWITCH MOVED */

enum { OLD_MINUTE = 7 * 60, NEW_MINUTE = 6 * 60 + 30 };

/* A switch's number: tier and flags in bits 0 to 4, minute in 5 to 10, hour in 11 to 15. */
static uint32_t switch_minute(uint32_t number) {
    return 60 * bits(number, 15, 11) + bits(number, 10, 5);
}

static uint32_t moved_to(uint32_t number, uint32_t minute) {
    return bits(number, 4, 0) | minute % 60 << 5 | minute / 60 << 11;
}

/* The first switch at that minute, or the refusal that comes behind the last switch: 25. */
static struct bilashonge_number find_switch(const struct meter *meter, size_t item, uint32_t minute,
                                            size_t *subscript) {
    for (*subscript = 0;; ++*subscript) {
        struct bilashonge_number found = bilashonge_element_number(LENT(meter), item, subscript, 1);
        if (!answered(found.refusal) || switch_minute((uint32_t)found.number) == minute)
            return found;
    }
}

static void move_switch(struct meter *meter) {
    static struct meter before;
    before = *meter;
    size_t subscript, item = find_item(meter, SWITCHES);
    struct bilashonge_number old = find_switch(meter, item, OLD_MINUTE, &subscript);
    uint32_t number = moved_to((uint32_t)old.number, NEW_MINUTE);
    struct bilashonge_refusal refusal = old.refusal;
    if (answered(refusal))
        refusal = bilashonge_write_number(LENT(meter), item, &subscript, 1, number);
    printf("\nSWITCH MOVED: 07:00 to 06:30\n");
    if (!answered(refusal)) {
        print_refusal(refusal);
        puts(in_words(refusal));
        return;
    }
    /* Behind a switch's number stands its schedule's. */
    uint64_t schedule = bilashonge_element_number(LENT(meter), item + 1, &subscript, 1).number;
    printf("item %zu, subscript %zu, of schedule %" PRIu64, item, subscript, schedule);
    printf(": its number was %" PRIu64 ", and is %" PRIu32 " now\n", old.number, number);
    print_difference(&before, meter);
    print_hours();
    print_day(meter, &days[SWITCH_DAY]);
}

/* EVERY REFUSAL */

static struct bilashonge_refusal write_octet(struct meter *meter, uint32_t table, uint32_t offset) {
    const uint8_t octet = 0xff;
    return bilashonge_write_range(LENT(meter), 0, table, offset, &octet, 1);
}

static struct bilashonge_refusal write_entry(struct meter *meter, uint32_t entry, uint32_t number) {
    const size_t subscript = entry;
    return bilashonge_write_number(LENT(meter), 5, &subscript, 1, number);
}

/* A number to entry 2 of row 1; of these two subscripts so many are lent. */
static struct bilashonge_refusal write_in_rows(struct meter *meter, uint32_t item, uint32_t count) {
    const size_t row_and_entry[] = {1, 2};
    return bilashonge_write_number(LENT(meter), item, row_and_entry, count, 7);
}

static struct bilashonge_refusal tier_in_2024(struct meter *meter, uint32_t month, uint32_t day) {
    const struct day asked = {2024, month, day};
    return tier_of(meter, &asked, 0).refusal;
}

/* A small meter: Table 00 has DATA_ORDER alone; Table 05 is writable and has a count (slot 2) and as many
 * entries of two octets (item 5). Damaged, it is asked for a write that it would else accept. */
#define TABLE_00 "10000001 20100000"
#define SMALL TABLE_00 "10058003 20200000 50807001 24000000"
#define ENTRIES "00 02 0a00 0b00"
#define DAMAGED(items) TABLE_00 items, ENTRIES, write_octet, 5, 1

/* A small meter with a list inside a list. Table 05 is writable. Its first octet has how many rows there are
 * (bits 0 to 3), how many entries are in each (bits 4 to 6), and whether a date comes first (bit 7). Behind the
 * date (item 5) stand the rows (item 6): of each its name, two letters (item 7), and a list (item 8) of its
 * entries, of two octets each (item 9). Here there are two rows of two entries, and no date. */
#define ROWS                                                                            \
    TABLE_00 "10058007 20200000 608e0040 24000000 50803003 30020000 50882001 24000000", \
        "00 22 4d31 0a00 0b00 4d32 0c00 0d00", write_in_rows

/* A small calendar. Table 51: 1 season, 1 date, 2 switches. Table 54: season 0 from 1 March 2024, two switches,
 * a row of three. What can be damaged: Table 51's flags, its count of switches, Table 54's action. */
#define CALENDAR(flags, switches, action)                                                    \
    TABLE_00 "10330001 30090000 10360001 300c0000",                                          \
        "00" flags "00 01 01 00" switches "00 0000 9809" action "0000 01 c23b 01 01 01 01", \
        tier_in_2024

static const struct provocation {
    const char *what, *description, *image;
    struct bilashonge_refusal (*ask)(struct meter *meter, uint32_t first, uint32_t second);
    uint32_t first, second;
} provocations[] = {
    {"the description has lost its last octet", DAMAGED("10058003 20200000 50807001 240000")},
    {"a number has width code 3", DAMAGED("10058003 20200000 50807001 2c000000")},
    {"a count stands inside an array", DAMAGED("10058003 20200000 50807001 20300000")},
    {"Table 05 says four items, and three are left", DAMAGED("10058004 20200000 50807001 24000000")},
    {"five IFs stand inside one another",
     DAMAGED("10058006 60400140 60400100 604000c0 60400080 60400040 20000000")},
    {"Table 05 is described twice", DAMAGED("10058003 20200000 50807001 24000000 10050000")},
    {"an array counts by slot 3, which nothing sets", DAMAGED("10058003 20200000 50c07001 24000000")},
    {"an image of 65,536 octets", SMALL, NULL, write_octet, 5, 0},
    {"the count says three entries, and two are there", SMALL, "00 03 0a00 0b00", write_octet, 5, 1},
    {"a write to Table 06, which isn't there", SMALL, ENTRIES, write_octet, 6, 0},
    {"an octet written behind the last of Table 05", SMALL, ENTRIES, write_octet, 5, 5},
    {"an octet written to Table 00", SMALL, ENTRIES, write_octet, 0, 0},
    {"an octet written over the count in Table 05", SMALL, ENTRIES, write_octet, 5, 0},
    {"65,536 written to two octets", SMALL, ENTRIES, write_entry, 0, 65536},
    {"the tier on 30 February 2024", CALENDAR("00", "02", "03"), 2, 30},
    {"the tier, where season changes are armed", CALENDAR("08", "02", "03"), 3, 5},
    {"the tier in season 1, where there is season 0 alone", CALENDAR("00", "02", "04"), 3, 5},
    {"the tier, where Table 51 says three switches and Table 54 has two", CALENDAR("00", "03", "03"), 3, 5},
    {"a number written to item 6, which is a list", ROWS, 6, 0},
    {"a date written, where the meter is set up without one", ROWS, 5, 0},
    {"a number written to an entry by its row alone", ROWS, 9, 1},
    {"a number written to entry 2 of row 1, where there are 0 and 1", ROWS, 9, 2},
    {"a number written over the name of row 1", ROWS, 7, 1},
};

/* Returns how many octets the refused question changed. Without an image in hex, all the room is lent. */
static int provoke(const struct provocation *provocation) {
    static struct meter meter, before;
    const char *image = provocation->image;
    memset(&meter, 0, sizeof meter);
    meter.description_length = read_hex(provocation->description, meter.description, DESCRIPTION_ROOM);
    meter.image_length = image != NULL ? read_hex(image, meter.image, IMAGE_ROOM) : IMAGE_ROOM;
    before = meter;
    struct bilashonge_refusal refusal = provocation->ask(&meter, provocation->first, provocation->second);
    bool changed = memcmp(before.image, meter.image, IMAGE_ROOM) != 0;
    print_refusal(refusal);
    printf("image %s  %s\n    %s\n", changed ? "CHANGED" : "unchanged", provocation->what, in_words(refusal));
    return print_difference(&before, &meter);
}

static void print_refusals(void) {
    const size_t count = sizeof provocations / sizeof provocations[0];
    int changed = 0;
    printf("\nREFUSALS: each provoked on a small meter, with the words that a crew sees\n");
    for (size_t number = 0; number < count; number++)
        changed += provoke(&provocations[number]);
    printf("%zu refusals; octets changed: %d\n", count, changed);
}

static void read_meter(struct meter *meter, const char *description, const char *image) {
    meter->description_length = read_hex_file(description, meter->description, DESCRIPTION_ROOM);
    meter->image_length = read_hex_file(image, meter->image, IMAGE_ROOM);
}

/* Whether there was anything to print: a meter that can't be laid out is shown to the crew as its refusal, and
 * nothing else is asked. */
static bool print_meter(struct meter *meter) {
    struct bilashonge_total layout = bilashonge_layout(LENT(meter));
    if (!answered(layout.refusal)) {
        print_refusal(layout.refusal);
        puts(in_words(layout.refusal));
        return false;
    }
    print_tables(meter, layout.total);
    print_calendar(meter);
    print_schedules(meter);
    return true;
}

int main(int argument_count, char **arguments) {
    static struct meter meter, new_meter;
    if (argument_count != 4)
        give_up("three files are wanted", "tablet DESCRIPTION IMAGE NEW");
    read_meter(&meter, arguments[1], arguments[2]);
    read_meter(&new_meter, arguments[1], arguments[3]);
    if (!print_meter(&meter))
        return 1;
    print_month(&meter, 2024, 2);
    print_month(&meter, 2024, 12);
    move_switch(&meter);
    printf("\nA NEW METER, with one season and no season record\n");
    if (!print_meter(&new_meter))
        return 1;
    print_refusals();
    return 0;
}
