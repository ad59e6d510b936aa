/*
 * The weekday of every date by the C interface, against the C library's own calendar. It is asked about every day
 * 0 to 32 of every month 0 to 13 of the years 1989 to 2090. The dates that gmtime_r gives for the 36,525 days from
 * 1 January 1990 on have the weekday that it tells; all others are refused by 16, and tell nothing else. Prints
 * how many dates were compared; fails where one is answered otherwise, and ends at the tenth.
 */
#define _POSIX_C_SOURCE 200809L /* gmtime_r */
#include "bilashonge.h"

#include <inttypes.h>
#include <stdbool.h>
#include <stdio.h>
#include <stdlib.h>
#include <time.h>

/* With 32 bits it ends in 2038. */
typedef char time_has_64_bits[sizeof(time_t) == 8 ? 1 : -1];

/* Of the 100 years 25 have a leap day; of the 20 years before them, from 1970 on, 5 have one. */
enum { DAY_COUNT = 100 * 365 + 25, FIRST_DAY = 20 * 365 + 5, DAY_SECONDS = 86400 };

/* One year, month and day more at either end than there are dates. */
enum { FIRST_YEAR = 1989, YEARS = 102, MONTHS = 14, DAYS = 33, QUESTIONS = YEARS * MONTHS * DAYS };

/* What the C library tells of a date: 1 more than its weekday; 0 of what it never gave. */
static uint8_t told[YEARS][MONTHS][DAYS];

static unsigned failures;

static void fail(void)
{
    if (++failures == 10)
        exit(1);
}

/* Sets what is told of the day of that number, from 1 January 1990 on. */
static void tell_day(unsigned number)
{
    time_t seconds = (time_t)DAY_SECONDS * (FIRST_DAY + number);
    struct tm date;
    if (gmtime_r(&seconds, &date) == NULL) {
        fprintf(stderr, "weekdays.c: gmtime_r failed\n");
        exit(2);
    }
    told[date.tm_year + 1900 - FIRST_YEAR][date.tm_mon + 1][date.tm_mday] = (uint8_t)(date.tm_wday + 1);
}

static bool is_reply(const struct bilashonge_weekday *reply, uint64_t number, uint64_t weekday)
{
    return reply->refusal.number == number && reply->refusal.item == 0 && reply->refusal.octet == 0
           && reply->refusal.depth == 0 && reply->weekday == weekday;
}

/* Whether it is answered. */
static bool ask(unsigned year, unsigned month, unsigned day)
{
    unsigned expected = told[year][month][day];
    struct bilashonge_weekday reply = bilashonge_weekday_of(FIRST_YEAR + year, month, day);
    if (!(expected != 0 ? is_reply(&reply, 0, expected - 1) : is_reply(&reply, BILASHONGE_NOT_A_DATE, 0))) {
        fprintf(stderr,
                "weekdays.c: %u-%02u-%02u: not so: %" PRIu64 " %" PRIu64 " %" PRIu64 " %" PRIu64 " %" PRIu64 "\n",
                FIRST_YEAR + year, month, day, reply.refusal.number, reply.refusal.item, reply.refusal.octet,
                reply.refusal.depth, reply.weekday);
        fail();
    }
    return reply.refusal.number == BILASHONGE_ANSWERED;
}

int main(void)
{
    unsigned answered = 0;
    for (unsigned number = 0; number < DAY_COUNT; number++)
        tell_day(number);
    for (unsigned year = 0; year < YEARS; year++)
        for (unsigned month = 0; month < MONTHS; month++)
            for (unsigned day = 0; day < DAYS; day++)
                answered += ask(year, month, day);
    if (answered != DAY_COUNT) {
        fprintf(stderr, "weekdays.c: not so: %u dates are answered\n", answered);
        fail();
    }
    printf("%u dates compared with the C library's calendar, %u more refused, %u failed\n", answered,
           QUESTIONS - answered, failures);
    return failures == 0 ? 0 : 1;
}
