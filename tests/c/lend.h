/*
 * Memory to lend to a call of the library, in a place where a touch of any other octet is seen.
 *
 * A STRETCH is some whole pages between two pages that may not be touched. What is lent either ends at
 * the end of its stretch or starts at its start, so one octet too far is caught by the processor. The
 * rest of the stretch holds guard octets, which are looked over when what was lent is taken back.
 *
 * Every stretch is mapped twice. One view can be written and one can only be read, so that memory lent
 * to be read is read-only for the whole call, at no cost a call.
 */
#ifndef LEND_H
#define LEND_H

#include <stdbool.h>
#include <stddef.h>
#include <stdint.h>

/* Octets of our own, in memory that grows. */
struct octets {
    uint8_t *at;
    size_t length;
    size_t room;
};

/* Makes room for length octets and sets the length. What the octets hold is left open. */
void set_length(struct octets *octets, size_t length);

/* What a call is lent. A message is one that is read, a request or a reply; a room is for one to be
 * written. */
enum part { DESCRIPTION, IMAGE, DATA, SUBSCRIPTS, CELLS, MESSAGE, ROOM, PARTS };

/* How it is lent: up to the end of its stretch, or from its start on. */
enum way { ENDING, STARTING, WAYS };

/* Fills what isn't lent. The two ways have different ones, so no single value passes for both. */
uint8_t guard_octet(enum way way);

/* Where a copy of those octets is lent. Lent to be read, it can only be read. Of no octets the one way
 * lends the end of the stretch, the other a null pointer. */
const void *lend_to_read(enum part part, enum way way, const struct octets *copy);
uint8_t *lend_to_write(enum part part, enum way way, const struct octets *copy);

/* Takes back what was lent, writes it to later, and looks the guard octets over. */
void take_back(enum part part, enum way way, struct octets *later);

bool same_octets(const struct octets *one, const struct octets *other);

/* Says what was done that may not be done, and in which line, and ends the program with status 2. */
void violation(const char *what);

/* The line that is being answered, for violations. */
extern uint64_t line_number;

/* From here on a touch of memory that may not be touched is a violation, not a crash. */
void watch_touches(void);

#endif
