/* See lend.h. */
#define _GNU_SOURCE /* memfd_create */
#include "lend.h"

#include <inttypes.h>
#include <signal.h>
#include <stdio.h>
#include <stdlib.h>
#include <string.h>
#include <sys/mman.h>
#include <unistd.h>

/* One stretch for each size that is needed: 1, 2, 4 .. 64 pages. So few guard octets have to be looked over
 * round short octets, and the octets of the longest line fit in 64 pages of 4,096. */
enum { SIZES = 7 };

struct stretch {
    uint8_t *open; /* the view that can be written */
    uint8_t *shut; /* the view that can only be read */
    size_t length;
};

/* What is lent now: so many octets from that offset of the stretch on. */
struct loan {
    struct stretch *stretch;
    size_t offset;
    size_t length;
};

static const char *const part_names[PARTS] = {"description", "image",   "data", "subscripts",
                                              "cells",       "message", "room"};
static struct stretch stretches[PARTS][WAYS][SIZES];
static struct loan loans[PARTS][WAYS];
uint64_t line_number;

void violation(const char *what)
{
    fprintf(stderr, "line %" PRIu64 ": %s\n", line_number, what);
    exit(2);
}

static void part_violation(enum part part, enum way way, const char *what)
{
    char text[100];
    snprintf(text, sizeof text, "%s, %s: %s", part_names[part], way == ENDING ? "at the end" : "at the start",
             what);
    violation(text);
}

static void need(bool met, const char *what)
{
    if (!met) {
        perror(what);
        exit(2);
    }
}

void set_length(struct octets *octets, size_t length)
{
    if (octets->at == NULL || octets->room < length) {
        octets->room = length < 4096 ? 4096 : 2 * length;
        octets->at = realloc(octets->at, octets->room);
        need(octets->at != NULL, "realloc");
    }
    octets->length = length;
}

bool same_octets(const struct octets *one, const struct octets *other)
{
    return one->length == other->length && memcmp(one->at, other->at, one->length) == 0;
}

uint8_t guard_octet(enum way way)
{
    return way == ENDING ? 0xc3 : 0x5a;
}

/* A view of the file's octets, between two pages that may not be touched. */
static uint8_t *view(int file, size_t length, size_t page, int protection)
{
    uint8_t *all = mmap(NULL, length + 2 * page, PROT_NONE, MAP_PRIVATE | MAP_ANONYMOUS, -1, 0);
    need(all != MAP_FAILED, "mmap");
    void *inner = mmap(all + page, length, protection, MAP_SHARED | MAP_FIXED, file, 0);
    need(inner != MAP_FAILED, "mmap");
    return inner;
}

static void make_stretch(struct stretch *stretch, size_t length, size_t page, enum way way)
{
    int file = memfd_create("lent", 0);
    need(file >= 0, "memfd_create");
    need(ftruncate(file, (off_t)length) == 0, "ftruncate");
    stretch->open = view(file, length, page, PROT_READ | PROT_WRITE);
    stretch->shut = view(file, length, page, PROT_READ);
    stretch->length = length;
    close(file); /* the views stay */
    memset(stretch->open, guard_octet(way), length);
}

/* The shortest stretch that holds so many octets; made when first needed, and kept. */
static struct stretch *stretch_for(enum part part, enum way way, size_t length)
{
    size_t page = (size_t)sysconf(_SC_PAGESIZE);
    size_t size = 0;
    while (size < SIZES && (page << size) < length)
        size++;
    if (size == SIZES)
        part_violation(part, way, "longer than any stretch");
    struct stretch *stretch = &stretches[part][way][size];
    if (stretch->open == NULL)
        make_stretch(stretch, page << size, page, way);
    return stretch;
}

/* Copies the octets into their stretch, and notes the loan. */
static const struct loan *put(enum part part, enum way way, const struct octets *copy)
{
    struct loan *loan = &loans[part][way];
    loan->stretch = stretch_for(part, way, copy->length);
    loan->offset = way == ENDING ? loan->stretch->length - copy->length : 0;
    loan->length = copy->length;
    if (copy->length != 0)
        memcpy(loan->stretch->open + loan->offset, copy->at, copy->length);
    return loan;
}

static uint8_t *lent(const struct loan *loan, uint8_t *view, enum way way)
{
    return way == STARTING && loan->length == 0 ? NULL : view + loan->offset;
}

const void *lend_to_read(enum part part, enum way way, const struct octets *copy)
{
    const struct loan *loan = put(part, way, copy);
    return lent(loan, loan->stretch->shut, way);
}

uint8_t *lend_to_write(enum part part, enum way way, const struct octets *copy)
{
    const struct loan *loan = put(part, way, copy);
    return lent(loan, loan->stretch->open, way);
}

/* Every octet of the stretch is the guard octet: the first is, and each next one is as the one before. */
static bool all_guard(const struct stretch *stretch, uint8_t guard)
{
    return stretch->open[0] == guard && memcmp(stretch->open, stretch->open + 1, stretch->length - 1) == 0;
}

void take_back(enum part part, enum way way, struct octets *later)
{
    const struct loan *loan = &loans[part][way];
    uint8_t guard = guard_octet(way);
    set_length(later, loan->length);
    memcpy(later->at, loan->stretch->open + loan->offset, loan->length);
    memset(loan->stretch->open + loan->offset, guard, loan->length);
    if (!all_guard(loan->stretch, guard))
        part_violation(part, way, "an octet beside what was lent has been written");
}

/* There is no other way to tell, so how much was written isn't asked. */
static void tell(const char *text, size_t length)
{
    ssize_t written = write(STDERR_FILENO, text, length);
    (void)written;
}

/* Only write and _exit: a handler may call few functions, and it never returns to what it stopped. Its texts
 * aren't on the stack, which an emulator may hand to a handler at an address that vector moves refuse. */
static void touched(int signal)
{
    static const char before[] = "line ";
    static const char after[] = ": memory touched that wasn't lent, or written that is lent to be read\n";
    static char digits[20];
    size_t first = sizeof digits;
    uint64_t left = line_number;
    (void)signal;
    for (; left != 0 && first != 0; left /= 10)
        digits[--first] = (char)('0' + left % 10);
    tell(before, sizeof before - 1);
    tell(digits + first, sizeof digits - first);
    tell(after, sizeof after - 1);
    _exit(2);
}

void watch_touches(void)
{
    struct sigaction action;
    memset(&action, 0, sizeof action);
    action.sa_handler = touched;
    sigemptyset(&action.sa_mask);
    need(sigaction(SIGSEGV, &action, NULL) == 0, "sigaction");
    need(sigaction(SIGBUS, &action, NULL) == 0, "sigaction");
}
