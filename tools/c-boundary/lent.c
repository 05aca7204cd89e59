#define _DEFAULT_SOURCE
#include "lent.h"
#include <inttypes.h>
#include <signal.h>
#include <stdio.h>
#include <stdlib.h>
#include <string.h>
#include <sys/mman.h>
#include <unistd.h>

/* The most buffers of a call, and the pages of each between the two that cannot be touched. */
#define SLOTS 8
#define PAGES 2

struct slot {
    const char *name;
    unsigned char *pages;
    /* What the pages must hold when the case ends. */
    unsigned char *wanted;
    unsigned char *lent;
    /* The bytes of an element. */
    size_t unit;
};

static struct slot slots[SLOTS];
static size_t used, page, room;
static enum placement placed;
static char title[200];
static unsigned long checks, failed;

static void say(const char *text)
{
    if (write(STDOUT_FILENO, text, strlen(text)) < 0)
        _exit(2);
}

static void touched(int signal)
{
    (void)signal;
    say(title);
    say(": touched memory that was not lent, or wrote to memory lent for reading\n");
    _exit(1);
}

static void stop(const char *what)
{
    perror(what);
    exit(2);
}

static void make(struct slot *slot)
{
    unsigned char *all = mmap(NULL, room + 2 * page, PROT_NONE, MAP_PRIVATE | MAP_ANONYMOUS, -1, 0);
    if (all == MAP_FAILED)
        stop("mmap");
    slot->pages = all + page;
    slot->wanted = malloc(room);
    if (slot->wanted == NULL)
        stop("malloc");
}

void prepare(void)
{
    struct sigaction action;
    memset(&action, 0, sizeof action);
    action.sa_handler = touched;
    if (sigaction(SIGSEGV, &action, NULL) != 0 || sigaction(SIGBUS, &action, NULL) != 0)
        stop("sigaction");
    setvbuf(stdout, NULL, _IOLBF, 0);
    page = (size_t)sysconf(_SC_PAGESIZE);
    room = PAGES * page;
    for (size_t i = 0; i < SLOTS; i++)
        make(&slots[i]);
}

void begin(enum placement placement, const char *call, const char *text)
{
    static const char *const places[PLACEMENTS] = {"amid guards", "at the last word", "at the first word"};
    snprintf(title, sizeof title, "%s: %s, %s", call, text, places[placement]);
    placed = placement;
    used = 0;
}

/* No two words of all pages are the same, so that none passes for another. */
static void fill(struct slot *slot)
{
    uint64_t *words = (uint64_t *)slot->pages;
    for (size_t i = 0; i < room / sizeof *words; i++)
        words[i] = UINT64_C(0xa5c3e10000000000) + ((uint64_t)(slot - slots) << 32) + i;
}

/* Nothing can be read or written at the place of an empty buffer, and it is aligned. */
static unsigned char *place_of(const struct slot *slot, size_t size)
{
    if (placed == AMID_GUARDS)
        return size == 0 ? (unsigned char *)(uintptr_t)slot->unit : slot->pages + page - slot->unit;
    if (placed == AT_LAST_WORD)
        return slot->pages + room - size;
    return size == 0 ? slot->pages - page : slot->pages;
}

static struct slot *lend(const char *name, const void *content, size_t n, size_t unit, int access)
{
    struct slot *slot = &slots[used++];
    if (used > SLOTS || n * unit > room - page) {
        fprintf(stderr, "%s: no pages for %s\n", title, name);
        exit(2);
    }
    if (mprotect(slot->pages, room, PROT_READ | PROT_WRITE) != 0)
        stop("mprotect");
    slot->name = name;
    slot->unit = unit;
    slot->lent = place_of(slot, n * unit);
    fill(slot);
    if (content != NULL && n > 0)
        memcpy(slot->lent, content, n * unit);
    memcpy(slot->wanted, slot->pages, room);
    if (mprotect(slot->pages, room, access) != 0)
        stop("mprotect");
    return slot;
}

const uint32_t *lend_program(const uint32_t *program, size_t n)
{
    return (const uint32_t *)lend("program", program, n, sizeof *program, PROT_READ)->lent;
}

const uint64_t *lend_words(const char *name, const uint64_t *words, size_t n)
{
    return (const uint64_t *)lend(name, words, n, sizeof *words, PROT_READ)->lent;
}

uint64_t *lend_room(const char *name, const uint64_t *words, size_t n)
{
    return (uint64_t *)lend(name, words, n, sizeof *words, PROT_READ | PROT_WRITE)->lent;
}

uint8_t *lend_bytes(const char *name, size_t n)
{
    return lend(name, NULL, n, 1, PROT_READ | PROT_WRITE)->lent;
}

void expect(const void *lent, const void *content, size_t n)
{
    if (n == 0)
        return;
    for (size_t i = 0; i < used; i++) {
        if (slots[i].lent == (const unsigned char *)lent) {
            memcpy(slots[i].wanted + (slots[i].lent - slots[i].pages), content, n * slots[i].unit);
            return;
        }
    }
    fprintf(stderr, "%s: content is expected where nothing was lent\n", title);
    exit(2);
}

void check(const char *place, uint64_t found, uint64_t wanted)
{
    checks++;
    if (found == wanted)
        return;
    failed++;
    printf("%s: %s: found %" PRIu64 ", wanted %" PRIu64 "\n", title, place, found, wanted);
}

static uint64_t element(const unsigned char *at, size_t unit)
{
    uint32_t word;
    uint64_t doubleword;
    if (unit == 1)
        return *at;
    if (unit == sizeof word) {
        memcpy(&word, at, unit);
        return word;
    }
    memcpy(&doubleword, at, unit);
    return doubleword;
}

/* The first wrong element, or the last of all: its place counts from what was lent. */
static void check_pages(const struct slot *slot)
{
    size_t last = room - slot->unit, at = memcmp(slot->pages, slot->wanted, room) == 0 ? last : 0;
    while (at < last && memcmp(slot->pages + at, slot->wanted + at, slot->unit) == 0)
        at += slot->unit;
    char place[100];
    intptr_t distance = (intptr_t)((uintptr_t)(slot->pages + at) - (uintptr_t)slot->lent);
    snprintf(place, sizeof place, "%s[%" PRIdPTR "]", slot->name, distance / (intptr_t)slot->unit);
    check(place, element(slot->pages + at, slot->unit), element(slot->wanted + at, slot->unit));
}

void check_lent(void)
{
    for (size_t i = 0; i < used; i++)
        check_pages(&slots[i]);
}

void end(uint64_t answer, uint64_t wanted)
{
    check("answer", answer, wanted);
    check_lent();
}

int report(unsigned long least)
{
    printf("%lu checks, %lu failed\n", checks, failed);
    if (checks < least)
        printf("there should be at least %lu checks\n", least);
    return failed > 0 || checks < least;
}
