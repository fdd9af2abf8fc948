/* Calls the library with buffers that end where memory ends, so that a read or a write behind one stops the program: each beginning of worked options and
 * of packets, octets at random, each room about what is needed. Prints nothing; the status is 0 where every call did what the header says. */
#include "netlabel.h"
#include <stdio.h>
#include <stdlib.h>
#include <string.h>
#include <sys/mman.h>
#include <unistd.h>

_Static_assert(sizeof(struct netlabel_run) == 4, "a run is two numbers of 16 bits");
_Static_assert(offsetof(struct netlabel_label, doi) == 3 * sizeof(size_t), "no room stands before the DOI");
_Static_assert(offsetof(struct netlabel_label, level) == 3 * sizeof(size_t) + 6, "single octets follow it");

typedef uint32_t reader(const uint8_t *, size_t, struct netlabel_run *, size_t, struct netlabel_label *);

static size_t page;

/* A place of so many octets, behind which no memory is. */
static void *at_the_end(void *pages, size_t size)
{
    return (uint8_t *)pages + 4 * page - size;
}

static void *pages_before_a_gap(void)
{
    uint8_t *pages = mmap(NULL, 5 * page, PROT_READ | PROT_WRITE, MAP_PRIVATE | MAP_ANONYMOUS, -1, 0);
    if (pages == MAP_FAILED || mprotect(pages + 4 * page, page, PROT_NONE))
        exit(2);
    return pages;
}

#define EXPECT(holds) \
    do { \
        if (!(holds)) { \
            fprintf(stderr, "line %d: " #holds "\n", __LINE__); \
            exit(1); \
        } \
    } while (0)

/* One call that reads, with a buffer for so many runs: what is said of runs is true, and what isn't said of them is left. */
static uint32_t read_with(reader *read, const uint8_t *octets, size_t length, void *pages, size_t room, struct netlabel_label *label)
{
    struct netlabel_run *runs = at_the_end(pages, room * sizeof *runs);
    memset(runs, 0xee, room * sizeof *runs);
    memset(label, 0xee, sizeof *label);
    uint32_t status = read(octets, length, runs, room, label);
    size_t there = status == NETLABEL_DONE ? label->runs : 0;
    EXPECT(status <= NETLABEL_NO_ROOM && label->runs <= NETLABEL_MOST_RUNS && there <= room);
    EXPECT((status == NETLABEL_NO_ROOM) == (label->runs > room));
    for (size_t i = 0; i < there; i++)
        EXPECT(runs[i].first <= runs[i].last && runs[i].last < 65535 && (i == 0 || runs[i].first > runs[i - 1].last + 1));
    for (size_t i = there; i < room; i++)
        EXPECT(runs[i].first == 0xeeee && runs[i].last == 0xeeee);
    if (status == NETLABEL_BAD_HEADER || status == NETLABEL_BAD_OPTION)
        EXPECT(label->octet <= length && label->kind == NETLABEL_NONE && !label->length && !label->runs && !label->doi && !label->tag && !label->level);
    return status;
}

static uint32_t write_label(const struct netlabel_label *label, const struct netlabel_run *runs, uint8_t *out, size_t room, size_t *length)
{
    if (label->kind == NETLABEL_CIPSO)
        return netlabel_write_cipso(label->doi, label->tag, label->level, runs, label->runs, out, room, length);
    return netlabel_write_calipso(label->doi, label->level, runs, label->runs, out, room, length);
}

/* What is read of an option is written, in each room about its length, and read again. */
static void write_again(reader *read, const struct netlabel_label *label, void *run_pages, void *out_pages)
{
    const struct netlabel_run *runs = at_the_end(run_pages, label->runs * sizeof *runs);
    size_t needed = 0, length;
    EXPECT(write_label(label, runs, at_the_end(out_pages, 0), 0, &needed) == NETLABEL_NO_ROOM && needed >= 10 && needed <= label->length);
    for (size_t room = needed - 1; room <= needed + 1; room++) {
        uint8_t *out = at_the_end(out_pages, room);
        memset(out, 0xee, room);
        uint32_t status = write_label(label, runs, out, room, &length);
        EXPECT(length == needed && status == (room < needed ? NETLABEL_NO_ROOM : NETLABEL_DONE));
        for (size_t i = room < needed ? 0 : needed; i < room; i++)
            EXPECT(out[i] == 0xee);
        if (room < needed)
            continue;
        struct netlabel_label again;
        struct netlabel_run found[NETLABEL_MOST_RUNS];
        EXPECT(read(out, room, found, NETLABEL_MOST_RUNS, &again) == NETLABEL_DONE && again.length == needed);
        EXPECT(again.doi == label->doi && again.tag == label->tag && again.level == label->level && again.runs == label->runs);
        EXPECT(!memcmp(found, runs, label->runs * sizeof *runs));
    }
}

static void try_octets(reader *read, const uint8_t *octets, size_t length, int is_option)
{
    static void *octet_pages, *run_pages, *out_pages;
    if (!octet_pages) {
        octet_pages = pages_before_a_gap();
        run_pages = pages_before_a_gap();
        out_pages = pages_before_a_gap();
    }
    struct netlabel_label label;
    uint8_t *place = at_the_end(octet_pages, length);
    memcpy(place, octets, length);
    uint32_t status = read_with(read, place, length, run_pages, NETLABEL_MOST_RUNS, &label);
    if (status != NETLABEL_DONE)
        return;
    for (size_t less = label.runs > 2 ? label.runs - 2 : 0; less < label.runs; less++)
        EXPECT(read_with(read, place, length, run_pages, less, &label) == NETLABEL_NO_ROOM);
    EXPECT(read_with(read, place, length, run_pages, label.runs, &label) == NETLABEL_DONE);
    if (is_option)
        write_again(read, &label, run_pages, out_pages);
}

static const uint8_t cipso[][40] = {
    {134, 14, 0, 0, 0, 16, 2, 8, 0, 2, 0, 1, 0xff, 0xfe},
    {134, 16, 0, 0, 0, 16, 5, 10, 0, 1, 2, 0x58, 1, 0xf4, 0, 100},
    {134, 20, 0, 0, 0, 16, 1, 14, 0, 2, 0x50, 0, 0, 0, 0, 0, 0, 0, 0, 0},
    {134, 40, 0, 0, 0, 1, 1, 34, 0, 255, 0xaa, [39] = 1},
};
static const uint8_t calipso[][20] = {
    {7, 8, 0, 0, 0, 16, 0, 2, 0xbf, 0xd9},
    {7, 12, 0, 0, 0, 16, 1, 2, 0xb7, 0x7e, 0x50, 0, 0, 0},
    {7, 16, 255, 255, 255, 255, 2, 255, 0xe4, 0x2a, 0, 0, 0, 1, 0x80, 0, 0, 0},
};
static const uint8_t packet[] = {
    0x48, 0, 0, 0x28, 0, 0, 0, 0, 0x40, 0x11, 0x8c, 0xa0, 10, 0, 0, 1, 10, 0, 0, 2, 134, 11, 0, 0, 0, 16, 1, 5, 0, 2, 0x50, 0, 3, 0xe8, 0, 0x35, 0, 8, 0, 0,
};

/* Each beginning of the octets, and each with one octet changed. */
static void try_around(reader *read, const uint8_t *octets, size_t length, int is_option)
{
    uint8_t changed[64];
    for (size_t some = 0; some <= length; some++)
        try_octets(read, octets, some, is_option);
    for (size_t i = 0; i < length; i++) {
        memcpy(changed, octets, length);
        for (unsigned value = 0; value < 256; value++) {
            changed[i] = (uint8_t)value;
            try_octets(read, changed, length, is_option);
        }
    }
}

int main(void)
{
    page = (size_t)sysconf(_SC_PAGESIZE);
    for (size_t i = 0; i < sizeof cipso / sizeof *cipso; i++)
        try_around(netlabel_read_cipso, cipso[i], cipso[i][1], 1);
    for (size_t i = 0; i < sizeof calipso / sizeof *calipso; i++)
        try_around(netlabel_read_calipso, calipso[i], 2u + calipso[i][1], 1);
    try_around(netlabel_read_packet, packet, sizeof packet, 0);
    /* A set of as many runs as an option can have, and one more than any has. */
    static struct netlabel_run many[NETLABEL_MOST_RUNS + 1];
    for (size_t i = 0; i <= NETLABEL_MOST_RUNS; i++)
        many[i].first = many[i].last = (uint16_t)(2 * i);
    uint8_t option[NETLABEL_MOST_CALIPSO];
    size_t length;
    EXPECT(netlabel_write_calipso(16, 255, many, 976, option, sizeof option, &length) == NETLABEL_DONE && length == NETLABEL_MOST_CALIPSO);
    try_octets(netlabel_read_calipso, option, length, 1);
    EXPECT(netlabel_write_calipso(16, 255, many, 977, option, sizeof option, &length) == NETLABEL_INEXPRESSIBLE && length == 0);
    EXPECT(netlabel_write_calipso(16, 255, many, NETLABEL_MOST_RUNS + 1, option, sizeof option, &length) == NETLABEL_INEXPRESSIBLE);
    EXPECT(netlabel_write_cipso(16, 5, 255, many, 8, option, sizeof option, &length) == NETLABEL_INEXPRESSIBLE);
    EXPECT(netlabel_write_cipso(16, 5, 255, many, 7, option, sizeof option, &length) == NETLABEL_DONE && length == 36);
    return 0;
}
