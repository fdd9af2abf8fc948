/*
 * Security labels in packets: the CIPSO option of IPv4 (FIPS 188; CIPSO draft 2.2) and the CALIPSO option of IPv6 (RFC 5570), read and written.
 *
 * What stands here of a call is its contract, which is proved of the library's code for all octets, lengths and runs. docs/library.md says what that
 * means, what a caller owes, and how to link.
 *
 * Every call ends, takes no memory, keeps nothing from call to call, and touches only what it is passed. Threads may call at once.
 * Octets are counted from 0, the first that is passed. A pointer is never NULL, also where nothing stands behind it; what a call writes to overlaps
 * nothing else that it is passed.
 */
#ifndef NETLABEL_H
#define NETLABEL_H

#include <stddef.h>
#include <stdint.h>

#ifdef __cplusplus
extern "C" {
#endif

/* All categories from `first` to `last`, both included. Categories are 0 to 65534. */
struct netlabel_run {
    uint16_t first;
    uint16_t last;
};

/* No label that is read has more maximal runs: a buffer of so many always has room. */
#define NETLABEL_MOST_RUNS 1952

/* Which option a label stands in. */
#define NETLABEL_NONE 0
#define NETLABEL_CIPSO 1
#define NETLABEL_CALIPSO 2

/* What an option says but its categories, or where the first fault is. What a call doesn't tell is 0. */
struct netlabel_label {
    size_t octet;   /* the octet of the option's type, or the octet at fault */
    size_t length;  /* how many octets an option has that was read by itself */
    size_t runs;    /* how many maximal runs of categories the label has, also where the buffer has room for fewer */
    uint32_t doi;   /* the domain of interpretation, which gives the numbers their meaning: never 0 in an option */
    uint8_t kind;   /* NETLABEL_NONE, NETLABEL_CIPSO or NETLABEL_CALIPSO */
    uint8_t tag;    /* the type of a CIPSO tag: 1, a bitmap; 2, categories one by one; 5, ranges */
    uint8_t level;  /* the level, 0 to 255 */
};

/* How a call ends. */
#define NETLABEL_DONE 0          /* what was asked for is there, whole */
#define NETLABEL_BAD_HEADER 1    /* a header of the packet is wrong */
#define NETLABEL_BAD_OPTION 2    /* the label option is wrong, or a second one stands in the packet */
#define NETLABEL_NO_ROOM 3       /* the buffer has too little room, and is as it was */
#define NETLABEL_BAD_RUNS 4      /* the runs are out of order or out of bounds */
#define NETLABEL_BAD_DOI 5       /* the domain of interpretation is 0 */
#define NETLABEL_BAD_TAG 6       /* no tag has this type */
#define NETLABEL_INEXPRESSIBLE 7 /* no option of this kind, or none with this tag, can express the label */

/*
 * Reads the IP packet at the front of the octets, from its IP header on, and tells what its label option says. What follows the packet's own length
 * isn't read as part of it.
 *
 * NETLABEL_DONE: the octets begin with a packet. Where it has a label option, `label` has its kind, octet, DOI, tag, level and number of runs, `runs`
 *   begins with the maximal runs of its categories in ascending order, and behind them it is as it was. Where it has none, the kind is NETLABEL_NONE,
 *   all else in `label` is 0, and `runs` is as it was.
 * NETLABEL_NO_ROOM: the same, but `runs` has room for fewer than `label->runs`, and is as it was.
 * NETLABEL_BAD_HEADER, NETLABEL_BAD_OPTION: the octets are no packet, and `label->octet` is that of the first test that fails, in the order of
 *   docs/formats.md: of the headers; where these are right, the type of a second label option; else the first octet of the label option that no option with
 *   the octets before it has there, or octet 8 of a CALIPSO option whose checksum is wrong. All else in `label` is 0, and `runs` is as it was.
 */
uint32_t netlabel_read_packet(const uint8_t *octets, size_t length, struct netlabel_run *runs, size_t room, struct netlabel_label *label);

/*
 * Reads the CIPSO option, or the CALIPSO option, at the front of the octets, from its type on, and tells what it says.
 *
 * NETLABEL_DONE: as above, with `label->octet` 0 and `label->length`, the octets of the option; those behind it aren't read.
 * NETLABEL_NO_ROOM: the same, but `runs` has room for fewer than `label->runs`, and is as it was.
 * NETLABEL_BAD_OPTION: the octets begin with no such option, and `label->octet` is the first that no option with the octets before it has there, or
 *   `length`, where they end before the option does. The checksum of a CALIPSO option is tested last, and told at octet 8. All else in `label` is 0, and
 *   `runs` is as it was.
 */
uint32_t netlabel_read_cipso(const uint8_t *octets, size_t length, struct netlabel_run *runs, size_t room, struct netlabel_label *label);
uint32_t netlabel_read_calipso(const uint8_t *octets, size_t length, struct netlabel_run *runs, size_t room, struct netlabel_label *label);

/* The octets of the longest options: a buffer of so many always has room. */
#define NETLABEL_MOST_CIPSO 40
#define NETLABEL_MOST_CALIPSO 254

/*
 * Writes the option of a DOI, a level and the categories of `count` runs: a CIPSO option whose one tag has the type `tag`, or a CALIPSO option of the
 * fewest words that hold the categories, with its checksum. Runs ascend: each begins behind the end of the one before it. Those side by side are one.
 *
 * NETLABEL_DONE: `out` begins with the option, of `*length` octets, and behind it is as it was. No option is longer than NETLABEL_MOST_CIPSO, or
 *   NETLABEL_MOST_CALIPSO.
 * NETLABEL_NO_ROOM: `room` is less than `*length`, the octets of the option, and `out` is as it was.
 * Else there is no such option, `*length` is 0, and `out` is as it was. The status is the first of these causes that holds:
 * NETLABEL_BAD_RUNS: a run begins behind its end, or not behind the end of the one before it, or has a category above 65534.
 * NETLABEL_BAD_DOI: `doi` is 0.
 * NETLABEL_BAD_TAG, of CIPSO alone: `tag` isn't 1, 2 or 5.
 * NETLABEL_INEXPRESSIBLE: tag 1 and a category above 239; tag 2 and more than 15 categories; tag 5 and more than 7 maximal runs; CALIPSO and a category
 *   above 1951.
 */
uint32_t netlabel_write_cipso(uint32_t doi, uint8_t tag, uint8_t level, const struct netlabel_run *runs, size_t count, uint8_t *out, size_t room,
                              size_t *length);
uint32_t netlabel_write_calipso(uint32_t doi, uint8_t level, const struct netlabel_run *runs, size_t count, uint8_t *out, size_t room, size_t *length);

#ifdef __cplusplus
}
#endif

#endif
