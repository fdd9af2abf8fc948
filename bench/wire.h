/* What the C programs of the benchmarks share: the report, labels, label options, headers, options that are written, and captures. */
#include <arpa/inet.h>
#include <fcntl.h>
#include <stdint.h>
#include <stdio.h>
#include <stdlib.h>
#include <string.h>
#include <unistd.h>

enum { MOST_CAPTURED = 262144, MOST_PACKETS = 1048576, MOST_RUNS = 1952, MOST_OCTETS = 65535, PIECE = 16384, READ = 65536 };

/* --- the report ---------------------------------------------------------------------------------------------------------- */

static char out[65536];
static size_t waiting;

static void write_all(int file, const void *octets, size_t length) {
    for (ssize_t n; length; octets = (const char *)octets + n, length -= n) {
        n = write(file, octets, length);
        if (n < 0) exit(4);
    }
}

static void flush(void) {
    write_all(1, out, waiting);
    waiting = 0;
}

/* A line has at most some 25,000 octets: 1,952 runs of at most 13 each. */
static void append(const char *s, size_t n) {
    memcpy(out + waiting, s, n);
    waiting += n;
}

/* As a macro, so that the length of a literal is known where it is appended. */
#define text(s) append(s, strlen(s))

/* Puts a number's digits at a place, and answers the place behind them. */
static char *put_number(char *to, uint64_t n) {
    int digits = 1;
    for (uint64_t power = 10; digits < 20 && n >= power; power *= 10) digits++;
    for (int at = digits; at--; n /= 10) to[at] = '0' + n % 10;
    return to + digits;
}

static void number(uint64_t n) { waiting = put_number(out + waiting, n) - out; }

static void end_line(void) {
    out[waiting++] = '\n';
    if (waiting >= PIECE) flush();
}

/* --- labels ------------------------------------------------------------------------------------------------------------- */

struct run { uint16_t first, last; };
struct label { uint8_t level; int runs; struct run run[MOST_RUNS]; };

static void add_last(struct label *label, unsigned first, unsigned last) {
    if (label->runs && label->run[label->runs - 1].last + 1u >= first) {
        if (label->run[label->runs - 1].last < last) label->run[label->runs - 1].last = last;
    } else {
        label->run[label->runs].first = first;
        label->run[label->runs++].last = last;
    }
}

static int dominates(const struct label *a, const struct label *b) {
    if (b->level > a->level) return 0;
    for (int i = 0, k = 0; k < b->runs;) {
        if (i == a->runs) return 0;
        if (a->run[i].last < b->run[k].first) i++;
        else if (a->run[i].first <= b->run[k].first && b->run[k].last <= a->run[i].last) k++;
        else return 0;
    }
    return 1;
}

static char *put_run(char *to, char separator, struct run run) {
    *to++ = separator;
    *to++ = 'c';
    to = put_number(to, run.first);
    if (run.last == run.first) return to;
    *to++ = run.last - run.first == 1 ? ',' : '.';
    *to++ = 'c';
    return put_number(to, run.last);
}

static void write_label(const struct label *label) {
    char *to = out + waiting;
    *to++ = 's';
    to = put_number(to, label->level);
    for (int i = 0; i < label->runs; i++) to = put_run(to, i ? ',' : ':', label->run[i]);
    waiting = to - out;
}

/* --- label options: -1, or the octet of the first fault ----------------------------------------------------------------- */

static unsigned u16_at(const uint8_t *s) { return s[0] << 8 | s[1]; }
static uint32_t u32_at(const uint8_t *s) { return (uint32_t)u16_at(s) << 16 | u16_at(s + 2); }

static int put_u16(uint8_t *s, unsigned n) {
    s[0] = n >> 8;
    s[1] = n;
    return 2;
}

/* Up to four octets as one number, the first the most significant. */
static uint32_t bits_at(const uint8_t *s, int octets) {
    if (octets >= 4) return u32_at(s);
    uint32_t bits = 0;
    for (int i = 0; i < octets; i++) bits |= (uint32_t)s[i] << (24 - 8 * i);
    return bits;
}

/* Of 32 bits at a time a run of ones after another: where it begins the bit before is 0, where it ends the bit behind. */
static void read_bitmap(const uint8_t *bitmap, int octets, struct label *label) {
    for (int i = 0; i < octets; i += 4) {
        uint32_t bits = bits_at(bitmap + i, octets - i), firsts = bits & ~(bits >> 1), lasts = bits & ~(bits << 1);
        while (firsts) {
            int first = __builtin_clz(firsts), last = __builtin_clz(lasts);
            add_last(label, 8 * i + first, 8 * i + last);
            firsts &= ~(0x80000000 >> first);
            lasts &= ~(0x80000000 >> last);
        }
    }
}

/* A number of two octets from low to high. */
static int number_at(const uint8_t *s, int at, int low, int high) {
    int h = s[at], n = u16_at(s + at);
    if (low > 256 * h + 255 || 256 * h > high) return at;
    return low <= n && n <= high ? -1 : at + 1;
}

static int read_categories(const uint8_t *s, int at, int count, struct label *label) {
    int low = 0;
    for (int i = 1; i <= count; i++, at += 2) {
        int fault = number_at(s, at, low, 65534 - (count - i));
        if (fault >= 0) return fault;
        add_last(label, u16_at(s + at), u16_at(s + at));
        low = u16_at(s + at) + 1;
    }
    return -1;
}

static int read_ranges(const uint8_t *s, int at, int count, struct label *label) {
    struct run down[7];
    int upper = 65535, ranges = (count + 1) / 2;
    for (int i = 0; i < ranges; i++, at += 4) {
        int later = ranges - 1 - i, fault = number_at(s, at, later, upper - 1);
        if (fault >= 0) return fault;
        down[i].last = u16_at(s + at);
        down[i].first = 0;
        if (2 * i + 1 < count) {
            fault = number_at(s, at + 2, later, down[i].last);
            if (fault >= 0) return fault;
            down[i].first = u16_at(s + at + 2);
        }
        upper = down[i].first;
    }
    while (ranges--) add_last(label, down[ranges].first, down[ranges].last);
    return -1;
}

static int read_cipso(const uint8_t *s, int length, struct label *label, uint32_t *doi, int *tag) {
    label->runs = 0;
    if (length < 10 || length > 40) return 1;
    *doi = u32_at(s + 2);
    if (*doi == 0) return 5;
    *tag = s[6];
    int size = length - 10, even = size % 2 == 0;
    if (!(*tag == 1 || (*tag == 2 && even) || (*tag == 5 && even && size <= 28))) return 6;
    if (s[7] != length - 6) return 7;
    if (s[8] != 0) return 8;
    label->level = s[9];
    if (*tag == 1) {
        read_bitmap(s + 10, size, label);
        return -1;
    }
    return *tag == 2 ? read_categories(s, 10, size / 2, label) : read_ranges(s, 10, size / 2, label);
}

static uint16_t table[256];

static void make_table(void) {
    for (int octet = 0; octet < 256; octet++) {
        uint16_t n = octet;
        for (int i = 0; i < 8; i++) n = n & 1 ? n >> 1 ^ 0x8408 : n >> 1;
        table[octet] = n;
    }
}

static uint16_t crc(const uint8_t *s, int length) {
    uint16_t n = 0xffff;
    for (int i = 0; i < length; i++) n = n >> 8 ^ table[(n ^ (i == 8 || i == 9 ? 0 : s[i])) & 0xff];
    return ~n;
}

static int read_calipso(const uint8_t *s, int length, struct label *label, uint32_t *doi) {
    label->runs = 0;
    if (s[1] < 8 || s[1] > 252 || s[1] % 4) return 1;
    *doi = u32_at(s + 2);
    if (*doi == 0) return 5;
    if (s[6] != (s[1] - 8) / 4) return 6;
    label->level = s[7];
    if ((s[8] | s[9] << 8) != crc(s, length)) return 8;
    read_bitmap(s + 10, length - 10, label);
    return -1;
}

/* --- an option that is written ------------------------------------------------------------------------------------------- */

static int can_express(int tag, const struct label *label) {
    int count = 0;
    if (tag == 1) return !label->runs || label->run[label->runs - 1].last < 240;
    if (tag == 5) return label->runs <= 7;
    for (int i = 0; i < label->runs && count <= 15; i++) count += label->run[i].last - label->run[i].first + 1;
    return count <= 15;
}

/* The option of a label in a tag that can express it, and its length. */
static int write_option(uint32_t doi, int tag, const struct label *label, uint8_t *s) {
    int length = 10;
    s[0] = 134;
    put_u16(s + 2, doi >> 16);
    put_u16(s + 4, doi);
    s[6] = tag;
    s[8] = 0;
    s[9] = label->level;
    if (tag == 1 && label->runs) {
        length += label->run[label->runs - 1].last / 8 + 1;
        memset(s + 10, 0, length - 10);
        for (int i = 0; i < label->runs; i++) {
            for (int c = label->run[i].first; c <= label->run[i].last; c++) s[10 + c / 8] |= 0x80 >> c % 8;
        }
    }
    for (int i = 0; tag == 2 && i < label->runs; i++) {
        for (int c = label->run[i].first; c <= label->run[i].last; c++) length += put_u16(s + length, c);
    }
    for (int i = label->runs - 1; tag == 5 && i >= 0; i--) {
        length += put_u16(s + length, label->run[i].last);
        if (label->run[i].first) length += put_u16(s + length, label->run[i].first);
    }
    s[1] = length;
    s[7] = length - 6;
    return length;
}

/* --- headers: -1, or the octet of the first fault ------------------------------------------------------------------------ */

/* A packet whose header is right: its label option's place, 0 where there is none, and that of a second one. */
struct packet { const uint8_t *octets; int is_six, header, total, place, length, second; };

/* The one's complement sum of octets, a multiple of four of them: in any order of octets it is the same, in that order. */
static unsigned sum_of(const uint8_t *s, int length) {
    uint64_t sum = 0;
    for (int i = 0; i < length; i += 4) {
        uint32_t word;
        memcpy(&word, s + i, 4);
        sum += word;
    }
    while (sum >> 16) sum = (sum & 0xffff) + (sum >> 16);
    return ntohs(sum);
}

static void found_label(struct packet *packet, int place, int length) {
    if (!packet->place) packet->place = place, packet->length = length;
    else if (!packet->second) packet->second = place;
}

static int read_header4(const uint8_t *s, int length, struct packet *packet) {
    if (length < 20) return length;
    int header = (s[0] & 15) * 4, total = u16_at(s + 2);
    if (header < 20) return 0;
    if (total < header || total > length) return 2;
    if (sum_of(s, header) != 0xffff) return 10;
    *packet = (struct packet){.octets = s, .header = header, .total = total};
    for (int at = 20; at < header;) {
        int size = 1;
        if (s[at] == 0) break;
        if (s[at] != 1) {
            if (at + 1 >= header) return header;
            size = s[at + 1];
            if (size < 2 || at + size > header) return at + 1;
            if (s[at] == 134) found_label(packet, at, size);
        }
        at += size;
    }
    return -1;
}

static int read_header6(const uint8_t *s, int length, struct packet *packet) {
    if (length < 40) return length;
    int payload = u16_at(s + 4), hop = s[6] == 0, jumbo = -1;
    if (payload > length - 40 || (hop && payload < 8)) return 4;
    *packet = (struct packet){.octets = s, .is_six = 1, .header = 40, .total = 40 + payload};
    if (!hop) return -1;
    if ((s[41] + 1) * 8 > payload) return 41;
    int end = 40 + (s[41] + 1) * 8;
    for (int at = 42; at < end;) {
        int size = 1;
        if (s[at] != 0) {
            if (at + 1 >= end) return end;
            size = s[at + 1] + 2;
            if (at + size > end) return at + 1;
            if (s[at] == 0xc2 && jumbo < 0) jumbo = at;
            if (s[at] == 7) found_label(packet, at, size);
        }
        at += size;
    }
    packet->header = end;
    return jumbo;
}

static int read_header(const uint8_t *s, int length, struct packet *packet) {
    int version = length ? s[0] >> 4 : 0;
    if (version == 4) return read_header4(s, length, packet);
    if (version == 6) return read_header6(s, length, packet);
    return 0;
}

/* --- captures ------------------------------------------------------------------------------------------------------------- */

enum { SECTION = 0x0a0d0d0a, INTERFACE = 1, OBSOLETE = 2, SIMPLE = 3, ENHANCED = 6, MOST_WAITING = 32 + MOST_CAPTURED };

/* A frame: its time, its link type and its octets, which stay until the next one is read. */
struct frame { uint32_t seconds, fraction, link; const uint8_t *octets; int length; };
struct interface { uint32_t link; int resolution; };

/* A capture that is read: what its beginning says, how far it was read, what was at fault there, and octets that wait. */
struct capture {
    int file, is_ng, little, nanos;
    uint32_t link;
    struct interface *interface;
    size_t interfaces, room;
    uint64_t at;
    const char *fault;
    size_t next, end;
    uint8_t octets[MOST_WAITING + READ];
};

static uint32_t order_u32(const uint8_t *s, int little) {
    return little ? s[0] | s[1] << 8 | s[2] << 16 | (uint32_t)s[3] << 24 : u32_at(s);
}

static uint32_t order_u16(const uint8_t *s, int little) { return little ? s[0] | (uint32_t)s[1] << 8 : u16_at(s); }

static int is_link(uint32_t link) { return link == 1 || link == 101 || link == 228 || link == 229; }

/* How many octets wait, up to so many that are wanted: fewer where the file ends. */
static size_t fetch(struct capture *capture, size_t wanted) {
    if (capture->end - capture->next < wanted) {
        memmove(capture->octets, capture->octets + capture->next, capture->end - capture->next);
        capture->end -= capture->next;
        capture->next = 0;
        for (ssize_t n = 1; n > 0 && capture->end < wanted; capture->end += n) {
            n = read(capture->file, capture->octets + capture->end, READ);
            if (n < 0) exit(3);
        }
    }
    return capture->end - capture->next < wanted ? capture->end - capture->next : wanted;
}

/* Goes behind so many octets, of which some may not wait. */
static void pass(struct capture *capture, uint32_t octets) {
    capture->at += octets;
    if (octets <= capture->end - capture->next) capture->next += octets;
    else {
        capture->next = capture->end = 0;
        if (lseek(capture->file, capture->at, SEEK_SET) < 0) exit(3);
    }
}

static int is_bad(struct capture *capture, uint64_t octet, const char *fault) {
    capture->at = octet;
    capture->fault = fault;
    return 0;
}

/* --- the libpcap format --- */

static int begin_pcap(struct capture *capture) {
    size_t n = fetch(capture, 24);
    const uint8_t *head = capture->octets;
    uint32_t magic = order_u32(head, 1);
    capture->little = magic == 0xa1b2c3d4 || magic == 0xa1b23c4d;
    magic = order_u32(head, capture->little);
    capture->nanos = magic == 0xa1b23c4d;
    capture->link = order_u32(head + 20, capture->little);
    if (n < 24) return is_bad(capture, n, "Short");
    if (magic != 0xa1b2c3d4 && magic != 0xa1b23c4d) return is_bad(capture, 0, "Magic");
    if (order_u32(head + 4, capture->little) != (capture->little ? 0x00040002u : 0x00020004u)) return is_bad(capture, 4, "Version");
    if (!is_link(capture->link)) return is_bad(capture, 20, "LinkType");
    pass(capture, 24);
    return 1;
}

/* The next record; 0 where the capture ends or is at fault. */
static int read_record(struct capture *capture, struct frame *frame) {
    size_t n = fetch(capture, 16);
    if (n == 0) return 0;
    const uint8_t *head = capture->octets + capture->next;
    uint32_t captured = n < 16 ? 0 : order_u32(head + 8, capture->little);
    if (n < 16) return is_bad(capture, capture->at + n, "Short");
    if (captured > MOST_CAPTURED) return is_bad(capture, capture->at + 8, "Captured");
    if (captured < order_u32(head + 12, capture->little)) return is_bad(capture, capture->at + 8, "SnapCut");
    n = fetch(capture, 16 + captured);
    if (n < 16 + captured) return is_bad(capture, capture->at + n, "Short");
    head = capture->octets + capture->next;
    *frame = (struct frame){order_u32(head, capture->little), order_u32(head + 4, capture->little), capture->link, head + 16, captured};
    pass(capture, 16 + captured);
    return 1;
}

/* --- the pcapng format --- */

/* The whole block is there, and its end repeats its length. Of a block that is too long to wait, the first 32 octets wait. */
static int is_whole(struct capture *capture, uint32_t total) {
    uint8_t far[4];
    const uint8_t *trailer = far;
    size_t wanted = total <= MOST_WAITING ? total : 32, n = fetch(capture, wanted);
    if (n < wanted) return is_bad(capture, capture->at + n, "Short");
    if (wanted == total) trailer = capture->octets + capture->next + total - 4;
    else if (pread(capture->file, far, 4, capture->at + total - 4) != 4) return is_bad(capture, lseek(capture->file, 0, SEEK_END), "Short");
    return order_u32(trailer, capture->little) == total ? 1 : is_bad(capture, capture->at + total - 4, "Trailer");
}

/* Type and length of the next block, which is whole; 0 where the capture ends or is at fault. A section header sets the order of octets. */
static int read_block(struct capture *capture, uint32_t *type, uint32_t *total) {
    size_t n = fetch(capture, 12);
    const uint8_t *head = capture->octets + capture->next;
    if (n == 0) return 0;
    if (n < 12) return is_bad(capture, capture->at + n, "Short");
    if (capture->at >> 40) return is_bad(capture, capture->at, "Long");
    if (order_u32(head, 1) == SECTION) {
        capture->little = order_u32(head + 8, 1) == 0x1a2b3c4d;
        if (order_u32(head + 8, capture->little) != 0x1a2b3c4d) return is_bad(capture, capture->at + 8, "Magic");
    }
    *type = order_u32(head, capture->little);
    *total = order_u32(head + 4, capture->little);
    uint32_t least = *type == SECTION ? 28 : *type == INTERFACE ? 20 : *type == ENHANCED ? 32 : 12;
    if (*total % 4 || *total < least) return is_bad(capture, capture->at + 4, "BlockLength");
    return is_whole(capture, *total);
}

/* The resolution that an interface's options tell; 0 where one of them is at fault. */
static int read_options(struct capture *capture, uint32_t total, int *resolution) {
    uint8_t far[8];
    int is_told = 0;
    *resolution = 6;
    for (uint32_t at = 16; at + 8 <= total;) {
        const uint8_t *option = capture->octets + capture->next + at;
        if (total > MOST_WAITING) {
            if (pread(capture->file, far, 8, capture->at + at) != 8) exit(3);
            option = far;
        }
        uint32_t code = order_u16(option, capture->little), length = order_u16(option + 2, capture->little), padded = (length + 3) & ~3u;
        if (code == 0) break;
        if (padded > total - 8 - at || (code == 9 && length != 1)) return is_bad(capture, capture->at + at, "Options");
        if (code == 9 && !is_told) *resolution = option[4], is_told = 1;
        at += 4 + padded;
    }
    return 1;
}

static int read_interface(struct capture *capture, uint32_t total) {
    struct interface interface = {.link = order_u16(capture->octets + capture->next + 8, capture->little)};
    if (!read_options(capture, total, &interface.resolution)) return 0;
    if (capture->interfaces == capture->room) {
        capture->room = 2 * capture->room + 8;
        capture->interface = realloc(capture->interface, capture->room * sizeof interface);
        if (!capture->interface) exit(6);
    }
    capture->interface[capture->interfaces++] = interface;
    return 1;
}

/* The frame of an enhanced packet block, with a time in nanoseconds. */
static int read_enhanced(struct capture *capture, uint32_t total, struct frame *frame) {
    const uint8_t *head = capture->octets + capture->next;
    uint32_t place = order_u32(head + 8, capture->little), captured = order_u32(head + 20, capture->little);
    uint64_t units = (uint64_t)order_u32(head + 12, capture->little) << 32 | order_u32(head + 16, capture->little);
    if (place >= capture->interfaces) return is_bad(capture, capture->at + 8, "Interface");
    struct interface of = capture->interface[place];
    uint64_t second = of.resolution == 9 ? 1000000000 : 1000000;
    if (!is_link(of.link)) return is_bad(capture, capture->at + 8, "LinkType");
    if (of.resolution != 6 && of.resolution != 9) return is_bad(capture, capture->at + 8, "Resolution");
    if (captured > MOST_CAPTURED) return is_bad(capture, capture->at + 20, "Captured");
    if (captured < order_u32(head + 24, capture->little)) return is_bad(capture, capture->at + 20, "SnapCut");
    if (((captured + 3) & ~3u) > total - 32) return is_bad(capture, capture->at + 4, "BlockLength");
    if (units / second >> 32) return is_bad(capture, capture->at + 12, "Time");
    fetch(capture, 28 + captured);
    head = capture->octets + capture->next;
    *frame = (struct frame){units / second, units % second * (1000000000 / second), of.link, head + 28, captured};
    return 1;
}

/* Takes a block that is no packet; 0 where it is at fault. */
static int take_block(struct capture *capture, uint32_t type, uint32_t total) {
    const uint8_t *head = capture->octets + capture->next;
    if (type == SECTION && order_u16(head + 12, capture->little) != 1) return is_bad(capture, capture->at + 12, "Version");
    if (type == OBSOLETE || type == SIMPLE) return is_bad(capture, capture->at, "Block");
    if (type == SECTION) capture->interfaces = 0;
    if (type == INTERFACE) return read_interface(capture, total);
    return 1;
}

static int begin_ng(struct capture *capture) {
    uint32_t type, total;
    capture->is_ng = 1;
    if (!read_block(capture, &type, &total) || !take_block(capture, type, total)) return 0;
    pass(capture, total);
    return 1;
}

/* The next packet; 0 where the capture ends or is at fault. */
static int find_packet(struct capture *capture, struct frame *frame) {
    uint32_t type, total;
    while (read_block(capture, &type, &total)) {
        if (!(type == ENHANCED ? read_enhanced(capture, total, frame) : take_block(capture, type, total))) return 0;
        pass(capture, total);
        if (type == ENHANCED) return 1;
    }
    return 0;
}

/* --- either format --- */

/* Opens a capture and reads its beginning; 0 where it can't be opened. */
static int open_capture(struct capture *capture, const char *name) {
    capture->file = open(name, O_RDONLY);
    if (capture->file < 0) return 0;
    capture->fault = NULL;
    capture->is_ng = 0;
    capture->at = capture->interfaces = 0;
    capture->next = capture->end = 0;
    if (fetch(capture, 4) == 4 && order_u32(capture->octets, 1) == SECTION) begin_ng(capture);
    else begin_pcap(capture);
    return 1;
}

/* The next frame; 0 where the capture ends or is at fault. */
static int read_frame(struct capture *capture, struct frame *frame) {
    return capture->is_ng ? find_packet(capture, frame) : read_record(capture, frame);
}

/* The packet of a frame, or NULL where it isn't IP. */
static const uint8_t *ip_part(uint32_t link, const uint8_t *s, int *length) {
    int at = 12;
    if (link != 1) return s;
    if (*length < 14) return NULL;
    if (u16_at(s + at) == 0x8100 && *length >= 18) at = 16;
    if (u16_at(s + at) != 0x0800 && u16_at(s + at) != 0x86dd) return NULL;
    *length -= at + 2;
    return s + at + 2;
}
