/* What a node does with a packet that comes in, goes through or goes out, as a plain C program: bench/judging.py compares what
   comes of each packet, and times.

   It knows CIPSO in IPv4 alone, and definitions that pass all numbers. A node's tables are read from the same commands; they are
   arrays, and an entry is found by going over them from the front. The checks are those of the product, in the same order. */
#include <time.h>

#include "wire.h"

enum { MOST_ENTRIES = 256, MOST_ADDRESSES = 16 };

/* --- denials ------------------------------------------------------------------------------------------------------------ */

enum why {
    NONE, HEADER, OPTION, UNLABELLED, STATIC, DOI, TAG, RANGE, RECEIVER, REFUSES,
    DOMINATED, BELOW, EXPIRED, MAP, LABELLED, EXPRESS, ROOM, LONG
};

static const char *const names[] = {
    "", "BadHeader", "BadOption", "Unlabelled", "NoStatic", "UnknownDoi", "TagNotAllowed", "OutsideRange", "NoReceiver", "MapRefuses",
    "NotDominated", "BelowRange", "Expired", "NoMap", "AlreadyLabelled", "Inexpressible", "NoRoom", "TooLong"};

/* Why a packet is denied; NONE where it isn't. The octet is -1 where nothing stands at one. */
struct denial { enum why why; int octet; };

static struct denial at_octet(enum why why, int octet) {
    struct denial denial = {why, octet};
    return denial;
}

static struct denial because(enum why why) { return at_octet(why, -1); }

/* --- tables ------------------------------------------------------------------------------------------------------------- */

struct protocol { int is_cipso; uint32_t doi; };
struct definition { uint32_t doi; int tags, tag[3]; };
struct prefix { uint32_t address, mask; struct protocol protocol; };
struct domain { char name[64]; int prefixes; struct protocol plain; struct prefix prefix[MOST_ADDRESSES]; };
struct receiver { uint32_t address; char domain[64]; struct label *low, *level; };
struct range { char interface[64]; struct label *low, *high; };
struct statics { char interface[64]; uint32_t address, mask; struct label *low, *high; };

static struct definition definition[MOST_ENTRIES];
static struct domain domain[MOST_ENTRIES];
static struct receiver receiver[MOST_ENTRIES];
static struct range range[MOST_ENTRIES];
static struct statics statics[MOST_ENTRIES];
static int definitions, domains, receivers, ranges, static_entries, accepts;

static const struct definition *find_definition(uint32_t doi) {
    for (int i = 0; i < definitions; i++) {
        if (definition[i].doi == doi) return &definition[i];
    }
    return NULL;
}

/* The protocol of a domain, or else of the default one, which has no name, towards an address; the prefixes stand by falling length. */
static const struct protocol *find_protocol(const char *name, uint32_t address) {
    const struct domain *found = NULL;
    for (int i = 0; i < domains; i++) {
        if (!domain[i].name[0]) found = &domain[i];
        else if (strcmp(domain[i].name, name) == 0) {
            found = &domain[i];
            break;
        }
    }
    if (!found) return NULL;
    if (!found->prefixes) return &found->plain;
    for (int i = 0; i < found->prefixes; i++) {
        if ((address & found->prefix[i].mask) == found->prefix[i].address) return &found->prefix[i].protocol;
    }
    return NULL;
}

static const struct receiver *find_receiver(uint32_t address) {
    for (int i = 0; i < receivers; i++) {
        if (receiver[i].address == address) return &receiver[i];
    }
    return NULL;
}

static const struct range *find_range(const char *interface) {
    const struct range *found = NULL;
    for (int i = 0; i < ranges; i++) {
        if (!range[i].interface[0]) found = &range[i];
        else if (strcmp(range[i].interface, interface) == 0) return &range[i];
    }
    return found;
}

/* The labels of an interface for a source: of the longest prefix, where they stand by falling length. */
static const struct statics *find_static(const char *interface, uint32_t source) {
    for (int i = 0; i < static_entries; i++) {
        if (strcmp(statics[i].interface, interface) == 0 && (source & statics[i].mask) == statics[i].address) return &statics[i];
    }
    return NULL;
}

/* The interface has a range that doesn't hold both labels; one label is tested once. */
static int is_outside(const char *interface, const struct label *low, const struct label *high) {
    const struct range *found = find_range(interface);
    if (!found) return 0;
    if (!dominates(low, found->low) || !dominates(found->high, low)) return 1;
    return low != high && (!dominates(high, found->low) || !dominates(found->high, high));
}

/* --- the labels of a packet that comes in --------------------------------------------------------------------------------- */

/* What carries a packet's label, and its labels. */
struct incoming { struct protocol carrier; const struct label *low, *high; };

/* The label of an option is read into one that is lent for each packet. */
static struct denial read_label_of(
    const char *interface, const struct packet *packet, struct label *lent, struct incoming *incoming) {
    if (!packet->place) {
        if (!accepts) return because(UNLABELLED);
        const struct statics *found = find_static(interface, u32_at(packet->octets + 12));
        if (!found) return because(STATIC);
        *incoming = (struct incoming){{0, 0}, found->low, found->high};
        return because(NONE);
    }
    uint32_t doi;
    int tag, listed = 0, fault = read_cipso(packet->octets + packet->place, packet->length, lent, &doi, &tag);
    if (fault >= 0) return at_octet(OPTION, packet->place + fault);
    const struct definition *found = find_definition(doi);
    if (!found) return at_octet(DOI, packet->place + 2);
    for (int i = 0; i < found->tags; i++) listed |= found->tag[i] == tag;
    if (!listed) return at_octet(TAG, packet->place + 6);
    *incoming = (struct incoming){{1, doi}, lent, lent};
    return because(NONE);
}

/* All packets are of IPv4: another version is a fault. */
static int read_four(const uint8_t *s, int length, struct packet *packet) {
    return length && s[0] >> 4 == 4 ? read_header4(s, length, packet) : 0;
}

static struct denial read_packet(
    const char *interface, const uint8_t *s, int length, struct packet *packet, struct label *lent, struct incoming *incoming) {
    int fault = read_four(s, length, packet);
    if (fault >= 0) return at_octet(HEADER, fault);
    if (packet->second) return at_octet(OPTION, packet->second);
    return read_label_of(interface, packet, lent, incoming);
}

/* --- receiving ------------------------------------------------------------------------------------------------------------ */

static struct denial receive(
    const char *interface, const uint8_t *s, int length, struct label *lent, uint32_t *to, const struct label **label) {
    struct packet packet;
    struct incoming incoming;
    struct denial denial = read_packet(interface, s, length, &packet, lent, &incoming);
    if (denial.why) return denial;
    if (is_outside(interface, incoming.low, incoming.high)) return because(RANGE);
    *to = u32_at(s + 16);
    const struct receiver *found = find_receiver(*to);
    if (!found) return because(RECEIVER);
    const struct protocol *protocol = find_protocol(found->domain, u32_at(s + 12));
    if (!protocol || protocol->is_cipso != incoming.carrier.is_cipso || protocol->doi != incoming.carrier.doi) return because(REFUSES);
    if (!dominates(found->level, incoming.high)) return because(DOMINATED);
    if (!dominates(incoming.low, found->low)) return because(BELOW);
    *label = incoming.high;
    return because(NONE);
}

/* --- a packet written under a protocol ------------------------------------------------------------------------------------- */

/* A packet that was written, and what carries its label. */
struct written { uint8_t octets[MOST_OCTETS]; int length; struct protocol carrier; };

/* The packet with this label under a protocol: its option first, then the old options but padding and labels. */
static struct denial write_under(
    const struct protocol *protocol, const struct packet *packet, const struct label *label, int hops, struct written *out) {
    const uint8_t *s = packet->octets;
    uint8_t option[40];
    int size = 0, tag = 0;
    if (protocol->is_cipso) {
        const struct definition *found = find_definition(protocol->doi);
        if (!found) return because(EXPRESS);
        for (int i = 0; i < found->tags && !tag; i++) {
            if (can_express(found->tag[i], label)) tag = found->tag[i];
        }
        if (!tag) return because(EXPRESS);
        size = write_option(protocol->doi, tag, label, option);
    }
    int kept = size;
    for (int at = 20; at < packet->header && s[at] != 0; at += s[at] == 1 ? 1 : s[at + 1]) {
        if (s[at] != 1 && s[at] != 134) kept += s[at + 1];
    }
    if (kept > 40) return because(ROOM);
    int header = 20 + (kept + 3) / 4 * 4, payload = packet->total - packet->header, end = 20 + size;
    if (payload > 65535 - header) return because(LONG);
    uint8_t *to = out->octets;
    memcpy(to, s, 20);
    to[0] = 64 + header / 4;
    put_u16(to + 2, header + payload);
    to[8] = hops;
    put_u16(to + 10, 0);
    memcpy(to + 20, option, size);
    for (int at = 20; at < packet->header && s[at] != 0; at += s[at] == 1 ? 1 : s[at + 1]) {
        if (s[at] == 1 || s[at] == 134) continue;
        memcpy(to + end, s + at, s[at + 1]);
        end += s[at + 1];
    }
    memset(to + end, 0, header - end);
    put_u16(to + 10, 0xffff - sum_of(to, header));
    memcpy(to + header, s + packet->header, payload);
    out->length = header + payload;
    out->carrier = *protocol;
    return because(NONE);
}

/* --- forwarding and sending ----------------------------------------------------------------------------------------------- */

static struct denial forward(
    const char *from, const char *to, const char *name, const uint8_t *s, int length, struct label *lent, struct written *out,
    const struct label **label) {
    struct packet packet;
    struct incoming incoming;
    struct denial denial = read_packet(from, s, length, &packet, lent, &incoming);
    if (denial.why) return denial;
    if (is_outside(from, incoming.low, incoming.high)) return because(RANGE);
    if (s[8] <= 1) return because(EXPIRED);
    if (is_outside(to, incoming.low, incoming.high)) return because(RANGE);
    const struct protocol *protocol = find_protocol(name, u32_at(s + 16));
    if (!protocol) return because(MAP);
    *label = incoming.high;
    return write_under(protocol, &packet, incoming.high, s[8] - 1, out);
}

static struct denial send_out(
    const char *name, const char *interface, const struct label *label, const uint8_t *s, int length, struct written *out) {
    struct packet packet;
    int fault = read_four(s, length, &packet);
    if (fault >= 0) return at_octet(HEADER, fault);
    if (packet.place) return at_octet(LABELLED, packet.place);
    if (is_outside(interface, label, label)) return because(RANGE);
    const struct protocol *protocol = find_protocol(name, u32_at(s + 16));
    if (!protocol) return because(MAP);
    return write_under(protocol, &packet, label, s[8], out);
}

/* --- commands that set the tables ------------------------------------------------------------------------------------------ */

static void wrong(const char *what) {
    fprintf(stderr, "not understood: %s\n", what);
    exit(2);
}

/* A label as text, its categories ascending. */
static struct label *read_label(const char *text) {
    struct label *label = calloc(1, sizeof *label);
    char *end;
    if (!label || *text != 's') wrong(text);
    label->level = strtoul(text + 1, &end, 10);
    while (*end == ':' || *end == ',') {
        unsigned first = strtoul(end + 2, &end, 10), last = first;
        if (*end == '.') last = strtoul(end + 2, &end, 10);
        add_last(label, first, last);
    }
    return label;
}

static void read_both(char *text, struct label **low, struct label **high) {
    char *dash = strchr(text, '-');
    if (dash) *dash = 0;
    *low = read_label(text);
    *high = read_label(dash ? dash + 1 : text);
}

static uint32_t read_prefix(const char *text, uint32_t *mask) {
    unsigned a, b, c, d, bits = 32;
    if (sscanf(text, "%u.%u.%u.%u/%u", &a, &b, &c, &d, &bits) < 4) wrong(text);
    *mask = bits ? 0xffffffffu << (32 - bits) : 0;
    return (a << 24 | b << 16 | c << 8 | d) & *mask;
}

static struct protocol read_protocol(const char *text) {
    struct protocol protocol = {0, 0};
    if (sscanf(text, "cipsov4,%u", &protocol.doi) == 1) protocol.is_cipso = 1;
    else if (strcmp(text, "unlbl") != 0) wrong(text);
    return protocol;
}

static void add_prefix(struct domain *entry, const char *address, struct protocol protocol) {
    struct prefix prefix;
    int at = entry->prefixes++;
    prefix.address = read_prefix(address, &prefix.mask);
    prefix.protocol = protocol;
    for (; at > 0 && entry->prefix[at - 1].mask < prefix.mask; at--) entry->prefix[at] = entry->prefix[at - 1];
    entry->prefix[at] = prefix;
}

static void add_map(const char *name, const char *address, const char *protocol) {
    struct domain *entry = NULL;
    for (int i = 0; i < domains; i++) {
        if (strcmp(domain[i].name, name) == 0) entry = &domain[i];
    }
    if (!entry) {
        entry = &domain[domains++];
        strcpy(entry->name, name);
    }
    if (*address) add_prefix(entry, address, read_protocol(protocol));
    else entry->plain = read_protocol(protocol);
}

static void obey(const char *line) {
    char a[64], b[64], c[999];
    uint32_t doi, mask;
    if (sscanf(line, "cipsov4 add pass doi:%u tags:%63s", &doi, a) == 2) {
        struct definition *entry = &definition[definitions++];
        entry->doi = doi;
        for (char *tag = strtok(a, ","); tag; tag = strtok(NULL, ",")) entry->tag[entry->tags++] = atoi(tag);
    } else if (sscanf(line, "map add domain:%63s address:%63s protocol:%63s", a, b, c) == 3) add_map(a, b, c);
    else if (sscanf(line, "map add domain:%63s protocol:%63s", a, c) == 2) add_map(a, "", c);
    else if (sscanf(line, "map add default protocol:%63s", c) == 1) add_map("", "", c);
    else if (strcmp(line, "unlbl accept on\n") == 0) accepts = 1;
    else if (sscanf(line, "unlbl add interface:%63s address:%63s label:%998s", a, b, c) == 3) {
        struct statics *entry = &statics[static_entries++];
        strcpy(entry->interface, a);
        entry->address = read_prefix(b, &entry->mask);
        read_both(c, &entry->low, &entry->high);
    } else if (sscanf(line, "receiver add address:%63s domain:%63s level:%998s", b, a, c) == 3) {
        struct receiver *entry = &receiver[receivers++];
        strcpy(entry->domain, a);
        entry->address = read_prefix(b, &mask);
        if (strchr(c, '-')) read_both(c, &entry->low, &entry->level);
        else entry->low = read_label("s0"), entry->level = read_label(c);
    } else if (sscanf(line, "range add interface:%63s range:%998s", a, c) == 2) {
        struct range *entry = &range[ranges++];
        strcpy(entry->interface, a);
        read_both(c, &entry->low, &entry->high);
    } else wrong(line);
}

/* --- what came of a packet -------------------------------------------------------------------------------------------------- */

static struct label lent, *sent;
static const struct label *label;
static struct written written;
static uint32_t to;

static struct denial judge(int what, const uint8_t *s, int size) {
    if (what == 'r') return receive("eth0", s, size, &lent, &to, &label);
    if (what == 'f') return forward("eth0", "eth1", "gate_t", s, size, &lent, &written, &label);
    return send_out("web_t", "eth1", sent, s, size, &written);
}

static void show_label(const struct label *label) {
    printf("Label { level: %d, cats: CatSet { runs: [", label->level);
    for (int i = 0; i < label->runs; i++) printf("%sRun { first: %d, last: %d }", i ? ", " : "", label->run[i].first, label->run[i].last);
    printf("] } }");
}

static void show_carrier(void) {
    if (written.carrier.is_cipso) printf("Cipso { doi: %u } ", written.carrier.doi);
    else printf("Unlabelled ");
}

static void show(int what, struct denial denial) {
    if (denial.why) {
        printf("Denied(%s", names[denial.why]);
        printf(denial.octet < 0 ? ")\n" : " { octet: %d })\n", denial.octet);
        return;
    }
    if (what == 'r') printf("V4([%d, %d, %d, %d]) ", to >> 24, to >> 16 & 255, to >> 8 & 255, to & 255);
    else show_carrier();
    if (what != 's') show_label(label);
    if (what == 'f') printf(" ");
    for (int i = 0; what != 'r' && i < written.length; i++) printf("%s%d", i ? ", " : "[", written.octets[i]);
    printf(what == 'r' ? "\n" : "]\n");
}

static uint64_t judge_all(int what, const uint8_t *octets, int length, int size, unsigned long rounds) {
    uint64_t sum = 0;
    for (unsigned long n = 0; n < rounds; n++) {
        for (int at = 0; at + size <= length; at += size) {
            if (judge(what, octets + at, size).why) continue;
            sum += what == 'r' ? label->level : written.length;
        }
    }
    return sum;
}

/* judging WHAT LABEL COMMANDS PACKETS SIZE ROUNDS; with 0 rounds it prints what comes of each packet. */
int main(int argc, char **argv) {
    static uint8_t octets[1 << 22];
    char line[1100];
    struct timespec start, end;
    if (argc != 7) return 2;
    FILE *commands = fopen(argv[3], "r"), *packets = fopen(argv[4], "rb");
    if (!commands || !packets) return 3;
    sent = read_label(argv[2]);
    while (fgets(line, sizeof line, commands)) obey(line);
    int what = *argv[1], length = fread(octets, 1, sizeof octets, packets), size = atoi(argv[5]);
    unsigned long rounds = strtoul(argv[6], NULL, 10);
    for (int at = 0; !rounds && at + size <= length; at += size) show(what, judge(what, octets + at, size));
    if (!rounds) return 0;
    clock_gettime(CLOCK_MONOTONIC, &start);
    uint64_t sum = judge_all(what, octets, length, size, rounds);
    clock_gettime(CLOCK_MONOTONIC, &end);
    printf("%lld %llu\n", (end.tv_sec - start.tv_sec) * 1000000000LL + end.tv_nsec - start.tv_nsec, (unsigned long long)sum);
    return 0;
}
