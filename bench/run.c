/* What `netlabel run` does for scripts like those of bench/run.py, as a plain C program on one thread: bench/run.py compares report, output
   capture and times.

   It reads the commands of some nodes, then flows: each packet of a flow's capture is judged hop by hop, printed, and written to the flow's
   output. Prefixes are those of IPv4, no packet crosses, IPv6 packets are received and never written by a hop, a level or category is in one pair
   of a definition at most, and all commands stand above all flows. Within that the checks are those of the product, in the same order. Names are
   compared by place, since each is kept once. Receivers are found by hash, entries of the other tables, which have few, by going over them. */
#include "wire.h"

enum { MOST_ENTRIES = 256, MOST_ADDRESSES = 16, MOST_NAMES = 4096, MOST_LINE = 1 << 20, SLOTS = 1024 };

static void wrong(const char *what) {
    fprintf(stderr, "not understood: %.80s\n", what);
    exit(2);
}

static void *made(size_t size) {
    void *octets = calloc(1, size);
    if (!octets) exit(6);
    return octets;
}

/* --- denials ------------------------------------------------------------------------------------------------------------- */

enum why {
    NONE, HEADER, OPTION, UNLABELLED, STATIC, DOI, TAG, LEVEL, CATEGORY, RANGE, RECEIVER, REFUSES, DOMINATED,
    MAP, LABELLED, EXPRESS, ROOM, LONG, EXPIRED, VERSION, PAIR, CROSSABLE, NOT_IP, BELOW
};

static const char *const names[] = {
    "", "BadHeader", "BadOption", "Unlabelled", "NoStatic", "UnknownDoi", "TagNotAllowed", "LevelUnmapped", "CategoryUnmapped",
    "OutsideRange", "NoReceiver", "MapRefuses", "NotDominated", "NoMap", "AlreadyLabelled", "Inexpressible", "NoRoom", "TooLong",
    "Expired", "WrongVersion", "NoPair", "NotCrossable", "NotIp", "BelowRange"};

/* Why a packet is denied; NONE where it isn't. The detail is an octet, of CATEGORY the category, or -1 where there is none. */
struct denial { enum why why; int detail; };

static struct denial with_detail(enum why why, int detail) {
    struct denial denial = {why, detail};
    return denial;
}

static struct denial because(enum why why) { return with_detail(why, -1); }

/* --- tables -------------------------------------------------------------------------------------------------------------- */

enum kind { UNLBL, CIPSO, CALIPSO };
struct protocol { enum kind kind; uint32_t doi; };

/* What each number becomes; NO_NUMBER where it is in no pair. */
enum { NO_NUMBER = 65535 };
struct numbers { uint16_t level[256], category[65536]; };

/* A definition that passes all numbers has no `local` and no `wire`. */
struct definition { struct protocol protocol; int tags, tag[5]; struct numbers *local, *wire; };

struct prefix { uint32_t address, mask; struct protocol protocol; };
struct domain { const char *name; int prefixes; struct protocol plain; struct prefix prefix[MOST_ADDRESSES]; };
struct receiver { uint8_t address[16]; int size; const char *domain; struct label *low, *level; };
struct range { const char *interface; struct label *low, *high; };
struct statics { const char *interface; uint32_t address, mask; struct label *low, *high; };

struct node {
    const char *name;
    struct definition definition[MOST_ENTRIES];
    struct domain domain[MOST_ENTRIES];
    struct receiver receiver[MOST_ENTRIES];
    struct range range[MOST_ENTRIES];
    struct statics statics[MOST_ENTRIES];
    int definitions, domains, receivers, ranges, static_entries, accepts;
    uint16_t slot[SLOTS]; /* receivers by their addresses, counted from 1; 0 where none is */
};

/* The name of what is for all that have no entry of their own. */
static const char anyone[] = "";

/* The one place where this name is kept. */
static const char *name_of(const char *text) {
    static char *kept[MOST_NAMES];
    static int count;
    if (!*text) return anyone;
    for (int i = 0; i < count; i++) {
        if (strcmp(kept[i], text) == 0) return kept[i];
    }
    if (count == MOST_NAMES) wrong(text);
    kept[count] = made(strlen(text) + 1);
    return strcpy(kept[count++], text);
}

static int is_same(struct protocol a, struct protocol b) { return a.kind == b.kind && a.doi == b.doi; }

static const struct definition *find_definition(const struct node *node, struct protocol protocol) {
    for (int i = 0; i < node->definitions; i++) {
        if (is_same(node->definition[i].protocol, protocol)) return &node->definition[i];
    }
    return NULL;
}

/* The protocol of a domain, or else of the default one, towards an address, NULL of IPv6; the prefixes stand by falling length. */
static const struct protocol *find_protocol(const struct node *node, const char *name, const uint8_t *four) {
    const struct domain *found = NULL;
    for (int i = 0; i < node->domains; i++) {
        if (node->domain[i].name == anyone) found = &node->domain[i];
        if (node->domain[i].name != name) continue;
        found = &node->domain[i];
        break;
    }
    if (!found) return NULL;
    if (!found->prefixes) return &found->plain;
    for (int i = 0; four && i < found->prefixes; i++) {
        if ((u32_at(four) & found->prefix[i].mask) == found->prefix[i].address) return &found->prefix[i].protocol;
    }
    return NULL;
}

/* Where the search for a receiver of this address begins: by its last octets, in which neighbours differ. */
static unsigned slot_of(const uint8_t *address, int size) {
    return (u32_at(address + size - 4) * 2654435761u) >> 22;
}

static const struct receiver *find_receiver(const struct node *node, const uint8_t *address, int size) {
    for (unsigned at = slot_of(address, size); node->slot[at]; at = (at + 1) % SLOTS) {
        const struct receiver *found = &node->receiver[node->slot[at] - 1];
        if (found->size == size && memcmp(found->address, address, size) == 0) return found;
    }
    return NULL;
}

static const struct range *find_range(const struct node *node, const char *interface) {
    const struct range *found = NULL;
    for (int i = 0; i < node->ranges; i++) {
        if (node->range[i].interface == interface) return &node->range[i];
        if (node->range[i].interface == anyone) found = &node->range[i];
    }
    return found;
}

/* The labels for a source, NULL of IPv6: among the interface's entries if it has any, else among the default ones; they stand by falling length. */
static const struct statics *find_static(const struct node *node, const char *interface, const uint8_t *four) {
    int has_any = 0;
    for (int i = 0; i < node->static_entries; i++) has_any |= node->statics[i].interface == interface;
    for (int i = 0; four && i < node->static_entries; i++) {
        const struct statics *entry = &node->statics[i];
        if (entry->interface != (has_any ? interface : anyone)) continue;
        if ((u32_at(four) & entry->mask) == entry->address) return entry;
    }
    return NULL;
}

/* The interface has a range that doesn't hold both labels; one label is tested once. */
static int is_outside(const struct node *node, const char *interface, const struct label *low, const struct label *high) {
    const struct range *found = find_range(node, interface);
    if (!found) return 0;
    if (!dominates(low, found->low) || !dominates(found->high, low)) return 1;
    return low != high && (!dominates(high, found->low) || !dominates(found->high, high));
}

/* --- a label in other numbers ---------------------------------------------------------------------------------------------- */

static int compare(const void *a, const void *b) { return *(const uint16_t *)a - *(const uint16_t *)b; }

/* LEVEL or CATEGORY where a number is in no pair. */
static struct denial translate(const struct numbers *numbers, const struct label *from, struct label *to) {
    static uint16_t found[MOST_RUNS];
    int count = 0, ascends = 1;
    if (numbers->level[from->level] == NO_NUMBER) return because(LEVEL);
    for (int i = 0; i < from->runs; i++) {
        for (int c = from->run[i].first; c <= from->run[i].last; c++) {
            unsigned n = numbers->category[c];
            if (n == NO_NUMBER) return with_detail(CATEGORY, c);
            ascends &= !count || found[count - 1] < n;
            found[count++] = n;
        }
    }
    if (!ascends) qsort(found, count, sizeof *found, compare);
    to->level = numbers->level[from->level];
    to->runs = 0;
    for (int i = 0; i < count; i++) add_last(to, found[i], found[i]);
    return because(NONE);
}

/* --- the labels of a packet that comes in ----------------------------------------------------------------------------------- */

/* Labels that are lent for each packet: in the numbers of the wire it came by, in the node's own, and in those of the wire it leaves by. */
struct room { struct label wire, local, sent; };

/* What carries a packet's label, and its labels in the node's numbers. */
struct incoming { struct protocol carrier; const struct label *low, *high; };

/* The source or the destination of a packet of IPv4; NULL of IPv6. */
static const uint8_t *source4(const struct packet *packet) { return packet->is_six ? NULL : packet->octets + 12; }
static const uint8_t *destination4(const struct packet *packet) { return packet->is_six ? NULL : packet->octets + 16; }

static struct denial read_static(const struct node *node, const char *interface, const struct packet *packet, struct incoming *incoming) {
    if (!node->accepts) return because(UNLABELLED);
    const struct statics *found = find_static(node, interface, source4(packet));
    if (!found) return because(STATIC);
    *incoming = (struct incoming){{UNLBL, 0}, found->low, found->high};
    return because(NONE);
}

static struct denial read_label_of(
    const struct node *node, const char *interface, const struct packet *packet, struct room *room, struct incoming *incoming) {
    if (!packet->place) return read_static(node, interface, packet, incoming);
    const uint8_t *option = packet->octets + packet->place;
    uint32_t doi;
    int tag = 0, listed = packet->is_six;
    int fault = packet->is_six ? read_calipso(option, packet->length, &room->wire, &doi) : read_cipso(option, packet->length, &room->wire, &doi, &tag);
    if (fault >= 0) return with_detail(OPTION, packet->place + fault);
    *incoming = (struct incoming){{packet->is_six ? CALIPSO : CIPSO, doi}, &room->wire, &room->wire};
    const struct definition *found = find_definition(node, incoming->carrier);
    if (!found) return with_detail(DOI, packet->place + 2);
    for (int i = 0; i < found->tags; i++) listed |= found->tag[i] == tag;
    if (!listed) return with_detail(TAG, packet->place + 6);
    if (!found->local) return because(NONE);
    incoming->low = incoming->high = &room->local;
    return translate(found->local, &room->wire, &room->local);
}

static struct denial read_packet(
    const struct node *node, const char *interface, const uint8_t *s, int length, struct packet *packet, struct room *room,
    struct incoming *incoming) {
    int fault = read_header(s, length, packet);
    if (fault >= 0) return with_detail(HEADER, fault);
    if (packet->second) return with_detail(OPTION, packet->second);
    return read_label_of(node, interface, packet, room, incoming);
}

/* --- receiving ------------------------------------------------------------------------------------------------------------- */

static struct denial receive(
    const struct node *node, const char *interface, const uint8_t *s, int length, struct room *room, const struct receiver **to,
    const struct label **label) {
    struct packet packet;
    struct incoming incoming;
    struct denial denial = read_packet(node, interface, s, length, &packet, room, &incoming);
    if (denial.why) return denial;
    if (is_outside(node, interface, incoming.low, incoming.high)) return because(RANGE);
    const struct receiver *found = packet.is_six ? find_receiver(node, s + 24, 16) : find_receiver(node, s + 16, 4);
    if (!found) return because(RECEIVER);
    const struct protocol *protocol = find_protocol(node, found->domain, source4(&packet));
    if (!protocol || !is_same(*protocol, incoming.carrier)) return because(REFUSES);
    if (!dominates(found->level, incoming.high)) return because(DOMINATED);
    if (!dominates(incoming.low, found->low)) return because(BELOW);
    *to = found;
    *label = incoming.high;
    return because(NONE);
}

/* --- a packet written under a protocol ------------------------------------------------------------------------------------- */

/* A packet that was written, and what carries its label. */
struct written { uint8_t octets[MOST_OCTETS]; int length; struct protocol carrier; };

/* The option with this label, and its length, which is 0 under UNLBL; or -1 where none can express it. */
static int option_under(const struct node *node, const struct protocol *protocol, const struct label *label, struct label *sent, uint8_t *option) {
    if (protocol->kind == UNLBL) return 0;
    const struct definition *found = find_definition(node, *protocol);
    if (!found) return -1;
    if (found->wire) {
        if (translate(found->wire, label, sent).why) return -1;
        label = sent;
    }
    for (int i = 0; i < found->tags; i++) {
        if (can_express(found->tag[i], label)) return write_option(protocol->doi, found->tag[i], label, option);
    }
    return -1;
}

/* The options that stay, behind the new one, if there is room: all but padding and labels. Answers where they end, which may be behind the room. */
static int keep_options(const struct packet *packet, uint8_t *options, int end) {
    const uint8_t *s = packet->octets;
    for (int at = 20; at < packet->header && s[at] != 0; at += s[at] == 1 ? 1 : s[at + 1]) {
        if (s[at] == 1 || s[at] == 134) continue;
        if (end + s[at + 1] <= 40) memcpy(options + end, s + at, s[at + 1]);
        end += s[at + 1];
    }
    return end;
}

/* The IPv4 packet with this label under a protocol that fits it. */
static struct denial write_under(
    const struct node *node, const struct protocol *protocol, const struct packet *packet, const struct label *label, struct label *sent,
    int hops, struct written *out) {
    uint8_t options[40];
    int end = option_under(node, protocol, label, sent, options);
    if (end < 0) return because(EXPRESS);
    if (packet->header > 20) end = keep_options(packet, options, end);
    if (end > 40) return because(ROOM);
    for (; end % 4; end++) options[end] = 0;
    int header = 20 + end, payload = packet->total - packet->header;
    if (payload > MOST_OCTETS - header) return because(LONG);
    uint8_t *to = out->octets;
    memcpy(to, packet->octets, 20);
    memcpy(to + 20, options, end);
    memcpy(to + header, packet->octets + packet->header, payload);
    to[0] = 64 + header / 4;
    put_u16(to + 2, header + payload);
    to[8] = hops;
    put_u16(to + 10, 0);
    put_u16(to + 10, 0xffff - sum_of(to, header));
    out->length = header + payload;
    out->carrier = *protocol;
    return because(NONE);
}

/* --- forwarding and sending ------------------------------------------------------------------------------------------------ */

static struct denial forward(
    const struct node *node, const char *from, const char *to, const char *name, const uint8_t *s, int length, struct room *room,
    struct written *out) {
    struct packet packet;
    struct incoming incoming;
    struct denial denial = read_packet(node, from, s, length, &packet, room, &incoming);
    if (denial.why) return denial;
    if (is_outside(node, from, incoming.low, incoming.high)) return because(RANGE);
    if (s[packet.is_six ? 7 : 8] <= 1) return because(EXPIRED);
    if (is_outside(node, to, incoming.low, incoming.high)) return because(RANGE);
    const struct protocol *protocol = find_protocol(node, name, destination4(&packet));
    if (!protocol) return because(MAP);
    if (protocol->kind == (packet.is_six ? CIPSO : CALIPSO)) return because(PAIR); /* no node has a pair */
    if (packet.is_six) wrong("an IPv6 packet that is written");
    return write_under(node, protocol, &packet, incoming.high, &room->sent, s[8] - 1, out);
}

static struct denial send_out(
    const struct node *node, const char *name, const char *interface, const struct label *label, const uint8_t *s, int length,
    struct label *sent, struct written *out) {
    struct packet packet;
    int fault = read_header(s, length, &packet);
    if (fault >= 0) return with_detail(HEADER, fault);
    if (packet.place) return with_detail(LABELLED, packet.place);
    if (is_outside(node, interface, label, label)) return because(RANGE);
    const struct protocol *protocol = find_protocol(node, name, destination4(&packet));
    if (!protocol) return because(MAP);
    if (protocol->kind == (packet.is_six ? CIPSO : CALIPSO)) return because(VERSION);
    if (packet.is_six) wrong("an IPv6 packet that is written");
    return write_under(node, protocol, &packet, label, sent, s[8], out);
}

/* --- commands that set the tables ------------------------------------------------------------------------------------------ */

/* A label as text, its categories ascending. */
static struct label *read_label(const char *text) {
    struct label *label = made(sizeof *label);
    char *end;
    if (*text != 's') wrong(text);
    label->level = strtoul(text + 1, &end, 10);
    while (*end == ':' || *end == ',') {
        unsigned first = strtoul(end + 2, &end, 10), last = first;
        if (*end == '.') last = strtoul(end + 2, &end, 10);
        add_last(label, first, last);
    }
    return label;
}

static void read_both(char *text, struct label **low, struct label **high) {
    char *dash = strchr(text, '-');
    if (dash) *dash = 0;
    *high = read_label(dash ? dash + 1 : text);
    *low = dash ? read_label(text) : *high;
}

static uint32_t read_prefix(const char *text, uint32_t *mask) {
    unsigned a, b, c, d, bits = 32;
    if (sscanf(text, "%u.%u.%u.%u/%u", &a, &b, &c, &d, &bits) < 4) wrong(text);
    *mask = bits ? 0xffffffffu << (32 - bits) : 0;
    return (a << 24 | b << 16 | c << 8 | d) & *mask;
}

static struct protocol read_protocol(const char *text) {
    struct protocol protocol = {UNLBL, 0};
    if (sscanf(text, "cipsov4,%u", &protocol.doi) == 1) protocol.kind = CIPSO;
    else if (sscanf(text, "calipso,%u", &protocol.doi) == 1) protocol.kind = CALIPSO;
    else if (strcmp(text, "unlbl") != 0) wrong(text);
    return protocol;
}

static void add_prefix(struct domain *entry, const char *address, struct protocol protocol) {
    struct prefix prefix;
    int at = entry->prefixes++;
    prefix.address = read_prefix(address, &prefix.mask);
    prefix.protocol = protocol;
    for (; at > 0 && entry->prefix[at - 1].mask < prefix.mask; at--) entry->prefix[at] = entry->prefix[at - 1];
    entry->prefix[at] = prefix;
}

static void add_map(struct node *node, const char *name, const char *address, const char *protocol) {
    struct domain *entry = NULL;
    for (int i = 0; i < node->domains; i++) {
        if (node->domain[i].name == name) entry = &node->domain[i];
    }
    if (!entry) {
        entry = &node->domain[node->domains++];
        entry->name = name;
    }
    if (*address) add_prefix(entry, address, read_protocol(protocol));
    else entry->plain = read_protocol(protocol);
}

static void add_static(struct node *node, const char *interface, const char *address, char *labels) {
    struct statics entry;
    int at = node->static_entries++;
    entry.interface = interface;
    entry.address = read_prefix(address, &entry.mask);
    read_both(strncmp(labels, "system_u:", 9) == 0 ? strrchr(labels, ':') + 1 : labels, &entry.low, &entry.high);
    for (; at > 0 && node->statics[at - 1].mask < entry.mask; at--) node->statics[at] = node->statics[at - 1];
    node->statics[at] = entry;
}

static void add_receiver(struct node *node, const char *address, const char *domain, char *level) {
    struct receiver *entry = &node->receiver[node->receivers++];
    entry->domain = domain;
    entry->size = strchr(address, ':') ? 16 : 4;
    if (inet_pton(entry->size == 16 ? AF_INET6 : AF_INET, address, entry->address) != 1) wrong(address);
    if (strchr(level, '-')) read_both(level, &entry->low, &entry->level);
    else entry->low = read_label("s0"), entry->level = read_label(level);
    unsigned at = slot_of(entry->address, entry->size);
    while (node->slot[at]) at = (at + 1) % SLOTS;
    node->slot[at] = node->receivers;
}

static void add_range(struct node *node, const char *interface, char *labels) {
    struct range *entry = &node->range[node->ranges++];
    entry->interface = interface;
    read_both(labels, &entry->low, &entry->high);
}

static struct definition *add_definition(struct node *node, enum kind kind, uint32_t doi, char *tags) {
    struct definition *entry = &node->definition[node->definitions++];
    entry->protocol = (struct protocol){kind, doi};
    for (char *tag = tags ? strtok(tags, ",") : NULL; tag; tag = strtok(NULL, ",")) entry->tag[entry->tags++] = atoi(tag);
    return entry;
}

/* Sets both ways of each pair, the local number first. */
static void read_pairs(const char *pairs, uint16_t *wire, uint16_t *local) {
    for (int is_more = 1; is_more; pairs++) {
        char *end;
        unsigned own = strtoul(pairs, &end, 10), other = strtoul(end + 1, &end, 10);
        wire[own] = other;
        local[other] = own;
        pairs = end;
        is_more = *end == ',';
    }
}

static void add_pairs(struct definition *entry, const char *levels, const char *categories) {
    entry->local = made(sizeof *entry->local);
    entry->wire = made(sizeof *entry->wire);
    memset(entry->local, 255, sizeof *entry->local);
    memset(entry->wire, 255, sizeof *entry->wire);
    read_pairs(levels, entry->wire->level, entry->local->level);
    read_pairs(categories, entry->wire->category, entry->local->category);
}

static int has_default(const struct node *node) {
    for (int i = 0; i < node->domains; i++) {
        if (node->domain[i].name == anyone) return 1;
    }
    return 0;
}

/* Carries out a command, and answers what it replies. */
static const char *obey(struct node *node, const char *line) {
    static char long_word[MOST_LINE];
    char a[64], b[64], c[64], *d = long_word;
    uint32_t doi;
    if (sscanf(line, "cipsov4 add pass doi:%u tags:%63s", &doi, a) == 2) add_definition(node, CIPSO, doi, a);
    else if (sscanf(line, "cipsov4 add trans doi:%u tags:%63s levels:%*s categories:%s", &doi, a, d) == 3) {
        add_pairs(add_definition(node, CIPSO, doi, a), strstr(line, " levels:") + 8, d);
    } else if (sscanf(line, "calipso add pass doi:%u", &doi) == 1) add_definition(node, CALIPSO, doi, NULL);
    else if (sscanf(line, "calipso add trans doi:%u levels:%*s categories:%s", &doi, d) == 2) {
        add_pairs(add_definition(node, CALIPSO, doi, NULL), strstr(line, " levels:") + 8, d);
    } else if (sscanf(line, "map add domain:%63s address:%63s protocol:%63s", a, b, c) == 3) add_map(node, name_of(a), b, c);
    else if (sscanf(line, "map add domain:%63s protocol:%63s", a, c) == 2) add_map(node, name_of(a), "", c);
    else if (sscanf(line, "map add default address:%63s protocol:%63s", b, c) == 2) add_map(node, anyone, b, c);
    else if (sscanf(line, "map add default protocol:%63s", c) == 1) add_map(node, anyone, "", c);
    else if (strcmp(line, "map del default") == 0 && !has_default(node)) return "MapUnknown";
    else if (strcmp(line, "mgmt protocols") == 0) return "listed 3\n  unlbl\n  cipsov4\n  calipso";
    else if (strcmp(line, "unlbl accept on") == 0) node->accepts = 1;
    else if (sscanf(line, "unlbl add interface:%63s address:%63s label:%s", a, b, d) == 3) add_static(node, name_of(a), b, d);
    else if (sscanf(line, "unlbl add default address:%63s label:%s", b, d) == 2) add_static(node, anyone, b, d);
    else if (sscanf(line, "receiver add address:%63s domain:%63s level:%s", b, a, d) == 3) add_receiver(node, b, name_of(a), d);
    else if (sscanf(line, "range add interface:%63s range:%s", a, d) == 2) add_range(node, name_of(a), d);
    else wrong(line);
    return "done";
}

/* --- flows ----------------------------------------------------------------------------------------------------------------- */

enum { MOST_NODES = 32, MOST_HOPS = 16 };

struct hop { int what; const struct node *node; const char *a, *b, *c; struct label *label; };

static struct node *node[MOST_NODES];
static struct hop hop[MOST_HOPS];
static int nodes, hops, commands, flows;
static uint64_t packets;

static struct node *node_named(const char *name) {
    for (int i = 0; i < nodes; i++) {
        if (node[i]->name == name) return node[i];
    }
    return NULL;
}

static void read_hop(const char *word) {
    char name[64] = "", a[64] = "", b[64] = "", c[64] = "", label[4096];
    struct hop *h = &hop[hops++];
    h->what = word[0];
    if (sscanf(word, "send:%63[^,],%63[^,],%63[^,],%4095s", name, a, b, label) == 4) h->label = read_label(label);
    else if (sscanf(word, "forward:%63[^,],%63[^,],%63[^,],%63s", name, a, b, c) != 4
        && sscanf(word, "receive:%63[^,],%63s", name, a) != 2) wrong(word);
    h->a = name_of(a), h->b = name_of(b), h->c = name_of(c);
    h->node = node_named(name_of(name));
    if (!h->node) wrong(word);
}

/* What is left of a packet: its octets, which it came with where no hop wrote it, what carries its label, or who received it with which label. */
struct walked {
    struct denial denial;
    int hop, length;
    const uint8_t *octets;
    struct protocol carrier;
    const struct receiver *to;
    const struct label *label;
};

static struct walked walk(const uint8_t *s, int length) {
    static struct room room;
    static struct written written[2];
    struct walked walked = {.octets = s, .length = length};
    for (walked.hop = 1; walked.hop <= hops; walked.hop++) {
        const struct hop *h = &hop[walked.hop - 1];
        struct written *out = &written[walked.hop % 2];
        if (h->what == 'r') walked.denial = receive(h->node, h->a, walked.octets, walked.length, &room, &walked.to, &walked.label);
        else if (h->what == 'f') walked.denial = forward(h->node, h->a, h->b, h->c, walked.octets, walked.length, &room, out);
        else walked.denial = send_out(h->node, h->a, h->b, h->label, walked.octets, walked.length, &room.sent, out);
        if (walked.denial.why) return walked;
        if (h->what == 'r') continue;
        walked.octets = out->octets;
        walked.length = out->length;
        walked.carrier = out->carrier;
    }
    walked.hop = hops;
    return walked;
}

/* --- what is printed of a packet --------------------------------------------------------------------------------------------- */

static void write_address(const uint8_t *address, int size) {
    char six[INET6_ADDRSTRLEN];
    if (size == 16) {
        text(inet_ntop(AF_INET6, address, six, sizeof six));
        return;
    }
    for (int i = 0; i < 4; i++) {
        if (i) text(".");
        number(address[i]);
    }
}

static void write_carrier(struct protocol carrier) {
    if (carrier.kind == UNLBL) text("unlbl");
    else if (carrier.kind == CIPSO) text("cipsov4,");
    else text("calipso,");
    if (carrier.kind != UNLBL) number(carrier.doi);
}

static void write_denial(struct denial denial, int at) {
    text("denied ");
    number(denial.why);
    text(" ");
    text(names[denial.why]);
    if (denial.detail >= 0) {
        if (denial.why == CATEGORY) text(" category ");
        else text(" octet ");
        number(denial.detail);
    }
    text(" hop ");
    number(at);
    text(" node ");
    text(at ? hop[at - 1].node->name : "-");
}

static void write_walked(uint64_t count, const struct walked *walked) {
    text("packet ");
    number(flows);
    text(".");
    number(count);
    text(" ");
    if (walked->denial.why) write_denial(walked->denial, walked->hop);
    else if (walked->to) {
        text("delivered ");
        write_label(walked->label);
        text(" to ");
        write_address(walked->to->address, walked->to->size);
    } else {
        text("sent ");
        write_carrier(walked->carrier);
    }
    text(" versions ");
    for (int i = 0; i < walked->hop; i++) {
        if (i) text(",");
        number(commands);
    }
    if (!walked->hop) text("-");
    end_line();
}

/* --- the captures --------------------------------------------------------------------------------------------------------------- */

static uint8_t kept[PIECE + MOST_WAITING];
static size_t keeping;

static void put_le(uint32_t n) {
    for (int i = 0; i < 4; i++) kept[keeping++] = n >> 8 * i;
}

static void hand_on(int output) {
    if (output >= 0) write_all(output, kept, keeping);
    keeping = 0;
}

static void put_all(const uint32_t *numbers, int count) {
    for (int i = 0; i < count; i++) put_le(numbers[i]);
}

/* The head of an output: the input's format and resolution, in pcapng nanoseconds, and raw IP. */
static void keep_head(const struct capture *capture) {
    static const uint32_t ng[] = {SECTION, 28, 0x1a2b3c4d, 1, -1, -1, 28, INTERFACE, 32, 101, MOST_CAPTURED, 1 << 16 | 9, 9, 0, 32};
    uint32_t pcap[] = {capture->nanos ? 0xa1b23c4d : 0xa1b2c3d4, 0x00040002, 0, 0, MOST_CAPTURED, 101};
    if (capture->is_ng) put_all(ng, 15);
    else put_all(pcap, 6);
}

static void put_octets(const struct walked *walked) {
    memcpy(kept + keeping, walked->octets, walked->length);
    keeping += walked->length;
}

static void keep_record(const struct frame *frame, const struct walked *walked) {
    put_all((uint32_t[]){frame->seconds, frame->fraction, walked->length, walked->length}, 4);
    put_octets(walked);
}

static void keep_block(const struct frame *frame, const struct walked *walked) {
    uint32_t length = walked->length, total = 32 + ((length + 3) & ~3u);
    uint64_t nanos = frame->seconds * 1000000000ull + frame->fraction;
    put_all((uint32_t[]){ENHANCED, total, 0, nanos >> 32, nanos, length, length}, 7);
    put_octets(walked);
    while (length++ % 4) kept[keeping++] = 0;
    put_le(total);
}

static void keep(int output, const struct capture *capture, const struct frame *frame, const struct walked *walked) {
    if (capture->is_ng) keep_block(frame, walked);
    else keep_record(frame, walked);
    if (keeping >= PIECE) hand_on(output);
}

static void ended(int status, int output) {
    hand_on(output);
    flush();
    exit(status);
}

static void broken(const struct capture *capture, int output) {
    text("capture ");
    number(flows);
    text(" octet ");
    number(capture->at);
    text(" ");
    text(capture->fault);
    end_line();
    ended(5, output);
}

/* Opens a flow's output and writes its head; -1 where it has none. */
static int open_output(const char *name, const struct capture *capture) {
    if (strcmp(name, "-") == 0) return -1;
    int output = open(name, O_WRONLY | O_CREAT | O_TRUNC, 0666);
    if (output < 0) ended(3, output);
    keep_head(capture);
    return output;
}

static void begin_flow(struct capture *capture, const char *input) {
    text("flow ");
    number(++flows);
    text(" ");
    text(input);
    end_line();
    if (!open_capture(capture, input)) ended(3, -1);
    if (capture->fault) broken(capture, -1);
}

static void end_flow(uint64_t count, uint64_t passed) {
    text("end ");
    number(flows);
    text(" packets ");
    number(count);
    text(" passed ");
    number(passed);
    text(" denied ");
    number(count - passed);
    end_line();
}

static void run_flow(const char *input, const char *output_name) {
    static struct capture capture;
    struct frame frame;
    uint64_t count = 0, passed = 0;
    begin_flow(&capture, input);
    int output = open_output(output_name, &capture);
    while (read_frame(&capture, &frame)) {
        if (packets++ == MOST_PACKETS) {
            text("limit packets 1048576");
            end_line();
            ended(7, output);
        }
        const uint8_t *packet = ip_part(frame.link, frame.octets, &frame.length);
        struct walked walked = {.denial = because(NOT_IP)};
        if (packet) walked = walk(packet, frame.length);
        write_walked(++count, &walked);
        if (walked.denial.why) continue;
        passed++;
        if (output >= 0) keep(output, &capture, &frame, &walked);
    }
    if (capture.fault) broken(&capture, output);
    close(capture.file);
    hand_on(output);
    if (output >= 0) close(output);
    end_flow(count, passed);
}

/* --- the script ------------------------------------------------------------------------------------------------------------------- */

static void read_flow(char *line) {
    strtok(line, " ");
    const char *input = strtok(NULL, " "), *output = strtok(NULL, " ");
    if (!input || !output) wrong(line);
    hops = 0;
    for (const char *word = strtok(NULL, " "); word; word = strtok(NULL, " ")) read_hop(word);
    run_flow(input, output);
}

static struct node *node_of_line(const char *name) {
    struct node *found = node_named(name_of(name));
    if (found) return found;
    if (nodes == MOST_NODES) wrong(name);
    found = node[nodes++] = made(sizeof *found);
    found->name = name_of(name);
    return found;
}

static struct node *read_line(char *line, struct node *current) {
    line[strcspn(line, "\n")] = 0;
    if (strncmp(line, "netlabelctl ", 12) == 0) line += 12;
    if (!*line || *line == '#') return current;
    if (strncmp(line, "node ", 5) == 0) return node_of_line(line + 5);
    if (strncmp(line, "flow ", 5) == 0) read_flow(line);
    else {
        if (flows || !current) wrong(line);
        const char *reply = obey(current, line);
        text("command ");
        number(++commands);
        text(" ");
        text(current->name);
        text(" ");
        text(reply);
        end_line();
    }
    return current;
}

int main(int argc, char **argv) {
    static char line[MOST_LINE];
    struct node *current = NULL;
    FILE *script = argc == 2 ? fopen(argv[1], "r") : NULL;
    if (!script) return 3;
    make_table();
    while (fgets(line, sizeof line, script)) current = read_line(line, current);
    text("done");
    end_line();
    flush();
    return 0;
}
