/* Prints what each packet of a capture carries, a line for each, as `netlabel show` does. */
#include "netlabel.h"
#include <pcap/pcap.h>
#include <stdio.h>

/* The IP packet of a frame: all of it, or in Ethernet what follows the EtherType, behind one VLAN tag at the most. NULL where the frame has none. */
static const uint8_t *ip_part(int link, const uint8_t *frame, size_t *length)
{
    size_t type = 12;
    if (link != DLT_EN10MB)
        return frame;
    if (*length >= 18 && frame[12] == 0x81 && frame[13] == 0x00)
        type = 16;
    if (*length < 14 || !((frame[type] == 0x08 && frame[type + 1] == 0x00) || (frame[type] == 0x86 && frame[type + 1] == 0xdd)))
        return NULL;
    *length -= type + 2;
    return frame + type + 2;
}

static void print_label(const struct netlabel_label *label, const struct netlabel_run *runs)
{
    printf(" s%u", label->level);
    for (size_t i = 0; i < label->runs; i++) {
        printf("%cc%u", i ? ',' : ':', runs[i].first);
        if (runs[i].last > runs[i].first)
            printf("%cc%u", runs[i].last > runs[i].first + 1 ? '.' : ',', runs[i].last);
    }
}

static void print_packet(const uint8_t *octets, size_t length)
{
    static struct netlabel_run runs[NETLABEL_MOST_RUNS];
    struct netlabel_label label;
    switch (netlabel_read_packet(octets, length, runs, NETLABEL_MOST_RUNS, &label)) {
    case NETLABEL_BAD_HEADER: printf("BadHeader"); break;
    case NETLABEL_BAD_OPTION: printf("BadOption"); break;
    default:
        if (label.kind == NETLABEL_NONE) {
            printf("unlbl\n");
            return;
        }
        printf("%s doi %lu", label.kind == NETLABEL_CIPSO ? "cipsov4" : "calipso", (unsigned long)label.doi);
        if (label.kind == NETLABEL_CIPSO)
            printf(" tag %u", label.tag);
        print_label(&label, runs);
    }
    printf(" octet %zu\n", label.octet);
}

int main(int count, char **words)
{
    char error[PCAP_ERRBUF_SIZE] = "usage: labels CAPTURE";
    pcap_t *capture = count == 2 ? pcap_open_offline(words[1], error) : NULL;
    if (!capture) {
        fprintf(stderr, "labels: %s\n", error);
        return 1;
    }
    int link = pcap_datalink(capture), ended = 0;
    if (link != DLT_EN10MB && link != DLT_RAW && link != DLT_IPV4 && link != DLT_IPV6) {
        fprintf(stderr, "labels: frames of this kind aren't read\n");
        pcap_close(capture);
        return 1;
    }
    unsigned long packets = 0;
    struct pcap_pkthdr *head;
    const uint8_t *frame;
    while ((ended = pcap_next_ex(capture, &head, &frame)) == 1) {
        size_t length = head->caplen;
        const uint8_t *octets = ip_part(link, frame, &length);
        printf("packet %lu ", ++packets);
        if (octets)
            print_packet(octets, length);
        else
            printf("NotIp\n");
    }
    if (ended == PCAP_ERROR)
        fprintf(stderr, "labels: %s\n", pcap_geterr(capture));
    else
        printf("end packets %lu\n", packets);
    pcap_close(capture);
    return ended == PCAP_ERROR;
}
