/* What `netlabel show` prints, as a plain C program: bench/show.py compares both reports and times.

   It reads a capture of the libpcap file format or of pcapng, frame by frame, and prints a line for each packet: what its label option says
   (CIPSO in IPv4, CALIPSO in IPv6), or the first octet at fault. Numbers are appended to a buffer by hand, as in the product. */
#include "wire.h"

static void show_header_fault(int octet) {
    text("BadHeader octet ");
    number(octet);
}

static void show_option_fault(int octet) {
    text("BadOption octet ");
    number(octet);
}

static void show_label(const struct packet *packet) {
    static struct label label;
    uint32_t doi;
    int tag = 0;
    const uint8_t *option = packet->octets + packet->place;
    int fault = packet->is_six ? read_calipso(option, packet->length, &label, &doi) : read_cipso(option, packet->length, &label, &doi, &tag);
    if (fault >= 0) {
        show_option_fault(packet->place + fault);
        return;
    }
    if (packet->is_six) text("calipso doi ");
    else text("cipsov4 doi ");
    number(doi);
    if (!packet->is_six) {
        text(" tag ");
        number(tag);
    }
    text(" ");
    write_label(&label);
    text(" octet ");
    number(packet->place);
}

static void show_packet(const uint8_t *s, int length) {
    struct packet packet;
    int fault = read_header(s, length, &packet);
    if (fault >= 0) show_header_fault(fault);
    else if (packet.second) show_option_fault(packet.second);
    else if (packet.place) show_label(&packet);
    else text("unlbl");
}

static int ended(int status) {
    end_line();
    flush();
    return status;
}

int main(int argc, char **argv) {
    static struct capture capture;
    struct frame frame;
    uint64_t shown = 0;
    if (argc != 2 || !open_capture(&capture, argv[1])) return 3;
    make_table();
    while (!capture.fault && read_frame(&capture, &frame)) {
        if (shown == MOST_PACKETS) {
            text("limit packets 1048576");
            return ended(7);
        }
        text("packet ");
        number(++shown);
        text(" ");
        const uint8_t *packet = ip_part(frame.link, frame.octets, &frame.length);
        if (packet) show_packet(packet, frame.length);
        else text("NotIp");
        end_line();
    }
    if (capture.fault) {
        text("capture 1 octet ");
        number(capture.at);
        text(" ");
        text(capture.fault);
        return ended(5);
    }
    text("end packets ");
    number(shown);
    return ended(0);
}
