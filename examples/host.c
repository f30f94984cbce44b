/* Reads a container, wraps it in a packet, prints what it says and the packet's words, and shows a refusal. */
#include <lipsync.h>
#include <stdio.h>

int main(void) {
    const uint8_t container[] = {0x00, 0x07, 0x04, 0x52, 0x09, 0xF0, 0xAA};
    uint8_t says[LIPSYNC_FLAT_SIZE], packet[LIPSYNC_LARGEST_PACKET];
    size_t size;
    uint8_t number = lipsync_read_container(container, sizeof container, says, sizeof says, &size);
    if (number != LIPSYNC_OK) return 1;
    printf("rate code %u, video %u\n", says[LIPSYNC_FLAT_RATE], says[LIPSYNC_FLAT_VIDEO]);

    number = lipsync_write_packet(container, sizeof container, packet, sizeof packet, &size);
    if (number != LIPSYNC_OK) return 1;
    for (size_t i = 0; i < size; i += 2) printf("%s%03X", i ? " " : "", packet[i] | packet[i + 1] << 8);

    number = lipsync_read_container(container, sizeof container - 1, says, sizeof says, &size);
    printf("\nwithout its last byte: refused %u, %s\n", number, lipsync_meaning(number));
    return 0;
}
