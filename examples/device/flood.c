/* Sends data of one connection as fast as it can, to measure a bridge.
 *
 * flood TO OWN ID MILLISECONDS: to UDP port 2222, under this id in hexadecimal; then it says how
 * many it sent. */
#include "enip.h"

int main(int count, char **words) {
    static const uint8_t datum[] = {0x01, 0x00, 0xDE, 0xAD, 0xBE, 0xEF};
    if (count != 5)
        return 2;
    int s = bound(SOCK_DGRAM, words[2], 0);
    uint32_t id = (uint32_t)strtoul(words[3], 0, 16), sent = 0;
    uint64_t end = milliseconds() + strtoull(words[4], 0, 10);
    while (milliseconds() < end)
        for (int i = 0; i < 16; i++)
            send_datum(s, (const uint8_t *)words[1], strlen(words[1]), DATA_PORT, id, ++sent, datum,
                       sizeof datum);
    close(s);
    printf("sent %u\n", sent);
    return 0;
}
