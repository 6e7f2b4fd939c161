/* A plain UDP relay, to compare the bridge with: it knows no CIP, and sends on what comes in.
 *
 * relay OWN TO MILLISECONDS: from UDP port 2222 of one address to that of another; then it says how
 * many it sent on. */
#include "enip.h"
#include <poll.h>

int main(int count, char **words) {
    if (count != 4)
        return 2;
    int s = bound(SOCK_DGRAM, words[1], DATA_PORT);
    struct sockaddr_in to = at_address(words[2], DATA_PORT);
    uint64_t end = milliseconds() + strtoull(words[3], 0, 10);
    unsigned long passed = 0;
    printf("ready\n");
    fflush(stdout);
    while (milliseconds() < end) {
        struct pollfd fd = {s, POLLIN, 0};
        if (poll(&fd, 1, 10) <= 0)
            continue;
        for (int i = 0; i < 64; i++) {
            uint8_t frame[MOST_FRAME];
            struct sockaddr_in from;
            socklen_t size = sizeof from;
            ssize_t got =
                recvfrom(s, frame, sizeof frame, MSG_DONTWAIT, (struct sockaddr *)&from, &size);
            if (got < 0)
                break;
            passed++;
            (void)sendto(s, frame, (size_t)got, 0, (struct sockaddr *)&to, sizeof to);
        }
    }
    close(s);
    printf("passed %lu\n", passed);
    return 0;
}
