/* The incarnation of a device, kept in a file that survives its end. A device begins above every
 * incarnation in which it ever was; one that is reset while it runs goes on in the next, and that
 * is kept before the reply to the Reset goes out. */
#ifndef KEPT_H
#define KEPT_H

#include "cip_device.h"
#include <errno.h>
#include <fcntl.h>
#include <libgen.h>
#include <stdbool.h>
#include <stdint.h>
#include <stdio.h>
#include <stdlib.h>
#include <string.h>
#include <unistd.h>

static const char *kept_in; /* the file; null: nothing is kept */
static uint16_t kept;       /* the greatest incarnation so far, as it stands there */

/* A device that cannot keep its incarnation ends. */
static inline void must(bool is_done) {
    if (is_done)
        return;
    perror(kept_in);
    exit(1);
}

/* The file is written anew beside the old one and takes its place, so that there is always one; and
 * so it stands in its folder, also where power is lost now. */
static inline void keep(uint16_t incarnation) {
    char beside[4096], folder[4096];
    must(strlen(kept_in) + sizeof ".new" <= sizeof beside);
    strcat(strcpy(beside, kept_in), ".new");
    FILE *file = fopen(beside, "w");
    must(file != 0 && fprintf(file, "%u\n", incarnation) > 0 && fflush(file) == 0);
    must(fsync(fileno(file)) == 0 && fclose(file) == 0 && rename(beside, kept_in) == 0);
    int in = open(dirname(strcpy(folder, kept_in)), O_RDONLY | O_DIRECTORY);
    must(in >= 0 && fsync(in) == 0 && close(in) == 0);
    kept = incarnation;
}

/* The first id and the first request number of a device that starts: count 1 of an incarnation
 * above all that were kept. */
static inline uint32_t first_of_life(void) {
    FILE *file = kept_in != 0 ? fopen(kept_in, "r") : 0;
    unsigned last = 0;
    must(kept_in == 0 || file != 0 || errno == ENOENT); /* there is none before the first life */
    if (file != 0 && (fscanf(file, "%u", &last) != 1 || last > 65534)) {
        fprintf(stderr, "%s: no incarnation below 65,535\n", kept_in);
        exit(1);
    }
    if (file != 0)
        fclose(file);
    if (kept_in != 0)
        keep((uint16_t)(last + 1));
    return (uint32_t)(last + 1) << 16 | 1;
}

/* After a step, before its outputs go out: what the device is in is kept. */
static inline void keep_incarnation(cip_device *device) {
    uint16_t ids, numbers;
    if (kept_in == 0 || cip_incarnation(device, &ids, &numbers) != CIP_DONE)
        return;
    uint16_t most = ids > numbers ? ids : numbers;
    if (most > kept)
        keep(most);
}

#endif
