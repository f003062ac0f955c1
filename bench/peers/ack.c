/* Reads a server's message and its options many times with n-dhcp4 (NetworkManager), for bench/compare: the same message and
 * the same codes as crates/bench_messages. The first argument is how many times. */
#include <stdint.h>
#include <stdio.h>
#include <stdlib.h>
#include <string.h>
#include "n-dhcp4-private.h"

static const uint8_t codes[15] = { 53, 54, 51, 58, 59, 1, 28, 3, 6, 42, 26, 12, 15, 119, 121 };

static const uint8_t options[55] =
    "\x35\x01\x05\x36\x04\x0a\x00\x00\x01\x33\x04\x00\x00\x0e\x10\x3a\x04\x00\x00\x07\x08\x3b\x04\x00\x00\x0c\x4e"
    "\x01\x04\xff\xff\xff\x00\x1c\x04\x0a\x00\x00\xff\x03\x04\x0a\x00\x00\x01\x06\x04\x0a\x00\x00\x01\x34\x01\x01\xff";

static const uint8_t file[55] =
    "\x2a\x04\x0a\x00\x00\x01\x1a\x02\x05\xdc\x0c\x04host\x0f\x0b" "example.com"
    "\x77\x0d\x07" "example\x03" "com\x00\x79\x08\x18\x0a\x00\x01\x0a\x00\x00\x01\xff";

int main(int argc, char **argv) {
    unsigned long readings = argc > 1 ? strtoul(argv[1], NULL, 10) : 100000;
    uint8_t message[300] = { 2, 1, 6 };
    unsigned long all = 0;

    message[16] = 10, message[19] = 50;
    message[28] = 2, message[33] = 1;
    memcpy(message + 108, file, sizeof(file));
    memcpy(message + 236, "\x63\x82\x53\x63", 4);
    memcpy(message + 240, options, sizeof(options));
    for (unsigned long reading = 0; reading < readings; ++reading) {
        NDhcp4Incoming *incoming = NULL;

        message[7] = (uint8_t)reading;
        if (n_dhcp4_incoming_new(&incoming, message, sizeof(message)))
            continue;
        for (size_t i = 0; i < sizeof(codes); ++i) {
            uint8_t *data;
            size_t len;

            if (!n_dhcp4_incoming_query(incoming, codes[i], &data, &len))
                all += len;
        }
        n_dhcp4_incoming_free(incoming);
    }
    printf("%lu readings, %lu bytes\n", readings, all);
    return 0;
}
