/* Reads a server's DHCPv6 message many times as systemd-networkd's client does (libsystemd-network), for bench/compare: the same
 * message as crates/bench_messages6. The first argument is how many times. */
#include <stdint.h>
#include <stdio.h>
#include <stdlib.h>
#include <string.h>
#include "dhcp6-internal.h"
#include "dhcp6-lease-internal.h"

static const uint8_t reply[148] =
    "\x07\x00\x00\x02"
    "\x00\x01\x00\x0a\x00\x03\x00\x01\x02\x00\x00\x00\x00\x01"
    "\x00\x02\x00\x0a\x00\x03\x00\x01\x02\x00\x00\x00\x00\x63"
    "\x00\x03\x00\x28\x00\x00\x00\x01\x00\x00\x03\xe8\x00\x00\x07\xd0"
    "\x00\x05\x00\x18\x20\x01\x0d\xb8\x00\x00\x00\x00\x00\x00\x00\x00\x00\x00\x00\x05\x00\x00\x0b\xb8\x00\x00\x17\x70"
    "\x00\x19\x00\x29\x00\x00\x00\x01\x00\x00\x03\xe8\x00\x00\x07\xd0"
    "\x00\x1a\x00\x19\x00\x00\x0b\xb8\x00\x00\x17\x70\x38\x20\x01\x0d\xb8\x00\x01\x00\x00\x00\x00\x00\x00\x00\x00\x00\x00"
    "\x00\x17\x00\x10\x20\x01\x0d\xb8\x00\x00\x00\x00\x00\x00\x00\x00\x00\x00\x00\x53"
    "\x00\x18\x00\x03\x01" "a";

static const uint8_t own[] = { 0, 1, 2, 0, 0, 0, 0, 1 }; /* of the client's DUID, after its type */

static unsigned long counted(sd_dhcp6_lease *lease) {
    const struct in6_addr *servers;
    struct in6_addr address;
    uint32_t preferred, valid;
    unsigned long count = 0;
    char **names;
    uint8_t len;

    for (sd_dhcp6_lease_reset_address_iter(lease); !sd_dhcp6_lease_get_address(lease, &address, &preferred, &valid);)
        ++count;
    for (sd_dhcp6_lease_reset_pd_prefix_iter(lease); !sd_dhcp6_lease_get_pd(lease, &address, &len, &preferred, &valid);)
        ++count;
    if (sd_dhcp6_lease_get_dns(lease, &servers) > 0)
        ++count;
    if (sd_dhcp6_lease_get_domains(lease, &names) > 0)
        ++count;
    return count;
}

int main(int argc, char **argv) {
    unsigned long readings = argc > 1 ? strtoul(argv[1], NULL, 10) : 100000;
    uint8_t message[sizeof(reply)];
    sd_dhcp6_client *client = NULL;
    unsigned long all = 0;

    memcpy(message, reply, sizeof(message));
    if (sd_dhcp6_client_new(&client) < 0 || sd_dhcp6_client_set_iaid(client, 1) < 0 ||
        sd_dhcp6_client_set_duid(client, 3, own, sizeof(own)) < 0)
        return 1;
    for (unsigned long reading = 0; reading < readings; ++reading) {
        sd_dhcp6_lease *lease = NULL;

        message[3] = (uint8_t)reading;
        if (dhcp6_lease_new_from_message(client, (const DHCP6Message *)message, sizeof(message), NULL, NULL, &lease) < 0)
            continue;
        all += counted(lease);
        sd_dhcp6_lease_unref(lease);
    }
    printf("%lu readings, %lu addresses, prefixes, servers and names\n", readings, all);
    return 0;
}
