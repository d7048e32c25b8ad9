/*
 * Prints whether a link message in the captures on standard input has an IFLA_VXLAN_ID with a given VNI:
 *
 *     vxlan VNI < CAPTURE
 */
#include <stdbool.h>
#include <stdio.h>
#include <stdlib.h>
#include <string.h>

#include <linkcap.h>

static bool has_vni(const uint8_t *capture, size_t length, uint32_t vni)
{
    struct linkcap_options options = {0};
    struct linkcap_message message;
    struct linkcap_attribute attribute;
    struct linkcap_finding fault;
    uint64_t at, next;
    for (at = 0; linkcap_next_message(capture, length, &options, at, &message, &fault) == LINKCAP_OK; at = message.next)
        for (next = at; linkcap_next_attribute(capture, length, &options, at, next, &attribute, &fault) == LINKCAP_OK;
             next = attribute.payload)
            if (strcmp(attribute.name, "IFLA_VXLAN_ID") == 0 && memcmp(capture + attribute.payload, &vni, sizeof vni) == 0)
                return true;
    return false;
}

int main(int argc, char **argv)
{
    static uint8_t capture[1 << 20];
    size_t length = fread(capture, 1, sizeof capture, stdin);
    puts(has_vni(capture, length, argc > 1 ? (uint32_t)strtoul(argv[1], NULL, 10) : 0) ? "true" : "false");
    return 0;
}
