/*
 * An example of a golden test, which is on the page: a request is compared with the lines in request.lines. It runs at the top
 * of the repository.
 */
#include <linux/if_link.h>
#include <linux/rtnetlink.h>

#include <linkcap_golden.h>

/* A request that sets the MTU of a link. */
struct request {
    struct nlmsghdr header;
    struct ifinfomsg link;
    struct rtattr attribute;
    uint32_t mtu;
};

static struct request set_mtu(int index, uint32_t mtu)
{
    struct request request = {
        .header = {sizeof request, RTM_NEWLINK, NLM_F_REQUEST | NLM_F_ACK, 1, 0},
        .link = {.ifi_index = index},
        .attribute = {RTA_LENGTH(sizeof mtu), IFLA_MTU},
        .mtu = mtu,
    };
    return request;
}

int main(void)
{
    struct request request = set_mtu(3, 1450);
    return linkcap_golden((const uint8_t *)&request, sizeof request, "bindings/c/tests/request.lines");
}
