// Renames link v0 twenty times, to n0, n1, .., by ioctl and by requests in turn, and sends a request about it after each.
#include <linux/rtnetlink.h>
#include <net/if.h>
#include <stdio.h>
#include <string.h>
#include <sys/ioctl.h>
#include <sys/socket.h>

struct request {
    struct nlmsghdr header;
    struct ifinfomsg link;
    struct rtattr attribute;
    char name[IFNAMSIZ];
};

static int ask(int route, struct request *request, unsigned length) {
    char answer[4096];
    request->header.nlmsg_len = length;
    return send(route, request, length, 0) == (ssize_t)length && recv(route, answer, sizeof answer, 0) > 0;
}

int main(void) {
    int route = socket(AF_NETLINK, SOCK_RAW, NETLINK_ROUTE), any = socket(AF_INET, SOCK_DGRAM, 0);
    struct ifreq change = {.ifr_name = "v0"};
    struct request request = {
        .header = {.nlmsg_type = RTM_NEWLINK, .nlmsg_flags = NLM_F_REQUEST | NLM_F_ACK},
        .link = {.ifi_index = (int)if_nametoindex("v0")},
        .attribute = {RTA_LENGTH(IFNAMSIZ), IFLA_IFNAME},
    };
    for (int number = 0; number < 20; number++) {
        snprintf(change.ifr_newname, IFNAMSIZ, "n%d", number);
        memcpy(request.name, change.ifr_newname, IFNAMSIZ);
        if (number % 2 ? !ask(route, &request, sizeof request) : ioctl(any, SIOCSIFNAME, &change))
            return 1;
        memcpy(change.ifr_name, change.ifr_newname, IFNAMSIZ);
        if (!ask(route, &request, NLMSG_LENGTH(sizeof request.link)))
            return 1;
    }
}
