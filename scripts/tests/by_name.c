// Makes the first link a port of the second one, both of which it finds by if_nametoindex: by_name PORT BRIDGE
#include <linux/rtnetlink.h>
#include <net/if.h>
#include <string.h>
#include <sys/socket.h>
#include <unistd.h>

struct request {
    struct nlmsghdr header;
    struct ifinfomsg link;
    struct rtattr attribute;
    int master;
};

int main(int count, char **names) {
    char answer[4096];
    if (count != 3)
        return 2;
    struct request request = {
        .header = {sizeof request, RTM_NEWLINK, NLM_F_REQUEST | NLM_F_ACK, 1, 0},
        .link = {.ifi_index = (int)if_nametoindex(names[1])},
        .attribute = {RTA_LENGTH(sizeof(int)), IFLA_MASTER},
        .master = (int)if_nametoindex(names[2]),
    };
    int route = socket(AF_NETLINK, SOCK_RAW, NETLINK_ROUTE);
    if (route < 0 || send(route, &request, sizeof request, 0) != sizeof request)
        return 1;
    return recv(route, answer, sizeof answer, 0) < 0;
}
