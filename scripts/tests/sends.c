/* Sends requests with the sequence numbers 1 to 7 over route sockets, each in another way, and one more over generic netlink,
 * which linkrec has to leave out. Build: cc -pthread -static -o sends sends.c */
#define _GNU_SOURCE
#include <linux/netlink.h>
#include <linux/rtnetlink.h>
#include <pthread.h>
#include <string.h>
#include <sys/socket.h>
#include <sys/uio.h>
#include <unistd.h>

struct request {
    struct nlmsghdr header;
    struct ifinfomsg body;
    char more[60000];
};

static struct request requests[8];

/* A request for link 1, with an attribute of some length. */
static struct request *request(int number, int length)
{
    struct request *made = &requests[number];
    struct rtattr *attribute = (void *)made->more;
    made->header.nlmsg_len = sizeof made->header + sizeof made->body + length;
    made->header.nlmsg_type = RTM_GETLINK;
    made->header.nlmsg_flags = NLM_F_REQUEST;
    made->header.nlmsg_seq = number;
    made->body.ifi_index = 1;
    attribute->rta_len = length;
    attribute->rta_type = IFLA_IFALIAS;
    return made;
}

static struct iovec part(void *start, size_t length)
{
    return (struct iovec){start, length};
}

static void *in_a_thread(void *socket_of_another)
{
    struct request *written = request(4, 0), *in_parts = request(5, 0);
    struct iovec parts[2] = {part(in_parts, 10), part((char *)in_parts + 10, 22)};
    int mine = socket(AF_NETLINK, SOCK_RAW, NETLINK_ROUTE);
    write(*(int *)socket_of_another, written, 32);
    writev(mine, parts, 2);
    return NULL;
}

int main(void)
{
    int route = socket(AF_NETLINK, SOCK_RAW, NETLINK_ROUTE), generic = socket(AF_NETLINK, SOCK_RAW, NETLINK_GENERIC);
    struct request *first = request(1, 0), *second = request(2, 0);
    struct iovec parts[3] = {part(first, 16), part(&first->body, 16), part(second, 32)};
    struct mmsghdr both[2] = {{.msg_hdr = {.msg_iov = parts, .msg_iovlen = 2}},
                              {.msg_hdr = {.msg_iov = parts + 2, .msg_iovlen = 1}}};
    pthread_t thread;
    sendmmsg(route, both, 2, 0);
    send(generic, first, 32, 0);
    send(route, request(3, 60000), 60032, 0);
    pthread_create(&thread, NULL, in_a_thread, &route);
    pthread_join(thread, NULL);
    int copy = dup(route);
    close(route);
    send(copy, request(6, 0), 32, 0);
    if (fork() == 0)
        return send(copy, request(7, 0), 32, 0) != 32;
    return 0;
}
