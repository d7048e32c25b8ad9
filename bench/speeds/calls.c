/* Times a function over a capture, which is a file on standard input, by processor time.
 *
 *     calls NAME SECONDS < CAPTURE
 *
 * NAME is a call of the library; `memcpy`; `libmnl`, a walk over the attributes, also those nested in link info, which
 * checks the size of each against its type; or `libnl`, which makes an object of each message. The last two need LIBMNL
 * and LIBNL when this is compiled. It doubles the number of calls until they take SECONDS, and prints the nanoseconds of
 * one. The status is 2 if the function refuses the capture, and 3 if there is no such function. */
#include <linux/if_link.h>
#include <linux/rtnetlink.h>
#include <stdio.h>
#include <stdlib.h>
#include <string.h>
#include <sys/stat.h>
#include <time.h>

#include "linkcap.h"

static uint8_t *capture, *out;
static size_t size, capacity;
static const struct linkcap_options text, lines = {.form = LINKCAP_LINES};
static struct linkcap_finding fault;

static int copy(void) {
    memcpy(out, capture, size);
    return 0;
}

static int check(void) {
    struct linkcap_sizes sizes;
    return linkcap_check(capture, size, &text, &sizes, &fault);
}

static int same(void) { return linkcap_same(capture, size, capture, size, &text, &fault); }

static int write_all(const struct linkcap_options *options) {
    struct linkcap_piece piece = {capture, size, 0, 1, 0};
    struct linkcap_progress progress;
    return linkcap_write(options, &piece, out, capacity, &progress, &fault);
}

static int normalize(void) { return write_all(&text); }

static int show(void) { return write_all(&lines); }

#ifdef LIBMNL
#include <libmnl/libmnl.h>

static unsigned long attributes;

static int walk_data(const struct nlattr *attribute, void *unused) {
    (void)attribute;
    (void)unused;
    attributes++;
    return MNL_CB_OK;
}

static int walk_info(const struct nlattr *attribute, void *unused) {
    attributes++;
    switch (mnl_attr_get_type(attribute)) {
    case IFLA_INFO_KIND:
    case IFLA_INFO_SLAVE_KIND:
        return mnl_attr_validate(attribute, MNL_TYPE_STRING) < 0 ? MNL_CB_ERROR : MNL_CB_OK;
    case IFLA_INFO_DATA:
    case IFLA_INFO_SLAVE_DATA:
        return mnl_attr_parse_nested(attribute, walk_data, unused);
    default:
        return MNL_CB_OK;
    }
}

static int walk_link(const struct nlattr *attribute, void *unused) {
    enum mnl_attr_data_type type;
    attributes++;
    switch (mnl_attr_get_type(attribute)) {
    case IFLA_IFNAME:
    case IFLA_QDISC:
        type = MNL_TYPE_STRING;
        break;
    case IFLA_MTU:
    case IFLA_LINK:
    case IFLA_MASTER:
    case IFLA_TXQLEN:
    case IFLA_GROUP:
    case IFLA_PROMISCUITY:
    case IFLA_NUM_TX_QUEUES:
    case IFLA_NUM_RX_QUEUES:
    case IFLA_GSO_MAX_SEGS:
    case IFLA_GSO_MAX_SIZE:
        type = MNL_TYPE_U32;
        break;
    case IFLA_OPERSTATE:
    case IFLA_LINKMODE:
    case IFLA_CARRIER:
    case IFLA_PROTO_DOWN:
        type = MNL_TYPE_U8;
        break;
    case IFLA_LINKINFO:
        return mnl_attr_parse_nested(attribute, walk_info, unused);
    case IFLA_AF_SPEC:
        return mnl_attr_parse_nested(attribute, walk_data, unused);
    default:
        return MNL_CB_OK;
    }
    return mnl_attr_validate(attribute, type) < 0 ? MNL_CB_ERROR : MNL_CB_OK;
}

static int walk(void) {
    for (size_t at = 0; at < size;) {
        const struct nlmsghdr *header = (const struct nlmsghdr *)(capture + at);
        if (!mnl_nlmsg_ok(header, (int)(size - at > 1 << 30 ? 1 << 30 : size - at)))
            return 2;
        if (header->nlmsg_type >= RTM_NEWLINK && header->nlmsg_type <= RTM_SETLINK
            && mnl_attr_parse(header, sizeof(struct ifinfomsg), walk_link, NULL) < 0)
            return 2;
        at += MNL_ALIGN(header->nlmsg_len);
    }
    return 0;
}
#endif

#ifdef LIBNL
#include <netlink/msg.h>
#include <netlink/object.h>

static unsigned long objects;

static void count_object(struct nl_object *object, void *unused) {
    (void)object;
    (void)unused;
    objects++;
}

static int make_objects(void) {
    for (size_t at = 0; at < size;) {
        struct nlmsghdr *header = (struct nlmsghdr *)(capture + at);
        struct nl_msg *message = nlmsg_convert(header);
        if (message == NULL)
            return 2;
        nlmsg_set_proto(message, NETLINK_ROUTE);
        if (header->nlmsg_type >= NLMSG_MIN_TYPE && nl_msg_parse(message, count_object, NULL) < 0)
            return 2;
        nlmsg_free(message);
        at += NLMSG_ALIGN(header->nlmsg_len);
    }
    return 0;
}
#endif

static const struct {
    const char *name;
    int (*call)(void);
} functions[] = {
    {"memcpy", copy}, {"check", check}, {"normalize", normalize}, {"same", same}, {"lines", show},
#ifdef LIBMNL
    {"libmnl", walk},
#endif
#ifdef LIBNL
    {"libnl", make_objects},
#endif
};

static double read_clock(void) {
    struct timespec time;
    clock_gettime(CLOCK_PROCESS_CPUTIME_ID, &time);
    return time.tv_sec + time.tv_nsec / 1e9;
}

static int measure(int (*call)(void), double seconds) {
    for (long count = 1;; count *= 2) {
        double begin = read_clock();
        for (long i = 0; i < count; i++) {
            if (call() != 0) {
                fprintf(stderr, "it refuses a message\n");
                return 2;
            }
        }
        double took = read_clock() - begin;
        if (took >= seconds)
            return printf("%.1f\n", took / count * 1e9) < 0;
    }
}

int main(int argc, char **argv) {
    struct stat file;
    if (argc != 3 || fstat(0, &file) != 0)
        return 3;
    size = file.st_size;
    capacity = 2 * size + 4096;
    capture = malloc(size);
    out = malloc(capacity);
    if (capture == NULL || out == NULL || fread(capture, 1, size, stdin) != size)
        return 3;
    memset(out, 1, capacity); /* The kernel provides the pages now, and not while calls are timed. */
    for (size_t i = 0; i < sizeof functions / sizeof *functions; i++)
        if (strcmp(functions[i].name, argv[1]) == 0)
            return measure(functions[i].call, atof(argv[2]));
    return 3;
}
