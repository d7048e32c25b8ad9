// A libFuzzer mutator that yields consistent lengths most of the time: it splits a capture into messages and their
// attributes, changes one of these at some depth, and recomputes the lengths.
#include "library.h"

#include <algorithm>
#include <cstring>
#include <random>

extern "C" size_t LLVMFuzzerMutate(uint8_t *bytes, size_t length, size_t capacity);

using Random = std::minstd_rand;

static const size_t MESSAGE_HEADER = 16, LINK_HEADER = 16, ATTRIBUTE_HEADER = 4;
static const int MAX_DEPTH = 6;

struct Attribute {
    uint16_t kind;
    Bytes payload;
};

using Attributes = std::vector<Attribute>;

static uint16_t read_16(const Bytes &bytes, size_t at)
{
    return uint16_t(bytes[at] | bytes[at + 1] << 8);
}

static uint32_t read_32(const Bytes &bytes, size_t at)
{
    return read_16(bytes, at) | uint32_t(read_16(bytes, at + 2)) << 16;
}

static void write_16(Bytes &bytes, size_t at, uint16_t value)
{
    bytes[at] = uint8_t(value);
    bytes[at + 1] = uint8_t(value >> 8);
}

static void write_32(Bytes &bytes, size_t at, uint32_t value)
{
    write_16(bytes, at, uint16_t(value));
    write_16(bytes, at + 2, uint16_t(value >> 16));
}

static bool one_in(Random &random, uint32_t number)
{
    return random() % number == 0;
}

// Applies libFuzzer's mutations to the bytes from `start`, which grow by at most 8.
static void mutate_bytes(Bytes &bytes, size_t start)
{
    size_t length = bytes.size() - start;
    bytes.resize(bytes.size() + 8);
    bytes.resize(start + LLVMFuzzerMutate(bytes.data() + start, length, length + 8));
}

// ---- attributes

// Splits the bytes from `start` into attributes, and returns whether they are a list of attributes.
static bool split(const Bytes &bytes, size_t start, Attributes &attributes)
{
    size_t at = start;
    while (at + ATTRIBUTE_HEADER <= bytes.size()) {
        size_t length = read_16(bytes, at);
        if (length < ATTRIBUTE_HEADER || at + length > bytes.size())
            return false;
        attributes.push_back({read_16(bytes, at + 2), Bytes(bytes.begin() + at + ATTRIBUTE_HEADER, bytes.begin() + at + length)});
        at += (length + 3) & ~size_t(3);
    }
    return at >= bytes.size();
}

static void append(Bytes &bytes, const Attribute &attribute, Random &random)
{
    size_t start = bytes.size(), length = std::min<size_t>(ATTRIBUTE_HEADER + attribute.payload.size(), UINT16_MAX);
    bytes.resize(start + ATTRIBUTE_HEADER);
    write_16(bytes, start, uint16_t(length));
    write_16(bytes, start + 2, attribute.kind);
    bytes.insert(bytes.end(), attribute.payload.begin(), attribute.payload.begin() + (length - ATTRIBUTE_HEADER));
    while (bytes.size() % 4)
        bytes.push_back(one_in(random, 8) ? uint8_t(random()) : 0);
}

// Returns the first `start` bytes, followed by the attributes.
static Bytes join(const Bytes &bytes, size_t start, const Attributes &attributes, Random &random)
{
    Bytes joined(bytes.begin(), bytes.begin() + start);
    for (const Attribute &attribute : attributes)
        append(joined, attribute, random);
    return joined;
}

static uint16_t make_kind(Random &random)
{
    uint16_t kind = uint16_t(random() % (one_in(random, 4) ? 80 : 40));
    return uint16_t(kind | (one_in(random, 6) ? 0x8000 : 0) | (one_in(random, 20) ? 0x4000 : 0));
}

static const char *const KIND_NAMES[] = {
    "amt", "bareudp", "batadv", "bond", "bridge", "can", "dsa", "dummy", "erspan", "geneve", "gre", "gretap", "gtp", "hsr", "ifb",
    "ip6erspan", "ip6gre", "ip6gretap", "ip6tnl", "ipip", "ipoib", "ipvlan", "ipvtap", "lowpan", "macsec", "macvlan", "macvtap",
    "netkit", "nlmon", "rmnet", "sit", "team", "tun", "vcan", "veth", "virt_wifi", "vlan", "vrf", "vti", "vti6", "vxcan", "vxlan",
    "wireguard", "wwan", "xfrm"};

static Bytes make_payload(Random &random)
{
    static const size_t sizes[] = {0, 1, 2, 4, 8, 12, 16};
    if (one_in(random, 8)) {
        const char *name = KIND_NAMES[random() % (sizeof KIND_NAMES / sizeof *KIND_NAMES)];
        return Bytes(name, name + strlen(name) + random() % 2);
    }
    Bytes payload(one_in(random, 6) ? random() % 40 : sizes[random() % 7]);
    if (!payload.empty())
        payload[one_in(random, 2) ? 0 : random() % payload.size()] = uint8_t(random());
    return payload;
}

static void change_kind(Attribute &attribute, Random &random)
{
    const uint16_t next = uint16_t((attribute.kind & 0xc000) | ((attribute.kind + 1) & 0x3fff));
    const uint16_t kinds[] = {make_kind(random), uint16_t(attribute.kind ^ 0x8000), uint16_t(attribute.kind ^ 0x4000), next};
    attribute.kind = kinds[random() % 4];
}

static void change_payload(Bytes &payload, Random &random)
{
    switch (random() % 6) {
    case 0:
        payload = make_payload(random);
        break;
    case 1:
        payload.resize(payload.empty() ? 1 : payload.size() - 1);
        break;
    case 2:
        payload.push_back(one_in(random, 2) ? uint8_t(random()) : 0);
        break;
    case 3:
        payload.resize(one_in(random, 200) ? random() % 66000 : random() % 200);
        break;
    case 4:
        payload = join({}, 0, {{make_kind(random), make_payload(random)}, {make_kind(random), make_payload(random)}}, random);
        break;
    default:
        mutate_bytes(payload, 0);
    }
}

static void mutate(Attributes &attributes, int depth, Random &random);

// Changes the list of attributes in a payload, which may start with a header of a link, and returns whether there is one.
static bool mutate_nested(Bytes &payload, int depth, Random &random)
{
    for (size_t start : {size_t(0), LINK_HEADER}) {
        Attributes nested;
        if (depth == MAX_DEPTH || payload.size() < start + ATTRIBUTE_HEADER || !split(payload, start, nested) || nested.empty())
            continue;
        mutate(nested, depth + 1, random);
        payload = join(payload, start, nested, random);
        return true;
    }
    return false;
}

static void mutate(Attributes &attributes, int depth, Random &random)
{
    if (attributes.empty() || one_in(random, 6)) {
        attributes.insert(attributes.begin() + random() % (attributes.size() + 1), {make_kind(random), make_payload(random)});
        return;
    }
    size_t index = random() % attributes.size(), other = random() % attributes.size();
    if (!one_in(random, 5) && mutate_nested(attributes[index].payload, depth, random))
        return;
    switch (random() % 8) {
    case 0:
        attributes.erase(attributes.begin() + index);
        break;
    case 1:
        attributes.insert(attributes.begin() + other, Attribute(attributes[index]));
        break;
    case 2:
        std::swap(attributes[index], attributes[other]);
        break;
    case 3:
        change_kind(attributes[index], random);
        break;
    default:
        change_payload(attributes[index].payload, random);
    }
}

// ---- messages

// Returns the whole messages at the start of a capture, and writes the remaining bytes to `rest`.
static std::vector<Bytes> split_messages(const Bytes &capture, Bytes &rest)
{
    std::vector<Bytes> messages;
    size_t at = 0;
    while (at + MESSAGE_HEADER <= capture.size()) {
        size_t length = read_32(capture, at);
        if (length < MESSAGE_HEADER || at + length > capture.size())
            break;
        messages.emplace_back(capture.begin() + at, capture.begin() + at + length);
        at += (length + 3) & ~size_t(3);
    }
    if (at < capture.size())
        rest.assign(capture.begin() + at, capture.end());
    return messages;
}

static void mutate_body(Bytes &message, Random &random)
{
    const size_t start = MESSAGE_HEADER + LINK_HEADER;
    const bool is_link = read_16(message, 4) >= 16 && read_16(message, 4) < 20;
    Attributes attributes;
    if (!is_link || message.size() < start || !split(message, start, attributes)) {
        mutate_bytes(message, MESSAGE_HEADER);
        return;
    }
    mutate(attributes, 0, random);
    message = join(message, start, attributes, random);
}

static void mutate_messages(std::vector<Bytes> &messages, Random &random)
{
    size_t index = random() % messages.size(), other = random() % messages.size();
    Bytes &message = messages[index];
    switch (random() % 16) {
    case 0:
        if (messages.size() > 1)
            messages.erase(messages.begin() + index);
        break;
    case 1:
        messages.insert(messages.begin() + other, Bytes(message));
        break;
    case 2:
        message[4] = uint8_t(one_in(random, 4) ? random() % 24 : 16 + random() % 4);
        break;
    case 3:
        message[6 + random() % 10] = uint8_t(random());
        break;
    case 4:
        messages.resize(std::min<size_t>(messages.size(), 1 + random() % 3));
        break;
    default:
        mutate_body(message, random);
    }
}

static Bytes join_messages(const std::vector<Bytes> &messages, Random &random)
{
    Bytes capture;
    for (Bytes message : messages) {
        write_32(message, 0, uint32_t(message.size() + (one_in(random, 50) ? random() % 5 - 2 : 0)));
        message.resize((message.size() + 3) & ~size_t(3));
        capture.insert(capture.end(), message.begin(), message.end());
    }
    return capture;
}

extern "C" size_t LLVMFuzzerCustomMutator(uint8_t *bytes, size_t length, size_t capacity, unsigned seed)
{
    Random random(seed | 1);
    if (one_in(random, 5))
        return LLVMFuzzerMutate(bytes, length, capacity);
    Bytes rest;
    std::vector<Bytes> messages = split_messages(Bytes(bytes, bytes + length), rest);
    if (messages.empty()) {
        messages.emplace_back(MESSAGE_HEADER + LINK_HEADER);
        messages[0][4] = 16;
    }
    for (uint32_t changes = 1 + random() % 3; changes > 0; changes--)
        mutate_messages(messages, random);
    Bytes capture = join_messages(messages, random);
    if (!one_in(random, 4))
        capture.insert(capture.end(), rest.begin(), rest.end());
    if (one_in(random, 10) && !capture.empty())
        capture.resize(capture.size() - random() % 4 % capture.size());
    capture.resize(std::min(capture.size(), capacity));
    if (!capture.empty())
        memcpy(bytes, capture.data(), capture.size());
    return capture.size();
}
