/*
 * Tests edge cases of the calls: an empty capture, null, options that aren't valid, a buffer one byte too short, a capture cut at
 * each byte, words that aren't known, lines in pieces, a failure of each allocation, eight threads at once.
 *
 *     edges CAPTURE ..
 *
 * Each CAPTURE is a file NAME.bin that is already canonical, and NAME.lines has its lines. Built with
 * -Wl,--wrap=malloc,--wrap=realloc,--wrap=free.
 */
#include <assert.h>
#include <inttypes.h>
#include <pthread.h>
#include <stdbool.h>
#include <stdio.h>
#include <stdlib.h>
#include <string.h>

#include "linkcap.h"

#define UNTOUCHED 0xa5

static const struct linkcap_options texts, lines = {.form = LINKCAP_LINES};

/* A text without its null byte. */
#define TEXT(text) {(text), sizeof(text) - 1}

/* ---- allocations that fail */

void *__real_malloc(size_t size);
void *__real_realloc(void *block, size_t size);
void __real_free(void *block);

static _Thread_local long failing_request; /* the number of the request that fails, from 1; 0 for no failure */
static _Thread_local long requests, blocks;

static int should_fail(void)
{
    return ++requests == failing_request;
}

void *__wrap_malloc(size_t size)
{
    void *block = should_fail() ? NULL : __real_malloc(size);
    blocks += block != NULL;
    return block;
}

void *__wrap_realloc(void *block, size_t size)
{
    if (should_fail())
        return NULL;
    void *moved = __real_realloc(block, size);
    blocks += block == NULL && moved != NULL;
    return moved;
}

void __wrap_free(void *block)
{
    blocks -= block != NULL;
    __real_free(block);
}

/* ---- captures */

struct bytes {
    uint8_t *at;
    size_t length;
};

static struct bytes read_file(const char *name)
{
    FILE *file = fopen(name, "rb");
    assert(file);
    fseek(file, 0, SEEK_END);
    struct bytes bytes = {NULL, (size_t)ftell(file)};
    rewind(file);
    bytes.at = __real_malloc(bytes.length);
    assert(bytes.at && fread(bytes.at, 1, bytes.length, file) == bytes.length);
    fclose(file);
    return bytes;
}

/* Returns the start of the message that is cut in the first `cut` bytes of a legal capture, or `cut` if none is. */
static size_t find_frame(struct bytes capture, size_t cut)
{
    size_t at = 0;
    while (at < cut) {
        uint32_t length = capture.at[at] | capture.at[at + 1] << 8 | capture.at[at + 2] << 16 | (uint32_t)capture.at[at + 3] << 24;
        if (at + length > cut)
            return at;
        at += (length + 3) / 4 * 4;
    }
    return cut;
}

static int is_untouched(const void *start, const void *end)
{
    const uint8_t *from = start;
    while (from < (const uint8_t *)end)
        if (*from++ != UNTOUCHED)
            return 0;
    return 1;
}

/* ---- tests */

/* Writes what options ask for of a whole capture. */
static enum linkcap_status write_whole(const struct linkcap_options *options, struct bytes capture, uint8_t *out, size_t room,
                                       struct linkcap_progress *progress, struct linkcap_finding *fault)
{
    struct linkcap_piece piece = {capture.at, capture.length, 0, 1, 0};
    return linkcap_write(options, &piece, out, room, progress, fault);
}

static int is_at(const struct linkcap_finding *fault, uint32_t kind, uint32_t side, uint64_t offset)
{
    return fault->kind == kind && fault->side == side && fault->offset == offset;
}

static int has_come(const struct linkcap_progress *progress, uint64_t used, uint64_t written, uint64_t wanted)
{
    return progress->used == used && progress->written == written && progress->wanted == wanted;
}

/* An empty capture, at null and at an address, in each form. */
static void test_nothing(void)
{
    uint8_t empty[1] = {UNTOUCHED};
    assert(linkcap_version() == LINKCAP_VERSION && linkcap_format() == LINKCAP_FORMAT);
    for (int i = 0; i < 2; i++) {
        uint8_t *at = i ? empty : NULL;
        struct linkcap_finding fault = {7, 7, 7};
        struct linkcap_sizes sizes = {7, 7, 7, 7};
        struct linkcap_message message = {7, 7, 7};
        struct linkcap_attribute attribute = {.payload = 7};
        uint64_t count = 7, offset = 7;
        assert(linkcap_check(at, 0, &texts, &sizes, &fault) == LINKCAP_OK);
        assert(sizes.frames == 0 && sizes.attributes == 0 && sizes.text_low == 0 && sizes.text_high == 0);
        assert(linkcap_same(at, 0, NULL, 0, &texts, &fault) == LINKCAP_OK);
        for (uint32_t j = 0; j < 6; j++) {
            struct linkcap_options options = {.form = j / 2};
            struct linkcap_piece piece = {at, 0, 9, j % 2, 0};
            struct linkcap_progress progress = {7, 7, 7};
            assert(linkcap_write(&options, &piece, at, 0, &progress, &fault) == LINKCAP_OK && has_come(&progress, 0, 0, 0));
        }
        assert(linkcap_next_message(at, 0, &texts, 0, &message, &fault) == LINKCAP_NONE && message.next == 7);
        assert(linkcap_next_attribute(at, 0, &texts, 0, 0, &attribute, &fault) == LINKCAP_NONE && attribute.payload == 7);
        assert(linkcap_quirks(at, 0, &texts, NULL, 0, &count, &fault) == LINKCAP_OK && count == 0);
        struct linkcap_piece piece = {at, 0, 9, 0, 0};
        assert(linkcap_why(&texts, &piece, at, 0, &count, &offset) == LINKCAP_NONE && count == 0 && offset == UINT64_MAX);
        assert(is_at(&fault, 7, 7, 7));
    }
    assert(empty[0] == UNTOUCHED);
}

/* Null for each buffer, and for a capture that another one is compared with. */
static void test_null(struct bytes capture)
{
    struct linkcap_finding fault;
    struct linkcap_progress progress;
    uint64_t length;
    for (uint32_t flags = 0; flags < 2; flags++) {
        struct linkcap_options options = {.flags = flags};
        assert(linkcap_same(NULL, 0, capture.at, capture.length, &options, &fault) == LINKCAP_DIFFERENT);
        assert(linkcap_same(capture.at, capture.length, NULL, 0, &options, &fault) == LINKCAP_DIFFERENT);
    }
    for (uint32_t form = 0; form < 3; form++) {
        struct linkcap_options options = {.form = form};
        assert(write_whole(&options, capture, NULL, 0, &progress, &fault) == LINKCAP_NO_ROOM);
        assert(progress.used == 0 && progress.written == 0 && progress.wanted > 0);
        assert(form != LINKCAP_TEXT || progress.wanted <= capture.length);
    }
    capture.length = 1;
    assert(write_whole(&texts, capture, NULL, 0, &progress, &fault) == LINKCAP_FAULT);
    assert(has_come(&progress, 0, 0, 0) && is_at(&fault, LINKCAP_CUT, 0, 0));
    assert(linkcap_words(&fault, NULL, 0, &length) == LINKCAP_NO_ROOM && length == strlen("cut frame at 0"));
}

/* Nothing is written by any call with options, or a piece, that aren't valid. */
static void expect_wrong(const struct linkcap_options *options, struct bytes capture)
{
    uint8_t out[64];
    struct linkcap_finding fault = {7, 7, 7}, quirks[2];
    struct linkcap_sizes sizes = {7, 7, 7, 7};
    struct linkcap_message message = {7, 7, 7};
    struct linkcap_attribute attribute = {.payload = 7, .name = "x"};
    struct linkcap_progress progress = {7, 7, 7};
    uint64_t length = 7, offset = 7;
    memset(out, UNTOUCHED, sizeof out);
    memset(quirks, UNTOUCHED, sizeof quirks);
    assert(linkcap_check(capture.at, capture.length, options, &sizes, &fault) == LINKCAP_WRONG);
    assert(linkcap_same(capture.at, capture.length, NULL, 0, options, &fault) == LINKCAP_WRONG);
    assert(write_whole(options, capture, out, sizeof out, &progress, &fault) == LINKCAP_WRONG);
    assert(linkcap_next_message(capture.at, capture.length, options, 0, &message, &fault) == LINKCAP_WRONG);
    assert(linkcap_next_attribute(capture.at, capture.length, options, 0, 0, &attribute, &fault) == LINKCAP_WRONG);
    assert(attribute.payload == 7 && attribute.name[0] == 'x');
    assert(linkcap_quirks(capture.at, capture.length, options, quirks, 2, &length, &fault) == LINKCAP_WRONG);
    struct linkcap_piece piece = {capture.at, capture.length, 0, 1, 0};
    assert(linkcap_why(options, &piece, out, sizeof out, &length, &offset) == LINKCAP_WRONG);
    assert(sizes.frames == 7 && sizes.text_high == 7 && message.next == 7 && message.type == 7 && length == 7 && offset == 7);
    assert(has_come(&progress, 7, 7, 7) && is_at(&fault, 7, 7, 7));
    assert(is_untouched(out, out + sizeof out) && is_untouched(quirks, quirks + 2));
}

static void test_wrong(struct bytes capture)
{
    static const struct linkcap_options cases[] = {
        {.limit = 1},           {.limit = LINKCAP_MIN_LIMIT - 1},    {.flags = 8}, {.flags = UINT32_MAX}, {.form = 3},
        {.form = UINT32_MAX},   {.reserved = 1},                     {.form = 1, .only = TEXT("getlnk")},
        {.only = TEXT("16,")},  {.only = TEXT("65536")},             {.without = TEXT("mtu")},
        {.only = TEXT("\xff")}, {.form = 1, .without = TEXT("numbers,,")}, {.only = TEXT("16"), .without = TEXT("IFLA_X")},
        {.only = TEXT("1,2,3,4,5,6,7,8,9,10,11,12,13,14,15,16,17,18,19,20,21,22,23,24,25,26,27,28,29,30,31,32,33")},
    };
    /* Of texts nothing is chosen. The other calls ignore what chooses lines. */
    static const struct linkcap_options chosen[] = {
        {.flags = 1}, {.flags = 2}, {.flags = 4}, {.only = TEXT("16")}, {.link = TEXT("lo")}, {.without = TEXT("counters")},
    };
    struct linkcap_finding fault = {7, 7, 7};
    struct linkcap_progress progress = {7, 7, 7};
    struct linkcap_sizes sizes;
    uint8_t out[4] = {UNTOUCHED, UNTOUCHED, UNTOUCHED, UNTOUCHED};
    for (size_t i = 0; i < sizeof cases / sizeof cases[0]; i++)
        expect_wrong(&cases[i], capture);
    for (size_t i = 0; i < sizeof chosen / sizeof chosen[0]; i++) {
        assert(write_whole(&chosen[i], capture, out, sizeof out, &progress, &fault) == LINKCAP_WRONG);
        assert(linkcap_check(capture.at, capture.length, &chosen[i], &sizes, &fault) == LINKCAP_OK);
    }
    /* A piece whose `reserved` isn't 0, or that ends 2^64 bytes, or for a reason 2^63, after the capture's start. */
    struct linkcap_piece pieces[] = {{capture.at, capture.length, 0, 1, 1}, {capture.at, 4, UINT64_MAX - 3, 1, 0}};
    struct linkcap_piece far = {capture.at, 4, INT64_MAX - 3, 1, 0};
    uint64_t length = 7, offset = 7;
    for (size_t i = 0; i < 2; i++) {
        assert(linkcap_write(&texts, &pieces[i], out, sizeof out, &progress, &fault) == LINKCAP_WRONG);
        assert(linkcap_why(&texts, &pieces[i], out, sizeof out, &length, &offset) == LINKCAP_WRONG);
    }
    assert(linkcap_why(&texts, &far, out, sizeof out, &length, &offset) == LINKCAP_WRONG && length == 7 && offset == 7);
    far.offset--;
    assert(linkcap_why(&texts, &far, out, sizeof out, &length, &offset) == LINKCAP_NONE && length == 0 && offset == UINT64_MAX);
    assert(has_come(&progress, 7, 7, 7) && is_at(&fault, 7, 7, 7) && is_untouched(out, out + sizeof out));
    pieces[1].offset--;
    assert(linkcap_write(&texts, &pieces[1], out, sizeof out, &progress, &fault) == LINKCAP_FAULT);
    assert(has_come(&progress, 0, 0, 0) && is_at(&fault, LINKCAP_CUT, 0, UINT64_MAX - 4));
}

/* A DONE without a body has a text of 20 bytes, so it is legal under 20 and not under 19; see docs/statuses.md. */
static void test_limits(void)
{
    static const uint8_t done[16] = {16, 0, 0, 0, 3, 0, 2};
    struct linkcap_finding fault;
    struct linkcap_sizes sizes;
    for (uint32_t limit = LINKCAP_MIN_LIMIT; limit <= 20; limit++) {
        struct linkcap_options options = {.limit = limit};
        assert(linkcap_check(done, sizeof done, &options, &sizes, &fault) == (limit < 20 ? LINKCAP_FAULT : LINKCAP_OK));
        assert(limit == 20 || is_at(&fault, LINKCAP_TEXT_OVER_LIMIT, 0, 0));
    }
}

/* Each capacity from 0 to the required one and a byte more; `step` leaves some out of long texts. */
static void test_capacities(const struct linkcap_options *options, struct bytes capture, enum linkcap_status expected_status,
                            size_t step)
{
    size_t most = 64 * capture.length + 64;
    struct linkcap_progress progress;
    struct linkcap_finding fault;
    uint8_t *expected = __real_malloc(most), *out = __real_malloc(most);
    assert(write_whole(options, capture, expected, most, &progress, &fault) == expected_status && progress.wanted == 0);
    size_t required = progress.written;
    for (size_t room = 0; room <= required + 1; room += room + step < required ? step : 1) {
        memset(out, UNTOUCHED, required + 1);
        enum linkcap_status status = write_whole(options, capture, out, room, &progress, &fault);
        assert(status == (room < required ? LINKCAP_NO_ROOM : expected_status) && progress.written <= room);
        assert(status == LINKCAP_NO_ROOM ? progress.written + progress.wanted > room : progress.written == required);
        assert(memcmp(out, expected, progress.written) == 0 && is_untouched(out + progress.written, out + required + 1));
    }
    __real_free(expected);
    __real_free(out);
}

static void test_cut_at_each_byte(struct bytes capture)
{
    uint8_t *out = __real_malloc(capture.length);
    for (size_t cut = 0; cut <= capture.length; cut++) {
        size_t frame = find_frame(capture, cut);
        enum linkcap_status status = frame == cut ? LINKCAP_OK : LINKCAP_FAULT;
        struct linkcap_finding fault;
        struct linkcap_sizes sizes;
        struct linkcap_progress progress;
        /* the text has the whole padding of the last message, even if it is cut */
        size_t length = frame == cut ? (cut + 3) / 4 * 4 : frame;
        uint8_t *bytes = __real_malloc(cut ? cut : 1);
        memcpy(bytes, capture.at, cut);
        assert(linkcap_check(bytes, cut, &texts, &sizes, &fault) == status);
        assert(status == LINKCAP_OK || is_at(&fault, LINKCAP_CUT, 0, frame));
        for (uint64_t offset = 0; offset < 10; offset += 4) {
            struct linkcap_piece piece = {bytes, cut, offset, 1, 0};
            assert(linkcap_write(&texts, &piece, out, capture.length, &progress, &fault) == status);
            assert(has_come(&progress, frame, length, 0) && memcmp(out, capture.at, length) == 0);
            assert(status == LINKCAP_OK || is_at(&fault, LINKCAP_CUT, 0, offset + frame));
            piece.last = 0;
            assert(linkcap_write(&texts, &piece, out, capture.length, &progress, &fault) == LINKCAP_OK);
            assert(progress.used % 4 == 0 && progress.used <= frame && has_come(&progress, progress.used, progress.used, 0));
        }
        enum linkcap_status expected = status == LINKCAP_OK && length < capture.length ? LINKCAP_DIFFERENT : status;
        assert(linkcap_same(bytes, cut, capture.at, capture.length, &texts, &fault) == expected);
        assert(status == LINKCAP_OK || is_at(&fault, LINKCAP_CUT, 1, frame));
        assert(linkcap_same(capture.at, capture.length, bytes, cut, &texts, &fault) == expected);
        assert(status == LINKCAP_OK || is_at(&fault, LINKCAP_CUT, 2, frame));
        __real_free(bytes);
    }
    __real_free(out);
}

/* Lets each allocation of a call fail in turn: no block leaks, and the call runs out of memory or returns its usual result. */
static long test_failing_allocations(const struct linkcap_options *options, struct bytes capture)
{
    size_t room = 64 * capture.length + 64;
    struct linkcap_progress usual, progress;
    struct linkcap_finding fault;
    uint8_t *expected = __real_malloc(room), *out = __real_malloc(room);
    enum linkcap_status expected_status = write_whole(options, capture, expected, room, &usual, &fault);
    long failures = 0;
    assert(expected_status == LINKCAP_OK || expected_status == LINKCAP_FAULT);
    for (failing_request = 1, requests = 1; requests >= failing_request; failing_request++) {
        requests = blocks = 0;
        memset(out, UNTOUCHED, room);
        enum linkcap_status status = write_whole(options, capture, out, room, &progress, &fault);
        assert(blocks == 0 && progress.wanted == 0);
        assert(memcmp(out, expected, progress.written) == 0 && is_untouched(out + progress.written, out + room));
        if (status == LINKCAP_NO_MEMORY) {
            failures++;
            assert(is_at(&fault, LINKCAP_MEMORY, 0, progress.used) && progress.used < capture.length && progress.used % 4 == 0);
        } else {
            assert(status == expected_status && has_come(&progress, usual.used, usual.written, 0));
        }
    }
    failing_request = 0;
    __real_free(expected);
    __real_free(out);
    return failures;
}

/* A link whose IFLA_MTU has 3 bytes. */
static long test_why(void)
{
    static const char words[] = "IFLA_MTU: a payload of 3 bytes at 32";
    static const char words_behind[] = "IFLA_MTU: a payload of 3 bytes at 1000032";
    uint8_t link[40] = {40, 0, 0, 0, 16}, out[sizeof words_behind];
    struct linkcap_piece piece = {link, sizeof link, 0, 0, 0};
    uint64_t length = 7, offset = 7;
    long failures = 0;
    link[32] = 7;
    link[34] = 4;
    for (size_t room = 0; room <= sizeof words; room++) {
        memset(out, UNTOUCHED, sizeof out);
        length = offset = 7;
        bool fits = room >= strlen(words);
        assert(linkcap_why(&texts, &piece, out, room, &length, &offset) == (fits ? LINKCAP_OK : LINKCAP_NO_ROOM));
        assert(length == strlen(words) && offset == (fits ? 32 : 7) && (!fits || memcmp(out, words, length) == 0));
        assert(is_untouched(out + (fits ? length : 0), out + sizeof out));
    }
    piece.offset = 1000000;
    assert(linkcap_why(&texts, &piece, out, sizeof out, &length, &offset) == LINKCAP_OK);
    assert(length == strlen(words_behind) && offset == 1000032 && memcmp(out, words_behind, length) == 0);
    piece.length--;
    assert(linkcap_why(&texts, &piece, out, sizeof out, &length, &offset) == LINKCAP_NONE);
    assert(length == 0 && offset == UINT64_MAX);
    piece = (struct linkcap_piece){link, sizeof link, 0, 0, 0};
    for (failing_request = 1, requests = 1; requests >= failing_request; failing_request++) {
        requests = blocks = 0;
        length = offset = 7;
        memset(out, UNTOUCHED, sizeof out);
        enum linkcap_status status = linkcap_why(&texts, &piece, out, sizeof out, &length, &offset);
        assert(blocks == 0);
        if (status == LINKCAP_NO_MEMORY) {
            failures++;
            assert(length == 7 && offset == 7 && is_untouched(out, out + sizeof out));
        } else {
            assert(status == LINKCAP_OK && length == strlen(words) && offset == 32 && memcmp(out, words, length) == 0);
        }
    }
    failing_request = 0;
    return failures;
}

/* Two messages whose header of a link has 1 in its second byte: row 11 of docs/kernels.md. */
static void test_quirks(void)
{
    static const char words[] = "second byte of the header of RTM_GETLINK at 17";
    uint8_t links[64] = {[0] = 32, [4] = 18, [17] = 1, [32] = 32, [36] = 18, [49] = 1}, out[LINKCAP_WORDS_ROOM];
    struct linkcap_finding quirks[3], fault = {7, 7, 7};
    uint64_t count, length;
    memset(quirks, UNTOUCHED, sizeof quirks);
    assert(linkcap_quirks(links, sizeof links, &texts, quirks, 1, &count, &fault) == LINKCAP_NO_ROOM && count == 2);
    assert(is_untouched(quirks, quirks + 3));
    assert(linkcap_quirks(links, sizeof links, &texts, quirks, 3, &count, &fault) == LINKCAP_OK && count == 2);
    assert(is_at(&quirks[0], LINKCAP_HEADER_BYTE, 0, 17) && is_at(&quirks[1], LINKCAP_HEADER_BYTE, 0, 49));
    assert(is_untouched(quirks + 2, quirks + 3) && is_at(&fault, 7, 7, 7));
    assert(linkcap_quirks(links, sizeof links - 1, &texts, quirks, 3, &count, &fault) == LINKCAP_FAULT && count == 1);
    assert(is_at(&fault, LINKCAP_CUT, 0, 32));
    assert(linkcap_words(&quirks[0], out, sizeof out, &length) == LINKCAP_OK);
    assert(length == strlen(words) && memcmp(out, words, length) == 0);
}

/* Changes each byte of an NLMSG_ERROR in turn: the numbers of its header and of the request's are the bytes 8 to 16 and
 * 28 to 36 (netlink.h: struct nlmsgerr has its struct nlmsghdr after a code of 4 bytes). */
static void test_numbers(void)
{
    static const struct linkcap_options without_numbers = {.flags = LINKCAP_WITHOUT_NUMBERS};
    const uint8_t error[40] = {[0] = 40, [4] = 2, [8] = 1, [16] = 0xea, 0xff, 0xff, 0xff, [20] = 36, [24] = 16};
    uint8_t other[40];
    struct linkcap_finding fault;
    for (size_t i = 6; i < sizeof error; i++) {
        bool is_number = (i >= 8 && i < 16) || (i >= 28 && i < 36);
        memcpy(other, error, sizeof error);
        other[i] ^= 0x81;
        assert(linkcap_same(error, sizeof error, other, sizeof other, &texts, &fault) == LINKCAP_DIFFERENT);
        assert(linkcap_same(error, sizeof error, other, sizeof other, &without_numbers, &fault)
               == (is_number ? LINKCAP_OK : LINKCAP_DIFFERENT));
    }
    assert(linkcap_same(error, sizeof error, other, 39, &without_numbers, &fault) == LINKCAP_FAULT);
    assert(is_at(&fault, LINKCAP_CUT, 2, 0));
    assert(linkcap_same(error, 39, other, 39, &without_numbers, &fault) == LINKCAP_FAULT && is_at(&fault, LINKCAP_CUT, 1, 0));
}

/* A link whose IFLA_MTU has 3 bytes, and a request for `lo`. The lines are those of the independent implementation. */
static uint8_t selected_messages[80] = {[0] = 40, [4] = 16,   [32] = 7, [34] = 4, [36] = 1, 2, 3, [40] = 40, [44] = 18,
                                        [46] = 1, [48] = 1, [72] = 7, [74] = 3, [76] = 'l', 'o'};
static const char all_lines[] = "RTM_NEWLINK flags 0x0 offset 0\n"
                                "  refused: IFLA_MTU: a payload of 3 bytes\n"
                                "  body 000000000000000000000000000000000700040001020300\n"
                                "RTM_GETLINK flags 0x1 (REQUEST) offset 40\n"
                                "  ifinfomsg family 0 (AF_UNSPEC) type 0 index 0 flags 0x0 change 0x0\n"
                                "  IFLA_IFNAME \"lo\"\n";
static const char all_objects[] = "{\"type\": \"RTM_NEWLINK\", \"flags\": {\"value\": 0, \"flags\": []}, \"offset\": 0, "
                                  "\"refused\": \"IFLA_MTU: a payload of 3 bytes\", "
                                  "\"body\": \"000000000000000000000000000000000700040001020300\", \"attributes\": []}\n"
                                  "{\"type\": \"RTM_GETLINK\", \"flags\": {\"value\": 1, \"flags\": [\"REQUEST\"]}, "
                                  "\"offset\": 40, \"header\": {\"struct\": \"ifinfomsg\", \"family\": {\"value\": 0, "
                                  "\"text\": \"AF_UNSPEC\"}, \"type\": {\"value\": 0}, \"index\": 0, "
                                  "\"flags\": {\"value\": 0, \"flags\": []}, \"change\": {\"value\": 0, \"flags\": []}}, "
                                  "\"attributes\": [{\"name\": \"IFLA_IFNAME\", \"value\": \"lo\", \"quoted\": true}]}\n";
static const char link_lines[] = "RTM_GETLINK flags 0x1 (REQUEST) seq 1 port 0\n"
                                 "  ifinfomsg family 0 (AF_UNSPEC) type 0 flags 0x0 change 0x0\n"
                                 "  IFLA_IFNAME \"lo\"\n";

static const struct linkcap_options show_all = {
    .form = LINKCAP_LINES, .flags = LINKCAP_WITHOUT_NUMBERS | LINKCAP_OFFSETS | LINKCAP_KEEP_GOING};
static const struct linkcap_options show_all_as_json = {
    .form = LINKCAP_JSON, .flags = LINKCAP_WITHOUT_NUMBERS | LINKCAP_OFFSETS | LINKCAP_KEEP_GOING};
static const struct linkcap_options show_link = {
    .form = LINKCAP_LINES, .flags = LINKCAP_KEEP_GOING, .only = TEXT("getlink,77"), .link = TEXT("lo"), .without = TEXT("indexes")};
static const struct linkcap_options show_first = {.form = LINKCAP_LINES, .flags = LINKCAP_OFFSETS};

/* Writes a capture in pieces of `size` bytes to `out`, each message to exactly the bytes that it needs, and keeps the first
 * fault. Returns the number of bytes written. *status is LINKCAP_OK, LINKCAP_FAULT, or that of a call that ran out of memory. */
static size_t write_pieces(const struct linkcap_options *options, struct bytes capture, size_t size, uint8_t *out, size_t room,
                           enum linkcap_status *status, struct linkcap_finding *first)
{
    struct linkcap_piece piece = {capture.at, 0, 0, capture.length == 0, 0};
    size_t length = 0, free_bytes = 0;
    bool is_faulty = false, has_ended = false;
    while (!has_ended) {
        struct linkcap_progress progress;
        struct linkcap_finding fault;
        assert(free_bytes <= room - length);
        *status = linkcap_write(options, &piece, out + length, free_bytes, &progress, &fault);
        assert(*status != LINKCAP_WRONG);
        if (*status == LINKCAP_NO_MEMORY || (*status == LINKCAP_FAULT && !is_faulty))
            *first = fault;
        is_faulty |= *status == LINKCAP_FAULT;
        length += progress.written;
        piece.bytes += progress.used, piece.length -= progress.used, piece.offset += progress.used;
        free_bytes = progress.wanted;
        has_ended = *status == LINKCAP_FAULT ? fault.offset == piece.offset
                                             : *status == LINKCAP_NO_MEMORY || (*status == LINKCAP_OK && piece.last);
        if (*status == LINKCAP_OK) {
            size_t left = capture.length - piece.offset - piece.length;
            piece.length += left < size ? left : size;
            piece.last = left <= size;
        }
    }
    if (*status != LINKCAP_NO_MEMORY)
        *status = is_faulty ? LINKCAP_FAULT : LINKCAP_OK;
    return length;
}

static const size_t piece_sizes[] = {1, 7, 16, 40, 41, 4096};

/* The lines of all pieces are those of the whole, and the first fault is kept. */
static void test_selected_pieces(void)
{
    static const struct {
        const struct linkcap_options *options;
        const char *expected;
    } cases[] = {{&show_all, all_lines}, {&show_all_as_json, all_objects}, {&show_link, link_lines}, {&show_first, ""}, {&texts, ""}};
    struct bytes capture = {selected_messages, sizeof selected_messages};
    uint8_t out[1024];
    for (size_t i = 0; i < sizeof cases / sizeof cases[0]; i++)
        for (size_t j = 0; j < sizeof piece_sizes / sizeof piece_sizes[0]; j++) {
            enum linkcap_status status;
            struct linkcap_finding fault;
            size_t length = write_pieces(cases[i].options, capture, piece_sizes[j], out, sizeof out, &status, &fault);
            assert(length == strlen(cases[i].expected) && memcmp(out, cases[i].expected, length) == 0);
            assert(status == LINKCAP_FAULT && is_at(&fault, LINKCAP_REFUSED, 0, 0));
        }
}

/* The lines of a sample in pieces are those of the file beside it, which has them; its text is the sample. */
static void test_sample_pieces(const char *name, struct bytes capture)
{
    static const struct linkcap_options keep_going = {.form = LINKCAP_LINES, .flags = LINKCAP_KEEP_GOING};
    char path[4096];
    size_t stem = strlen(name) - strlen(".bin");
    assert(stem + sizeof ".lines" <= sizeof path && strcmp(name + stem, ".bin") == 0);
    sprintf(path, "%.*s.lines", (int)stem, name);
    struct bytes expected = read_file(path);
    size_t room = expected.length > capture.length ? expected.length : capture.length;
    uint8_t *out = __real_malloc(room);
    for (size_t j = 0; j < sizeof piece_sizes / sizeof piece_sizes[0]; j++) {
        enum linkcap_status status;
        struct linkcap_finding fault;
        size_t length = write_pieces(&keep_going, capture, piece_sizes[j], out, room, &status, &fault);
        assert(status == LINKCAP_OK && length == expected.length && memcmp(out, expected.at, length) == 0);
        length = write_pieces(&texts, capture, piece_sizes[j], out, room, &status, &fault);
        assert(status == LINKCAP_OK && length == capture.length && memcmp(out, capture.at, length) == 0);
    }
    __real_free(out);
    __real_free(expected.at);
}

/* With LINKCAP_KEEP_GOING a message with a fault of its body is used, if there is space for its lines and its padding is there;
 * a fault of a header isn't. Offsets are counted from the capture's start. */
static void test_faults_of_pieces(void)
{
    uint8_t out[512], messages[44] = {0};
    size_t length = (size_t)(strstr(all_lines, "RTM_GETLINK") - all_lines);
    struct linkcap_piece piece = {messages, 40, 0, 0, 0};
    struct linkcap_progress progress;
    struct linkcap_finding fault = {0, 7, 7};
    memcpy(messages, selected_messages, 40);
    memset(out, UNTOUCHED, sizeof out);
    assert(linkcap_write(&show_all, &piece, out, length - 1, &progress, &fault) == LINKCAP_NO_ROOM);
    assert(has_come(&progress, 0, 0, length) && is_at(&fault, 0, 7, 7) && is_untouched(out, out + sizeof out));
    assert(linkcap_write(&show_all, &piece, out, length, &progress, &fault) == LINKCAP_FAULT);
    assert(has_come(&progress, 40, length, 0) && memcmp(out, all_lines, length) == 0 && is_at(&fault, LINKCAP_REFUSED, 0, 0));
    assert(is_untouched(out + length, out + sizeof out));
    /* At another offset, whose digits are two more. */
    piece.offset = 400;
    assert(linkcap_write(&show_all, &piece, out, sizeof out, &progress, &fault) == LINKCAP_FAULT);
    assert(has_come(&progress, 40, length + 2, 0) && is_at(&fault, LINKCAP_REFUSED, 0, 400));
    /* Without the flag it isn't used. */
    assert(linkcap_write(&lines, &piece, out, length, &progress, &fault) == LINKCAP_FAULT);
    assert(has_come(&progress, 0, 0, 0) && is_at(&fault, LINKCAP_REFUSED, 0, 400));
    /* A cut message, and a piece that ends at 2^64 - 1 bytes. */
    piece = (struct linkcap_piece){messages + 40, 4, 40, 1, 0};
    assert(linkcap_write(&show_all, &piece, out, length, &progress, &fault) == LINKCAP_FAULT);
    assert(has_come(&progress, 0, 0, 0) && is_at(&fault, LINKCAP_CUT, 0, 40));
    piece = (struct linkcap_piece){messages, 40, UINT64_MAX - 40, 0, 0};
    assert(linkcap_write(&show_all, &piece, out, sizeof out, &progress, &fault) == LINKCAP_FAULT && progress.used == 40);
    assert(is_at(&fault, LINKCAP_REFUSED, 0, UINT64_MAX - 40));
}

static long test_selection(void)
{
    struct bytes capture = {selected_messages, sizeof selected_messages};
    long failures = 0;
    const struct linkcap_options *cases[] = {&show_all, &show_all_as_json, &show_link};
    for (size_t i = 0; i < 3; i++) {
        test_capacities(cases[i], (struct bytes){capture.at + 40, 40}, LINKCAP_OK, 1);
        failures += test_failing_allocations(cases[i], (struct bytes){capture.at + 40, 40});
        failures += test_failing_allocations(cases[i], capture);
    }
    return failures;
}

static void test_unknown_words(void)
{
    static const struct {
        struct linkcap_options options;
        const char *word;
    } cases[] = {
        {{.only = TEXT("newlink,getlnk,x"), .without = TEXT("mtu")}, "getlnk"},
        {{.only = TEXT("newlink"), .without = TEXT("IFLA_MTU,mtu")}, "mtu"},
        {{.without = TEXT("counters,IFLA_\xc3\xa4")}, "IFLA_\xc3\xa4"},
        {{.only = TEXT("16,")}, ""},
    };
    static const struct linkcap_options getlnk = {.only = TEXT("getlnk")}, invalid = {.only = TEXT("getlnk\xff")};
    static const struct linkcap_options known = {.only = TEXT("RTM_NEWLINK,17"), .without = TEXT("Numbers,ifla_mtu")};
    /* It uses both lists alone. */
    static const struct linkcap_options wrong = {.limit = 1, .flags = 8, .form = 3, .reserved = 1};
    uint8_t out[16] = {UNTOUCHED, UNTOUCHED};
    uint64_t length;
    for (size_t i = 0; i < sizeof cases / sizeof cases[0]; i++) {
        assert(linkcap_unknown_word(&cases[i].options, out, sizeof out, &length) == LINKCAP_OK);
        assert(length == strlen(cases[i].word) && memcmp(out, cases[i].word, length) == 0);
    }
    out[0] = UNTOUCHED;
    assert(linkcap_unknown_word(&getlnk, out, 5, &length) == LINKCAP_NO_ROOM && length == 6);
    assert(linkcap_unknown_word(&known, out, 1, &length) == LINKCAP_NONE && length == 0);
    length = 7;
    assert(linkcap_unknown_word(&wrong, NULL, 0, &length) == LINKCAP_NONE && length == 0);
    length = 7;
    assert(linkcap_unknown_word(&invalid, out, sizeof out, &length) == LINKCAP_WRONG && length == 7);
    assert(out[0] == UNTOUCHED);
}

/* Tests that these calls allocate nothing. */
static void test_allocate_nothing(struct bytes capture)
{
    struct linkcap_finding fault;
    struct linkcap_sizes sizes;
    struct linkcap_message message;
    struct linkcap_attribute attribute;
    uint64_t count;
    requests = 0;
    assert(linkcap_check(capture.at, capture.length, &show_link, &sizes, &fault) == LINKCAP_OK);
    assert(linkcap_next_message(capture.at, capture.length, &show_link, 0, &message, &fault) == LINKCAP_OK);
    assert(linkcap_next_attribute(capture.at, capture.length, &show_link, 0, 0, &attribute, &fault) == LINKCAP_OK);
    assert(linkcap_quirks(capture.at, capture.length, &show_link, NULL, 0, &count, &fault) == LINKCAP_OK && count == 0);
    assert(linkcap_same(capture.at, capture.length, capture.at, capture.length, &texts, &fault) == LINKCAP_OK);
    assert(linkcap_same(capture.at, capture.length, capture.at, capture.length, &show_all, &fault) == LINKCAP_OK);
    assert(requests == 0);
}

/* RTM_NEWLINK: an IFLA_LINKINFO with an IFLA_INFO_KIND "vxlan" and an IFLA_INFO_DATA, in which there are an IFLA_VXLAN_ID and an
 * attribute of a type without a name. NLMSG_NOOP. RTM_GETLINK without an ifinfomsg. */
static const uint8_t nested[] = {
    68, 0, 0, 0, 16, 0, 0, 0, 0, 0, 0, 0, 0, 0, 0, 0, 0, 0, 0, 0, 0, 0, 0, 0, 0, 0, 0, 0, 0, 0, 0, 0,
    36, 0, 18, 0x80, 10, 0, 1, 0, 'v', 'x', 'l', 'a', 'n', 0, 0, 0, 20, 0, 2, 0x80, 8, 0, 1, 0, 10, 0, 0, 0, 8, 0, 0xff, 0x7f, 1, 2, 3, 4,
    16, 0, 0, 0, 1, 0, 0, 0, 0, 0, 0, 0, 0, 0, 0, 0,
    16, 0, 0, 0, 18, 0, 0, 0, 0, 0, 0, 0, 0, 0, 0, 0,
};

static int is_attribute(const struct linkcap_attribute *a, const struct linkcap_attribute *b)
{
    return a->offset == b->offset && a->payload == b->payload && a->length == b->length && a->type == b->type
           && a->flags == b->flags && a->depth == b->depth && memcmp(a->name, b->name, sizeof a->name) == 0
           && memcmp(a->link_kind, b->link_kind, sizeof a->link_kind) == 0;
}

/* Attributes at all depths, from each position on; and the ends of walks. */
static void test_attributes(void)
{
    static const struct linkcap_attribute all[] = {
        {32, 36, 32, 18, 0x8000, 0, "IFLA_LINKINFO", ""},
        {36, 40, 6, 1, 0, 1, "IFLA_INFO_KIND", ""},
        {48, 52, 16, 2, 0x8000, 1, "IFLA_INFO_DATA", "vxlan"},
        {52, 56, 4, 1, 0, 2, "IFLA_VXLAN_ID", "vxlan"},
        {60, 64, 4, 0x3fff, 0x4000, 2, "", "vxlan"},
    };
    struct linkcap_finding fault = {7, 7, 7};
    struct linkcap_attribute found;
    size_t next = 0, count = sizeof all / sizeof *all;
    for (uint64_t position = 0; position < 80; position++) {
        next += next < count && all[next].offset < position;
        memset(&found, UNTOUCHED, sizeof found);
        enum linkcap_status status = linkcap_next_attribute(nested, sizeof nested, &texts, 0, position, &found, &fault);
        assert(status == (next < count ? LINKCAP_OK : LINKCAP_NONE));
        assert(next < count ? is_attribute(&found, &all[next]) : is_untouched(&found, &found + 1));
        assert(is_at(&fault, 7, 7, 7));
    }
    assert(linkcap_next_attribute(nested, sizeof nested, &texts, 0, UINT64_MAX, &found, &fault) == LINKCAP_NONE);
    assert(linkcap_next_attribute(nested, sizeof nested, &texts, 68, 0, &found, &fault) == LINKCAP_NONE);
    assert(linkcap_next_attribute(nested, sizeof nested, &texts, sizeof nested, 0, &found, &fault) == LINKCAP_NONE);
    assert(linkcap_next_attribute(nested, sizeof nested, &texts, UINT64_MAX, 0, &found, &fault) == LINKCAP_NONE);
    assert(is_at(&fault, 7, 7, 7));
    assert(linkcap_next_attribute(nested, sizeof nested, &texts, 84, 0, &found, &fault) == LINKCAP_FAULT);
    assert(is_at(&fault, LINKCAP_REFUSED, 0, 84) && is_untouched(&found, &found + 1));
}

struct work {
    struct bytes capture, lines;
};

static void *run_thread(void *argument)
{
    struct work *work = argument;
    struct linkcap_finding fault;
    struct linkcap_progress progress;
    size_t room = work->lines.length + work->capture.length;
    uint8_t *out = __real_malloc(room);
    for (int round = 0; round < 50; round++) {
        assert(write_whole(&texts, work->capture, out, room, &progress, &fault) == LINKCAP_OK);
        assert(progress.written == work->capture.length && memcmp(out, work->capture.at, progress.written) == 0);
        assert(linkcap_same(work->capture.at, work->capture.length, out, progress.written, &texts, &fault) == LINKCAP_OK);
        assert(write_whole(&lines, work->capture, out, room, &progress, &fault) == LINKCAP_OK);
        assert(progress.written == work->lines.length && memcmp(out, work->lines.at, progress.written) == 0);
    }
    __real_free(out);
    return NULL;
}

static void test_threads(struct bytes capture)
{
    pthread_t threads[8];
    struct linkcap_finding fault;
    struct linkcap_progress progress;
    struct work work = {capture, {__real_malloc(64 * capture.length), 64 * capture.length}};
    assert(write_whole(&lines, capture, work.lines.at, work.lines.length, &progress, &fault) == LINKCAP_OK);
    work.lines.length = progress.written;
    for (int i = 0; i < 8; i++)
        assert(pthread_create(&threads[i], NULL, run_thread, &work) == 0);
    for (int i = 0; i < 8; i++)
        assert(pthread_join(threads[i], NULL) == 0);
    __real_free(work.lines.at);
}

/* Prepends the header of an attribute to a payload of `length` bytes, a multiple of 4, that ends at `end`. */
static size_t wrap(uint8_t *end, size_t length, uint16_t kind)
{
    uint16_t header[2] = {(uint16_t)(length + 4), kind};
    memcpy(end - length - 4, header, sizeof header);
    return length + 4;
}

/* Writes a link message with peers in peers, `levels` deep, to the end of a buffer of zeros. Returns its length. */
static size_t write_peers(uint8_t *end, int levels)
{
    static const uint8_t kind[] = {9, 0, 1, 0, 'v', 'e', 't', 'h', 0, 0, 0, 0}; /* IFLA_INFO_KIND "veth", padded */
    size_t length = 16;
    for (int i = 0; i < levels; i++) {
        length = wrap(end, length, 1); /* VETH_INFO_PEER */
        length = wrap(end, length, 2); /* IFLA_INFO_DATA */
        length += sizeof kind;
        memcpy(end - length, kind, sizeof kind);
        length = wrap(end, length, 18); /* IFLA_LINKINFO */
        length += 16;                   /* an empty struct ifinfomsg */
    }
    length += 16;
    uint32_t header[4] = {(uint32_t)length, 16, 1, 0}; /* RTM_NEWLINK */
    memcpy(end - length, header, sizeof header);
    return length;
}

static void *show_deep(void *argument)
{
    struct bytes *capture = argument;
    struct linkcap_finding fault;
    struct linkcap_progress progress;
    size_t room = 44 * capture->length;
    uint8_t *out = __real_malloc(room);
    for (uint32_t form = 0; form < 3; form++) {
        struct linkcap_options options = {.form = form};
        assert(write_whole(&options, *capture, out, room, &progress, &fault) == LINKCAP_OK);
        assert(progress.written >= capture->length);
    }
    __real_free(out);
    return NULL;
}

/* Deep captures are shown with a stack of 256 KiB, in a thread, and their lines are at most 44 times as long. */
static void test_deep(void)
{
    enum { SIZE = 1 << 17 };
    uint8_t *buffer = __real_malloc(SIZE);
    memset(buffer, 0, SIZE);
    size_t length = write_peers(buffer + SIZE, 1600);
    struct bytes capture = {buffer + SIZE - length, length};
    pthread_attr_t attributes;
    pthread_t thread;
    assert(pthread_attr_init(&attributes) == 0 && pthread_attr_setstacksize(&attributes, 256 << 10) == 0);
    assert(pthread_create(&thread, &attributes, show_deep, &capture) == 0 && pthread_join(thread, NULL) == 0);
    pthread_attr_destroy(&attributes);
    __real_free(buffer);
}

static void test_words(void)
{
    static const struct {
        struct linkcap_finding finding;
        const char *words;
    } cases[] = {
        {{LINKCAP_CUT, 0, 48}, "cut frame at 48"},
        {{LINKCAP_REFUSED, 1, 0}, "first: refused body at 0"},
        {{LINKCAP_EMPTY_PORTS, 2, UINT64_MAX}, "second: ports with foreign entries alone at 18446744073709551615"},
        {{LINKCAP_FAILED, 0, 4}, "failed before at 4"},
        {{LINKCAP_FLAG_WITH_PAYLOAD, 0, 76}, "flag with a payload at 76"},
        {{LINKCAP_HEADER_BYTE, 0, 17}, "second byte of the header of RTM_GETLINK at 17"},
    };
    uint8_t words[LINKCAP_WORDS_ROOM];
    uint64_t length;
    for (size_t i = 0; i < sizeof cases / sizeof cases[0]; i++) {
        assert(linkcap_words(&cases[i].finding, words, sizeof words, &length) == LINKCAP_OK);
        assert(length == strlen(cases[i].words) && memcmp(words, cases[i].words, length) == 0);
        memset(words, UNTOUCHED, sizeof words);
        assert(linkcap_words(&cases[i].finding, words, length - 1, &length) == LINKCAP_NO_ROOM);
        assert(length == strlen(cases[i].words) && is_untouched(words, words + sizeof words));
    }
    static const struct linkcap_finding invalid[] = {
        {0, 0, 0},   {LINKCAP_FAILED + 1, 0, 0},    {LINKCAP_NESTED_PORT_SETTINGS - 1, 0, 0}, {LINKCAP_SHORT_MAP + 1, 0, 0},
        {UINT32_MAX, 0, 0}, {LINKCAP_CUT, 3, 0}, {LINKCAP_SHORT_MAP, 1, 0},
    };
    length = 7;
    for (size_t i = 0; i < sizeof invalid / sizeof invalid[0]; i++)
        assert(linkcap_words(&invalid[i], words, sizeof words, &length) == LINKCAP_WRONG);
    assert(length == 7 && is_untouched(words, words + sizeof words));
}

int main(int argc, char **argv)
{
    long failures = 0;
    test_nothing();
    test_limits();
    test_words();
    failures += test_why();
    test_quirks();
    test_attributes();
    test_numbers();
    failures += test_selection();
    test_selected_pieces();
    test_faults_of_pieces();
    test_unknown_words();
    test_deep();
    for (int i = 1; i < argc; i++) {
        struct bytes capture = read_file(argv[i]), cut = {capture.at, capture.length - 8};
        test_wrong(capture);
        test_null(capture);
        test_sample_pieces(argv[i], capture);
        test_capacities(&texts, capture, LINKCAP_OK, 1 + capture.length / 500);
        test_capacities(&texts, cut, LINKCAP_FAULT, 1 + capture.length / 500);
        test_capacities(&lines, capture, LINKCAP_OK, 1 + capture.length / 100);
        test_capacities(&lines, cut, LINKCAP_FAULT, 1 + capture.length / 100);
        if (capture.length < 2000)
            test_cut_at_each_byte(capture);
        const struct linkcap_options *all[] = {&texts, &lines, &show_all, &show_all_as_json};
        for (size_t j = 0; j < 4; j++)
            failures += test_failing_allocations(all[j], capture) + test_failing_allocations(all[j], cut);
        test_allocate_nothing(capture);
        test_threads(capture);
        __real_free(capture.at);
    }
    printf("edges: all as documented; out of memory %ld times\n", failures);
    return 0;
}
