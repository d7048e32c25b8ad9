// A libFuzzer target over linkcap.h: the laws of one capture, of its pieces and of two captures are the oracle.
//
// liblinkcap isn't instrumented. Names in lines, refused attributes and kinds of faults serve as its coverage.
#include "library.h"

#include <algorithm>
#include <cstdio>
#include <cstdlib>
#include <cstring>
#include <random>

static const Bytes *input;
// This program doesn't read them: without `used` the compiler drops them.
__attribute__((used, section("__libfuzzer_extra_counters"))) static uint8_t counters[1 << 16];

static struct {
    uint64_t inputs, legal, faults[8], pairs_same, pairs_different, pieces, quirks;
} counts;

void report_broken(const char *law, const char *file, int line)
{
    fprintf(stderr, "%s:%d: LAW BROKEN: %s\ninput of %zu bytes: ", file, line, law, input ? input->size() : 0);
    for (size_t i = 0; input && i < input->size(); i++)
        fprintf(stderr, "%02x", (*input)[i]);
    fprintf(stderr, "\n");
    abort();
}

static void report_counts(void)
{
    fprintf(stderr, "inputs %lu, legal %lu, faults", counts.inputs, counts.legal);
    for (int kind = LINKCAP_CUT; kind <= LINKCAP_TEXT_OVER_LIMIT; kind++)
        fprintf(stderr, " %lu", counts.faults[kind]);
    fprintf(stderr, ", pairs alike %lu, different %lu, pieces %lu, quirks %lu\n", counts.pairs_same, counts.pairs_different,
            counts.pieces, counts.quirks);
}

// ---- coverage

static uint32_t hash(const uint8_t *from, const uint8_t *to)
{
    uint32_t value = 2166136261u;
    for (; from < to; from++)
        if (*from < '0' || *from > '9')
            value = (value ^ *from) * 16777619u;
    return value;
}

static void touch(const uint8_t *from, const uint8_t *to)
{
    uint32_t value = hash(from, to);
    counters[(value ^ value >> 16) & 0xffff] = 1;
}

// Touches a line's indentation and name, and the name of its value.
static void touch_line(const uint8_t *from, const uint8_t *to)
{
    const uint8_t *name = std::find_if(from, to, [](uint8_t byte) { return byte != ' '; });
    touch(from, std::find(name, to, ' '));
    const uint8_t *value_name = std::find(name, to, '(');
    touch(value_name, to);
}

static void touch_lines(const Bytes &listing)
{
    const uint8_t *at = listing.data(), *end = at + listing.size();
    while (at < end) {
        const uint8_t *newline = std::find(at, end, '\n');
        touch_line(at, newline);
        at = newline + 1;
    }
}

// ---- laws

static bool is_text(const Bytes &text, bool has_newlines)
{
    return std::all_of(text.begin(), text.end(), [=](uint8_t byte) {
        return (byte >= ' ' && byte < 0x7f) || (has_newlines && byte == '\n');
    });
}

static bool is_same_fault(const linkcap_finding &one, const linkcap_finding &other)
{
    return one.kind == other.kind && one.offset == other.offset && one.side == other.side;
}

static Bytes take_prefix(const Bytes &capture, size_t length)
{
    return Bytes(capture.begin(), capture.begin() + length);
}

// What is written of a capture: its text, its lines, or these without sequence numbers and port IDs.
static Result normalize(const Bytes &capture, uint32_t limit) { return write_all(capture, make_options(limit)); }

static Result lines(const Bytes &capture, uint32_t limit, uint32_t flags = 0, const char *only = "", const char *without = "")
{
    return write_all(capture, make_options(limit, LINKCAP_LINES, flags, only, without));
}

static linkcap_status compare(const Bytes &first, const Bytes &second, uint32_t limit, uint32_t flags = 0)
{
    return same(first, second, make_options(limit, LINKCAP_TEXT, flags)).status;
}

static void check_legal(const Bytes &capture, uint32_t limit, const linkcap_sizes &sizes, const Bytes &text, const Bytes &listing)
{
    linkcap_sizes text_sizes;
    LAW(sizes.text_high == 0 && sizes.text_low == text.size());
    LAW(check(text, make_options(limit), text_sizes).status == LINKCAP_OK && text_sizes.frames == sizes.frames);
    Result renormalized = normalize(text, limit);
    LAW(renormalized.status == LINKCAP_OK && renormalized.written == text);
    LAW(compare(capture, text, limit) == LINKCAP_OK && compare(text, capture, limit) == LINKCAP_OK);
    LAW(compare(capture, capture, limit) == LINKCAP_OK);
    Result text_lines = lines(text, limit);
    LAW(text_lines.status == LINKCAP_OK && text_lines.written == listing);
    Result unnumbered = lines(capture, limit, LINKCAP_WITHOUT_NUMBERS);
    LAW(unnumbered.status == LINKCAP_OK && unnumbered.written.size() <= listing.size());
    Result selection = lines(capture, limit, 0, "16,3");
    LAW(selection.status == LINKCAP_OK && selection.written.size() <= listing.size());
    LAW(why(capture, 0, make_options(limit)).status == LINKCAP_NONE);
    LAW(quirks(text, make_options(limit)).list.empty());
    LAW(compare(capture, text, limit, LINKCAP_WITHOUT_NUMBERS) == LINKCAP_OK);
}

// Iteration over the attributes of a legal message yields what their headers in the capture say, in order. Returns their number.
static uint64_t check_attributes(const Bytes &capture, uint32_t limit, uint64_t start, uint64_t end)
{
    uint64_t position = start, count = 0;
    LinkAttribute next;
    while ((next = next_attribute(capture, make_options(limit), start, position)).status == LINKCAP_OK) {
        const linkcap_attribute &found = next.attribute;
        LAW(found.offset >= position && found.payload == found.offset + 4 && found.depth <= 6);
        LAW(found.payload <= end && found.length <= end - found.payload);
        LAW(found.length + 4 == uint64_t(capture[found.offset] | capture[found.offset + 1] << 8));
        LAW((found.type | found.flags) == uint32_t(capture[found.offset + 2] | capture[found.offset + 3] << 8));
        LAW(memchr(found.name, 0, LINKCAP_NAME_ROOM) && memchr(found.link_kind, 0, LINKCAP_NAME_ROOM));
        position = found.payload;
        count++;
    }
    LAW(next.status == LINKCAP_NONE);
    return count;
}

// Iteration yields as many messages and attributes as `check` counts, and ends at the capture's first fault.
static void check_messages(const Bytes &capture, uint32_t limit, const Result &text)
{
    uint64_t offset = 0, attributes = 0;
    size_t from = 0;
    Message next;
    while ((next = next_message(capture, make_options(limit), offset)).status == LINKCAP_OK) {
        LAW(next.message.next > offset && next.message.next <= capture.size() && next.message.length >= 16);
        LAW(next.message.length <= capture.size() - offset);
        LAW(next.message.type == uint32_t(capture[offset + 4] | capture[offset + 5] << 8));
        Result part = normalize(Bytes(capture.begin() + offset, capture.begin() + next.message.next), limit);
        LAW(part.status == LINKCAP_OK && from + part.written.size() <= text.written.size());
        LAW(std::equal(part.written.begin(), part.written.end(), text.written.begin() + from));
        from += part.written.size();
        attributes += check_attributes(capture, limit, offset, offset + next.message.length);
        offset = next.message.next;
    }
    LAW(from == text.written.size());
    LAW(next.status == (text.status == LINKCAP_OK ? LINKCAP_NONE : LINKCAP_FAULT));
    LAW(text.status == LINKCAP_OK ? offset == capture.size() : is_same_fault(next.fault, text.fault));
    LAW(next_attribute(capture, make_options(limit), offset, 0).status == next.status);
    linkcap_sizes sizes = {};
    LAW(check(capture, make_options(limit), sizes).status != LINKCAP_OK || sizes.attributes == attributes);
    LAW(next_message(capture, make_options(limit), capture.size()).status == LINKCAP_NONE);
}

static void check_quirks(const Bytes &capture, uint32_t limit, const Result &text)
{
    Quirks result = quirks(capture, make_options(limit));
    LAW(result.status == text.status && (text.status == LINKCAP_OK || is_same_fault(result.fault, text.fault)));
    uint64_t end = text.status == LINKCAP_OK ? capture.size() : text.fault.offset;
    for (const linkcap_finding &quirk : result.list) {
        LAW(quirk.kind >= LINKCAP_NESTED_PORT_SETTINGS && quirk.kind <= LINKCAP_SHORT_MAP && quirk.offset < end);
        Bytes text = words(quirk);
        LAW(quirk.side == 0 && is_text(text, false));
        touch(text.data(), text.data() + text.size());
    }
    counts.quirks += result.list.size();
}

static void check_reason(const Bytes &capture, uint32_t limit, const linkcap_finding &fault)
{
    Reason reason = why(capture, 0, make_options(limit));
    LAW(reason.status == (fault.kind == LINKCAP_REFUSED ? LINKCAP_OK : LINKCAP_NONE));
    LAW(is_text(reason.words, false));
    LAW(reason.words.empty() || reason.offset == UINT64_MAX || (reason.offset > fault.offset && reason.offset <= capture.size()));
    touch(reason.words.data(), reason.words.data() + reason.words.size());
    // The faulty message alone, at its offset, has the same reason.
    Reason alone = why(Bytes(capture.begin() + fault.offset, capture.end()), fault.offset, make_options(limit));
    LAW(alone.status == reason.status && alone.offset == reason.offset && alone.words == reason.words);
}

static void check_fault(const Bytes &capture, uint32_t limit, const Result &text, const Bytes &listing)
{
    const linkcap_finding &fault = text.fault;
    LAW(fault.kind >= LINKCAP_CUT && fault.kind <= LINKCAP_TEXT_OVER_LIMIT && fault.side == 0);
    LAW(fault.offset < capture.size() && fault.offset % 4 == 0);
    Bytes prefix = take_prefix(capture, fault.offset);
    Result prefix_text = normalize(prefix, limit), prefix_lines = lines(prefix, limit);
    LAW(prefix_text.status == LINKCAP_OK && prefix_text.written == text.written);
    LAW(prefix_lines.status == LINKCAP_OK && prefix_lines.written == listing);
    Result first = same(capture, capture, make_options(limit)), second = same({}, capture, make_options(limit));
    LAW(first.status == LINKCAP_FAULT && is_same_fault(first.fault, {fault.kind, 1, fault.offset}));
    LAW(second.status == LINKCAP_FAULT && is_same_fault(second.fault, {fault.kind, 2, fault.offset}));
    LAW(is_text(words(fault), false));
    check_reason(capture, limit, fault);
    counts.faults[fault.kind]++;
}

// ---- pieces

// Pieces and buffers of any sizes yield what is written of the whole capture, and its first fault.
static void check_pieces(const Bytes &capture, const linkcap_options &options, std::minstd_rand &random)
{
    Result whole = write_all(capture, options);
    Bytes written;
    size_t used = 0, available = 0, capacity = 0;
    linkcap_status status = LINKCAP_OK;
    linkcap_finding first = {};
    for (bool is_last = capture.empty();;) {
        Piece piece = write_piece(Bytes(capture.begin() + used, capture.begin() + available), used, is_last, options, capacity);
        counts.pieces++;
        LAW(piece.status != LINKCAP_NO_ROOM || piece.progress.used > 0 || capacity < piece.progress.wanted);
        if (piece.status == LINKCAP_FAULT && status == LINKCAP_OK) {
            status = LINKCAP_FAULT;
            first = piece.fault;
        }
        written.insert(written.end(), piece.written.begin(), piece.written.end());
        used += piece.progress.used;
        capacity = std::max<size_t>(piece.progress.wanted, random() % (capture.size() + 64));
        if (piece.status == LINKCAP_FAULT ? piece.fault.offset == used : piece.status == LINKCAP_OK && is_last)
            break;
        if (piece.status == LINKCAP_OK) {
            size_t length = random() % 3 == 0 ? random() % 5 : random() % (capture.size() + 2);
            available = std::min(capture.size(), available + length);
            is_last = available == capture.size() && random() % 2;
        }
    }
    LAW(status == whole.status && written == whole.written);
    LAW(status == LINKCAP_OK ? used == capture.size() : is_same_fault(first, whole.fault));
}

// Without options the lines are all; if messages after the first fault are shown too, all are a prefix.
static void check_selections(const Bytes &capture, uint32_t limit, const Result &listing)
{
    Result more = lines(capture, limit, LINKCAP_KEEP_GOING);
    LAW(more.status == listing.status && more.written.size() >= listing.written.size());
    LAW(std::equal(listing.written.begin(), listing.written.end(), more.written.begin()));
    LAW(listing.status == LINKCAP_OK || is_same_fault(more.fault, listing.fault));
    LAW(is_text(more.written, true));
    LAW(lines(capture, limit, LINKCAP_WITHOUT_NUMBERS).written == lines(capture, limit, 0, "", "NUMBERS").written);
    Result rest = lines(capture, limit, LINKCAP_OFFSETS, "", "counters,indexes,IFLA_MTU");
    LAW(rest.status == listing.status && is_text(rest.written, true));
    Result objects = write_all(capture, make_options(limit, LINKCAP_JSON));
    LAW(objects.status == listing.status && is_text(objects.written, true));
}

static void check_one(const Bytes &capture, uint32_t limit, std::minstd_rand &random)
{
    linkcap_sizes sizes;
    Result text = normalize(capture, limit), listing = lines(capture, limit);
    Result verdict = check(capture, make_options(limit), sizes);
    LAW(verdict.status == text.status && listing.status == text.status);
    LAW(is_text(listing.written, true) && text.written.size() <= 77 * capture.size());
    touch_lines(listing.written);
    if (text.status == LINKCAP_OK) {
        counts.legal++;
        check_legal(capture, limit, sizes, text.written, listing.written);
    } else {
        LAW(is_same_fault(verdict.fault, text.fault) && is_same_fault(listing.fault, text.fault));
        check_fault(capture, limit, text, listing.written);
    }
    check_messages(capture, limit, text);
    check_quirks(capture, limit, text);
    check_selections(capture, limit, listing);
    check_pieces(capture, make_options(limit), random);
    linkcap_form form = random() % 2 ? LINKCAP_LINES : LINKCAP_JSON;
    check_pieces(capture, make_options(limit, form, random() % 8, random() % 2 ? "16,3" : ""), random);
}

// ---- two captures

static void check_pair(const Bytes &first, const Bytes &second, uint32_t limit)
{
    Result one = normalize(first, limit), other = normalize(second, limit), comparison = same(first, second, make_options(limit));
    Result unnumbered = same(first, second, make_options(limit, LINKCAP_TEXT, LINKCAP_WITHOUT_NUMBERS));
    if (one.status == LINKCAP_FAULT || other.status == LINKCAP_FAULT) {
        bool is_first = one.status == LINKCAP_FAULT;
        const linkcap_finding &fault = is_first ? one.fault : other.fault;
        LAW(comparison.status == LINKCAP_FAULT
            && is_same_fault(comparison.fault, {fault.kind, is_first ? 1u : 2u, fault.offset}));
        LAW(unnumbered.status == LINKCAP_FAULT && is_same_fault(unnumbered.fault, comparison.fault));
        return;
    }
    bool is_same = one.written == other.written;
    LAW(comparison.status == (is_same ? LINKCAP_OK : LINKCAP_DIFFERENT) && compare(second, first, limit) == comparison.status);
    LAW((lines(first, limit).written == lines(second, limit).written) == is_same);
    LAW(unnumbered.status == LINKCAP_OK || !is_same);
    uint32_t flags = LINKCAP_WITHOUT_NUMBERS;
    LAW((lines(first, limit, flags).written == lines(second, limit, flags).written) == (unnumbered.status == LINKCAP_OK));
    LAW(compare(second, first, limit, flags) == unnumbered.status);
    (is_same ? counts.pairs_same : counts.pairs_different)++;
}

// Returns the capture with one or two bytes changed.
static Bytes change_bytes(Bytes capture, std::minstd_rand &random)
{
    if (capture.empty())
        return capture;
    for (uint32_t changes = 1 + random() % 2; changes > 0; changes--) {
        // Often a byte of the first message's numbers.
        size_t at = random() % 4 ? random() % capture.size() : std::min(capture.size() - 1, size_t(8 + random() % 8));
        uint8_t &byte = capture[at];
        const uint8_t values[] = {uint8_t(byte ^ 1 << random() % 8), uint8_t(random()), 0, 0x80};
        byte = values[random() % 4];
    }
    return capture;
}

extern "C" int LLVMFuzzerInitialize(int *, char ***)
{
    atexit(report_counts);
    return 0;
}

extern "C" int LLVMFuzzerTestOneInput(const uint8_t *bytes, size_t length)
{
    static const uint32_t limits[] = {16, 17, 20, 32, 48, 100, 1000, 65535, UINT32_MAX};
    if (length > 1 << 20)
        return 0;
    Bytes capture(bytes, bytes + length);
    input = &capture;
    counts.inputs++;
    std::minstd_rand random(hash(bytes, bytes + length) | 1);
    uint32_t limit = random() % 8 ? LINKCAP_DEFAULT_LIMIT : limits[random() % 9];
    check_one(capture, limit, random);
    check_pair(capture, change_bytes(capture, random), limit);
    input = nullptr;
    return 0;
}
