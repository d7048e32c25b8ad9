#include "library.h"

#include <sys/mman.h>
#include <unistd.h>

#include <algorithm>
#include <cstdlib>
#include <cstring>

static const uint8_t UNTOUCHED = 0x5a;

static const size_t MAX_INPUT = 1 << 21;
// 77 times the longest input, and lines.
static const size_t MAX_OUTPUT = 1 << 27;
static const GuardedMemory first_input(MAX_INPUT), second_input(MAX_INPUT), output(MAX_OUTPUT);

GuardedMemory::GuardedMemory(size_t size)
{
    size_t page = (size_t)sysconf(_SC_PAGESIZE);
    capacity = (size + page - 1) / page * page;
    void *mapped = mmap(nullptr, capacity + 2 * page, PROT_NONE, MAP_PRIVATE | MAP_ANONYMOUS | MAP_NORESERVE, -1, 0);
    if (mapped == MAP_FAILED)
        abort();
    start = (uint8_t *)mapped + page;
    if (mprotect(start, capacity, PROT_READ | PROT_WRITE) != 0)
        abort();
}

uint8_t *GuardedMemory::get_tail(size_t length) const
{
    if (length > capacity)
        abort();
    return start + capacity - length;
}

const uint8_t *GuardedMemory::store(const Bytes &bytes) const
{
    uint8_t *at = get_tail(bytes.size());
    if (!bytes.empty())
        memcpy(at, bytes.data(), bytes.size());
    return at;
}

static bool is_untouched(const void *start, size_t length)
{
    const uint8_t *at = (const uint8_t *)start;
    return std::all_of(at, at + length, [](uint8_t byte) { return byte == UNTOUCHED; });
}

linkcap_options make_options(uint32_t limit, linkcap_form form, uint32_t flags, const char *only, const char *without)
{
    return {{only, strlen(only)}, {nullptr, 0}, {without, strlen(without)}, limit, flags, form, 0};
}

Result check(const Bytes &capture, const linkcap_options &options, linkcap_sizes &sizes)
{
    Result result = {};
    result.status = linkcap_check(first_input.store(capture), capture.size(), &options, &sizes, &result.fault);
    return result;
}

Result same(const Bytes &first, const Bytes &second, const linkcap_options &options)
{
    Result result = {};
    result.status = linkcap_same(first_input.store(first), first.size(), second_input.store(second), second.size(), &options,
                                 &result.fault);
    return result;
}

Piece write_piece(const Bytes &piece, uint64_t offset, bool is_last, const linkcap_options &options, size_t capacity)
{
    Piece result = {};
    linkcap_piece input = {first_input.store(piece), piece.size(), offset, is_last, 0};
    uint8_t *out = output.get_tail(capacity);
    memset(out, UNTOUCHED, capacity);
    result.status = linkcap_write(&options, &input, out, capacity, &result.progress, &result.fault);
    size_t written = result.progress.written;
    LAW(result.status == LINKCAP_OK || result.status == LINKCAP_FAULT || result.status == LINKCAP_NO_ROOM);
    LAW(result.progress.used <= piece.size() && written <= capacity);
    LAW(result.status == LINKCAP_NO_ROOM ? result.progress.wanted > capacity - written : result.progress.wanted == 0);
    LAW(is_untouched(out + written, capacity - written));
    result.written.assign(out, out + written);
    return result;
}

Result write_all(const Bytes &capture, const linkcap_options &options)
{
    Result result = {};
    size_t used = 0, capacity = 2 * capture.size() + 64;
    do {
        Piece piece = write_piece(Bytes(capture.begin() + used, capture.end()), used, true, options, capacity);
        bool is_first = result.status != LINKCAP_FAULT;
        used += piece.progress.used;
        result.written.insert(result.written.end(), piece.written.begin(), piece.written.end());
        capacity = piece.progress.wanted > capacity ? piece.progress.wanted : capacity;
        if (piece.status == LINKCAP_FAULT && is_first) {
            result.status = LINKCAP_FAULT;
            result.fault = piece.fault;
        }
        if (piece.status == LINKCAP_FAULT ? piece.fault.offset == used : piece.status == LINKCAP_OK)
            return result;
    } while (true);
}

Reason why(const Bytes &piece, uint64_t offset, const linkcap_options &options)
{
    Reason reason = {};
    linkcap_piece input = {first_input.store(piece), piece.size(), offset, 1, 0};
    uint64_t written = 0;
    reason.status = linkcap_why(&options, &input, nullptr, 0, &written, &reason.offset);
    if (reason.status != LINKCAP_NO_ROOM) {
        LAW(written == 0 && reason.offset == UINT64_MAX);
        return reason;
    }
    size_t capacity = written;
    uint8_t *out = output.get_tail(capacity);
    LAW(capacity == 1 || linkcap_why(&options, &input, out, capacity - 1, &written, &reason.offset) == LINKCAP_NO_ROOM);
    reason.status = linkcap_why(&options, &input, out, capacity, &written, &reason.offset);
    LAW(reason.status == LINKCAP_OK && written == capacity);
    reason.words.assign(out, out + written);
    return reason;
}

Message next_message(const Bytes &capture, const linkcap_options &options, uint64_t offset)
{
    Message result = {};
    result.status = linkcap_next_message(first_input.store(capture), capture.size(), &options, offset, &result.message,
                                         &result.fault);
    return result;
}

LinkAttribute next_attribute(const Bytes &capture, const linkcap_options &options, uint64_t message, uint64_t position)
{
    LinkAttribute result = {};
    result.status = linkcap_next_attribute(first_input.store(capture), capture.size(), &options, message, position,
                                           &result.attribute, &result.fault);
    return result;
}

Quirks quirks(const Bytes &capture, const linkcap_options &options)
{
    Quirks result = {};
    const uint8_t *at = first_input.store(capture);
    uint64_t count = 0;
    result.status = linkcap_quirks(at, capture.size(), &options, nullptr, 0, &count, &result.fault);
    if (result.status != LINKCAP_NO_ROOM) {
        LAW(count == 0);
        return result;
    }
    size_t size = count * sizeof(linkcap_finding);
    linkcap_finding *array = (linkcap_finding *)output.get_tail(size);
    memset(array, UNTOUCHED, size);
    uint64_t required = 0;
    LAW(linkcap_quirks(at, capture.size(), &options, array, count - 1, &required, &result.fault) == LINKCAP_NO_ROOM);
    LAW(is_untouched(array, size));
    result.status = linkcap_quirks(at, capture.size(), &options, array, count, &required, &result.fault);
    LAW(required == count && (result.status == LINKCAP_OK || result.status == LINKCAP_FAULT));
    result.list.assign(array, array + count);
    return result;
}

Bytes words(const linkcap_finding &finding)
{
    uint8_t *out = output.get_tail(LINKCAP_WORDS_ROOM);
    uint64_t written = 0;
    LAW(linkcap_words(&finding, out, LINKCAP_WORDS_ROOM, &written) == LINKCAP_OK && written <= LINKCAP_WORDS_ROOM);
    return Bytes(out, out + written);
}
