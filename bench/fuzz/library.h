// Calls liblinkcap with memory that ends at a page that can't be read or written.
#pragma once

#include <linkcap.h>

#include <cstddef>
#include <cstdint>
#include <vector>

using Bytes = std::vector<uint8_t>;

// Reports a broken law and the input, and aborts the program.
[[noreturn]] void report_broken(const char *law, const char *file, int line);

#define LAW(condition) ((condition) ? (void)0 : report_broken(#condition, __FILE__, __LINE__))

// Memory that ends at a page boundary.
class GuardedMemory {
public:
    explicit GuardedMemory(size_t capacity);
    // Returns the start of the last `length` bytes.
    uint8_t *get_tail(size_t length) const;
    // Copies `bytes` to the end, and returns the start of the copy.
    const uint8_t *store(const Bytes &bytes) const;

private:
    uint8_t *start;
    size_t capacity;
};

// The status and the fault of a call, or of calls over all of a capture, and the bytes that they wrote.
struct Result {
    linkcap_status status;
    linkcap_finding fault;
    Bytes written;
};

// The result of linkcap_write for one piece.
struct Piece {
    linkcap_status status;
    linkcap_finding fault;
    linkcap_progress progress;
    Bytes written;
};

// The result of linkcap_why.
struct Reason {
    linkcap_status status;
    uint64_t offset;
    Bytes words;
};

// The result of linkcap_next_message.
struct Message {
    linkcap_status status;
    linkcap_finding fault;
    linkcap_message message;
};

// The result of linkcap_next_attribute.
struct LinkAttribute {
    linkcap_status status;
    linkcap_finding fault;
    linkcap_attribute attribute;
};

// The result of linkcap_quirks.
struct Quirks {
    linkcap_status status;
    linkcap_finding fault;
    std::vector<linkcap_finding> list;
};

// Returns options with these values. The texts stay the caller's.
linkcap_options make_options(uint32_t limit, linkcap_form form = LINKCAP_TEXT, uint32_t flags = 0, const char *only = "",
                             const char *without = "");

Result check(const Bytes &capture, const linkcap_options &options, linkcap_sizes &sizes);
Result same(const Bytes &first, const Bytes &second, const linkcap_options &options);
// Calls linkcap_write with a buffer of `capacity` bytes, of which those after what is written have to stay unchanged.
Piece write_piece(const Bytes &piece, uint64_t offset, bool is_last, const linkcap_options &options, size_t capacity);
// Calls linkcap_write over a whole capture, as long as there is too little space.
Result write_all(const Bytes &capture, const linkcap_options &options);
// Calls linkcap_why for a piece at an offset of a capture.
Reason why(const Bytes &piece, uint64_t offset, const linkcap_options &options);
Message next_message(const Bytes &capture, const linkcap_options &options, uint64_t offset);
LinkAttribute next_attribute(const Bytes &capture, const linkcap_options &options, uint64_t message, uint64_t position);
Quirks quirks(const Bytes &capture, const linkcap_options &options);
Bytes words(const linkcap_finding &finding);
