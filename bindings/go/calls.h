/*
 * The calls of linkcap.h for Go, which may not pass a pointer to memory that has pointers: structs with pointers are made here.
 */
#ifndef LINKCAP_GO_CALLS_H
#define LINKCAP_GO_CALLS_H

#include <linkcap.h>

/* Options; the texts are one after the other, with these lengths. */
struct linkcap_go_options {
    uint32_t limit, form, flags;
    size_t only, link, without;
};

static inline struct linkcap_options linkcap_go_options(struct linkcap_go_options given, const char *texts)
{
    struct linkcap_options options = {{0, 0}, {0, 0}, {0, 0}, 0, 0, 0, 0};
    options.limit = given.limit;
    options.form = given.form;
    options.flags = given.flags;
    if (texts) {
        options.only.bytes = texts;
        options.only.length = given.only;
        options.link.bytes = texts + given.only;
        options.link.length = given.link;
        options.without.bytes = texts + given.only + given.link;
        options.without.length = given.without;
    }
    return options;
}

static inline struct linkcap_piece linkcap_go_piece(const uint8_t *bytes, size_t length, uint64_t offset, uint32_t last)
{
    struct linkcap_piece piece = {0, 0, 0, 0, 0};
    piece.bytes = bytes;
    piece.length = length;
    piece.offset = offset;
    piece.last = last;
    return piece;
}

static inline uint32_t linkcap_go_check(const uint8_t *capture, size_t length, uint32_t limit, struct linkcap_sizes *sizes,
                                        struct linkcap_finding *fault)
{
    struct linkcap_options options = {{0, 0}, {0, 0}, {0, 0}, 0, 0, 0, 0};
    options.limit = limit;
    return linkcap_check(capture, length, &options, sizes, fault);
}

static inline uint32_t linkcap_go_same(const uint8_t *first, size_t first_length, const uint8_t *second, size_t second_length,
                                       uint32_t limit, uint32_t flags, struct linkcap_finding *fault)
{
    struct linkcap_options options = {{0, 0}, {0, 0}, {0, 0}, 0, 0, 0, 0};
    options.limit = limit;
    options.flags = flags;
    return linkcap_same(first, first_length, second, second_length, &options, fault);
}

static inline uint32_t linkcap_go_write(struct linkcap_go_options given, const char *texts, const uint8_t *bytes, size_t length,
                                        uint64_t offset, uint32_t last, uint8_t *out, size_t room,
                                        struct linkcap_progress *progress, struct linkcap_finding *fault)
{
    struct linkcap_options options = linkcap_go_options(given, texts);
    struct linkcap_piece piece = linkcap_go_piece(bytes, length, offset, last);
    return linkcap_write(&options, &piece, out, room, progress, fault);
}

static inline uint32_t linkcap_go_next_message(const uint8_t *capture, size_t length, uint32_t limit, uint64_t offset,
                                               struct linkcap_message *message, struct linkcap_finding *fault)
{
    struct linkcap_options options = {{0, 0}, {0, 0}, {0, 0}, 0, 0, 0, 0};
    options.limit = limit;
    return linkcap_next_message(capture, length, &options, offset, message, fault);
}

static inline uint32_t linkcap_go_next_attribute(const uint8_t *message, size_t length, uint64_t position,
                                                 struct linkcap_attribute *attribute, struct linkcap_finding *fault)
{
    struct linkcap_options options = {{0, 0}, {0, 0}, {0, 0}, 0, 0, 0, 0};
    options.limit = UINT32_MAX;
    return linkcap_next_attribute(message, length, &options, 0, position, attribute, fault);
}

static inline uint32_t linkcap_go_quirks(const uint8_t *capture, size_t length, uint32_t limit, struct linkcap_finding *quirks,
                                         size_t room, uint64_t *count, struct linkcap_finding *fault)
{
    struct linkcap_options options = {{0, 0}, {0, 0}, {0, 0}, 0, 0, 0, 0};
    options.limit = limit;
    return linkcap_quirks(capture, length, &options, quirks, room, count, fault);
}

static inline uint32_t linkcap_go_why(uint32_t limit, const uint8_t *bytes, size_t length, uint64_t offset, uint8_t *out,
                                      size_t room, uint64_t *written, uint64_t *attribute)
{
    struct linkcap_options options = {{0, 0}, {0, 0}, {0, 0}, 0, 0, 0, 0};
    struct linkcap_piece piece = linkcap_go_piece(bytes, length, offset, 1);
    options.limit = limit;
    return linkcap_why(&options, &piece, out, room, written, attribute);
}

static inline uint32_t linkcap_go_unknown_word(struct linkcap_go_options given, const char *texts, uint8_t *out, size_t room,
                                               uint64_t *written)
{
    struct linkcap_options options = linkcap_go_options(given, texts);
    return linkcap_unknown_word(&options, out, room, written);
}

#endif
