/*
 * Golden tests of captures, in C99 or C++: a capture's lines are compared with those of a file.
 *
 *     assert(linkcap_golden(request, length, "tests/veth.lines") == LINKCAP_OK);
 *
 * A program includes this file, and links liblinkcap. The file of lines is the one that Python's `golden`, Go's
 * `linkcaptest`, Rust's `golden` and the program linkgold have: its first line has the format version, and may be missing, as
 * in the output of linkshow. What the lines after it say that linkgold left out is left out of the capture's lines.
 *
 * If the environment variable LINKCAP_UPDATE is set, and neither empty nor `0`, the file is written instead. Its folder has
 * to exist. What is wrong is written to standard error: a unified diff if the lines differ.
 */
#ifndef LINKCAP_GOLDEN_H
#define LINKCAP_GOLDEN_H

#include <errno.h>
#include <stdbool.h>
#include <stddef.h>
#include <stdint.h>
#include <stdio.h>
#include <stdlib.h>
#include <string.h>

#include <linkcap.h>

/*
 * Compares the lines that options select of a capture, whatever their form, with those of a file, or writes the file.
 *
 * LINKCAP_OK           they are equal, or the file is written.
 * LINKCAP_DIFFERENT    they differ.
 * LINKCAP_FAULT        the capture isn't legal.
 * LINKCAP_WRONG        an option isn't valid; the file is missing, can't be read or written, or has a head that isn't valid.
 * LINKCAP_NO_MEMORY    out of memory.
 * LINKCAP_NONE         the capture is empty, or has no message that is selected: the test has captured nothing.
 */
static inline enum linkcap_status linkcap_golden_with(const uint8_t *capture, size_t length, const char *path,
                                                      const struct linkcap_options *options);

/* The same, of all lines without sequence numbers and netlink port IDs, which change from run to run. */
static inline enum linkcap_status linkcap_golden(const uint8_t *capture, size_t length, const char *path)
{
    struct linkcap_options options = {{NULL, 0}, {NULL, 0}, {NULL, 0}, 0, LINKCAP_WITHOUT_NUMBERS, LINKCAP_LINES, 0};
    return linkcap_golden_with(capture, length, path, &options);
}

/* ---- the parts of linkcap_golden_with */

#define LINKCAP_GOLDEN_UPDATE "LINKCAP_UPDATE"

/* How the lines of a head begin: the first one, and those that name what linkgold left out. */
#define LINKCAP_GOLDEN_FIRST_LINE "# linkcap lines"
#define LINKCAP_GOLDEN_FORMAT LINKCAP_GOLDEN_FIRST_LINE ", format "
#define LINKCAP_GOLDEN_LEFT_OUT "# leaves out:"
#define LINKCAP_GOLDEN_VARIES "# leaves out what varies:"

/* What heads call the probes of iproute2, which aren't looked for here. */
#define LINKCAP_GOLDEN_PROBES "probes"

/* The number of lines that are shown before and after a difference. */
#define LINKCAP_GOLDEN_CONTEXT 3

/* A text in memory that realloc allocated, or null. */
struct linkcap_golden_text {
    char *bytes;
    size_t length;
};

/* The head of a golden file. */
struct linkcap_golden_head {
    size_t length;         /* its length in bytes */
    unsigned long version; /* the format version, or 0 */
    bool varies;           /* linkgold left out what varies between two runs */
    char *without;         /* what linkgold left out, with commas between names, beside what options leave out */
};

static inline enum linkcap_status linkcap_golden_no_memory(void)
{
    fputs("linkcap: out of memory\n", stderr);
    return LINKCAP_NO_MEMORY;
}

/* Reserves memory for some bytes of a text and a null byte. Whether there was any. */
static inline bool linkcap_golden_reserve(struct linkcap_golden_text *text, uint64_t room)
{
    char *bytes = room < SIZE_MAX ? (char *)realloc(text->bytes, (size_t)room + 1) : NULL;
    if (bytes)
        text->bytes = bytes;
    return bytes != NULL;
}

static inline bool linkcap_golden_starts_with(const char *text, size_t length, const char *start)
{
    return length >= strlen(start) && memcmp(text, start, strlen(start)) == 0;
}

/* The length of the first line of a text, with its end. */
static inline size_t linkcap_golden_line(const char *text, size_t length)
{
    const char *end = length ? (const char *)memchr(text, '\n', length) : NULL;
    return end ? (size_t)(end - text) + 1 : length;
}

/* ---- the lines of a capture */

/* Reports a fault, with the reason if a body is refused. */
static inline void linkcap_golden_report_fault(const uint8_t *capture, size_t length, const struct linkcap_options *options,
                                               const struct linkcap_finding *fault)
{
    struct linkcap_piece piece = {capture, length, 0, 1, 0};
    uint8_t words[LINKCAP_WORDS_ROOM], *reason = NULL;
    uint64_t written = 0, offset = 0;
    if (linkcap_words(fault, words, sizeof words, &written) == LINKCAP_OK)
        fprintf(stderr, "linkcap: %.*s", (int)written, (const char *)words);
    if (linkcap_why(options, &piece, NULL, 0, &written, &offset) == LINKCAP_NO_ROOM)
        reason = (uint8_t *)malloc((size_t)written);
    if (reason && linkcap_why(options, &piece, reason, (size_t)written, &written, &offset) == LINKCAP_OK)
        fprintf(stderr, ": %.*s", (int)written, (const char *)reason);
    fputc('\n', stderr);
    free(reason);
}

/* Reports options that the library doesn't accept. */
static inline void linkcap_golden_report_options(const struct linkcap_options *options)
{
    size_t room = options->only.length + options->without.length;
    uint8_t *word = (uint8_t *)malloc(room + 1);
    uint64_t written = 0;
    if (options->limit && options->limit < LINKCAP_MIN_LIMIT)
        fprintf(stderr, "linkcap: limit under %d\n", LINKCAP_MIN_LIMIT);
    else if (word && linkcap_unknown_word(options, word, room, &written) == LINKCAP_OK)
        fprintf(stderr, "linkcap: no type, attribute or group is called \"%.*s\"\n", (int)written, (const char *)word);
    else
        fputs("linkcap: more than 32 types or names, or a list that isn't UTF-8\n", stderr);
    free(word);
}

/* Makes the lines that options select. A status other than LINKCAP_OK is reported. */
static inline enum linkcap_status linkcap_golden_lines(const uint8_t *capture, size_t length,
                                                       const struct linkcap_options *options, struct linkcap_golden_text *lines)
{
    struct linkcap_piece piece = {capture, length, 0, 1, 0};
    struct linkcap_progress progress = {0, 0, length};
    struct linkcap_finding fault = {0, 0, 0};
    enum linkcap_status status = LINKCAP_NO_ROOM;
    size_t room = 0;
    for (lines->length = 0; status == LINKCAP_NO_ROOM; lines->length += (size_t)progress.written) {
        if (progress.wanted > SIZE_MAX / 2 - room || !linkcap_golden_reserve(lines, room += room + (size_t)progress.wanted))
            return linkcap_golden_no_memory();
        status = linkcap_write(options, &piece, (uint8_t *)lines->bytes + lines->length, room - lines->length, &progress, &fault);
        if (progress.used > 0) /* else the capture may be null */
            piece.bytes += progress.used;
        piece.length -= (size_t)progress.used;
        piece.offset += progress.used;
    }
    if (status == LINKCAP_FAULT)
        linkcap_golden_report_fault(capture, length, options, &fault);
    else if (status == LINKCAP_WRONG)
        linkcap_golden_report_options(options);
    else if (status == LINKCAP_NO_MEMORY)
        return linkcap_golden_no_memory();
    else if (lines->length == 0)
        fputs("linkcap: the capture is empty, or has no message that is selected\n", stderr);
    return status == LINKCAP_OK && lines->length == 0 ? LINKCAP_NONE : status;
}

/* ---- the file */

/* Reads a file. A failure is reported. */
static inline enum linkcap_status linkcap_golden_read(const char *path, struct linkcap_golden_text *text)
{
    FILE *file = fopen(path, "rb");
    size_t count = 1, room = 1 << 16;
    bool has_memory = true;
    if (!file && errno == ENOENT)
        fprintf(stderr, "linkcap: no golden file %s: write it with " LINKCAP_GOLDEN_UPDATE "=1\n", path);
    else if (!file)
        fprintf(stderr, "linkcap: %s: %s\n", path, strerror(errno));
    if (!file)
        return LINKCAP_WRONG;
    while (count > 0 && (has_memory = linkcap_golden_reserve(text, text->length + room))) {
        count = fread(text->bytes + text->length, 1, room, file);
        text->length += count;
    }
    if (has_memory)
        text->bytes[text->length] = '\0';
    bool has_failed = ferror(file) != 0;
    if (has_failed)
        fprintf(stderr, "linkcap: %s: %s\n", path, strerror(errno));
    fclose(file);
    return has_failed ? LINKCAP_WRONG : has_memory ? LINKCAP_OK : linkcap_golden_no_memory();
}

/* Writes a file. A failure is reported. */
static inline enum linkcap_status linkcap_golden_write(const char *path, const struct linkcap_text *without,
                                                       const struct linkcap_golden_text *lines)
{
    FILE *file = fopen(path, "wb");
    bool is_written = file && fprintf(file, LINKCAP_GOLDEN_FORMAT "%lu\n", (unsigned long)linkcap_format()) > 0;
    if (is_written && without->length)
        is_written = fprintf(file, LINKCAP_GOLDEN_LEFT_OUT " %.*s\n", (int)without->length, without->bytes) > 0;
    is_written = is_written && fwrite(lines->bytes, 1, lines->length, file) == lines->length;
    is_written = file && fclose(file) == 0 && is_written;
    if (!is_written)
        fprintf(stderr, "linkcap: %s: %s\n", path, strerror(errno));
    return is_written ? LINKCAP_OK : LINKCAP_WRONG;
}

/* Whether a list of names has a name. */
static inline bool linkcap_golden_has_name(const char *list, const char *name, size_t length)
{
    bool is_found = false;
    while (*list && !is_found) {
        size_t size = strcspn(list, ", ");
        is_found = size == length && memcmp(list, name, size) == 0;
        list += size + strspn(list + size, ", ");
    }
    return is_found;
}

/* Appends the names of one list that another one lacks, with commas between them, to the other one, which has the space. */
static inline void linkcap_golden_join(char *to, const char *list, size_t length)
{
    const char *end = list + length;
    while (list < end) {
        size_t size = 0;
        while (list + size < end && !strchr(", \r\n", list[size]))
            size++;
        bool is_new = size > 0 && !linkcap_golden_has_name(LINKCAP_GOLDEN_PROBES, list, size)
                      && !linkcap_golden_has_name(to, list, size);
        if (is_new && *to)
            strcat(to, ",");
        if (is_new)
            strncat(to, list, size);
        list += size + 1;
    }
}

/* Takes a line if it is one of the head. Whether it is. */
static inline bool linkcap_golden_take(struct linkcap_golden_head *head, const char *line, size_t length)
{
    if (linkcap_golden_starts_with(line, length, LINKCAP_GOLDEN_VARIES)) {
        head->varies = true;
    } else if (linkcap_golden_starts_with(line, length, LINKCAP_GOLDEN_LEFT_OUT)) {
        size_t start = strlen(LINKCAP_GOLDEN_LEFT_OUT);
        linkcap_golden_join(head->without, line + start, length - start);
    } else if (linkcap_golden_starts_with(line, length, LINKCAP_GOLDEN_FORMAT)) {
        head->version = strtoul(line + strlen(LINKCAP_GOLDEN_FORMAT), NULL, 10);
    } else {
        return linkcap_golden_starts_with(line, length, LINKCAP_GOLDEN_FIRST_LINE);
    }
    return true;
}

/* Reads the head of a file, whose bytes a null byte follows. `without` is what options leave out. Whether there was memory. */
static inline bool linkcap_golden_read_head(const struct linkcap_golden_text *file, const struct linkcap_text *without,
                                            struct linkcap_golden_head *head)
{
    size_t line = linkcap_golden_line(file->bytes, file->length);
    head->without = (char *)calloc(1, file->length + without->length + 2);
    if (!head->without)
        return false;
    if (without->length > 0)
        linkcap_golden_join(head->without, without->bytes, without->length);
    while (line > 0 && linkcap_golden_take(head, file->bytes + head->length, line)) {
        head->length += line;
        line = linkcap_golden_line(file->bytes + head->length, file->length - head->length);
    }
    return true;
}

/* ---- the difference */

static inline size_t linkcap_golden_count_lines(const char *text, size_t length)
{
    size_t count = 0, at = 0;
    for (; at < length; at += linkcap_golden_line(text + at, length - at))
        count++;
    return count;
}

/* Whether a line begins at an offset of a text. */
static inline bool linkcap_golden_begins_line(const char *text, size_t at)
{
    return at == 0 || text[at - 1] == '\n';
}

/* The length of the lines that both texts begin with. */
static inline size_t linkcap_golden_prefix(const struct linkcap_golden_text *a, const struct linkcap_golden_text *b)
{
    size_t at = 0, start = 0, least = a->length < b->length ? a->length : b->length;
    while (at < least && a->bytes[at] == b->bytes[at]) {
        at++;
        start = a->bytes[at - 1] == '\n' ? at : start;
    }
    return start;
}

/* The length of the lines that both texts end with, after the prefix. */
static inline size_t linkcap_golden_suffix(const struct linkcap_golden_text *a, const struct linkcap_golden_text *b, size_t prefix)
{
    size_t most = (a->length < b->length ? a->length : b->length) - prefix, size = 0, suffix = 0;
    while (size < most && a->bytes[a->length - size - 1] == b->bytes[b->length - size - 1]) {
        size++;
        if (linkcap_golden_begins_line(a->bytes, a->length - size) && linkcap_golden_begins_line(b->bytes, b->length - size))
            suffix = size;
    }
    return suffix;
}

/* The offset of the line that is some lines before an offset, or of the text's first line. */
static inline size_t linkcap_golden_back(const char *text, size_t at, int lines)
{
    while (at > 0 && (lines > 0 || !linkcap_golden_begins_line(text, at))) {
        at--;
        lines -= linkcap_golden_begins_line(text, at);
    }
    return at;
}

/* The length of the first lines of a text. */
static inline size_t linkcap_golden_first_lines(const char *text, size_t length, int lines)
{
    size_t at = 0;
    while (lines-- > 0)
        at += linkcap_golden_line(text + at, length - at);
    return at;
}

/* Writes each line of a text after a mark. */
static inline void linkcap_golden_print(char mark, const char *text, size_t length)
{
    size_t size;
    for (; length > 0; text += size, length -= size) {
        size = linkcap_golden_line(text, length);
        fputc(mark, stderr);
        fwrite(text, 1, size, stderr);
    }
}

/* Writes a mark, and lines of which the last one ends a text that may lack a newline. */
static inline void linkcap_golden_print_last(char mark, const char *text, size_t length)
{
    linkcap_golden_print(mark, text, length);
    if (length > 0 && text[length - 1] != '\n')
        fputs("\n\\ No newline at end of file\n", stderr);
}

/* Writes the range of lines of a text from an offset to another. An empty range has the number of the line before it. */
static inline void linkcap_golden_print_range(char mark, const char *text, size_t from, size_t to)
{
    size_t count = linkcap_golden_count_lines(text + from, to - from);
    unsigned long first = (unsigned long)linkcap_golden_count_lines(text, from) + (count > 0);
    fprintf(stderr, " %c%lu,%lu", mark, first, (unsigned long)count);
}

/* Writes the first line of the message that an offset is inside of. */
static inline void linkcap_golden_print_message(const char *text, size_t at)
{
    if (at == 0 || text[at] != ' ')
        return;
    do
        at = linkcap_golden_back(text, at, 1);
    while (at > 0 && text[at] == ' ');
    fprintf(stderr, " %.*s", (int)strcspn(text + at, "\n"), text + at);
}

/* Writes a unified diff with one hunk: all lines from the first to the last one that differ, and some around them. */
static inline void linkcap_golden_print_diff(const char *path, const struct linkcap_golden_text *a,
                                             const struct linkcap_golden_text *b)
{
    size_t start = linkcap_golden_prefix(a, b), suffix = linkcap_golden_suffix(a, b, start);
    size_t from = linkcap_golden_back(a->bytes, start, LINKCAP_GOLDEN_CONTEXT);
    size_t a_end = a->length - suffix, b_end = b->length - suffix;
    size_t after = linkcap_golden_first_lines(a->bytes + a_end, suffix, LINKCAP_GOLDEN_CONTEXT);
    fprintf(stderr, "--- %s\n+++ this capture\n@@", path);
    linkcap_golden_print_range('-', a->bytes, from, a_end + after);
    linkcap_golden_print_range('+', b->bytes, from, b_end + after);
    fputs(" @@", stderr);
    linkcap_golden_print_message(a->bytes, from);
    fputc('\n', stderr);
    linkcap_golden_print(' ', a->bytes + from, start - from);
    linkcap_golden_print_last('-', a->bytes + start, a_end - start);
    linkcap_golden_print_last('+', b->bytes + start, b_end - start);
    linkcap_golden_print_last(' ', a->bytes + a_end, after);
}

/* Whether a text with CRLF at its line ends is another one. */
static inline bool linkcap_golden_differs_by_crlf(const struct linkcap_golden_text *text,
                                                  const struct linkcap_golden_text *other)
{
    size_t at = 0, length = 0;
    for (; at < text->length && length < other->length && text->bytes[at] == other->bytes[length]; length++) {
        at++;
        at += at + 1 < text->length && text->bytes[at] == '\r' && text->bytes[at + 1] == '\n';
    }
    return at == text->length && length == other->length;
}

/* Reports that the lines of a file aren't those of a capture. */
static inline enum linkcap_status linkcap_golden_report_difference(const char *path, unsigned long version,
                                                                   const struct linkcap_golden_text *file,
                                                                   const struct linkcap_golden_text *lines)
{
    unsigned long format = (unsigned long)linkcap_format();
    if (linkcap_golden_differs_by_crlf(file, lines)) {
        fprintf(stderr,
                "linkcap: %s has the capture's lines, but ends them by CRLF: keep it as it was written, in git by a line"
                " `*.lines -text` of .gitattributes\n",
                path);
        return LINKCAP_DIFFERENT;
    }
    if (version != 0 && version != format)
        fprintf(stderr,
                "linkcap: %s has lines of format %lu, and this linkcap writes format %lu: update the file with the capture that it"
                " was made of (CHANGELOG.md)\n",
                path, version, format);
    else
        fputs("linkcap: the capture isn't that of the golden file\n", stderr);
    linkcap_golden_print_diff(path, file, lines);
    return LINKCAP_DIFFERENT;
}

/* ---- the comparison */

/* Compares lines, which are those of a capture without what options leave out, with those of a file that was read. */
static inline enum linkcap_status linkcap_golden_compare(const uint8_t *capture, size_t length, const char *path,
                                                         const struct linkcap_options *options,
                                                         const struct linkcap_golden_text *file,
                                                         struct linkcap_golden_text *lines)
{
    struct linkcap_golden_head head = {0, 0, false, NULL};
    struct linkcap_options all = *options;
    enum linkcap_status status = LINKCAP_WRONG;
    if (!linkcap_golden_read_head(file, &options->without, &head))
        return linkcap_golden_no_memory();
    all.without.bytes = head.without;
    all.without.length = strlen(head.without);
    if (head.varies)
        fprintf(stderr,
                "linkcap: %s is of linkgold --effect, and leaves out what varies between two runs: compare it by linkgold\n",
                path);
    else
        status = linkcap_golden_lines(capture, length, &all, lines);
    struct linkcap_golden_text rest = {file->bytes + head.length, file->length - head.length};
    if (status == LINKCAP_OK && (rest.length != lines->length || memcmp(rest.bytes, lines->bytes, rest.length) != 0))
        status = linkcap_golden_report_difference(path, head.version, &rest, lines);
    free(head.without);
    return status;
}

static inline enum linkcap_status linkcap_golden_with(const uint8_t *capture, size_t length, const char *path,
                                                      const struct linkcap_options *options)
{
    const char *update = getenv(LINKCAP_GOLDEN_UPDATE);
    struct linkcap_golden_text lines = {NULL, 0}, file = {NULL, 0};
    struct linkcap_options selection = *options;
    selection.form = LINKCAP_LINES;
    enum linkcap_status status = linkcap_golden_lines(capture, length, &selection, &lines);
    bool is_update = update && *update && strcmp(update, "0") != 0;
    if (status == LINKCAP_OK && is_update)
        status = linkcap_golden_write(path, &options->without, &lines);
    else if (status == LINKCAP_OK && (status = linkcap_golden_read(path, &file)) == LINKCAP_OK)
        status = linkcap_golden_compare(capture, length, path, &selection, &file, &lines);
    free(file.bytes);
    free(lines.bytes);
    return status;
}

#endif
