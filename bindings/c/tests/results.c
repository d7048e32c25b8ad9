/*
 * Prints the results of stored cases of one kind, as the program vectors does. It reads a case from each line of standard
 * input, without the word of the kind:
 *
 *     sed -n 's/^norm //p' crates/vectors/stdin | results norm|pieces|same|show|show-pieces|why|quirks|attributes
 *
 * `pieces` and `show-pieces` pass captures in pieces of 1, 7 and 100 bytes, in turn, and print what `norm` and `show`
 * print. `why` takes cases of the kind `refusal`, `quirks` of the kind `spelling`, and `attributes` of any kind that has
 * a limit and a capture; it prints what tools/oracle/attributes.py does.
 */
#include <inttypes.h>
#include <stdbool.h>
#include <stdio.h>
#include <stdlib.h>
#include <string.h>

#include "linkcap.h"

struct bytes {
    uint8_t *at;
    size_t length;
};

static void fail(const char *message)
{
    fprintf(stderr, "results: %s\n", message);
    exit(1);
}

static struct bytes allocate(size_t length)
{
    struct bytes bytes = {malloc(length ? length : 1), length};
    if (!bytes.at)
        fail("no memory");
    return bytes;
}

static unsigned parse_digit(char c)
{
    if (c >= '0' && c <= '9')
        return c - '0';
    if (c >= 'a' && c <= 'f')
        return c - 'a' + 10;
    fail("no hex digit");
    return 0;
}

/* Returns the bytes of a word in hex, and moves *word to its end. */
static struct bytes read_hex(char **word)
{
    size_t digits = strspn(*word, "0123456789abcdef");
    struct bytes bytes = allocate(digits / 2);
    for (size_t i = 0; i < bytes.length; i++)
        bytes.at[i] = parse_digit((*word)[2 * i]) << 4 | parse_digit((*word)[2 * i + 1]);
    *word += digits;
    return bytes;
}

static void print_hex(struct bytes bytes)
{
    for (size_t i = 0; i < bytes.length; i++)
        printf("%02x", bytes.at[i]);
}

static void print_words(const struct linkcap_finding *finding)
{
    uint8_t words[LINKCAP_WORDS_ROOM];
    uint64_t length;
    if (linkcap_words(finding, words, sizeof words, &length) != LINKCAP_OK)
        fail("a finding without words");
    printf("%.*s", (int)length, (const char *)words);
}

/*
 * Writes what options ask for of a capture, given in pieces of `size` bytes or whole if that is 0, to a buffer that grows to
 * what the longest message needs.
 */
static struct bytes write_all(const struct linkcap_options *options, struct bytes capture, size_t size,
                              enum linkcap_status *status, struct linkcap_finding *fault)
{
    struct bytes text = allocate(0), out = allocate(1);
    struct linkcap_piece piece = {capture.at, size ? 0 : capture.length, 0, !size || !capture.length, 0};
    struct linkcap_progress progress;
    for (;;) {
        *status = linkcap_write(options, &piece, out.at, out.length, &progress, fault);
        text.at = realloc(text.at, text.length + progress.written + 1);
        if (!text.at)
            fail("no memory");
        memcpy(text.at + text.length, out.at, progress.written);
        text.length += progress.written;
        piece.bytes += progress.used, piece.length -= progress.used, piece.offset += progress.used;
        if (*status == LINKCAP_NO_ROOM) {
            if (progress.written == 0) {
                free(out.at);
                out = allocate(progress.wanted);
            }
        } else if (*status == LINKCAP_OK && !piece.last) {
            size_t left = capture.length - piece.offset - piece.length;
            piece.length += left < size ? left : size;
            piece.last = left <= size;
        } else {
            break;
        }
    }
    if (*status != LINKCAP_OK && *status != LINKCAP_FAULT)
        fail("neither a text nor a fault");
    free(out.at);
    return text;
}

/* Checks that iteration yields `frames` messages and ends at the capture's end, or at its first fault. */
static void count_messages(struct bytes capture, const struct linkcap_options *options, enum linkcap_status status, uint64_t frames,
                           struct linkcap_finding *fault)
{
    struct linkcap_message message;
    struct linkcap_finding last_fault;
    uint64_t offset = 0, count = 0;
    enum linkcap_status last_status;
    while ((last_status = linkcap_next_message(capture.at, capture.length, options, offset, &message, &last_fault)) == LINKCAP_OK) {
        const uint8_t *at = capture.at + offset;
        uint32_t length = at[0] | at[1] << 8 | at[2] << 16 | (uint32_t)at[3] << 24, type = at[4] | (uint32_t)at[5] << 8;
        if (message.length != length || message.type != type)
            fail("a message with another length or type than its header's");
        offset = message.next;
        count++;
    }
    if (status == LINKCAP_OK ? last_status != LINKCAP_NONE || count != frames || offset != capture.length
                             : last_status != LINKCAP_FAULT || last_fault.kind != fault->kind
                                   || last_fault.offset != fault->offset)
        fail("messages with another end");
}

static void run_norm(struct bytes capture, const struct linkcap_options *options, size_t size)
{
    enum linkcap_status status;
    struct linkcap_finding fault, other_fault;
    struct linkcap_sizes sizes;
    struct bytes text = write_all(options, capture, size, &status, &fault);
    print_hex(text);
    if (linkcap_check(capture.at, capture.length, options, &sizes, &other_fault) != status)
        fail("a check with another answer");
    if (status == LINKCAP_FAULT) {
        if (other_fault.kind != fault.kind || other_fault.offset != fault.offset)
            fail("a check with another fault");
        printf(" ");
        print_words(&fault);
        printf("\n");
    } else {
        if (sizes.text_high || sizes.text_low != text.length)
            fail("a check with another length");
        printf(" %" PRIu64 " %" PRIu64 " %" PRIu64 "\n", sizes.frames, sizes.attributes, sizes.text_low);
    }
    count_messages(capture, options, status, status == LINKCAP_OK ? sizes.frames : UINT64_MAX, &fault);
    free(text.at);
}

/* Checks that captures mean the same without numbers if and only if their lines without numbers are equal. */
static void compare_without_numbers(struct bytes first, struct bytes second, struct linkcap_options options,
                                    enum linkcap_status status_with_numbers)
{
    enum linkcap_status first_status, second_status;
    struct linkcap_finding fault;
    options.flags = LINKCAP_WITHOUT_NUMBERS;
    options.form = LINKCAP_LINES;
    enum linkcap_status status = linkcap_same(first.at, first.length, second.at, second.length, &options, &fault);
    if (status_with_numbers == LINKCAP_FAULT ? status != LINKCAP_FAULT : status != LINKCAP_OK && status != status_with_numbers)
        fail("another answer without numbers");
    struct bytes a = write_all(&options, first, 0, &first_status, &fault);
    struct bytes b = write_all(&options, second, 0, &second_status, &fault);
    bool is_equal = a.length == b.length && memcmp(a.at, b.at, a.length) == 0;
    if (first_status == LINKCAP_OK && second_status == LINKCAP_OK && is_equal != (status == LINKCAP_OK))
        fail("another answer than lines without numbers");
    free(a.at);
    free(b.at);
}

static void run_same(struct bytes first, struct bytes second, const struct linkcap_options *options)
{
    struct linkcap_finding fault;
    enum linkcap_status status = linkcap_same(first.at, first.length, second.at, second.length, options, &fault);
    compare_without_numbers(first, second, *options, status);
    switch (status) {
    case LINKCAP_OK:
        printf("same");
        break;
    case LINKCAP_DIFFERENT:
        printf("different");
        break;
    case LINKCAP_FAULT:
        print_words(&fault);
        break;
    default:
        fail("no answer of two captures");
    }
    printf("\n");
}

/* Reads what lines a case selects, between limit and capture: `without-numbers`, types separated by commas, or all lines. */
static void read_choice(char **word, struct linkcap_options *options)
{
    static const char without[] = "without-numbers ";
    options->form = LINKCAP_LINES;
    if (strncmp(*word, without, strlen(without)) == 0) {
        options->flags = LINKCAP_WITHOUT_NUMBERS;
        *word += strlen(without);
    } else if (strchr(*word, ' ') != NULL) {
        options->only = (struct linkcap_text){*word, strcspn(*word, " ")};
        *word += options->only.length + 1;
    }
}

static void run_show(struct bytes capture, const struct linkcap_options *options, size_t size)
{
    enum linkcap_status status;
    struct linkcap_finding fault;
    struct bytes lines = write_all(options, capture, size, &status, &fault);
    fwrite(lines.at, 1, lines.length, stdout);
    if (status == LINKCAP_FAULT)
        print_words(&fault);
    else
        printf("legal");
    printf("\n");
    free(lines.at);
}

/* Prints the words of linkcap_why, in a buffer of exactly their length, and checks that they end with the same offset. */
static void run_why(struct bytes capture, const struct linkcap_options *options)
{
    struct linkcap_piece piece = {capture.at, capture.length, 0, 1, 0};
    struct linkcap_sizes sizes;
    struct linkcap_finding fault;
    uint64_t length = 7, offset = 7, offset_in_words = UINT64_MAX;
    if (linkcap_why(options, &piece, NULL, 0, &length, &offset) == LINKCAP_NONE) {
        if (length != 0 || offset != UINT64_MAX)
            fail("no reason, and a length or a place");
        printf("nothing\n");
        return;
    }
    struct bytes words = allocate(length + 1);
    if (linkcap_why(options, &piece, words.at, length, &length, &offset) != LINKCAP_OK || length + 1 != words.length)
        fail("no reason, or one of another length");
    words.at[length] = '\0';
    char *at = strstr((char *)words.at, " at ");
    if (at)
        offset_in_words = strtoull(at + 4, NULL, 10);
    if (offset_in_words != offset)
        fail("another place than the words'");
    if (linkcap_check(capture.at, capture.length, options, &sizes, &fault) != LINKCAP_FAULT || fault.kind != LINKCAP_REFUSED)
        fail("a reason, and no refused body");
    printf("%s\n", (char *)words.at);
    free(words.at);
}

/* Prints the quirks, read into an array of exactly their number, and then `legal` or the fault. */
static void run_quirks(struct bytes capture, const struct linkcap_options *options)
{
    struct linkcap_finding fault;
    uint64_t count = 0;
    enum linkcap_status status = linkcap_quirks(capture.at, capture.length, options, NULL, 0, &count, &fault);
    struct linkcap_finding *quirks = calloc(count + 1, sizeof *quirks);
    if (!quirks)
        fail("no memory");
    if (status == LINKCAP_NO_ROOM)
        status = linkcap_quirks(capture.at, capture.length, options, quirks, count, &count, &fault);
    for (uint64_t i = 0; i < count; i++) {
        print_words(&quirks[i]);
        printf("; ");
    }
    if (status == LINKCAP_FAULT)
        print_words(&fault);
    else if (status == LINKCAP_OK)
        printf("legal");
    else
        fail("neither quirks nor a fault");
    printf("\n");
    free(quirks);
}

static const char *name_or_dash(const char name[LINKCAP_NAME_ROOM])
{
    if (!memchr(name, 0, LINKCAP_NAME_ROOM))
        fail("a name without a null byte at its end");
    return *name ? name : "-";
}

/* Checks that an attribute is what its header in the capture says, and is at `position` or after it; and prints it. */
static void print_attribute(struct bytes capture, uint64_t position, const struct linkcap_attribute *attribute)
{
    if (attribute->offset < position || attribute->payload != attribute->offset + 4
        || attribute->payload + attribute->length > capture.length)
        fail("an attribute elsewhere");
    const uint8_t *header = capture.at + attribute->offset;
    if (attribute->length + 4 != (header[0] | (uint32_t)header[1] << 8)
        || (attribute->type | attribute->flags) != (header[2] | (uint32_t)header[3] << 8))
        fail("an attribute with another header");
    printf("%" PRIu64 " %" PRIu64 " 0x%" PRIx32 " 0x%" PRIx32 " %" PRIu32 " %s %s\n", attribute->offset, attribute->length,
           attribute->type, attribute->flags, attribute->depth, name_or_dash(attribute->name),
           name_or_dash(attribute->link_kind));
}

/* Prints the attributes of each message, a line each, and then `legal` or the fault. */
static void run_attributes(struct bytes capture, const struct linkcap_options *options)
{
    enum linkcap_status status, last;
    struct linkcap_message message;
    struct linkcap_attribute attribute;
    struct linkcap_finding fault;
    struct linkcap_sizes sizes;
    uint64_t offset = 0, position, count = 0;
    for (; (status = linkcap_next_message(capture.at, capture.length, options, offset, &message, &fault)) == LINKCAP_OK;
         offset = message.next) {
        for (position = offset; (last = linkcap_next_attribute(capture.at, capture.length, options, offset, position, &attribute,
                                                               &fault)) == LINKCAP_OK; position = attribute.payload) {
            print_attribute(capture, position, &attribute);
            count++;
        }
        if (last != LINKCAP_NONE)
            fail("a legal message, and its attributes don't end");
    }
    if (linkcap_next_attribute(capture.at, capture.length, options, offset, 0, &attribute, &fault) != status)
        fail("another answer for attributes than for messages");
    if (linkcap_check(capture.at, capture.length, options, &sizes, &fault) == LINKCAP_OK && sizes.attributes != count)
        fail("another number of attributes than the check's");
    if (status == LINKCAP_FAULT)
        print_words(&fault);
    else
        printf("legal");
    printf("\n");
}

int main(int argc, char **argv)
{
    static const size_t sizes[] = {1, 7, 100};
    const char *mode = argc == 2 ? argv[1] : "";
    char *line = NULL;
    size_t capacity = 0;
    for (size_t cases = 0; getline(&line, &capacity, stdin) > 0; cases++) {
        char *word = line;
        struct linkcap_options options = {.limit = strtoul(word, &word, 10)};
        word++;
        if (strncmp(mode, "show", 4) == 0)
            read_choice(&word, &options);
        struct bytes capture = read_hex(&word);
        if (strcmp(mode, "norm") == 0) {
            run_norm(capture, &options, 0);
        } else if (strcmp(mode, "pieces") == 0) {
            run_norm(capture, &options, sizes[cases % 3]);
        } else if (strcmp(mode, "show") == 0) {
            run_show(capture, &options, 0);
        } else if (strcmp(mode, "show-pieces") == 0) {
            run_show(capture, &options, sizes[cases % 3]);
        } else if (strcmp(mode, "quirks") == 0) {
            run_quirks(capture, &options);
        } else if (strcmp(mode, "why") == 0) {
            run_why(capture, &options);
        } else if (strcmp(mode, "attributes") == 0) {
            run_attributes(capture, &options);
        } else if (strcmp(mode, "same") == 0) {
            word++;
            struct bytes other = read_hex(&word);
            run_same(capture, other, &options);
            free(other.at);
        } else {
            fail("norm, pieces, same, show, show-pieces, why, quirks or attributes?");
        }
        free(capture.at);
    }
    free(line);
    return 0;
}
