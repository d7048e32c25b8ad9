/*
 * linkcap: captures of Linux netlink link messages, checked, compared, normalised and shown. linkcap(3) is the manual.
 *
 *     struct linkcap_options options = {0};
 *     struct linkcap_sizes sizes;
 *     struct linkcap_finding fault;
 *     if (linkcap_check(capture, length, &options, &sizes, &fault) == LINKCAP_FAULT)
 *         printf("a fault in the message at %llu\n", (unsigned long long)fault.offset);
 *
 * A capture is a byte string of netlink messages, each at a multiple of 4. It is legal if it has no fault. Its normal text
 * is its canonical form: two legal captures mean the same if and only if their normal texts are equal.
 * docs/languages.md is the page for callers, docs/statuses.md has the faults and the limit.
 *
 * What holds of every function:
 *
 * - Pointers. Each points to what its type says. Captures, `bytes`, `quirks` and buffers may be null if their length is 0;
 *   no other pointer may be null. A capture, or a piece, is `length` bytes that nobody writes to during the call; a buffer
 *   `out` is `room` bytes that may be written, and hold any values. What is written overlaps nothing that is read or
 *   written by the same call. Lengths are under 2^63. Nothing is kept of a pointer after the call.
 * - Memory. linkcap_write and linkcap_why call malloc, realloc and free, and have freed all blocks when they return. The
 *   others allocate nothing. If malloc or realloc returns null, a function returns LINKCAP_NO_MEMORY, or its usual
 *   result if it can do without; none ends the process. Who replaces malloc, realloc or free replaces all three, and keeps
 *   C's alignment.
 * - Threads. Calls share nothing: any number may run at once in different threads, also over the same capture.
 * - Signals and forks. Don't call linkcap_write or linkcap_why in a signal handler, nor, between fork and exec, in the child
 *   of a process with threads (such as a worker of Python's multiprocessing with "fork").
 */
#ifndef LINKCAP_H
#define LINKCAP_H

#include <stddef.h>
#include <stdint.h>

#ifdef __cplusplus
extern "C" {
#endif

/* The version of this interface. A program that loads the library when it runs compares it with linkcap_version(). */
#define LINKCAP_VERSION 3

/*
 * The format version of normal texts and lines of the library that this header came with, as `linkshow --version` prints
 * it. Under one version both stay as they are, byte for byte. A program that loads the library when it runs compares it
 * with linkcap_format().
 */
#define LINKCAP_FORMAT 4

/* A limit is the greatest length in bytes that a message, read or written, may have: from 16 to 4294967295. */
#define LINKCAP_MIN_LIMIT 16
#define LINKCAP_DEFAULT_LIMIT 1048576

/* The size of a buffer for the words of any fault, or of any quirk. They have no null byte at their end. */
#define LINKCAP_WORDS_ROOM 127

/* The size of an array for a name and the null bytes after it, of which there is at least one. */
#define LINKCAP_NAME_ROOM 64

/* A compiler warns of a call whose status isn't used. */
#ifdef __GNUC__
#define LINKCAP_STATUS __attribute__((warn_unused_result)) enum linkcap_status
#else
#define LINKCAP_STATUS enum linkcap_status
#endif

/* What functions return. The first four are the statuses of the program linkcap. */
enum linkcap_status {
    LINKCAP_OK = 0,        /* success: the capture is legal; two are legal and mean the same */
    LINKCAP_DIFFERENT = 1, /* both captures are legal and don't mean the same */
    LINKCAP_FAULT = 2,     /* a fault, which *fault has */
    LINKCAP_WRONG = 3,     /* options, a piece or a finding that isn't valid; nothing was written */
    LINKCAP_NO_ROOM = 4,   /* the buffer is too small for what is to be written */
    LINKCAP_NO_MEMORY = 5, /* out of memory */
    LINKCAP_NONE = 6       /* there is no further message or attribute, no refused body, or no unknown word */
};

/* What linkcap_write writes of a capture. */
enum linkcap_form {
    LINKCAP_TEXT = 0,  /* its normal text */
    LINKCAP_LINES = 1, /* lines for people, as the program linkshow does */
    LINKCAP_JSON = 2   /* each message as an object of JSON, with what its lines have, in a line of its own */
};

/* Flags of options. */
enum linkcap_flag {
    LINKCAP_WITHOUT_NUMBERS = 1, /* without sequence numbers and netlink port IDs */
    LINKCAP_OFFSETS = 2,         /* each message's first line ends with its offset in the capture, in bytes */
    LINKCAP_KEEP_GOING = 4       /* a message with a fault in its body is shown too, in hex, and those after it */
};

/* A text without a null byte at its end. Of length 0 it stands for none. */
struct linkcap_text {
    const char *bytes;
    size_t length;
};

/*
 * Options. All zeros are the defaults. They are valid if the limit is 0 or at least 16, each flag is one of enum linkcap_flag,
 * the form is one of enum linkcap_form, `reserved` is 0, and each word of `only` and `without` is known. Each function says which
 * options it uses, and ignores the values of the others; but all have to be valid, except for linkcap_unknown_word.
 *
 * The texts are those of linkshow's options. The case of ASCII letters counts only in `link`.
 */
struct linkcap_options {
    struct linkcap_text only;    /* types of messages, with commas between them: numbers, or names as `newlink`. At most 32 */
    struct linkcap_text link;    /* the name, alternative name or index of the link that messages have to be about */
    struct linkcap_text without; /* attributes that are left out with what they nest: the kernel's names, at most 32, and groups
                                    of linkshow(1), as `counters`, with commas between them */
    uint32_t limit;              /* 0 for LINKCAP_DEFAULT_LIMIT */
    uint32_t flags;              /* enum linkcap_flag, joined by | */
    uint32_t form;               /* an enum linkcap_form */
    uint32_t reserved;           /* 0 */
};

/* A piece of a capture. A whole capture is a piece at the offset 0, and the last. */
struct linkcap_piece {
    const uint8_t *bytes;
    size_t length;
    uint64_t offset;   /* of the first byte in the capture */
    uint32_t last;     /* 1 if no piece follows, else 0 */
    uint32_t reserved; /* 0 */
};

/* How far linkcap_write came. */
struct linkcap_progress {
    uint64_t used;    /* bytes at the start of the piece whose output is complete */
    uint64_t written; /* bytes in out */
    uint64_t wanted;  /* on LINKCAP_NO_ROOM the bytes that the next message needs, else 0 */
};

/*
 * Kinds of faults. Calls of this library return the first eight; the others are those of the programs, and of the readers in
 * Rattle.
 */
enum linkcap_kind {
    LINKCAP_CUT = 1,         /* fewer than 16 bytes are left, or fewer than the header's length */
    LINKCAP_SHORT_LENGTH,    /* the header's length is under 16 */
    LINKCAP_OVER_LIMIT,      /* the header's length is over the limit */
    LINKCAP_REFUSED,         /* the body isn't accepted */
    LINKCAP_EMPTY_PORTS,     /* an IFLA_VF_PORTS has no IFLA_VF_PORT, so that it would be empty in the normal text */
    LINKCAP_UNFIT,           /* an attribute of the text would be longer than 65535 bytes */
    LINKCAP_TEXT_OVER_LIMIT, /* the length of the message's text would be over the limit */
    LINKCAP_MEMORY,          /* out of memory */
    LINKCAP_READ,            /* a read failed */
    LINKCAP_WRITE,           /* a write failed */
    LINKCAP_TOO_LONG,        /* more bytes than can be counted */
    LINKCAP_FAILED           /* a fault came before */
};

/* Kinds of quirks, encodings that some kernels treat differently from their normal texts: the rows of docs/kernels.md. */
enum linkcap_quirk_kind {
    LINKCAP_NESTED_PORT_SETTINGS = 101, /* IFLA_PROTINFO with the nested bit, under AF_BRIDGE */
    LINKCAP_RESIZED_SETTINGS,           /* IFLA_INET_CONF not of 132 bytes */
    LINKCAP_PATH_DISCOVERY_OVER_ONE,    /* IFLA_GRE_PMTUDISC over 1 */
    LINKCAP_LATER_PEER,                 /* the peer of veth or vxcan behind another attribute */
    LINKCAP_LONG_ALIAS,                 /* IFLA_IFALIAS of 255 bytes without a NUL */
    LINKCAP_NAME_WITHOUT_NUL,           /* a name without a NUL */
    LINKCAP_FLAG_WITH_PAYLOAD,          /* a flag with a payload */
    LINKCAP_BOOLEAN_OVER_ONE,           /* a boolean over 1 that kernels check */
    LINKCAP_STRAY_NESTED_BIT,           /* NLA_F_NESTED on an attribute that isn't nested */
    LINKCAP_FOREIGN_FUNCTION,           /* an entry of IFLA_VFINFO_LIST whose type isn't IFLA_VF_INFO */
    LINKCAP_HEADER_BYTE,                /* the second byte of the header of RTM_GETLINK isn't 0 */
    LINKCAP_SHORT_MAP                   /* IFLA_MAP under 32 bytes */
};

/*
 * A fault, or a quirk. The parameter `fault` is written if LINKCAP_FAULT or LINKCAP_NO_MEMORY is returned; after another
 * status it is unchanged.
 */
struct linkcap_finding {
    uint32_t kind;   /* an enum linkcap_kind, or an enum linkcap_quirk_kind */
    uint32_t side;   /* of two captures 1 for the first and 2 for the second, else 0 */
    uint64_t offset; /* in bytes from the capture's start: of a fault that of its message, of a quirk that of its attribute,
                        or of the header's byte */
};

/* The sizes of a legal capture. */
struct linkcap_sizes {
    uint64_t frames;     /* messages */
    uint64_t attributes; /* attribute headers in the bodies of its link messages, at all depths */
    uint64_t text_low;   /* the length of its normal text in bytes, which is text_low + 2^64 * text_high */
    uint64_t text_high;
};

/* A message of a capture. */
struct linkcap_message {
    uint64_t next;   /* the offset of the next message; after the last one, the capture's length */
    uint32_t length; /* its length in bytes, as its header has it, without padding */
    uint32_t type;   /* its nlmsg_type */
};

/* An attribute of a link message. An array for a name that isn't there has only null bytes. */
struct linkcap_attribute {
    uint64_t offset;                   /* of its header, in bytes from the capture's start */
    uint64_t payload;                  /* the offset of its payload, from which on the next attribute is found */
    uint64_t length;                   /* of its payload, in bytes */
    uint32_t type;                     /* its nla_type, without flag bits */
    uint32_t flags;                    /* the flag bits of its nla_type: NLA_F_NESTED and NLA_F_NET_BYTEORDER */
    uint32_t depth;                    /* the number of attributes that it is inside, from 0 to 6 */
    char name[LINKCAP_NAME_ROOM];      /* its name in the kernel's headers, as "IFLA_VXLAN_ID" */
    char link_kind[LINKCAP_NAME_ROOM]; /* the link kind, or kind of port, whose data it holds or is in, as "vxlan": at most its
                                          first 63 bytes */
};

/*
 * Whether a capture is legal, and its sizes. It uses the limit.
 *
 * LINKCAP_OK           the capture is legal, and *sizes has its sizes.
 * LINKCAP_FAULT        its first fault. *sizes is unchanged.
 * LINKCAP_WRONG        options that aren't valid. *sizes is unchanged.
 */
LINKCAP_STATUS linkcap_check(const uint8_t *capture, size_t length, const struct linkcap_options *options,
                             struct linkcap_sizes *sizes, struct linkcap_finding *fault);

/*
 * Whether two captures mean the same, which is if and only if their normal texts are equal. It uses the limit, and the flag
 * LINKCAP_WITHOUT_NUMBERS: with it the sequence number and the netlink port ID of each message, and those of the request's
 * header that an NLMSG_ERROR repeats, are zeroed before. They change from run to run. With this flag, two legal captures
 * mean the same if and only if their lines that are written with it are equal.
 *
 * LINKCAP_OK           both are legal, and mean the same.
 * LINKCAP_DIFFERENT    both are legal, and don't.
 * LINKCAP_FAULT        the first fault of the first one, or of the second if the first is legal.
 * LINKCAP_WRONG        options that aren't valid.
 */
LINKCAP_STATUS linkcap_same(const uint8_t *first, size_t first_length, const uint8_t *second, size_t second_length,
                            const struct linkcap_options *options, struct linkcap_finding *fault);

/*
 * Writes the text, the lines or the JSON of the messages that are whole in a piece of a capture, with their padding, to the
 * start of out, one message after the other as far as there is space. In the last piece the last message may lack padding.
 * It uses all options; with LINKCAP_TEXT, `flags` has to be 0, and `only`, `link` and `without` empty.
 *
 * Nothing is kept between calls. The next piece begins at the first byte that wasn't used, at the offset
 * piece->offset + progress->used. It has the bytes that weren't used and more, or is the last. What all calls
 * write, one after the other, is what is written of the whole capture, and the first fault is the whole's.
 *
 * LINKCAP_OK           all whole messages are written. Of the last piece all is used, and if no call returned a fault, the
 *                      capture is legal.
 * LINKCAP_FAULT        the first fault of the piece; what is before it is written. Writing stops at its message, which is at
 *                      the offset piece->offset + progress->used. But with LINKCAP_KEEP_GOING, a message whose body has the
 *                      fault is written too, and fault->offset is less than that sum: note the first such fault, and call
 *                      again with the bytes after it. If both are equal, writing has stopped. Only the last piece has
 *                      LINKCAP_CUT.
 * LINKCAP_WRONG        options that aren't valid; with LINKCAP_TEXT flags or texts; a piece whose `reserved` isn't 0, or that
 *                      ends 2^64 bytes or more after the capture's start. *progress is unchanged.
 * LINKCAP_NO_ROOM      the next message needs progress->wanted bytes, and fewer are left in out. What came before it is
 *                      written: go on after it with an empty buffer, or a larger one if nothing was written.
 * LINKCAP_NO_MEMORY    out of memory for the message at fault->offset, which is the next. What came before it is written.
 *
 * After progress->written bytes out is unchanged. A normal text is at most 77 times as long as its capture, and mostly as long as it.
 * Memory is allocated for the text and the lines of one message at a time.
 */
LINKCAP_STATUS linkcap_write(const struct linkcap_options *options, const struct linkcap_piece *piece, uint8_t *out,
                             size_t room, struct linkcap_progress *progress, struct linkcap_finding *fault);

/*
 * The message that starts at an offset, which is 0 or the `next` of the message before it. Nothing is kept between calls.
 * The time that it takes is in proportion to the message's length. It uses the limit.
 *
 * LINKCAP_OK           *message has it. It is legal.
 * LINKCAP_FAULT        it has a fault, the capture's first if all before it were legal. *message is unchanged.
 * LINKCAP_WRONG        options that aren't valid. *message is unchanged.
 * LINKCAP_NONE         the offset is the capture's length, or greater: all messages were returned. *message is unchanged.
 *
 *     for (offset = 0; linkcap_next_message(capture, length, &options, offset, &message, &fault) == LINKCAP_OK;
 *          offset = message.next)
 */
LINKCAP_STATUS linkcap_next_message(const uint8_t *capture, size_t length, const struct linkcap_options *options,
                                    uint64_t offset, struct linkcap_message *message, struct linkcap_finding *fault);

/*
 * The first attribute at a position or after it, of the link message that starts at the offset `message`, which is 0 or the
 * `next` of the message before it. Attributes come at all depths in the order of their bytes, each before those in it. For the
 * first one, the position is `message`, and for the one after an attribute it is the attribute's `payload`. Attributes are
 * nested as the rows of docs/format/rows.md say; what is in raw attributes isn't returned. Nothing is kept between calls. The
 * time that a call takes is in proportion to the message's length. It uses the limit.
 *
 * LINKCAP_OK           *attribute has it. The message is legal.
 * LINKCAP_FAULT        the message has a fault. *attribute is unchanged.
 * LINKCAP_WRONG        options that aren't valid. *attribute is unchanged.
 * LINKCAP_NONE         there is none: all were returned, the message is of another type than those of links, or its offset is the
 *                      capture's length, or greater. *attribute is unchanged.
 *
 *     for (position = offset; linkcap_next_attribute(capture, length, &options, offset, position, &attribute, &fault)
 *          == LINKCAP_OK; position = attribute.payload)
 */
LINKCAP_STATUS linkcap_next_attribute(const uint8_t *capture, size_t length, const struct linkcap_options *options,
                                      uint64_t message, uint64_t position, struct linkcap_attribute *attribute,
                                      struct linkcap_finding *fault);

/*
 * Writes each quirk of a capture, in the order of the bytes, to the array quirks, which has space for `room` of them, and
 * their number to *count. docs/kernels.md says what kernels do. It uses the limit.
 *
 * LINKCAP_OK           the capture is legal, and its quirks are written. A normal text has none.
 * LINKCAP_FAULT        the first fault; the quirks of the messages before it are written.
 * LINKCAP_WRONG        options that aren't valid. *count is unchanged.
 * LINKCAP_NO_ROOM      there are more: none is written, and *count has their number (at most 2^64 - 1). This is returned
 *                      rather than a fault.
 */
LINKCAP_STATUS linkcap_quirks(const uint8_t *capture, size_t length, const struct linkcap_options *options,
                              struct linkcap_finding *quirks, size_t room, uint64_t *count, struct linkcap_finding *fault);

/*
 * What of a refused body isn't accepted, if the first fault of a piece is LINKCAP_REFUSED: the attribute's names from outside
 * in, the reason and the offset, in ASCII, as `IFLA_LINKINFO > IFLA_INFO_DATA > IFLA_VRF_TABLE: a payload of 3 bytes at 60`.
 * Offsets are those in the capture. It uses the limit, and not whether the piece is the last.
 *
 * LINKCAP_OK           the words are written to the start of out, without a null byte after them, their length to *written,
 *                      and to *offset where the attribute begins, in bytes from the capture's start: UINT64_MAX for
 *                      NLMSG_ERROR and NLMSG_DONE.
 * LINKCAP_WRONG        options that aren't valid; a piece whose `reserved` isn't 0, or that ends 2^63 bytes or more after the
 *                      capture's start. *written and *offset are unchanged.
 * LINKCAP_NO_ROOM      out is too small for the words: *written has their length, and *offset is unchanged.
 * LINKCAP_NO_MEMORY    out of memory for the words. *written and *offset are unchanged.
 * LINKCAP_NONE         the piece has no fault, or its first is another one: *written is 0 and *offset UINT64_MAX.
 */
LINKCAP_STATUS linkcap_why(const struct linkcap_options *options, const struct linkcap_piece *piece, uint8_t *out,
                           size_t room, uint64_t *written, uint64_t *offset);

/*
 * Writes the words of a fault or a quirk and its offset in ASCII, as `cut frame at 48` or `flag with a payload at 76`, after
 * `first: ` or `second: ` if a fault has a side, to the start of out, without a null byte after them.
 *
 * LINKCAP_OK           they are written, and their length to *written.
 * LINKCAP_WRONG        `kind` or `side` has no valid value, or a quirk has a side. *written is unchanged.
 * LINKCAP_NO_ROOM      out is too small for the words: *written has their length.
 */
LINKCAP_STATUS linkcap_words(const struct linkcap_finding *finding, uint8_t *out, size_t room, uint64_t *written);

/*
 * Finds the first word of `only`, or else of `without`, that isn't known, and writes it to the start of out, without a null
 * byte after it. It uses these two alone.
 *
 * LINKCAP_OK           the word is written, and its length to *written.
 * LINKCAP_WRONG        a list isn't UTF-8, or is too long. *written is unchanged.
 * LINKCAP_NO_ROOM      out is too small for the word: *written has its length.
 * LINKCAP_NONE         all words are known: *written is 0.
 */
LINKCAP_STATUS linkcap_unknown_word(const struct linkcap_options *options, uint8_t *out, size_t room, uint64_t *written);

/* LINKCAP_VERSION of the library, and its LINKCAP_FORMAT. */
uint32_t linkcap_version(void);
uint32_t linkcap_format(void);

#ifdef __cplusplus
}
#endif

#endif
