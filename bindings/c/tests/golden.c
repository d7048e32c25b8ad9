/*
 * Tests linkcap_golden.h.
 *
 *     golden FOLDER
 *
 * The folder is empty, and there are `samples` in the working directory. Standard error goes to a file in the folder, whose
 * text is compared.
 */
#define _POSIX_C_SOURCE 200809L
#include <assert.h>
#include <stdio.h>
#include <stdlib.h>
#include <string.h>

#include "linkcap_golden.h"

#define HEAD "# linkcap lines, format 4\n"
#define HEADER_OF_A_LINK "  ifinfomsg family 0 (AF_UNSPEC) type 0 index 0 flags 0x0 change 0x0\n"
#define FIRST "RTM_NEWLINK flags 0x5 (REQUEST | ACK)\n" HEADER_OF_A_LINK
#define MTU_1281 "  IFLA_MTU 1281\n"
#define PROMISCUITY "  IFLA_PROMISCUITY 0\n"
#define LINES FIRST MTU_1281 PROMISCUITY

enum { SIZE = 48, SEQUENCE = 8, IFLA_MTU = 4, IFLA_PROMISCUITY = 30, MTU = 36, MTU_LENGTH = 32 };

static const char *folder;
static char path[4096];

/* An RTM_NEWLINK with this sequence number, an IFLA_MTU of 1280 and the number, and an IFLA_PROMISCUITY of 0. */
static void make(uint8_t number, uint8_t capture[SIZE])
{
    memset(capture, 0, SIZE);
    capture[0] = SIZE, capture[4] = 16, capture[6] = 5, capture[SEQUENCE] = number;
    capture[MTU_LENGTH] = 8, capture[MTU_LENGTH + 2] = IFLA_MTU, capture[MTU] = number, capture[MTU + 1] = 5;
    capture[40] = 8, capture[42] = IFLA_PROMISCUITY;
}

static void write_file(const char *name, const char *text)
{
    snprintf(path, sizeof path, "%s/%s", folder, name);
    FILE *file = fopen(path, "wb");
    assert(file && fwrite(text, 1, strlen(text), file) == strlen(text) && fclose(file) == 0);
}

/* The text of a file, up to the space that there is. */
static const char *read_file(const char *name)
{
    static char text[1 << 16];
    snprintf(path, sizeof path, "%s/%s", folder, name);
    FILE *file = fopen(path, "rb");
    assert(file);
    text[fread(text, 1, sizeof text - 1, file)] = '\0';
    fclose(file);
    return text;
}

static void begin_report(void)
{
    snprintf(path, sizeof path, "%s/report", folder);
    assert(freopen(path, "wb", stderr));
}

/* The report since begin_report. */
static const char *end_report(void)
{
    fflush(stderr);
    return read_file("report");
}

/* Compares the lines of a capture, and checks the status and a part of the report. */
static void expect(enum linkcap_status status, const char *part, const uint8_t *capture, size_t length, const char *name,
                   const struct linkcap_options *options)
{
    char golden[4096];
    snprintf(golden, sizeof golden, "%s/%s", folder, name);
    begin_report();
    enum linkcap_status found =
        options ? linkcap_golden_with(capture, length, golden, options) : linkcap_golden(capture, length, golden);
    const char *report = end_report();
    if (found != status || !strstr(report, part) || (status == LINKCAP_OK && *report)) {
        printf("status %d, expected %d; report '%s', expected '%s'\n", (int)found, (int)status, report, part);
        exit(1);
    }
}

static void test_equal_and_different(void)
{
    uint8_t first[SIZE], second[SIZE];
    make(1, first), make(2, second);
    write_file("a.lines", HEAD LINES);
    expect(LINKCAP_OK, "", first, SIZE, "a.lines", NULL);
    first[SEQUENCE + 1] = 9;
    expect(LINKCAP_OK, "", first, SIZE, "a.lines", NULL);
    expect(LINKCAP_DIFFERENT,
           "this capture\n@@ -1,4 +1,4 @@\n RTM_NEWLINK flags 0x5 (REQUEST | ACK)\n " HEADER_OF_A_LINK
           "-  IFLA_MTU 1281\n+  IFLA_MTU 1282\n   IFLA_PROMISCUITY 0\n",
           second, SIZE, "a.lines", NULL);
}

/* A hunk that begins inside of a message names it, and lines far from the difference are left out. */
static void test_hunks(void)
{
    uint8_t both[2 * SIZE];
    make(1, both), make(1, both + SIZE);
    write_file("a.lines", LINES FIRST MTU_1281 "  IFLA_PROMISCUITY 1\n");
    expect(LINKCAP_DIFFERENT,
           "@@ -5,4 +5,4 @@\n RTM_NEWLINK flags 0x5 (REQUEST | ACK)\n " HEADER_OF_A_LINK "   IFLA_MTU 1281\n-  IFLA_PROMISCUITY 1\n"
           "+  IFLA_PROMISCUITY 0\n",
           both, sizeof both, "a.lines", NULL);
    write_file("a.lines", LINES LINES LINES);
    expect(LINKCAP_DIFFERENT, "@@ -6,7 +6,3 @@ RTM_NEWLINK flags 0x5 (REQUEST | ACK)\n " HEADER_OF_A_LINK " ", both, sizeof both,
           "a.lines", NULL);
    write_file("a.lines", FIRST "  IFLA_MTU 1280\n" PROMISCUITY LINES);
    expect(LINKCAP_DIFFERENT, "@@ -1,6 +1,6 @@\n RTM_NEWLINK", both, sizeof both, "a.lines", NULL);
    expect(LINKCAP_DIFFERENT,
           "-  IFLA_MTU 1280\n+  IFLA_MTU 1281\n   IFLA_PROMISCUITY 0\n RTM_NEWLINK flags 0x5 (REQUEST | ACK)\n ", both, sizeof both,
           "a.lines", NULL);
}

static void test_files(void)
{
    uint8_t capture[SIZE];
    make(1, capture);
    write_file("a.lines", LINES);
    expect(LINKCAP_OK, "", capture, SIZE, "a.lines", NULL);
    write_file("a.lines", HEAD "RTM_NEWLINK flags 0x5 (REQUEST | ACK)\r\n");
    expect(LINKCAP_DIFFERENT, "@@ -1,1 +1,4 @@\n-RTM_NEWLINK flags 0x5 (REQUEST | ACK)\r\n+RTM_NEWLINK", capture, SIZE, "a.lines",
           NULL);
    write_file("a.lines", HEAD FIRST MTU_1281 "  IFLA_PROMISCUITY 0");
    expect(LINKCAP_DIFFERENT, "-  IFLA_PROMISCUITY 0\n\\ No newline at end of file\n+  IFLA_PROMISCUITY 0\n", capture, SIZE,
           "a.lines", NULL);
    write_file("a.lines", "# linkcap lines, format 3\n" FIRST PROMISCUITY);
    expect(LINKCAP_DIFFERENT, "has lines of format 3, and this linkcap writes format 4", capture, SIZE, "a.lines", NULL);
    write_file("a.lines", HEAD);
    expect(LINKCAP_DIFFERENT, "@@ -0,0 +1,4 @@\n+RTM_NEWLINK", capture, SIZE, "a.lines", NULL);
    write_file("a.lines", "");
    expect(LINKCAP_DIFFERENT, "@@ -0,0 +1,4 @@\n+RTM_NEWLINK", capture, SIZE, "a.lines", NULL);
    expect(LINKCAP_WRONG, "b.lines: write it with LINKCAP_UPDATE=1\n", capture, SIZE, "b.lines", NULL);
    expect(LINKCAP_WRONG, "/.: Is a directory\n", capture, SIZE, ".", NULL);
}

static void test_line_ends(void)
{
    static const char lines[] = HEAD LINES;
    char text[2 * sizeof lines];
    uint8_t capture[SIZE];
    size_t at, length = 0;
    make(1, capture);
    for (at = 0; lines[at]; text[length++] = lines[at++])
        if (lines[at] == '\n')
            text[length++] = '\r';
    text[length] = '\0';
    write_file("a.lines", text);
    expect(LINKCAP_DIFFERENT, "a.lines has the capture's lines, but ends them by CRLF", capture, SIZE, "a.lines", NULL);
}

static void test_heads(void)
{
    uint8_t capture[SIZE];
    make(1, capture);
    write_file("a.lines", HEAD "# leaves out: numbers, IFLA_MTU, probes\n" FIRST PROMISCUITY);
    expect(LINKCAP_OK, "", capture, SIZE, "a.lines", NULL);
    write_file("a.lines", HEAD "# leaves out: ifla_mtu\r\n# leaves out: numbers\n" FIRST PROMISCUITY);
    expect(LINKCAP_OK, "", capture, SIZE, "a.lines", NULL);
    write_file("a.lines", HEAD "# leaves out:\n" FIRST PROMISCUITY);
    expect(LINKCAP_DIFFERENT, "\n+" MTU_1281 "   IFLA_PROMISCUITY 0\n", capture, SIZE, "a.lines", NULL);
    write_file("a.lines", HEAD "# leaves out: IFLA_NAM\n" LINES);
    expect(LINKCAP_WRONG, "linkcap: no type, attribute or group is called \"IFLA_NAM\"\n", capture, SIZE, "a.lines", NULL);
    write_file("a.lines", HEAD "# leaves out what varies: RTM_NEWLINK > IFLA_MTU\n" FIRST PROMISCUITY);
    expect(LINKCAP_WRONG, "compare it by linkgold\n", capture, SIZE, "a.lines", NULL);
}

static void test_options(void)
{
    uint8_t capture[SIZE];
    struct linkcap_options numbers = {.flags = 0}, links = {.only = {"dellink", 7}}, unknown = {.only = {"newlnk", 6}};
    struct linkcap_options without = {
        .flags = LINKCAP_WITHOUT_NUMBERS, .only = {"newlink", 7}, .without = {"counters,IFLA_MTU", 17}};
    struct linkcap_options about_v0 = {.link = {"v0", 2}}, limit = {.limit = 47}, no_limit = {.limit = 15};
    make(1, capture);
    write_file("a.lines", "RTM_NEWLINK flags 0x5 (REQUEST | ACK) seq 1 port 0\n" HEADER_OF_A_LINK MTU_1281 PROMISCUITY);
    expect(LINKCAP_OK, "", capture, SIZE, "a.lines", &numbers);
    expect(LINKCAP_NONE, "has no message that is selected", capture, SIZE, "a.lines", &links);
    expect(LINKCAP_NONE, "has no message that is selected", capture, SIZE, "a.lines", &about_v0);
    expect(LINKCAP_WRONG, "is called \"newlnk\"", capture, SIZE, "a.lines", &unknown);
    expect(LINKCAP_FAULT, "linkcap: frame over the limit at 0\n", capture, SIZE, "a.lines", &limit);
    expect(LINKCAP_WRONG, "linkcap: limit under 16\n", capture, SIZE, "a.lines", &no_limit);
    write_file("a.lines", HEAD "# leaves out: IFLA_MTU, counters\n" FIRST PROMISCUITY);
    expect(LINKCAP_OK, "", capture, SIZE, "a.lines", &without);
}

static void test_faults(void)
{
    uint8_t capture[SIZE];
    make(1, capture);
    write_file("a.lines", LINES);
    expect(LINKCAP_NONE, "the capture is empty", NULL, 0, "a.lines", NULL);
    expect(LINKCAP_FAULT, "linkcap: cut frame at 0\n", capture, SIZE - 1, "a.lines", NULL);
    capture[MTU_LENGTH] = 7;
    expect(LINKCAP_FAULT, "linkcap: refused body at 0: IFLA_MTU: a payload of 3 bytes at 32\n", capture, SIZE, "a.lines", NULL);
}

/* Files that linkshow wrote have sequence numbers and port IDs, and no head. */
static void test_lines_of_linkshow(void)
{
    static uint8_t capture[1 << 16];
    struct linkcap_options numbers = {.flags = 0};
    FILE *file = fopen("samples/notify-vrf.bin", "rb");
    assert(file);
    size_t length = fread(capture, 1, sizeof capture, file);
    fclose(file);
    begin_report();
    assert(linkcap_golden_with(capture, length, "samples/notify-vrf.lines", &numbers) == LINKCAP_OK && !*end_report());
    assert(linkcap_golden(capture, length, "samples/notify-vrf.lines") == LINKCAP_DIFFERENT && strstr(end_report(), "\n-RTM_"));
}

static void test_updates(void)
{
    uint8_t capture[SIZE];
    struct linkcap_options without = {.without = {"counters,IFLA_MTU", 17}};
    make(1, capture);
    setenv("LINKCAP_UPDATE", "0", 1);
    expect(LINKCAP_WRONG, "no golden file", capture, SIZE, "new.lines", NULL);
    setenv("LINKCAP_UPDATE", "", 1);
    expect(LINKCAP_WRONG, "no golden file", capture, SIZE, "new.lines", NULL);
    setenv("LINKCAP_UPDATE", "1", 1);
    expect(LINKCAP_OK, "", capture, SIZE, "new.lines", NULL);
    assert(strcmp(read_file("new.lines"), HEAD LINES) == 0);
    expect(LINKCAP_OK, "", capture, SIZE, "other.lines", &without);
    assert(strcmp(read_file("other.lines"),
                  HEAD "# leaves out: counters,IFLA_MTU\n"
                       "RTM_NEWLINK flags 0x5 (REQUEST | ACK) seq 1 port 0\n" HEADER_OF_A_LINK PROMISCUITY) == 0);
    expect(LINKCAP_WRONG, "/none/new.lines: No such file or directory\n", capture, SIZE, "none/new.lines", NULL);
    expect(LINKCAP_NONE, "the capture is empty", NULL, 0, "new.lines", NULL);
    assert(strcmp(read_file("new.lines"), HEAD LINES) == 0);
    unsetenv("LINKCAP_UPDATE");
    expect(LINKCAP_OK, "", capture, SIZE, "new.lines", NULL);
    expect(LINKCAP_OK, "", capture, SIZE, "other.lines", &without);
}

int main(int argc, char **argv)
{
    assert(argc == 2);
    folder = argv[1];
    test_equal_and_different();
    test_hunks();
    test_files();
    test_line_ends();
    test_heads();
    test_options();
    test_faults();
    test_lines_of_linkshow();
    test_updates();
    return 0;
}
