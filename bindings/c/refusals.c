/* Every number that a call can answer, by the calls of the header: each is provoked, and what is left is compared. Conflicts (18)
 * are tried in recording, in the middle of a stream and in loading, and beside the numbers that come before and after them.
 *
 *     ./archive helmapricot
 *     cd bindings/c && cc -Wall -Wextra refusals.c -L ../../target/staticlib -lhelmapricot -o ../../target/refusals
 *     ../../target/refusals
 *
 * prints how many answers were as expected; the others, a line for each, before that, and then it ends with 1.
 */
#include "helmapricot.h"

#include <inttypes.h>
#include <stdio.h>
#include <string.h>

enum { NODES = 20, ENTRIES = 40, ROOM = HELMAPRICOT_NEEDED(NODES, ENTRIES), UNTOUCHED = 0xeeee };

static uint8_t memory[ROOM];
static uint8_t before[ROOM];
static uint8_t scratch[40 * HELMAPRICOT_PLACE_SIZE];
static uint8_t out[1024];
static uint8_t long_data[HELMAPRICOT_DATA_LIMIT + 1];
static struct helmapricot_row rows[8];
static unsigned right, wrong;

static void expect(const char *what, uint64_t expected, uint64_t got)
{
    if (expected == got) {
        right++;
        return;
    }
    wrong++;
    printf("%s: %" PRIu64 " expected, %" PRIu64 " answered\n", what, expected, got);
}

/* 1 for a buffer that is as it was filled before a call. */
static uint64_t left(const void *buffer, size_t size)
{
    for (size_t i = 0; i < size; i++)
        if (((const uint8_t *)buffer)[i] != 0xee)
            return 0;
    return 1;
}

static void note(void)
{
    memcpy(before, memory, sizeof memory);
}

/* An answer with which the memory is what it was when it was noted. */
static void leaves(const char *what, uint64_t expected, uint64_t got)
{
    expect(what, expected, got);
    expect("1 for a memory that is left as it was", 1, memcmp(before, memory, sizeof memory) == 0);
}

static void opened(uint64_t nodes, uint64_t entries)
{
    memset(memory, 0, sizeof memory);
    expect("opening", HELMAPRICOT_DONE, helmapricot_open(memory, sizeof memory, nodes, entries));
}

static uint64_t record(uint64_t kind, uint64_t address, uint64_t created_at, uint64_t destroyed_at, const char *text)
{
    return helmapricot_record(memory, sizeof memory, kind, address, created_at, destroyed_at, (const uint8_t *)text,
                              strlen(text));
}

typedef uint64_t search_call(const uint8_t *, size_t, const uint8_t *, size_t, uint8_t *, size_t, struct helmapricot_row *, size_t,
                             uint64_t *);

/* What a refusal leaves is looked at: the count, the rows and, but for 10 and 11, scratch. */
static uint64_t searched(search_call *call, const uint8_t *query, size_t query_len, size_t places, size_t room)
{
    uint64_t count = UNTOUCHED;
    memset(scratch, 0xee, sizeof scratch);
    memset(rows, 0xee, sizeof rows);
    uint64_t answer = call(memory, sizeof memory, query, query_len, scratch, places * HELMAPRICOT_PLACE_SIZE, rows, room, &count);
    if (answer == HELMAPRICOT_DONE)
        return answer;
    expect("a count after a refusal", UNTOUCHED, count);
    expect("1 for rows that are left", 1, left(rows, sizeof rows));
    if (answer != HELMAPRICOT_SCRATCH_TOO_SMALL && answer != HELMAPRICOT_TOO_MANY_ROWS)
        expect("1 for scratch that is left", 1, left(scratch, sizeof scratch));
    return answer;
}

static uint64_t search(const uint8_t *query, size_t query_len, size_t places, size_t room)
{
    return searched(helmapricot_search, query, query_len, places, room);
}

static uint64_t search_number(const char *typed, size_t places, size_t room)
{
    return searched(helmapricot_search_number, (const uint8_t *)typed, strlen(typed), places, room);
}

static uint64_t save(size_t room)
{
    uint64_t size = UNTOUCHED;
    uint64_t answer = helmapricot_save(memory, sizeof memory, out, room, &size);
    if (answer != HELMAPRICOT_DONE)
        expect("a size after a refusal", UNTOUCHED, size);
    return answer;
}

static uint64_t load(const uint8_t *image, size_t image_len)
{
    return helmapricot_load(memory, sizeof memory, image, image_len);
}

/* How many blocks a stream is to have taken is looked at, too. */
static uint64_t record_stream(const uint8_t *stream, size_t stream_len, uint64_t expected)
{
    uint64_t taken = UNTOUCHED;
    uint64_t answer = helmapricot_record_stream(memory, sizeof memory, stream, stream_len, &taken);
    expect("blocks taken", expected, taken);
    return answer;
}

/* The functions that write return the place behind what they wrote. */
static uint8_t *put_number(uint8_t *to, uint64_t n)
{
    for (int i = 0; i < 8; i++)
        *to++ = (uint8_t)(n >> 8 * i);
    return to;
}

static uint8_t *put_block(uint8_t *to, uint64_t address, uint64_t created_at, uint64_t destroyed_at, const char *text)
{
    *to++ = HELMAPRICOT_MEMORY;
    to = put_number(to, address);
    to = put_number(to, strlen(text));
    to = put_number(to, created_at);
    to = put_number(to, destroyed_at);
    memcpy(to, text, strlen(text));
    return to + strlen(text);
}

static uint8_t *put_lives(uint8_t *to, uint64_t created_at)
{
    to = put_number(put_number(put_number(put_number(to, 2), 0), 1), 3);
    return put_number(put_number(put_number(to, 0), created_at), 4);
}

enum { LIVES_IMAGE_SIZE = 172 };

/* The image of the byte a at address 0 from tick 1 to 3 and from a second tick to 4: a root and a node, two entries in each. */
static void lives_image(uint8_t *to, uint64_t created_at)
{
    *to++ = HELMAPRICOT_NODE_VERY_SPARSE;
    to = put_lives(put_number(put_number(to, 0), 0), created_at);
    to = put_number(to, 1);
    *to++ = 'a';
    to = put_number(to, 90);
    *to++ = 1;
    *to++ = HELMAPRICOT_NODE_VERY_SPARSE;
    to = put_lives(put_number(to, 0), created_at);
    put_number(put_number(to, 0), 0);
}

static void recording(void)
{
    opened(NODES, ENTRIES);
    expect("a block", HELMAPRICOT_DONE, record(HELMAPRICOT_MEMORY, 100, 10, 50, "abc"));
    note();
    leaves("search before finish", HELMAPRICOT_BEFORE_FINISH, search((const uint8_t *)"a", 1, 8, 8));
    leaves("save before finish", HELMAPRICOT_BEFORE_FINISH, save(sizeof out));
    leaves("kind 5", HELMAPRICOT_UNKNOWN_KIND, record(5, 100, 10, 50, "abc"));
    leaves("4,097 bytes", HELMAPRICOT_DATA_TOO_LONG,
           helmapricot_record(memory, sizeof memory, HELMAPRICOT_MEMORY, 100, 10, 50, long_data, sizeof long_data));
    leaves("no life", HELMAPRICOT_NO_LIFE, record(HELMAPRICOT_MEMORY, UINT64_MAX, 10, 10, "abc"));
    leaves("too high", HELMAPRICOT_ADDRESS_TOO_HIGH, record(HELMAPRICOT_MEMORY, UINT64_MAX - 2, 10, 50, "abc"));
    leaves("a byte of it at its last tick", HELMAPRICOT_CONFLICT, record(HELMAPRICOT_MEMORY, 102, 49, 60, "x"));
    leaves("its first byte by a block's last", HELMAPRICOT_CONFLICT, record(HELMAPRICOT_MEMORY, 98, 1, 11, "xyz"));
    leaves("the same once more, and too much", HELMAPRICOT_CONFLICT, record(HELMAPRICOT_MEMORY, 100, 10, 50, "abcdefghijklmnop"));
    leaves("too many nodes", HELMAPRICOT_TOO_MANY_NODES, record(HELMAPRICOT_MEMORY, 100, 50, 60, "abcdefghijklmnop"));
    leaves("another kind in its place", HELMAPRICOT_DONE, record(HELMAPRICOT_REGISTER, 100, 10, 50, "abc"));
    expect("its place behind it", HELMAPRICOT_DONE, record(HELMAPRICOT_MEMORY, 103, 10, 50, "x"));
    expect("its place after it", HELMAPRICOT_DONE, record(HELMAPRICOT_MEMORY, 100, 50, 60, "x"));
    expect("an empty block inside it", HELMAPRICOT_DONE, record(HELMAPRICOT_MEMORY, 101, 10, 50, ""));
    opened(NODES, 3);
    note();
    leaves("too many entries", HELMAPRICOT_TOO_MANY_ENTRIES, record(HELMAPRICOT_MEMORY, 100, 10, 50, "ab"));
    leaves("no node", HELMAPRICOT_CAPACITY_REFUSED, helmapricot_open(memory, sizeof memory, 0, 1));
    leaves("a byte too few", HELMAPRICOT_CAPACITY_REFUSED, helmapricot_open(memory, sizeof memory - 1, NODES, ENTRIES));
}

static void streams(void)
{
    uint8_t stream[4 * (HELMAPRICOT_BLOCK_HEADER_SIZE + 3)];
    uint8_t *end = put_block(put_block(stream, 100, 10, 50, "abc"), 103, 10, 30, "de");
    size_t two = (size_t)(end - stream);
    size_t whole = (size_t)(put_block(put_block(end, 104, 29, 31, "f"), 103, 30, 50, "de") - stream);
    uint64_t fields[7] = {UNTOUCHED};

    opened(NODES, ENTRIES);
    expect("a conflict in the middle", HELMAPRICOT_CONFLICT, record_stream(stream, whole, 2));
    note();
    opened(NODES, ENTRIES);
    leaves("the two blocks before it", HELMAPRICOT_DONE, record_stream(stream, two, 2));
    leaves("them once more", HELMAPRICOT_CONFLICT, record_stream(stream, two, 0));
    leaves("a cut block", HELMAPRICOT_CUT_SHORT, record_stream(stream, HELMAPRICOT_BLOCK_HEADER_SIZE, 0));
    expect("reading one", HELMAPRICOT_CUT_SHORT, helmapricot_read_block(stream, HELMAPRICOT_BLOCK_HEADER_SIZE, 0, fields));
    stream[0] = 5;
    leaves("an unknown kind", HELMAPRICOT_UNKNOWN_KIND, record_stream(stream, whole, 0));
    expect("reading one", HELMAPRICOT_UNKNOWN_KIND, helmapricot_read_block(stream, whole, 0, fields));
    expect("a field after a refusal", UNTOUCHED, fields[0]);
}

static void images(void)
{
    uint8_t image[LIVES_IMAGE_SIZE + 1] = {0};

    opened(2, 4);
    note();
    lives_image(image, 2);
    leaves("two lives that share tick 2", HELMAPRICOT_CONFLICT, load(image, LIVES_IMAGE_SIZE));
    leaves("a byte behind it", HELMAPRICOT_IMAGE_BROKEN, load(image, LIVES_IMAGE_SIZE + 1));
    leaves("without its last byte", HELMAPRICOT_CUT_SHORT, load(image, LIVES_IMAGE_SIZE - 1));
    image[91] = 4;
    leaves("an unknown kind of node", HELMAPRICOT_UNKNOWN_KIND, load(image, LIVES_IMAGE_SIZE));
    lives_image(image, 1);
    image[LIVES_IMAGE_SIZE - 32] = 2;
    leaves("a life that the root does not have", HELMAPRICOT_IMAGE_BROKEN, load(image, LIVES_IMAGE_SIZE));
    for (uint64_t nodes = 1; nodes <= 2; nodes++) {
        opened(nodes, 3);
        note();
        lives_image(image, 2);
        leaves("a conflict in an image that is too large", HELMAPRICOT_CONFLICT, load(image, LIVES_IMAGE_SIZE));
        lives_image(image, 3);
        leaves("an image that is too large", nodes == 1 ? HELMAPRICOT_TOO_MANY_NODES : HELMAPRICOT_TOO_MANY_ENTRIES,
               load(image, LIVES_IMAGE_SIZE));
    }
    opened(2, 4);
    expect("two lives that touch", HELMAPRICOT_DONE, load(image, LIVES_IMAGE_SIZE));
    expect("saving them", HELMAPRICOT_DONE, save(sizeof out));
    expect("1 for the image saved", 1, memcmp(image, out, LIVES_IMAGE_SIZE) == 0);
    lives_image(memory + HELMAPRICOT_HEADER_SIZE, 2);
    note();
    leaves("a memory that holds a conflict", HELMAPRICOT_INDEX_RULE_BROKEN, helmapricot_finish(memory, sizeof memory));
    leaves("the same with a block", HELMAPRICOT_INDEX_RULE_BROKEN, record(HELMAPRICOT_MEMORY, 9, 1, 2, "x"));
}

static void searching(void)
{
    opened(NODES, ENTRIES);
    expect("a block", HELMAPRICOT_DONE, record(HELMAPRICOT_MEMORY, 100, 10, 50, "aba"));
    expect("finish", HELMAPRICOT_DONE, helmapricot_finish(memory, sizeof memory));
    note();
    leaves("a block after finish", HELMAPRICOT_RECORD_AFTER_FINISH, record(HELMAPRICOT_MEMORY, 100, 10, 50, "aba"));
    leaves("257 bytes", HELMAPRICOT_QUERY_TOO_LONG, search(long_data, HELMAPRICOT_QUERY_LIMIT + 1, 8, 8));
    leaves("one place", HELMAPRICOT_SCRATCH_TOO_SMALL, search((const uint8_t *)"a", 1, 1, 8));
    leaves("one row", HELMAPRICOT_TOO_MANY_ROWS, search((const uint8_t *)"a", 1, 2, 1));
    leaves("two rows", HELMAPRICOT_DONE, search((const uint8_t *)"a", 1, 2, 2));
    leaves("a short save buffer", HELMAPRICOT_SAVE_BUFFER_TOO_SHORT, save(100));
    memory[0] ^= 1;
    note();
    leaves("a changed header", HELMAPRICOT_INDEX_RULE_BROKEN, search((const uint8_t *)"a", 1, 8, 8));
}

/* Thirteen zeros, put together from four writes, have check 1. They take 34 places: one for the whole, and for each of their ends one
 * for each write that it can begin with, four for ends of up to 4 bytes, three up to 7, two up to 10, one up to 12. */
static void numbers(void)
{
    opened(29, 26);
    expect("a number's front", HELMAPRICOT_DONE, record(HELMAPRICOT_MEMORY, 100, 10, 50, "000"));
    expect("its second part", HELMAPRICOT_DONE, record(HELMAPRICOT_MEMORY, 103, 10, 50, "000"));
    expect("its third part", HELMAPRICOT_DONE, record(HELMAPRICOT_MEMORY, 106, 10, 50, "000"));
    expect("its end", HELMAPRICOT_DONE, record(HELMAPRICOT_MEMORY, 109, 10, 50, "0000"));
    note();
    leaves("a right number before finish", HELMAPRICOT_BEFORE_FINISH, search_number("00000000000001", 40, 8));
    leaves("a wrong number before finish", HELMAPRICOT_BEFORE_FINISH, search_number("0", 40, 8));
    expect("finish", HELMAPRICOT_DONE, helmapricot_finish(memory, sizeof memory));
    note();
    leaves("nothing typed", HELMAPRICOT_WRONG_NUMBER, search_number("", 40, 8));
    leaves("without its check", HELMAPRICOT_WRONG_NUMBER, search_number("0000000000000", 40, 8));
    leaves("one character more", HELMAPRICOT_WRONG_NUMBER, search_number("000000000000010", 40, 8));
    leaves("another check", HELMAPRICOT_WRONG_NUMBER, search_number("00000000000002", 40, 8));
    leaves("a small letter", HELMAPRICOT_WRONG_NUMBER, search_number("g123498654321H", 40, 8));
    leaves("a star inside", HELMAPRICOT_WRONG_NUMBER, search_number("000000000000*3", 40, 8));
    leaves("a place too few", HELMAPRICOT_SCRATCH_TOO_SMALL, search_number("00000000000001", 33, 8));
    leaves("a row too few", HELMAPRICOT_TOO_MANY_ROWS, search_number("00000000000001", 34, 0));
    leaves("just enough", HELMAPRICOT_DONE, search_number("00000000000001", 34, 1));
    expect("its address", 100, rows[0].address);
    leaves("a number that stood nowhere", HELMAPRICOT_DONE, search_number("0000000000001*", 40, 0));
    leaves("one with letters", HELMAPRICOT_DONE, search_number("G123498654321H", 40, 0));
    memory[HELMAPRICOT_HEADER_SIZE] ^= 1;
    note();
    leaves("a right number, a changed image", HELMAPRICOT_INDEX_RULE_BROKEN, search_number("00000000000001", 40, 8));
    leaves("a wrong number, a changed image", HELMAPRICOT_INDEX_RULE_BROKEN, search_number("0", 40, 8));
}

int main(void)
{
    recording();
    streams();
    images();
    searching();
    numbers();
    printf("%u answers as expected\n", right);
    return wrong != 0;
}
