/* Document 01's sample by calls: abc at 100 from tick 10 to 50, de behind it in two writes, which come as a stream; where did cd
 * stand?
 *
 *     ./archive helmapricot
 *     cd bindings/c && cc -Wall -Wextra example.c -L ../../target/staticlib -lhelmapricot -o ../../target/example
 *     ../../target/example
 *
 * prints what `places` prints for the same blocks:
 *
 *     (taken)
 *     (taken)
 *     (taken)
 *     (finished)
 *     (place 102 10 50)
 *     (end 1)
 */
#include "helmapricot.h"

#include <inttypes.h>
#include <stdio.h>
#include <stdlib.h>
#include <string.h>

enum { NODES = 1000, ENTRIES = 400, PLACES = 256, ROWS = 64 };

static uint8_t memory[HELMAPRICOT_NEEDED(NODES, ENTRIES)];
static uint8_t scratch[PLACES * HELMAPRICOT_PLACE_SIZE];
static struct helmapricot_row rows[ROWS];

static void say(uint64_t answer, const char *done)
{
    if (answer != HELMAPRICOT_DONE) {
        printf("(refused %" PRIu64 ")\n", answer);
        exit(1);
    }
    if (done != NULL)
        puts(done);
}

static void block(uint64_t address, uint64_t created_at, uint64_t destroyed_at, const char *text)
{
    say(helmapricot_record(memory, sizeof memory, HELMAPRICOT_MEMORY, address, created_at, destroyed_at,
                           (const uint8_t *)text, strlen(text)),
        "(taken)");
}

/* The functions that write to a stream return the place behind what they wrote. */
static uint8_t *put_number(uint8_t *to, uint64_t n)
{
    for (int i = 0; i < 8; i++)
        *to++ = (uint8_t)(n >> 8 * i);
    return to;
}

static uint8_t *put_block(uint8_t *to, uint64_t address, uint64_t created_at, uint64_t destroyed_at, const char *text)
{
    *to++ = HELMAPRICOT_MEMORY;
    to = put_number(to, address);
    to = put_number(to, strlen(text));
    to = put_number(to, created_at);
    to = put_number(to, destroyed_at);
    memcpy(to, text, strlen(text));
    return to + strlen(text);
}

static void blocks(const uint8_t *stream, size_t stream_len)
{
    uint64_t taken; /* written always */
    uint64_t answer = helmapricot_record_stream(memory, sizeof memory, stream, stream_len, &taken);
    for (uint64_t i = 0; i < taken; i++)
        puts("(taken)");
    say(answer, NULL);
}

static void find(const char *text)
{
    uint64_t count; /* set unless the search is refused, where say does not return */
    say(helmapricot_search(memory, sizeof memory, (const uint8_t *)text, strlen(text), scratch, sizeof scratch, rows,
                           ROWS, &count),
        NULL);
    for (uint64_t i = 0; i < count; i++)
        printf("(place %" PRIu64 " %" PRIu64 " %" PRIu64 ")\n", rows[i].address, rows[i].created, rows[i].destroyed);
    printf("(end %" PRIu64 ")\n", count);
}

int main(void)
{
    uint8_t stream[2 * (HELMAPRICOT_BLOCK_HEADER_SIZE + 2)];
    put_block(put_block(stream, 103, 10, 30, "de"), 103, 30, 50, "de");

    say(helmapricot_open(memory, sizeof memory, NODES, ENTRIES), NULL);
    block(100, 10, 50, "abc");
    blocks(stream, sizeof stream);
    say(helmapricot_finish(memory, sizeof memory), "(finished)");
    find("cd");
    return 0;
}
