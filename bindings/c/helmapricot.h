/* Helmapricot: where and when did these bytes stand in a recorded memory?
 *
 * An index lives in memory that the caller lends to every call. There is no handle and no hidden state: the bytes are the
 * index, they need no alignment, may be copied, and hold no address. A buffer and its length are handed in side by side.
 * The buffers of one call must not overlap. A buffer of length 0 is neither read nor written.
 *
 * Every call but helmapricot_open and helmapricot_read_block first tests that the lent memory holds an index, and answers 1
 * if not. That costs a pass over what it holds; helmapricot_record_stream makes one for all blocks of its stream. The test is
 * no checksum: a change that leaves an index, such as another data byte in an open one, is that other index. But no content of
 * the memory, the image or the stream makes a call go astray.
 *
 * Every call answers HELMAPRICOT_DONE (0) or the number of a refusal. A refused call changes nothing that it was handed, the
 * count, the size and the fields among it. There are two exceptions: scratch after refusals 10 and 11, and a stream that is
 * stopped: the blocks before the refusal are kept. How many were taken is written for every stream, refused or not.
 */
#ifndef HELMAPRICOT_H
#define HELMAPRICOT_H

#include <stddef.h>
#include <stdint.h>

#ifdef __cplusplus
extern "C" {
#endif

/* The answers. 17 is an answer of the program `places` alone; no call gives it. */
enum helmapricot_answer {
    HELMAPRICOT_DONE = 0,
    HELMAPRICOT_INDEX_RULE_BROKEN = 1,      /* the lent memory breaks the index rule */
    HELMAPRICOT_RECORD_AFTER_FINISH = 2,    /* record after finish */
    HELMAPRICOT_BEFORE_FINISH = 3,          /* search or save before finish */
    HELMAPRICOT_DATA_TOO_LONG = 4,          /* data over 4,096 bytes */
    HELMAPRICOT_NO_LIFE = 5,                /* created_at >= destroyed_at */
    HELMAPRICOT_ADDRESS_TOO_HIGH = 6,       /* address + length > 2^64 - 1 */
    HELMAPRICOT_TOO_MANY_NODES = 7,         /* node charge over capacity (load: nodes) */
    HELMAPRICOT_TOO_MANY_ENTRIES = 8,       /* entry charge over capacity (load: entries) */
    HELMAPRICOT_QUERY_TOO_LONG = 9,         /* query over 256 bytes */
    HELMAPRICOT_SCRATCH_TOO_SMALL = 10,     /* more places than scratch holds */
    HELMAPRICOT_TOO_MANY_ROWS = 11,         /* more rows than the slice of rows holds */
    HELMAPRICOT_SAVE_BUFFER_TOO_SHORT = 12, /* the image is longer than the save buffer */
    HELMAPRICOT_CUT_SHORT = 13,             /* stream or image ends inside a field */
    HELMAPRICOT_UNKNOWN_KIND = 14,          /* space kind over 4, node kind unknown */
    HELMAPRICOT_IMAGE_BROKEN = 15,          /* image layout or index rule broken, bytes left over */
    HELMAPRICOT_CAPACITY_REFUSED = 16,      /* opening with 0 or over 1,048,576 nodes or entries, or in too little memory */
    HELMAPRICOT_NO_FORM = 17,               /* a program's line is no form */
    HELMAPRICOT_CONFLICT = 18,              /* shares a byte address and a live tick with a piece held (load: two pieces do) */
    HELMAPRICOT_WRONG_NUMBER = 19           /* typed number: its length, a character or the check is wrong */
};

/* The kinds of a block. Memory blocks are recorded; the others are taken and change nothing. */
enum helmapricot_kind {
    HELMAPRICOT_CONSTANT = 0,
    HELMAPRICOT_MEMORY = 1,
    HELMAPRICOT_REGISTER = 2,
    HELMAPRICOT_UNIQUE = 3,
    HELMAPRICOT_OTHER = 4
};

/* The kind byte of a node in a saved image, by its child count. */
enum helmapricot_node_kind {
    HELMAPRICOT_EMPTY_INDEX = 0,      /* the first byte of an empty index's image, 25 zero bytes */
    HELMAPRICOT_NODE_DENSE = 1,       /* 97 to 256 children */
    HELMAPRICOT_NODE_SPARSE = 2,      /* 9 to 96 */
    HELMAPRICOT_NODE_VERY_SPARSE = 3  /* 0 to 8 */
};

/* Limits. */
#define HELMAPRICOT_DATA_LIMIT 4096        /* bytes of a block */
#define HELMAPRICOT_QUERY_LIMIT 256        /* bytes of a query */
#define HELMAPRICOT_CAPACITY_LIMIT 1048576 /* nodes, and entries */
#define HELMAPRICOT_NUMBER_SIZE 13         /* characters of a donation number */
#define HELMAPRICOT_TYPED_SIZE 14          /* the same with its check character */
#define HELMAPRICOT_PIECE_SIZE 16          /* a block is cut from its front into pieces of so many bytes */

/* Sizes, in bytes. */
#define HELMAPRICOT_HEADER_SIZE 64
#define HELMAPRICOT_NODE_SIZE 64
#define HELMAPRICOT_ENTRY_SIZE 104
#define HELMAPRICOT_PLACE_SIZE 24        /* of scratch, for each place */
#define HELMAPRICOT_EMPTY_IMAGE_SIZE 25  /* of the image of an index without a block */
#define HELMAPRICOT_BLOCK_HEADER_SIZE 33 /* of a block in a stream, before its data */

/* The bytes of lent memory that a capacity needs. */
#define HELMAPRICOT_NEEDED(nodes, entries) \
    (HELMAPRICOT_HEADER_SIZE + HELMAPRICOT_NODE_SIZE * (size_t)(nodes) + HELMAPRICOT_ENTRY_SIZE * (size_t)(entries))

/* What a block of so many bytes charges: for each piece of m bytes m(m+1)/2 nodes and 2m entries, for an empty block one
 * entry. The root charges one node more, always. */
#define HELMAPRICOT_NODES_CHARGED(bytes) \
    ((size_t)(bytes) / 16 * 136 + (size_t)(bytes) % 16 * ((size_t)(bytes) % 16 + 1) / 2)
#define HELMAPRICOT_ENTRIES_CHARGED(bytes) ((bytes) == 0 ? (size_t)1 : 2 * (size_t)(bytes))

/* A row: the query stood at the address at every tick from created to destroyed - 1, and not at the tick before or after. */
struct helmapricot_row {
    uint64_t address;
    uint64_t created;
    uint64_t destroyed;
};

/* A block of a stream, in the order in which helmapricot_read_block writes its seven fields. */
struct helmapricot_block {
    uint64_t present;      /* 1, or 0 at the stream's end; then the other fields stay as they were */
    uint64_t kind;
    uint64_t address;
    uint64_t length;       /* of the data, which are the bytes before next */
    uint64_t created_at;
    uint64_t destroyed_at;
    uint64_t next;         /* the cursor behind the block */
};

/* Opens an empty index of a capacity in mem, whatever stood there: the first 64 bytes are written.
 * Needs 64 + 64 * nodes + 104 * entries bytes; memory may be longer, and no call touches the bytes behind.
 * Answers 0 or 16. */
uint64_t helmapricot_open(uint8_t *mem, size_t mem_len, uint64_t nodes, uint64_t entries);

/* Records a block: these bytes, at this address, at the ticks from created_at to destroyed_at - 1. Changes mem where a
 * Memory block is taken. A block of kind 0, 2, 3 or 4 that passes 1 and 2 is taken, whatever it is, and changes nothing.
 * No byte address has two blocks at one tick: a Memory block that would give it a second, of the same byte or another, is
 * turned back with 18. Blocks that only touch, in addresses or in ticks, are no conflict, and an empty block never is one.
 * Answers 0, or 1, 2, 14, 4, 5, 6, 18, 7, 8: the first of these that applies. */
uint64_t helmapricot_record(uint8_t *mem, size_t mem_len, uint64_t kind, uint64_t address, uint64_t created_at,
                            uint64_t destroyed_at, const uint8_t *data, size_t data_len);

/* Records the blocks of a stream, which stand as helmapricot_read_block reads them. It equals recording them one by one, but
 * mem is tested once. It stops at the first refusal and keeps the blocks before it. *taken is how many were taken, of
 * whatever kind; it is written always, and is 0 for refusals 1 and 2.
 * Answers 0 where all were taken, or 1, 2, even for an empty stream, then for each block 13, 14 as reading it does and 4, 5, 6,
 * 18, 7, 8 as recording it does: 18 also where it conflicts with a block before it in the stream. */
uint64_t helmapricot_record_stream(uint8_t *mem, size_t mem_len, const uint8_t *stream, size_t stream_len, uint64_t *taken);

/* Ends the recording: mem then holds the image of the index, and zeros up to what the capacity needs. Finishing again
 * changes nothing.
 * Answers 0 or 1. */
uint64_t helmapricot_finish(uint8_t *mem, size_t mem_len);

/* Writes the rows of a query to rows, by address and then by first tick, and how many they are to *count; rows after the
 * last stay. rows_len counts rows. Scratch needs 24 bytes a place: a place is where and when the query from one of its bytes
 * on stood, counted over all its bytes. Its contents are free afterwards, but 1, 3 and 9 leave it. An empty query has no rows.
 * Answers 0, or 1, 3, 9, 10, 11. *count stays as it was where it is refused. */
uint64_t helmapricot_search(const uint8_t *mem, size_t mem_len, const uint8_t *query, size_t query_len, uint8_t *scratch,
                            size_t scratch_len, struct helmapricot_row *rows, size_t rows_len, uint64_t *count);

/* Searches for a donation number as the desk types it: 13 characters of 0-9 and A-Z, and the check character that ISO/IEC 7064
 * MOD 37-2 gives them, 0-9, A-Z or *. The 13 are the query of helmapricot_search, and all that it hands over is the same. The
 * length, a character or the check may be wrong (a small letter is): that is 19, and leaves scratch, too. A number with one
 * place mistyped, or with two neighbours exchanged, never fits its check.
 * Answers 0, or 1, 3, 19, 10, 11. *count stays as it was where it is refused. */
uint64_t helmapricot_search_number(const uint8_t *mem, size_t mem_len, const uint8_t *typed, size_t typed_len, uint8_t *scratch,
                                   size_t scratch_len, struct helmapricot_row *rows, size_t rows_len, uint64_t *count);

/* Writes the image of a finished index to the front of out, and its size to *size; bytes behind the image stay. An image has
 * at most 64 * nodes + 48 * entries bytes, by the index's capacity.
 * Answers 0, or 1, 3, 12. *size stays as it was where it is refused. */
uint64_t helmapricot_save(const uint8_t *mem, size_t mem_len, uint8_t *out, size_t out_len, uint64_t *size);

/* Replaces what an index in mem holds, open or finished, by an image, within the capacity that it was opened with. It is
 * finished then. An image is accepted only if it has the layout and the index rule holds. The rule has it that no two pieces share
 * a byte address and a live tick; an image that breaks it in this alone is refused with 18, whatever the capacity, and any other
 * with 15.
 * Answers 0, or 1, 13, 14, 15, 18, 7, 8. */
uint64_t helmapricot_load(uint8_t *mem, size_t mem_len, const uint8_t *image, size_t image_len);

/* Reads the block of a stream at a cursor: kind (1 byte), address, length, created_at, destroyed_at (8 each, lowest byte
 * first), then the data. Writes the seven fields of struct helmapricot_block. At the stream's end the first field is 0 and
 * the answer is 0.
 * Answers 0, or 13, 14. The fields stay as they were where it is refused. */
uint64_t helmapricot_read_block(const uint8_t *stream, size_t stream_len, size_t at, uint64_t *fields);

#ifdef __cplusplus
}
#endif

#endif
