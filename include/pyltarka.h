/* Pyltarka: the value tables of parity-db, every function proved. The calls of the acceptance station, for C11 and for C++.
 *
 * A table is a buffer that the caller lends to each call. Its length divided by the entry size, rounded down, is the number of
 * slots it has; bytes after the last whole slot are never touched. A buffer whose first 16 bytes are zero is a fresh table.
 * Slot 0 holds the table's header: LAST_REMOVED and FILLED, 8 bytes each. Records stand in the slots from 1 up. All numbers in a
 * table are little endian.
 *
 * What holds for every call
 *   - It takes any bytes as a table and any settings, slot, step, key and lengths. Nothing is asked but that each pointer has as
 *     many bytes behind it as the length beside it says. A null pointer with length 0 is an empty buffer.
 *   - A buffer that a call may write (a table that is not const, an output) must not overlap another buffer lent to that call.
 *   - `number` is 0 where the call was accepted, else the refusal, 1 to 13. On a refusal every other member is zero and no byte
 *     of table and output has changed.
 *   - No call allocates, keeps a pointer, or has a state of its own. Calls on different buffers may run at the same time.
 *
 * Link with target/staticlib/libstation.a, which `./library` writes (x86-64). Of the C library it needs memmove alone.
 */
#ifndef PYLTARKA_H
#define PYLTARKA_H

#include <stdbool.h>
#include <stddef.h>
#include <stdint.h>

#ifdef __cplusplus
extern "C" {
#endif

/* ---- the refusals: the number of each, and when it is given.
 *
 * The tests run 1 to 7 as they apply to the call. Then the head: its mark (8), a size below the prefix (9), count and checked key
 * (8), a size too large (9). Then the parts in chain order, the first fault met, the total last. Then 11; 12 and 13 come last. */

/* E below 32 or above 32,760; multipart with E not 4,096; a fixed read of a multipart table. */
#define PYLTARKA_SETTINGS 1u
/* The buffer has no room for one slot. */
#define PYLTARKA_BUFFER 2u
/* LAST_REMOVED not below FILLED, or FILLED above capacity. */
#define PYLTARKA_HEADER 3u
/* Keyed table, a key is used by the call and is not 32 bytes long. */
#define PYLTARKA_KEY 4u
/* Count change on an uncounted table. */
#define PYLTARKA_UNCOUNTED 5u
/* N is content plus prefix. Fixed: N above E - 2; multipart: N at most 4,094. */
#define PYLTARKA_VALUE 6u
/* Slot 0, or not below FILLED. */
#define PYLTARKA_SLOT 7u
/* Free slot; multipart slot that is no head; stored count 0; checked key differs. */
#define PYLTARKA_ABSENT 8u
/* Plain size below the prefix, or above E - 2; last part above 4,094. */
#define PYLTARKA_SIZE 9u
/* Link 0 or not below FILLED; a free slot or a head met as a later part; more than FILLED - 1 parts; total differs from the
 * content length. */
#define PYLTARKA_CHAIN 10u
/* A member of the free list not below FILLED or not marked free, or no end after FILLED - 1 members. */
#define PYLTARKA_FREE_LIST 11u
/* The new slots needed exceed the free ones and the unused ones at the end. */
#define PYLTARKA_ROOM 12u
/* Copying read: content longer than the output. */
#define PYLTARKA_OUTPUT 13u

/* ---- figures of the layout */

/* The least and the largest entry size, and the one of a multipart table. */
#define PYLTARKA_LEAST_ENTRY_SIZE 32u
#define PYLTARKA_LARGEST_ENTRY_SIZE 32760u
#define PYLTARKA_MULTIPART_ENTRY_SIZE 4096u
/* The bytes of a key: a 32-byte hash, of which bytes 6 to 31 are stored. */
#define PYLTARKA_KEY_BYTES 32u
/* The locked count: no step changes it any more. */
#define PYLTARKA_LOCKED 0xffffffffu

/* ---- settings and answers */

/* A table's settings. They are not stored: lend the same ones with the same table each time. The prefix, which stands before each
 * content, is 4 bytes of count if counted, then 26 bytes of key if keyed. */
typedef struct {
    uint64_t entry_size; /* E, the bytes of a slot: 32 to 32,760; 4,096 if multipart */
    bool multipart;      /* records are chains of slots; else each fits into one */
    bool counted;        /* each record has a count of references */
    bool keyed;          /* each record has a key */
} pyltarka_settings;

/* What insert answers. */
typedef struct {
    uint64_t slot;   /* the slot of the new record's head */
    uint32_t number; /* 0 or the refusal */
} pyltarka_inserted;

/* What a count change answers. */
typedef struct {
    uint32_t number;     /* 0 or the refusal */
    uint32_t count;      /* the count that was stored; 0 on the last reference */
    bool last_reference; /* nothing was left of the count, and nothing was written: the caller may remove the record */
} pyltarka_changed;

/* What the copying read answers. */
typedef struct {
    uint64_t length; /* the content's bytes, now at the front of the output */
    uint64_t visits; /* the slots visited: the parts of the chain, at most FILLED - 1 */
    uint32_t number; /* 0 or the refusal */
    uint32_t count;  /* the stored count, 1 on an uncounted table */
    bool mark;       /* the compressed mark */
} pyltarka_record;

/* What the fixed read answers. */
typedef struct {
    uint64_t offset; /* where the content starts in the table: slot times E + 2 + prefix, also for an empty content */
    uint64_t length; /* the content's bytes, which stay where they are */
    uint64_t visits; /* 1 */
    uint32_t number; /* 0 or the refusal */
    uint32_t count;  /* the stored count, 1 on an uncounted table */
    bool mark;       /* the compressed mark */
} pyltarka_part;

/* What the free count answers. */
typedef struct {
    uint64_t count;  /* the members of the free list */
    uint32_t number; /* 0 or the refusal */
} pyltarka_counted;

/* ---- the calls */

/* Stores a record: its key (ignored if the table is unkeyed), its content, its compressed mark, and a count of 1. Slots are taken
 * in chain order, first from the free list, then from FILLED up. Answers the head's slot.
 * Refusals, in order: 1, 2, 3, 4, 6, 11, 12. */
pyltarka_inserted pyltarka_insert(uint8_t *table, size_t table_len, pyltarka_settings s, const uint8_t *key, size_t key_len,
                                  const uint8_t *content, size_t content_len, bool mark);

/* Stores another record in place of the one at a slot, which stays its head's slot. The old chain's slots are used in order, more
 * are taken if they are short, and what is left over is freed from its first part to its last. The count becomes 1 again; key and
 * mark are written anew. The lent key is not compared with the stored one. Answers 0 or the refusal.
 * Refusals, in order: 1, 2, 3, 4, 6, 7, 8 and 9 (head), 9 and 10 (parts), 11, 12. */
uint32_t pyltarka_replace(uint8_t *table, size_t table_len, pyltarka_settings s, uint64_t slot, const uint8_t *key,
                          size_t key_len, const uint8_t *content, size_t content_len, bool mark);

/* Frees the slots of the record at a slot: its head first, then each part in order. Of a freed slot ten bytes are written, ff ff
 * and the link; the others stay. Answers 0 or the refusal.
 * Refusals, in order: 1, 2, 3, 7, 8 and 9 (head), 9 and 10 (parts), 11. */
uint32_t pyltarka_remove(uint8_t *table, size_t table_len, pyltarka_settings s, uint64_t slot);

/* Changes the count of the record at a slot by a signed step. A positive step adds, stopping at the lock once the sum reaches it.
 * A zero or negative step leaves a locked count; otherwise its magnitude is taken off (2,147,483,648 for the least step). If
 * nothing is left the answer is the last reference and nothing is written. Later parts of the chain are not looked at.
 * Refusals, in order: 1, 2, 3, 5, 7, 8 and 9 (head). */
pyltarka_changed pyltarka_change_count(uint8_t *table, size_t table_len, pyltarka_settings s, uint64_t slot, int32_t step);

/* Copies the content of the record at a slot to the front of the output, whose bytes past the content stay. If `checked`, the
 * stored 26 bytes of key must equal the lent key's bytes 6 to 31 (8); otherwise, and on an unkeyed table, the key is ignored.
 * Refusals, in order: 1, 2, 3, 4 (if checked), 7, 8 and 9 (head), 9 and 10 (parts), 13. */
pyltarka_record pyltarka_read(const uint8_t *table, size_t table_len, pyltarka_settings s, uint64_t slot, bool checked,
                              const uint8_t *key, size_t key_len, uint8_t *output, size_t output_len);

/* Finds the content of the record at a slot of a fixed table and copies nothing: it is table + offset, length bytes of it. The
 * key as for pyltarka_read.
 * Refusals, in order: 1 (also on a multipart table), 2, 3, 4 (if checked), 7, 8 and 9. */
pyltarka_part pyltarka_read_fixed(const uint8_t *table, size_t table_len, pyltarka_settings s, uint64_t slot, bool checked,
                                  const uint8_t *key, size_t key_len);

/* Counts the members of the free list.
 * Refusals, in order: 1, 2, 3, 11. */
pyltarka_counted pyltarka_free_count(const uint8_t *table, size_t table_len, pyltarka_settings s);

#ifdef __cplusplus
}
#endif

#endif
