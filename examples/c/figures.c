/* Document 01's figures through the header, from C11 and from C++; and the structs' layout, which the Rust crate tests too. */
#include "pyltarka.h"
#include <stdio.h>
#include <string.h>

#ifdef __cplusplus
#define LIES(what) static_assert(what, #what)
#else
#define LIES(what) _Static_assert(what, #what)
#endif
LIES(sizeof(pyltarka_settings) == 16 && offsetof(pyltarka_settings, multipart) == 8 && offsetof(pyltarka_settings, keyed) == 10);
LIES(sizeof(pyltarka_inserted) == 16 && offsetof(pyltarka_inserted, number) == 8);
LIES(sizeof(pyltarka_changed) == 12 && offsetof(pyltarka_changed, count) == 4 && offsetof(pyltarka_changed, last_reference) == 8);
LIES(sizeof(pyltarka_record) == 32 && offsetof(pyltarka_record, number) == 16 && offsetof(pyltarka_record, mark) == 24);
LIES(sizeof(pyltarka_part) == 40 && offsetof(pyltarka_part, number) == 24 && offsetof(pyltarka_part, mark) == 32);
LIES(sizeof(pyltarka_counted) == 16 && offsetof(pyltarka_counted, number) == 8);

static int wrong = 0;

static void holds(bool so, const char *what) {
    if (!so) {
        printf("wrong: %s\n", what);
        wrong++;
    }
}
#define HOLDS(what) holds(what, #what)

static uint8_t table[8 * 4096], content[12229], out[12229], key[PYLTARKA_KEY_BYTES];

/* Parts of a content of so many bytes in a fresh counted and keyed multipart table, and its last part's size word. */
static uint64_t parts(size_t len, unsigned *last_word) {
    const pyltarka_settings s = {PYLTARKA_MULTIPART_ENTRY_SIZE, true, true, true};
    pyltarka_record r;
    memset(table, 0, sizeof table);
    HOLDS(pyltarka_insert(table, sizeof table, s, key, sizeof key, content, len, false).slot == 1);
    r = pyltarka_read(table, sizeof table, s, 1, true, key, sizeof key, out, sizeof out);
    HOLDS(r.number == 0 && r.length == len && memcmp(out, content, len) == 0);
    *last_word = table[r.visits * 4096] + 256u * table[r.visits * 4096 + 1];
    return r.visits;
}

int main(void) {
    const pyltarka_settings plain = {32, false, false, false}, full = {64, false, true, true}, counted = {32, false, true, false};
    const pyltarka_settings chains = {PYLTARKA_MULTIPART_ENTRY_SIZE, true, true, true};
    const uint8_t ab[2] = {0x41, 0x42};
    uint8_t expected[64] = {0};
    pyltarka_changed c;
    pyltarka_part p;
    unsigned word = 0;
    size_t i;

    for (i = 0; i < sizeof content; i++) content[i] = (uint8_t)(i % 251);
    for (i = 0; i < sizeof key; i++) key[i] = (uint8_t)(0x20 + i);

    /* E = 32, 64 zero bytes, insert 41 42; then remove 1 */
    HOLDS(pyltarka_insert(table, 64, plain, NULL, 0, ab, 2, false).slot == 1);
    expected[8] = 2, expected[32] = 2, expected[34] = 0x41, expected[35] = 0x42;
    HOLDS(memcmp(table, expected, 64) == 0);
    HOLDS(pyltarka_remove(table, 64, plain, 1) == 0);
    expected[0] = 1, expected[32] = expected[33] = 0xff, expected[34] = expected[35] = 0;
    HOLDS(memcmp(table, expected, 64) == 0);
    HOLDS(pyltarka_free_count(table, 64, plain).count == 1);

    /* E = 64, counted and keyed: 32 bytes fit, size word 3e 80 if compressed; 33 give 6 */
    memset(table, 0, sizeof table);
    HOLDS(pyltarka_insert(table, 192, full, key, sizeof key, content, 32, true).slot == 1);
    HOLDS(table[64] == 0x3e && table[65] == 0x80);
    HOLDS(pyltarka_replace(table, 192, full, 1, key, sizeof key, content, 33, true) == PYLTARKA_VALUE);
    p = pyltarka_read_fixed(table, 192, full, 1, true, key, sizeof key);
    HOLDS(p.number == 0 && p.offset == 96 && p.length == 32 && p.visits == 1 && p.count == 1 && p.mark);
    HOLDS(memcmp(table + p.offset, content, 32) == 0);

    /* counted, keyed, multipart */
    HOLDS(pyltarka_insert(table, sizeof table, chains, key, 31, content, 4065, false).number == PYLTARKA_KEY);
    HOLDS(pyltarka_insert(table, sizeof table, chains, key, 32, content, 4064, false).number == PYLTARKA_VALUE);
    HOLDS(parts(4065, &word) == 2 && word == 0x0011);
    HOLDS(parts(8142, &word) == 2 && word == 0x0ffe);
    HOLDS(parts(8143, &word) == 3 && word == 0x0009);
    HOLDS(parts(12228, &word) == 3);
    HOLDS(parts(12229, &word) == 4);
    HOLDS(pyltarka_read(table, sizeof table, chains, 1, false, NULL, 0, out, 12228).number == PYLTARKA_OUTPUT);
    HOLDS(pyltarka_read_fixed(table, sizeof table, chains, 1, false, NULL, 0).number == PYLTARKA_SETTINGS);

    /* counts: 1, plus 4 is 5; minus 4 gives 1; minus 1 is the last reference; the least step too */
    memset(table, 0, sizeof table);
    HOLDS(pyltarka_insert(table, 64, counted, NULL, 0, ab, 2, false).slot == 1);
    HOLDS(pyltarka_change_count(table, 64, counted, 1, 4).count == 5);
    HOLDS(pyltarka_change_count(table, 64, counted, 1, -4).count == 1);
    c = pyltarka_change_count(table, 64, counted, 1, -1);
    HOLDS(c.number == 0 && c.count == 0 && c.last_reference);
    HOLDS(pyltarka_change_count(table, 64, counted, 1, INT32_MIN).last_reference);
    HOLDS(pyltarka_change_count(table, 64, plain, 1, 1).number == PYLTARKA_UNCOUNTED);
    memset(table + 34, 0xff, 4);
    HOLDS(pyltarka_change_count(table, 64, counted, 1, -1).count == PYLTARKA_LOCKED);

    /* null with length 0 is an empty buffer */
    HOLDS(pyltarka_free_count(NULL, 0, plain).number == PYLTARKA_BUFFER);
    HOLDS(pyltarka_insert(table, 64, plain, NULL, 0, NULL, 0, false).number == PYLTARKA_ROOM);

    puts(wrong == 0 ? "figures hold" : "figures do not hold");
    return wrong != 0;
}
