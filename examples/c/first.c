#include "pyltarka.h"
#include <stdio.h>
int main(void) {
    uint8_t table[4 * 64] = {0}, key[PYLTARKA_KEY_BYTES] = {7}, out[32];
    pyltarka_settings s = {64, false, true, true}; /* E, multipart, counted, keyed */
    pyltarka_inserted put = pyltarka_insert(table, sizeof table, s, key, sizeof key, (const uint8_t *)"fan -20", 7, false);
    pyltarka_record got = pyltarka_read(table, sizeof table, s, put.slot, true, key, sizeof key, out, sizeof out);
    printf("slot %d: '%.*s', count %d, refusal %d\n", (int)put.slot, (int)got.length, (char *)out, (int)got.count, (int)got.number);
    return (int)got.number;
}
