/* The learned table in C, the baseline of bench/learned.py: a plain open-addressing hash table, as that of bench/flat.c.
 *
 *     learned spread|alike COUNT TIMES      as the program exb_bench
 */
#include <stdint.h>
#include <stdio.h>
#include <stdlib.h>
#include <string.h>

typedef struct {
    uint64_t key; /* VID and address, plus one so that 0 is no key */
    uint64_t at;
    int port;
} Entry;

static Entry *table;
static size_t slots, entries;

static Entry *slot_of(uint64_t key) {
    size_t at = (key * 0x9e3779b97f4a7c15u >> 32) & (slots - 1);
    while (table[at].key != 0 && table[at].key != key)
        at = (at + 1) & (slots - 1);
    return &table[at];
}

static void grow(void) {
    Entry *old = table;
    size_t count = slots;
    slots = slots ? 2 * slots : 1024;
    table = calloc(slots, sizeof *table);
    for (size_t at = 0; at < count; at++)
        if (old[at].key)
            *slot_of(old[at].key) = old[at];
    free(old);
}

static uint64_t key_of(int alike, uint32_t number) {
    uint64_t address = alike ? (uint64_t)2 << 40 | (uint64_t)(number & 0xffffff) << 16 : (uint64_t)2 << 40 | (uint64_t)number << 8 | 1;
    return ((uint64_t)1 << 48 | address) + 1;
}

static void see(uint64_t key, int port, uint64_t now) {
    if (2 * (entries + 1) > slots)
        grow();
    Entry *entry = slot_of(key);
    entries += entry->key == 0;
    entry->key = key;
    entry->port = port;
    entry->at = now;
}

int main(int count, char **words) {
    if (count != 4)
        return 2;
    int alike = !strcmp(words[1], "alike");
    uint32_t number = (uint32_t)atoi(words[2]), times = (uint32_t)atoi(words[3]), chance = 1;
    unsigned long found = 0;
    grow();
    for (uint32_t at = 0; at < number; at++)
        see(key_of(alike, at), 64 + at % 64, 0);
    for (uint32_t at = 0; at < times; at++) {
        chance = chance * 1664525 + 1013904223;
        uint32_t who = (chance >> 4) % number;
        see(key_of(alike, who), 64 + who % 64, 0);
        chance = chance * 1664525 + 1013904223;
        const Entry *known = slot_of(key_of(alike, (chance >> 4) % number));
        found += known->key != 0 && 0 - known->at < 1000000000;
    }
    return found == 0 && times != 0;
}
