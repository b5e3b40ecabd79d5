/* A plain learning bridge, the baseline of bench/frames.py: it reads a capture for each port, takes the frames in the order of
 * their times and, at one time, of their ports, and writes to a capture for each port what leaves it. All ports are members of
 * all VLANs, tagged where a frame is. There are no E-TAGs, no tree, no messages and no journal.
 *
 *     flat LEARN OUT-PREFIX CAPTURE..      (LEARN: 1 to learn addresses for good, 0 to flood each frame)
 *
 * Captures are little-endian and in nanoseconds, of Ethernet; what is written is in microseconds.
 */
#include <stdint.h>
#include <stdio.h>
#include <stdlib.h>
#include <string.h>

enum { HEADER = 24, RECORD = 16, TAG = 0x8100 };

typedef struct {
    unsigned char *bytes;
    size_t length, at;
    FILE *out;
} Port;

typedef struct {
    uint64_t key; /* VID and address, plus one so that 0 is no key */
    int port;
} Entry;

static Entry *table;
static size_t slots, entries;

static uint32_t word(const unsigned char *at) {
    uint32_t value;
    memcpy(&value, at, 4);
    return value;
}

static uint64_t moment(const Port *port) {
    return (uint64_t)word(port->bytes + port->at) * 1000000000 + word(port->bytes + port->at + 4);
}

static Entry *slot_of(uint64_t key) {
    size_t at = (key * 0x9e3779b97f4a7c15u >> 20) & (slots - 1);
    while (table[at].key != 0 && table[at].key != key)
        at = (at + 1) & (slots - 1);
    return &table[at];
}

static void grow(void) {
    Entry *old = table;
    size_t count = slots;
    slots = slots ? 2 * slots : 1024;
    table = calloc(slots, sizeof *table);
    for (size_t at = 0; at < count; at++)
        if (old[at].key)
            *slot_of(old[at].key) = old[at];
    free(old);
}

static uint64_t key_of(uint64_t vid, const unsigned char *address) {
    uint64_t key = vid;
    for (int at = 0; at < 6; at++)
        key = key << 8 | address[at];
    return key + 1;
}

static void learn(uint64_t key, int port) {
    if (2 * (entries + 1) > slots)
        grow();
    Entry *entry = slot_of(key);
    entries += entry->key == 0;
    entry->key = key;
    entry->port = port;
}

static void leave(Port *port, uint64_t when, const unsigned char *frame, uint32_t length) {
    uint32_t head[4] = {(uint32_t)(when / 1000000000), (uint32_t)(when % 1000000000 / 1000), length, length};
    fwrite(head, 1, RECORD, port->out);
    fwrite(frame, 1, length, port->out);
}

int main(int count, char **words) {
    int learns = count > 2 && words[1][0] == '1', ports = count - 3;
    static Port all[4160];
    static const uint32_t header[6] = {0xa1b2c3d4, 0x00040002, 0, 0, 65535, 1};
    if (ports < 1 || ports > 4160)
        return 2;
    grow();
    for (int p = 0; p < ports; p++) {
        char name[4096];
        FILE *in = fopen(words[3 + p], "rb");
        if (!in || fseek(in, 0, SEEK_END))
            return 5;
        all[p].length = (size_t)ftell(in);
        rewind(in);
        all[p].bytes = malloc(all[p].length);
        if (fread(all[p].bytes, 1, all[p].length, in) != all[p].length)
            return 6;
        fclose(in);
        all[p].at = HEADER;
        snprintf(name, sizeof name, "%s%d.pcap", words[2], p + 1);
        if (!(all[p].out = fopen(name, "wb")))
            return 7;
        /* pieces as large as those of exbr, so that the ratio isn't one of buffers */
        setvbuf(all[p].out, NULL, _IOFBF, 65536);
        fwrite(header, 1, HEADER, all[p].out);
    }
    unsigned long frames = 0, left = 0;
    for (;;) {
        int from = -1;
        for (int p = 0; p < ports; p++)
            if (all[p].at + RECORD <= all[p].length && (from < 0 || moment(&all[p]) < moment(&all[from])))
                from = p;
        if (from < 0)
            break;
        Port *source = &all[from];
        uint64_t when = moment(source);
        uint32_t length = word(source->bytes + source->at + 8);
        const unsigned char *frame = source->bytes + source->at + RECORD;
        source->at += RECORD + length;
        frames++;
        uint64_t vid = (frame[12] << 8 | frame[13]) == TAG ? (frame[14] & 15) << 8 | frame[15] : 1;
        const Entry *known = learns && !(frame[0] & 1) ? slot_of(key_of(vid, frame)) : NULL;
        if (known && known->key) {
            if (known->port != from) {
                leave(&all[known->port], when, frame, length);
                left++;
            }
        } else {
            for (int p = 0; p < ports; p++)
                if (p != from) {
                    leave(&all[p], when, frame, length);
                    left++;
                }
        }
        if (learns && !(frame[6] & 1))
            learn(key_of(vid, frame + 6), from);
    }
    for (int p = 0; p < ports; p++)
        if (fclose(all[p].out))
            return 7;
    printf("%lu frames, %lu left\n", frames, left);
    return 0;
}
