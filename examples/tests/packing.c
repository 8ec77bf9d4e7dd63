/*
 * Packs every pitch and reads it back, and reads every byte and every pair of bytes. What it prints is compared with what
 * crate test_packing must print, which another packer made (oracle/packing.py).
 */
#include "nabiteke.h"
#include <stdio.h>
#include <string.h>

enum { FILL = 0xa5, ROOM = 3 };

static void print_pitch(nabiteke_pitch pitch)
{
    if (pitch.present)
        printf("%u\t%u\t", (unsigned)pitch.index, (unsigned)pitch.active);
    else
        printf("-\t-\t");
}

static void print_bytes(const uint8_t *bytes, size_t count)
{
    size_t i;
    if (count == 0)
        printf("-");
    for (i = 0; i < count; i++)
        printf("%02x", bytes[i]);
    printf("\t");
}

static void print_reading(uint32_t answer, nabiteke_pitch pitch, size_t used)
{
    printf("%u\t", (unsigned)answer);
    print_pitch(pitch);
    printf("%u\n", (unsigned)used);
}

/* A pitch packed into so many bytes, and what they are read as. What a call gives is set to something else before it. */
static void pack(nabiteke_pitch pitch, size_t room)
{
    uint8_t bytes[ROOM];
    size_t written = 99, used = 99, i;
    nabiteke_pitch back = {99, 99, 99};
    uint32_t answer;
    memset(bytes, FILL, sizeof bytes);
    answer = nabiteke_pitch_write(pitch, bytes, room, &written);
    print_pitch(pitch);
    printf("%u\t%u\t%u\t", (unsigned)room, (unsigned)answer, (unsigned)written);
    print_bytes(bytes, room);
    for (i = room; i < ROOM; i++)
        if (bytes[i] != FILL)
            printf("a byte beyond the room was written\n");
    answer = nabiteke_pitch_read(bytes, room, &back, &used);
    print_reading(answer, back, used);
}

/* All runs of so many bytes but those refused with 12, absent and no byte used, which are counted. */
static void read_every(size_t width, unsigned count)
{
    unsigned i, refused = 0;
    for (i = 0; i < count; i++) {
        const uint8_t pair[2] = {(uint8_t)(i >> 8), (uint8_t)i};
        const uint8_t *bytes = pair + (width == 1);
        nabiteke_pitch pitch = {99, 99, 99};
        size_t used = 99;
        const uint32_t answer = nabiteke_pitch_read(bytes, width, &pitch, &used);
        if (answer == NABITEKE_PADDING && !pitch.present && used == 0) {
            refused++;
            continue;
        }
        print_bytes(bytes, width);
        print_reading(answer, pitch, used);
    }
    printf("%u\t12\t%u\n", (unsigned)width, refused);
}

int main(void)
{
    static const nabiteke_pitch little[] = {{1, 0, 0}, {1, 511, 1}, {1, 512, 0}, {1, 4294967295u, 1}, {0, 0, 0}};
    nabiteke_pitch pitch = {1, 0, 0};
    const nabiteke_pitch absent = {0, 0, 0};
    size_t room, i;
    printf("index\tactive\troom\tanswer\twritten\tbytes\tanswer\tindex\tactive\tused\n");
    for (pitch.index = 0; pitch.index < 512; pitch.index++)
        for (pitch.active = 0; pitch.active < 2; pitch.active++)
            pack(pitch, ROOM);
    pack(absent, ROOM);
    for (room = 0; room < ROOM; room++)
        for (i = 0; i < sizeof little / sizeof *little; i++)
            pack(little[i], room);
    printf("bytes\tanswer\tindex\tactive\tused\n");
    read_every(0, 1);
    read_every(1, 256);
    read_every(2, 65536);
    return 0;
}
