/* Writes broken frames as KISS bytes to standard output, for bench/mutants: COUNT frames that follow from SEED, each a frame of FILE of which one to
 * three things are changed: an octet is 00, FF, another one, or has another bit; the frame is cut short, goes on, or has two parts
 * exchanged. Behind each sixteenth comes a frame as it stands in FILE. There each frame is its length, two octets, and its octets. At the
 * end standard error is told how many frames and how many bytes were written. */
#include <stdint.h>
#include <stdio.h>
#include <stdlib.h>
#include <string.h>

enum { MOST_FRAMES = 1 << 16, LONGEST = 1024, MOST_ADDED = 16, CONTROL = 14 };

struct frame {
    size_t count;
    uint8_t octets[LONGEST];
};

static struct frame frames[MOST_FRAMES];
static size_t frame_count;
static uint64_t state, written, bytes;

/* A number below a bound (xorshift64*). */
static size_t below(size_t bound) {
    state ^= state >> 12;
    state ^= state << 25;
    state ^= state >> 27;
    return (size_t)((state * 0x2545F4914F6CDD1Du >> 32) * bound >> 32);
}

static void fail(const char *why) {
    fprintf(stderr, "mutants: %s\n", why);
    exit(1);
}

static void read_frames(const char *path) {
    FILE *file = fopen(path, "rb");
    if (file == NULL)
        fail("no such file");
    uint8_t head[2];
    while (fread(head, 1, 2, file) == 2) {
        size_t count = (size_t)head[0] << 8 | head[1];
        if (frame_count == MOST_FRAMES || count == 0 || count > LONGEST - MOST_ADDED)
            fail("too many frames, or too long a one");
        struct frame *frame = &frames[frame_count++];
        frame->count = count;
        if (fread(frame->octets, 1, count, file) != count)
            fail("the file ends in a frame");
    }
    fclose(file);
    if (frame_count == 0)
        fail("no frame");
}

/* Changes one thing of a frame. Half of the changed octets are its control fields, so that numbers and kinds change often. */
static void change(struct frame *frame) {
    size_t at = frame->count > CONTROL + 1 && below(2) == 0 ? CONTROL + below(2) : below(frame->count);
    size_t other = below(frame->count);
    uint8_t octet = frame->octets[at];
    switch (below(8)) {
    case 0:
        frame->octets[at] = 0x00;
        break;
    case 1:
        frame->octets[at] = 0xFF;
        break;
    case 2:
        frame->octets[at] = octet ^ (uint8_t)(1u << below(8));
        break;
    case 3:
        frame->count = 1 + other;
        break;
    case 4:
        for (size_t more = 1 + below(MOST_ADDED); more > 0 && frame->count < LONGEST; more--)
            frame->octets[frame->count++] = (uint8_t)below(256);
        break;
    case 5:
        frame->octets[at] = frame->octets[other];
        frame->octets[other] = octet;
        break;
    default:
        frame->octets[at] = (uint8_t)below(256);
        break;
    }
}

static void put(uint8_t octet) {
    putchar_unlocked(octet);
    bytes++;
}

/* Writes a frame: data on port 0. The FEND at its end is that before the next. */
static void write_frame(const struct frame *frame) {
    put(0x00);
    for (size_t at = 0; at < frame->count; at++) {
        uint8_t octet = frame->octets[at];
        if (octet == 0xC0 || octet == 0xDB) {
            put(0xDB);
            put(octet == 0xC0 ? 0xDC : 0xDD);
        } else {
            put(octet);
        }
    }
    put(0xC0);
    written++;
}

int main(int argc, char **argv) {
    if (argc != 4)
        fail("mutants FILE COUNT SEED");
    read_frames(argv[1]);
    uint64_t count = strtoull(argv[2], NULL, 10);
    state = strtoull(argv[3], NULL, 10) * 0x9E3779B97F4A7C15u + 1;
    put(0xC0);
    for (uint64_t nth = 0; nth < count; nth++) {
        struct frame frame;
        const struct frame *one = &frames[below(frame_count)];
        frame.count = one->count;
        memcpy(frame.octets, one->octets, one->count);
        for (size_t changes = 1 + below(3); changes > 0; changes--)
            change(&frame);
        write_frame(&frame);
        if (nth % 16 == 15)
            write_frame(&frames[below(frame_count)]);
    }
    if (fflush(stdout) != 0)
        fail("the frames can't be written");
    fprintf(stderr, "%llu %llu\n", (unsigned long long)written, (unsigned long long)bytes);
    return 0;
}
