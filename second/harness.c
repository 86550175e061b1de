/* Puts many cases to the C call, for the comparison with the second program.

   Standard input has the cases one after the other: the lengths of log, order and answer and a fill, four bytes each, high
   byte first; then the log's bytes and the order's. The answer buffer is filled before the call: byte i is 7 (i + fill), mod 256.

   Each case is called twice, once with each slice at the very front of its room and once at its very end. Before and behind a
   room lie pages that can be neither read nor written, so that a byte touched outside a slice ends the program there. (The
   archive's code has no checks of its own that a sanitizer could use.) A slice of no bytes has a pointer to its room too.

   Standard output gets, for each of the two calls: the number returned, four bytes, high byte first; one byte that adds up
   what else has changed, 1 the log, 2 the order, 4 bytes beside a slice; and the whole answer buffer. */

#include <stdint.h>
#include <stdio.h>
#include <stdlib.h>
#include <string.h>
#include <sys/mman.h>

#include "svelmings.h"

enum { ROOM = 1 << 20, GUARD = 1 << 20, BESIDE = 4096, BESIDE_BYTE = 0x5a };

struct room {
    uint8_t *start;
    uint8_t *slice;
    uint8_t *beside; /* BESIDE bytes, next to the slice, on the side that has no guard */
    size_t length;
};

static void fail(const char *why)
{
    fprintf(stderr, "harness: %s\n", why);
    exit(2);
}

static struct room new_room(void)
{
    struct room room = {0};
    uint8_t *pages = mmap(NULL, GUARD + ROOM + GUARD, PROT_NONE, MAP_PRIVATE | MAP_ANONYMOUS, -1, 0);
    if (pages == MAP_FAILED || mprotect(pages + GUARD, ROOM, PROT_READ | PROT_WRITE) != 0)
        fail("no memory");
    room.start = pages + GUARD;
    return room;
}

/* Makes the room's slice one of this length, at the room's end or at its front. */
static void place(struct room *room, size_t length, int at_end)
{
    room->length = length;
    room->slice = at_end ? room->start + ROOM - length : room->start;
    room->beside = at_end ? room->slice - BESIDE : room->slice + length;
    memset(room->beside, BESIDE_BYTE, BESIDE);
}

static void put(struct room *room, const uint8_t *bytes, size_t length, int at_end)
{
    place(room, length, at_end);
    memcpy(room->slice, bytes, length);
}

static void put_filled(struct room *room, uint32_t fill, size_t length, int at_end)
{
    place(room, length, at_end);
    for (size_t i = 0; i < length; i++)
        room->slice[i] = (uint8_t)(7 * (i + fill));
}

static int beside_changed(const struct room *room)
{
    for (size_t i = 0; i < BESIDE; i++)
        if (room->beside[i] != BESIDE_BYTE)
            return 1;
    return 0;
}

static uint32_t number_of(const uint8_t *bytes)
{
    return (uint32_t)bytes[0] << 24 | (uint32_t)bytes[1] << 16 | (uint32_t)bytes[2] << 8 | bytes[3];
}

static void write_bytes(const uint8_t *bytes, size_t length)
{
    if (fwrite(bytes, 1, length, stdout) != length)
        fail("cannot write");
}

static void write_number(uint32_t number)
{
    uint8_t bytes[4] = {number >> 24, number >> 16, number >> 8, number};
    write_bytes(bytes, 4);
}

static uint8_t *read_bytes(size_t length)
{
    uint8_t *bytes = malloc(length + 1);
    if (bytes == NULL || fread(bytes, 1, length, stdin) != length)
        fail("the input is cut");
    return bytes;
}

struct input {
    uint8_t *log, *order;
    uint32_t log_length, order_length, answer_length, fill;
};

/* Reads the next case; answers 0 at the input's end. */
static int next_input(struct input *input)
{
    uint8_t front[16];
    size_t got = fread(front, 1, sizeof front, stdin);
    if (got == 0)
        return 0;
    if (got != sizeof front)
        fail("the input is cut");
    input->log_length = number_of(front);
    input->order_length = number_of(front + 4);
    input->answer_length = number_of(front + 8);
    input->fill = number_of(front + 12);
    if (input->log_length > ROOM - BESIDE || input->order_length > ROOM - BESIDE || input->answer_length > ROOM - BESIDE)
        fail("a case is too large");
    input->log = read_bytes(input->log_length);
    input->order = read_bytes(input->order_length);
    return 1;
}

static struct room log_room, order_room, answer_room;

/* Calls once, and writes what is found then. */
static void call(const struct input *input, int at_end)
{
    put(&log_room, input->log, input->log_length, at_end);
    put(&order_room, input->order, input->order_length, at_end);
    put_filled(&answer_room, input->fill, input->answer_length, at_end);
    uint32_t number = svelmings_check(log_room.slice, log_room.length, order_room.slice, order_room.length,
                                      answer_room.slice, answer_room.length);
    uint8_t changed = 0;
    if (memcmp(log_room.slice, input->log, input->log_length) != 0)
        changed |= 1;
    if (memcmp(order_room.slice, input->order, input->order_length) != 0)
        changed |= 2;
    if (beside_changed(&log_room) || beside_changed(&order_room) || beside_changed(&answer_room))
        changed |= 4;
    write_number(number);
    write_bytes(&changed, 1);
    write_bytes(answer_room.slice, answer_room.length);
    fflush(stdout); /* what was answered is told even if the next call does not come back */
}

int main(void)
{
    struct input input;
    log_room = new_room();
    order_room = new_room();
    answer_room = new_room();
    while (next_input(&input)) {
        call(&input, 0);
        call(&input, 1);
        free(input.log);
        free(input.order);
    }
    return 0;
}
