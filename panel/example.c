/* Judges a log and a version order from two files, by the proved checker. Prints what `check_log` prints.
 *
 *     python3 second/built.py
 *     gcc -Wall -Wextra -o target/example panel/example.c target/staticlib/libchecker.a
 *     target/example LOG ORDER
 *
 * Ends with 0 for accepted, 1 for a cycle, 2 for a refusal.
 */
#include <stdio.h>

#include "svelmings.h"

/* One byte more than a log may have, so that a longer file is refused, and one more than any right version order has. */
static uint8_t log_bytes[65536 + 1];
static uint8_t order_bytes[64 * (4 + 4 * 256) + 1];

/* 4 bytes for each of the 256 transactions that a judged log may have committed. */
static uint8_t answer[4 * 256];

/* How many of a file's bytes were read; one that is not named, not opened or not read counts as empty. */
static size_t read_file(const char *name, uint8_t *bytes, size_t most)
{
    FILE *file = name ? fopen(name, "rb") : NULL;
    if (!file)
        return 0;
    size_t count = fread(bytes, 1, most, file);
    fclose(file);
    return count;
}

static uint32_t stamp_at(const uint8_t *bytes)
{
    return (uint32_t)bytes[0] << 24 | (uint32_t)bytes[1] << 16 | (uint32_t)bytes[2] << 8 | bytes[3];
}

int main(int count, char **names)
{
    size_t log_length = read_file(count > 1 ? names[1] : NULL, log_bytes, sizeof log_bytes);
    size_t order_length = read_file(count > 2 ? names[2] : NULL, order_bytes, sizeof order_bytes);
    uint32_t returned = svelmings_check(log_bytes, log_length, order_bytes, order_length, answer, sizeof answer);
    uint32_t code = svelmings_code(returned);
    uint32_t number = svelmings_number(returned);

    if (code != SVELMINGS_ACCEPTED && code != SVELMINGS_CYCLE) {
        printf("refused %u %u\n", code, number);
        return 2;
    }
    printf("%s", code == SVELMINGS_CYCLE ? "cycle" : "accepted");
    for (uint32_t i = 0; i < number; i++)
        printf(" %u", stamp_at(answer + 4 * i));
    printf("\n");
    return code == SVELMINGS_CYCLE;
}
