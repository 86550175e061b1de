/* Times the proved check of one log and order, given as files: milliseconds a call, the best of a number of calls, and what it
 * returned. */
#include <stdio.h>
#include <stdlib.h>
#include <time.h>

#include "../panel/svelmings.h"

static uint8_t log_bytes[65537], order_bytes[65793], answer[1024];

static size_t read_file(const char *name, uint8_t *bytes, size_t most)
{
    FILE *file = fopen(name, "rb");
    if (!file)
        exit(2);
    size_t count = fread(bytes, 1, most, file);
    fclose(file);
    return count;
}

static double now(void)
{
    struct timespec t;
    clock_gettime(CLOCK_MONOTONIC, &t);
    return t.tv_sec * 1e3 + t.tv_nsec * 1e-6;
}

int main(int count, char **names)
{
    if (count != 4)
        return 2;
    size_t log_length = read_file(names[1], log_bytes, sizeof log_bytes);
    size_t order_length = read_file(names[2], order_bytes, sizeof order_bytes);
    double best = 1e9;
    uint32_t returned = 0;
    for (int i = 0; i < atoi(names[3]); i++) {
        double began = now();
        returned = svelmings_check(log_bytes, log_length, order_bytes, order_length, answer, sizeof answer);
        double took = now() - began;
        best = took < best ? took : best;
    }
    printf("%.2f %u %u\n", best, svelmings_code(returned), svelmings_number(returned));
    return 0;
}
