// The limit that `timing` is held against: a pass that touches each byte of a script, writes five words for each of so many records and
// zeroes the rest of five words a byte. Reads what `timing` reads; its argument is the number of records. Prints them added up.
#include <stdint.h>
#include <stdio.h>
#include <stdlib.h>

static uint8_t input[65600];
static uint64_t tape[327680];

__attribute__((noinline)) static uint64_t pass(const uint8_t *script, size_t n, size_t records) {
    size_t written = 0, due = 0;
    uint64_t seen = 0;
    for (size_t i = 0; i < n; i++) {
        seen += script[i];
        due += records;
        if (due >= n) {
            due -= n;
            uint64_t *w = tape + 5 * written++;
            w[0] = seen, w[1] = i, w[2] = 1, w[3] = 0, w[4] = 0;
        }
    }
    for (size_t w = 5 * written; w < 5 * n; w++) tape[w] = 0;
    return written;
}

int main(int argc, char **argv) {
    size_t records = argc > 1 ? strtoull(argv[1], 0, 10) : 0;
    size_t n = fread(input, 1, sizeof input, stdin);
    char *end;
    strtoull((char *)input, &end, 10);
    size_t times = strtoull(end, &end, 10);
    uint8_t *script = (uint8_t *)end + 1;
    uint64_t sum = 0;
    for (size_t k = 0; k < times; k++) sum += pass(script, n - (script - input), records);
    printf("%llu\n", (unsigned long long)sum);
}
