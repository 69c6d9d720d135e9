/* Prints the quotient of two files, or the number of the refusal, and whether all other bytes of the buffer are as they were.
 *
 *     host CIRCUIT WITNESS [BYTES]
 *
 * BYTES is how many bytes of the buffer are lent; without it, enough for any quotient. */
#include <stdio.h>
#include <stdlib.h>
#include <string.h>

#include "sapsheet.h"

enum { LARGEST = 8 * 2047, MARGIN = 64, MARK = 0xA5 };

static uint8_t *read_file(const char *path, size_t *len) {
    FILE *f = fopen(path, "rb");
    if (f == NULL) {
        return NULL;
    }
    uint8_t *bytes = NULL;
    size_t room = 0, got = 0;
    do {
        uint8_t *more = realloc(bytes, room = 2 * room + 4096);
        if (more == NULL) {
            free(bytes);
            fclose(f);
            return NULL;
        }
        bytes = more;
        got += fread(bytes + got, 1, room - got, f);
    } while (got == room);
    int failed = ferror(f);
    fclose(f);
    if (failed) {
        free(bytes);
        return NULL;
    }
    *len = got;
    return bytes;
}

static uint64_t number(const uint8_t *at, size_t bytes) {
    uint64_t v = 0;
    for (size_t i = bytes; i > 0; i--) {
        v = 256 * v + at[i - 1];
    }
    return v;
}

static size_t least_power(size_t x) {
    size_t y = 1;
    while (y < x) {
        y *= 2;
    }
    return y;
}

/* n - 1, from the header of a constraint file that was answered with 0 */
static size_t coefficients(const uint8_t *circuit) {
    size_t publics = 1 + number(circuit + 40, 4) + number(circuit + 44, 4);
    size_t rows = number(circuit + 60, 4);
    return least_power(least_power(2 * publics) + 2 * rows) - 1;
}

static const char *state(const uint8_t *bytes, size_t from, size_t to) {
    for (size_t i = from; i < to; i++) {
        if (bytes[i] != MARK) {
            return "CHANGED";
        }
    }
    return "untouched";
}

int main(int argc, char **argv) {
    if (argc < 3 || argc > 4) {
        fprintf(stderr, "usage: %s CIRCUIT WITNESS [BYTES]\n", argv[0]);
        return 2;
    }
    size_t lent = argc == 4 ? strtoul(argv[3], NULL, 10) : LARGEST;
    size_t circuit_len = 0, witness_len = 0, all = lent + MARGIN;
    uint8_t *circuit = read_file(argv[1], &circuit_len);
    uint8_t *witness = read_file(argv[2], &witness_len);
    uint8_t *answer = malloc(all);
    if (circuit == NULL || witness == NULL || answer == NULL) {
        fprintf(stderr, "%s: cannot read the files\n", argv[0]);
        return 2;
    }
    memset(answer, MARK, all);

    uint32_t reply = sapsheet_quotient(circuit, circuit_len, witness, witness_len, answer, lent);
    printf("answer %u\n", reply);
    if (reply == 0) {
        size_t count = coefficients(circuit);
        for (size_t i = 0; i < count; i++) {
            printf("%s%llu", i == 0 ? "" : " ", (unsigned long long)number(answer + 8 * i, 8));
        }
        printf("\nrest %s\n", state(answer, 8 * count, all));
    } else {
        printf("buffer %s\n", state(answer, 0, all));
    }
    free(answer);
    free(witness);
    free(circuit);
    return 0;
}
