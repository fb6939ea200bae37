/* What the C tests share. */
#include "check.h"

#include <stdio.h>
#include <stdlib.h>
#include <string.h>

unsigned long checks_passed, checks_failed;

void check_at(int holds, const char *what, const char *file, int line) {
    if (holds) {
        checks_passed++;
        return;
    }
    checks_failed++;
    printf("%s:%d: it doesn't hold that %s\n", file, line, what);
}

uint8_t noise(void) {
    static uint32_t state = 1;
    state = state * 1664525u + 1013904223u;
    return (uint8_t)(state >> 24);
}

float noise_float(void) {
    float value;
    do {
        uint8_t bytes[4] = {noise(), noise(), noise(), noise()};
        memcpy(&value, bytes, sizeof value);
    } while (value != value);
    return value;
}

int same_float(float a, float b) {
    return memcmp(&a, &b, sizeof a) == 0;
}

/* Memory of exactly so many bytes. */
static void *exactly(size_t bytes) {
    void *at = malloc(bytes == 0 ? 1 : bytes);
    if (at == NULL) {
        abort();
    }
    return at;
}

static Lent lend_filled(size_t length, size_t width, int noisy) {
    Lent lent = {exactly(length * width), exactly(length * width), length, width};
    for (size_t i = 0; i < length * width; i++) {
        ((uint8_t *)lent.at)[i] = noisy ? noise() : 0;
    }
    memcpy(lent.was, lent.at, length * width);
    return lent;
}

Lent lend(size_t length, size_t width) {
    return lend_filled(length, width, 1);
}

Lent lend_zeros(size_t length, size_t width) {
    return lend_filled(length, width, 0);
}

int unchanged_from(const Lent *lent, size_t from) {
    if (from >= lent->length) {
        return 1;
    }
    size_t skipped = from * lent->width;
    return memcmp((char *)lent->at + skipped, (char *)lent->was + skipped, lent->length * lent->width - skipped) == 0;
}

void give_back(Lent *lent) {
    free(lent->at);
    free(lent->was);
}
