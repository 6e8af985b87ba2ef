/* Random numbers, and a hash over what was returned and written: the same on every processor. */
#include <stdint.h>
#include <string.h>

static uint64_t random_state = 88172645463325252u, hash = 14695981039346656037u;

static uint64_t draw(void) {
    random_state ^= random_state << 13;
    random_state ^= random_state >> 7;
    random_state ^= random_state << 17;
    return random_state;
}

/* A number below the limit, without a division, which some processors lack. */
static uint32_t below(uint32_t limit) { return (uint32_t)((draw() >> 32) * limit >> 32); }

static void fill(void *object, uint32_t count) {
    uint8_t *octets = object;
    while (count > 0) {
        uint64_t word = draw();
        uint32_t some = count < sizeof word ? count : sizeof word;
        memcpy(octets, &word, some);
        octets += some;
        count -= some;
    }
}

/* Takes whole words of an object into the hash: FNV-1a with words of 32 bits. */
static void note(const void *object, uint32_t count) {
    const uint8_t *octets = object;
    for (uint32_t k = 0; k < count; k += 4) {
        uint32_t word;
        memcpy(&word, octets + k, sizeof word);
        hash = (hash ^ word) * 1099511628211u;
    }
}

/* Takes what a call returned into the hash, and an object that it may have written; returns the former. */
static uint32_t note_call(uint32_t status, const void *object, uint32_t count) {
    note(&status, sizeof status);
    note(object, count);
    return status;
}
