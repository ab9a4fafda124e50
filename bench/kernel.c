/* The kernel of the simulation in C, for the same size of netlist: 64 runs in the bits of words, two loads, an and, a store for each gate,
   whose literals are drawn from all places before it. Prints gate-words per second.

       cc -O2 bench/kernel.c -o kernel && ./kernel GATES FRAMES
*/
#include <stdint.h>
#include <stdio.h>
#include <stdlib.h>
#include <time.h>

struct cell {
    uint32_t kind, left, right;
};

static uint64_t state = 1;

static uint32_t drawn(uint32_t below) {
    state = state * 6364136223846793005u + 1442695040888963407u;
    return (uint32_t)((state >> 33) % below);
}

int main(int argc, char **argv) {
    uint32_t gates = argc > 1 ? atoi(argv[1]) : 1000000, frames = argc > 2 ? atoi(argv[2]) : 16, inputs = gates / 6 + 1;
    uint32_t places = inputs + gates;
    struct cell *cells = calloc(places, sizeof *cells);
    uint64_t *words = calloc(places, sizeof *words);
    if (!cells || !words)
        return 1;
    for (uint32_t p = 0; p < places; p++) {
        words[p] = ((uint64_t)drawn(1u << 31) << 33) ^ drawn(1u << 31);
        if (p >= inputs)
            cells[p] = (struct cell){3, drawn(2 * p), drawn(2 * p)};
    }
    struct timespec begun, ended;
    clock_gettime(CLOCK_PROCESS_CPUTIME_ID, &begun);
    for (uint32_t t = 0; t < frames; t++)
        for (uint32_t p = inputs; p < places; p++)
            if (cells[p].kind == 3) {
                uint32_t l = cells[p].left, r = cells[p].right;
                words[p] = (words[l >> 1] ^ -(uint64_t)(l & 1)) & (words[r >> 1] ^ -(uint64_t)(r & 1));
            }
    clock_gettime(CLOCK_PROCESS_CPUTIME_ID, &ended);
    double seconds = (ended.tv_sec - begun.tv_sec) + (ended.tv_nsec - begun.tv_nsec) / 1e9;
    printf("%u gates, %u frames: %.4f s, %.0f million gate-words a second (%llx)\n", gates, frames, seconds, frames * (double)gates / seconds / 1e6,
           (unsigned long long)words[places - 1]);
    return 0;
}
