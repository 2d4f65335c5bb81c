/* The library from C: a node of one domain that adds 2 to R0 until it is halted by hand. */
#include "arcovinda.h"
#include <stdio.h>

int main(void) {
    /* memory 256, kernel 0-32, domain 1: code 32-64, data 64-96, entry 32 */
    static const uint8_t sheet[] = {1, 0,  1, 0, 0, 2, 0,  0, 0, 0, 32, 0, 0, 0, 3, 32, 0, 0, 0, 64, 0,
                                    0, 0, 64, 0, 0, 0, 96, 0, 0, 0, 32, 0, 0, 0, 5};
    static uint8_t memory[256];
    static const uint8_t program[] = {1, 1, 2, 0, 0, 0, /* R1 becomes 2 */ 3, 0, 1 /* R0 plus R1 */, 13, 38, 0 /* jump to the addition */};
    struct arcovinda_map map;
    arcovinda_grid grid;
    struct arcovinda_state state;
    struct arcovinda_answer answer;
    uint64_t at, steps;
    uint32_t refused = arcovinda_read(sheet, sizeof sheet, &map, &grid, &at);
    if (refused != 0) {
        printf("%u at %llu\n", refused, (unsigned long long)at);
        return 1;
    }
    for (size_t i = 0; i < sizeof program; i++)
        memory[map.domains[0].entry + i] = program[i];
    if (arcovinda_start(&map, &grid, &state) != 0)
        return 1;
    if (arcovinda_batch(&map, &grid, &state, memory, sizeof memory, 1000, &steps) != 0)
        return 1;
    printf("%llu steps, R0 is %u\n", (unsigned long long)steps, state.contexts[0].registers[0]);
    memory[state.contexts[0].counter] = 19;
    if (arcovinda_step(&map, &grid, &state, memory, sizeof memory, &answer) != 0)
        return 1;
    printf("answer %u, active %u\n", answer.kind, state.active);
    return 0;
}
