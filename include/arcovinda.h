/* Arcovinda for C: the functions of the static library that `bash example/library` writes to target/staticlib/libexport.a.

   A block below is plain 32-bit numbers, so a struct of them is the block. No function asks its caller to have looked first: every
   block, memory, trace, buffer and number gets an answer. A function returns document 01's refusal number, or 0 where nothing is
   refused. A refused call sets no byte of memory, buffer, state or answer and leaves *yes, and its counts (*wrote, *begin, *length, *events,
   *at, *steps) are 0; a refused start gives active 0 with every context zero and halted, and a refused reading a map of zeros, a grid of zeros and the
   offset. Pointers are valid, and lent parts do not overlap: that is what C leaves to its caller. */
#ifndef ARCOVINDA_H
#define ARCOVINDA_H
#include <stddef.h>
#include <stdint.h>

struct arcovinda_domain {
    uint32_t code_begin, code_end, data_begin, data_end, entry;
};

/* Half open regions; entries past count are zero. */
struct arcovinda_map {
    uint32_t length, kernel_begin, kernel_end, count;
    struct arcovinda_domain domains[8];
};

/* Row f, column t, from 0: byte 8 f + t is not 0 where domain f + 1 may send to domain t + 1. */
typedef uint8_t arcovinda_grid[64];

enum arcovinda_status {
    ARCOVINDA_HALTED, ARCOVINDA_READY, ARCOVINDA_WAITING,
    /* faulted, by reason */
    ARCOVINDA_FETCH, ARCOVINDA_READ, ARCOVINDA_WRITE, ARCOVINDA_KIND, ARCOVINDA_REGISTER, ARCOVINDA_CHANNEL
};

/* number: the address or the byte of a fault, 0 for the other statuses. full: 0 or 1. A block that no state is written as is refused with 13:
   one with status 9, say, or with a register fault of 256, which is no byte. */
struct arcovinda_context {
    uint32_t registers[8], counter, status, number_low, number_high, full, word, sender;
};

struct arcovinda_state {
    uint32_t active;
    struct arcovinda_context contexts[8];
};

enum arcovinda_answer_kind {
    ARCOVINDA_IDLE, ARCOVINDA_RAN, ARCOVINDA_WAITS, ARCOVINDA_HALTS, ARCOVINDA_FAULTED, ARCOVINDA_SWITCHED, ARCOVINDA_TAKEN, ARCOVINDA_FULL,
    ARCOVINDA_NO_DOMAIN
};

/* reason: an arcovinda_status from ARCOVINDA_FETCH on, where the answer is faulted; else 0, as number is. */
struct arcovinda_answer {
    uint32_t kind, domain, reason, number_low, number_high;
};

/* Bytes to a map and its grid. *at is where reading stopped, 0 where nothing is refused: the offset of the refused record's kind byte, for 8 of
   the first byte after the sheet, for a missing kind byte the sheet's length. */
uint32_t arcovinda_read(const uint8_t *sheet, size_t sheet_length, struct arcovinda_map *map, arcovinda_grid *grid, uint64_t *at);

/* A map and its grid to bytes; *wrote is how many. */
uint32_t arcovinda_write(const struct arcovinda_map *map, const arcovinda_grid *grid, uint8_t *buffer, size_t buffer_length, uint64_t *wrote);

/* The question: may the domain do this to the address; *yes is 1 or 0, and left as it was where the question is refused. */
uint32_t arcovinda_may_read(const struct arcovinda_map *map, const arcovinda_grid *grid, uint8_t domain, uint64_t address, uint32_t *yes);
uint32_t arcovinda_may_write(const struct arcovinda_map *map, const arcovinda_grid *grid, uint8_t domain, uint64_t address, uint32_t *yes);
uint32_t arcovinda_may_fetch(const struct arcovinda_map *map, const arcovinda_grid *grid, uint8_t domain, uint64_t address, uint32_t *yes);

/* The view of a domain's data: *begin and *length say which part of the memory it is. */
uint32_t arcovinda_view(const struct arcovinda_map *map, const arcovinda_grid *grid, const uint8_t *memory, size_t memory_length, uint8_t domain,
                        uint64_t *begin, uint64_t *length);

uint32_t arcovinda_start(const struct arcovinda_map *map, const arcovinda_grid *grid, struct arcovinda_state *state);

/* One event: the state and the memory become the next ones. */
uint32_t arcovinda_step(const struct arcovinda_map *map, const arcovinda_grid *grid, struct arcovinda_state *state, uint8_t *memory,
                        size_t memory_length, struct arcovinda_answer *answer);
uint32_t arcovinda_tick(const struct arcovinda_map *map, const arcovinda_grid *grid, struct arcovinda_state *state, uint8_t *memory,
                        size_t memory_length, struct arcovinda_answer *answer);
uint32_t arcovinda_word_in(const struct arcovinda_map *map, const arcovinda_grid *grid, struct arcovinda_state *state, uint8_t *memory,
                           size_t memory_length, uint8_t domain, uint32_t word, struct arcovinda_answer *answer);

/* A trace: 11 or 12 with the offset of the broken record, and *events events are done and stand; any other refusal is of the whole call. */
uint32_t arcovinda_play(const struct arcovinda_map *map, const arcovinda_grid *grid, struct arcovinda_state *state, uint8_t *memory,
                        size_t memory_length, const uint8_t *trace, size_t trace_length, uint64_t *events, uint64_t *at);

/* A batch: *steps steps were not idle; it is spent where that equals the limit, else the node is idle. */
uint32_t arcovinda_batch(const struct arcovinda_map *map, const arcovinda_grid *grid, struct arcovinda_state *state, uint8_t *memory,
                         size_t memory_length, uint64_t limit, uint64_t *steps);

/* The program's text for these three files, as far as the buffer goes; returns how many bytes it set. The memory becomes the last one. */
size_t arcovinda_transcript(const uint8_t *sheet, size_t sheet_length, uint8_t *memory, size_t memory_length, const uint8_t *trace,
                            size_t trace_length, uint8_t *text, size_t text_length);

#endif
