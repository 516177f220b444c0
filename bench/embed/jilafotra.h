/* The exports of the crate `embed`, for C. Nothing compares these declarations with crates/embed/src: who changes one
 * changes the other.
 *
 * What a caller owes, and nothing checks:
 * - each pointer is not null, also where its length is 0, and aligned for its type; that many elements lie there;
 * - what a pointer without `const` points to overlaps with nothing else that the call is given, and nobody else reads
 *   or writes it during the call; nobody writes what the others point to;
 * - `malloc`, `realloc` and `free` come from one allocator, and no call is made from a signal handler.
 * The calls keep nothing: no pointer is used after a call, and calls may run in several threads at once.
 */
#ifndef JILAFOTRA_H
#define JILAFOTRA_H

#include <stdbool.h>
#include <stddef.h>
#include <stdint.h>

/* How a description was checked: the fault's cause (1 to 10, or 90 for want of memory), table and record, or three
 * times 0 where it is accepted. */
struct jilafotra_check_answer {
    uint64_t record;
    uint32_t cause;
    uint32_t table;
};

/* How a reading ended: the fault's cause (11 to 25), line, node and place, or four times 0 at the end. 33 and 34 are
 * the refusals of a source, with three times 0. */
struct jilafotra_fault_answer {
    uint32_t cause;
    uint32_t line;
    uint32_t node;
    uint32_t place;
};

/* An item. */
struct jilafotra_item {
    uint16_t kind;
    uint16_t line;
    uint16_t class_; /* the class: `class` is a word of C++ */
    uint16_t index;
    int64_t value;
    uint32_t place;
    uint32_t length;
};

/* How many items were stored; where `full`, the table's end was reached before the reading ended. */
struct jilafotra_read_answer {
    struct jilafotra_check_answer check;
    struct jilafotra_fault_answer fault;
    uint64_t items;
    bool full;
};

/* How many items were handed out, and a number over all their numbers. */
struct jilafotra_fold_answer {
    struct jilafotra_check_answer check;
    struct jilafotra_fault_answer fault;
    uint64_t items;
    uint64_t fold;
};

/* How many items were put, and what was then refused (33, 41, 42, 44 or 45), or 0 where the stream was finished. */
struct jilafotra_write_answer {
    struct jilafotra_check_answer check;
    uint64_t items;
    uint32_t refusal;
};

/* Checks a description file. */
struct jilafotra_check_answer jilafotra_check(const uint8_t *description, size_t description_length);

/* Reads a stream by a description file, and stores its items in a table. */
struct jilafotra_read_answer jilafotra_read(const uint8_t *description, size_t description_length,
                                            const uint8_t *stream, size_t stream_length,
                                            struct jilafotra_item *table, size_t table_length);

/* Reads a stream, and answers the 64-bit FNV-1a digest of all numbers of all its items, each as eight bytes, the lowest
 * first. */
struct jilafotra_fold_answer jilafotra_digest(const uint8_t *description, size_t description_length,
                                              const uint8_t *stream, size_t stream_length);

/* The same with the sum of all the numbers, which costs less: over bytes, over words of 32 bits (the most significant
 * bit of each first), over `count` bits of some bytes from bit `first` on, over some bytes and then others. */
struct jilafotra_fold_answer jilafotra_sum(const uint8_t *description, size_t description_length,
                                           const uint8_t *stream, size_t stream_length);
struct jilafotra_fold_answer jilafotra_sum_words(const uint8_t *description, size_t description_length,
                                                 const uint32_t *words, size_t words_length);
struct jilafotra_fold_answer jilafotra_sum_window(const uint8_t *description, size_t description_length,
                                                  const uint8_t *bytes, size_t bytes_length, uint32_t first,
                                                  uint32_t count);
struct jilafotra_fold_answer jilafotra_sum_join(const uint8_t *description, size_t description_length,
                                                const uint8_t *front, size_t front_length,
                                                const uint8_t *back, size_t back_length);

/* Writes items as a stream of `length` bits into a buffer, by a description file. */
struct jilafotra_write_answer jilafotra_write(const uint8_t *description, size_t description_length,
                                              const struct jilafotra_item *items, size_t items_length,
                                              uint64_t length, uint8_t *buffer, size_t buffer_length);

/* Only to measure gets: the exclusive or of 8000 gets a round. */
uint64_t jilafotra_gets(const uint8_t *bytes, size_t bytes_length, uint32_t rounds);
uint64_t jilafotra_gets_words(const uint32_t *words, size_t words_length, uint32_t rounds);
uint64_t jilafotra_gets_window(const uint8_t *bytes, size_t bytes_length, uint32_t first, uint32_t count,
                               uint32_t rounds);
uint64_t jilafotra_gets_join(const uint8_t *front, size_t front_length, const uint8_t *back, size_t back_length,
                             uint32_t rounds);

#endif
