/* Prints the items of a stream, and how it ends: example DESCRIPTION STREAM. */
#include "jilafotra.h"

#include <inttypes.h>
#include <stdio.h>

static uint8_t description[12469 + 1], stream[1 << 20];
static struct jilafotra_item table[1 << 16];

static size_t bytes_of(const char *name, uint8_t *bytes, size_t most) {
    FILE *file = fopen(name, "rb");
    if (file == NULL) return 0;
    size_t length = fread(bytes, 1, most, file);
    fclose(file);
    return length;
}

int main(int count, char **words) {
    if (count != 3) return 2;
    struct jilafotra_read_answer answer =
        jilafotra_read(description, bytes_of(words[1], description, sizeof description),
                       stream, bytes_of(words[2], stream, sizeof stream), table, sizeof table / sizeof *table);
    for (uint64_t i = 0; i < answer.items; i++) {
        const struct jilafotra_item *item = table + i;
        printf("%u %u %u %u %" PRId64 " %u %u\n", item->kind, item->line, item->class_, item->index, item->value,
               item->place, item->length);
    }
    if (answer.check.cause != 0)
        printf("refused %u %u %" PRIu64 "\n", answer.check.cause, answer.check.table, answer.check.record);
    else if (answer.fault.cause != 0)
        printf("refused %u %u %u %u\n", answer.fault.cause, answer.fault.line, answer.fault.node, answer.fault.place);
    else
        puts(answer.full ? "full" : "end");
    return 0;
}
