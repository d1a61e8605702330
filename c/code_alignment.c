/* Memory for finished code: loaded on a multiple of the alignment that finish reports, the code has every constant on a multiple of its own.
 * Constants of more than 32 bytes, such as vectors for the widest registers, stand on a multiple of 64; one that is never asked for is not pooled. */
#include <string.h>

#include "small_tables.h"

enum { MOST_ALIGNMENT = 64 };

static size_t past_multiple(const uint8_t *place, uint32_t multiple) { return (uintptr_t)place % multiple; }

/* Copies code to the first place in memory that is on a multiple of its alignment. */
static const uint8_t *load(const uint8_t *code, const wargnifla_record *record) {
    static uint8_t memory[MOST_ALIGNMENT + CODE_ROOM];
    uint8_t *place = memory + record->alignment - past_multiple(memory, record->alignment);
    memcpy(place, code, record->length);
    return place;
}

static void pool(uint32_t size, int is_asked) {
    static const uint8_t bytes[WARGNIFLA_MOST_CONSTANT] = {0}, ret[] = {0xC3};
    wargnifla_tables tables = small_tables(WARGNIFLA_X64, 0);
    wargnifla_record record;
    uint8_t output[CODE_ROOM];
    uint32_t constant, label = WARGNIFLA_NONE, offset, multiple = wargnifla_constant_alignment(size);

    accept("bytes", wargnifla_tables_put_bytes(&tables, ret, sizeof ret));
    accept("constant", wargnifla_tables_add_constant(&tables, bytes, size, &constant));
    if (is_asked)
        accept("constant's label", wargnifla_tables_constant_label(&tables, constant, &label));
    accept("finish", wargnifla_tables_finish(&tables, NULL, 0, output, sizeof output, &record));
    printf("%u bytes %s: length %u, alignment %u", (unsigned)size, is_asked ? "asked for" : "added", (unsigned)record.length,
           (unsigned)record.alignment);

    offset = wargnifla_label_offset(&tables, label);
    if (offset != WARGNIFLA_NONE)
        printf(", constant at %u, loaded %u past a multiple of %u", (unsigned)offset,
               (unsigned)past_multiple(load(output, &record) + offset, multiple), (unsigned)multiple);
    putchar('\n');
}

int main(void) {
    static const uint32_t sizes[] = {8, 9, 32, 33, 64};
    size_t i;
    for (i = 0; i < sizeof sizes / sizeof *sizes; i++)
        pool(sizes[i], 1);
    pool(WARGNIFLA_MOST_CONSTANT, 0);
    return 0;
}
