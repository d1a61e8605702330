/* Padding with a ceiling: loop heads like a multiple of 32, but not at the price of 31 NOPs. An alignment spends what its multiple needs, or nothing
 * where that is more than it may spend: it is then skipped. Finish decides again, by where the alignment comes to stand. */
#include "small_tables.h"

enum { JUMP_BYTES = 5 };

static const uint8_t zeros[32] = {0};

static uint32_t offset_of(const wargnifla_tables *tables) { return wargnifla_count_of(tables, WARGNIFLA_COUNT_CODE); }

/* Pads by the direct call, and says what was spent. */
static void pad(wargnifla_tables *tables, uint32_t multiple, uint32_t most) {
    uint32_t before = offset_of(tables);
    accept("align", wargnifla_tables_align_within(tables, multiple, most));
    printf("at %u, align %u, at most %u: %u bytes\n", (unsigned)before, (unsigned)multiple, (unsigned)most, (unsigned)(offset_of(tables) - before));
}

/* The same by a sheet, where 0 is the default. */
static void pad_by_sheet(wargnifla_tables *tables, uint32_t multiple, uint32_t most) {
    uint32_t before = offset_of(tables);
    accept("align", wargnifla_tables_call(tables, WARGNIFLA_CALL_ALIGN, multiple, most, 0, 0));
    printf("at %u, by a sheet, align %u %u: %u bytes\n", (unsigned)before, (unsigned)multiple, (unsigned)most,
           (unsigned)(offset_of(tables) - before));
}

static void record_heads(uint32_t arch) {
    wargnifla_tables tables = small_tables(arch, 0);
    accept("bytes", wargnifla_tables_put_bytes(&tables, zeros, 20));
    pad(&tables, 32, 10);
    accept("bytes", wargnifla_tables_put_bytes(&tables, zeros, 4));
    pad(&tables, 32, 10);
    accept("bytes", wargnifla_tables_put_bytes(&tables, zeros, 1));
    pad(&tables, 32, 0);
    pad(&tables, 32, WARGNIFLA_NONE); /* any number */
    accept("bytes", wargnifla_tables_put_bytes(&tables, zeros, 1));
    pad_by_sheet(&tables, 32, 30);
    pad_by_sheet(&tables, 32, 0);
    printf("%u bytes, %u events\n", (unsigned)offset_of(&tables), (unsigned)wargnifla_count_of(&tables, WARGNIFLA_COUNT_EVENTS));
}

/* A jump that finish makes 2 bytes long, some bytes, and an alignment, which then stands 3 bytes earlier than it was recorded. */
static void relax(uint32_t bytes, uint32_t most) {
    wargnifla_tables tables = small_tables(WARGNIFLA_X64, 0);
    wargnifla_segment segments[ENTRY_ROOM];
    wargnifla_record record;
    uint8_t output[CODE_ROOM];
    uint32_t end, start = JUMP_BYTES + bytes;
    size_t bound;
    accept("new label", wargnifla_tables_new_label(&tables, &end));
    accept("bytes", wargnifla_tables_put_bytes(&tables, zeros, JUMP_BYTES));
    accept("jump", wargnifla_tables_jump(&tables, 0, JUMP_BYTES, end, WARGNIFLA_ALWAYS));
    accept("bytes", wargnifla_tables_put_bytes(&tables, zeros, bytes));
    accept("align", wargnifla_tables_align_within(&tables, 8, most));
    accept("bind", wargnifla_tables_bind(&tables, end));
    printf("align 8, at most %u: %u recorded at %u, ", (unsigned)most, (unsigned)(offset_of(&tables) - start), (unsigned)start);
    bound = wargnifla_output_bound(&tables);
    accept("finish", wargnifla_tables_finish(&tables, segments, ENTRY_ROOM, output, bound, &record));
    printf("%u spent at %u; of at most %u bytes:", (unsigned)(segments[1].new_end - segments[1].new_start), (unsigned)segments[1].new_start,
           (unsigned)bound);
    print_bytes(output, record.length);
}

/* An alignment's entry made by hand: its length is to be what it spends by its last word. */
static void finish_by_hand(uint32_t length, uint32_t most) {
    wargnifla_tables tables = small_tables(WARGNIFLA_X64, 0);
    wargnifla_record record;
    uint8_t output[CODE_ROOM];
    uint8_t *event = tables.events.bytes;
    uint32_t refusal;
    accept("bytes", wargnifla_tables_put_bytes(&tables, zeros, 1 + length));
    wargnifla_put_word(event, WARGNIFLA_EVENT_ALIGNMENT);
    wargnifla_put_word(event + 4, 1);
    wargnifla_put_word(event + 8, length);
    wargnifla_put_word(event + 12, 8);
    wargnifla_put_word(event + 16, most);
    wargnifla_put_word(tables.counts + 4 * WARGNIFLA_COUNT_EVENTS, 1);
    refusal = wargnifla_tables_finish(&tables, NULL, 0, output, sizeof output, &record);
    printf("align 8 at 1 of %u bytes, at most %u, which spends %u: %s\n", (unsigned)length, (unsigned)most,
           (unsigned)wargnifla_padding_within(1, 8, most), wargnifla_refusal_name(refusal));
}

int main(void) {
    record_heads(WARGNIFLA_X64);
    record_heads(WARGNIFLA_AARCH64);
    relax(3, 5);
    relax(3, 2);
    relax(2, 1);
    finish_by_hand(7, WARGNIFLA_DEFAULT_MOST);
    finish_by_hand(7, 7);
    finish_by_hand(7, 6);
    finish_by_hand(7, 0);
    finish_by_hand(0, 0);
    finish_by_hand(0, 7);
    return 0;
}
