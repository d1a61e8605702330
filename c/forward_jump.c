/* A label and a jump forward to it, over 127 bytes and over 128: the first is short, the second long. */
#include <string.h>

#include "small_tables.h"

static void jump_over(size_t run) {
    static const uint32_t not_equal = 5;
    wargnifla_tables tables = small_tables(WARGNIFLA_X64, 0);
    wargnifla_segment segments[ENTRY_ROOM];
    wargnifla_record record;
    uint8_t nops[CODE_ROOM], output[CODE_ROOM];
    uint32_t end;

    memset(nops, 0x90, sizeof nops);
    accept("new label", wargnifla_tables_new_label(&tables, &end));
    accept("jump", wargnifla_put_jump(&tables, end, not_equal)); /* in its long form; finish may shorten it */
    accept("bytes", wargnifla_tables_put_bytes(&tables, nops, run));
    accept("bind", wargnifla_tables_bind(&tables, end));
    accept("finish", wargnifla_tables_finish(&tables, segments, ENTRY_ROOM, output, sizeof output, &record));

    printf("over %u: %u bytes, layouts %u, label at %u,", (unsigned)run, (unsigned)record.length, (unsigned)record.layouts,
           (unsigned)wargnifla_label_offset(&tables, end));
    print_bytes(output, record.length - run);
}

int main(void) {
    jump_over(127);
    jump_over(128);
    return 0;
}
