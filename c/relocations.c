/* Relocations against a symbol and a label, behind a jump that becomes shorter: finish gives them their final offsets. The second one's addend has 64
 * bits. */
#include "small_tables.h"

static void print_relocation(const uint8_t *entry) {
    uint32_t target = wargnifla_word(entry + 8);
    uint64_t addend = wargnifla_word(entry + 16) | (uint64_t)wargnifla_word(entry + 20) << 32;
    int is_label = target >= WARGNIFLA_LABEL_TARGET;
    printf("at %u: kind %u, %s %u, addend %lld\n", (unsigned)wargnifla_word(entry), (unsigned)wargnifla_word(entry + 4),
           is_label ? "label" : "symbol", (unsigned)(is_label ? target - WARGNIFLA_LABEL_TARGET : target), (long long)(int64_t)addend);
}

int main(void) {
    enum { LOG, SYMBOLS };
    static const uint8_t jump[5] = {0}, call[] = {0xE8, 0, 0, 0, 0}, address[8] = {0};
    wargnifla_tables tables = small_tables(WARGNIFLA_X64, SYMBOLS);
    wargnifla_segment segments[ENTRY_ROOM];
    wargnifla_record record;
    uint8_t output[CODE_ROOM];
    uint32_t end, i;

    accept("new label", wargnifla_tables_new_label(&tables, &end));
    accept("bytes", wargnifla_tables_put_bytes(&tables, jump, sizeof jump));
    accept("jump", wargnifla_tables_jump(&tables, 0, sizeof jump, end, WARGNIFLA_ALWAYS));
    accept("bytes", wargnifla_tables_put_bytes(&tables, call, sizeof call));
    accept("relocation", wargnifla_tables_add_reloc(&tables, 6, WARGNIFLA_RELOC_X86CallPLTRel4, LOG, -4));
    accept("bind", wargnifla_tables_bind(&tables, end));
    accept("bytes", wargnifla_tables_put_bytes(&tables, address, sizeof address));
    accept("relocation", wargnifla_tables_add_reloc(&tables, 10, WARGNIFLA_RELOC_Abs8, WARGNIFLA_LABEL_TARGET + end, INT64_MIN));
    accept("finish", wargnifla_tables_finish(&tables, segments, ENTRY_ROOM, output, sizeof output, &record));

    for (i = 0; i < record.relocs; i++)
        print_relocation(tables.relocs.bytes + WARGNIFLA_RELOC_BYTES * i);
    return 0;
}
