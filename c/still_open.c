/* What is still open: how many entries name a label that is not bound, after each call, as an editor shows it. The recording keeps the number. What
 * names a pooled constant stays open until finish, which settles it. Wrong numbers are put in by hand at the end: finish answers 1 to any of them,
 * every call to one above WARGNIFLA_MOST_OPEN. */
#include "small_tables.h"

static void show(const wargnifla_tables *tables, const char *call, uint32_t refusal) {
    uint32_t open = wargnifla_count_of(tables, WARGNIFLA_COUNT_OPEN);
    printf("%-24s %-14s %u open", call, wargnifla_refusal_name(refusal), (unsigned)open);
    if (open != wargnifla_count_open(tables))
        printf(", counted afresh %u", (unsigned)wargnifla_count_open(tables));
    putchar('\n');
}

static void put_open(wargnifla_tables *tables, uint32_t open) { wargnifla_put_word(tables->counts + 4 * WARGNIFLA_COUNT_OPEN, open); }

int main(void) {
    static const uint8_t two_and_a_quarter[8] = {0, 0, 0, 0, 0, 0, 2, 64};
    static const uint8_t jump[5] = {0}, mulsd[] = {0xF2, 0x0F, 0x59, 0x05, 0, 0, 0, 0}, address[8] = {0};
    wargnifla_tables tables = small_tables(WARGNIFLA_X64, 0);
    wargnifla_segment segments[ENTRY_ROOM];
    wargnifla_record record;
    uint8_t output[CODE_ROOM];
    uint32_t constant, factor, end;

    accept("constant", wargnifla_tables_add_constant(&tables, two_and_a_quarter, sizeof two_and_a_quarter, &constant));
    show(&tables, "constant's label", wargnifla_tables_constant_label(&tables, constant, &factor));
    show(&tables, "new label", wargnifla_tables_new_label(&tables, &end));
    accept("bytes", wargnifla_tables_put_bytes(&tables, jump, sizeof jump));
    show(&tables, "jump to the label", wargnifla_tables_jump(&tables, 0, sizeof jump, end, WARGNIFLA_ALWAYS));
    accept("bytes", wargnifla_tables_put_bytes(&tables, mulsd, sizeof mulsd));
    show(&tables, "ref of the constant", wargnifla_tables_ref(&tables, 9, factor, WARGNIFLA_FIELD_X86JmpRel32, 0));
    show(&tables, "relocation of the label", wargnifla_tables_add_reloc(&tables, 13, WARGNIFLA_RELOC_Abs8, WARGNIFLA_LABEL_TARGET + end, 0));
    accept("bytes", wargnifla_tables_put_bytes(&tables, address, sizeof address));
    show(&tables, "finish", wargnifla_tables_finish(&tables, segments, ENTRY_ROOM, output, sizeof output, &record));
    show(&tables, "bind the label", wargnifla_tables_bind(&tables, end));
    show(&tables, "bind it again", wargnifla_tables_bind(&tables, end));

    put_open(&tables, 7);
    show(&tables, "align", wargnifla_tables_align(&tables, 4));
    show(&tables, "finish", wargnifla_tables_finish(&tables, segments, ENTRY_ROOM, output, sizeof output, &record));
    put_open(&tables, WARGNIFLA_MOST_OPEN + 1);
    show(&tables, "align", wargnifla_tables_align(&tables, 4));
    put_open(&tables, wargnifla_count_open(&tables));
    show(&tables, "finish", wargnifla_tables_finish(&tables, segments, ENTRY_ROOM, output, sizeof output, &record));
    return 0;
}
