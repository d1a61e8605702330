/* Where a length is 0 the pointer may be NULL: tables that nothing is recorded in, bytes, a sheet, segments, an output, ELF entries, what is joined,
 * and even counts and record, which then are too short. */
#include <string.h>

#include "small_tables.h"

static void print_answer(const char *call, uint32_t refusal) { printf("%s: %s\n", call, wargnifla_refusal_name(refusal)); }

static wargnifla_tables no_tables(void) {
    wargnifla_tables tables;
    memset(&tables, 0, sizeof tables);
    accept("start", wargnifla_tables_start(&tables, WARGNIFLA_X64, 1));
    return tables;
}

static void record_nothing(void) {
    static const uint8_t empty_sheet[WARGNIFLA_SHEET_BYTES(0)] = {0};
    wargnifla_tables tables = no_tables();
    wargnifla_record record;
    uint32_t index;
    print_answer("an empty sheet", wargnifla_tables_run_sheet(&tables, empty_sheet, sizeof empty_sheet, &index));
    print_answer("no sheet", wargnifla_tables_run_sheet(&tables, NULL, 0, &index));
    print_answer("no bytes", wargnifla_tables_put_bytes(&tables, NULL, 0));
    print_answer("finish", wargnifla_tables_finish(&tables, NULL, 0, NULL, 0, &record));
    printf("%u bytes\n", (unsigned)record.length);
    print_answer("no relocation as ELF", wargnifla_tables_write_relas(&tables, &record, 0, NULL, 0));
    print_answer("no ELF entry", wargnifla_read_relas(NULL, 0, NULL, 0));
}

static void find_no_room(void) {
    static const uint8_t byte[1] = {0};
    wargnifla_tables without_code = no_tables(), without_constants = no_tables(), without_relocs = no_tables(), without_labels = no_tables();
    wargnifla_tables without_events = no_tables();
    uint32_t number;
    print_answer("a byte", wargnifla_tables_put_bytes(&without_code, byte, sizeof byte));
    print_answer("a constant", wargnifla_tables_add_constant(&without_constants, NULL, 0, &number));
    print_answer("a relocation", wargnifla_tables_add_reloc(&without_relocs, 0, WARGNIFLA_RELOC_Abs8, 0, 0));
    print_answer("a label", wargnifla_tables_new_label(&without_labels, &number));
    print_answer("an alignment", wargnifla_tables_align_within(&without_events, 8, 0));
}

/* A constant of no bytes is one: it is pooled with its alignment alone. */
static void pool_nothing(void) {
    wargnifla_tables tables = small_tables(WARGNIFLA_X64, 0);
    wargnifla_record record;
    uint32_t constant, label;
    accept("constant", wargnifla_tables_add_constant(&tables, NULL, 0, &constant));
    accept("constant's label", wargnifla_tables_constant_label(&tables, constant, &label));
    print_answer("finish with a constant of no bytes", wargnifla_tables_finish(&tables, NULL, 0, NULL, 0, &record));
}

/* A finished recording of nothing is joined like any other. */
static void join_nothing(void) {
    uint8_t piece[WARGNIFLA_PIECE_BYTES];
    wargnifla_tables tables = no_tables();
    wargnifla_pieces pieces;
    wargnifla_record record;
    memset(&pieces, 0, sizeof pieces);
    print_answer("join of none", wargnifla_pieces_join(&pieces, NULL, 0, NULL, 0, NULL, 0, &record));
    accept("finish", wargnifla_tables_finish(&tables, NULL, 0, NULL, 0, &record));
    wargnifla_put_piece(piece, &record, 0);
    pieces.pieces = lent(piece, sizeof piece);
    print_answer("join of a recording of nothing", wargnifla_pieces_join(&pieces, NULL, 0, NULL, 0, NULL, 0, &record));
    printf("%u bytes\n", (unsigned)record.length);
}

static void lend_nothing(void) {
    uint32_t out;
    print_answer("start", wargnifla_start(WARGNIFLA_X64, 0, NULL, 0));
    print_answer("put_bytes", wargnifla_put_bytes(NULL, 0, NULL, 0, NULL, 0));
    print_answer("align", wargnifla_align(NULL, 0, NULL, 0, NULL, 0, 1, 0));
    print_answer("add_constant", wargnifla_add_constant(NULL, 0, NULL, 0, NULL, 0, &out));
    print_answer("add_reloc", wargnifla_add_reloc(NULL, 0, NULL, 0, NULL, 0, 0, 0, 0, 0));
    print_answer("run_sheet", wargnifla_run_sheet(NULL, 0, &out, NULL, 0, NULL, 0, NULL, 0, NULL, 0, NULL, 0, NULL, 0, NULL, 0, NULL, 0, NULL, 0));
    print_answer("finish",
                 wargnifla_finish(NULL, 0, NULL, 0, NULL, 0, NULL, 0, NULL, 0, NULL, 0, NULL, 0, NULL, 0, NULL, 0, NULL, 0, NULL, 0, NULL, 0));
    print_answer("write_relas", wargnifla_write_relas(NULL, 0, NULL, 0, NULL, 0, 0, NULL, 0));
    print_answer("join", wargnifla_join(NULL, 0, NULL, 0, NULL, 0, NULL, 0, NULL, 0, NULL, 0, NULL, 0, NULL, 0, NULL, 0));
}

int main(void) {
    record_nothing();
    find_no_room();
    pool_nothing();
    join_nothing();
    lend_nothing();
    return 0;
}
