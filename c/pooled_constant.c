/* A constant that finish pools behind the code, and an instruction that reads it: mulsd xmm0, [rip + constant]; ret. Its field is recorded as a use
 * and as a ref, so that it is patched whether a jump stands or not. */
#include "small_tables.h"

static void multiply(int with_jump) {
    static const uint8_t two_and_a_quarter[8] = {0, 0, 0, 0, 0, 0, 2, 64};
    static const uint8_t mulsd[] = {0xF2, 0x0F, 0x59, 0x05, 0, 0, 0, 0}, jump[5] = {0}, ret[] = {0xC3};
    wargnifla_tables tables = small_tables(WARGNIFLA_X64, 0);
    wargnifla_segment segments[ENTRY_ROOM];
    wargnifla_record record;
    uint8_t output[CODE_ROOM];
    uint32_t constant, factor, end, field = 4;

    accept("constant", wargnifla_tables_add_constant(&tables, two_and_a_quarter, sizeof two_and_a_quarter, &constant));
    accept("constant's label", wargnifla_tables_constant_label(&tables, constant, &factor));
    accept("new label", wargnifla_tables_new_label(&tables, &end));
    accept("bytes", wargnifla_tables_put_bytes(&tables, mulsd, sizeof mulsd));
    accept("use", wargnifla_tables_use(&tables, field, factor, WARGNIFLA_FIELD_X86JmpRel32));
    accept("ref", wargnifla_tables_ref(&tables, field, factor, WARGNIFLA_FIELD_X86JmpRel32, 0));
    if (with_jump) {
        accept("bytes", wargnifla_tables_put_bytes(&tables, jump, sizeof jump));
        accept("jump", wargnifla_tables_jump(&tables, sizeof mulsd, sizeof jump, end, WARGNIFLA_ALWAYS));
    }
    accept("bind", wargnifla_tables_bind(&tables, end));
    accept("bytes", wargnifla_tables_put_bytes(&tables, ret, sizeof ret));
    accept("finish", wargnifla_tables_finish(&tables, segments, ENTRY_ROOM, output, sizeof output, &record));

    printf("labels %u and %u, constant at %u of %u bytes:", (unsigned)factor, (unsigned)end, (unsigned)wargnifla_label_offset(&tables, factor),
           (unsigned)record.length);
    print_bytes(output, record.length);
}

int main(void) {
    multiply(0);
    multiply(1);
    return 0;
}
