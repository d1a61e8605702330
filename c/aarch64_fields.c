/* Fields of AArch64: a branch over a word, and the address of what follows it by adrp and add. Alignments are padded with zeros. */
#include "small_tables.h"

/* The add holds an immediate, 1, which its label's low bits replace. */
static const uint32_t BRANCH = 0x14000000, ADRP_X0 = 0x90000000, ADD_X0_X0 = 0x91000400;

/* Appends an instruction whose field names a label. */
static void put_instruction(wargnifla_tables *tables, uint32_t instruction, uint32_t label, uint32_t code) {
    uint8_t bytes[4];
    wargnifla_put_word(bytes, instruction);
    accept("use", wargnifla_tables_use(tables, wargnifla_count_of(tables, WARGNIFLA_COUNT_CODE), label, code));
    accept("bytes", wargnifla_tables_put_bytes(tables, bytes, sizeof bytes));
}

int main(void) {
    static const uint8_t word[4] = {0};
    wargnifla_tables tables = small_tables(WARGNIFLA_AARCH64, 0);
    wargnifla_record record;
    uint8_t output[CODE_ROOM];
    uint32_t over, data, i;

    accept("new label", wargnifla_tables_new_label(&tables, &over));
    accept("new label", wargnifla_tables_new_label(&tables, &data));
    put_instruction(&tables, BRANCH, over, WARGNIFLA_FIELD_A64Branch26);
    accept("bytes", wargnifla_tables_put_bytes(&tables, word, sizeof word));
    accept("bind", wargnifla_tables_bind(&tables, over));
    put_instruction(&tables, ADRP_X0, data, WARGNIFLA_FIELD_A64Adrp21);
    put_instruction(&tables, ADD_X0_X0, data, WARGNIFLA_FIELD_A64AddAbsLo12);
    accept("align", wargnifla_tables_align(&tables, 32));
    accept("bind", wargnifla_tables_bind(&tables, data));
    accept("finish", wargnifla_tables_finish(&tables, NULL, 0, output, sizeof output, &record));

    for (i = 0; i < record.length; i += 4)
        printf("%2u: %08X\n", (unsigned)i, (unsigned)wargnifla_word(output + i));
    return 0;
}
