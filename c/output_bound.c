/* A recording whose finished code is exactly as long as its bound: its jump becomes long, its alignment and its constant each get the greatest
 * padding that they can. An output one byte shorter is refused. */
#include "small_tables.h"

enum { JE_BYTES = 5, MULTIPLE = 4096, RUN = MULTIPLE - JE_BYTES, RECORDED = MULTIPLE + 1 };

static uint8_t code[RECORDED], output[WARGNIFLA_MOST_OUTPUT(RECORDED, 1, 1, 1)];

int main(void) {
    static const uint8_t bytes[RUN] = {0}, constant_bytes[WARGNIFLA_MOST_CONSTANT] = {0};
    static const uint32_t equal = 4;
    wargnifla_tables tables = small_tables(WARGNIFLA_X64, 0);
    wargnifla_segment segments[ENTRY_ROOM];
    wargnifla_record record;
    uint32_t end, constant, pooled, refusal;
    size_t bound;

    tables.code = lent(code, sizeof code);
    accept("new label", wargnifla_tables_new_label(&tables, &end));
    accept("bytes", wargnifla_tables_put_bytes(&tables, bytes, JE_BYTES));
    accept("jump", wargnifla_tables_jump(&tables, 0, JE_BYTES, end, equal)); /* its long form has 6 bytes: one more */
    accept("bytes", wargnifla_tables_put_bytes(&tables, bytes, RUN));
    accept("align", wargnifla_tables_align(&tables, MULTIPLE)); /* recorded with no padding, then one byte too late */
    accept("bytes", wargnifla_tables_put_bytes(&tables, bytes, 1));
    accept("bind", wargnifla_tables_bind(&tables, end));
    accept("constant", wargnifla_tables_add_constant(&tables, constant_bytes, sizeof constant_bytes, &constant));
    accept("constant's label", wargnifla_tables_constant_label(&tables, constant, &pooled));

    bound = wargnifla_output_bound(&tables);
    refusal = wargnifla_tables_finish(&tables, segments, ENTRY_ROOM, output, bound - 1, &record);
    printf("with %u bytes: %s\n", (unsigned)bound - 1, wargnifla_refusal_name(refusal));
    refusal = wargnifla_tables_finish(&tables, segments, ENTRY_ROOM, output, bound, &record);
    printf("with %u bytes: %s, finished %u\n", (unsigned)bound, wargnifla_refusal_name(refusal), (unsigned)record.length);
    printf("from numbers alone: %u\n", (unsigned)sizeof output);
    printf("at the limit: %u\n", (unsigned)WARGNIFLA_MOST_OUTPUT(WARGNIFLA_MOST_CODE, 1, 1, 1));
    return 0;
}
