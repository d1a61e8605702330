/* Jumps appended and recorded by one call: on X64 short or long as each must be, on X86 long; what is refused. */
#include <string.h>

#include "small_tables.h"

enum { ABOVE = 7 };

static void print_answer(const char *call, uint32_t refusal) { printf("%s: %u, %s\n", call, (unsigned)refusal, wargnifla_refusal_text(refusal)); }

/* ja over NOPs, which are jumped back over. */
static void jump_there_and_back(const char *name, uint32_t arch, size_t run) {
    wargnifla_tables tables = small_tables(arch, 0);
    wargnifla_segment segments[ENTRY_ROOM];
    wargnifla_record record;
    uint8_t nops[CODE_ROOM], output[CODE_ROOM];
    uint32_t start, end, first, last;

    memset(nops, 0x90, sizeof nops);
    accept("new label", wargnifla_tables_new_label(&tables, &start));
    accept("new label", wargnifla_tables_new_label(&tables, &end));
    accept("bind", wargnifla_tables_bind(&tables, start));
    accept("jump", wargnifla_put_jump(&tables, end, ABOVE));
    accept("bytes", wargnifla_tables_put_bytes(&tables, nops, run));
    accept("bind", wargnifla_tables_bind(&tables, end));
    accept("jump", wargnifla_put_jump(&tables, start, WARGNIFLA_ALWAYS));
    accept("finish", wargnifla_tables_finish(&tables, segments, ENTRY_ROOM, output, sizeof output, &record));

    last = wargnifla_label_offset(&tables, end);
    first = last - (uint32_t)run;
    printf("%s, over %u:\n", name, (unsigned)run);
    print_bytes(output, first);
    print_bytes(output + last, record.length - last);
}

static void refuse(void) {
    wargnifla_tables tables = small_tables(WARGNIFLA_X64, 0);
    uint32_t label;
    print_answer("condition 17", wargnifla_put_jump(&tables, 0, 17));
    print_answer("an unknown label", wargnifla_put_jump(&tables, 0, WARGNIFLA_ALWAYS));
    tables = small_tables(WARGNIFLA_AARCH64, 0);
    accept("new label", wargnifla_tables_new_label(&tables, &label));
    print_answer("AArch64", wargnifla_put_jump(&tables, label, WARGNIFLA_ALWAYS));
    printf("bytes of code: %u\n", (unsigned)wargnifla_count_of(&tables, WARGNIFLA_COUNT_CODE));
}

int main(void) {
    jump_there_and_back("X64", WARGNIFLA_X64, 100);
    jump_there_and_back("X64", WARGNIFLA_X64, 130);
    jump_there_and_back("X86", WARGNIFLA_X86, 100);
    refuse();
    return 0;
}
