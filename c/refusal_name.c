/* Refusals, their names and what they say: one that leaves the recording as it was, one that ends it, one of finish, after which another finish may
 * follow, and then all. */
#include "small_tables.h"

static void print_answer(const char *call, uint32_t refusal) { printf("%s: %u %s\n", call, (unsigned)refusal, wargnifla_refusal_name(refusal)); }

static void end_a_recording(void) {
    wargnifla_tables tables = small_tables(WARGNIFLA_X64, 0);
    uint32_t label;
    print_answer("new label", wargnifla_tables_new_label(&tables, &label));
    print_answer("bind", wargnifla_tables_bind(&tables, label));
    print_answer("bind again", wargnifla_tables_bind(&tables, label));
    print_answer("use of label 7", wargnifla_tables_use(&tables, 0, 7, WARGNIFLA_FIELD_X86JmpRel32));
    print_answer("new label", wargnifla_tables_new_label(&tables, &label));
    printf("recorded: %s\n", wargnifla_refusal_name(wargnifla_count_of(&tables, WARGNIFLA_COUNT_REFUSAL)));
}

static void finish_twice(void) {
    static const uint8_t ret[] = {0xC3};
    wargnifla_tables tables = small_tables(WARGNIFLA_X64, 0);
    wargnifla_record record;
    uint8_t output[sizeof ret];
    accept("bytes", wargnifla_tables_put_bytes(&tables, ret, sizeof ret));
    print_answer("finish without output", wargnifla_tables_finish(&tables, NULL, 0, NULL, 0, &record));
    print_answer("finish", wargnifla_tables_finish(&tables, NULL, 0, output, sizeof output, &record));
    print_answer("finish again", wargnifla_tables_finish(&tables, NULL, 0, output, sizeof output, &record));
}

static void print_all(void) {
    uint32_t refusal;
    for (refusal = WARGNIFLA_ACCEPTED; refusal <= WARGNIFLA_SYMBOL_UNDEFINED + 1; refusal++)
        printf("%u %s: %s\n", (unsigned)refusal, wargnifla_refusal_name(refusal), wargnifla_refusal_text(refusal));
}

int main(void) {
    end_a_recording();
    finish_twice();
    print_all();
    return 0;
}
