/* Case B of document 01 through the C functions themselves, with a sheet of calls: a 5-byte jump at 0, 128 zeros, its label at the end. Prints the
 * case, the finished length, the layouts and the jump's bytes. */
#include <stdio.h>

#include "wargnifla.h"

enum { CODE = 256, ENTRIES = 4, ZEROS = 128, RUNS = 11, CALLS = RUNS + 4 };

static const uint8_t zeros[12] = {0};

/* The calls, in order. */
static void write_sheet(uint8_t *sheet) {
    uint32_t i, at = 0;
    wargnifla_sheet_start(sheet, CALLS);
    wargnifla_sheet_call(sheet, at++, WARGNIFLA_CALL_NEW_LABEL, 0, 0, 0, 0);
    wargnifla_sheet_bytes(sheet, at++, WARGNIFLA_CALL_BYTES, zeros, 5); /* what the jump stands on */
    wargnifla_sheet_call(sheet, at++, WARGNIFLA_CALL_JUMP, 0, 5, 0, WARGNIFLA_ALWAYS);
    for (i = 0; i < RUNS; i++)
        wargnifla_sheet_bytes(sheet, at++, WARGNIFLA_CALL_BYTES, zeros, i < ZEROS / 12 ? 12 : ZEROS % 12);
    wargnifla_sheet_call(sheet, at++, WARGNIFLA_CALL_BIND, 0, 0, 0, 0);
}

int main(void) {
    uint8_t sheet[WARGNIFLA_SHEET_BYTES(CALLS)];
    uint8_t counts[WARGNIFLA_COUNTS_BYTES], record[WARGNIFLA_RECORD_BYTES];
    uint8_t code[CODE], output[CODE];
    uint8_t labels[ENTRIES * WARGNIFLA_LABEL_BYTES], events[ENTRIES * WARGNIFLA_EVENT_BYTES], uses[ENTRIES * WARGNIFLA_USE_BYTES];
    uint8_t refs[ENTRIES * WARGNIFLA_REF_BYTES], constants[ENTRIES * WARGNIFLA_CONSTANT_BYTES], asked[ENTRIES * WARGNIFLA_ASKED_BYTES];
    uint8_t relocs[ENTRIES * WARGNIFLA_RELOC_BYTES];
    wargnifla_segment segments[ENTRIES];
    uint32_t index, refusal;
    int i;

    refusal = wargnifla_start(WARGNIFLA_X64, 0, counts, sizeof counts);
    if (refusal != WARGNIFLA_ACCEPTED) {
        printf("start refused: %u\n", (unsigned)refusal);
        return 1;
    }

    write_sheet(sheet);
    refusal = wargnifla_run_sheet(sheet, sizeof sheet, &index, counts, sizeof counts, code, sizeof code, labels, sizeof labels, events, sizeof events,
                                  uses, sizeof uses, refs, sizeof refs, constants, sizeof constants, asked, sizeof asked, relocs, sizeof relocs);
    if (refusal != WARGNIFLA_ACCEPTED) {
        printf("call %u refused: %u\n", (unsigned)index, (unsigned)refusal);
        return 1;
    }

    refusal = wargnifla_finish(counts, sizeof counts, code, sizeof code, labels, sizeof labels, events, sizeof events, uses, sizeof uses, refs,
                               sizeof refs, constants, sizeof constants, asked, sizeof asked, relocs, sizeof relocs, segments, ENTRIES, output,
                               sizeof output, record, sizeof record);
    if (refusal != WARGNIFLA_ACCEPTED) {
        printf("finish refused: %u\n", (unsigned)refusal);
        return 1;
    }
    printf("B %u %u:", (unsigned)wargnifla_word(record + 4), (unsigned)wargnifla_word(record + 12));
    for (i = 0; i < 5; i++)
        printf(" %02X", output[i]);
    putchar('\n');
    return 0;
}
