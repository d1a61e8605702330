/* Relocations for the system linker: a recording is finished and its relocations are written as Elf64_Rela entries, a packer's part of an object file;
 * then they are read back. And what is refused. */
#include "small_tables.h"

/* Symbols of the object file: the section symbol of the code is a local one, and so has a number below those of functions. */
enum { TEXT_SECTION = 1, LOG = 3, SYMBOLS };

static void print_answer(const char *call, uint32_t refusal) { printf("%s: %u %s\n", call, (unsigned)refusal, wargnifla_refusal_name(refusal)); }

static void print_entry(const uint8_t *entry) {
    uint64_t addend = wargnifla_word(entry + 16) | (uint64_t)wargnifla_word(entry + 20) << 32;
    printf("at %u: type %u, symbol %u, addend %lld\n", (unsigned)wargnifla_word(entry), (unsigned)wargnifla_word(entry + 4),
           (unsigned)wargnifla_word(entry + 8), (long long)(int64_t)addend);
}

/* Finishes a recording with one relocation at offset 1, against a symbol or a label that is bound there. */
static wargnifla_tables finished(uint32_t arch, uint32_t kind, uint32_t target, int64_t addend, wargnifla_record *record) {
    static const uint8_t byte[1] = {0}, address[8] = {0};
    wargnifla_tables tables = small_tables(arch, SYMBOLS);
    uint8_t output[CODE_ROOM];
    uint32_t label;
    accept("bytes", wargnifla_tables_put_bytes(&tables, byte, sizeof byte));
    accept("new label", wargnifla_tables_new_label(&tables, &label));
    accept("bind", wargnifla_tables_bind(&tables, label));
    accept("bytes", wargnifla_tables_put_bytes(&tables, address, sizeof address));
    accept("relocation", wargnifla_tables_add_reloc(&tables, 1, kind, target, addend));
    accept("finish", wargnifla_tables_finish(&tables, NULL, 0, output, sizeof output, record));
    return tables;
}

/* A jump over an address, that of the code's end: 5 bytes past a label. Behind it, a jump to a symbol. Finish shortens the first jump, so that both
 * fields and the label move. */
static void write_and_read(void) {
    static const uint8_t over_address[5] = {0}, address[8] = {0}, to_log[] = {0xE9, 0, 0, 0, 0};
    uint8_t output[CODE_ROOM], relas[ENTRY_ROOM * WARGNIFLA_RELA_BYTES], entries[ENTRY_ROOM * WARGNIFLA_RELOC_BYTES];
    wargnifla_tables tables = small_tables(WARGNIFLA_X64, SYMBOLS);
    wargnifla_segment segments[ENTRY_ROOM];
    wargnifla_record record;
    uint32_t code, i;

    accept("new label", wargnifla_tables_new_label(&tables, &code));
    accept("bytes", wargnifla_tables_put_bytes(&tables, over_address, sizeof over_address));
    accept("jump", wargnifla_tables_jump(&tables, 0, sizeof over_address, code, WARGNIFLA_ALWAYS));
    accept("relocation", wargnifla_tables_add_reloc(&tables, 5, WARGNIFLA_RELOC_Abs8, WARGNIFLA_LABEL_TARGET + code, sizeof to_log));
    accept("bytes", wargnifla_tables_put_bytes(&tables, address, sizeof address));
    accept("bind", wargnifla_tables_bind(&tables, code));
    accept("relocation", wargnifla_tables_add_reloc(&tables, 14, WARGNIFLA_RELOC_X86CallPLTRel4, LOG, -4));
    accept("bytes", wargnifla_tables_put_bytes(&tables, to_log, sizeof to_log));
    accept("finish", wargnifla_tables_finish(&tables, segments, ENTRY_ROOM, output, sizeof output, &record));

    accept("write", wargnifla_tables_write_relas(&tables, &record, TEXT_SECTION, relas, sizeof relas));
    for (i = 0; i < record.relocs; i++)
        print_bytes(relas + WARGNIFLA_RELA_BYTES * i, WARGNIFLA_RELA_BYTES);
    accept("read", wargnifla_read_relas(relas, wargnifla_relas_len(&record), entries, sizeof entries));
    for (i = 0; i < record.relocs; i++)
        print_entry(entries + WARGNIFLA_RELOC_BYTES * i);
}

static void write_refused(void) {
    uint8_t words[WARGNIFLA_RECORD_BYTES] = {WARGNIFLA_X64}, relas[WARGNIFLA_RELA_BYTES];
    wargnifla_record record;
    wargnifla_tables tables = finished(WARGNIFLA_X86, WARGNIFLA_RELOC_Abs4, LOG, 0, &record);
    print_answer("X86", wargnifla_tables_write_relas(&tables, &record, TEXT_SECTION, relas, sizeof relas));
    record.relocs = 0;
    print_answer("X86 without any relocation", wargnifla_tables_write_relas(&tables, &record, TEXT_SECTION, NULL, 0));

    tables = finished(WARGNIFLA_X64, WARGNIFLA_RELOC_X86SecRel, LOG, 0, &record);
    print_answer("a kind without a type", wargnifla_tables_write_relas(&tables, &record, TEXT_SECTION, relas, sizeof relas));

    tables = finished(WARGNIFLA_X64, WARGNIFLA_RELOC_Abs8, WARGNIFLA_LABEL_TARGET, INT64_MAX, &record);
    print_answer("a label at 1, addend 2^63 - 1", wargnifla_tables_write_relas(&tables, &record, TEXT_SECTION, relas, sizeof relas));
    tables = finished(WARGNIFLA_X64, WARGNIFLA_RELOC_Abs8, WARGNIFLA_LABEL_TARGET, INT64_MAX - 1, &record);
    print_answer("a label at 1, addend 2^63 - 2", wargnifla_tables_write_relas(&tables, &record, TEXT_SECTION, relas, sizeof relas));

    print_answer("an output of 23 bytes", wargnifla_tables_write_relas(&tables, &record, TEXT_SECTION, relas, sizeof relas - 1));
    record.labels = 0;
    print_answer("an unknown label", wargnifla_tables_write_relas(&tables, &record, TEXT_SECTION, relas, sizeof relas));
    print_answer("a record of 23 bytes", wargnifla_write_relas(words, sizeof words - 1, NULL, 0, NULL, 0, TEXT_SECTION, NULL, 0));
}

static void read_refused(void) {
    uint8_t relas[2 * WARGNIFLA_RELA_BYTES] = {0}, entries[2 * WARGNIFLA_RELOC_BYTES];
    wargnifla_put_word(relas + 8, WARGNIFLA_R_X86_64_64);
    wargnifla_put_word(relas + WARGNIFLA_RELA_BYTES + 8, WARGNIFLA_R_AARCH64_ABS64);
    print_answer("types of X64 and AArch64", wargnifla_read_relas(relas, sizeof relas, entries, sizeof entries));
    print_answer("a table for one entry", wargnifla_read_relas(relas, sizeof relas, entries, sizeof entries - 1));
    print_answer("47 bytes", wargnifla_read_relas(relas, sizeof relas - 1, entries, sizeof entries));
    wargnifla_put_word(relas + 4, 1);
    print_answer("an offset of 2^32", wargnifla_read_relas(relas, sizeof relas, entries, sizeof entries));
    wargnifla_put_word(relas + 4, 0);
    wargnifla_put_word(relas + WARGNIFLA_RELA_BYTES + 8, 3);
    print_answer("type 3", wargnifla_read_relas(relas, sizeof relas, entries, sizeof entries - 1));
}

int main(void) {
    write_and_read();
    write_refused();
    read_refused();
    return 0;
}
