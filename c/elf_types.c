/* The ELF types of relocations: every kind on every architecture, held against the numbers of the system's <elf.h>, and every type as it is read. */
#include <elf.h>

#include "small_tables.h"

enum { PAST_LAST_KIND = WARGNIFLA_RELOC_RiscvPCRelHi20 + 1, LAST_ARCH = 7, LAST_TYPE = 1023 };

typedef struct {
    uint32_t arch, kind;
    const char *kind_name;
    uint32_t type, of_the_system;
    const char *type_name;
} row;

#define ROW(arch, kind, type) {WARGNIFLA_##arch, WARGNIFLA_RELOC_##kind, #kind, WARGNIFLA_##type, type, #type}

static const row rows[] = {
    ROW(X64, Abs4, R_X86_64_32),
    ROW(X64, Abs8, R_X86_64_64),
    ROW(X64, X86PCRel4, R_X86_64_PC32),
    ROW(X64, X86CallPCRel4, R_X86_64_PLT32),
    ROW(X64, X86CallPLTRel4, R_X86_64_PLT32),
    ROW(X64, X86GOTPCRel4, R_X86_64_GOTPCREL),
    ROW(X64, ElfX86_64TlsGd, R_X86_64_TLSGD),
    ROW(AARCH64, Abs4, R_AARCH64_ABS32),
    ROW(AARCH64, Abs8, R_AARCH64_ABS64),
    ROW(AARCH64, Arm64Call, R_AARCH64_CALL26),
    ROW(AARCH64, Aarch64AdrPrelPgHi21, R_AARCH64_ADR_PREL_PG_HI21),
    ROW(AARCH64, Aarch64AddAbsLo12Nc, R_AARCH64_ADD_ABS_LO12_NC),
};
static const size_t row_count = sizeof rows / sizeof *rows;

/* The row of a kind on an architecture, or NULL. */
static const row *find(uint32_t arch, uint32_t kind) {
    size_t i;
    for (i = 0; i < row_count; i++)
        if (rows[i].arch == arch && rows[i].kind == kind)
            return &rows[i];
    return NULL;
}

/* Writes one relocation against symbol 5 and gives its refusal; type becomes what was written. */
static uint32_t write_one(uint32_t arch, uint32_t kind, uint32_t *type) {
    uint8_t record[WARGNIFLA_RECORD_BYTES] = {0}, reloc[WARGNIFLA_RELOC_BYTES] = {0}, rela[WARGNIFLA_RELA_BYTES] = {0};
    uint32_t refusal;
    wargnifla_put_word(record, arch);
    wargnifla_put_word(record + 20, 1);
    wargnifla_put_word(reloc + 4, kind);
    wargnifla_put_word(reloc + 8, 5);
    refusal = wargnifla_write_relas(record, sizeof record, NULL, 0, reloc, sizeof reloc, 0, rela, sizeof rela);
    *type = (uint32_t)ELF64_R_TYPE(wargnifla_word(rela + 8) | (uint64_t)wargnifla_word(rela + 12) << 32);
    return refusal;
}

/* Prints what is written of a kind, or ends the program where that is not its row's. */
static void print_kind(uint32_t arch, uint32_t kind) {
    const row *expected = find(arch, kind);
    uint32_t type, refusal = write_one(arch, kind, &type);
    int is_as_expected = expected ? refusal == WARGNIFLA_ACCEPTED && type == expected->type && type == expected->of_the_system
                                  : refusal == WARGNIFLA_NO_ELF_TYPE && type == 0;
    if (!is_as_expected) {
        printf("architecture %u, kind %u: %s, type %u\n", (unsigned)arch, (unsigned)kind, wargnifla_refusal_name(refusal), (unsigned)type);
        exit(1);
    }
    if (expected)
        printf("architecture %u, kind %2u %-20s  type %3u %s\n", (unsigned)arch, (unsigned)kind, expected->kind_name, (unsigned)type,
               expected->type_name);
}

static int is_read(uint32_t type) {
    uint8_t rela[WARGNIFLA_RELA_BYTES] = {0}, entry[WARGNIFLA_RELOC_BYTES];
    wargnifla_put_word(rela + 8, type);
    return wargnifla_read_relas(rela, sizeof rela, entry, sizeof entry) == WARGNIFLA_ACCEPTED && wargnifla_word(entry + 4) == type;
}

int main(void) {
    uint32_t arch, kind, type;
    for (arch = 0; arch <= LAST_ARCH; arch++)
        for (kind = 0; kind <= PAST_LAST_KIND; kind++)
            print_kind(arch, kind);
    printf("%u kinds on %u architectures: all others are %s\n", PAST_LAST_KIND + 1, LAST_ARCH + 1, wargnifla_refusal_name(WARGNIFLA_NO_ELF_TYPE));

    printf("types that are read, up to %u:", LAST_TYPE);
    for (type = 0; type <= LAST_TYPE; type++)
        if (is_read(type))
            printf(" %u", (unsigned)type);
    putchar('\n');
    return 0;
}
