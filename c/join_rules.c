/* Rules joined into one: a recording that calls a symbol and a recording that defines it are finished and joined, and the call is filled. The second
 * has an address of its own for the system linker, which remains. And what is refused. */
#include <string.h>

#include "small_tables.h"

/* Symbols, whose numbers all rules share. */
enum { SORT = 7, SYMBOLS };

enum { RULES = 2, LABEL_ROOM = RULES * ENTRY_ROOM * WARGNIFLA_LABEL_BYTES, RELOC_ROOM = RULES * ENTRY_ROOM * WARGNIFLA_RELOC_BYTES };

/* The finished rules, one's tables behind the other's. */
static wargnifla_pieces no_rules(void) {
    static uint8_t pieces[RULES * WARGNIFLA_PIECE_BYTES], code[RULES * CODE_ROOM], labels[LABEL_ROOM], relocs[RELOC_ROOM];
    static uint8_t definitions[RULES * WARGNIFLA_DEFINITION_BYTES];
    wargnifla_pieces rules;
    rules.pieces = lent(pieces, 0);
    rules.code = lent(code, 0);
    rules.labels = lent(labels, 0);
    rules.relocs = lent(relocs, 0);
    rules.definitions = lent(definitions, 0);
    return rules;
}

static void append(wargnifla_table *table, const uint8_t *bytes, size_t len) {
    memcpy(table->bytes + table->len, bytes, len);
    table->len += len;
}

/* Finishes a recording behind the rules before it; the definitions that it brings are appended already. */
static void finish(wargnifla_pieces *rules, wargnifla_tables *tables, uint32_t definitions) {
    uint8_t output[CODE_ROOM], piece[WARGNIFLA_PIECE_BYTES];
    wargnifla_record record;
    accept("finish", wargnifla_tables_finish(tables, NULL, 0, output, sizeof output, &record));
    wargnifla_put_piece(piece, &record, definitions);
    append(&rules->pieces, piece, sizeof piece);
    append(&rules->code, output, record.length);
    append(&rules->labels, tables->labels.bytes, WARGNIFLA_LABEL_BYTES * record.labels);
    append(&rules->relocs, tables->relocs.bytes, WARGNIFLA_RELOC_BYTES * record.relocs);
}

static void define(wargnifla_pieces *rules, uint32_t symbol, uint32_t label) {
    uint8_t definition[WARGNIFLA_DEFINITION_BYTES];
    wargnifla_put_definition(definition, symbol, label);
    append(&rules->definitions, definition, sizeof definition);
}

/* call sort; ret */
static void finish_caller(wargnifla_pieces *rules) {
    static const uint8_t call_and_ret[] = {0xE8, 0, 0, 0, 0, 0xC3};
    wargnifla_tables tables = small_tables(WARGNIFLA_X64, SYMBOLS);
    uint32_t start;
    accept("new label", wargnifla_tables_new_label(&tables, &start));
    accept("bind", wargnifla_tables_bind(&tables, start));
    accept("relocation", wargnifla_tables_add_reloc(&tables, 1, WARGNIFLA_RELOC_X86CallPLTRel4, SORT, -4));
    accept("bytes", wargnifla_tables_put_bytes(&tables, call_and_ret, sizeof call_and_ret));
    finish(rules, &tables, 0);
}

/* The address of sort's end, and behind it sort, which is a ret. */
static void finish_sort(wargnifla_pieces *rules) {
    static const uint8_t address[8] = {0}, ret[] = {0xC3};
    wargnifla_tables tables = small_tables(WARGNIFLA_X64, SYMBOLS);
    uint32_t end, sort;
    accept("new label", wargnifla_tables_new_label(&tables, &end));
    accept("new label", wargnifla_tables_new_label(&tables, &sort));
    accept("relocation", wargnifla_tables_add_reloc(&tables, 0, WARGNIFLA_RELOC_Abs8, WARGNIFLA_LABEL_TARGET + end, 0));
    accept("bytes", wargnifla_tables_put_bytes(&tables, address, sizeof address));
    accept("bind", wargnifla_tables_bind(&tables, sort));
    accept("bytes", wargnifla_tables_put_bytes(&tables, ret, sizeof ret));
    accept("bind", wargnifla_tables_bind(&tables, end));
    define(rules, SORT, sort);
    finish(rules, &tables, 1);
}

static void print_relocation(const uint8_t *entry) {
    uint64_t addend = wargnifla_word(entry + 16) | (uint64_t)wargnifla_word(entry + 20) << 32;
    uint32_t target = wargnifla_word(entry + 8);
    int is_label = target >= WARGNIFLA_LABEL_TARGET;
    printf("relocation at %u: kind %u, %s %u, addend %lld\n", (unsigned)wargnifla_word(entry), (unsigned)wargnifla_word(entry + 4),
           is_label ? "label" : "symbol", (unsigned)(is_label ? target - WARGNIFLA_LABEL_TARGET : target), (long long)(int64_t)addend);
}

static void join_both(const wargnifla_pieces *rules) {
    uint8_t output[CODE_ROOM], labels[LABEL_ROOM], relocs[RELOC_ROOM];
    wargnifla_record whole;
    uint32_t i;
    accept("join", wargnifla_pieces_join(rules, output, (size_t)wargnifla_joined_len(rules), labels, sizeof labels, relocs, sizeof relocs, &whole));
    printf("%u bytes, alignment %u\n", (unsigned)whole.length, (unsigned)whole.alignment);
    for (i = 0; i < RULES; i++)
        printf("piece %u at %u\n", (unsigned)i, (unsigned)wargnifla_piece_base(rules, i));
    print_bytes(output, whole.length);
    for (i = 0; i < whole.labels; i++)
        printf("label %u at %u\n", (unsigned)i, (unsigned)wargnifla_word(labels + WARGNIFLA_LABEL_BYTES * i));
    for (i = 0; i < whole.relocs; i++)
        print_relocation(relocs + WARGNIFLA_RELOC_BYTES * i);
}

/* The answer to rules, and what it leaves: a record of zeros, the output as it was. */
static void print_answer(const char *what, const wargnifla_pieces *rules, size_t output_len) {
    uint8_t output[CODE_ROOM] = {0xA5}, labels[LABEL_ROOM], relocs[RELOC_ROOM];
    wargnifla_record whole;
    uint32_t refusal = wargnifla_pieces_join(rules, output, output_len, labels, sizeof labels, relocs, sizeof relocs, &whole);
    printf("%s: %u %s, length %u, first byte %02X\n", what, (unsigned)refusal, wargnifla_refusal_name(refusal), (unsigned)whole.length, output[0]);
}

static void join_refused(wargnifla_pieces *rules) {
    uint8_t *second = rules->pieces.bytes + WARGNIFLA_PIECE_BYTES;
    wargnifla_record record = wargnifla_record_of(second);
    print_answer("an output that is one byte short", rules, (size_t)wargnifla_joined_len(rules) - 1);

    wargnifla_put_definition(rules->definitions.bytes, SORT, record.labels);
    print_answer("sort by an unknown label", rules, CODE_ROOM);
    wargnifla_put_piece(second, &record, 0);
    print_answer("no definition of sort", rules, CODE_ROOM);

    define(rules, SORT, 0);
    wargnifla_put_piece(second, &record, 2);
    print_answer("two definitions of sort", rules, CODE_ROOM);

    record.arch = WARGNIFLA_X86;
    wargnifla_put_piece(second, &record, 2);
    print_answer("a rule for X86", rules, CODE_ROOM);
    rules->pieces.len = 0;
    print_answer("no rule", rules, CODE_ROOM);
}

int main(void) {
    wargnifla_pieces rules = no_rules();
    finish_caller(&rules);
    finish_sort(&rules);
    join_both(&rules);
    join_refused(&rules);
    return 0;
}
