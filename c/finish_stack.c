/* Measures the stack that finish and join take, with few entries and with many, that recording takes, and that relocations take when they are
 * written and read as ELF: runs them on a stack of their own that was painted before, and looks how far down the paint is gone. The numbers go to
 * standard error. */
#define _XOPEN_SOURCE 700
#include <string.h>
#include <ucontext.h>

#include "small_tables.h"

enum { STACK = 1024 * 1024, PAINT = 0xA5, OTHER_STACK = 8192, FEW_STACK = 16384, MANY_ENTRIES = 4200, MANY_DEFINITIONS = 1024 };

static uint8_t stack[STACK];
static wargnifla_tables tables;
static wargnifla_segment segments[MANY_ENTRIES + ENTRY_ROOM];
static uint8_t output[CODE_ROOM];
static wargnifla_record record;
static ucontext_t here, there;

/* Something of every kind, so that the deepest calls are made. */
static void record_all(void) {
    static const uint8_t bytes[40] = {0};
    uint32_t label, constant, pooled;
    accept("new label", wargnifla_tables_new_label(&tables, &label));
    accept("bytes", wargnifla_tables_put_bytes(&tables, bytes, sizeof bytes));
    accept("jump", wargnifla_tables_jump(&tables, 35, 5, label, WARGNIFLA_ALWAYS));
    accept("align", wargnifla_tables_align(&tables, 64));
    accept("align", wargnifla_tables_align_within(&tables, 64, 15));
    accept("bytes", wargnifla_tables_put_bytes(&tables, bytes, sizeof bytes));
    accept("bind", wargnifla_tables_bind(&tables, label));
    accept("constant", wargnifla_tables_add_constant(&tables, bytes, 33, &constant));
    accept("constant's label", wargnifla_tables_constant_label(&tables, constant, &pooled));
    accept("ref", wargnifla_tables_ref(&tables, 4, pooled, WARGNIFLA_FIELD_X86JmpRel32, 0));
    accept("relocation", wargnifla_tables_add_reloc(&tables, 70, WARGNIFLA_RELOC_Abs8, WARGNIFLA_LABEL_TARGET + label, 0));
}

/* The same, and so many labels and alignments that finish takes its largest tables. */
static void record_many(void) {
    static uint8_t labels[(MANY_ENTRIES + ENTRY_ROOM) * WARGNIFLA_LABEL_BYTES], events[(MANY_ENTRIES + ENTRY_ROOM) * WARGNIFLA_EVENT_BYTES];
    uint32_t i, label;
    tables.labels = lent(labels, sizeof labels);
    tables.events = lent(events, sizeof events);
    for (i = 0; i < MANY_ENTRIES; i++) {
        accept("align", wargnifla_tables_align(&tables, 1));
        accept("new label", wargnifla_tables_new_label(&tables, &label));
        accept("bind", wargnifla_tables_bind(&tables, label));
    }
    record_all();
}

static void finish_all(void) {
    accept("finish", wargnifla_tables_finish(&tables, segments, MANY_ENTRIES + ENTRY_ROOM, output, sizeof output, &record));
}

static void write_and_read_relas(void) {
    uint8_t relas[ENTRY_ROOM * WARGNIFLA_RELA_BYTES], entries[ENTRY_ROOM * WARGNIFLA_RELOC_BYTES];
    accept("write", wargnifla_tables_write_relas(&tables, &record, 0, relas, sizeof relas));
    accept("read", wargnifla_read_relas(relas, wargnifla_relas_len(&record), entries, sizeof entries));
}

/* The recording twice: each calls a symbol that the other defines. All definitions but the first are the second's; where there are many, their
 * numbers are small and great. */
static void join_with(uint32_t count) {
    static uint8_t piece[2 * WARGNIFLA_PIECE_BYTES], code[2 * CODE_ROOM], labels[2 * ENTRY_ROOM * WARGNIFLA_LABEL_BYTES];
    static uint8_t relocs[4 * WARGNIFLA_RELOC_BYTES], definitions[MANY_DEFINITIONS * WARGNIFLA_DEFINITION_BYTES];
    static uint8_t whole[2 * CODE_ROOM], joined_labels[sizeof labels], joined_relocs[sizeof relocs];
    wargnifla_record finished = record, joined;
    wargnifla_pieces pieces;
    uint32_t i;
    finished.relocs = 2;
    for (i = 0; i < MANY_DEFINITIONS; i++)
        wargnifla_put_definition(definitions + WARGNIFLA_DEFINITION_BYTES * i, i, 0);
    wargnifla_put_word(definitions + WARGNIFLA_DEFINITION_BYTES * 2, WARGNIFLA_MOST_ENTRIES - 1);
    wargnifla_put_word(definitions + WARGNIFLA_DEFINITION_BYTES * 3, WARGNIFLA_LABEL_TARGET - 1);
    for (i = 0; i < 2; i++) {
        uint8_t *call = relocs + WARGNIFLA_RELOC_BYTES * (2 * i + 1);
        wargnifla_put_piece(piece + WARGNIFLA_PIECE_BYTES * i, &finished, i == 0 ? 1 : count - 1);
        memcpy(code + finished.length * i, output, finished.length);
        memcpy(labels + WARGNIFLA_LABEL_BYTES * finished.labels * i, tables.labels.bytes, WARGNIFLA_LABEL_BYTES * finished.labels);
        memcpy(call - WARGNIFLA_RELOC_BYTES, tables.relocs.bytes, WARGNIFLA_RELOC_BYTES);
        wargnifla_put_word(call + 4, WARGNIFLA_RELOC_X86CallPLTRel4);
        wargnifla_put_word(call + 8, 1 - i);
    }
    pieces.pieces = lent(piece, sizeof piece);
    pieces.code = lent(code, sizeof code);
    pieces.labels = lent(labels, sizeof labels);
    pieces.relocs = lent(relocs, sizeof relocs);
    pieces.definitions = lent(definitions, count * WARGNIFLA_DEFINITION_BYTES);
    accept("join",
           wargnifla_pieces_join(&pieces, whole, sizeof whole, joined_labels, sizeof joined_labels, joined_relocs, sizeof joined_relocs, &joined));
}

static void join_few(void) {
    join_with(2);
}

static void join_many(void) {
    join_with(MANY_DEFINITIONS);
}

/* How many bytes of stack a function takes, what it takes in libraries included. */
static size_t stack_of(void (*function)(void)) {
    size_t untouched = 0;
    memset(stack, PAINT, sizeof stack);
    getcontext(&there);
    there.uc_stack.ss_sp = stack;
    there.uc_stack.ss_size = sizeof stack;
    there.uc_link = &here;
    makecontext(&there, function, 0);
    swapcontext(&here, &there);
    while (untouched < sizeof stack && stack[untouched] == PAINT)
        untouched++;
    return sizeof stack - untouched;
}

int main(void) {
    size_t recording, finish, join, relas, largest_finish, largest_join;
    tables = small_tables(WARGNIFLA_X64, 0);
    recording = stack_of(record_all);
    finish = stack_of(finish_all);
    join = stack_of(join_few);
    largest_join = stack_of(join_many);
    relas = stack_of(write_and_read_relas);
    tables = small_tables(WARGNIFLA_X64, 0);
    record_many();
    largest_finish = stack_of(finish_all);
    fprintf(stderr, "finish_stack: recording took %u bytes of stack, finish %u, with many entries %u, join %u, with many %u, relocations as ELF %u\n",
            (unsigned)recording, (unsigned)finish, (unsigned)largest_finish, (unsigned)join, (unsigned)largest_join, (unsigned)relas);
    puts(recording < OTHER_STACK ? "recording stays below 8 KiB" : "recording takes 8 KiB or more");
    puts(relas < OTHER_STACK ? "relocations as ELF stay below 8 KiB" : "relocations as ELF take 8 KiB or more");
    puts(finish <= FEW_STACK ? "finish of a small rule stays within 16 KiB" : "finish of a small rule takes more than 16 KiB");
    puts(join <= FEW_STACK ? "join of two small rules stays within 16 KiB" : "join of two small rules takes more than 16 KiB");
    puts(largest_finish <= WARGNIFLA_FINISH_STACK ? "finish stays within WARGNIFLA_FINISH_STACK" : "finish takes more than WARGNIFLA_FINISH_STACK");
    puts(largest_join <= WARGNIFLA_JOIN_STACK ? "join stays within WARGNIFLA_JOIN_STACK" : "join takes more than WARGNIFLA_JOIN_STACK");
    return 0;
}
