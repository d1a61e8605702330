/* Tables that grow by themselves (wargnifla_grow.h): 1,000 jumps back to one label, a recording with an entry of every table, and one whose memory is
 * rationed by the caller's own function in the place of realloc. */
#include "small_tables.h"
#include "wargnifla_grow.h"

enum { JUMPS = 1000 };

static void jump_back(void) {
    wargnifla_growing growing = wargnifla_growing_new();
    wargnifla_record record;
    uint32_t label, i;
    accept("start", wargnifla_tables_start(&growing.tables, WARGNIFLA_X64, 0));
    accept("new label", wargnifla_growing_new_label(&growing, &label));
    accept("bind", wargnifla_tables_bind(&growing.tables, label));
    for (i = 0; i < JUMPS; i++)
        accept("jump", wargnifla_growing_put_jump(&growing, label, WARGNIFLA_ALWAYS));
    accept("finish", wargnifla_growing_finish(&growing, &record));
    printf("%u recorded, at most %u, finished %u; the last jump:", (unsigned)wargnifla_count_of(&growing.tables, WARGNIFLA_COUNT_CODE),
           (unsigned)growing.output.len, (unsigned)record.length);
    print_bytes(growing.output.bytes + record.length - 5, 5);
    wargnifla_growing_free(&growing);
}

/* lea rax, [rip + constant]; jne over a call of symbol 0. The jump stands, so of ref and use the ref is patched. */
static void record_every_kind(void) {
    static const uint8_t lea[] = {0x48, 0x8D, 0x05, 0, 0, 0, 0}, jne[6] = {0}, call[] = {0xE8, 0, 0, 0, 0}, data[] = {1, 2, 3};
    wargnifla_growing growing = wargnifla_growing_new();
    wargnifla_record record;
    uint32_t constant, data_label, over;
    accept("start", wargnifla_tables_start(&growing.tables, WARGNIFLA_X64, 1));
    accept("constant", wargnifla_growing_add_constant(&growing, data, sizeof data, &constant));
    accept("constant's label", wargnifla_growing_constant_label(&growing, constant, &data_label));
    accept("new label", wargnifla_growing_new_label(&growing, &over));
    accept("bytes", wargnifla_growing_put_bytes(&growing, lea, sizeof lea));
    accept("use", wargnifla_growing_use(&growing, 3, data_label, WARGNIFLA_FIELD_X86JmpRel32));
    accept("ref", wargnifla_growing_ref(&growing, 3, data_label, WARGNIFLA_FIELD_X86JmpRel32, 0));
    accept("bytes", wargnifla_growing_put_bytes(&growing, jne, sizeof jne));
    accept("jump", wargnifla_growing_jump(&growing, sizeof lea, sizeof jne, over, 5));
    accept("bytes", wargnifla_growing_put_bytes(&growing, call, sizeof call));
    accept("relocation", wargnifla_growing_add_reloc(&growing, sizeof lea + sizeof jne + 1, WARGNIFLA_RELOC_X86CallPLTRel4, 0, -4));
    accept("align", wargnifla_growing_align(&growing, 16));
    accept("align within", wargnifla_growing_align_within(&growing, 4096, 3));
    accept("bind", wargnifla_tables_bind(&growing.tables, over));
    accept("finish", wargnifla_growing_finish(&growing, &record));
    printf("every kind:");
    print_bytes(growing.output.bytes, record.length);
    wargnifla_growing_free(&growing);
}

/* What may still be asked for, and how often memory was freed. */
typedef struct {
    size_t left;
    int frees;
} ration;

static void *rationed(void *context, void *memory, size_t len) {
    ration *own = (ration *)context;
    if (len == 0) {
        own->frees++;
        free(memory);
        return NULL;
    }
    if (len > own->left)
        return NULL;
    own->left -= len;
    return realloc(memory, len);
}

static void print_answer(const char *call, uint32_t refusal) { printf("%s: %u, %s\n", call, (unsigned)refusal, wargnifla_refusal_text(refusal)); }

static void ration_memory(void) {
    static const uint8_t nop[] = {0x90};
    wargnifla_growing growing = wargnifla_growing_new();
    wargnifla_record record;
    ration own = {16, 0};
    uint32_t label;
    growing.resize = rationed;
    growing.context = &own;
    accept("start", wargnifla_tables_start(&growing.tables, WARGNIFLA_X64, 0));
    accept("bytes", wargnifla_growing_put_bytes(&growing, nop, sizeof nop));
    print_answer("finish without memory", wargnifla_growing_finish(&growing, &record));
    own.left = 1;
    print_answer("finish with a byte more", wargnifla_growing_finish(&growing, &record));
    accept("start again", wargnifla_tables_start(&growing.tables, WARGNIFLA_X64, 0));
    accept("bytes", wargnifla_growing_put_bytes(&growing, nop, sizeof nop));
    print_answer("label without memory", wargnifla_growing_new_label(&growing, &label));
    print_answer("bytes after that", wargnifla_growing_put_bytes(&growing, nop, sizeof nop));
    wargnifla_growing_free(&growing);
    printf("frees: %d\n", own.frees);
}

int main(void) {
    jump_back();
    record_every_kind();
    ration_memory();
    return 0;
}
