/* Wargnifla: a recording whose tables grow, for a program that does not want to size them. wargnifla.h itself allocates nothing.
 *
 *   wargnifla_growing growing = wargnifla_growing_new();
 *   wargnifla_tables_start(&growing.tables, WARGNIFLA_X64, 0);
 *   ...                                              wargnifla_growing_put_bytes and the other calls
 *   wargnifla_growing_finish(&growing, &record);     the code is growing.output.bytes, record.length bytes
 *   wargnifla_growing_free(&growing);
 *
 * Each function here makes room for what its call extends, then makes the call of wargnifla.h that has `tables` in the place of `growing`, and answers
 * as that does. What needs no room takes &growing.tables: wargnifla_tables_bind, wargnifla_label_offset, wargnifla_tables_write_relas. Another start
 * begins another recording in the same memory.
 *
 * Where memory can't be had, a table stays as it is, and the call answers as to a full one: 11 or 12, which end the recording. A finish then answers
 * 16 or 23, and another may follow. At a limit (WARGNIFLA_MOST_CODE, WARGNIFLA_MOST_ENTRIES) it is the same. These functions are tested, not proved.
 */
#ifndef WARGNIFLA_GROW_H
#define WARGNIFLA_GROW_H

#include <stdlib.h>

#include "wargnifla.h"

#ifdef __cplusplus
extern "C" {
#endif

/* Gives memory another length, as realloc does: memory is NULL at first, the answer is aligned as malloc's, and NULL leaves the memory as it was.
 * A length of 0 frees it. context is what the caller set. */
typedef void *wargnifla_resize(void *context, void *memory, size_t len);

/* A recording and all that it owns. resize and context may be set to others before anything is recorded. */
typedef struct {
    wargnifla_tables tables;
    wargnifla_table segments; /* each a wargnifla_segment, as finish left them */
    wargnifla_table output;   /* the finished code, and room behind it */
    wargnifla_resize *resize;
    void *context;
} wargnifla_growing;

static inline void *wargnifla_resize_by_realloc(void *context, void *memory, size_t len) {
    (void)context;
    if (len > 0)
        return realloc(memory, len);
    free(memory);
    return NULL;
}

/* A recording without memory, to be started, that grows by realloc. */
static inline wargnifla_growing wargnifla_growing_new(void) {
    static wargnifla_growing zeros;
    wargnifla_growing growing = zeros;
    growing.resize = wargnifla_resize_by_realloc;
    return growing;
}

/* Makes a table at least so long, where memory can be had. */
static inline void wargnifla_growing_lengthen(wargnifla_growing *growing, wargnifla_table *table, size_t len) {
    void *bytes;
    if (len <= table->len)
        return;
    bytes = growing->resize(growing->context, table->bytes, len);
    if (bytes == NULL)
        return;
    table->bytes = (uint8_t *)bytes;
    table->len = len;
}

/* Makes room in the table of a count, WARGNIFLA_COUNT_CODE to WARGNIFLA_COUNT_RELOCS, for so many entries more than are counted. Doubling keeps the
 * cost of appending constant. For a sheet of calls: make room for all that they extend, then wargnifla_tables_run_sheet. */
static inline void wargnifla_growing_room(wargnifla_growing *growing, int which, size_t more) {
    static const size_t bytes_of_entries[] = {1,
                                              WARGNIFLA_LABEL_BYTES,
                                              WARGNIFLA_EVENT_BYTES,
                                              WARGNIFLA_USE_BYTES,
                                              WARGNIFLA_REF_BYTES,
                                              WARGNIFLA_CONSTANT_BYTES,
                                              WARGNIFLA_ASKED_BYTES,
                                              WARGNIFLA_RELOC_BYTES};
    wargnifla_tables *tables = &growing->tables;
    wargnifla_table *all[] = {&tables->code, &tables->labels,    &tables->events, &tables->uses,
                              &tables->refs, &tables->constants, &tables->asked,  &tables->relocs};
    wargnifla_table *table = all[which - WARGNIFLA_COUNT_CODE];
    size_t entry_bytes = bytes_of_entries[which - WARGNIFLA_COUNT_CODE];
    size_t limit = which == WARGNIFLA_COUNT_CODE ? WARGNIFLA_MOST_CODE : WARGNIFLA_MOST_ENTRIES;
    size_t counted = wargnifla_count_of(tables, which), entries = 2 * counted + 16;
    if (counted > limit || more > limit - counted || (counted + more) * entry_bytes <= table->len)
        return;
    if (entries < counted + more)
        entries = counted + more;
    wargnifla_growing_lengthen(growing, table, (entries < limit ? entries : limit) * entry_bytes);
}

static inline uint32_t wargnifla_growing_put_bytes(wargnifla_growing *growing, const uint8_t *bytes, size_t bytes_len) {
    wargnifla_growing_room(growing, WARGNIFLA_COUNT_CODE, bytes_len);
    return wargnifla_tables_put_bytes(&growing->tables, bytes, bytes_len);
}

static inline uint32_t wargnifla_growing_new_label(wargnifla_growing *growing, uint32_t *label) {
    wargnifla_growing_room(growing, WARGNIFLA_COUNT_LABELS, 1);
    return wargnifla_tables_new_label(&growing->tables, label);
}

static inline uint32_t wargnifla_growing_align_within(wargnifla_growing *growing, uint32_t multiple, uint32_t most) {
    uint32_t offset = wargnifla_count_of(&growing->tables, WARGNIFLA_COUNT_CODE);
    uint32_t ceiling = most < WARGNIFLA_DEFAULT_MOST ? most : WARGNIFLA_DEFAULT_MOST;
    wargnifla_growing_room(growing, WARGNIFLA_COUNT_CODE, multiple > 0 ? wargnifla_padding_within(offset, multiple, ceiling) : 0);
    wargnifla_growing_room(growing, WARGNIFLA_COUNT_EVENTS, 1);
    return wargnifla_tables_align_within(&growing->tables, multiple, most);
}

static inline uint32_t wargnifla_growing_align(wargnifla_growing *growing, uint32_t multiple) {
    return wargnifla_growing_align_within(growing, multiple, WARGNIFLA_DEFAULT_MOST);
}

static inline uint32_t wargnifla_growing_use(wargnifla_growing *growing, uint32_t offset, uint32_t label, uint32_t code) {
    wargnifla_growing_room(growing, WARGNIFLA_COUNT_USES, 1);
    return wargnifla_tables_use(&growing->tables, offset, label, code);
}

static inline uint32_t wargnifla_growing_ref(wargnifla_growing *growing, uint32_t offset, uint32_t label, uint32_t code, int32_t addend) {
    wargnifla_growing_room(growing, WARGNIFLA_COUNT_REFS, 1);
    return wargnifla_tables_ref(&growing->tables, offset, label, code, addend);
}

static inline uint32_t wargnifla_growing_jump(wargnifla_growing *growing, uint32_t start, uint32_t length, uint32_t label, uint32_t condition) {
    wargnifla_growing_room(growing, WARGNIFLA_COUNT_EVENTS, 1);
    return wargnifla_tables_jump(&growing->tables, start, length, label, condition);
}

/* wargnifla_put_jump. */
static inline uint32_t wargnifla_growing_put_jump(wargnifla_growing *growing, uint32_t label, uint32_t condition) {
    wargnifla_growing_room(growing, WARGNIFLA_COUNT_CODE, wargnifla_long_jump(condition));
    wargnifla_growing_room(growing, WARGNIFLA_COUNT_EVENTS, 1);
    wargnifla_growing_room(growing, WARGNIFLA_COUNT_USES, 1);
    return wargnifla_put_jump(&growing->tables, label, condition);
}

static inline uint32_t wargnifla_growing_add_constant(wargnifla_growing *growing, const uint8_t *bytes, size_t bytes_len, uint32_t *number) {
    wargnifla_growing_room(growing, WARGNIFLA_COUNT_CONSTANTS, 1);
    return wargnifla_tables_add_constant(&growing->tables, bytes, bytes_len, number);
}

static inline uint32_t wargnifla_growing_constant_label(wargnifla_growing *growing, uint32_t constant, uint32_t *label) {
    wargnifla_growing_room(growing, WARGNIFLA_COUNT_LABELS, 1);
    wargnifla_growing_room(growing, WARGNIFLA_COUNT_ASKED, 1);
    return wargnifla_tables_constant_label(&growing->tables, constant, label);
}

static inline uint32_t wargnifla_growing_add_reloc(wargnifla_growing *growing, uint32_t offset, uint32_t kind, uint32_t target, int64_t addend) {
    wargnifla_growing_room(growing, WARGNIFLA_COUNT_RELOCS, 1);
    return wargnifla_tables_add_reloc(&growing->tables, offset, kind, target, addend);
}

/* Finishes into growing->output, made as long as wargnifla_output_bound says. */
static inline uint32_t wargnifla_growing_finish(wargnifla_growing *growing, wargnifla_record *record) {
    size_t events = wargnifla_count_of(&growing->tables, WARGNIFLA_COUNT_EVENTS), asked = wargnifla_count_of(&growing->tables, WARGNIFLA_COUNT_ASKED);
    size_t segments = events + asked < WARGNIFLA_MOST_ENTRIES ? events + asked : WARGNIFLA_MOST_ENTRIES;
    wargnifla_growing_lengthen(growing, &growing->segments, segments * sizeof(wargnifla_segment));
    wargnifla_growing_lengthen(growing, &growing->output, wargnifla_output_bound(&growing->tables));
    return wargnifla_tables_finish(&growing->tables, (wargnifla_segment *)(void *)growing->segments.bytes,
                                   growing->segments.len / sizeof(wargnifla_segment), growing->output.bytes, growing->output.len, record);
}

/* Frees a table, which is then without room. */
static inline void wargnifla_growing_release(wargnifla_growing *growing, wargnifla_table *table) {
    if (table->bytes != NULL)
        growing->resize(growing->context, table->bytes, 0);
    table->bytes = NULL;
    table->len = 0;
}

/* Frees all that a recording owns; it may be started again. */
static inline void wargnifla_growing_free(wargnifla_growing *growing) {
    wargnifla_growing_release(growing, &growing->tables.code);
    wargnifla_growing_release(growing, &growing->tables.labels);
    wargnifla_growing_release(growing, &growing->tables.events);
    wargnifla_growing_release(growing, &growing->tables.uses);
    wargnifla_growing_release(growing, &growing->tables.refs);
    wargnifla_growing_release(growing, &growing->tables.constants);
    wargnifla_growing_release(growing, &growing->tables.asked);
    wargnifla_growing_release(growing, &growing->tables.relocs);
    wargnifla_growing_release(growing, &growing->segments);
    wargnifla_growing_release(growing, &growing->output);
}

#ifdef __cplusplus
}
#endif

#endif
