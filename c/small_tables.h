/* What the examples share: tables of a fixed size, and the end at the first refusal. */
#ifndef SMALL_TABLES_H
#define SMALL_TABLES_H

#include <stdio.h>
#include <stdlib.h>

#include "wargnifla.h"

enum { CODE_ROOM = 256, ENTRY_ROOM = 8 };

static inline wargnifla_table lent(uint8_t *bytes, size_t len) {
    wargnifla_table table;
    table.bytes = bytes;
    table.len = len;
    return table;
}

/* Ends the program where a call was refused. */
static inline void accept(const char *call, uint32_t refusal) {
    if (refusal == WARGNIFLA_ACCEPTED)
        return;
    printf("%s refused: %s\n", call, wargnifla_refusal_name(refusal));
    exit(1);
}

/* A recording that is started, with room for a few entries. There is one set of tables: the next recording takes it over. */
static inline wargnifla_tables small_tables(uint32_t arch, uint32_t symbols) {
    static uint8_t code[CODE_ROOM];
    static uint8_t labels[ENTRY_ROOM * WARGNIFLA_LABEL_BYTES], events[ENTRY_ROOM * WARGNIFLA_EVENT_BYTES];
    static uint8_t uses[ENTRY_ROOM * WARGNIFLA_USE_BYTES], refs[ENTRY_ROOM * WARGNIFLA_REF_BYTES];
    static uint8_t constants[ENTRY_ROOM * WARGNIFLA_CONSTANT_BYTES], asked[ENTRY_ROOM * WARGNIFLA_ASKED_BYTES];
    static uint8_t relocs[ENTRY_ROOM * WARGNIFLA_RELOC_BYTES];
    wargnifla_tables tables;
    tables.code = lent(code, sizeof code);
    tables.labels = lent(labels, sizeof labels);
    tables.events = lent(events, sizeof events);
    tables.uses = lent(uses, sizeof uses);
    tables.refs = lent(refs, sizeof refs);
    tables.constants = lent(constants, sizeof constants);
    tables.asked = lent(asked, sizeof asked);
    tables.relocs = lent(relocs, sizeof relocs);
    accept("start", wargnifla_tables_start(&tables, arch, symbols));
    return tables;
}

static inline void print_bytes(const uint8_t *bytes, size_t len) {
    size_t i;
    for (i = 0; i < len; i++)
        printf(" %02X", bytes[i]);
    putchar('\n');
}

#endif
