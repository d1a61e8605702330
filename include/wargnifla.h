/* Wargnifla: a verified code buffer. The C functions of libwargnifla.a.
 *
 * A recording is made call by call: bytes, labels, alignments, fields that name labels, jumps, constants, relocations. Finishing it pools its
 * constants, takes every jump for short and lengthens those that then can't reach, round by round, and writes the code. Its relocations can then be
 * written as ELF has them, for the system linker. Finished recordings can be joined into one, which fills the calls from one to another. The eleven
 * functions are proved to do what crates/wargnifla/specs/ says; the inline functions at the end of this file are tested.
 *
 * Every function accepts every input and ends. It allocates nothing and keeps nothing: a recording is the counts and the tables that the caller lends
 * to each call. So functions may be called from several threads at a time, as long as no two of the calls are lent the same memory to write, or one
 * to write what the other reads.
 *
 * What the caller owes, and no function can check: every pointer is valid for its length, and no part of what is lent to be written overlaps anything
 * else that is lent to the same call. Where a length is 0 the pointer may be NULL. A pointer without a length (index, number) is never NULL. Segments
 * are aligned as their type asks; bytes need no alignment. Words are 32 bits, little-endian, on every machine.
 */
#ifndef WARGNIFLA_H
#define WARGNIFLA_H

#include <stddef.h>
#include <stdint.h>

/* The version of this header and of the archive beside it; wargnifla_version says the archive's. */
#define WARGNIFLA_VERSION_MAJOR 0
#define WARGNIFLA_VERSION_MINOR 8
#define WARGNIFLA_VERSION_PATCH 0
#define WARGNIFLA_VERSION "0.8.0"
#define WARGNIFLA_VERSION_NUMBER 8000 /* major * 1,000,000 + minor * 1,000 + patch */

#ifdef __cplusplus
extern "C" {
#endif

/* Architectures. */
enum wargnifla_arch {
    WARGNIFLA_X86 = 1,
    WARGNIFLA_X64 = 2,
    WARGNIFLA_AARCH64 = 6
};

/* Refusals: what every function returns. Numbers 6, 7, 8, 10, 11 and 12 end a recording, but for 8 at a bind: it then answers every call, finish too,
 * with the first of them and changes nothing else. All others leave it as it was. Where several apply, 1 comes first (but for what finish finds by
 * going through the tables, an unfit entry or a wrong open number, which comes after 4), then the recorded one, then the lowest number; 19 to 22 are
 * tried together, use by use. The functions for ELF entries and wargnifla_join touch no recording and answer in the order that their comments give;
 * 24 to 26 are of wargnifla_write_relas alone, 27 to 29 of wargnifla_join. */
enum wargnifla_refusal {
    WARGNIFLA_ACCEPTED = 0,
    WARGNIFLA_MALFORMED = 1,             /* a sheet's form, a field code above 16 and a relocation kind above 27 too; a count that passes what is
                                            lent; an architecture or refusal in the counts that can't occur; an open number that exceeds
                                            the most (WARGNIFLA_MOST_OPEN); counts or a record lent too short; at finish, a table entry that no
                                            recording writes, or an open number that the tables do not come to; a finished record, ELF entries, or
                                            pieces to be joined that break their form */
    WARGNIFLA_UNKNOWN_ARCH = 2,          /* start names an architecture other than 1, 2, 6 */
    WARGNIFLA_PAST_LIMIT = 3,            /* a call is lent more than a limit; a piece that is to be joined exceeds one */
    WARGNIFLA_ALREADY_FINISHED = 4,      /* the recording has finished */
    WARGNIFLA_BAD_ALIGNMENT = 5,         /* an alignment is no power of two, or exceeds 4,096 */
    WARGNIFLA_UNSUPPORTED_USE = 6,       /* a use has code 15 */
    WARGNIFLA_FOREIGN_KIND = 7,          /* a use, ref or relocation has a kind foreign to the architecture */
    WARGNIFLA_UNKNOWN_NUMBER = 8,        /* a label, constant or symbol number is unknown */
    WARGNIFLA_ALREADY_BOUND = 9,         /* the label is bound already */
    WARGNIFLA_BAD_ENTRY = 10,            /* a jump does not end at the current offset, is not 2 to 15 bytes long, has a condition above 16, starts
                                            before the last event's end, or holds a label strictly inside; a relocation's offset exceeds 16,777,215;
                                            a constant exceeds 64 bytes */
    WARGNIFLA_TABLE_FULL = 11,           /* a table that the call must extend is full; the table that ELF entries are read into, or that labels or
                                            relocations are joined into, is short */
    WARGNIFLA_CODE_FULL = 12,            /* bytes or padding pass the lent code's end */
    WARGNIFLA_POOL_LABEL_BOUND = 13,     /* from here on at finish: the label of a constant asked for was bound by the caller */
    WARGNIFLA_POOL_TOO_LARGE = 14,       /* code with pool exceeds 16,777,216 bytes */
    WARGNIFLA_UNBOUND_LABEL = 15,        /* a use, ref, jump or a relocation against a label names an unbound one */
    WARGNIFLA_TOO_FEW_SEGMENTS = 16,     /* with a jump, fewer segments are lent than there are events and constants asked for */
    WARGNIFLA_REF_OVERLAPS = 17,         /* with a jump, a ref's field passes the end of the code with its pool, or starts before an event's end and
                                            ends after that event's start (events of length 0 and the pool's alignments too); of a join, a field that
                                            is to be filled passes its piece's end */
    WARGNIFLA_REF_OUT_OF_REACH = 18,     /* with a jump, a ref can't reach its label plus addend; of a join, a field can't reach its symbol plus
                                            addend */
    WARGNIFLA_USE_PAST_END = 19,         /* without a jump, a use's field passes the end of the code with its pool */
    WARGNIFLA_BRANCH_OUT_OF_REACH = 20,  /* without a jump, a use of code 9, 10 or 11 can't reach its label */
    WARGNIFLA_LABEL_TOO_FAR_AHEAD = 21,  /* without a jump, another use can't reach a label at or after it */
    WARGNIFLA_LABEL_TOO_FAR_BACK = 22,   /* without a jump, another use can't reach a label before it */
    WARGNIFLA_OUTPUT_TOO_SMALL = 23,     /* the finished or joined code exceeds the lent output; of a join, the whole or what moves with it passes
                                            4,294,967,294 */
    WARGNIFLA_NO_ELF_TYPE = 24,          /* from here on where relocations are written as ELF: the architecture is neither X64 nor AArch64, or a
                                            relocation's kind has no ELF type there (enum wargnifla_elf_type) */
    WARGNIFLA_ADDEND_OVERFLOW = 25,      /* a relocation's addend and its label's offset add up to more than 2^63 - 1 */
    WARGNIFLA_ELF_OUTPUT_TOO_SMALL = 26, /* the ELF entries exceed the lent output */
    WARGNIFLA_ARCHITECTURES_DIFFER = 27, /* from here on where finished recordings are joined: two have different architectures */
    WARGNIFLA_SYMBOL_DEFINED_TWICE = 28, /* two definitions have one symbol */
    WARGNIFLA_SYMBOL_UNDEFINED = 29      /* a field is to be filled for a symbol that is defined nowhere, or by a label that is unknown or not
                                            bound */
};

/* The kinds of call that a sheet makes. Beside each: its arguments, and what it extends. On X86 and AArch64 refs and jumps are accepted unread and
 * extend nothing.
 *
 * Labels are numbered from 0 in the order of making, and so are constants. A constant has no label until it is asked for; its label then takes the
 * next number among the labels, and asking again gives the same one. Finish sets those that were asked for behind the code, each on a multiple of 8
 * up to 8 bytes, of 16 up to 32, and of 64 up to 64 (wargnifla_constant_alignment). */
enum wargnifla_call {
    WARGNIFLA_CALL_BYTES = 1,          /* count (0 to 12), the bytes: code by count */
    WARGNIFLA_CALL_NEW_LABEL = 2,      /* none: labels by 1 */
    WARGNIFLA_CALL_BIND = 3,           /* label: nothing; the label is bound to the current offset */
    WARGNIFLA_CALL_ALIGN = 4,          /* multiple (a power of two, at most 4,096), most (0: WARGNIFLA_DEFAULT_MOST): code by the padding, what the
                                          multiple needs, less than it, or nothing where that exceeds most; on X64 events by 1, for a padding of
                                          length 0 too */
    WARGNIFLA_CALL_USE = 5,            /* offset, label, code: uses by 1 */
    WARGNIFLA_CALL_REF = 6,            /* offset, label, code, signed addend: on X64 refs by 1 */
    WARGNIFLA_CALL_JUMP = 7,           /* start, length, label, condition: on X64 events by 1; the last length bytes, from start on, are a jump */
    WARGNIFLA_CALL_CONSTANT = 8,       /* count (0 to 12), the bytes: constants by 1 */
    WARGNIFLA_CALL_CONSTANT_LABEL = 9, /* constant: labels and asked by 1, where it has no label yet */
    WARGNIFLA_CALL_RELOCATION = 10     /* offset, kind, target, signed addend: relocations by 1 */
};

/* The most bytes that an alignment spends, where nothing else is said: enough for every multiple. An alignment may have any other number instead. At
 * an offset that needs more to reach its multiple it spends nothing: it is skipped. So it is when it is recorded, by the current offset, and on X64
 * again in each layout of finish, by its new offset. One that was skipped may be padded there, and the reverse. */
#define WARGNIFLA_DEFAULT_MOST 4095

/* A jump's condition: 0 to 15 are the low four bits of Intel's opcode (0 o, 1 no, 2 b, 3 ae, 4 e, 5 ne, 6 be, 7 a, 8 s, 9 ns, 10 p, 11 np, 12 l,
 * 13 ge, 14 le, 15 g), and this is none: jmp. */
#define WARGNIFLA_ALWAYS 16

/* The codes of fields that name labels, with asmkit's names. Codes 0 and 1 are of X86 and X64, 9 to 14 and 16 of AArch64; 2 to 8 are foreign to all
 * three, and 15 is refused (6 for a use, 7 for a ref on X64). A field of code 1 takes one byte, any other four. With d, the label's offset less the
 * field's (a ref: plus its addend), a field reaches where: */
enum wargnifla_field {
    WARGNIFLA_FIELD_X86JmpRel32 = 0,   /* d - 4 is signed 32 bits; a use adds the value that stands in its field */
    WARGNIFLA_FIELD_X86BranchRel8 = 1, /* d - 1 is in -128..127 */
    WARGNIFLA_FIELD_RVJal20 = 2,
    WARGNIFLA_FIELD_RVPCRel32 = 3,
    WARGNIFLA_FIELD_RVB12 = 4,
    WARGNIFLA_FIELD_RVPCRelHi20 = 5,
    WARGNIFLA_FIELD_RVPCRelLo12I = 6,
    WARGNIFLA_FIELD_RVCJump = 7,
    WARGNIFLA_FIELD_RVCB9 = 8,
    WARGNIFLA_FIELD_A64Branch14 = 9,   /* tbz, tbnz: d is a multiple of 4 in -2^15..2^15 - 4 */
    WARGNIFLA_FIELD_A64Branch19 = 10,  /* b.cond, cbz, cbnz: a multiple of 4 in -2^20..2^20 - 4 */
    WARGNIFLA_FIELD_A64Branch26 = 11,  /* b, bl: a multiple of 4 in -2^27..2^27 - 4 */
    WARGNIFLA_FIELD_A64Ldr19 = 12,     /* ldr of a literal: a multiple of 4 in -2^20..2^20 - 4 */
    WARGNIFLA_FIELD_A64Adr21 = 13,     /* adr: d is in -2^20..2^20 - 1 */
    WARGNIFLA_FIELD_A64Adrp21 = 14,    /* adrp: always; it holds the distance of pages of 4,096 bytes */
    WARGNIFLA_FIELD_A64Ldr12 = 15,
    WARGNIFLA_FIELD_A64AddAbsLo12 = 16 /* the add after an adrp: always; the label's low 12 bits take the place of its immediate, whatever that was.
                                          Bit 22, which shifts it, stays and is to be 0; the code is to be loaded on a multiple of 4,096 */
};

/* The kinds of relocation, with asmkit's names, and the architectures that take each; to the others it is foreign (7). */
enum wargnifla_reloc {
    WARGNIFLA_RELOC_Abs4 = 0,                           /* X86, X64, AArch64 */
    WARGNIFLA_RELOC_Abs8 = 1,                           /* X86, X64, AArch64 */
    WARGNIFLA_RELOC_X86PCRel4 = 2,                      /* X86, X64 */
    WARGNIFLA_RELOC_X86CallPCRel4 = 3,                  /* X86, X64 */
    WARGNIFLA_RELOC_X86CallPLTRel4 = 4,                 /* X86, X64 */
    WARGNIFLA_RELOC_X86GOTPCRel4 = 5,                   /* X86, X64 */
    WARGNIFLA_RELOC_X86SecRel = 6,                      /* X86, X64 */
    WARGNIFLA_RELOC_Arm32Call = 7,                      /* none */
    WARGNIFLA_RELOC_Arm64Call = 8,                      /* AArch64 */
    WARGNIFLA_RELOC_ElfX86_64TlsGd = 9,                 /* X86, X64 */
    WARGNIFLA_RELOC_MachOX86_64Tlv = 10,                /* X86, X64 */
    WARGNIFLA_RELOC_MachOAarch64TlsAdrPage21 = 11,      /* AArch64 */
    WARGNIFLA_RELOC_MachOAarch64TlsAdrPageOff12 = 12,   /* AArch64 */
    WARGNIFLA_RELOC_Aarch64TlsDescAdrPage21 = 13,       /* AArch64 */
    WARGNIFLA_RELOC_Aarch64TlsDescLd64Lo12 = 14,        /* AArch64 */
    WARGNIFLA_RELOC_Aarch64TlsDescAddLo12 = 15,         /* AArch64 */
    WARGNIFLA_RELOC_Aarch64TlsDescCall = 16,            /* AArch64 */
    WARGNIFLA_RELOC_Aarch64AdrGotPage21 = 17,           /* AArch64 */
    WARGNIFLA_RELOC_Aarch64Ld64GotLo12Nc = 18,          /* AArch64 */
    WARGNIFLA_RELOC_Aarch64AdrPrelPgHi21 = 19,          /* AArch64 */
    WARGNIFLA_RELOC_Aarch64AddAbsLo12Nc = 20,           /* AArch64 */
    WARGNIFLA_RELOC_Aarch64Ld64AbsLo12Nc = 21,          /* AArch64 */
    WARGNIFLA_RELOC_RiscvAbs8 = 22,                     /* none */
    WARGNIFLA_RELOC_RiscvCallPlt = 23,                  /* none */
    WARGNIFLA_RELOC_RiscvTlsGdHi20 = 24,                /* none */
    WARGNIFLA_RELOC_RiscvPCRelLo12I = 25,               /* none */
    WARGNIFLA_RELOC_RiscvGotHi20 = 26,                  /* none */
    WARGNIFLA_RELOC_RiscvPCRelHi20 = 27                 /* none */
};

/* The ELF types of relocations, with the names of the psABIs, and the kinds that become each. These are all: the other kinds have no type here. */
enum wargnifla_elf_type {
    WARGNIFLA_R_X86_64_64 = 1,                  /* X64: Abs8 */
    WARGNIFLA_R_X86_64_PC32 = 2,                /* X64: X86PCRel4 */
    WARGNIFLA_R_X86_64_PLT32 = 4,               /* X64: X86CallPCRel4 and X86CallPLTRel4 */
    WARGNIFLA_R_X86_64_GOTPCREL = 9,            /* X64: X86GOTPCRel4 */
    WARGNIFLA_R_X86_64_32 = 10,                 /* X64: Abs4 */
    WARGNIFLA_R_X86_64_TLSGD = 19,              /* X64: ElfX86_64TlsGd */
    WARGNIFLA_R_AARCH64_ABS64 = 257,            /* AArch64: Abs8 */
    WARGNIFLA_R_AARCH64_ABS32 = 258,            /* AArch64: Abs4 */
    WARGNIFLA_R_AARCH64_ADR_PREL_PG_HI21 = 275, /* AArch64: Aarch64AdrPrelPgHi21 */
    WARGNIFLA_R_AARCH64_ADD_ABS_LO12_NC = 277,  /* AArch64: Aarch64AddAbsLo12Nc */
    WARGNIFLA_R_AARCH64_CALL26 = 283            /* AArch64: Arm64Call */
};

/* A relocation's target is a symbol, below the number given at start, or a label plus this. */
#define WARGNIFLA_LABEL_TARGET 0x80000000u

/* The offset of a label that is not bound, the label of a constant that has none, and what a refused call for a number gives. */
#define WARGNIFLA_NONE 0xFFFFFFFFu

/* Limits: a call that is lent more answers 3. */
#define WARGNIFLA_MOST_CODE 16777216 /* bytes of code, and of output */
#define WARGNIFLA_MOST_ENTRIES 65536 /* entries of each table, and segments */
#define WARGNIFLA_MOST_CONSTANT 64   /* bytes of a constant; more answer 10 */
#define WARGNIFLA_MOST_PIECES 256    /* finished recordings that are joined; more answer 1 */

/* The counts of a recording, 13 words. The caller keeps them between calls and lends them to each; a call answers 1 to fewer bytes, before anything
 * else (a finish after a record that is too short), and leaves bytes past them alone.
 *
 * The last word is the open number: how many uses, refs, jumps and relocations against labels name a label that is not bound. An unknown label,
 * which a table made by hand can name, counts as not bound; of events those of kinds WARGNIFLA_EVENT_JUMP and WARGNIFLA_EVENT_BRANCH count, on
 * every architecture. What X86 and AArch64 accept unread is not kept and not counted. Every call that is handed the right number hands back the
 * right one, refused calls too: a new entry adds 1 where its label is not bound, a bind takes away as many as name its label. Another number
 * changes by as much, though never below 0. Any call answers 1 to one above WARGNIFLA_MOST_OPEN, amid a sheet the call after the one that passed
 * it, and finish to any that the tables do not come to (wargnifla_count_open). The labels of pooled constants are not bound before finish, so what
 * names them is open until then. A finish that succeeds leaves 0. */
#define WARGNIFLA_COUNTS_BYTES 52
#define WARGNIFLA_MOST_OPEN 262144 /* the entries of four full tables */
enum wargnifla_count {
    WARGNIFLA_COUNT_ARCH = 0,
    WARGNIFLA_COUNT_SYMBOLS = 1,
    WARGNIFLA_COUNT_FINISHED = 2, /* 0: no */
    WARGNIFLA_COUNT_REFUSAL = 3,  /* the first recorded one, or 0 */
    WARGNIFLA_COUNT_CODE = 4,     /* bytes, and so the current offset */
    WARGNIFLA_COUNT_LABELS = 5,   /* entries of each table */
    WARGNIFLA_COUNT_EVENTS = 6,
    WARGNIFLA_COUNT_USES = 7,
    WARGNIFLA_COUNT_REFS = 8,
    WARGNIFLA_COUNT_CONSTANTS = 9,
    WARGNIFLA_COUNT_ASKED = 10,
    WARGNIFLA_COUNT_RELOCS = 11,
    WARGNIFLA_COUNT_OPEN = 12 /* entries that name a label that is not bound */
};

/* What finish reports, 6 words; it answers 1 to fewer bytes, and then writes nothing.
 *
 *   0 architecture   1 bytes of finished code   2 alignment of the code   3 layouts   4 labels   5 relocations
 *
 * The alignment is what the code is to be loaded on a multiple of, so that every constant comes to stand on a multiple of its own: the greater of
 * 32 and the largest alignment among the constants that were asked for. So it is 32, or 64 where one of these has more than 32 bytes. Constants that
 * were only added do not count, nor do alignments in the code. A refused finish reports zeros.
 */
#define WARGNIFLA_RECORD_BYTES 24

/* The tables. Each is lent whole, as bytes; its length is its capacity, of which whole entries count. What stands in a table past its count is not
 * read.
 *
 *   table        entry                                                              bytes
 *   code         a byte                                                                 1
 *   labels       offset, or WARGNIFLA_NONE                                              4
 *   events       kind (enum wargnifla_event), start, length,
 *                label or multiple, condition or most                                  20
 *   uses         offset, label, code                                                   12
 *   refs         offset, label, code, signed addend                                    16
 *   constants    size, label or WARGNIFLA_NONE, 64 bytes                               72
 *   asked        constants whose labels were asked for, in order                        4
 *   relocations  offset, kind, target, 0, signed addend of 64 bits                     24
 *
 * The last word of an alignment is the most that it may spend, WARGNIFLA_DEFAULT_MOST where that is the default: 0 is here a ceiling of 0. Its length
 * is what it spends at its start by that word, and finish answers 1 to any other.
 *
 * A full table ends the recording: 11 and 12 are recorded, and no later call takes them back. So make room before a call, for all that its kind
 * extends (enum wargnifla_call): move the table to a longer place, entries and counts as they are. At a limit there is no more room to make.
 * wargnifla_grow.h has a recording that does all this.
 */
#define WARGNIFLA_LABEL_BYTES 4
#define WARGNIFLA_EVENT_BYTES 20
#define WARGNIFLA_USE_BYTES 12
#define WARGNIFLA_REF_BYTES 16
#define WARGNIFLA_CONSTANT_BYTES 72
#define WARGNIFLA_ASKED_BYTES 4
#define WARGNIFLA_RELOC_BYTES 24

/* An Elf64_Rela entry: r_offset (two words, the second 0), r_info (two words, the type and the symbol), r_addend (two words, signed). */
#define WARGNIFLA_RELA_BYTES 24

/* What is joined: a piece's entry is the 6 words of its record and the number of its definitions; a definition is a symbol, and the label of its
 * piece that defines it. */
#define WARGNIFLA_PIECE_BYTES 28
#define WARGNIFLA_DEFINITION_BYTES 8

enum wargnifla_event {
    WARGNIFLA_EVENT_JUMP = 1,
    WARGNIFLA_EVENT_ALIGNMENT = 2,
    WARGNIFLA_EVENT_BRANCH = 3 /* no call records one, and finish answers 1 to it */
};

/* Where an event, recorded from old_start to old_end, comes to stand. Finish fills one for each event, those of the pool included. */
typedef struct {
    uint32_t old_start;
    uint32_t old_end;
    uint32_t new_start;
    uint32_t new_end;
} wargnifla_segment;

/* A sheet of calls: the number of calls (a word), a byte for each one's kind, then four words for each one's arguments. Unused words and bytes
 * are 0. */
#define WARGNIFLA_SHEET_BYTES(calls) (4 + 17 * (size_t)(calls))

/* The version of the library that is linked, as WARGNIFLA_VERSION_NUMBER is. */
uint32_t wargnifla_version(void);

/* Starts a recording: writes its counts. A refused start (2) writes zeros. symbols: how many symbol numbers relocations may name. */
uint32_t wargnifla_start(uint32_t arch, uint32_t symbols, uint8_t *counts, size_t counts_len);

/* Makes the calls of a sheet up to the first that is refused, and gives its number and, through index, which call it was; without one, 0 and the
 * number of calls. The whole sheet's form is checked before any call: a broken one answers 1, the index of the first broken call (0 for a wrong
 * length), and changes nothing. Calls before a refused one stand. An empty sheet answers what any call would. */
uint32_t wargnifla_run_sheet(const uint8_t *sheet, size_t sheet_len, uint32_t *index, uint8_t *counts, size_t counts_len, uint8_t *code,
                             size_t code_len, uint8_t *labels, size_t labels_len, uint8_t *events, size_t events_len, uint8_t *uses,
                             size_t uses_len, uint8_t *refs, size_t refs_len, uint8_t *constants, size_t constants_len, uint8_t *asked,
                             size_t asked_len, uint8_t *relocs, size_t relocs_len);

/* Finishes a recording: pools its constants behind the code, in the order of asking, and writes the finished code to output and what it reports to
 * record. On success labels and relocations hold final offsets, and the counts say finished and nothing open; output past the finished length is
 * untouched. A refused finish changes neither recording nor output and writes a record of zeros, and another may follow, with more room.
 *
 * With a jump, which X64 alone keeps, the code is laid out anew: refs are patched in order, then jumps; uses are not patched. Without one, nothing
 * moves: uses are patched in order; refs are not. So a recorder for X64 that does not know whether a jump will stand records a use and a ref of each
 * field. A ref adds its addend and ignores what its field holds, while a use of code 0 adds what its field holds, so there the addend is to stand in
 * the field too. Constants are written last.
 *
 * segments_len counts segments; with a jump there is to be one for each event and each constant asked for. They are scratch: with a jump, 18, 23 and
 * success leave the settled ones there; every other refusal, and every finish without a jump, leaves them untouched.
 *
 * output_len: WARGNIFLA_MOST_OUTPUT and wargnifla_output_bound say what is enough. */
uint32_t wargnifla_finish(uint8_t *counts, size_t counts_len, const uint8_t *code, size_t code_len, uint8_t *labels, size_t labels_len,
                          const uint8_t *events, size_t events_len, const uint8_t *uses, size_t uses_len, const uint8_t *refs, size_t refs_len,
                          const uint8_t *constants, size_t constants_len, const uint8_t *asked, size_t asked_len, uint8_t *relocs,
                          size_t relocs_len, wargnifla_segment *segments, size_t segments_len, uint8_t *output, size_t output_len,
                          uint8_t *record, size_t record_len);

/* Bytes of stack that are enough for finish: c/finish_stack.c measures some 137,500, and 4,096 more are for a memcpy or memset that the dynamic
 * linker looks up at its first call. The second number is for wargnifla_join. A small rule takes less than 16,384 for
 * either. Less than 8,192 are enough for each of the others. */
#define WARGNIFLA_FINISH_STACK 143360
#define WARGNIFLA_JOIN_STACK 532480

/* Four calls that a sheet carries only in part. */

/* Appends bytes, any number of them: code by bytes_len. */
uint32_t wargnifla_put_bytes(uint8_t *counts, size_t counts_len, uint8_t *code, size_t code_len, const uint8_t *bytes, size_t bytes_len);

/* Pads to a multiple as WARGNIFLA_CALL_ALIGN does, and answers as it does, but for 0: most is any number, and 0 is here a ceiling of 0, with which
 * nothing is ever spent. Code by what is spent; on X64 events by 1, where nothing is spent too. */
uint32_t wargnifla_align(uint8_t *counts, size_t counts_len, uint8_t *code, size_t code_len, uint8_t *events, size_t events_len, uint32_t multiple,
                         uint32_t most);

/* A new constant of at most 64 bytes, without a label: constants by 1. number becomes its number, or WARGNIFLA_NONE where it is refused. */
uint32_t wargnifla_add_constant(uint8_t *counts, size_t counts_len, uint8_t *constants, size_t constants_len, const uint8_t *bytes,
                                size_t bytes_len, uint32_t *number);

/* A relocation with an addend of 64 bits, two's complement: relocations by 1. Labels are only read: whether the target is bound. */
uint32_t wargnifla_add_reloc(uint8_t *counts, size_t counts_len, const uint8_t *labels, size_t labels_len, uint8_t *relocs, size_t relocs_len,
                             uint32_t offset, uint32_t kind, uint32_t target, uint64_t addend);

/* Relocations for the system linker. */

/* Writes the relocations of a finished recording as Elf64_Rela entries, in recorded order, to output; bytes past them are untouched. record, labels
 * and relocs are as finish left them. A symbol's number goes in unchanged; a label becomes section, the number of the section symbol of the code, and
 * its offset is added to the addend, whatever the kind. So X86GOTPCRel4 and ElfX86_64TlsGd are to name a symbol: a linker makes their entries for the
 * symbol alone, without the addend. A refused call changes nothing. It answers, in this order:
 *
 *   1    the record is lent too short; its count of labels or relocations passes what is lent; a relocation, any of them, names a label that is
 *        unknown or not bound
 *   3    labels or relocations are lent past their limit
 *   24   the architecture is neither X64 nor AArch64, where there is no relocation too
 *   24   of each relocation in order: its kind has no type in the architecture (enum wargnifla_elf_type); then
 *   25   its addend and its label's offset add up to more than 2^63 - 1
 *   26   output is shorter than WARGNIFLA_RELA_BYTES for each relocation
 */
uint32_t wargnifla_write_relas(const uint8_t *record, size_t record_len, const uint8_t *labels, size_t labels_len, const uint8_t *relocs,
                               size_t relocs_len, uint32_t section, uint8_t *output, size_t output_len);

/* Reads Elf64_Rela entries into a table, in order: offset, type, symbol, 0, signed addend of 64 bits, WARGNIFLA_RELOC_BYTES for each; bytes past them
 * are untouched. So an entry is a relocation's, but for the type in the place of the kind and a symbol for every target. No architecture is named:
 * types of X64 and of AArch64 may stand side by side. A refused call changes nothing. It answers, in this order:
 *
 *   1    the length is no multiple of WARGNIFLA_RELA_BYTES; an entry, any of them, has an offset of more than 32 bits, or a type that enum
 *        wargnifla_elf_type does not have
 *   3    the table is lent past its limit; the entries that are read have none
 *   11   the table is shorter than the entries need
 */
uint32_t wargnifla_read_relas(const uint8_t *relas, size_t relas_len, uint8_t *entries, size_t entries_len);

/* Finished recordings as one. */

/* Joins 1 to 256 finished recordings, the pieces, of one architecture. pieces has an entry for each, and whole entries count; code, labels and relocs
 * have what finish left of each, and definitions the definitions of each, one piece's behind the other's. What is lent past the pieces' counts is not
 * read, and has no limit; each piece has.
 *
 * A piece starts at its base: the least multiple of its record's alignment, on AArch64 of 4,096 instead, at or after the end of the piece before it;
 * the first at 0. Gaps are zero. Labels are numbered on from piece to piece, and bound ones move by their piece's base. All pieces share the numbers
 * of symbols.
 *
 * On X64 a relocation to a symbol of kind X86PCRel4, X86CallPCRel4 or X86CallPLTRel4 is filled: its 4 bytes become the offset of the symbol's label,
 * plus its addend, less its own offset, all in the whole. This is done in the order of pieces and relocations, a later field over an earlier. Every
 * other relocation, of whatever kind, remains: it moves by its piece's base, and a label that it names has the label's new number. So all remain on
 * X86 and AArch64.
 *
 * On success output has the whole, joined_labels all labels, joined_relocs the relocations that remain, and record the architecture, the whole's
 * length, the greatest alignment of a piece, 0 layouts, all labels and the relocations that remain; bytes past these are untouched. So the whole may
 * be written as ELF, or be joined again, where it is within the limits. A refused call leaves output and tables as they were and writes a record of
 * zeros. It answers, in this order, each over all pieces before the next:
 *
 *   1    the record is lent too short, and then nothing is written; there is no piece, or there are more than WARGNIFLA_MOST_PIECES; a piece's
 *        architecture is none of 1, 2, 6, or its alignment neither 32 nor 64; the pieces' counts add up to more than is lent; a relocation, any of
 *        them, names a label that its piece does not have
 *   3    a piece has more than WARGNIFLA_MOST_CODE bytes, or more than WARGNIFLA_MOST_ENTRIES labels, relocations or definitions
 *   27   a piece has another architecture than the first
 *   28   two definitions, of one piece or of two, have one symbol, whatever their labels are, and whether it is needed or not
 *   29   a field is to be filled for a symbol that has no definition, or one by a label that its piece does not have or that is not bound; where no
 *        field needs a definition, its label is not looked at
 *   11   joined_labels is shorter than all labels need, or joined_relocs than the relocations that remain
 *   17   a field that is to be filled passes its piece's end
 *   18   what a field is to be filled with passes signed 32 bits
 *   23   output is shorter than the whole; or the whole's end, a bound label or a relocation that remains comes to stand past 4,294,967,294
 */
uint32_t wargnifla_join(const uint8_t *pieces, size_t pieces_len, const uint8_t *code, size_t code_len, const uint8_t *labels, size_t labels_len,
                        const uint8_t *relocs, size_t relocs_len, const uint8_t *definitions, size_t definitions_len, uint8_t *output,
                        size_t output_len, uint8_t *joined_labels, size_t joined_labels_len, uint8_t *joined_relocs, size_t joined_relocs_len,
                        uint8_t *record, size_t record_len);

/* How long the finished code can be, from numbers known when memory is set aside. A jump gains at most 4 bytes, an alignment 4,095, skipped when it was
 * recorded or not, and a constant that is asked for takes at most WARGNIFLA_MOST_POOLED, its 64 bytes and 63 of padding. Where finish answers 0 the
 * code is never longer than WARGNIFLA_MOST_CODE, since no longer output may be lent. */
#define WARGNIFLA_MOST_POOLED 127
#define WARGNIFLA_MOST_OUTPUT(code, jumps, alignments, asked) \
    WARGNIFLA_CAPPED((size_t)(code) + 4 * (size_t)(jumps) + 4095 * (size_t)(alignments) + WARGNIFLA_MOST_POOLED * (size_t)(asked))
#define WARGNIFLA_CAPPED(length) ((length) < WARGNIFLA_MOST_CODE ? (length) : (size_t)WARGNIFLA_MOST_CODE)

/* From here on: inline functions over a struct of tables, in place of the long lists of arguments. */

/* A table: bytes is NULL, or lent for len bytes. */
typedef struct {
    uint8_t *bytes;
    size_t len;
} wargnifla_table;

/* A recording. All zeros is one without room, to be started. */
typedef struct {
    uint8_t counts[WARGNIFLA_COUNTS_BYTES];
    wargnifla_table code, labels, events, uses, refs, constants, asked, relocs;
} wargnifla_tables;

/* Finished recordings to be joined: what wargnifla_join is lent of them, one's behind the other's. All zeros is none. */
typedef struct {
    wargnifla_table pieces, code, labels, relocs, definitions;
} wargnifla_pieces;

/* What finish reports, and join of the whole. */
typedef struct {
    uint32_t arch;
    uint32_t length;    /* bytes of finished code */
    uint32_t alignment; /* what the code is to be loaded on a multiple of: 32 or 64 */
    uint32_t layouts;   /* rounds of relaxation; 0 without a jump, and of a whole */
    uint32_t labels;
    uint32_t relocs;
} wargnifla_record;

static inline uint32_t wargnifla_word(const uint8_t *bytes) {
    return bytes[0] | (uint32_t)bytes[1] << 8 | (uint32_t)bytes[2] << 16 | (uint32_t)bytes[3] << 24;
}

static inline void wargnifla_put_word(uint8_t *bytes, uint32_t word) {
    int i;
    for (i = 0; i < 4; i++)
        bytes[i] = (uint8_t)(word >> 8 * i);
}

/* What a record of WARGNIFLA_RECORD_BYTES says. */
static inline wargnifla_record wargnifla_record_of(const uint8_t *words) {
    wargnifla_record record;
    record.arch = wargnifla_word(words);
    record.length = wargnifla_word(words + 4);
    record.alignment = wargnifla_word(words + 8);
    record.layouts = wargnifla_word(words + 12);
    record.labels = wargnifla_word(words + 16);
    record.relocs = wargnifla_word(words + 20);
    return record;
}

static inline void wargnifla_put_record(uint8_t *words, const wargnifla_record *record) {
    wargnifla_put_word(words, record->arch);
    wargnifla_put_word(words + 4, record->length);
    wargnifla_put_word(words + 8, record->alignment);
    wargnifla_put_word(words + 12, record->layouts);
    wargnifla_put_word(words + 16, record->labels);
    wargnifla_put_word(words + 20, record->relocs);
}

/* The name of a refusal, as it stands in enum wargnifla_refusal after WARGNIFLA_. */
static inline const char *wargnifla_refusal_name(uint32_t refusal) {
    static const char *const names[] = {
        "ACCEPTED",        "MALFORMED",        "UNKNOWN_ARCH",       "PAST_LIMIT",          "ALREADY_FINISHED",   "BAD_ALIGNMENT",
        "UNSUPPORTED_USE", "FOREIGN_KIND",     "UNKNOWN_NUMBER",     "ALREADY_BOUND",       "BAD_ENTRY",          "TABLE_FULL",
        "CODE_FULL",       "POOL_LABEL_BOUND", "POOL_TOO_LARGE",     "UNBOUND_LABEL",       "TOO_FEW_SEGMENTS",   "REF_OVERLAPS",
        "REF_OUT_OF_REACH", "USE_PAST_END",    "BRANCH_OUT_OF_REACH", "LABEL_TOO_FAR_AHEAD", "LABEL_TOO_FAR_BACK", "OUTPUT_TOO_SMALL",
        "NO_ELF_TYPE",     "ADDEND_OVERFLOW",  "ELF_OUTPUT_TOO_SMALL", "ARCHITECTURES_DIFFER", "SYMBOL_DEFINED_TWICE", "SYMBOL_UNDEFINED",
    };
    return refusal < sizeof names / sizeof *names ? names[refusal] : "UNKNOWN";
}

/* What a refusal says, for a message: a sentence without capital and full stop. enum wargnifla_refusal has every condition. */
static inline const char *wargnifla_refusal_text(uint32_t refusal) {
    static const char *const texts[] = {
        "accepted",
        "the input breaks its form: a sheet, a code or kind, the counts, an entry of a table, a record or a piece",
        "the architecture is none of X86, X64 and AArch64",
        "the code, the output, a table or a piece exceeds its limit",
        "the recording has finished",
        "the alignment is no power of two, or exceeds 4,096",
        "a use can't have code 15",
        "the kind of field or relocation is foreign to the architecture",
        "there is no label, constant or symbol of that number",
        "the label is bound already",
        "the place, length or condition of a jump, the offset of a relocation or the size of a constant is wrong",
        "a table is too small for what it is to hold",
        "the code has no room for the bytes or the padding",
        "the label of a pooled constant was bound by the caller",
        "the code with its pooled constants exceeds 16,777,216 bytes",
        "a use, ref, jump or relocation names a label that is not bound",
        "there are fewer segments than events and pooled constants",
        "a field runs into a jump or an alignment, or passes the end of its code",
        "a field can't reach its label or symbol plus addend",
        "the field of a use passes the end of the code",
        "a branch can't reach its label",
        "a field can't reach its label, which is too far ahead",
        "a field can't reach its label, which is too far back",
        "the output is too small for the code",
        "the architecture, or the kind of a relocation, has no ELF type",
        "the addend of a relocation plus the offset of its label exceeds signed 64 bits",
        "the output is too small for the ELF entries",
        "recordings of different architectures can't be joined",
        "a symbol is defined twice",
        "a symbol that is to be filled in is not defined, or by a label that is not bound",
    };
    return refusal < sizeof texts / sizeof *texts ? texts[refusal] : "unknown";
}

/* One of the counts, named by enum wargnifla_count. */
static inline uint32_t wargnifla_count_of(const wargnifla_tables *tables, int which) {
    return wargnifla_word(tables->counts + 4 * which);
}

/* The offset of a label: the recorded one, after finish the final one. WARGNIFLA_NONE where it is unknown or not bound. */
static inline uint32_t wargnifla_label_offset(const wargnifla_tables *tables, uint32_t label) {
    if (label >= wargnifla_count_of(tables, WARGNIFLA_COUNT_LABELS) || label >= tables->labels.len / WARGNIFLA_LABEL_BYTES)
        return WARGNIFLA_NONE;
    return wargnifla_word(tables->labels.bytes + WARGNIFLA_LABEL_BYTES * (size_t)label);
}

/* Prepares a sheet of so many calls, WARGNIFLA_SHEET_BYTES(calls) long; each is then to be set. */
static inline void wargnifla_sheet_start(uint8_t *sheet, uint32_t calls) {
    size_t i;
    wargnifla_put_word(sheet, calls);
    for (i = 4; i < WARGNIFLA_SHEET_BYTES(calls); i++)
        sheet[i] = 0;
}

/* The arguments of a prepared sheet's call, 16 bytes. */
static inline uint8_t *wargnifla_sheet_arguments(uint8_t *sheet, uint32_t index) {
    return sheet + 4 + (size_t)wargnifla_word(sheet) + 16 * (size_t)index;
}

/* Sets a call of a prepared sheet, its arguments four words; an unused one is 0. */
static inline void wargnifla_sheet_call(uint8_t *sheet, uint32_t index, int kind, uint32_t a, uint32_t b, uint32_t c, uint32_t d) {
    uint8_t *arguments = wargnifla_sheet_arguments(sheet, index);
    sheet[4 + (size_t)index] = (uint8_t)kind;
    wargnifla_put_word(arguments, a);
    wargnifla_put_word(arguments + 4, b);
    wargnifla_put_word(arguments + 8, c);
    wargnifla_put_word(arguments + 12, d);
}

/* Sets a call of kind WARGNIFLA_CALL_BYTES or WARGNIFLA_CALL_CONSTANT; len is at most 12. */
static inline void wargnifla_sheet_bytes(uint8_t *sheet, uint32_t index, int kind, const uint8_t *bytes, uint32_t len) {
    uint8_t *arguments = wargnifla_sheet_arguments(sheet, index);
    uint32_t i;
    wargnifla_sheet_call(sheet, index, kind, len, 0, 0, 0);
    for (i = 0; i < len; i++)
        arguments[4 + i] = bytes[i];
}

static inline uint32_t wargnifla_tables_start(wargnifla_tables *tables, uint32_t arch, uint32_t symbols) {
    return wargnifla_start(arch, symbols, tables->counts, sizeof tables->counts);
}

static inline uint32_t wargnifla_tables_run_sheet(wargnifla_tables *tables, const uint8_t *sheet, size_t sheet_len, uint32_t *index) {
    return wargnifla_run_sheet(sheet, sheet_len, index, tables->counts, sizeof tables->counts, tables->code.bytes, tables->code.len,
                               tables->labels.bytes, tables->labels.len, tables->events.bytes, tables->events.len, tables->uses.bytes,
                               tables->uses.len, tables->refs.bytes, tables->refs.len, tables->constants.bytes, tables->constants.len,
                               tables->asked.bytes, tables->asked.len, tables->relocs.bytes, tables->relocs.len);
}

static inline uint32_t wargnifla_tables_finish(wargnifla_tables *tables, wargnifla_segment *segments, size_t segments_len, uint8_t *output,
                                               size_t output_len, wargnifla_record *record) {
    uint8_t words[WARGNIFLA_RECORD_BYTES];
    uint32_t refusal =
        wargnifla_finish(tables->counts, sizeof tables->counts, tables->code.bytes, tables->code.len, tables->labels.bytes, tables->labels.len,
                         tables->events.bytes, tables->events.len, tables->uses.bytes, tables->uses.len, tables->refs.bytes, tables->refs.len,
                         tables->constants.bytes, tables->constants.len, tables->asked.bytes, tables->asked.len, tables->relocs.bytes,
                         tables->relocs.len, segments, segments_len, output, output_len, words, sizeof words);
    *record = wargnifla_record_of(words);
    return refusal;
}

/* How many bytes the Elf64_Rela entries of a finished recording take. */
static inline size_t wargnifla_relas_len(const wargnifla_record *record) { return WARGNIFLA_RELA_BYTES * (size_t)record->relocs; }

static inline uint32_t wargnifla_tables_write_relas(const wargnifla_tables *tables, const wargnifla_record *record, uint32_t section,
                                                    uint8_t *output, size_t output_len) {
    uint8_t words[WARGNIFLA_RECORD_BYTES];
    wargnifla_put_record(words, record);
    return wargnifla_write_relas(words, sizeof words, tables->labels.bytes, tables->labels.len, tables->relocs.bytes, tables->relocs.len, section,
                                 output, output_len);
}

/* Sets a piece's entry, WARGNIFLA_PIECE_BYTES long: the record of a finished recording, and how many definitions it brings. */
static inline void wargnifla_put_piece(uint8_t *piece, const wargnifla_record *record, uint32_t definitions) {
    wargnifla_put_record(piece, record);
    wargnifla_put_word(piece + WARGNIFLA_RECORD_BYTES, definitions);
}

/* Sets a definition, WARGNIFLA_DEFINITION_BYTES long. */
static inline void wargnifla_put_definition(uint8_t *definition, uint32_t symbol, uint32_t label) {
    wargnifla_put_word(definition, symbol);
    wargnifla_put_word(definition + 4, label);
}

/* Where the piece at an index starts in the whole. The pieces up to it are to have an architecture and an alignment that wargnifla_join takes. */
static inline uint64_t wargnifla_piece_base(const wargnifla_pieces *joined, size_t index) {
    uint64_t base = 0, end = 0;
    size_t i;
    for (i = 0; i <= index; i++) {
        wargnifla_record record = wargnifla_record_of(joined->pieces.bytes + WARGNIFLA_PIECE_BYTES * i);
        uint64_t multiple = record.arch == WARGNIFLA_AARCH64 ? 4096 : record.alignment;
        base = (end + multiple - 1) & ~(multiple - 1);
        end = base + record.length;
    }
    return base;
}

/* How long the whole of such pieces is, and so the output that it needs. */
static inline uint64_t wargnifla_joined_len(const wargnifla_pieces *joined) {
    size_t last = joined->pieces.len / WARGNIFLA_PIECE_BYTES;
    if (last == 0)
        return 0;
    last--;
    return wargnifla_piece_base(joined, last) + wargnifla_record_of(joined->pieces.bytes + WARGNIFLA_PIECE_BYTES * last).length;
}

static inline uint32_t wargnifla_pieces_join(const wargnifla_pieces *joined, uint8_t *output, size_t output_len, uint8_t *labels, size_t labels_len,
                                             uint8_t *relocs, size_t relocs_len, wargnifla_record *record) {
    uint8_t words[WARGNIFLA_RECORD_BYTES];
    uint32_t refusal = wargnifla_join(joined->pieces.bytes, joined->pieces.len, joined->code.bytes, joined->code.len, joined->labels.bytes,
                                      joined->labels.len, joined->relocs.bytes, joined->relocs.len, joined->definitions.bytes,
                                      joined->definitions.len, output, output_len, labels, labels_len, relocs, relocs_len, words, sizeof words);
    *record = wargnifla_record_of(words);
    return refusal;
}

static inline uint32_t wargnifla_tables_put_bytes(wargnifla_tables *tables, const uint8_t *bytes, size_t bytes_len) {
    return wargnifla_put_bytes(tables->counts, sizeof tables->counts, tables->code.bytes, tables->code.len, bytes, bytes_len);
}

static inline uint32_t wargnifla_tables_add_constant(wargnifla_tables *tables, const uint8_t *bytes, size_t bytes_len, uint32_t *number) {
    return wargnifla_add_constant(tables->counts, sizeof tables->counts, tables->constants.bytes, tables->constants.len, bytes, bytes_len, number);
}

static inline uint32_t wargnifla_tables_add_reloc(wargnifla_tables *tables, uint32_t offset, uint32_t kind, uint32_t target, int64_t addend) {
    return wargnifla_add_reloc(tables->counts, sizeof tables->counts, tables->labels.bytes, tables->labels.len, tables->relocs.bytes,
                               tables->relocs.len, offset, kind, target, (uint64_t)addend);
}

/* Makes one call that takes words. */
static inline uint32_t wargnifla_tables_call(wargnifla_tables *tables, int kind, uint32_t a, uint32_t b, uint32_t c, uint32_t d) {
    uint8_t sheet[WARGNIFLA_SHEET_BYTES(1)];
    uint32_t index;
    wargnifla_sheet_start(sheet, 1);
    wargnifla_sheet_call(sheet, 0, kind, a, b, c, d);
    return wargnifla_tables_run_sheet(tables, sheet, sizeof sheet, &index);
}

/* label becomes the new label's number, or WARGNIFLA_NONE where it is refused. */
static inline uint32_t wargnifla_tables_new_label(wargnifla_tables *tables, uint32_t *label) {
    uint32_t next = wargnifla_count_of(tables, WARGNIFLA_COUNT_LABELS);
    uint32_t refusal = wargnifla_tables_call(tables, WARGNIFLA_CALL_NEW_LABEL, 0, 0, 0, 0);
    *label = refusal == WARGNIFLA_ACCEPTED ? next : WARGNIFLA_NONE;
    return refusal;
}

static inline uint32_t wargnifla_tables_bind(wargnifla_tables *tables, uint32_t label) {
    return wargnifla_tables_call(tables, WARGNIFLA_CALL_BIND, label, 0, 0, 0);
}

static inline uint32_t wargnifla_tables_align(wargnifla_tables *tables, uint32_t multiple) {
    return wargnifla_tables_call(tables, WARGNIFLA_CALL_ALIGN, multiple, 0, 0, 0);
}

/* With a ceiling, any number: 0 is one of 0. */
static inline uint32_t wargnifla_tables_align_within(wargnifla_tables *tables, uint32_t multiple, uint32_t most) {
    return wargnifla_align(tables->counts, sizeof tables->counts, tables->code.bytes, tables->code.len, tables->events.bytes, tables->events.len,
                           multiple, most);
}

static inline uint32_t wargnifla_tables_use(wargnifla_tables *tables, uint32_t offset, uint32_t label, uint32_t code) {
    return wargnifla_tables_call(tables, WARGNIFLA_CALL_USE, offset, label, code, 0);
}

static inline uint32_t wargnifla_tables_ref(wargnifla_tables *tables, uint32_t offset, uint32_t label, uint32_t code, int32_t addend) {
    return wargnifla_tables_call(tables, WARGNIFLA_CALL_REF, offset, label, code, (uint32_t)addend);
}

static inline uint32_t wargnifla_tables_jump(wargnifla_tables *tables, uint32_t start, uint32_t length, uint32_t label, uint32_t condition) {
    return wargnifla_tables_call(tables, WARGNIFLA_CALL_JUMP, start, length, label, condition);
}

/* How many bytes the long form of a jump takes. */
static inline uint32_t wargnifla_long_jump(uint32_t condition) { return condition == WARGNIFLA_ALWAYS ? 5 : 6; }

/* Appends the long form of a jump to a label, and records the jump: finish makes it short where it reaches. X86 keeps no jumps, so there a use of
 * X86JmpRel32 is recorded, and the jump stays long: code by wargnifla_long_jump, on X64 events and else uses by 1. On AArch64 that use is foreign
 * (7). A condition above 16 answers 10 and changes nothing. Any other refusal changes nothing, or ends the recording. */
static inline uint32_t wargnifla_put_jump(wargnifla_tables *tables, uint32_t label, uint32_t condition) {
    uint8_t form[6] = {0xE9, 0, 0, 0, 0, 0}, sheet[WARGNIFLA_SHEET_BYTES(2)];
    uint32_t start = wargnifla_count_of(tables, WARGNIFLA_COUNT_CODE), length = wargnifla_long_jump(condition), index;
    int is_kept = wargnifla_count_of(tables, WARGNIFLA_COUNT_ARCH) == WARGNIFLA_X64;
    if (condition > WARGNIFLA_ALWAYS)
        return WARGNIFLA_BAD_ENTRY;
    if (condition < WARGNIFLA_ALWAYS) {
        form[0] = 0x0F;
        form[1] = (uint8_t)(0x80 + condition);
    }
    wargnifla_sheet_start(sheet, 2);
    /* A jump comes after its bytes; a use before them, so that a foreign one leaves none. */
    wargnifla_sheet_bytes(sheet, is_kept ? 0 : 1, WARGNIFLA_CALL_BYTES, form, length);
    if (is_kept)
        wargnifla_sheet_call(sheet, 1, WARGNIFLA_CALL_JUMP, start, length, label, condition);
    else
        wargnifla_sheet_call(sheet, 0, WARGNIFLA_CALL_USE, start + length - 4, label, WARGNIFLA_FIELD_X86JmpRel32, 0);
    return wargnifla_tables_run_sheet(tables, sheet, sizeof sheet, &index);
}

/* label becomes the label of a constant, made at the first asking, or WARGNIFLA_NONE where it is refused. */
static inline uint32_t wargnifla_tables_constant_label(wargnifla_tables *tables, uint32_t constant, uint32_t *label) {
    uint32_t refusal = wargnifla_tables_call(tables, WARGNIFLA_CALL_CONSTANT_LABEL, constant, 0, 0, 0);
    *label = WARGNIFLA_NONE;
    if (refusal == WARGNIFLA_ACCEPTED)
        *label = wargnifla_word(tables->constants.bytes + WARGNIFLA_CONSTANT_BYTES * (size_t)constant + 4);
    return refusal;
}

/* How many whole entries there are of those counted. */
static inline size_t wargnifla_entries(const wargnifla_tables *tables, const wargnifla_table *table, int which, size_t entry_bytes) {
    size_t counted = wargnifla_count_of(tables, which);
    return counted < table->len / entry_bytes ? counted : table->len / entry_bytes;
}

/* How many entries of a table name, by a word of theirs, a label that is not bound. */
static inline uint32_t wargnifla_open_entries(const wargnifla_tables *tables, const wargnifla_table *table, int which, size_t entry_bytes, int word) {
    size_t entries = wargnifla_entries(tables, table, which, entry_bytes), i;
    uint32_t open = 0;
    for (i = 0; i < entries; i++) {
        const uint8_t *entry = table->bytes + entry_bytes * i;
        uint32_t label = wargnifla_word(entry + 4 * word);
        int names = 1;
        if (which == WARGNIFLA_COUNT_EVENTS)
            names = wargnifla_word(entry) == WARGNIFLA_EVENT_JUMP || wargnifla_word(entry) == WARGNIFLA_EVENT_BRANCH;
        if (which == WARGNIFLA_COUNT_RELOCS) {
            names = label >= WARGNIFLA_LABEL_TARGET;
            label -= WARGNIFLA_LABEL_TARGET;
        }
        open += names && wargnifla_label_offset(tables, label) == WARGNIFLA_NONE;
    }
    return open;
}

/* The open number counted afresh. A recording keeps it in its counts (WARGNIFLA_COUNT_OPEN); tables made by hand are to be given it. */
static inline uint32_t wargnifla_count_open(const wargnifla_tables *tables) {
    return wargnifla_open_entries(tables, &tables->uses, WARGNIFLA_COUNT_USES, WARGNIFLA_USE_BYTES, 1) +
           wargnifla_open_entries(tables, &tables->refs, WARGNIFLA_COUNT_REFS, WARGNIFLA_REF_BYTES, 1) +
           wargnifla_open_entries(tables, &tables->events, WARGNIFLA_COUNT_EVENTS, WARGNIFLA_EVENT_BYTES, 3) +
           wargnifla_open_entries(tables, &tables->relocs, WARGNIFLA_COUNT_RELOCS, WARGNIFLA_RELOC_BYTES, 2);
}

/* What an alignment spends at an offset, if it may spend at most so many bytes: what the multiple, which is not 0, needs, or nothing. */
static inline uint32_t wargnifla_padding_within(uint32_t offset, uint32_t multiple, uint32_t most) {
    uint32_t needed = (multiple - offset % multiple) % multiple;
    return needed <= most ? needed : 0;
}

/* By how much an event can be longer than recorded, modulo 2^64: a jump becomes at most 5 bytes long without a condition and 6 with one, an alignment
 * one less than its multiple, or as long as it may spend, where that is less. */
static inline uint64_t wargnifla_event_growth(const uint8_t *event) {
    uint32_t length = wargnifla_word(event + 8), last = wargnifla_word(event + 16), most = wargnifla_word(event + 12) - 1;
    if (wargnifla_word(event) == WARGNIFLA_EVENT_JUMP)
        most = wargnifla_long_jump(last);
    else if (last < most)
        most = last;
    return (uint64_t)most - length;
}

/* The multiple that finish sets a constant of a size on. */
static inline uint32_t wargnifla_constant_alignment(uint32_t size) { return size <= 8 ? 8 : size <= 32 ? 16 : 64; }

/* What a constant of a size can take in the pool: its bytes, and padding one less than its multiple. */
static inline uint64_t wargnifla_pooled_growth(uint32_t size) { return (uint64_t)size + wargnifla_constant_alignment(size) - 1; }

/* How long the finished code of a recording can be: what is recorded, every jump long, every padding as long as an alignment can spend, and the pool;
 * at most WARGNIFLA_MOST_CODE. With an output of this length finish answers 23 only where the code is longer than any output that may be lent. */
static inline size_t wargnifla_output_bound(const wargnifla_tables *tables) {
    size_t events = wargnifla_entries(tables, &tables->events, WARGNIFLA_COUNT_EVENTS, WARGNIFLA_EVENT_BYTES);
    size_t asked = wargnifla_entries(tables, &tables->asked, WARGNIFLA_COUNT_ASKED, WARGNIFLA_ASKED_BYTES);
    size_t constants = wargnifla_entries(tables, &tables->constants, WARGNIFLA_COUNT_CONSTANTS, WARGNIFLA_CONSTANT_BYTES);
    uint64_t bound = wargnifla_count_of(tables, WARGNIFLA_COUNT_CODE);
    size_t i;
    for (i = 0; i < events; i++)
        bound += wargnifla_event_growth(tables->events.bytes + WARGNIFLA_EVENT_BYTES * i);
    for (i = 0; i < asked; i++) {
        uint32_t constant = wargnifla_word(tables->asked.bytes + WARGNIFLA_ASKED_BYTES * i);
        if (constant < constants)
            bound += wargnifla_pooled_growth(wargnifla_word(tables->constants.bytes + WARGNIFLA_CONSTANT_BYTES * (size_t)constant));
    }
    return (size_t)WARGNIFLA_CAPPED(bound);
}

#ifdef __cplusplus
}
#endif

#endif
