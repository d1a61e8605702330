//! AArch64 objects linked by GNU's linker, beside what its assembler makes of the same rule, and run where an emulator is at hand.

use wargnifla::{Arch, Reloc, Sym};

use crate::binutils::{Folder, are_at_hand};
use crate::{Rule, object_of};

/// The rule in the assembler's language. It has the section `.note.GNU-stack`, as an object of ours has: the linker makes a header more for it, and so
/// places the code elsewhere.
const ASSEMBLED: &str = "
        .globl  rule
        .p2align 5
rule:   stp     x29, x30, [sp, #-16]!
        bl      callee
        adrp    x0, cells + 4
        add     x0, x0, :lo12:cells + 4
        adrp    x1, table
        add     x1, x1, :lo12:table
        ldp     x29, x30, [sp], #16
        ret
table:  .quad   cells + 8
        .quad   table + 1
        .word   cells
        .section .note.GNU-stack, \"\", %progbits
";

fn recorded() -> Rule {
    let [callee, cells] = [0, 1].map(Sym::from_id);
    let mut rule = Rule::new(Arch::AArch64, &["callee", "cells"]);
    let (start, table) = (rule.label("rule"), rule.label("table"));
    rule.bind(start);
    rule.buffer.put4(0xA9BF_7BFD).unwrap();
    rule.instruction(0x9400_0000, Reloc::Arm64Call, callee, 0);
    rule.instruction(0x9000_0000, Reloc::Aarch64AdrPrelPgHi21, cells, 4);
    rule.instruction(0x9100_0000, Reloc::Aarch64AddAbsLo12Nc, cells, 4);
    rule.instruction(0x9000_0001, Reloc::Aarch64AdrPrelPgHi21, table, 0);
    rule.instruction(0x9100_0021, Reloc::Aarch64AddAbsLo12Nc, table, 0);
    rule.buffer.put4(0xA8C1_7BFD).unwrap();
    rule.buffer.put4(0xD65F_03C0).unwrap();
    rule.bind(table);
    rule.field(Reloc::Abs8, cells, 8);
    rule.field(Reloc::Abs8, table, 1);
    rule.field(Reloc::Abs4, cells, 0);
    rule
}

/// What the rule calls and names.
const CALLEE: &str = "
        .globl  callee, cells
callee: ret
        .data
        .skip   5000
cells:  .quad   1, 2
";

/// GNU's programs for AArch64, and the emulator.
fn tool(program: &str) -> String {
    format!("aarch64-linux-gnu-{program}")
}

const EMULATOR: &str = "qemu-aarch64";

#[test]
fn the_linker_makes_of_a_rule_what_it_makes_of_the_assemblers() {
    let [assembler, linker, objdump, nm] = ["as", "ld", "objdump", "nm"].map(tool);
    let programs = [&assembler, &linker, &objdump, &nm].map(String::as_str);
    if !are_at_hand(&programs, "an AArch64 object linked") {
        return;
    }
    let folder = Folder::new("object-aarch64");
    folder.write("ours.o", recorded().object());
    folder.write("theirs.s", ASSEMBLED);
    folder.write("callee.s", CALLEE);
    for file in ["theirs", "callee"] {
        folder.printed(&format!("{assembler} -o {file}.o {file}.s"));
    }
    let text = |rule| {
        folder.printed(&format!("{linker} -e rule -o {rule} {rule}.o callee.o"));
        let shown = folder.printed(&format!("{objdump} -s -j .text {rule}"));
        shown.replace(rule, "program")
    };
    assert_eq!(text("ours"), text("theirs"));
    let mapping = |rule| {
        let printed = folder.printed(&format!("{nm} --special-syms {rule}.o"));
        let lines = printed.lines().filter(|line| line.contains('$'));
        lines.map(str::to_owned).collect::<Vec<_>>()
    };
    assert_eq!(mapping("ours").len(), 2);
    assert_eq!(mapping("ours"), mapping("theirs"));
}

/// A program that ends with what stands in a cell. It is read by the sequence that erratum 843419 of the Cortex-A53 is about: an ADRP in one of a
/// page's last two words, a load, another instruction, and a load by what the ADRP set.
fn erratum() -> Rule {
    let cell = Sym::from_id(0);
    let mut rule = Rule::new(Arch::AArch64, &["cell"]);
    let start = rule.label("_start");
    rule.bytes(&[0; ADRP - 4]);
    rule.bind(start);
    rule.buffer.put4(0x1000_0002).unwrap(); // adr x2, .
    rule.instruction(0x9000_0000, Reloc::Aarch64AdrPrelPgHi21, cell, 0);
    rule.buffer.put4(0xF940_0041).unwrap(); // ldr x1, [x2]
    rule.buffer.put4(0xD503_201F).unwrap(); // nop
    rule.buffer.put4(0xF940_1000).unwrap(); // ldr x0, [x0, #32]
    rule.buffer.put4(0xD280_0BA8).unwrap(); // mov x8, #93, which is exit
    rule.buffer.put4(0xD400_0001).unwrap(); // svc #0
    rule
}

/// Where the ADRP stands.
const ADRP: usize = 0xFF8;

const CELL: &str = "
        .globl  cell
        .data
        .p2align 12
        .skip   32
cell:   .quad   42
        .section .note.GNU-stack, \"\", %progbits
";

/// The words from the ADRP on in a program that is linked from an object, with an option against the erratum.
fn linked_words(folder: &Folder, object: &str, option: &str) -> [u32; 4] {
    let [linker, objcopy] = ["ld", "objcopy"].map(tool);
    let link = format!("{linker} {option} -Ttext=0x10000 -o program {object} cell.o");
    folder.printed(&link);
    folder.printed(&format!("{objcopy} -O binary -j .text program program.bin"));
    let code = folder.read("program.bin");
    std::array::from_fn(|i| {
        let word = &code[ADRP + 4 * i..][..4];
        u32::from_le_bytes(word.try_into().unwrap())
    })
}

#[test]
fn the_linker_mends_an_erratum_where_the_object_says_that_code_stands() {
    let [assembler, linker, objcopy] = ["as", "ld", "objcopy"].map(tool);
    let programs = [&assembler, &linker, &objcopy].map(String::as_str);
    if !are_at_hand(&programs, "an AArch64 erratum mended by the linker") {
        return;
    }
    let runs = are_at_hand(
        &[EMULATOR],
        "an AArch64 program run with its erratum mended",
    );
    let folder = Folder::new("object-erratum");
    folder.write("rule.o", erratum().object());
    folder.write("cell.s", CELL);
    folder.printed(&format!("{assembler} -o cell.o cell.s"));
    folder.printed(&format!("{objcopy} --redefine-sym $x=x rule.o unmapped.o"));
    let is_adrp = |word: u32| word & 0x9F00_0000 == 0x9000_0000;
    let is_adr = |word: u32| word & 0x9F00_0000 == 0x1000_0000;
    let is_branch = |word: u32| word & 0xFC00_0000 == 0x1400_0000;
    let exits_with_cell = || {
        if runs {
            let status = folder.run(&format!("{EMULATOR} program")).status;
            assert_eq!(status.code(), Some(42));
        }
    };
    // The linker either makes the ADRP an ADR, or the last load a branch to a copy of it.
    let [adrp, ..] = linked_words(&folder, "rule.o", "--fix-cortex-a53-843419=adr");
    assert!(is_adr(adrp), "{adrp:08X}");
    exits_with_cell();
    let [adrp, .., load] = linked_words(&folder, "rule.o", "--fix-cortex-a53-843419=adrp");
    assert!(is_adrp(adrp) && is_branch(load), "{adrp:08X} {load:08X}");
    exits_with_cell();
    for option in ["=adr", "=adrp", "=full"] {
        let option = format!("--fix-cortex-a53-843419{option}");
        let [adrp, .., load] = linked_words(&folder, "unmapped.o", &option);
        assert!(is_adrp(adrp) && !is_branch(load), "{adrp:08X} {load:08X}");
        exits_with_cell();
    }
}

/// What the sheet for the linker needs of a C library, for lines of 13 bytes.
const LIBRARY: &str = "
        .globl  _start, puts
_start: bl      main
        mov     x8, #93                 // exit
        svc     #0
puts:   mov     x1, x0
        mov     x2, #13
        mov     x0, #1
        mov     x8, #64                 // write
        svc     #0
        ret
        .section .note.GNU-stack, \"\", %progbits
";

#[test]
fn the_sheet_for_the_linker_says_hello() {
    let [assembler, linker] = ["as", "ld"].map(tool);
    let programs = [&assembler, &linker, EMULATOR];
    if !are_at_hand(&programs, "sheets/hello-aarch64.txt linked and run") {
        return;
    }
    let folder = Folder::new("object-hello-aarch64");
    folder.write("hello.o", object_of(&["hello-aarch64"]));
    folder.write("library.s", LIBRARY);
    folder.printed(&format!("{assembler} -o library.o library.s"));
    folder.printed(&format!("{linker} -o hello hello.o library.o"));
    let printed = folder.printed(&format!("{EMULATOR} hello"));
    assert_eq!(printed, "Hello, linker");
}
