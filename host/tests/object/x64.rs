//! X64 objects linked by GNU's linker with a file that its assembler made, and run.

use wargnifla::{Arch, Label, RelaxableJump, Reloc, Sym};

use crate::binutils::{Folder, are_at_hand};
use crate::{Rule, object_of};

/// A program that ends with the rule's answer.
const PROGRAM: &str = "
        .globl  _start, one, two, cells
_start: call    rule
        mov     %eax, %edi
        mov     $60, %eax       # exit
        syscall
one:    mov     $1, %eax
        ret
two:    mov     $2, %eax
        ret
        .data
cells:  .long   0, 0, 4, 8, 16, 32
        .section .note.GNU-stack, \"\", @progbits
";

/// A rule that adds up eight powers of two, each found by another relocation. A jump in front moves them all when finish shortens it.
fn sum() -> Rule {
    let [one, two, cells] = [0, 1, 2].map(Sym::from_id);
    let mut rule = Rule::new(Arch::X64, &["one", "two", "cells"]);
    let (start, over) = (rule.label("rule"), rule.label(".over"));
    let (table, inner) = (rule.label("table"), rule.label(".inner"));
    let constant = rule.buffer.add_constant(&128u32.to_le_bytes()).unwrap();
    let constant = rule.buffer.get_label_for_constant(constant).unwrap();
    rule.bind(start);
    rule.bytes(&[0x53]); // push rbx
    jump(&mut rule, over);
    rule.bytes(&[0xCC; 3]);
    rule.bind(over);
    rule.bytes(&[0xE8]); // call one
    rule.field(Reloc::X86CallPLTRel4, one, -4);
    rule.bytes(&[0x89, 0xC3, 0xE8]); // mov ebx, eax; call two
    rule.field(Reloc::X86CallPCRel4, two, -4);
    rule.bytes(&[0x01, 0xC3, 0x03, 0x1D]); // add ebx, eax; add ebx, [rip + cells + 8]
    rule.field(Reloc::X86PCRel4, cells, 8 - 4);
    rule.bytes(&[0x48, 0x8B, 0x05]); // mov rax, [rip + cells' place in the GOT]
    rule.field(Reloc::X86GOTPCRel4, cells, -4);
    rule.bytes(&[0x03, 0x58, 12, 0xB8]); // add ebx, [rax + 12]; mov eax, cells + 16
    rule.field(Reloc::Abs4, cells, 16);
    rule.bytes(&[0x03, 0x18]); // add ebx, [rax]
    for entry in [0, 8] {
        rule.bytes(&[0x48, 0x8B, 0x05]); // mov rax, [rip + table + entry]
        rule.field(Reloc::X86PCRel4, table, entry - 4);
        rule.bytes(&[0x03, 0x18]); // add ebx, [rax]
    }
    rule.bytes(&[0x03, 0x1D]); // add ebx, [rip + constant]
    rule.field(Reloc::X86PCRel4, constant, -4);
    rule.bytes(&[0x89, 0xD8, 0x5B, 0xC3]); // mov eax, ebx; pop rbx; ret
    rule.bind(table);
    rule.field(Reloc::Abs8, cells, 20);
    rule.field(Reloc::Abs8, inner, 1);
    rule.bytes(&[0xFF]);
    rule.bind(inner);
    rule.bytes(&[0xFF, 64, 0, 0, 0]);
    rule
}

/// Appends a `jmp` that finish may shorten.
fn jump(rule: &mut Rule, label: Label) {
    let start = rule.buffer.cur_offset();
    rule.bytes(&[0; 5]);
    let jump = RelaxableJump {
        start,
        len: 5,
        label,
        cc: None,
    };
    rule.buffer.record_relaxable_jump(jump).unwrap();
}

/// The status that a program ends with whose parts are an assembled file and a rule.
fn status(folder: &Folder, program: &str, rule: Rule) -> Option<i32> {
    folder.write("program.s", program);
    folder.write("rule.o", rule.object());
    folder.printed("as -o program.o program.s");
    folder.printed("ld -o program program.o rule.o");
    folder.run("./program").status.code()
}

#[test]
fn a_rule_calls_back_and_finds_its_cells() {
    if are_at_hand(&["as", "ld"], "an X64 object linked and run") {
        let folder = Folder::new("object-linked");
        assert_eq!(status(&folder, PROGRAM, sum()), Some(255));
    }
}

/// A program that gives its only thread a block of its own, and ends with 7 if the rule finds the cell in it.
const THREAD: &str = "
        .globl  _start, cell
_start: mov     $158, %eax      # arch_prctl
        mov     $0x1002, %edi   # ARCH_SET_FS
        lea     thread(%rip), %rsi
        syscall
        call    address
        mov     %fs:0, %rcx
        lea     cell@tpoff(%rcx), %rcx
        mov     $7, %edi
        cmp     %rax, %rcx
        je      found
        mov     $1, %edi
found:  mov     $60, %eax       # exit
        syscall
        .data
thread: .quad   thread
        .section .tdata, \"awT\", @progbits
        .quad   0
cell:   .long   0
        .section .note.GNU-stack, \"\", @progbits
";

#[test]
fn a_rule_finds_a_thread_local_cell() {
    if !are_at_hand(&["as", "ld"], "a thread-local symbol of X64 linked and run") {
        return;
    }
    let mut rule = Rule::new(Arch::X64, &["cell", "__tls_get_addr"]);
    let address = rule.label("address");
    rule.bind(address);
    rule.bytes(&[0x66, 0x48, 0x8D, 0x3D]); // lea rdi, [rip + cell's place in the GOT]
    rule.field(Reloc::ElfX86_64TlsGd, Sym::from_id(0), -4);
    rule.bytes(&[0x66, 0x66, 0x48, 0xE8]); // call __tls_get_addr
    rule.field(Reloc::X86CallPLTRel4, Sym::from_id(1), -4);
    rule.bytes(&[0xC3]); // ret
    let folder = Folder::new("object-thread");
    assert_eq!(status(&folder, THREAD, rule), Some(7));
}

#[test]
fn the_sheet_for_the_linker_says_hello() {
    if !are_at_hand(
        &["cc"],
        "sheets/hello.txt linked with the C library and run",
    ) {
        return;
    }
    let folder = Folder::new("object-hello");
    folder.write("hello.o", object_of(&["hello"]));
    folder.printed("cc -o hello hello.o");
    assert_eq!(folder.printed("./hello"), "Hello, linker\n");
}

#[test]
fn rules_that_call_each_other_run_joined_and_linked() {
    const CALLER: &str = "join-caller";
    const CALLEE: &str = "join-callee";
    if !are_at_hand(&["cc"], "joined sheets linked with the C library and run") {
        return;
    }
    let folder = Folder::new("object-joined");
    folder.write("plan.o", object_of(&[CALLER, CALLEE]));
    folder.printed("cc -o plan plan.o");
    assert_eq!(folder.printed("./plan"), "Two rules, joined\n");
    folder.write("backwards.o", object_of(&[CALLEE, CALLER]));
    folder.printed("cc -o backwards backwards.o");
    assert_eq!(folder.printed("./backwards"), "Two rules, joined\n");
    // The linker finds in the objects of the sheets what join finds in the sheets.
    folder.write("caller.o", object_of(&[CALLER]));
    folder.write("callee.o", object_of(&[CALLEE]));
    folder.printed("cc -o linked caller.o callee.o");
    assert_eq!(folder.printed("./linked"), "Two rules, joined\n");
}
