//! Instructions that newcomers write in the place of calls.

/// Instructions of x86; those that A64 has too are here alone.
const X86: [&str; 58] = [
    "adc", "add", "and", "call", "cdq", "cmp", "cpuid", "cqo", "dec", "div", "enter", "hlt",
    "idiv", "imul", "inc", "int", "int3", "jecxz", "jrcxz", "lea", "leave", "lock", "loop", "mov",
    "movabs", "movaps", "movd", "movq", "movsd", "movss", "movsx", "movsxd", "movups", "movzx",
    "mul", "neg", "nop", "not", "or", "pop", "push", "rep", "ret", "rol", "ror", "sal", "sar",
    "sbb", "shl", "shr", "sub", "syscall", "test", "ud2", "vmovaps", "vmovups", "xchg", "xor",
];

/// Instructions of A64 alone.
const A64: [&str; 36] = [
    "adds", "adr", "adrp", "ands", "asr", "b.", "bl", "blr", "br", "brk", "cbnz", "cbz", "ccmp",
    "csel", "cset", "eor", "eret", "fmov", "ldp", "ldr", "ldrb", "ldrh", "ldur", "lsl", "lsr",
    "madd", "movk", "movz", "orr", "sdiv", "stp", "str", "strb", "subs", "svc", "tst",
];

/// What a sheet has in the place of an instruction: its bytes, with an example; nothing if the word is no common instruction.
pub(crate) fn written_as_bytes(word: &str) -> Option<&'static str> {
    let word = word.to_lowercase();
    // A branch of A64 has its condition in its name: b.eq.
    let word = match word.strip_prefix("b.") {
        Some(_) => "b.",
        None => word.as_str(),
    };
    if X86.contains(&word) {
        return Some("on x86, 'bytes C3' is a ret");
    }
    let is_a64 = A64.contains(&word);
    is_a64.then_some("on AArch64, 'bytes C0 03 5F D6' is a ret")
}

#[cfg(test)]
mod tests {
    use super::*;
    use crate::text_call::long_word;

    #[test]
    fn common_instructions_are_known_in_any_case() {
        for word in ["ret", "CALL", "mov", "nop", "Push"] {
            assert!(written_as_bytes(word).unwrap().contains("C3"), "{word}");
        }
        for word in ["b.eq", "B.NE", "ldr", "bl"] {
            assert!(written_as_bytes(word).unwrap().contains("5F"), "{word}");
        }
        for word in ["", "b", "this", "rett"] {
            assert_eq!(written_as_bytes(word), None, "{word}");
        }
    }

    #[test]
    fn no_instruction_is_a_call() {
        let calls = X86.iter().chain(&A64).filter_map(|word| long_word(word));
        assert_eq!(calls.collect::<Vec<_>>(), [""; 0]);
    }
}
