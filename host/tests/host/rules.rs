//! Texts finished as the command finishes them: with their names and definitions.

use wargnifla::{Arch, CodeBuffer, CodeBufferFinalized, Label, Sym, read_text, symbols_named};

/// What an X64 text finishes to.
pub fn rule(text: &str) -> CodeBufferFinalized {
    rule_for(Arch::X64, text)
}

/// What a text finishes to on an architecture.
pub fn rule_for(arch: Arch, text: &str) -> CodeBufferFinalized {
    let script = read_text(text).expect("a well-formed text");
    let symbols = script.symbols.unwrap_or(symbols_named(&script.calls));
    let mut buffer = CodeBuffer::with_symbols(arch, symbols);
    for (label, name) in &script.names {
        buffer.name_label(Label::from_id(*label), name);
    }
    for (symbol, name) in (0..).zip(&script.symbol_names) {
        buffer.name_symbol(Sym::from_id(symbol), name);
    }
    for definition in script.definitions {
        buffer.bind_symbol(definition.symbol, Label::from_id(definition.label));
    }
    for call in &script.calls {
        buffer.call(call).expect("an accepted call");
    }
    buffer.finish().expect("an accepted finish")
}
