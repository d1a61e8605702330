//! The symbols that pieces share, each under one number.

use std::collections::{BTreeSet, HashMap, HashSet};

use crate::recording::{Label, Names, Sym};
use crate::{CodeBufferFinalized, ExternalName};

/// The symbols that the relocations and definitions of pieces name.
pub(crate) struct Symbols {
    numbers: HashMap<ExternalName, Sym>,
    /// Those that have names, in the order of their numbers.
    named: Vec<(Sym, String)>,
}

impl Symbols {
    /// Symbols without names keep their numbers; names have the lowest that are left, in the order of pieces.
    pub fn new(codes: &[&CodeBufferFinalized]) -> Self {
        let all: Vec<ExternalName> = codes.iter().flat_map(|code| mentioned(code)).collect();
        let taken: HashSet<u32> = all
            .iter()
            .filter_map(|symbol| match symbol {
                ExternalName::Number(number) => Some(*number),
                ExternalName::Name(_) => None,
            })
            .collect();
        let mut left = (0..).filter(|number| !taken.contains(number));
        let (mut numbers, mut named) = (HashMap::new(), Vec::new());
        for symbol in all {
            if numbers.contains_key(&symbol) {
                continue;
            }
            let number = match &symbol {
                ExternalName::Number(number) => Sym::from_id(*number),
                ExternalName::Name(name) => {
                    let number = Sym::from_id(left.next().expect("names are below 2^32"));
                    named.push((number, name.clone()));
                    number
                }
            };
            numbers.insert(symbol, number);
        }
        Self { numbers, named }
    }

    /// The shared number of a symbol that a relocation or definition names.
    pub fn number(&self, symbol: &ExternalName) -> Sym {
        self.numbers[symbol]
    }

    pub fn named(&self) -> impl Iterator<Item = (Sym, &str)> {
        let named = self.named.iter();
        named.map(|(number, name)| (*number, name.as_str()))
    }
}

/// The symbols that a piece names: those of its relocations by rising number, then those that it defines.
fn mentioned(code: &CodeBufferFinalized) -> impl Iterator<Item = ExternalName> {
    let relocs = symbols_of_relocs(code).into_iter();
    let relocs = relocs.map(|symbol| code.names.external_name(symbol));
    relocs.chain(given(code).map(|(symbol, _)| symbol))
}

/// The symbols that a piece's relocations name.
fn symbols_of_relocs(code: &CodeBufferFinalized) -> BTreeSet<Sym> {
    let targets = code.relocs.iter().map(|reloc| reloc.target);
    targets.filter_map(|target| target.symbol()).collect()
}

/// The definitions that a piece was given.
pub(crate) fn given(code: &CodeBufferFinalized) -> impl Iterator<Item = (ExternalName, Label)> {
    let definitions = code.definitions.iter();
    definitions.map(|(symbol, label)| (code.names.external(symbol), *label))
}

/// The names of symbols that no piece was given a definition of, and that relocations name.
pub(crate) fn left_to_labels<'a>(codes: &[&'a CodeBufferFinalized]) -> HashSet<&'a str> {
    let given: HashSet<ExternalName> = codes
        .iter()
        .flat_map(|code| given(code))
        .map(|(symbol, _)| symbol)
        .collect();
    let names = codes.iter().flat_map(|code| {
        let symbols = symbols_of_relocs(code).into_iter();
        symbols.filter_map(|symbol| code.names.get(symbol))
    });
    names
        .filter(|name| !given.contains(&ExternalName::from(*name)))
        .collect()
}

/// The labels of a piece that define a symbol by their names alone: bound ones that objects have, too, under these names.
pub(crate) fn by_name(
    code: &CodeBufferFinalized,
    names: &HashSet<&str>,
) -> impl Iterator<Item = (ExternalName, Label)> {
    let labels = code.names.labels().filter(|(label, name)| {
        let is_bound = code.label_offset(*label).is_some();
        is_bound && !Names::is_local(name) && names.contains(name)
    });
    labels.map(|(label, name)| (name.into(), label))
}
