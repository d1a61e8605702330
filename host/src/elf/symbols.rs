//! What the symbols of an object stand for: labels that have names, symbols that labels define, and symbols for the linker to find. Constants and
//! fields have the names of the ELF specification.

use std::borrow::Cow;
use std::collections::{BTreeMap, HashMap, HashSet};

use super::mapping::{MappingSymbol, mapping_symbols};
use crate::recording::{AsmReloc, Label, Names, RelocTarget, Sym};
use crate::{CodeBufferFinalized, ExternalName, Reloc};

pub(super) const STB_LOCAL: u8 = 0;
pub(super) const STB_GLOBAL: u8 = 1;
pub(super) const STT_NOTYPE: u8 = 0;
const STT_OBJECT: u8 = 1;
const STT_FUNC: u8 = 2;
const STT_TLS: u8 = 6;
pub(super) const SHN_UNDEF: u16 = 0;

/// The section of code.
pub(super) const TEXT: u16 = 1;

pub(super) struct Symbols<'a> {
    /// The sections that symbols stand for, by the symbols' numbers from 1 on; that of code is the first.
    pub sections: Vec<u16>,
    /// By number behind these; each is local.
    pub mapping: Vec<MappingSymbol>,
    /// By number behind these: first the local ones, then the others; of each, symbols that nothing defines, labels, and symbols that labels define.
    pub all: Vec<Symbol<'a>>,
    pub first_global: u32,
    /// The object's numbers of the symbols that relocations name.
    numbers: HashMap<Sym, u32>,
}

pub(super) struct Symbol<'a> {
    /// What it stands for.
    pub target: RelocTarget,
    /// What relocations name it by, if it is a symbol of the code.
    external: Option<ExternalName>,
    pub name: Cow<'a, str>,
    pub binding: u8,
    pub st_type: u8,
    pub st_shndx: u16,
    pub st_value: u32,
    pub st_size: u32,
}

impl<'a> Symbol<'a> {
    /// One for the linker to find.
    fn undefined(code: &CodeBufferFinalized, symbol: Sym, st_type: u8) -> Self {
        let external = code.names.external_name(symbol);
        Self {
            target: symbol.into(),
            name: name_of(&external).into(),
            external: Some(external),
            binding: STB_GLOBAL,
            st_type,
            st_shndx: SHN_UNDEF,
            st_value: 0,
            st_size: 0,
        }
    }

    /// One that stands where a label does.
    fn at_label(
        code: &CodeBufferFinalized,
        types: &LabelTypes,
        label: Label,
        name: Cow<'a, str>,
    ) -> Self {
        let (st_type, st_size) = types.get(&label).copied().unwrap_or((STT_NOTYPE, 0));
        let binding = match Names::is_local(&name) {
            true => STB_LOCAL,
            false => STB_GLOBAL,
        };
        Self {
            target: label.into(),
            external: None,
            name,
            binding,
            st_type,
            st_shndx: TEXT,
            st_value: code.bound_offset(label),
            st_size,
        }
    }

    /// One that a label defines.
    fn defined(
        code: &CodeBufferFinalized,
        types: &LabelTypes,
        external: ExternalName,
        label: Label,
    ) -> Self {
        Self {
            external: Some(external.clone()),
            ..Self::at_label(code, types, label, name_of(&external).into())
        }
    }
}

/// The type and size of the symbols at labels that have more than an offset.
type LabelTypes = HashMap<Label, (u8, u32)>;

fn label_types(code: &CodeBufferFinalized) -> LabelTypes {
    let contents = &code.contents;
    let of_type = |st_type| move |&(label, size): &(Label, u32)| (label, (st_type, size));
    let functions = contents.functions.iter().map(of_type(STT_FUNC));
    let constants = contents.constants.iter().map(of_type(STT_OBJECT));
    functions.chain(constants).collect()
}

/// A symbol's name, or one after its number.
fn name_of(external: &ExternalName) -> String {
    match external {
        ExternalName::Name(name) => name.clone(),
        ExternalName::Number(number) => format!("s{number}"),
    }
}

impl<'a> Symbols<'a> {
    /// Those of finished code; further sections than that of code have symbols, too.
    pub fn new(code: &'a CodeBufferFinalized, further: &[u16]) -> Self {
        let named = named_symbols(&code.relocs);
        let types = label_types(code);
        let is_bound = |label| code.label_offset(label).is_some();
        let definitions = code
            .definitions
            .iter()
            .filter(|(_, label)| is_bound(*label));
        let definitions: Vec<(ExternalName, Label)> = definitions
            .map(|(symbol, label)| (code.names.external(symbol), *label))
            .collect();
        let defined: HashSet<&ExternalName> = definitions.iter().map(|found| &found.0).collect();
        let undefined = named
            .iter()
            .filter(|(symbol, _)| !defined.contains(&code.names.external_name(**symbol)))
            .map(|(symbol, st_type)| Symbol::undefined(code, *symbol, *st_type));
        let itself: HashSet<(Label, String)> = definitions
            .iter()
            .map(|(external, label)| (*label, name_of(external)))
            .collect();
        let labels = code
            .names
            .labels()
            .filter(|(label, name)| is_bound(*label) && !itself.contains(&(*label, (*name).into())))
            .map(|(label, name)| Symbol::at_label(code, &types, label, name.into()));
        let mut all: Vec<Symbol<'a>> = undefined.chain(labels).collect();
        let definitions = definitions.into_iter();
        all.extend(
            definitions.map(|(external, label)| Symbol::defined(code, &types, external, label)),
        );
        all.sort_by_key(|symbol| symbol.binding);
        let local = all.iter().filter(|symbol| symbol.binding == STB_LOCAL);
        let mapping = mapping_symbols(code);
        let sections = [&[TEXT], further].concat();
        let first = (1 + sections.len() + mapping.len()) as u32;
        Self {
            sections,
            first_global: first + local.count() as u32,
            numbers: numbers(code, named.into_keys(), first, &all),
            mapping,
            all,
        }
    }

    /// Relocations with the object's numbers in the place of the code's symbols.
    pub fn renumbered(&self, relocs: &[AsmReloc]) -> Vec<AsmReloc> {
        let mut relocs = relocs.to_vec();
        for reloc in &mut relocs {
            if let RelocTarget::Sym(symbol) = reloc.target {
                reloc.target = Sym::from_id(self.numbers[&symbol]).into();
            }
        }
        relocs
    }
}

/// The object's number of each symbol that relocations name; all are numbered from `first` on.
fn numbers(
    code: &CodeBufferFinalized,
    named: impl Iterator<Item = Sym>,
    first: u32,
    all: &[Symbol<'_>],
) -> HashMap<Sym, u32> {
    let places: HashMap<&ExternalName, u32> = (first..)
        .zip(all)
        .filter_map(|(number, symbol)| Some((symbol.external.as_ref()?, number)))
        .collect();
    named
        .map(|symbol| (symbol, places[&code.names.external_name(symbol)]))
        .collect()
}

/// The symbols that relocations name, with their types: a linker tells thread-local ones apart.
fn named_symbols(relocs: &[AsmReloc]) -> BTreeMap<Sym, u8> {
    let mut named = BTreeMap::new();
    for reloc in relocs {
        if let RelocTarget::Sym(symbol) = reloc.target {
            let st_type = named.entry(symbol).or_insert(STT_NOTYPE);
            if reloc.kind == Reloc::ElfX86_64TlsGd {
                *st_type = STT_TLS;
            }
        }
    }
    named
}
