//! Reads a link description into structs as serde's derive does it, and tells how many symbols, sections and relocations it has. It
//! stands for what a Rust program takes for that; it checks no more than shapes, and lets all go at its end.

use serde::de::{Deserialize, Deserializer, Error, SeqAccess, Visitor};
use serde_derive::Deserialize;
use serde_json::Value;
use std::fmt;
use std::io::Read;

#[derive(Deserialize)]
#[allow(dead_code)]
struct Description {
    #[serde(default)]
    options: Value,
    plan: Value,
    #[serde(default)]
    groups: Vec<Vec<File>>,
}

#[derive(Deserialize)]
#[serde(default)]
#[derive(Default)]
#[allow(dead_code)]
struct File {
    kind: String,
    name: String,
    symbols: Vec<Symbol>,
    sections: Vec<Section>,
    archive: bool,
    export: bool,
    check: bool,
    candidates: Vec<(u32, u32, u32, u32)>,
}

#[derive(Deserialize)]
#[allow(dead_code)]
struct Symbol {
    #[serde(default)]
    name: String,
    at: Placement,
    #[serde(default)]
    def: Option<u32>,
    #[serde(default)]
    flags: u32,
    #[serde(default)]
    local: bool,
    #[serde(default)]
    weak: bool,
    #[serde(default)]
    hidden: bool,
}

#[derive(Deserialize)]
#[allow(dead_code)]
struct Section {
    #[serde(default)]
    name: String,
    slot: Slot,
    #[serde(default)]
    part: u32,
    #[serde(default)]
    size: u64,
    #[serde(default, deserialize_with = "hex::serde::deserialize")]
    data: Vec<u8>,
    #[serde(default)]
    strings: bool,
    #[serde(default)]
    sorted: bool,
    #[serde(default)]
    attrs: u32,
    #[serde(default)]
    group: Option<u32>,
    #[serde(default)]
    relocs: Vec<(u64, Kind, u32, i64, bool)>,
    #[serde(default)]
    relax: Vec<(u64, u32, u64, u64)>,
}

#[derive(Deserialize)]
#[serde(rename_all = "lowercase")]
enum Slot {
    Discard,
    Unloaded,
    Must,
    Debug,
    MustDebug,
    Merge,
}

#[derive(Deserialize)]
enum Kind {
    Absolute,
    Relative,
    PltRelative,
    Got,
    GotRelative,
    GotTpOff,
    TpOff,
    DtpOff,
    TlsGd,
    TlsLd,
    TlsDesc,
    TlsDescCall,
    SymbolSize,
    None,
    #[serde(other)]
    Other,
}

/// A list that a word begins.
#[allow(dead_code)]
enum Placement {
    Section(u32, u64),
    Common(u32, u64),
    Absolute(u64),
    Alone,
    Other(Vec<Value>),
}

struct PlacementVisitor;

impl<'de> Visitor<'de> for PlacementVisitor {
    type Value = Placement;

    fn expecting(&self, f: &mut fmt::Formatter) -> fmt::Result {
        f.write_str("a placement")
    }

    fn visit_seq<A: SeqAccess<'de>>(self, mut items: A) -> Result<Placement, A::Error> {
        fn next<'de, T: Deserialize<'de>, A: SeqAccess<'de>>(items: &mut A) -> Result<T, A::Error> {
            items.next_element()?.ok_or_else(|| A::Error::custom("too short"))
        }
        let word: &str = next(&mut items)?;
        Ok(match word {
            "sec" => Placement::Section(next(&mut items)?, next(&mut items)?),
            "common" => Placement::Common(next(&mut items)?, next(&mut items)?),
            "abs" => Placement::Absolute(next(&mut items)?),
            "undef" | "dyn" => Placement::Alone,
            _ => {
                let mut others = Vec::new();
                while let Some(item) = items.next_element()? {
                    others.push(item);
                }
                Placement::Other(others)
            }
        })
    }
}

impl<'de> Deserialize<'de> for Placement {
    fn deserialize<D: Deserializer<'de>>(deserializer: D) -> Result<Placement, D::Error> {
        deserializer.deserialize_seq(PlacementVisitor)
    }
}

fn main() {
    let mut bytes = Vec::new();
    std::io::stdin().read_to_end(&mut bytes).expect("standard input can be read");
    let link: Description = serde_json::from_slice(&bytes).expect("a link description");
    let files = link.groups.iter().flatten();
    let (mut symbols, mut sections, mut relocations) = (0, 0, 0);
    for file in files {
        symbols += file.symbols.len();
        sections += file.sections.len();
        relocations += file.sections.iter().map(|section| section.relocs.len()).sum::<usize>();
    }
    println!("{symbols} symbols, {sections} sections, {relocations} relocations");
}
