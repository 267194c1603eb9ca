//! The exports' declarations in three languages, held to each other: names, order and types of parameters, and the answers' lengths.
//!
//! No compiler checks a declaration for C, or one for Rust of a function that is elsewhere, against the function. `exports` reads those of the
//! Rattle source, `header` those of include/fdfa.h, `declared` those of Rust; `tokens` has the words of all three, `compare` what differs.

mod compare;
mod declared;
mod exports;
pub mod header;
#[cfg(test)]
mod planted;
mod tokens;

pub use compare::differences;

use std::collections::BTreeMap;
use std::fmt;

/// What is declared, of one language.
#[derive(Default)]
pub struct Declarations {
    pub functions: Vec<Function>,
    /// The bytes of answers by name, such as VERDICT_BYTES.
    pub constants: BTreeMap<String, u64>,
}

#[derive(Clone, Debug, PartialEq, Eq)]
pub struct Function {
    pub name: String,
    pub parameters: Vec<Parameter>,
    pub returned: String,
}

/// As Rust has it: a slice is its pointer and its length. The header's `opening` and `loop` are `prefix` and `period`.
#[derive(Clone, Debug, PartialEq, Eq)]
pub struct Parameter {
    pub name: String,
    pub type_: String,
}

/// The text of each file that declares.
#[derive(Default)]
pub struct Sources {
    /// Of the crates, one after the other; they have no constants.
    pub exports: String,
    pub header: String,
    pub declared: String,
    pub constants: String,
}

impl Sources {
    /// Those of the exports, of the header and of Rust; the error says what was not understood.
    pub fn read(&self) -> Result<[Declarations; 3], String> {
        let exports = Declarations { functions: exports::functions(&self.exports)?, ..Declarations::default() };
        let header =
            Declarations { functions: header::functions(&self.header)?, constants: header::constants(&self.header)? };
        let declared = Declarations {
            functions: declared::functions(&self.declared)?,
            constants: declared::constants(&self.constants)?,
        };
        Ok([exports, header, declared])
    }
}

impl Parameter {
    fn new(name: &str, type_: &str) -> Self {
        let (stem, end) = name.strip_suffix("_len").map_or((name, ""), |stem| (stem, "_len"));
        let stem = match stem {
            "opening" => "prefix",
            "loop" => "period",
            stem => stem,
        };
        Parameter { name: format!("{stem}{end}"), type_: type_.to_string() }
    }
}

impl fmt::Display for Function {
    fn fmt(&self, out: &mut fmt::Formatter) -> fmt::Result {
        let parameters: Vec<String> =
            self.parameters.iter().map(|Parameter { name, type_ }| format!("{name}: {type_}")).collect();
        write!(out, "{}({}) -> {}", self.name, parameters.join(", "), self.returned)
    }
}
