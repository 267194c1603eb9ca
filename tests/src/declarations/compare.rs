//! What differs between the declarations in two languages.

use crate::declarations::{Declarations, Function};
use std::collections::BTreeSet;

/// The header's against the exports' and against Rust's; empty if all agree, and never if there is nothing to compare.
pub fn differences([exports, header, declared]: &[Declarations; 3]) -> Vec<String> {
    let mut faults = Vec::new();
    for (language, other) in [("the exports", exports), ("Rust", declared)] {
        if other.functions.is_empty() {
            faults.push(format!("{language}: no function is found"));
        }
        faults.extend(of_functions(&header.functions, language, &other.functions));
    }
    if header.functions.is_empty() {
        faults.push("the header: no function is found".to_string());
    }
    faults.extend(of_constants(header, declared));
    faults
}

fn of_functions(header: &[Function], language: &str, others: &[Function]) -> Vec<String> {
    let mut faults = Vec::new();
    let names: BTreeSet<&str> = header.iter().chain(others).map(|function| function.name.as_str()).collect();
    for name in names {
        let named = |functions: &[Function]| -> Vec<Function> {
            functions.iter().filter(|function| function.name == name).cloned().collect()
        };
        match (named(header).as_slice(), named(others).as_slice()) {
            ([due], [other]) if due == other => {}
            ([due], [other]) => faults.push(format!("the header has {due}\n  {language}: {other}")),
            (due, other) => {
                let (due, other) = (due.len(), other.len());
                faults.push(format!("{name}: declared {due} times in the header, {other} times in {language}"));
            }
        }
    }
    faults
}

/// Every function has its constant, which Rust has too, and there is no other.
fn of_constants(header: &Declarations, declared: &Declarations) -> Vec<String> {
    let constant = |name: &str| format!("{}_BYTES", name.trim_start_matches("fdfa_").to_uppercase());
    let of_functions = header.functions.iter().map(|function| constant(&function.name));
    let names: BTreeSet<String> = of_functions
        .clone()
        .chain(header.constants.keys().cloned())
        .chain(declared.constants.keys().cloned())
        .collect();
    let functions: BTreeSet<String> = of_functions.collect();
    let mut faults = Vec::new();
    for name in names {
        let (due, other) = (header.constants.get(&name), declared.constants.get(&name));
        if due.is_none() || due != other {
            faults.push(format!("{name}: {due:?} in the header, {other:?} in Rust"));
        } else if !functions.contains(&name) {
            faults.push(format!("{name}: no function has that answer"));
        }
    }
    faults
}
