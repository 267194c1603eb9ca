//! The declarations in Rust: one `extern "C"` block, and constants.

use crate::declarations::tokens::{parameters, shown, tokens};
use crate::declarations::{Function, Parameter};
use std::collections::BTreeMap;

pub fn functions(text: &str) -> Result<Vec<Function>, String> {
    let tokens = tokens(text);
    let mut rest = match tokens.windows(3).position(|three| three == ["extern", "\"C\"", "{"]) {
        Some(at) => &tokens[at + 3..],
        None => return Err("Rust's block of declarations is not found".to_string()),
    };
    let mut functions = Vec::new();
    while let ["pub", "fn", name, ..] = *rest {
        let (list, after) = parameters(&rest[3..])?;
        let parameters = list.into_iter().map(parameter).collect::<Result<_, _>>()?;
        let ["-", ">", returned, ";", ..] = *after else {
            return Err(format!("what {name} returns: {}", shown(after)));
        };
        functions.push(Function { name: name.to_string(), parameters, returned: returned.to_string() });
        rest = &after[4..];
    }
    match rest {
        ["}", ..] => Ok(functions),
        _ => Err(format!("Rust's declaration `{}`", shown(rest))),
    }
}

fn parameter(tokens: &[&str]) -> Result<Parameter, String> {
    match *tokens {
        [name, ":", "usize"] => Ok(Parameter::new(name, "usize")),
        [name, ":", "*", access @ ("const" | "mut"), cell] => Ok(Parameter::new(name, &format!("*{access} {cell}"))),
        _ => Err(format!("Rust's parameter `{}`", shown(tokens))),
    }
}

/// Every `pub const .._BYTES: usize`.
pub fn constants(text: &str) -> Result<BTreeMap<String, u64>, String> {
    let tokens = tokens(text);
    let mut constants = BTreeMap::new();
    for seven in tokens.windows(7) {
        if let ["const", name, ":", "usize", "=", value, ";"] = *seven {
            if name.ends_with("_BYTES") {
                let value = value.parse().map_err(|_| format!("Rust's constant {name} = {value}"))?;
                constants.insert(name.to_string(), value);
            }
        }
    }
    Ok(constants)
}
