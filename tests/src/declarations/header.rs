//! The declarations of the header.

use crate::declarations::tokens::{parameters, shown, tokens};
use crate::declarations::{Function, Parameter};
use std::collections::BTreeMap;

/// Every function whose name begins with `fdfa_` and that is declared, not defined there.
pub fn functions(text: &str) -> Result<Vec<Function>, String> {
    let tokens = tokens(text);
    let mut functions = Vec::new();
    for at in 1..tokens.len() {
        if !tokens[at].starts_with("fdfa_") || tokens.get(at + 1) != Some(&"(") {
            continue;
        }
        let (list, after) = parameters(&tokens[at + 1..])?;
        if after.first() != Some(&";") {
            continue;
        }
        let parameters = list.into_iter().filter(|list| *list != ["void"]).map(parameter).collect::<Result<_, _>>()?;
        let returned = cell(tokens[at - 1])?.to_string();
        functions.push(Function { name: tokens[at].to_string(), parameters, returned });
    }
    Ok(functions)
}

fn parameter(tokens: &[&str]) -> Result<Parameter, String> {
    match *tokens {
        ["size_t", name] => Ok(Parameter::new(name, "usize")),
        ["const", of, "*", name] => Ok(Parameter::new(name, &format!("*const {}", cell(of)?))),
        [of, "*", name] => Ok(Parameter::new(name, &format!("*mut {}", cell(of)?))),
        _ => Err(format!("the header's parameter `{}`", shown(tokens))),
    }
}

fn cell(of: &str) -> Result<&'static str, String> {
    match of {
        "uint8_t" => Ok("u8"),
        "uint16_t" => Ok("u16"),
        "uint32_t" => Ok("u32"),
        "uint64_t" => Ok("u64"),
        _ => Err(format!("the header's type `{of}`")),
    }
}

/// Every FDFA_.._BYTES, without its prefix.
pub fn constants(text: &str) -> Result<BTreeMap<String, u64>, String> {
    let mut constants = BTreeMap::new();
    for line in text.lines() {
        let words: Vec<&str> = line.split_whitespace().collect();
        let ["#define", name, value] = words[..] else { continue };
        let Some(name) = name.strip_prefix("FDFA_").filter(|name| name.ends_with("_BYTES")) else { continue };
        let value = value.parse().map_err(|_| format!("the header's constant `{line}`"))?;
        constants.insert(name.to_string(), value);
    }
    Ok(constants)
}
