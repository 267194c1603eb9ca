//! The exports of the Rattle source: functions `pub extern "C"` with the attribute that keeps their names.

use crate::declarations::tokens::{parameters, shown, tokens};
use crate::declarations::{Function, Parameter};

pub fn functions(text: &str) -> Result<Vec<Function>, String> {
    let tokens = tokens(text);
    let mut functions = Vec::new();
    let mut marked = 0;
    for at in 0..tokens.len() {
        marked += (tokens[at] == "no_mangle") as usize;
        let ["extern", "\"C\"", "fn", name, ..] = tokens[at..] else { continue };
        if !tokens[..at].ends_with(&["#", "[", "unsafe", "(", "no_mangle", ")", "]", "pub"]) {
            return Err(format!("{name} is not `#[unsafe(no_mangle)] pub`: no other program can call it"));
        }
        let (list, after) = parameters(after_lifetimes(&tokens[at + 4..]))?;
        let flat = list.into_iter().map(flat).collect::<Result<Vec<_>, _>>()?.concat();
        let ["-", ">", returned, ..] = *after else {
            return Err(format!("what {name} returns: {}", shown(after)));
        };
        functions.push(Function { name: name.to_string(), parameters: flat, returned: returned.to_string() });
    }
    if marked != functions.len() {
        return Err(format!("{marked} functions keep their names, but {} are extern \"C\"", functions.len()));
    }
    Ok(functions)
}

/// What follows the names of lifetimes that a function declares.
fn after_lifetimes<'t, 'a>(tokens: &'t [&'a str]) -> &'t [&'a str] {
    match tokens.first() {
        Some(&"<") => &tokens[tokens.iter().position(|&token| token == "(").unwrap_or(0)..],
        _ => tokens,
    }
}

/// A number is one parameter; a slice is its pointer and its length.
fn flat(tokens: &[&str]) -> Result<Vec<Parameter>, String> {
    let (name, pointer) = match *tokens {
        [name, ":", "usize"] => return Ok(vec![Parameter::new(name, "usize")]),
        [name, ":", "&", "[", cell, "]"] | [name, ":", "&", "'", _, "[", cell, "]"] => (name, format!("*const {cell}")),
        [name, ":", "&", "mut", "[", cell, "]"] => (name, format!("*mut {cell}")),
        _ => return Err(format!("the export's parameter `{}`", shown(tokens))),
    };
    Ok(vec![Parameter::new(name, &pointer), Parameter::new(&format!("{name}_len"), "usize")])
}
