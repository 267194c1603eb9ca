//! Words and signs of a source text, without its comments.

/// Names, numbers and strings whole, every other sign alone.
pub fn tokens(text: &str) -> Vec<&str> {
    let mut tokens = Vec::new();
    let mut rest = text;
    while let Some(first) = rest.chars().next() {
        let is_word = |sign: char| sign == '_' || sign.is_alphanumeric();
        let length = if rest.starts_with("//") {
            rest.find('\n').unwrap_or(rest.len())
        } else if rest.starts_with("/*") {
            rest.find("*/").map_or(rest.len(), |at| at + 2)
        } else if first == '"' {
            rest[1..].find('"').map_or(rest.len(), |at| at + 2)
        } else if is_word(first) {
            rest.find(|sign| !is_word(sign)).unwrap_or(rest.len())
        } else {
            first.len_utf8()
        };
        let (token, after) = rest.split_at(length);
        let comment = token.starts_with("//") || token.starts_with("/*");
        if !comment && !first.is_whitespace() {
            tokens.push(token);
        }
        rest = after;
    }
    tokens
}

/// A parameter list: what stands between the first parenthesis of the tokens and its partner, cut at the commas, and what follows.
pub fn parameters<'t, 'a>(tokens: &'t [&'a str]) -> Result<(Vec<&'t [&'a str]>, &'t [&'a str]), String> {
    let end = tokens.iter().position(|&token| token == ")");
    match (tokens.first(), end) {
        (Some(&"("), Some(end)) => {
            let list = tokens[1..end].split(|&token| token == ",").filter(|parameter| !parameter.is_empty());
            Ok((list.collect(), &tokens[end + 1..]))
        }
        _ => Err(format!("no list of parameters: {}", shown(tokens))),
    }
}

/// The first tokens, for a report.
pub fn shown(tokens: &[&str]) -> String {
    tokens[..tokens.len().min(12)].join(" ")
}
