//! Damages to an answer line, field by field: the comparison must find each.

/// Each kind of field that can be damaged; and waits and ends together: the two sheets' exchanged, or left over from another answer.
pub const KINDS: [&str; 10] =
    ["number", "waits", "ends", "place", "cell", "run", "word", "space", "exchanged", "left-over"];

/// All damages to a line, with their kinds.
pub fn damages(line: &[u8]) -> Vec<(&'static str, Vec<u8>)> {
    let text = String::from_utf8_lossy(line).into_owned();
    let words: Vec<&str> = text.split(' ').collect();
    let mut damages = Vec::new();
    for (at, word) in words.iter().enumerate() {
        for (kind, other) in other_words(&words, at) {
            let mut damaged = words.clone();
            damaged[at] = &other;
            damages.push((kind, damaged.join(" ").into_bytes()));
        }
        if at > 0 {
            let fewer = [&words[..at], &words[at + 1..]].concat().join(" ");
            damages.push(("word", fewer.into_bytes()));
            damages.push(("space", text.replacen(&format!(" {word}"), &format!("  {word}"), 1).into_bytes()));
        }
    }
    damages.push(("space", format!("{text} ").into_bytes()));
    damages.extend(other_standings(&words));
    damages
}

/// The four numbers after the lengths, changed together. They are 0 where there is no lasso, the second sheet's also where there is
/// no such sheet, and a refusal has none.
fn other_standings(words: &[&str]) -> Vec<(&'static str, Vec<u8>)> {
    let &[outcome, _, _, _, waits1, ends1, waits2, ends2, ..] = words else { return Vec::new() };
    let with = |standings: [&str; 4], rest: usize| [&words[..4], &standings, &words[rest..]].concat().join(" ");
    let mut damages = Vec::new();
    match outcome {
        "missing" | "found" if (waits1, ends1) != (waits2, ends2) => {
            damages.push(("exchanged", with([waits2, ends2, waits1, ends1], 8)));
        }
        "contained" | "empty" => damages.push(("left-over", with(["2", "1", "3", "4"], 8))),
        "refused" => damages.push(("left-over", with(["2", "1", "3", "4"], 4))),
        _ => {}
    }
    if outcome == "found" {
        damages.push(("left-over", with([waits1, ends1, "3", "4"], 8)));
    }
    damages.into_iter().map(|(kind, line)| (kind, line.into_bytes())).collect()
}

/// What may stand wrongly in the place of a word, by what the word is.
fn other_words(words: &[&str], at: usize) -> Vec<(&'static str, String)> {
    let word = words[at];
    let bar = words.iter().position(|&word| word == "|").unwrap_or(words.len());
    let in_slice = at > bar || (words[0] == "rest" && at == 1);
    if in_slice {
        return other_slices(word);
    }
    match word.parse::<u64>() {
        Ok(number) => {
            let kind = match (words[0], at) {
                ("refused", 3) => "place",
                ("missing" | "contained" | "found" | "empty", 4 | 6) => "waits",
                ("missing" | "contained" | "found" | "empty", 5 | 7) => "ends",
                _ => "number",
            };
            vec![(kind, (number ^ 1).to_string()), (kind, format!("{word}0")), (kind, format!("0{word}"))]
        }
        Err(_) => vec![("word", format!("{word}s")), ("word", "other".to_string())],
    }
}

/// Slices with one cell other, one more, one fewer, or a run broken up.
fn other_slices(word: &str) -> Vec<(&'static str, String)> {
    if word == "-" {
        return vec![("cell", "0".to_string())];
    }
    let items: Vec<&str> = word.split(',').collect();
    let mut others = vec![("cell", format!("{word},{}", items[0])), ("cell", "-".to_string())];
    let mut add = |kind, at: usize, item: String| {
        let mut changed = items.clone();
        changed[at] = &item;
        others.push((kind, changed.join(",")));
    };
    for at in [0, items.len() / 2, items.len() - 1] {
        let (count, value) = items[at].split_once('*').unwrap_or(("1", items[at]));
        let (count, other): (u64, u64) = (count.parse().unwrap_or(0), value.parse().unwrap_or(0) ^ 1);
        match count {
            1 => add("cell", at, other.to_string()),
            _ => {
                add("cell", at, format!("{value},{}*{other}", count - 1));
                add("cell", at, format!("{}*{value}", count + 1));
                add("run", at, format!("{value},{}*{value}", count - 1));
            }
        }
    }
    others
}
