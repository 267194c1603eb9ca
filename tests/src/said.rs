//! What the programs say on standard error: of files that are not there, and of a refusal in words.

/// What `compare`, `verdict` and `durations` say of their files, by their names and bytes, beside what they print. A show is lines of text,
/// and so is a file whose name says it.
pub fn said(program: &str, files: &[(&str, Option<&[u8]>); 2], printed: &str) -> String {
    let missing = files.iter().filter(|(_, bytes)| bytes.is_none());
    let mut said: String = missing.map(|(name, _)| format!("{name}: No such file or directory\n")).collect();
    if let Some(line) = printed.strip_prefix("refused part place\n") {
        let words: Vec<&str> = line.trim_end().split(' ').collect();
        let [number, part, place] = words[..] else { panic!("a refusal has three words: {line}") };
        let (number, place) = (number.parse().expect("a number"), place.parse().expect("a place"));
        let (name, bytes) = match part {
            "first" => files[0],
            "second" => files[1],
            _ => (program, None),
        };
        let place = match part {
            "first" | "second" if number == 7 => name.to_string(),
            "first" | "second" if name.ends_with(".txt") => text_place(name, bytes.unwrap_or_default(), place),
            "first" | "second" => format!("{name}: byte {place}"),
            "opening" | "loop" if number == 9 => scene_place(files[1].0, files[1].1.unwrap_or_default(), part, place),
            _ => name.to_string(),
        };
        let in_show = part == "opening" || part == "loop";
        said += &match number {
            9 if in_show && program == "durations" && is_level_three(files[0].1) => refused_untimed(&place, files[0].0),
            21 if in_show => format!("{}: refusal 21: the {part} has more than 4,096 scenes\n", files[1].0),
            _ => refused(number, &place),
        };
    }
    said
}

/// A refusal at a place, which names the file.
pub fn refused(number: usize, place: &str) -> String {
    format!("{place}: refusal {number}: {}\n", sentence(number))
}

/// A scene of a show whose sheet's text, of level three, has no seconds at all.
fn refused_untimed(place: &str, sheet: &str) -> String {
    format!("{place}: refusal 9: this scene has no seconds, {sheet} is a text of level three\n")
}

fn is_level_three(text: Option<&[u8]>) -> bool {
    text.is_some_and(|text| text.starts_with(b"level scenes places\n3 "))
}

/// By line and column, both from 1.
pub fn text_place(name: &str, text: &[u8], place: usize) -> String {
    let before = &text[..place];
    let line = before.split(|&byte| byte == b'\n');
    let column = line.clone().next_back().map_or(0, <[u8]>::len);
    format!("{name}:{}:{}", line.count(), column + 1)
}

/// A scene of a part of a show, in the show's text.
pub fn scene_place(name: &str, text: &[u8], part: &str, scene: usize) -> String {
    let text = std::str::from_utf8(text).expect("a show's text");
    let start = format!("{part} ");
    let (line, _) =
        text.lines().enumerate().filter(|(_, line)| line.starts_with(&start)).nth(scene).expect("the scene");
    format!("{name}:{}:{}", line + 1, start.len() + 1)
}

fn sentence(number: usize) -> &'static str {
    match number {
        1 => "the packed sheet is too short or too long",
        2 => "the number of scenes is not from 1 to 32",
        3 => "the number of places is not from 1 to 32, or 16 in a drawn automaton",
        4 => "the number of loop places is not from 1 to 32",
        5 => "this place is not below the number of places of its automaton",
        6 => "this mark is neither 0 nor 1",
        7 => "the two sheets have different numbers of scenes",
        8 => "the show has no loop",
        9 => "this scene is not below the number of scenes",
        10 => "the level is neither 3 nor 4",
        11 => "the text departs from its layout here, or ends too early",
        12 => "another scene, place or loop place is due here",
        13 => "the automaton has no accepting place",
        14 => "the seconds are not from 1 to 999",
        21 => "there is too little room for the result",
        22 => "the comparison needs more work cells than there are",
        23 => "the show found is longer than the room for it",
        25 => "the file has more than 65,536 bytes",
        26 => "this part of the show has more than 65,536 scenes",
        _ => panic!("no program is refused by {number} here"),
    }
}
