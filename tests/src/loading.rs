//! What the program `cart SHEET CART SHOW..` prints, says and makes, after F-7.

use crate::cart::{self, Answer, HEADER};
use crate::forms::{packed, place_in};
use crate::naive::Lasso;
use crate::packing::Done;
use crate::printed::{not_too_long, refused, show};
use crate::said::{self, scene_place, text_place};
use crate::sheet::{Part, Refusal};

/// A file's name, and its bytes if it can be read.
pub type File<'a> = (&'a str, Option<&'a [u8]>);

/// Of these files, where CART is a file of its own; a missing one counts as empty.
pub fn cart(sheet: File, shows: &[File]) -> Done {
    let missing = [sheet].into_iter().chain(shows.iter().copied()).filter(|(_, bytes)| bytes.is_none());
    let unread: String = missing.map(|(name, _)| format!("{name}: No such file or directory\n")).collect();
    let done = match made(sheet, shows) {
        Ok(cart) => Done { stdout: String::new(), stderr: String::new(), made: vec![cart] },
        Err(not_made) => not_made.done(),
    };
    Done { stderr: unread + &done.stderr, ..done }
}

/// Why no cart is made.
enum NotMade {
    /// A refusal, and what is said of it.
    Refused(Refusal, String),
    /// The index of a show, and what is said of it.
    Rejected(usize, String),
}

impl NotMade {
    fn done(self) -> Done {
        let (stdout, stderr) = match self {
            NotMade::Refused(refusal, said) => (refused(refusal), said),
            NotMade::Rejected(index, said) => (format!("rejected\n{index}\n"), said),
        };
        Done { stdout, stderr, made: Vec::new() }
    }
}

fn made(sheet: File, shows: &[File]) -> Result<Vec<u8>, NotMade> {
    let of_sheet = |refusal: Refusal| {
        let place = place_in(sheet.0, bytes(sheet), refusal.place);
        NotMade::Refused(refusal, said::refused(refusal.number, &place))
    };
    not_too_long(Part::First, bytes(sheet)).map_err(of_sheet)?;
    for &file in shows {
        not_too_long(Part::Second, bytes(file)).map_err(|refusal| of_text(file, refusal))?;
    }
    let packed_sheet = packed(Part::First, bytes(sheet)).map_err(of_sheet)?;
    let lassos = shows.iter().map(|&file| show(bytes(file)).map_err(|refusal| of_text(file, refusal)));
    let lassos = lassos.collect::<Result<Vec<Lasso>, _>>()?;
    let cart = cart::pack(&lassos);
    match cart::load(&packed_sheet, &cart, &mut vec![0; cart.len()]) {
        Ok(Answer::Loaded(_)) => Ok(cart),
        Ok(Answer::Rejected(index)) => {
            Err(NotMade::Rejected(index, format!("{}: rejected by {}\n", shows[index].0, sheet.0)))
        }
        Err(refusal) => Err(of_scene(shows, &lassos, refusal)),
    }
}

fn bytes(file: File<'_>) -> &[u8] {
    file.1.unwrap_or_default()
}

/// A refusal of a show's text, or of a part that is too long.
fn of_text(file: File, refusal: Refusal) -> NotMade {
    let said = match refusal {
        Refusal { number: 21, part, .. } => {
            format!("{}: refusal 21: the {} has more than 4,096 scenes\n", file.0, part.name())
        }
        Refusal { number, place, .. } => said::refused(number, &text_place(file.0, bytes(file), place)),
    };
    NotMade::Refused(refusal, said)
}

/// Refusal 9 at a place of the cart, which is said by the scene's line in its show's text.
fn of_scene(shows: &[File], lassos: &[Lasso], refusal: Refusal) -> NotMade {
    let mut begin = 1;
    for (&file, (prefix, period)) in shows.iter().zip(lassos) {
        let opening = begin + HEADER;
        let turn = opening + prefix.len();
        let end = turn + period.len();
        if refusal.place < end {
            let scene = refusal.place - if refusal.part == Part::Opening { opening } else { turn };
            let place = scene_place(file.0, bytes(file), refusal.part.name(), scene);
            return NotMade::Refused(refusal, said::refused(refusal.number, &place));
        }
        begin = end;
    }
    unreachable!("a refused scene is one of the cart");
}

#[cfg(test)]
mod tests {
    use super::*;
    use crate::printed::{LONGEST_FILE, SCENES};
    use crate::rows::B;
    use crate::show_text::text_of;

    const GOOD: &str = "part scene\nloop 0\n";
    const BAD: &str = "part scene\nopening 0\nloop 1\n";

    fn done(sheet: &[u8], shows: &[&str]) -> Done {
        let names = ["one", "two", "three"];
        let shows: Vec<File> = names.into_iter().zip(shows).map(|(name, text)| (name, Some(text.as_bytes()))).collect();
        cart(("sheet", Some(sheet)), &shows)
    }

    #[test]
    fn a_cart_is_made_where_every_show_is_accepted() {
        let loaded = done(B, &[GOOD, "part scene\nopening 1\nloop 1\nloop 0\n"]);
        assert_eq!((loaded.stdout.as_str(), loaded.stderr.as_str()), ("", ""));
        assert_eq!(loaded.made, [vec![2, 0, 0, 1, 0, 0, 1, 0, 2, 0, 1, 1, 0]]);
        let rejected = done(B, &[GOOD, BAD, BAD]);
        let told = (rejected.stdout.as_str(), rejected.stderr.as_str(), rejected.made.len());
        assert_eq!(told, ("rejected\n1\n", "two: rejected by sheet\n", 0));
    }

    /// Files with two faults each, by hand: the one that is judged earlier is told.
    #[test]
    fn faults_are_judged_in_the_order_of_the_papers() {
        let long = "x".repeat(LONGEST_FILE + 1);
        let many = text_of(&[31; SCENES + 1], &[0]);
        let many_turns = text_of(&[], &[31; SCENES + 1]);
        let refused = |sheet: &[u8], shows: &[&str], refusal: &str, said: &str| {
            let done = done(sheet, shows);
            assert_eq!(done.stdout, format!("refused part place\n{refusal}\n"));
            assert!(done.made.is_empty() && done.stderr.starts_with(said), "{}", done.stderr);
        };
        refused(long.as_bytes(), &[&long], "25 first 65536", "sheet: byte 65536: refusal 25: ");
        refused(&[], &["", &long, &long], "25 second 65536", "two:1:65537: refusal 25: ");
        refused(&[2], &[""], "1 first 1", "sheet: byte 1: refusal 1: ");
        refused(b"level scenes places\n5", &[""], "10 first 20", "sheet:2:1: refusal 10: ");
        refused(b"[0]\n[", &[""], "11 first 4", "sheet:2:1: refusal 11: ");
        refused(B, &[GOOD, "", &many], "11 second 0", "two:1:1: refusal 11: ");
        refused(B, &[&many, "", "x"], "21 opening 4097", "one: refusal 21: the opening has more than 4,096 scenes\n");
        refused(B, &[&many_turns, ""], "21 loop 4097", "one: refusal 21: the loop has more than 4,096 scenes\n");
        refused(B, &["part scene\nopening 31\nloop 0\n", "part scene\n"], "8 second 11", "two:2:1: refusal 8: ");
        refused(
            B,
            &["part scene\nopening 31\nloop 0\n", "part scene\nloop 32\n"],
            "9 second 16",
            "two:2:6: refusal 9: ",
        );
        // The scenes of the second show begin at 1 + 5 + 4.
        let unknown = "part scene\nopening 1\nopening 31\nloop 2\n";
        refused(B, &[BAD, unknown, "part scene\nloop 2\n"], "9 opening 12", "two:3:9: refusal 9: ");
        refused(B, &[GOOD, "part scene\nopening 1\nloop 2\n"], "9 loop 11", "two:3:6: refusal 9: ");
    }
}
