//! Counts of the cases by kind and outcome, and which of them must not be 0.

use crate::case::Case;
use crate::check::Outcome;
use crate::export::{Export, Slice, EXPORTS};
use crate::guarded::Placement;
use crate::sheet::{Part, Sheet};
use std::collections::{BTreeMap, BTreeSet};
use std::fmt;

/// Beyond the refusals that the table of exports lists.
const DUE_OF_ALL: [&str; 2] = ["returned 0", "answer slice longer than needed"];

const DUE_OF_VERDICT: [&str; 9] = [
    "accepted",
    "rejected",
    "i above 0",
    "j above 1",
    "opening of 10,000 cells or more",
    "loop of 10,000 cells or more",
    "NULL pointer",
    "pointer to an inaccessible page",
    "one slice lent twice",
];

const DUE_OF_COMPARE: [&str; 16] = [
    "contained",
    "missing",
    "both sheets at fault",
    "contained, more than 32 pairs reached",
    "opening of 8 scenes or more",
    "opening of 30 scenes or more",
    "loop of 33 scenes or more",
    "loop of 1,000 scenes or more",
    "both slices exactly as long as the show",
    "first waits above 0",
    "first ends above 0",
    "second waits above 0",
    "second ends above 0",
    "waits and ends above 0, no two alike",
    "NULL pointer",
    "one slice lent twice",
];

const DUE_OF_CART: [&str; 7] = [
    "loaded",
    "rejected",
    "rejected, a later show",
    "loaded, out slice exactly as long",
    "cart of 10,000 cells or more",
    "NULL pointer",
    "one slice lent twice",
];

#[derive(Default)]
pub struct Tally {
    kinds: BTreeMap<(&'static str, &'static str), usize>,
    outcomes: BTreeMap<(&'static str, String), usize>,
}

impl Tally {
    pub fn add(&mut self, case: &Case, outcome: &Outcome) {
        let name = case.export.name;
        *self.kinds.entry((name, case.kind)).or_default() += 1;
        let mut labels = lending_labels(case);
        labels.extend(outcome_labels(case, outcome));
        for label in labels {
            *self.outcomes.entry((name, label)).or_default() += 1;
        }
    }

    pub fn of_call(&self, name: &str) -> usize {
        self.kinds.iter().filter(|((of, _), _)| *of == name).map(|(_, count)| count).sum()
    }

    /// The outcomes that every run must have and that this one has not, and the refusals that it has and that no table lists.
    pub fn faults(&self) -> Vec<String> {
        let due = EXPORTS.iter().flat_map(|export| due_labels(export).into_iter().map(|label| (export.name, label)));
        let due: BTreeSet<(&str, String)> = due.collect();
        let lacking = due.iter().filter(|key| !self.outcomes.contains_key(key)).map(|key| ("never met", key));
        let refusals = self.outcomes.keys().filter(|(_, label)| label.starts_with("refused "));
        let unlisted = refusals.filter(|key| !due.contains(key)).map(|key| ("not listed", key));
        lacking.chain(unlisted).map(|(fault, (name, label))| format!("{fault}: {name}: {label}")).collect()
    }
}

fn due_labels(export: &Export) -> Vec<String> {
    let refusals = export.refusals.concat().into_iter().map(|refusal| format!("refused {refusal}"));
    let more: &[&str] = match export.name {
        "verdict" => &DUE_OF_VERDICT,
        "compare" => &DUE_OF_COMPARE,
        "cart" => &DUE_OF_CART,
        _ => &["given"],
    };
    refusals.chain(DUE_OF_ALL.iter().chain(more).map(|label| label.to_string())).collect()
}

impl fmt::Display for Tally {
    fn fmt(&self, out: &mut fmt::Formatter) -> fmt::Result {
        for Export { name, .. } in &EXPORTS {
            writeln!(out, "{name}: {} cases", self.of_call(name))?;
            writeln!(out, "  by kind")?;
            for ((_, kind), count) in self.kinds.iter().filter(|((of, _), _)| of == name) {
                writeln!(out, "    {count:>8}  {kind}")?;
            }
            writeln!(out, "  by outcome, and what else was met")?;
            for ((_, label), count) in self.outcomes.iter().filter(|((of, _), _)| of == name) {
                writeln!(out, "    {count:>8}  {label}")?;
            }
        }
        Ok(())
    }
}

/// How the slices were lent.
fn lending_labels(case: &Case) -> Vec<String> {
    let mut labels = Vec::new();
    let has = |wanted| case.slices.iter().zip(&case.placements).any(|(slice, &at)| slice.is_empty() && at == wanted);
    if has(Placement::Null) {
        labels.push("NULL pointer".to_string());
    }
    if has(Placement::Dangling) {
        labels.push("pointer to an inaccessible page".to_string());
    }
    if case.shared {
        labels.push("one slice lent twice".to_string());
    }
    for (name, slice) in case.names().zip(&case.slices) {
        if slice.len() >= 10_000 {
            labels.push(format!("{name} of 10,000 cells or more"));
        }
    }
    if case.answer().len() > case.export.answer_bytes {
        labels.push("answer slice longer than needed".to_string());
    }
    labels
}

fn outcome_labels(case: &Case, outcome: &Outcome) -> Vec<String> {
    let mut labels = Vec::new();
    let mut add = |condition: bool, label: &str| {
        if condition {
            labels.push(label.to_string());
        }
    };
    match (outcome, case.export.name) {
        (Outcome::Given(numbers), "verdict") => {
            add(numbers[0] == 1, "accepted");
            add(numbers[0] == 0, "rejected");
            add(numbers[1] > 0, "i above 0");
            add(numbers[2] > 1, "j above 1");
        }
        (Outcome::Given(numbers), "compare") => match numbers[..] {
            [1, _, prefix, period, ref standings @ ..] => {
                add(true, "missing");
                add(prefix >= 8, "opening of 8 scenes or more");
                add(prefix >= 30, "opening of 30 scenes or more");
                add(period >= 33, "loop of 33 scenes or more");
                add(period >= 1000, "loop of 1,000 scenes or more");
                let exact = case.slices[2].len() == prefix && case.slices[3].len() == period;
                add(exact, "both slices exactly as long as the show");
                for (&standing, name) in
                    standings.iter().zip(["first waits", "first ends", "second waits", "second ends"])
                {
                    add(standing > 0, &format!("{name} above 0"));
                }
                let with_zero: BTreeSet<usize> = standings.iter().copied().chain([0]).collect();
                add(with_zero.len() == 5, "waits and ends above 0, no two alike");
            }
            _ => {
                add(true, "contained");
                add(numbers[1] > 32, "contained, more than 32 pairs reached");
            }
        },
        (Outcome::Given(numbers), "cart") => {
            let loaded = numbers[0] == 1;
            add(loaded, "loaded");
            add(loaded && case.slices[2].len() == numbers[1], "loaded, out slice exactly as long");
            add(!loaded, "rejected");
            add(!loaded && numbers[1] > 0, "rejected, a later show");
        }
        (Outcome::Given(_), _) => add(true, "given"),
        (Outcome::Refused(number, part), name) => {
            add(true, &format!("refused {number} {}", part.name()));
            let fault =
                |slice: &Slice| matches!(slice, Slice::Bytes(sheet) if Sheet::read(sheet, Part::First).is_err());
            add(name == "compare" && case.slices[..2].iter().all(fault), "both sheets at fault");
        }
        (Outcome::AnswerTooShort, _) => add(true, "returned 0"),
    }
    labels
}
