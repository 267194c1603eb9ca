//! Runs of programs on files at random, in a folder of their own: all that they print and every file there afterwards is compared with what
//! is due. Each run ends with status 0.

use crate::random::Random;
use crate::said::said;
use std::collections::BTreeMap;
use std::path::PathBuf;
use std::process::{Command, ExitCode};
use std::{env, fs};

const RUNS: usize = 2000;
const SEED: u64 = 1;

/// Files by name.
pub type Files = BTreeMap<&'static str, Vec<u8>>;

/// One run of a program.
pub struct Run {
    /// Which of the programs, and the words after its name.
    pub program: usize,
    pub words: Vec<&'static str>,
    pub files: Files,
    pub due: Left,
    /// The kind of outcome that it counts as.
    pub kind: String,
}

/// What a run leaves: what it printed, and the files that are there.
#[derive(Debug, PartialEq)]
pub struct Left {
    pub stdout: String,
    pub stderr: String,
    pub files: Files,
}

impl Run {
    /// Of a program that takes no words and leaves its files alone; one that is none is missing.
    pub fn reading(program: &str, files: [(&'static str, Option<Vec<u8>>); 2], stdout: String, kind: String) -> Self {
        let stderr = said(program, &[0, 1].map(|at| (files[at].0, files[at].1.as_deref())), &stdout);
        let files: Files = files.into_iter().filter_map(|(name, bytes)| Some((name, bytes?))).collect();
        let due = Left { stdout, stderr, files: files.clone() };
        Run { program: 0, words: Vec::new(), files, due, kind }
    }
}

/// The whole of a program that is called with the paths of so many other ones and, if other than 2,000, the number of runs. Each of the
/// kinds must come up, and no other.
pub fn main(programs: usize, kinds: &[&str], run: impl FnMut(&mut Random) -> Result<Run, String>) -> ExitCode {
    let words: Vec<String> = env::args().skip(1).collect();
    let (paths, rest) = words.split_at(programs.min(words.len()));
    let runs = match rest {
        [] if paths.len() == programs => Ok(RUNS),
        [runs] => runs.parse().map_err(|_| format!("{runs} is no number")),
        _ => Err("give each program's path and, if other than 2,000, the number of runs".to_string()),
    };
    match runs.and_then(|runs| all_runs(paths, runs, kinds, run)) {
        Ok(()) => ExitCode::SUCCESS,
        Err(fault) => {
            println!("FAILED: {fault}");
            ExitCode::FAILURE
        }
    }
}

fn all_runs(
    paths: &[String],
    runs: usize,
    kinds: &[&str],
    mut run: impl FnMut(&mut Random) -> Result<Run, String>,
) -> Result<(), String> {
    let programs = Programs::new(paths)?;
    let mut random = Random::new(SEED);
    let mut met: BTreeMap<String, usize> = BTreeMap::new();
    for at in 0..runs {
        let run = run(&mut random).map_err(|fault| format!("run {at}: {fault}"))?;
        let left = programs.run(&run).map_err(|fault| format!("run {at}: {fault}"))?;
        if left != run.due {
            let name = programs.paths[run.program].display();
            return Err(format!(
                "run {at}: {name} {:?} with {:?}: left\n{left:?}\ndue\n{:?}",
                run.words, run.files, run.due
            ));
        }
        *met.entry(run.kind).or_default() += 1;
    }
    println!("{runs} runs of seed {SEED} agree: {met:?}");
    if let Some(kind) = met.keys().find(|kind| !kinds.contains(&kind.as_str())) {
        return Err(format!("unlisted: {kind}"));
    }
    match kinds.iter().find(|kind| !met.contains_key(**kind)) {
        Some(kind) => Err(format!("never met: {kind}")),
        None => Ok(()),
    }
}

/// The programs and the folder that they are run in, which is removed at the end.
struct Programs {
    paths: Vec<PathBuf>,
    folder: PathBuf,
}

impl Programs {
    fn new(paths: &[String]) -> Result<Self, String> {
        let found = |path: &String| fs::canonicalize(path).map_err(|fault| format!("{path}: {fault}"));
        let paths: Vec<PathBuf> = paths.iter().map(found).collect::<Result<_, _>>()?;
        let name = paths[0].file_name().unwrap_or_default().to_string_lossy();
        let folder = env::temp_dir().join(format!("{name}_runs.{}", std::process::id()));
        Ok(Programs { paths, folder })
    }

    /// What a program leaves where the run's files stand and no others.
    fn run(&self, run: &Run) -> Result<Left, String> {
        let told = |fault: std::io::Error| fault.to_string();
        if self.folder.exists() {
            fs::remove_dir_all(&self.folder).map_err(told)?;
        }
        fs::create_dir(&self.folder).map_err(|fault| format!("{}: {fault}", self.folder.display()))?;
        for (name, bytes) in &run.files {
            fs::write(self.folder.join(name), bytes).map_err(told)?;
        }
        let mut command = Command::new(&self.paths[run.program]);
        let output = command.args(&run.words).current_dir(&self.folder).output().map_err(told)?;
        if !output.status.success() {
            return Err(format!(
                "{} {:?} with {:?}: {}",
                self.paths[run.program].display(),
                run.words,
                run.files,
                output.status
            ));
        }
        let printed = |bytes: Vec<u8>| String::from_utf8(bytes).map_err(|fault| fault.to_string());
        let mut files = Files::new();
        for entry in fs::read_dir(&self.folder).map_err(told)? {
            let name = entry.map_err(told)?.file_name().to_string_lossy().into_owned();
            // Names are known, as those of the run, or as those of what it should leave.
            let known = run.files.keys().chain(run.due.files.keys()).find(|known| **known == name);
            let known = known.ok_or_else(|| format!("a file {name} is there afterwards"))?;
            files.insert(known, fs::read(self.folder.join(&name)).map_err(told)?);
        }
        Ok(Left { stdout: printed(output.stdout)?, stderr: printed(output.stderr)?, files })
    }
}

impl Drop for Programs {
    fn drop(&mut self) {
        // What is left of it says nothing of the programs.
        let _ = fs::remove_dir_all(&self.folder);
    }
}
