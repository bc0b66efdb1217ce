//! Plays scripts on tcrun and on the model, and compares what they print.

use std::io::Write;
use std::path::PathBuf;
use std::process::{Command, ExitCode, Stdio};
use std::sync::Mutex;
use std::sync::atomic::{AtomicU64, Ordering};
use std::thread;
use std::time::{Duration, Instant};

use tcmodel::scripts::{Met, PROFILES, Profile, make, profile_of};
use tcmodel::{Letters, play};

const USAGE: &str = "usage: compare [--tcrun PATH] [--seeds N] [--seed S] [--letters LETTERS]
               [--profile NAME] [--jobs N] [--counts] [--print]
  --tcrun PATH       the program to compare (crates/tcrun/out/tcrun)
  --seeds N          how many scripts (1200)
  --seed S           the first seed (1)
  --letters LETTERS  the letters that make calls; others are no calls (NLSAXVDTEKF)
  --profile NAME     scripts of this profile alone
  --jobs N           how many at a time (as many as there are processors)
  --counts           also print how often each answer was met
  --print            print the script of the first seed and compare nothing";

/// How long a script is shortened.
const SHORTENING: Duration = Duration::from_secs(20);

struct Options {
    tcrun: PathBuf,
    seeds: u64,
    seed: u64,
    letters: Letters,
    profile: Option<Profile>,
    jobs: usize,
    counts: bool,
    print: bool,
}

fn profile_named(name: &str) -> Option<Profile> {
    PROFILES.into_iter().find(|p| format!("{p:?}").eq_ignore_ascii_case(name))
}

fn options() -> Result<Options, String> {
    let mut o = Options {
        tcrun: PathBuf::from("crates/tcrun/out/tcrun"),
        seeds: 1200,
        seed: 1,
        letters: Letters::ALL,
        profile: None,
        jobs: thread::available_parallelism().map_or(1, |n| n.get()),
        counts: false,
        print: false,
    };
    let mut words = std::env::args().skip(1);
    while let Some(word) = words.next() {
        if word == "--counts" {
            o.counts = true;
            continue;
        }
        if word == "--print" {
            o.print = true;
            continue;
        }
        let value = words.next().ok_or(format!("{word}: no value, or no such option"))?;
        let number = || value.parse::<u64>().map_err(|e| format!("{word} {value}: {e}"));
        match word.as_str() {
            "--tcrun" => o.tcrun = PathBuf::from(&value),
            "--seeds" => o.seeds = number()?,
            "--seed" => o.seed = number()?,
            "--jobs" => o.jobs = number()?.max(1) as usize,
            "--letters" => {
                if let Some(c) = value.bytes().find(|&b| !Letters::ALL.has(b)) {
                    return Err(format!("--letters {value}: {} makes no call", c as char));
                }
                o.letters = Letters::of(value.as_bytes());
            }
            "--profile" => {
                o.profile = Some(profile_named(&value).ok_or(format!("no profile {value}"))?);
            }
            _ => return Err(format!("no option {word}")),
        }
    }
    Ok(o)
}

/// What a program made of a script.
#[derive(PartialEq, Eq)]
struct Played {
    output: Vec<u8>,
    /// How it ended, unless that was well.
    ended: Option<String>,
}

impl Options {
    fn on_tcrun(&self, script: &[u8]) -> Result<Played, String> {
        let name = self.tcrun.display();
        let mut child = Command::new(&self.tcrun)
            .stdin(Stdio::piped())
            .stdout(Stdio::piped())
            .stderr(Stdio::piped())
            .spawn()
            .map_err(|e| format!("{name}: {e}"))?;
        let mut stdin = child.stdin.take().expect("stdin is piped");
        let out = thread::scope(|s| {
            // It need not read all, so a broken pipe is no error.
            s.spawn(move || _ = stdin.write_all(script));
            child.wait_with_output()
        })
        .map_err(|e| format!("{name}: {e}"))?;
        let ended = match (out.status.success(), out.stderr.as_slice()) {
            (true, b"") => None,
            (_, err) => Some(format!("{}; {}", out.status, String::from_utf8_lossy(err))),
        };
        Ok(Played { output: out.stdout, ended })
    }

    fn on_model(&self, script: &[u8]) -> Played {
        let mut output = Vec::new();
        play(script, self.letters, &mut output);
        Played { output, ended: None }
    }

    fn differs(&self, lines: &[Vec<u8>]) -> Result<bool, String> {
        let script = lines.concat();
        Ok(self.on_tcrun(&script)? != self.on_model(&script))
    }

    /// Drops lines while the rest still differs, until no single line can go (and no two, in a short
    /// script), or until the time is over.
    fn shorten(&self, mut lines: Vec<Vec<u8>>) -> Result<Vec<Vec<u8>>, String> {
        let end = Instant::now() + SHORTENING;
        // Nothing after the first difference can be its cause, as a rule.
        let script = lines.concat();
        let (a, b) = (self.on_tcrun(&script)?, self.on_model(&script));
        let n = first_difference(&a.output, &b.output) + 1;
        if n < lines.len() && self.differs(&lines[..n])? {
            lines.truncate(n);
        }
        let mut part = lines.len().div_ceil(2);
        while part > 0 {
            let mut dropped = false;
            let mut at = 0;
            while at < lines.len() {
                if Instant::now() > end {
                    println!("shortening took too long; the script may have lines to spare");
                    return Ok(lines);
                }
                let to = (at + part).min(lines.len());
                let mut fewer = lines[..at].to_vec();
                fewer.extend_from_slice(&lines[to..]);
                if self.differs(&fewer)? {
                    lines = fewer;
                    dropped = true;
                } else {
                    at = to;
                }
            }
            // Single lines again as long as one goes.
            part = if part > 1 { part / 2 } else { usize::from(dropped) };
        }
        while lines.len() <= 40 && Instant::now() < end {
            let Some(fewer) = self.without_two(&lines)? else {
                break;
            };
            lines = fewer;
        }
        Ok(lines)
    }

    /// The lines without two of them, if they still differ.
    fn without_two(&self, lines: &[Vec<u8>]) -> Result<Option<Vec<Vec<u8>>>, String> {
        for i in 0..lines.len() {
            for j in i + 1..lines.len() {
                let mut fewer = lines.to_vec();
                fewer.remove(j);
                fewer.remove(i);
                if self.differs(&fewer)? {
                    return Ok(Some(fewer));
                }
            }
        }
        Ok(None)
    }
}

fn lines_of(output: &[u8]) -> Vec<&[u8]> {
    output.split_inclusive(|&b| b == b'\n').collect()
}

/// The index of the first line that differs.
fn first_difference(a: &[u8], b: &[u8]) -> usize {
    let (a, b) = (lines_of(a), lines_of(b));
    let common = a.iter().zip(&b).take_while(|(x, y)| x == y).count();
    common.min(a.len().max(b.len()))
}

/// A line for people: bytes that are not plain are escaped, and long lines cut.
fn shown(line: Option<&&[u8]>) -> String {
    let Some(line) = line else {
        return "(nothing)".into();
    };
    let ended = line.ends_with(b"\n");
    let text = &line[..line.len() - usize::from(ended)];
    let mut s = text[..text.len().min(100)].escape_ascii().to_string();
    if text.len() > 100 {
        s += &format!("... ({} bytes)", text.len());
    }
    if !ended {
        s += " (no byte 10)";
    }
    s
}

fn report(o: &Options, seed: u64, profile: Profile, lines: Vec<Vec<u8>>) -> Result<(), String> {
    let script = lines.concat();
    let (a, b) = (o.on_tcrun(&script)?, o.on_model(&script));
    let n = first_difference(&a.output, &b.output);
    println!("compare: seed {seed}, profile {profile:?}, {} lines", lines.len());
    println!("first difference, line {}:", n + 1);
    println!("  script {}", shown(lines_of(&script).get(n)));
    println!("  tcrun  {}", shown(lines_of(&a.output).get(n)));
    println!("  model  {}", shown(lines_of(&b.output).get(n)));
    if let Some(e) = &a.ended {
        println!("  tcrun ended with {e}");
    }
    let few = o.shorten(lines)?;
    let script = few.concat();
    let (a, b) = (o.on_tcrun(&script)?, o.on_model(&script));
    println!("shortened to {} lines (script | tcrun | model):", few.len());
    let (a, b) = (lines_of(&a.output), lines_of(&b.output));
    for i in 0..few.len().max(a.len()).max(b.len()) {
        let mark = if a.get(i) == b.get(i) { ' ' } else { '*' };
        let line = few.get(i).map(|l| l.as_slice());
        println!("{mark} {} | {} | {}", shown(line.as_ref()), shown(a.get(i)), shown(b.get(i)));
    }
    println!("compare: DIFFERENT");
    Ok(())
}

fn run(o: &Options) -> Result<bool, String> {
    let next = AtomicU64::new(o.seed);
    let end = o.seed + o.seeds;
    let found: Mutex<Option<Result<u64, String>>> = Mutex::new(None);
    let met = Mutex::new(Met::default());
    let work = || {
        let mut mine = Met::default();
        loop {
            let seed = next.fetch_add(1, Ordering::Relaxed);
            if seed >= end {
                break;
            }
            let script = make(o.profile.unwrap_or(profile_of(seed)), seed, o.letters).concat();
            let b = o.on_model(&script);
            let result = match o.on_tcrun(&script) {
                Ok(a) if a == b => {
                    if o.counts {
                        mine.add(&b.output);
                    }
                    continue;
                }
                Ok(_) => Ok(seed),
                Err(e) => Err(e),
            };
            // Seeds are handed out in order, so the smallest that differs is found in any case.
            next.store(end, Ordering::Relaxed);
            let mut f = found.lock().unwrap();
            match (&*f, &result) {
                (Some(Ok(old)), Ok(new)) if old < new => {}
                _ => *f = Some(result),
            }
            break;
        }
        met.lock().unwrap().join(&mine);
    };
    thread::scope(|s| {
        for _ in 0..o.jobs {
            s.spawn(work);
        }
    });
    if let Some(result) = found.into_inner().unwrap() {
        let seed = result?;
        let profile = o.profile.unwrap_or(profile_of(seed));
        report(o, seed, profile, make(profile, seed, o.letters))?;
        return Ok(false);
    }
    if o.counts {
        for (answer, n) in met.into_inner().unwrap().iter() {
            println!("{n:>10}  {answer}");
        }
    }
    println!("compare: {} scripts, no difference", o.seeds);
    Ok(true)
}

fn main() -> ExitCode {
    let o = match options() {
        Ok(o) => o,
        Err(e) => {
            eprintln!("compare: {e}\n{USAGE}");
            return ExitCode::from(2);
        }
    };
    if o.print {
        let script = make(o.profile.unwrap_or(profile_of(o.seed)), o.seed, o.letters).concat();
        return match std::io::stdout().write_all(&script) {
            Ok(()) => ExitCode::SUCCESS,
            Err(_) => ExitCode::FAILURE,
        };
    }
    match run(&o) {
        Ok(true) => ExitCode::SUCCESS,
        Ok(false) => ExitCode::FAILURE,
        Err(e) => {
            eprintln!("compare: {e}");
            ExitCode::from(2)
        }
    }
}
