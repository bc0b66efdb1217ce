//! Measures tcrun against the model's program, and the proved library against the model's.
//!
//! `bench play SIDE CALL LINES CORES ROUNDS` plays the calls of one row on one side, so that its
//! instructions can be counted.

use std::fs::{File, read_to_string};
use std::hint::black_box;
use std::path::{Path, PathBuf};
use std::process::{Child, Command, ExitCode, Stdio};
use std::time::{Duration, Instant};

use tcmodel::scripts::{Profile, full, make};
use tcmodel::{Delivered, Fixed, Issued, Letters, Machine, Net, Protocol, Words};

/// One call in four words: kind, core, address and value.
type Row = [u32; 4];

const LOAD: u32 = 0;
const STORE: u32 = 1;
const SERVE: u32 = 2;
const DELIVER: u32 = 3;
const TICK: u32 = 4;

/// Calls that are made again and again on one machine, after others that are made once.
struct Work {
    cores: u32,
    strong: bool,
    lifetime: u32,
    before: Vec<Row>,
    calls: Vec<Row>,
}

#[link(name = "bench_ffi", kind = "static")]
#[link(name = "libc_c", kind = "static")]
unsafe extern "C" {
    fn bench_ffi_run(
        cores: u32,
        strong: bool,
        lifetime: u32,
        before: *const u32,
        before_len: usize,
        calls: *const u32,
        calls_len: usize,
        rounds: u32,
    ) -> u32;
}

/// The work on the proved library: a number for all that the calls came to.
fn on_proved(work: &Work, rounds: u32) -> u32 {
    let before = work.before.as_flattened();
    let calls = work.calls.as_flattened();
    // The function asks nothing beyond its types: both slices are valid for their lengths.
    unsafe {
        bench_ffi_run(
            work.cores,
            work.strong,
            work.lifetime,
            before.as_ptr(),
            before.len(),
            calls.as_ptr(),
            calls.len(),
            rounds,
        )
    }
}

/// A call as a value, as the library has it.
#[derive(Clone, Copy)]
enum Call {
    Load { core: u32, wave: u32, address: u32 },
    Store { core: u32, wave: u32, address: u32, value: u32 },
    Serve { core: u32 },
    Deliver { core: u32 },
    Tick,
}

fn calls_of(rows: &[Row]) -> Vec<Call> {
    rows.iter()
        .map(|&[kind, core, address, value]| match kind {
            LOAD => Call::Load { core, wave: 0, address },
            STORE => Call::Store { core, wave: 0, address, value },
            SERVE => Call::Serve { core },
            DELIVER => Call::Deliver { core },
            _ => Call::Tick,
        })
        .collect()
}

/// A number for what a call came to: a value, the clock or a refusal's number, else 0.
fn worth(machine: &mut Machine<Words, Fixed>, call: Call) -> u32 {
    let result = match call {
        Call::Load { core, wave, address } => machine.load(core, wave, address).map(|i| match i {
            Issued::Hit(value) => value,
            Issued::Sent => 0,
        }),
        Call::Store { core, wave, address, value } => {
            machine.store(core, wave, address, value).map(|()| 0)
        }
        Call::Serve { core } => machine.serve(core).map(|()| 0),
        Call::Deliver { core } => machine.deliver(core).map(|d| match d {
            Delivered::Load { value, .. } => value,
            _ => 0,
        }),
        Call::Tick => machine.tick(),
    };
    result.unwrap_or_else(|refusal| refusal.number())
}

/// Makes each call in turn, and adds what it came to.
fn make_all(machine: &mut Machine<Words, Fixed>, calls: &[Call], sum: u32) -> u32 {
    calls.iter().fold(sum, |sum, &call| sum.wrapping_mul(31).wrapping_add(worth(machine, call)))
}

/// The same work on the model.
fn on_model(work: &Work, rounds: u32) -> u32 {
    let before = calls_of(&work.before);
    let calls = calls_of(&work.calls);
    let mut machine =
        Machine::new(Net::new(32), Net::new(32), Words::zero(4096), Fixed::new(work.lifetime));
    let protocol = if work.strong { Protocol::Strong } else { Protocol::Weak };
    let mut sum = machine.start(work.cores, protocol).map_or_else(|r| r.number(), |()| 0);
    sum = make_all(&mut machine, &before, sum);
    for _ in 0..rounds {
        sum = make_all(&mut machine, &calls, sum);
    }
    sum
}

/// A load or store that is served and delivered.
fn round(rows: &mut Vec<Row>, kind: u32, core: u32, address: u32) {
    rows.extend([[kind, core, address, address + 7], [SERVE, core, 0, 0], [DELIVER, core, 0, 0]]);
}

const KINDS: [&str; 5] = ["hit", "miss and fill", "store", "waiting store", "tick"];

/// The calls of a round, at least: so many that entering a round counts for nothing.
const ROUND: usize = 1024;

/// The bank has so many lines, and every core does the same.
fn work(kind: &str, lines: u32, cores: u32) -> Work {
    let mut w = Work { cores, strong: false, lifetime: 10, before: Vec::new(), calls: Vec::new() };
    for line in 0..lines {
        round(&mut w.before, LOAD, line % cores, line);
    }
    let hot = lines - 1;
    match kind {
        "hit" => {
            for core in 0..cores {
                round(&mut w.before, LOAD, core, hot);
                w.calls.push([LOAD, core, hot, 0]);
            }
        }
        // A lease of lifetime 0 ends with its tick.
        "miss and fill" => {
            w.lifetime = 0;
            for core in 0..cores {
                for line in 0..lines {
                    w.calls.push([TICK, 0, 0, 0]);
                    round(&mut w.calls, LOAD, core, line);
                }
            }
        }
        "store" => {
            for core in 0..cores {
                for line in 0..lines {
                    round(&mut w.calls, STORE, core, line);
                }
            }
        }
        "waiting store" => {
            w.strong = true;
            for core in 0..cores {
                round(&mut w.before, LOAD, core, hot);
            }
            for core in 0..cores {
                w.before.push([STORE, core, hot, 1]);
                w.before.push([SERVE, core, 0, 0]);
                w.calls.push([SERVE, core, 0, 0]);
            }
        }
        _ => w.calls.push([TICK, 0, 0, 0]),
    }
    let times = ROUND.div_ceil(w.calls.len());
    w.calls = w.calls.repeat(times);
    w
}

/// The shortest time of some runs.
fn least(runs: u32, mut f: impl FnMut()) -> Duration {
    let mut best = Duration::MAX;
    for _ in 0..runs {
        let from = Instant::now();
        f();
        best = best.min(from.elapsed());
    }
    best
}

/// Nanoseconds for a call, on the proved library and on the model.
fn measure(work: &Work) -> Result<(f64, f64), String> {
    if on_proved(work, 3) != on_model(work, 3) {
        return Err("the libraries answer differently".into());
    }
    let mut rounds = 1;
    while least(1, || _ = black_box(on_proved(work, rounds))) < Duration::from_millis(4)
        && rounds < 1 << 24
    {
        rounds *= 2;
    }
    let (mut proved, mut model) = (Duration::MAX, Duration::MAX);
    let (mut proved_before, mut model_before) = (Duration::MAX, Duration::MAX);
    for _ in 0..25 {
        proved_before = proved_before.min(least(1, || _ = black_box(on_proved(work, 0))));
        model_before = model_before.min(least(1, || _ = black_box(on_model(work, 0))));
        proved = proved.min(least(1, || _ = black_box(on_proved(work, rounds))));
        model = model.min(least(1, || _ = black_box(on_model(work, rounds))));
    }
    let calls = f64::from(rounds) * work.calls.len() as f64;
    let each =
        |all: Duration, before: Duration| all.saturating_sub(before).as_nanos() as f64 / calls;
    Ok((each(proved, proved_before), each(model, model_before)))
}

/// A program that runs under valgrind, which counts its instructions.
fn counted(program: &Path, arguments: &[String], input: Stdio) -> Result<Child, String> {
    Command::new("valgrind")
        .args(["--tool=cachegrind", "--cache-sim=no", "--cachegrind-out-file=/dev/null"])
        .arg(program)
        .args(arguments)
        .stdin(input)
        .stdout(Stdio::null())
        .stderr(Stdio::piped())
        .spawn()
        .map_err(|e| format!("valgrind: {e}"))
}

/// The count that valgrind prints at its end.
fn count_of(child: Child) -> Result<f64, String> {
    let output = child.wait_with_output().map_err(|e| format!("valgrind: {e}"))?;
    let text = String::from_utf8_lossy(&output.stderr);
    let (_, count) = text.split_once("refs:").ok_or(format!("valgrind counts nothing: {text}"))?;
    let digits: String = count.lines().next().unwrap_or("").replace(',', "");
    digits.trim().parse().map_err(|e| format!("valgrind: {digits}: {e}"))
}

/// Instructions for a call, on the proved library and on the model: what as many rounds again take.
fn instructions(kind: &str, lines: u32, cores: u32) -> Result<(f64, f64), String> {
    let bench = std::env::current_exe().map_err(|e| format!("bench: {e}"))?;
    let calls = work(kind, lines, cores).calls.len();
    let rounds = 16384_usize.div_ceil(calls);
    let count = |side: &str, rounds: usize| {
        let words =
            ["play", side, kind, &lines.to_string(), &cores.to_string(), &rounds.to_string()];
        counted(&bench, &words.map(String::from), Stdio::null())
    };
    let [proved, proved_twice, model, model_twice] = [
        count("proved", rounds)?,
        count("proved", 2 * rounds)?,
        count("model", rounds)?,
        count("model", 2 * rounds)?,
    ]
    .map(count_of);
    let all = (rounds * calls) as f64;
    Ok(((proved_twice? - proved?) / all, (model_twice? - model?) / all))
}

/// `play SIDE CALL LINES CORES ROUNDS`
fn play(words: &[String]) -> Result<(), String> {
    let [side, kind, lines, cores, rounds] = words else {
        return Err("play takes a side, a call, lines, cores and rounds".into());
    };
    let number = |word: &str| word.parse::<u32>().map_err(|e| format!("{word}: {e}"));
    let work = work(kind, number(lines)?, number(cores)?);
    let rounds = number(rounds)?;
    black_box(match side.as_str() {
        "proved" => on_proved(&work, rounds),
        _ => on_model(&work, rounds),
    });
    Ok(())
}

/// The columns of two instruction counts and their ratio, where instructions are counted.
fn counts_head(o: &Options) -> (&'static str, &'static str) {
    if o.counts { (" Instructions | Model | Ratio |", "---|---|---|") } else { ("", "") }
}

fn libraries(o: &Options) -> Result<(), String> {
    let (head, rule) = counts_head(o);
    println!(
        "\nThe library: nanoseconds{} for one call\n",
        if o.counts { " and instructions" } else { "" }
    );
    println!("| Call | Lines | Cores | Proved | Model | Ratio |{head}");
    println!("|---|---|---|---|---|---|{rule}");
    for kind in KINDS {
        let by_lines = [1, 4, 16, 64, 256].map(|lines| (lines, 1));
        let by_cores = [2, 4, 8, 16].map(|cores| (16, cores));
        let all = by_lines.into_iter().chain(by_cores);
        // A tick looks at nothing else.
        let some = if kind == "tick" { 1 } else { 9 };
        for (lines, cores) in all.take(some) {
            let (proved, model) =
                measure(&work(kind, lines, cores)).map_err(|e| format!("{kind}: {e}"))?;
            let ratio = proved / model;
            print!("| {kind} | {lines} | {cores} | {proved:.2} | {model:.2} | {ratio:.2} |");
            if o.counts {
                let (proved, model) = instructions(kind, lines, cores)?;
                print!(" {proved:.1} | {model:.1} | {:.2} |", proved / model);
            }
            println!();
        }
    }
    Ok(())
}

/// The lines of a work as a script. The player's lifetime is 10.
fn script_lines(rows: &[Row]) -> Vec<Vec<u8>> {
    rows.iter()
        .map(|&[kind, core, address, value]| {
            match kind {
                LOAD => format!("L {core} 0 {address}\n"),
                STORE => format!("S {core} 0 {address} {value}\n"),
                SERVE => format!("V {core}\n"),
                DELIVER => format!("D {core}\n"),
                _ => "T\n".to_string(),
            }
            .into_bytes()
        })
        .collect()
}

fn scripts(letters: Letters) -> Vec<(String, Vec<u8>)> {
    let mut all = vec![
        ("no input".to_string(), Vec::new()),
        ("ticks".to_string(), full(&[], &[b"T\n".to_vec()])),
        ("empty lines".to_string(), full(&[], &[b"\n".to_vec()])),
    ];
    for (kind, lines, cores) in [
        ("hit", 1, 16),
        ("hit", 256, 16),
        ("store", 16, 16),
        ("store", 256, 4),
        ("waiting store", 16, 16),
    ] {
        let w = work(kind, lines, cores);
        let protocol = if w.strong { 'S' } else { 'W' };
        let mut before = vec![format!("N {cores} {protocol}\n").into_bytes()];
        before.extend(script_lines(&w.before));
        let name = format!("{kind}, {lines} lines, {cores} cores");
        all.push((name, full(&before, &script_lines(&w.calls))));
    }
    for profile in [
        Profile::Hot,
        Profile::Expire,
        Profile::Bursts,
        Profile::Lines,
        Profile::Places,
        Profile::Bounds,
        Profile::Damaged,
    ] {
        let lines = make(profile, 1, letters);
        all.push((format!("random: {profile:?}").to_lowercase(), full(&lines, &lines[1..])));
    }
    all
}

fn output_of(program: &Path, input: &Path) -> Result<Vec<u8>, String> {
    let fail = |e: std::io::Error| format!("{}: {e}", program.display());
    let stdin = File::open(input).map_err(fail)?;
    Ok(Command::new(program).stdin(stdin).output().map_err(fail)?.stdout)
}

fn time_of(program: &Path, input: &Path) -> Result<Duration, String> {
    let fail = |e: std::io::Error| format!("{}: {e}", program.display());
    let stdin = File::open(input).map_err(fail)?;
    let mut command = Command::new(program);
    command.stdin(stdin).stdout(Stdio::null());
    let from = Instant::now();
    let status = command.status().map_err(fail)?;
    let time = from.elapsed();
    if status.success() { Ok(time) } else { Err(format!("{}: {status}", program.display())) }
}

fn programs(o: &Options) -> Result<(), String> {
    let (head, rule) = counts_head(o);
    let unit = if o.counts { ", and millions of instructions" } else { "" };
    println!(
        "\nThe program: milliseconds for a script of 64 KiB, shortest and median of {}{unit}\n",
        o.runs
    );
    println!("| Script | Lines | tcrun | median | Model | median | Ratio |{head}");
    println!("|---|---|---|---|---|---|---|{rule}");
    let input = std::env::temp_dir().join(format!("tc-bench-{}", std::process::id()));
    for (name, script) in scripts(o.letters) {
        std::fs::write(&input, &script).map_err(|e| format!("{}: {e}", input.display()))?;
        if output_of(&o.tcrun, &input)? != output_of(&o.model, &input)? {
            return Err(format!("{name}: tcrun and the model print different answers"));
        }
        let (mut tcrun, mut model) = (Vec::new(), Vec::new());
        for _ in 0..o.runs {
            tcrun.push(time_of(&o.tcrun, &input)?);
            model.push(time_of(&o.model, &input)?);
        }
        tcrun.sort();
        model.sort();
        let ms = |d: Duration| d.as_secs_f64() * 1e3;
        let (t, m) = (ms(tcrun[0]), ms(model[0]));
        print!(
            "| {name} | {} | {t:.2} | {:.2} | {m:.2} | {:.2} | {:.2} |",
            script.iter().filter(|&&b| b == b'\n').count(),
            ms(tcrun[tcrun.len() / 2]),
            ms(model[model.len() / 2]),
            t / m
        );
        if o.counts {
            let count = |program: &Path| {
                let script = File::open(&input).map_err(|e| format!("{}: {e}", input.display()))?;
                counted(program, &[], script.into())
            };
            let [tcrun, model] = [count(&o.tcrun)?, count(&o.model)?].map(count_of);
            let (tcrun, model) = (tcrun? / 1e6, model? / 1e6);
            print!(" {tcrun:.3} | {model:.3} | {:.2} |", tcrun / model);
        }
        println!();
    }
    std::fs::remove_file(&input).map_err(|e| format!("{}: {e}", input.display()))
}

struct Options {
    tcrun: PathBuf,
    model: PathBuf,
    letters: Letters,
    runs: usize,
    /// whether instructions are counted
    counts: bool,
}

/// Whether valgrind is there.
fn has_valgrind() -> bool {
    let mut command = Command::new("valgrind");
    command.arg("--version").stdout(Stdio::null()).stderr(Stdio::null());
    command.status().is_ok_and(|status| status.success())
}

fn options(words: &[String]) -> Result<Options, String> {
    let mut o = Options {
        tcrun: PathBuf::from("crates/tcrun/out/tcrun"),
        model: PathBuf::from("target/bench/release/tcmodel"),
        letters: Letters::ALL,
        runs: 40,
        counts: has_valgrind(),
    };
    let mut words = words.iter();
    while let Some(word) = words.next() {
        let value = words.next().ok_or(format!("{word}: no value"))?;
        match word.as_str() {
            "--tcrun" => o.tcrun = PathBuf::from(value),
            "--model" => o.model = PathBuf::from(value),
            "--letters" => o.letters = Letters::of(value.as_bytes()),
            "--runs" => o.runs = value.parse().map_err(|e| format!("--runs {value}: {e}"))?,
            _ => return Err(format!("no option {word}")),
        }
    }
    if o.runs == 0 { Err("--runs 0 measures nothing".into()) } else { Ok(o) }
}

fn machine() {
    let info = read_to_string("/proc/cpuinfo").unwrap_or_default();
    let cpu = info
        .lines()
        .find(|l| l.starts_with("model name"))
        .and_then(|l| l.split_once(": "))
        .map_or("unknown", |(_, name)| name);
    let cores = std::thread::available_parallelism().map_or(0, |n| n.get());
    println!("Machine: {cpu}, {cores} processors");
}

fn run(words: &[String]) -> Result<(), String> {
    if let Some((first, rest)) = words.split_first()
        && first == "play"
    {
        return play(rest);
    }
    let o = options(words)?;
    machine();
    if !o.counts {
        println!("valgrind is not there: times alone, no instructions.");
    }
    programs(&o)?;
    libraries(&o)
}

fn main() -> ExitCode {
    let words: Vec<String> = std::env::args().skip(1).collect();
    match run(&words) {
        Ok(()) => ExitCode::SUCCESS,
        Err(e) => {
            eprintln!("bench: {e}");
            ExitCode::FAILURE
        }
    }
}
