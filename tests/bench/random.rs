// Random scripts, then random bytes, through the bench program and the reference bench: the outputs must be the same,
// byte for byte.
//
// Arguments: the program, and a folder for the script of a mismatch. BENCH_SEED and BENCH_SCRIPTS set the seed and the
// number of scripts. The scripts are made with the reference world at hand, so that lines fit its state and deep states
// happen. The run fails if a number the bench can give, or a place of activation, was not reached. The random bytes are
// no scripts: lines of some MB, all 256 values, and inputs that end anywhere.

#[path = "../reference/dice.rs"]
mod dice;
#[path = "../reference/world.rs"]
mod world;

use dice::Dice;
use std::collections::BTreeMap;
use std::io::Write;
use std::process::{Command, ExitCode, Stdio};
use std::thread;
use world::{Line, Place, World, MOST_ID, MOST_PARCELS, SLOTS};

const SEED: u64 = 20_250_101;
const SCRIPTS: u64 = 4_000;
const LINES: usize = 200;
const LONG_LINES: usize = 20_000;
const RAW_INPUTS: usize = 240;

/// All results of the bench: 0 and the numbers it can give.
const RESULTS: [u8; 15] = [0, 5, 6, 7, 9, 12, 13, 14, 15, 16, 18, 20, 21, 23, 24];
const ACTIVATIONS: [&str; 3] = ["before the head", "in the middle", "after the tail"];

// ---- Scripts ----

/// How often a script does what; the kinds of line in the order of `Maker::line`.
const HABITS: [[usize; 8]; 5] = [
    [3, 4, 44, 14, 9, 2, 22, 2],
    [2, 3, 30, 10, 6, 1, 44, 4],
    [1, 2, 24, 8, 6, 36, 20, 3],
    [25, 30, 16, 8, 8, 3, 7, 3],
    [2, 4, 34, 12, 8, 2, 30, 8],
];

struct Maker {
    dice: Dice,
    world: World,
    habit: [usize; 8],
    /// How often a key is k.
    often: usize,
    /// How often each parcel was delivered.
    delivered: Vec<usize>,
}

impl Maker {
    fn new(seed: u64) -> Maker {
        let mut dice = Dice(seed);
        let (habit, often) = (dice.pick(&HABITS), dice.pick(&[10, 60, 90]));
        Maker { dice, world: World::new(), habit, often, delivered: vec![0; MOST_PARCELS + 1] }
    }

    /// The reference's output line for a line.
    fn take(&mut self, line: &[u8]) -> Vec<u8> {
        if let Some(Line::Deliver(parcel)) = Line::read(line) {
            self.delivered[(parcel as usize).min(MOST_PARCELS)] += 1;
        }
        self.world.line(line)
    }

    fn line(&mut self) -> Vec<u8> {
        let mut habit = self.habit;
        if self.world.parcels.len() == MOST_PARCELS {
            habit[2..5].fill(2);
        }
        match self.dice.weighted(&habit) {
            0 => self.noise(),
            1 => self.anything().into_bytes(),
            2 => self.carry().into_bytes(),
            3 => self.again().into_bytes(),
            4 => self.send().into_bytes(),
            5 => self.enter().into_bytes(),
            6 => self.change().into_bytes(),
            _ => self.halt().into_bytes(),
        }
    }

    fn key(&mut self) -> &'static str {
        let keys = ["j", "K", "k0", "a", "b", "c", "d", "e", "0123456789abcdef", "0123456789abcde"];
        if self.dice.percent(self.often) {
            "k"
        } else {
            self.dice.pick(&keys)
        }
    }

    fn any_id(&mut self) -> usize {
        self.dice.below(MOST_ID as usize + 2)
    }

    fn chain_node(&mut self) -> u16 {
        self.dice.pick(self.world.record.chain())
    }

    /// The parcel least delivered of three that are not for a client, the latest of all among them.
    fn carry(&mut self) -> String {
        let parcels = self.world.parcels.iter().enumerate();
        let going: Vec<usize> =
            parcels.filter(|(_, parcel)| parcel.to != Place::Client).map(|(at, _)| at + 1).collect();
        let Some(&last) = going.last() else { return self.send() };
        let some = [last, self.dice.pick(&going), self.dice.pick(&going)];
        let least = some.into_iter().min_by_key(|&parcel| self.delivered[parcel]);
        format!("deliver {}", least.unwrap_or(last))
    }

    fn again(&mut self) -> String {
        format!("deliver {}", self.dice.below(self.world.parcels.len() + 2))
    }

    fn send(&mut self) -> String {
        let key = self.key();
        match self.dice.weighted(&[3, 5, 1]) {
            0 => format!("send r {key}"),
            1 => format!("send w {key} V{}", self.world.lines),
            _ => format!("send d {key}"),
        }
    }

    /// A key at a node that runs, most often; the open change goes on instead, most often, since it forbids entering.
    fn enter(&mut self) -> String {
        if self.world.record.change().is_some() && self.dice.percent(85) {
            return self.change();
        }
        let running: Vec<u16> = self.world.record.chain().iter().copied().filter(|&node| !self.halted(node)).collect();
        let node = if running.is_empty() || self.dice.percent(10) {
            self.any_id()
        } else {
            usize::from(self.dice.pick(&running))
        };
        format!("enter {node} {}", self.key())
    }

    fn halted(&self, node: u16) -> bool {
        self.world.halted[usize::from(node)]
    }

    /// The next step of the open change, or a new one; a change that a halt holds up is most often cancelled.
    fn change(&mut self) -> String {
        let Some(change) = self.world.record.change() else { return self.open() };
        let held_up = change.next < SLOTS && (self.halted(change.named) || self.halted(change.fresh));
        let next = match (change.fenced, change.next < SLOTS) {
            (false, _) => "fence",
            (true, true) => "copy",
            (true, false) => "activate",
        };
        let odd = if held_up { 70 } else { 3 };
        let step = if self.dice.percent(odd) {
            self.dice.pick(&["cancel", "cancel", "fence", "copy", "activate"])
        } else {
            next
        };
        step.to_string()
    }

    fn open(&mut self) -> String {
        if u64::from(self.world.record.highest) == MOST_ID && self.dice.percent(90) {
            return self.enter();
        }
        let fresh = usize::from(self.world.record.highest) + if self.dice.percent(90) { 1 } else { self.dice.below(4) };
        if self.dice.percent(40) {
            let last = self.world.record.chain().last().copied().unwrap_or(0);
            return format!("open a {last} {fresh}");
        }
        format!("open b {} {fresh}", self.chain_node())
    }

    /// Removes a halted node of the chain, or halts one: seldom the last that runs, and now and then one that the
    /// open change speaks of.
    fn halt(&mut self) -> String {
        let (halted, running): (Vec<u16>, Vec<u16>) =
            self.world.record.chain().iter().partition(|&&node| self.halted(node));
        let change = self.world.record.change();
        if !halted.is_empty() && self.dice.percent(if change.is_some() { 20 } else { 80 }) {
            return format!("remove {}", self.dice.pick(&halted));
        }
        if running.len() < 2 && self.dice.percent(97) {
            return self.change();
        }
        let node = match change {
            Some(change) if self.dice.percent(30) => self.dice.pick(&[change.named, change.fresh]),
            _ => self.chain_node(),
        };
        format!("halt {node}")
    }

    /// A line in order that knows nothing of the state.
    fn anything(&mut self) -> String {
        let (node, fresh, key) = (self.any_id(), self.any_id(), self.key());
        match self.dice.below(10) {
            0 => format!("enter {node} {key}"),
            1 => format!("send r {key}"),
            2 => format!("deliver {}", self.dice.below(80)),
            3 => format!("halt {}", self.dice.below(40)),
            4 => format!("open {} {node} {fresh}", self.dice.pick(&["b", "a"])),
            5 => "fence".to_string(),
            6 => "copy".to_string(),
            7 => "activate".to_string(),
            8 => "cancel".to_string(),
            _ => format!("remove {node}"),
        }
    }

    /// A line with something wrong, or nearly so.
    fn noise(&mut self) -> Vec<u8> {
        let mut line = self.anything().into_bytes();
        let at = self.dice.below(line.len());
        match self.dice.below(11) {
            0 => line.clear(),
            1 => line.insert(at, b' '),
            2 => line.push(self.dice.pick(b" \t\r\0-")),
            3 => line[at] = self.any_byte(),
            4 => drop(line.remove(at)),
            5 => line.truncate(at),
            6 => line.insert(0, b' '),
            7 => line.resize(60 + self.dice.below(10), b'x'),
            8 => {
                let digits = "0".repeat(50 + self.dice.below(12));
                line = format!("halt {digits}{}", self.any_id()).into_bytes();
            }
            9 => {
                let wrapping = self.dice.pick(&[8u32, 16, 32, 64]);
                line = format!("halt {}", (1u128 << wrapping) + self.any_id() as u128).into_bytes();
            }
            _ => {
                let length = self.dice.below(400);
                line = (0..length).map(|_| self.any_byte()).collect();
            }
        }
        line
    }

    /// Any byte but a newline.
    fn any_byte(&mut self) -> u8 {
        match self.dice.below(256) as u8 {
            b'\n' => b'x',
            byte => byte,
        }
    }
}

/// What was reached: how often, by name.
type Counts = BTreeMap<String, u64>;

struct Script {
    input: Vec<u8>,
    output: Vec<u8>,
}

/// The place where an activation puts the new node, if this change is activated.
fn activation(world: &World) -> Option<&'static str> {
    let change = world.record.change()?;
    Some(if change.after {
        ACTIVATIONS[2]
    } else if world.record.chain()[0] == change.named {
        ACTIVATIONS[0]
    } else {
        ACTIVATIONS[1]
    })
}

/// A script of so many lines with the reference's output; most begin by entering a key at the three nodes.
fn make(seed: u64, lines: usize, counts: &mut Counts) -> Script {
    let mut maker = Maker::new(seed);
    let mut script = Script { input: vec![], output: vec![] };
    let opening: &[&str] = if maker.dice.percent(85) { &["enter 1 k", "enter 2 k", "enter 3 k"] } else { &[] };
    for number in 0..lines {
        let line = opening.get(number).map_or_else(|| maker.line(), |line| line.as_bytes().to_vec());
        let place = activation(&maker.world);
        let output = maker.take(&line);
        let result = result_of(&output);
        *counts.entry(name(result)).or_default() += 1;
        if line == b"activate" && result == 0 {
            *counts.entry(place.expect("a change was open").to_string()).or_default() += 1;
        }
        script.output.extend(output);
        script.input.extend(line);
        script.input.push(b'\n');
    }
    if !script.input.ends_with(b"\n\n") && maker.dice.percent(10) {
        script.input.pop();
    }
    script
}

/// The second column of an output line.
fn result_of(output: &[u8]) -> u8 {
    let text = std::str::from_utf8(output).expect("the reference writes ASCII");
    text.split(' ').nth(1).and_then(|word| word.parse().ok()).expect("a result stands second")
}

fn name(result: u8) -> String {
    format!("result {result:2}")
}

// ---- The program ----

fn run_program(program: &str, input: &[u8]) -> Result<Vec<u8>, String> {
    let mut child = Command::new(program)
        .stdin(Stdio::piped())
        .stdout(Stdio::piped())
        .spawn()
        .map_err(|error| format!("cannot run {program}: {error}"))?;
    let mut stdin = child.stdin.take().expect("standard input is piped");
    let output = thread::scope(|scope| {
        // A program that ends early shows in its output.
        scope.spawn(move || stdin.write_all(input).is_ok());
        child.wait_with_output()
    })
    .map_err(|error| error.to_string())?;
    if output.status.success() {
        Ok(output.stdout)
    } else {
        Err(format!("the program ended with {}", output.status))
    }
}

/// How much of a line is printed.
const MOST_SHOWN: usize = 400;

/// The first line in which two outputs differ, with its input line.
fn difference(input: &[u8], expected: &[u8], got: &[u8]) -> String {
    let shown = |lines: &[&[u8]], at: usize| {
        lines.get(at).map_or("no line".to_string(), |line| line[..line.len().min(MOST_SHOWN)].escape_ascii().to_string())
    };
    let (inputs, expected, got) = (world::lines(input), world::lines(expected), world::lines(got));
    let longest = expected.len().max(got.len());
    let at = (0..longest).find(|&at| expected.get(at) != got.get(at)).unwrap_or(longest);
    format!(
        "line {}: {}\n  reference: {}\n  program:   {}",
        at + 1,
        shown(&inputs, at),
        shown(&expected, at),
        shown(&got, at)
    )
}

fn compare(program: &str, script: &Script) -> Result<(), String> {
    let got = run_program(program, &script.input)?;
    if got == script.output {
        Ok(())
    } else {
        Err(difference(&script.input, &script.output, &got))
    }
}

struct Mismatch {
    index: u64,
    input: Vec<u8>,
    what: String,
}

/// Script `index` of a seed; the one after the last is long.
fn script(seed: u64, index: u64, scripts: u64, counts: &mut Counts) -> Script {
    let lines = if index == scripts { LONG_LINES } else { LINES };
    make(seed.wrapping_add(index.wrapping_mul(0x2545_F491_4F6C_DD1D)), lines, counts)
}

/// Every `step`th script from `first`, up to the first mismatch.
fn worker(program: &str, seed: u64, scripts: u64, first: u64, step: u64) -> (Counts, Option<Mismatch>) {
    let mut counts = Counts::new();
    for index in (first..=scripts).step_by(step as usize) {
        let script = script(seed, index, scripts, &mut counts);
        if let Err(what) = compare(program, &script) {
            return (counts, Some(Mismatch { index, input: script.input, what }));
        }
    }
    (counts, None)
}

fn report(mismatch: &Mismatch, folder: &str) {
    let file = format!("{folder}/mismatch.in");
    for line in world::lines(&mismatch.input) {
        println!("{}", line[..line.len().min(MOST_SHOWN)].escape_ascii());
    }
    println!("script {} differs at {}", mismatch.index, mismatch.what);
    match std::fs::write(&file, &mismatch.input) {
        Ok(()) => println!("the script is in {file}"),
        Err(error) => println!("{file}: {error}"),
    }
}

/// Prints what was reached; true if all of it was and nothing else.
fn all_reached(counts: &Counts) -> bool {
    let wanted: Vec<String> = RESULTS.into_iter().map(name).chain(ACTIVATIONS.map(String::from)).collect();
    for (reached, times) in counts {
        println!("{times:8}  {reached}");
    }
    let missing: Vec<_> = wanted.iter().filter(|wanted| !counts.contains_key(*wanted)).collect();
    let strange: Vec<_> = counts.keys().filter(|reached| !wanted.contains(reached)).collect();
    if !missing.is_empty() {
        println!("not reached: {missing:?}");
    }
    if !strange.is_empty() {
        println!("not to be reached on a bench: {strange:?}");
    }
    missing.is_empty() && strange.is_empty()
}

// ---- Any bytes ----

/// Bytes that are no script: any byte; many short lines; one byte over and over, in lines about as long as what is
/// read at a time or of some MB; a script with bytes changed.
fn raw(dice: &mut Dice, number: usize) -> Vec<u8> {
    let mut input: Vec<u8> = match number % 4 {
        0 => (0..dice.below(60_000)).map(|_| dice.next() as u8).collect(),
        1 => (0..dice.below(6_000)).map(|_| dice.pick(b"\n\n\n \0\r\t019azAZehr")).collect(),
        2 => {
            let most = if number < 24 { 3_000_000 } else { 3 * 4096 + 200 };
            let mut input = vec![dice.next() as u8; most - dice.below(most / 3)];
            for _ in 0..dice.below(4) {
                let at = dice.below(input.len());
                input[at] = b'\n';
            }
            input
        }
        _ => {
            let mut input = make(dice.next(), 40, &mut Counts::new()).input;
            for _ in 0..dice.below(20) {
                let at = dice.below(input.len());
                input[at] = dice.next() as u8;
            }
            input
        }
    };
    // Half of the inputs end in the middle of a line, and a few lines may not be skipped behind a long one.
    input.extend(dice.pick(&["", "", "\nhalt 1\nhalt 1", "\nhalt 9\n", "\n"]).bytes());
    input
}

/// How many lines an input has: its newlines, and what stands behind the last.
fn line_count(input: &[u8]) -> usize {
    input.iter().filter(|&&byte| byte == b'\n').count() + usize::from(input.last().is_some_and(|&byte| byte != b'\n'))
}

/// Random bytes through the program and the reference, up to the first mismatch.
fn any_bytes(program: &str, seed: u64) -> Option<Mismatch> {
    let mut dice = Dice(seed);
    let (mut bytes, mut lines, mut longest) = (0, 0, 0);
    let mut seen = [false; 256];
    for number in 0..RAW_INPUTS {
        let input = raw(&mut dice, number);
        input.iter().for_each(|&byte| seen[usize::from(byte)] = true);
        bytes += input.len();
        lines += line_count(&input);
        longest = longest.max(world::lines(&input).iter().map(|line| line.len()).max().unwrap_or(0));
        let mut world = World::new();
        let output: Vec<u8> = world::lines(&input).into_iter().flat_map(|line| world.line(line)).collect();
        assert_eq!(line_count(&output), line_count(&input), "one output line for each line");
        let script = Script { input, output };
        if let Err(what) = compare(program, &script) {
            return Some(Mismatch { index: number as u64, input: script.input, what });
        }
    }
    assert!(seen.iter().all(|&seen| seen), "every byte value occurs");
    println!("{RAW_INPUTS} inputs of any bytes: {bytes} bytes, {lines} lines, the longest of {longest} bytes");
    None
}

fn setting(name: &str, default: u64) -> u64 {
    std::env::var(name).map_or(default, |text| text.parse().unwrap_or_else(|_| panic!("{name} is not a number")))
}

fn main() -> ExitCode {
    let arguments: Vec<String> = std::env::args().collect();
    let [_, program, folder] = &arguments[..] else {
        eprintln!("arguments: the bench program, a folder");
        return ExitCode::FAILURE;
    };
    let (seed, scripts) = (setting("BENCH_SEED", SEED), setting("BENCH_SCRIPTS", SCRIPTS));
    println!("seed {seed}: {scripts} scripts of {LINES} lines and one of {LONG_LINES}");
    let workers = thread::available_parallelism().map_or(1, |count| count.get() as u64);
    let results: Vec<_> = thread::scope(|scope| {
        let start = |first| scope.spawn(move || worker(program, seed, scripts, first, workers));
        let started: Vec<_> = (0..workers).map(start).collect();
        started.into_iter().map(|worker| worker.join().expect("a worker ends")).collect()
    });
    let mut counts = Counts::new();
    let mut mismatches = vec![];
    for (reached, mismatch) in results {
        reached.into_iter().for_each(|(name, times)| *counts.entry(name).or_default() += times);
        mismatches.extend(mismatch);
    }
    let first = mismatches.into_iter().min_by_key(|mismatch| mismatch.index).or_else(|| any_bytes(program, seed));
    if let Some(mismatch) = &first {
        report(mismatch, folder);
    }
    if first.is_none() && all_reached(&counts) {
        ExitCode::SUCCESS
    } else {
        ExitCode::FAILURE
    }
}
