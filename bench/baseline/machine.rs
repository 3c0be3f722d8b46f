//! A plain simulator of the whole machine, to measure `ultra run` against. It runs the same images by the same sweep, keeps a log
//! of steps, takes them once more on a second machine, and prints the same report, as ordinary Rust with no proof.
//!
//! `machine [--k K] [--c C] [--b B] [--words N] [--budget N] [--trace OUT] FILE` prints the report, and how many steps the log has
//! on standard error.
//!
//! `machine [--k K] .. --runs RUNS FILE` only sweeps, RUNS times, on a new machine each time, with no log. It prints the result of
//! the first run, the number of steps that did something, and their time, as `bench steps` of `crates/bench` does.

mod instructions;
mod simulator;

use simulator::{Config, Layout, Machine, Outcome, Step, Tally, layout};
use std::process::ExitCode;
use std::time::{Duration, Instant};
use std::{env, fs};

/// Why a sweep ended.
#[derive(PartialEq)]
enum End {
    Over,
    Budget,
}

/// The sweep, and then a drain: the steps that did something.
struct Sweep<'a> {
    machine: &'a mut Machine,
    log: Vec<Step>,
    budget: usize,
}

impl Sweep<'_> {
    /// Takes a step, and tells an end.
    fn enter(&mut self, step: Step) -> Result<(), End> {
        let outcome = self.machine.apply(step, &mut ());
        if outcome == Outcome::Stalled {
            return Ok(());
        }
        self.log.push(step);
        match outcome {
            Outcome::Faulted => Err(End::Over),
            _ if self.machine.running == 0 => Err(End::Over),
            _ if self.log.len() == self.budget => Err(End::Budget),
            _ => Ok(()),
        }
    }

    /// The steps of a row, for the wires that hold a message when their turn comes.
    fn row(&mut self, set: impl Fn(&Machine) -> u64, step: impl Fn(u8) -> Step) -> Result<(), End> {
        let mut from = 0;
        while from < 64 {
            let left = set(self.machine) >> from << from;
            if left == 0 {
                return Ok(());
            }
            let wire = left.trailing_zeros() as u8;
            self.enter(step(wire))?;
            from = wire + 1;
        }
        Ok(())
    }

    fn round(&mut self) -> Result<(), End> {
        let k = self.machine.config.k;
        for p in 0..self.machine.n {
            self.enter(Step::Turn(p))?;
        }
        for s in (0..k).rev() {
            self.row(|machine| machine.asking[s as usize], |wire| Step::Up(s, wire))?;
        }
        self.row(|machine| machine.asking[k as usize], Step::Serve)?;
        for s in 0..k {
            self.row(|machine| machine.told[s as usize + 1], |wire| Step::Down(s, wire))?;
        }
        Ok(())
    }

    fn run(&mut self) -> End {
        let end = loop {
            if let Err(end) = self.round() {
                break end;
            }
        };
        while let Some(step) = self.machine.drain_step() {
            self.machine.apply(step, &mut ());
            self.log.push(step);
        }
        end
    }
}

fn trace(config: &Config, log: &[Step]) -> Vec<u8> {
    let mut bytes = b"ULTR\x01".to_vec();
    bytes.extend([config.k, config.c as u8, config.b as u8]);
    bytes.extend((log.len() as u32).to_le_bytes());
    for step in log {
        let (kind, a, b) = match *step {
            Step::Turn(p) => (1, p, 0),
            Step::Up(s, w) => (2, s, w),
            Step::Serve(m) => (3, m, 0),
            Step::Down(s, w) => (4, s, w),
        };
        bytes.extend([kind, a, b, 0, 0, 0, 0, 0, 0, 0, 0, 0]);
    }
    bytes
}

/// Takes the steps on a second machine, and makes the report of it.
fn report(machine: &mut Machine, log: &[Step]) -> String {
    let mut tally = Tally::new(machine);
    for &step in log {
        let outcome = machine.apply(step, &mut tally);
        assert!(outcome != Outcome::Stalled);
    }
    tally.report(machine)
}

/// A sweep that keeps no log, and counts the steps that did something and the instructions that retired.
struct Count {
    machine: Machine,
    moved: u64,
    retired: u64,
}

impl Count {
    fn enter(&mut self, step: Step) {
        match self.machine.apply(step, &mut ()) {
            Outcome::Stalled => return,
            Outcome::Retired(_) => self.retired += 1,
            _ => {}
        }
        self.moved += 1;
    }

    /// The steps of a row, for the wires that hold a message when their turn comes.
    fn row(&mut self, set: impl Fn(&Machine) -> u64, step: impl Fn(u8) -> Step) {
        let mut from = 0;
        while from < 64 {
            let left = set(&self.machine) >> from << from;
            if left == 0 {
                return;
            }
            let wire = left.trailing_zeros() as u8;
            self.enter(step(wire));
            from = wire + 1;
        }
    }

    /// Rounds until no processor runs.
    fn run(&mut self) {
        let k = self.machine.config.k;
        while self.machine.running > 0 {
            for p in 0..self.machine.n {
                self.enter(Step::Turn(p));
            }
            for s in (0..k).rev() {
                self.row(|machine| machine.asking[s as usize], |wire| Step::Up(s, wire));
            }
            self.row(|machine| machine.asking[k as usize], Step::Serve);
            for s in 0..k {
                self.row(|machine| machine.told[s as usize + 1], |wire| Step::Down(s, wire));
            }
        }
    }
}

/// Sweeps `runs` times, and prints the result.
fn time_sweeps(config: Config, layout: &Layout, runs: u32) {
    let (mut moved, mut time) = (0, Duration::ZERO);
    for run in 0..runs {
        let machine = Machine::new(config, layout);
        let mut count = Count { machine, moved: 0, retired: 0 };
        let start = Instant::now();
        count.run();
        time += start.elapsed();
        moved += count.moved;
        if run == 0 {
            let word = count.machine.shared[0];
            println!("k {}: {} instructions retire, and word 0 is {word}", config.k, count.retired);
        }
    }
    eprintln!("k {}: {runs} runs, {moved} steps that did something in {} microseconds", config.k, time.as_micros());
}

fn main() -> ExitCode {
    let mut config = Config {
        k: 2,
        c: 4,
        b: 4,
        words: 1024,
    };
    let (mut budget, mut saved, mut file, mut runs) = (4_000_000, None, None, 0);
    let mut arguments = env::args().skip(1);
    while let Some(argument) = arguments.next() {
        let mut value = || arguments.next().expect("an option has a value");
        match argument.as_str() {
            "--k" => config.k = value().parse().expect("a number"),
            "--c" => config.c = value().parse().expect("a number"),
            "--b" => config.b = value().parse().expect("a number"),
            "--words" => config.words = value().parse().expect("a number"),
            "--budget" => budget = value().parse().expect("a number"),
            "--runs" => runs = value().parse().expect("a number"),
            "--trace" => saved = Some(value()),
            _ => file = Some(argument),
        }
    }
    let Some(bytes) = file.and_then(|file| fs::read(file).ok()) else {
        eprintln!("machine: there is no FILE that can be read");
        return ExitCode::from(3);
    };
    let layout = layout(&bytes, config.words);
    if runs > 0 {
        time_sweeps(config, &layout, runs);
        return ExitCode::SUCCESS;
    }
    let mut machine = Machine::new(config, &layout);
    let mut sweep = Sweep {
        machine: &mut machine,
        log: Vec::new(),
        budget,
    };
    let end = sweep.run();
    let log = sweep.log;
    if end == End::Budget && machine.running > 0 {
        eprintln!("ultra: budget");
        return ExitCode::from(4);
    }
    let mut second = Machine::new(config, &layout);
    let text = report(&mut second, &log);
    if let Some(path) = saved {
        fs::write(path, trace(&config, &log)).expect("OUT can be written");
    }
    print!("{text}");
    eprintln!("{} steps", log.len());
    ExitCode::from(u8::from(second.is_faulted()))
}
