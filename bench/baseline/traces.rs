//! Plain commands on a trace, to measure those of `ultra` against. They read and print the same, as ordinary Rust with no proof.
//!
//! `traces COMMAND TRACE FILE`, with `order`, `story`, `stats`, `picture` or `replay`, and `traces trace TRACE` do what the commands
//! of `ultra` do without options. The trace has only steps of the machine itself, no writes from outside, in the first of the two
//! formats. The machine that is drawn has at most 8 processors and no open reference.

mod instructions;
mod pictures;
mod simulator;
mod written;

use pictures::picture;
use simulator::{
    CODE_START, Config, Layout, Machine, Observer, Outcome, Phi, Record, Request, Status, Step, Tally, Wanted, layout,
};
use std::io::Write;
use std::process::ExitCode;
use std::{env, fs, io, mem};
use written::{push_insn, push_number, push_word};

/// The sizes of a trace, and its steps.
fn trace(bytes: &[u8]) -> Option<(Config, Vec<Step>)> {
    let ([b'U', b'L', b'T', b'R', 1, k, c, b, count @ ..], records) = bytes.split_first_chunk::<12>()? else {
        return None;
    };
    let (k, n) = (*k, 1u8 << k);
    let step = |record: &[u8]| match *record {
        [1, p, 0, ..] if p < n => Some(Step::Turn(p)),
        [2, stage, wire, ..] if stage < k && wire < n => Some(Step::Up(stage, wire)),
        [3, module, 0, ..] if module < n => Some(Step::Serve(module)),
        [4, stage, wire, ..] if stage < k && wire < n => Some(Step::Down(stage, wire)),
        _ => None,
    };
    let steps: Option<Vec<Step>> =
        records.chunks(12).map(|record| if record[3..] == [0; 9] { step(record) } else { None }).collect();
    let steps = steps?;
    let config = Config { k, c: usize::from(*c), b: usize::from(*b), words: 1024 };
    (steps.len() == instructions::number(count) as usize).then_some((config, steps))
}

/// Takes the steps of a trace, and then steps until no reference is open. A step that stalls is an error.
fn take_all(machine: &mut Machine, steps: &[Step], observer: &mut impl Observer) -> Result<(), usize> {
    for (number, step) in steps.iter().enumerate() {
        if machine.apply(*step, observer) == Outcome::Stalled {
            return Err(number);
        }
    }
    while let Some(step) = machine.drain_step() {
        machine.apply(step, observer);
    }
    Ok(())
}

/// For each leader, the processors for which its request stands, in the order in which they are served.
struct Groups([Vec<u8>; 64]);

impl Groups {
    fn new() -> Groups {
        Groups([const { Vec::new() }; 64])
    }

    fn of(&self, leader: u8) -> &[u8] {
        &self.0[leader as usize]
    }

    fn begin(&mut self, leader: u8) {
        let group = &mut self.0[leader as usize];
        group.clear();
        group.push(leader);
    }

    fn join(&mut self, first: u8, second: u8) {
        let group = mem::take(&mut self.0[second as usize]);
        self.0[first as usize].extend_from_slice(&group);
        self.0[second as usize] = group;
    }
}

// ---- texts

fn push(out: &mut Vec<u8>, text: &str) {
    out.extend_from_slice(text.as_bytes());
}

/// Appends a number after a text.
fn push_after(out: &mut Vec<u8>, text: &str, number: usize) {
    push(out, text);
    push_number(out, number);
}

/// Appends a word after a text.
fn push_word_after(out: &mut Vec<u8>, text: &str, word: u32) {
    push(out, text);
    push_word(out, word);
}

fn push_size(out: &mut Vec<u8>, config: &Config) {
    push_after(out, "machine k ", config.k.into());
    push_after(out, " c ", config.c);
    push_after(out, " b ", config.b);
    push(out, " r 1\n");
}

fn push_step(out: &mut Vec<u8>, step: Step) {
    match step {
        Step::Turn(p) => push_after(out, "turn ", p.into()),
        Step::Up(stage, wire) => {
            push_after(out, "up ", stage.into());
            push_after(out, " ", wire.into());
        }
        Step::Serve(m) => push_after(out, "serve ", m.into()),
        Step::Down(stage, wire) => {
            push_after(out, "down ", stage.into());
            push_after(out, " ", wire.into());
        }
    }
}

/// Appends the instruction at an address, the value of the register that it wrote, and the byte that it printed.
fn push_retired(out: &mut Vec<u8>, code: &[u8], pc: u32, written: Option<(u8, u32)>, byte: Option<u8>) {
    let at = (pc - CODE_START) as usize;
    push_insn(out, instructions::number(&code[at..at + 4]));
    if let Some((1.., value)) = written {
        push_word_after(out, " = ", value);
    }
    if let Some(byte) = byte {
        push(out, &format!(" console {byte:02x}"));
    }
}

fn push_status(out: &mut Vec<u8>, status: Status) {
    push(out, &status.to_string());
}

/// Appends a function of words.
fn push_phi(out: &mut Vec<u8>, phi: Phi) {
    match phi {
        _ if phi.is_identity() => push(out, "load"),
        _ if phi.is_constant() => push_word_after(out, "store ", phi.apply(0)),
        Phi::Add(amount) => push_word_after(out, "add ", amount),
        Phi::Bits { and: u32::MAX, xor } => push_word_after(out, "xor ", xor),
        Phi::Bits { and, xor } if and == !xor => push_word_after(out, "or ", xor),
        Phi::Bits { and, xor } => {
            push_word_after(out, "and ", and);
            if xor != 0 {
                push_word_after(out, " xor ", xor);
            }
        }
        Phi::Clamp { low: i32::MIN, high } => push_word_after(out, "min ", high.cast_unsigned()),
        Phi::Clamp { low, high } => {
            push_word_after(out, "max ", low.cast_unsigned());
            if high != i32::MAX {
                push_word_after(out, " min ", high.cast_unsigned());
            }
        }
        Phi::ClampU { low: 0, high } => push_word_after(out, "minu ", high),
        Phi::ClampU { low, high } => {
            push_word_after(out, "maxu ", low);
            if high != u32::MAX {
                push_word_after(out, " minu ", high);
            }
        }
    }
}

// ---- the story

/// A line for each step.
struct Story<'a> {
    code: &'a [u8],
    out: Vec<u8>,
    number: usize,
    groups: Groups,
}

impl Observer for Story<'_> {
    fn begins(&mut self, step: Step) {
        push_number(&mut self.out, self.number);
        self.out.push(b' ');
        push_step(&mut self.out, step);
        push(&mut self.out, ": ");
        self.number += 1;
    }

    fn sends(&mut self, _pc: u32, request: &Request, _wanted: Wanted) {
        push(&mut self.out, "sends ");
        push_phi(&mut self.out, request.phi);
        push_after(&mut self.out, " to word ", request.word as usize);
        self.out.push(b'\n');
        self.groups.begin(request.leader);
    }

    fn retires(&mut self, _p: u8, pc: u32, written: Option<(u8, u32)>, byte: Option<u8>) {
        push(&mut self.out, "retires ");
        push_retired(&mut self.out, self.code, pc, written, byte);
        self.out.push(b'\n');
    }

    fn completes(&mut self, p: u8, pc: u32, written: Option<(u8, u32)>) {
        self.retires(p, pc, written, None);
    }

    fn stops(&mut self, _p: u8, _pc: u32, status: Status) {
        push(&mut self.out, "stops ");
        push_status(&mut self.out, status);
        self.out.push(b'\n');
    }

    fn rises(&mut self, stage: u8, _queued: usize) {
        push_after(&mut self.out, "moves to depth ", stage as usize + 1);
        self.out.push(b'\n');
    }

    fn combines(&mut self, stage: u8, record: &Record, both: Phi, _records: usize) {
        push_number(&mut self.out, record.second.into());
        push_after(&mut self.out, " joins ", record.leader.into());
        push_after(&mut self.out, " at stage ", stage.into());
        push(&mut self.out, ": ");
        push_phi(&mut self.out, both);
        push(&mut self.out, " goes on, ");
        push_phi(&mut self.out, record.phi);
        push(&mut self.out, " is kept\n");
        self.groups.join(record.leader, record.second);
    }

    fn serves(&mut self, _module: u8, request: &Request, before: u32, after: u32) {
        let group = self.groups.of(request.leader);
        push_after(&mut self.out, "serves ", group.len());
        self.out.push(b':');
        for p in group {
            push_after(&mut self.out, " ", (*p).into());
        }
        push_after(&mut self.out, ": word ", request.word as usize);
        push_word_after(&mut self.out, " ", before);
        push_word_after(&mut self.out, " to ", after);
        self.out.push(b'\n');
    }

    fn returns(&mut self, stage: u8, _queued: usize) {
        push_after(&mut self.out, "moves to depth ", stage.into());
        self.out.push(b'\n');
    }

    fn splits(&mut self, stage: u8, second: u8, value: u32, _queued: usize) {
        push_after(&mut self.out, "answers ", second.into());
        push_after(&mut self.out, " at stage ", stage.into());
        push_word_after(&mut self.out, ": ", value);
        self.out.push(b'\n');
    }
}

// ---- the order

/// A reference of a processor that was sent.
#[derive(Clone, Copy)]
struct Sent {
    pc: u32,
    phi: Phi,
    wanted: Wanted,
}

/// A line for each whole instruction, in the order of one serial machine: a reference takes its place when it is served.
struct Order<'a> {
    code: &'a [u8],
    out: Vec<u8>,
    number: usize,
    groups: Groups,
    sent: [Sent; 64],
}

impl Order<'_> {
    fn push_front(&mut self, p: u8, pc: u32) {
        push_number(&mut self.out, self.number);
        push_after(&mut self.out, " ", p.into());
        push_word_after(&mut self.out, " ", pc);
        self.out.push(b' ');
        self.number += 1;
    }
}

impl Observer for Order<'_> {
    fn sends(&mut self, pc: u32, request: &Request, wanted: Wanted) {
        self.sent[request.leader as usize] = Sent { pc, phi: request.phi, wanted };
        self.groups.begin(request.leader);
    }

    fn retires(&mut self, p: u8, pc: u32, written: Option<(u8, u32)>, byte: Option<u8>) {
        self.push_front(p, pc);
        push_retired(&mut self.out, self.code, pc, written, byte);
        self.out.push(b'\n');
    }

    fn stops(&mut self, p: u8, pc: u32, status: Status) {
        self.push_front(p, pc);
        push_status(&mut self.out, status);
        self.out.push(b'\n');
    }

    fn combines(&mut self, _stage: u8, record: &Record, _both: Phi, _records: usize) {
        self.groups.join(record.leader, record.second);
    }

    fn serves(&mut self, _module: u8, request: &Request, before: u32, _after: u32) {
        let mut before = before;
        for at in 0..self.groups.of(request.leader).len() {
            let p = self.groups.of(request.leader)[at];
            let Sent { pc, phi, wanted } = self.sent[p as usize];
            let after = phi.apply(before);
            self.push_front(p, pc);
            push_retired(&mut self.out, self.code, pc, wanted.written(before), None);
            push_after(&mut self.out, " word ", request.word as usize);
            push_word_after(&mut self.out, " ", before);
            push_word_after(&mut self.out, " ", after);
            self.out.push(b'\n');
            before = after;
        }
    }
}

// ---- the counts

#[derive(Clone, Default)]
struct Stage {
    moved: usize,
    combined: usize,
    returned: usize,
    split: usize,
    requests: usize,
    records: usize,
    replies: usize,
}

#[derive(Clone)]
struct Module {
    served: usize,
    groups: [usize; 65],
}

/// Counts of what steps do.
struct Stats {
    k: u8,
    kinds: [usize; 4],
    rounds: usize,
    /// The place of the last step in the order of a round.
    place: usize,
    stages: Vec<Stage>,
    modules: Vec<Module>,
    turns: Vec<usize>,
    retired: Vec<usize>,
    groups: Groups,
}

impl Stats {
    fn new(k: u8) -> Stats {
        let n = 1 << k;
        Stats {
            k,
            kinds: [0; 4],
            rounds: 0,
            place: usize::MAX,
            stages: vec![Stage::default(); k.into()],
            modules: vec![Module { served: 0, groups: [0; 65] }; n],
            turns: vec![0; n],
            retired: vec![0; n],
            groups: Groups::new(),
        }
    }

    fn text(&self, config: &Config) -> Vec<u8> {
        let mut out = Vec::new();
        push_size(&mut out, config);
        let [turns, up, serve, down] = self.kinds;
        let (steps, rounds) = (turns + up + serve + down, self.rounds);
        let line = format!("steps {steps} turns {turns} up {up} serve {serve} down {down} poke 0 rounds {rounds}\n");
        push(&mut out, &line);
        for (number, stage) in self.stages.iter().enumerate() {
            let Stage { moved, combined, returned, split, requests, records, replies } = stage;
            let line = format!(
                "stage {number} up {moved} combined {combined} down {returned} split {split} \
                requests {requests} records {records} replies {replies}\n"
            );
            push(&mut out, &line);
        }
        for (number, module) in self.modules.iter().enumerate() {
            push(&mut out, &format!("module {number} serves {}", module.served));
            for (size, count) in module.groups.iter().enumerate().filter(|(_, count)| **count != 0) {
                push(&mut out, &format!(" {size}x{count}"));
            }
            out.push(b'\n');
        }
        for (p, (turns, retired)) in self.turns.iter().zip(&self.retired).enumerate() {
            push(&mut out, &format!("processor {p} turns {turns} retired {retired}\n"));
        }
        out
    }
}

impl Observer for Stats {
    fn begins(&mut self, step: Step) {
        let (kind, place) = match step {
            Step::Turn(p) => {
                self.turns[p as usize] += 1;
                (0, p.into())
            }
            Step::Up(stage, wire) => (1, 64 * (1 + usize::from(self.k - 1 - stage)) + usize::from(wire)),
            Step::Serve(m) => (2, 64 * 7 + usize::from(m)),
            Step::Down(stage, wire) => (3, 64 * (8 + usize::from(stage)) + usize::from(wire)),
        };
        self.kinds[kind] += 1;
        self.rounds += usize::from(place <= self.place);
        self.place = place;
    }

    fn sends(&mut self, _pc: u32, request: &Request, _wanted: Wanted) {
        self.groups.begin(request.leader);
    }

    fn retires(&mut self, p: u8, _pc: u32, _written: Option<(u8, u32)>, _byte: Option<u8>) {
        self.retired[p as usize] += 1;
    }

    fn completes(&mut self, p: u8, _pc: u32, _written: Option<(u8, u32)>) {
        self.retired[p as usize] += 1;
    }

    fn rises(&mut self, stage: u8, queued: usize) {
        let stage = &mut self.stages[stage as usize];
        stage.moved += 1;
        stage.requests = stage.requests.max(queued);
    }

    fn combines(&mut self, stage: u8, record: &Record, _both: Phi, records: usize) {
        let stage = &mut self.stages[stage as usize];
        stage.combined += 1;
        stage.records = stage.records.max(records);
        self.groups.join(record.leader, record.second);
    }

    fn serves(&mut self, module: u8, request: &Request, _before: u32, _after: u32) {
        let module = &mut self.modules[module as usize];
        module.served += 1;
        module.groups[self.groups.of(request.leader).len()] += 1;
    }

    fn returns(&mut self, stage: u8, queued: usize) {
        let stage = &mut self.stages[stage as usize];
        stage.returned += 1;
        stage.replies = stage.replies.max(queued);
    }

    fn splits(&mut self, stage: u8, _second: u8, _value: u32, queued: usize) {
        let stage = &mut self.stages[stage as usize];
        stage.split += 1;
        stage.replies = stage.replies.max(queued);
    }
}

/// Counts steps.
struct Count(usize);

impl Observer for Count {
    fn begins(&mut self, _step: Step) {
        self.0 += 1;
    }
}

// ---- commands

fn text_of_trace(config: &Config, steps: &[Step]) -> Vec<u8> {
    let mut out = Vec::new();
    push_size(&mut out, config);
    for step in steps {
        push_step(&mut out, *step);
        out.push(b'\n');
    }
    out
}

/// What a command prints of a trace, and whether a fault has stopped a processor.
fn printed(command: &str, config: Config, steps: &[Step], layout: &Layout) -> Result<(Vec<u8>, bool), usize> {
    let mut machine = Machine::new(config, layout);
    let code = &layout.code[..];
    let out = match command {
        "story" => {
            let mut story = Story { code, out: Vec::new(), number: 0, groups: Groups::new() };
            take_all(&mut machine, steps, &mut story)?;
            story.out
        }
        "order" => {
            let sent = [Sent { pc: 0, phi: Phi::Add(0), wanted: Wanted::Nothing }; 64];
            let mut order = Order { code, out: Vec::new(), number: 0, groups: Groups::new(), sent };
            take_all(&mut machine, steps, &mut order)?;
            order.out
        }
        "stats" => {
            let mut stats = Stats::new(config.k);
            take_all(&mut machine, steps, &mut stats)?;
            stats.text(&config)
        }
        "picture" => {
            let mut count = Count(0);
            take_all(&mut machine, steps, &mut count)?;
            picture(&machine, count.0).into_bytes()
        }
        "replay" => {
            let mut tally = Tally::new(&machine);
            take_all(&mut machine, steps, &mut tally)?;
            tally.report(&machine).into_bytes()
        }
        _ => panic!("there is no command {command}"),
    };
    Ok((out, machine.is_faulted()))
}

fn main() -> ExitCode {
    let words: Vec<String> = env::args().skip(1).collect();
    let words: Vec<&str> = words.iter().map(String::as_str).collect();
    let ([command, path, _] | [command, path]) = words[..] else {
        eprintln!("usage: traces COMMAND TRACE FILE, traces trace TRACE");
        return ExitCode::from(2);
    };
    let (config, steps) = trace(&fs::read(path).expect("TRACE can be read")).expect("TRACE is a trace");
    let printed = match words[..] {
        [_, _, file] => printed(command, config, &steps, &layout(&fs::read(file).expect("FILE can be read"), config.words)),
        _ => Ok((text_of_trace(&config, &steps), false)),
    };
    match printed {
        Ok((text, is_faulted)) => {
            io::stdout().write_all(&text).expect("standard output can be written");
            ExitCode::from(u8::from(is_faulted))
        }
        Err(number) => {
            eprintln!("ultra: X7 step {number}");
            ExitCode::from(2)
        }
    }
}
