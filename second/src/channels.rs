//! What cases reach of A.9: READs, and the word of channels that a run returns.

use crate::api::RunAnswer;
use crate::case::{each_run, Case, CaseRun, Caught, Outcome, Read, RunOutcome};
use crate::collisions::{record, saved_stack};
use crate::coverage::{named, Reached};
use crate::image::parse;
use crate::lines::Setting;
use crate::machine::Machine;
use crate::number::*;
use crate::opcode::{LODFW, READ, RTN, TRA};
use crate::request::{lines, target_word, HELD};
use std::ops::Range;

/// Counts of what was reached; each must be.
#[derive(Default)]
pub struct Channels {
    /// By channel: READs as the only step of a run.
    steps: [u64; 16],
    /// By [`FAILING`]: READs that stop a run, and READs that are caught.
    stops: [u64; FAILING.len()],
    caught: [u64; FAILING.len()],
    /// By [`READS`] and [`INTO`]: completed READs, anywhere in a run.
    reads: [u64; READS.len()],
    into: [u64; INTO.len()],
    /// By [`BITS`].
    bits: [u64; BITS.len()],
    /// By stop: runs with a channel.
    numbers: [u64; NUMBERS],
    /// By [`SPENT_AT`].
    spent: [u64; SPENT_AT.len()],
    /// By [`REFUSED`] and [`NEXT`]: runs behind one with a channel.
    refused: [u64; REFUSED.len()],
    next: [u64; NEXT.len()],
}

/// The stops: 30 to 40.
const NUMBERS: usize = (PROGRAM - SPENT) as usize + 1;

/// How a READ fails.
const FAILING: [&str; 3] = [
    "32",
    "39 and an address in the store",
    "39 and an address outside",
];

/// How many channels a word has.
const BITS: [&str; 4] = ["no bit", "1 bit", "2 to 15 bits", "16 bits"];

/// Where a run is spent. The READ's channel is not read before.
const SPENT_AT: [&str; 2] = ["behind a READ", "before a READ"];

/// What a run can be refused with behind one that is not: the image and the lengths of
/// its other buffers are those of the case.
const REFUSED: [u8; 3] = [CHANNEL_COUNT, NOT_A_MACHINE, MAP_UNFIT];

/// What the next run does.
const NEXT: [&str; 3] = [
    "that do not read it",
    "that read it too",
    "that read another",
];

/// A run and a READ that it completes.
struct Completed<'a> {
    setting: &'a Setting<'a>,
    run: &'a CaseRun,
    made: &'a RunOutcome,
    read: &'a Read,
}

/// Whether a READ is of a kind.
type Test = fn(&Completed) -> bool;

/// Where READs are, and what is behind them.
const READS: [(&str, Test); 7] = [
    ("in a module other than 0", |it| it.read.module != 0),
    ("of a channel that is read again", |it| {
        let again = |other: &Read| other.count > it.read.count && other.channel == it.read.channel;
        it.made.reads.iter().any(again)
    }),
    ("behind a line", |it| it.read.behind != 0),
    ("behind a caught trap", |it| it.read.traps != 0),
    ("behind a caught READ", |it| {
        let caught = &it.made.caught[..it.read.traps];
        caught
            .iter()
            .any(|caught| failing(it.setting, caught.trap, &caught.old).is_some())
    }),
    ("behind a line, and then behind a caught trap", |it| {
        let is_first = it.read.behind != 0 && it.read.traps == 0;
        is_first && it.made.reads.iter().any(|other| other.traps != 0)
    }),
    ("behind a caught trap, and then behind a line", |it| {
        let is_first = it.read.traps != 0 && it.read.behind == 0;
        is_first && it.made.reads.iter().any(|other| other.behind != 0)
    }),
];

/// Words that the machine goes by, later in the same run.
const INTO: [(&str, Test); 12] = [
    ("word 3, before a line that it held", |it| {
        it.address() == HELD && it.taken() & it.made.before[HELD] != 0
    }),
    ("word 2i, before line i", |it| {
        lines(it.taken()).any(|line| target_word(line) == it.read.address)
    }),
    ("word 2i, before line i that fails", |it| {
        let failed = it.caught().filter_map(|caught| caught.line);
        let mut failed = failed.chain(it.made.failed());
        failed.any(|line| target_word(line) == it.read.address)
    }),
    ("word 14, before a trap that is caught", |it| {
        let input = it.run.inputs[usize::from(it.read.channel)];
        let names = it.address() == Machine::TRAP_TARGET;
        names && it.caught().any(|caught| caught.new.p == input)
    }),
    ("word 14, before a trap that is not", |it| {
        let names = it.address() == Machine::TRAP_TARGET;
        names && it.made.answer.number >= ADDRESS && it.caught().next().is_none()
    }),
    ("the record of a process that catches a trap", |it| {
        it.caught()
            .any(|caught| record(caught.new.p).contains(&it.address()))
    }),
    ("the words of a process that catches a trap", |it| {
        it.stacks()
            .any(|stack| (stack.start..stack.end - 1).contains(&it.address()))
    }),
    ("the count of a process that catches a trap", |it| {
        it.stacks().any(|stack| stack.end - 1 == it.address())
    }),
    ("the return mark of an end", |it| {
        it.stops(ENDED, RTN) && it.address() == usize::from(it.stopped().l) + 2
    }),
    ("the return mark of a RTN that stops with 34", |it| {
        it.stops(RETURN_MARK, RTN) && it.address() == usize::from(it.stopped().l) + 2
    }),
    ("the count of a LODFW that stops with 34", |it| {
        it.stops(RETURN_MARK, LODFW) && it.address() + 1 == usize::from(it.stopped().s)
    }),
    ("the target of a TRA that stops with 35", |it| {
        let machine = it.stopped();
        it.stops(PROCESS, TRA) && it.read.address == machine.stack[usize::from(machine.depth) - 1]
    }),
];

impl Completed<'_> {
    fn address(&self) -> usize {
        self.read.address.into()
    }

    /// The lines that are taken behind it.
    fn taken(&self) -> u16 {
        self.made.taken() & !self.read.behind
    }

    /// The traps that are caught behind it.
    fn caught(&self) -> impl Iterator<Item = &Caught> {
        self.made.caught[self.read.traps..].iter()
    }

    /// Where the processes that catch them had their words, and their count.
    fn stacks(&self) -> impl Iterator<Item = Range<usize>> + '_ {
        self.caught()
            .map(|caught| saved_stack(&caught.new, caught.new.depth))
    }

    /// The machine at the end of the run.
    fn stopped(&self) -> &Machine {
        &self.made.answer.machine
    }

    /// Whether an instruction stops the run with this number.
    fn stops(&self, number: u8, opcode: u8) -> bool {
        let is_instruction = self.made.failed().is_none();
        let right = self.made.answer.number == number && is_instruction;
        right && self.setting.opcode(self.stopped()) == opcode
    }
}

impl Channels {
    /// Adds a case and what came of it.
    pub fn add(&mut self, case: &Case, outcome: &Outcome) {
        let Ok(program) = parse(&case.image) else {
            return;
        };
        let program = &program;
        // The channels of the run before.
        let mut last = 0;
        each_run(case, outcome, |run, made, map| {
            let answer = &made.answer;
            if answer.number >= SPENT {
                self.add_run(&Setting { case, program, map }, run, made);
            }
            if last != 0 {
                self.add_behind(last, answer);
            }
            last = answer.channels;
        });
    }

    /// A run behind one with these channels.
    fn add_behind(&mut self, last: u16, answer: &RunAnswer) {
        if let Some(kind) = REFUSED.iter().position(|&it| it == answer.number) {
            self.refused[kind] += 1;
            return;
        }
        let channels = answer.channels;
        let kinds = [last & !channels, last & channels, channels & !last];
        for (count, kind) in self.next.iter_mut().zip(kinds) {
            *count += u64::from(kind != 0);
        }
    }

    /// A run that is not refused.
    fn add_run(&mut self, setting: &Setting, run: &CaseRun, made: &RunOutcome) {
        let answer = &made.answer;
        self.bits[match answer.channels.count_ones() {
            0 => 0,
            1 => 1,
            2..=15 => 2,
            _ => 3,
        }] += 1;
        if answer.channels != 0 {
            self.numbers[usize::from(answer.number - SPENT)] += 1;
        }
        if let (true, [read]) = (made.is_instruction(), &made.reads[..]) {
            self.steps[usize::from(read.channel)] += 1;
        }
        for caught in &made.caught {
            if let Some(kind) = failing(setting, caught.trap, &caught.old) {
                self.caught[kind] += 1;
            }
        }
        if let Some(kind) = failing(setting, answer.number, &answer.machine) {
            self.stops[kind] += 1;
        }
        if let Some(kind) = spent_at(setting, made) {
            self.spent[kind] += 1;
        }
        self.add_reads(setting, run, made);
    }

    /// The READs of a run: each kind once.
    fn add_reads(&mut self, setting: &Setting, run: &CaseRun, made: &RunOutcome) {
        let is_so = |test: Test| {
            let mut reads = made.reads.iter();
            u64::from(reads.any(|read| {
                test(&Completed {
                    setting,
                    run,
                    made,
                    read,
                })
            }))
        };
        for (count, (_, test)) in self.reads.iter_mut().zip(READS) {
            *count += is_so(test);
        }
        for (count, (_, test)) in self.into.iter_mut().zip(INTO) {
            *count += is_so(test);
        }
    }

    /// The lines of the report: what was reached, its kinds and their counts.
    pub fn reached(&self) -> Vec<Reached> {
        let channels: Vec<u8> = (0..16).collect();
        let stops: Vec<u8> = (SPENT..=PROGRAM).collect();
        let reads = READS.map(|(name, _)| name);
        let into = INTO.map(|(name, _)| name);
        let refused = named(&REFUSED, &self.refused);
        vec![
            ("READs of channel", named(&channels, &self.steps)),
            ("READs stopped with", named(&FAILING, &self.stops)),
            ("READs caught with", named(&FAILING, &self.caught)),
            ("READs", named(&reads, &self.reads)),
            ("READs into", named(&into, &self.into)),
            ("words of channels with", named(&BITS, &self.bits)),
            (
                "runs with a channel stopped with",
                named(&stops, &self.numbers),
            ),
            ("runs spent", named(&SPENT_AT, &self.spent)),
            ("runs behind one with a channel refused with", refused),
            (
                "runs behind one that reads a channel",
                named(&NEXT, &self.next),
            ),
        ]
    }
}

/// The index in [`FAILING`] of a trap at this machine, if it is a READ's.
fn failing(setting: &Setting, trap: u8, machine: &Machine) -> Option<usize> {
    if !matches!(trap, ADDRESS | CHANNEL) || setting.opcode(machine) != READ {
        return None;
    }
    let address = machine.stack[usize::from(machine.depth) - 2];
    let is_inside = usize::from(address) < setting.case.store_length;
    match trap {
        ADDRESS => Some(0),
        _ => Some(1 + usize::from(!is_inside)),
    }
}

/// The index in [`SPENT_AT`] of where a run is spent, if it is at a READ.
fn spent_at(setting: &Setting, run: &RunOutcome) -> Option<usize> {
    let answer = &run.answer;
    if answer.number != SPENT {
        return None;
    }
    if let Some((last, others)) = run.reads.split_last() {
        let is_new = others.iter().all(|other| other.channel != last.channel);
        if is_new && last.count + 1 == answer.count {
            return Some(0);
        }
    }
    let next = setting.step(answer.machine, &run.after, answer.requests);
    (next.channels & !answer.channels != 0).then_some(1)
}
