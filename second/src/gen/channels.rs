//! Cases of A.9: READs that are completed and READs that fail, in runs with every stop,
//! in processes that lines and traps go to, and before refused runs.

use super::hostile::TRAP_TARGET;
use super::lines::{any_line, line_world, machine, place, Process};
use super::requests::lent_runs;
use super::rng::Rng;
use super::state::World;
use super::traps::{trap_run, LINE};
use super::{case_of, plain_run, words, Scale};
use crate::api;
use crate::assemble::{encode, Source};
use crate::case::{Case, CaseRun};
use crate::machine::Machine;
use crate::opcode::*;
use crate::request::*;

/// The cases that come in turn.
pub fn turn_case(rng: &mut Rng, scale: &Scale, round: usize) -> Case {
    let turn = round / 4;
    match round % 4 {
        0 => steps_case(rng, scale, turn),
        1 => stops_case(rng, turn),
        2 => processes_case(rng, turn),
        _ => refused_case(rng),
    }
}

/// Channels in turn, each by a READ as the only step. And READs that fail by the address,
/// by the channel and by both, which stop and which are caught.
fn steps_case(rng: &mut Rng, scale: &Scale, turn: usize) -> Case {
    let world = line_world(rng, scale);
    let mut case = case_of(rng, world.image.clone(), world.words);
    for channel in [2 * turn, 2 * turn + 1] {
        let address = rng.below(world.words);
        let machine = at_read(rng, &world, channel % 16, address);
        case.runs.push(trap_run(rng, machine, vec![]));
    }
    let (good, bad) = (rng.below(16), rng.pick(&[16, 17, 31, 255, 256, 65_535]));
    let inside = rng.below(world.words);
    let outside = rng.pick(&[world.words, world.words + 1, 65_535]);
    for (channel, address) in [(good, outside), (bad, inside), (bad, outside)] {
        let machine = at_read(rng, &world, channel, address);
        let without = vec![(target_word(LINE), 0)];
        case.runs.push(trap_run(rng, machine, without));
        let to = world.place_to_resume(rng);
        let process = Process::new(rng, &world, 0, LINE, to);
        let patches = process.patches(rng, &world);
        case.runs.push(trap_run(rng, machine, patches));
    }
    case
}

/// A machine at a READ of this channel to this address.
fn at_read(rng: &mut Rng, world: &World, channel: usize, address: usize) -> Machine {
    let at = place(rng, world, |place| place.opcode == READ);
    let mut machine = machine(rng, world, at);
    let depth = usize::from(machine.depth);
    machine.stack[depth - 2..depth].copy_from_slice(&[address as u16, channel as u16]);
    machine
}

/// The words of the store of the other cases, a free one, and where others are that
/// READs fill.
const WORDS: usize = 400;
const FREE: u8 = 70;
const OTHERS: (usize, usize) = (80, 120);

/// Inputs, the channels that no READ has yet, and the channels that go to an address.
struct Inputs {
    words: Vec<u16>,
    free: Vec<u8>,
    channels: Vec<(u16, u8)>,
}

impl Inputs {
    fn new(rng: &mut Rng) -> Inputs {
        let mut free: Vec<u8> = (0..16).collect();
        rng.shuffle(&mut free);
        Inputs {
            words: words(rng, 16),
            free,
            channels: Vec::new(),
        }
    }

    /// LIW, a literal and READ: another channel, which has this word, to an address.
    fn read(&mut self, address: u16, word: u16) -> Vec<u8> {
        let channel = self.free.pop().expect("there are fewer READs");
        self.words[usize::from(channel)] = word;
        self.channels.push((address, channel));
        let [high, low] = address.to_be_bytes();
        vec![LIW, high, low, channel, READ]
    }

    /// The same to any address, with any word.
    fn read_any(&mut self, rng: &mut Rng) -> Vec<u8> {
        let address = rng.within(OTHERS.0, OTHERS.1) as u16;
        self.read(address, rng.word())
    }

    /// The inputs with other words in the channels that no READ has.
    fn with_others(&self) -> Vec<u16> {
        let mut words = self.words.clone();
        for &channel in &self.free {
            words[usize::from(channel)] ^= 65_535;
        }
        words
    }

    /// The inputs with another word for this address.
    fn with(&self, address: u16, word: u16) -> Vec<u16> {
        let mut words = self.words.clone();
        for (_, channel) in self.channels.iter().filter(|to| to.0 == address) {
            words[usize::from(*channel)] = word;
        }
        words
    }
}

/// Adds a run, and others with its inputs and with what the run before returned.
fn push_parts(rng: &mut Rng, case: &mut Case, first: CaseRun, budgets: &[usize]) {
    let inputs = first.inputs.clone();
    case.runs.push(first);
    for &budget in budgets {
        let inputs = inputs.clone();
        let run = plain_run(rng, budget);
        case.runs.push(CaseRun { inputs, ..run });
    }
}

/// A run from a machine, with these inputs.
fn run_from(rng: &mut Rng, machine: Machine, inputs: &[u16], budget: usize) -> CaseRun {
    CaseRun {
        machine: Some(machine),
        inputs: inputs.to_vec(),
        ..plain_run(rng, budget)
    }
}

/// Two programs that read channels and stop, in turn: in one run; the same with other
/// words in the channels that they do not read; and in parts, spent behind a READ and
/// before one.
fn stops_case(rng: &mut Rng, turn: usize) -> Case {
    let programs = [2 * turn, 2 * turn + 1].map(|turn| {
        let mut inputs = Inputs::new(rng);
        let some = rng.within(1, 5);
        let count = [0, some, 15][turn % 3];
        let mut code = Vec::new();
        for _ in 0..count {
            code.extend(inputs.read_any(rng));
        }
        code.extend(stop(&mut inputs, turn % STOPS));
        (Source::plain(&code), inputs, count)
    });
    let modules = programs.each_ref().map(|program| program.0.clone());
    let mut case = case_of(rng, encode(&modules), WORDS);
    let (_, machine) = api::start(&case.image, &mut [0; WORDS]);
    for (module, (_, inputs, count)) in (0..).zip(&programs) {
        let machine = Machine { module, ..machine };
        for words in [&inputs.words, &inputs.with_others()] {
            case.runs.push(run_from(rng, machine, words, 99));
        }
        // Each READ is the third step.
        let behind = 3 * rng.within(1, (*count).max(1));
        let first = run_from(rng, machine, &inputs.words, behind);
        push_parts(rng, &mut case, first, &[2, 99]);
    }
    case
}

/// The stops 30 to 40, in this order, and 34 of a LODFW.
const STOPS: usize = 12;

/// A READ, and a stop by the word that it takes.
fn stop(inputs: &mut Inputs, kind: usize) -> Vec<u8> {
    // The frame that start sets behind two modules, where the end mark is, and S.
    const L: u16 = 128 + 2 * 3 + 8;
    const S: u16 = L + 4;
    let free = u16::from(FREE);
    let (address, word, then): (u16, u16, &[u8]) = match kind {
        0 => (free, 0, &[JPB, 1]),
        1 => (L + 2, Machine::END_MARK, &[RTN]),
        2 => (free, 65_535, &[LIB, FREE, LSW0, 3, READ, JPB, 1]),
        // Whatever the word.
        3 => (free, 0, &[ENTR, 255, ENTR, 255, JPB, 1]),
        4 => (L + 2, 65_535, &[RTN]),
        5 => (free, 65_535, &[0, LIB, FREE, TRA, 0, JPB, 1]),
        6 => (free, 0, &[5, LIB, FREE, LSW0, UDIV, JPB, 1]),
        7 => (free, 0x8000, &[LIB, FREE, LSW0, ABS, JPB, 1]),
        8 => (free, 6, &[LIB, FREE, LSW0, 5, CHKZ, JPB, 1]),
        9 => (free, 16, &[LIB, FREE, LIB, FREE, LSW0, READ, JPB, 1]),
        10 => (free, 1234, &[LIB, FREE, LSW0, TRAP]),
        _ => {
            // The count of no words.
            let count = inputs.read(S, 5);
            return [&[STORE], &count[..], &[0, LODFW, TRAP]].concat();
        }
    };
    [&inputs.read(address, word), then].concat()
}

/// Three processes, each in a module of its own. The first leads to the second by a line
/// and that one to the third by a trap of a READ, or the other way round; the third ends.
/// READs give what leads there. In one run; the same with other words in the channels that
/// are not read; with another word 2i and another word 14; and in parts.
fn processes_case(rng: &mut Rng, turn: usize) -> Case {
    let (line, line_first) = (any_line(rng), turn.is_multiple_of(2));
    let mut inputs = Inputs::new(rng);
    let given = [rng.below(6), 6, 7][turn / 2 % 3];
    let (modules, patches) = processes(rng, &mut inputs, line, line_first, given);
    let mut case = case_of(rng, encode(&modules), WORDS);
    let (_, machine) = api::start(&case.image, &mut [0; WORDS]);
    let mut whole = run_from(rng, machine, &inputs.words, 99);
    whole.requests = Some(bit(line) | rng.word() & !LINES);
    whole.store_patches = patches;
    case.runs.push(whole.clone());
    let own = if line_first { RECORDS[0] } else { machine.p };
    let no_process = rng.pick(&[0, own, 65_535]);
    for inputs in [
        inputs.with_others(),
        inputs.with(target_word(line), 65_535),
        inputs.with(TRAP_TARGET, no_process),
    ] {
        let whole = whole.clone();
        case.runs.push(CaseRun { inputs, ..whole });
    }
    let [budget, next] = [0; 2].map(|_| rng.within(1, 12));
    whole.budget = budget as u32;
    push_parts(rng, &mut case, whole, &[next, 99]);
    case
}

/// The modules of the processes, and words of the store. READs give words 2i, 3 and 14, a
/// word of the process that catches the trap, and the end mark; the store has other words
/// there.
fn processes(
    rng: &mut Rng,
    inputs: &mut Inputs,
    line: u8,
    line_first: bool,
    given: usize,
) -> ([Source; 3], Vec<(u16, u16)>) {
    let mut processes = [0, 1].map(|number| process(rng, number, bit(line)));
    let catching = &mut processes[usize::from(line_first)];
    let to_give = catching[given];
    catching[given].1 ^= 65_535;
    let [first, second] = [0, 1].map(|number| match line_first == (number == 0) {
        true => by_line(rng, inputs, line, RECORDS[number]),
        false => by_trap(rng, inputs, to_give, RECORDS[number]),
    });
    let end = [inputs.read(L + 2, Machine::END_MARK), vec![RTN]].concat();
    let modules = [
        first,
        [inputs.read_any(rng), second].concat(),
        [inputs.read_any(rng), end].concat(),
    ];
    let mut patches = processes.concat();
    patches.extend([(target_word(line), 0), (HELD as u16, bit(line))]);
    patches.extend([(TRAP_TARGET, 0), (L + 2, 0)]);
    (modules.map(|code| Source::plain(&code)), patches)
}

/// The frame that start sets behind three modules, where the end mark is.
const L: u16 = 128 + 3 * 3 + 8;

/// Where the records of the second and the third process are, and how far behind them
/// their stacks.
const RECORDS: [u16; 2] = [260, 300];
const STACK: u16 = 20;

/// The words of a process that begins at position 3 of its module, with the address of
/// its first READ on the stack: its record, that word, and the count. Its M is without
/// this bit.
fn process(rng: &mut Rng, number: usize, open: u16) -> Vec<(u16, u16)> {
    let (record, base) = (RECORDS[number], 131 + 3 * number as u16);
    let lowest = record + STACK;
    let words = [base, L, 3, rng.word() & !open, lowest + 2, WORDS as u16];
    let mut patches: Vec<(u16, u16)> = (record..).zip(words).collect();
    let address = rng.within(OTHERS.0, OTHERS.1) as u16;
    patches.extend([(lowest, address), (lowest + 1, 1)]);
    patches
}

/// READs that name the line's target and let the line go.
fn by_line(rng: &mut Rng, inputs: &mut Inputs, line: u8, record: u16) -> Vec<u8> {
    let name = inputs.read(target_word(line), record);
    let held = rng.word() & !bit(line);
    [name, inputs.read(HELD as u16, held), vec![JPB, 1]].concat()
}

/// READs that give a word of a process and name it in word 14, and one that fails, of a
/// channel that no other has.
fn by_trap(rng: &mut Rng, inputs: &mut Inputs, (to, word): (u16, u16), record: u16) -> Vec<u8> {
    let given = inputs.read(to, word);
    let name = inputs.read(TRAP_TARGET, record);
    let failing = match rng.below(2) {
        0 => vec![LIW, 255, 255, inputs.free[0], READ, JPB, 1],
        _ => vec![LIB, FREE, LIB, 16, READ, JPB, 1],
    };
    [given, name, failing].concat()
}

/// Two READs again and again, and runs refused with 10, 11 and 12 behind them.
fn refused_case(rng: &mut Rng) -> Case {
    let mut inputs = Inputs::new(rng);
    let reads = [0; 2].map(|_| inputs.read_any(rng)).concat();
    let code = [&reads[..], &[JPB, 11]].concat();
    let mut case = case_of(rng, encode(&[Source::plain(&code)]), WORDS);
    let (_, machine) = api::start(&case.image, &mut [0; WORDS]);
    for lent in lent_runs(rng, WORDS, &case.image) {
        let budget = rng.within(3, 12);
        let mut good = run_from(rng, machine, &inputs.words, budget);
        good.map_patches = vec![(4, 0)];
        case.runs.extend([good, lent]);
    }
    case
}
