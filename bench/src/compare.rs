//! Freshly generated cases on both sides: load, archive, start and the list of runs, with all buffers and machines compared after each
//! call; and the archive forms there and back.

use crate::forms::Forms;
use crate::sides::{Compared, Sides};
use crate::words::words;
use cembuxola::c::LINKED as ENGINE;
use cembuxola::{ANSWER_NUMBERS, MACHINE_WORDS, PLACE_WORDS, WRITTEN_NUMBERS};
use second::case::Case;
use second::gen;
use second::gen::rng::Rng;
use std::collections::BTreeMap;

/// What was compared.
#[derive(Default)]
pub struct Total {
    pub cases: u64,
    pub runs: u64,
    pub steps: u64,
    /// The lines that were taken.
    pub lines: u64,
    /// The runs that read an input.
    pub reading: u64,
    pub forms: Forms,
    /// How often each number was answered by load, by archive, and by a run.
    pub loads: BTreeMap<u16, u64>,
    pub archives: BTreeMap<u16, u64>,
    pub numbers: BTreeMap<u16, u64>,
}

/// So many cases have forms that are shorter than their images.
const LARGE: u64 = 1_000;

impl Total {
    /// Archive on both sides, with maps as load is lent them, and the image's form there and back.
    fn archive(&mut self, case: &Case, rng: &mut Rng) -> Compared<()> {
        let map = vec![case.map_fill; case.map_length];
        let mut sides = Sides::new(&case.image, map, Vec::new(), Vec::new());
        let output = vec![case.output_fill; case.output_length];
        wrong_written(&sides, &output)?;
        *self.archives.entry(sides.archive(&output)?).or_default() += 1;
        self.forms.there_and_back(&case.image, rng)
    }

    fn case(&mut self, case: &Case) -> Compared<()> {
        let mut sides = Sides::new(
            &case.image,
            vec![case.map_fill; case.map_length],
            vec![case.store_fill; case.store_length],
            case.outputs.clone(),
        );
        wrong_places(&sides)?;
        *self.loads.entry(sides.load()?).or_default() += 1;
        sides.start()?;
        // what the run before has left of the requests
        let mut left = 0;
        for (index, run) in case.runs.iter().enumerate() {
            for &(offset, entry) in &run.map_patches {
                sides.ours.map[usize::from(offset)] = entry;
                sides.theirs.map[usize::from(offset)] = entry;
            }
            for &(address, word) in &run.store_patches {
                sides.ours.store[usize::from(address)] = word;
                sides.theirs.store[usize::from(address)] = word;
            }
            if let Some(machine) = run.machine {
                sides.ours.machine = words(&machine);
                sides.theirs.machine = machine;
            }
            let of = |error| format!("run {index}: {error}");
            let requests = run.requests.unwrap_or(left);
            if index == 0 {
                wrong_lengths(&sides, &run.inputs, run.budget, requests).map_err(of)?;
                far_module(&sides, &run.inputs, run.budget, requests).map_err(of)?;
            }
            let (number, answer) = sides.run(&run.inputs, run.budget, requests).map_err(of)?;
            // it is the second interpreter's word
            left = answer[2] as u16;
            self.runs += 1;
            self.steps += u64::from(answer[0]);
            self.lines += u64::from((requests & !left).count_ones());
            self.reading += u64::from(answer[3] != 0);
            *self.numbers.entry(number).or_default() += 1;
        }
        self.cases += 1;
        Ok(())
    }
}

/// Another length of what is written is answered with 20, and nothing is changed.
fn wrong_written(sides: &Sides, output: &[u8]) -> Compared<()> {
    for numbers in [0, WRITTEN_NUMBERS + 1] {
        let (mut map, mut out) = (sides.ours.map.clone(), output.to_vec());
        let mut written = vec![7; numbers];
        let number = ENGINE.archive(&sides.image, &mut map, &mut out, &mut written);
        let kept =
            map == sides.ours.map && out == output && written.iter().all(|&number| number == 7);
        if number != 20 || !kept {
            return Err(format!(
                "archive with {numbers} numbers to write: answered {number}, all kept: {kept}"
            ));
        }
    }
    Ok(())
}

/// A place of a wrong length is answered with 20, and nothing is changed.
fn wrong_places(sides: &Sides) -> Compared<()> {
    for words in [0, PLACE_WORDS - 1, PLACE_WORDS + 1] {
        let mut map = sides.ours.map.clone();
        let mut place = vec![7; words];
        let number = ENGINE.load(&sides.image, &mut map, &mut place);
        let kept = map == sides.ours.map && place.iter().all(|&word| word == 7);
        if number != 20 || !kept {
            return Err(format!(
                "load with a place of {words} words: answered {number}, all kept: {kept}"
            ));
        }
    }
    Ok(())
}

/// A machine or an answer of a wrong length is answered with 20, and nothing is changed.
fn wrong_lengths(sides: &Sides, inputs: &[u16], n: u32, requests: u16) -> Compared<()> {
    const LENGTHS: [(usize, usize); 8] = [
        (0, ANSWER_NUMBERS),
        (MACHINE_WORDS - 1, ANSWER_NUMBERS),
        (MACHINE_WORDS + 1, ANSWER_NUMBERS),
        (MACHINE_WORDS, 0),
        (MACHINE_WORDS, 1),
        (MACHINE_WORDS, 2),
        (MACHINE_WORDS, 3),
        (MACHINE_WORDS, 5),
    ];
    for (machine_words, answer_numbers) in LENGTHS {
        let mut ours = sides.ours.clone();
        let mut machine = vec![7; machine_words];
        let mut answer = vec![7; answer_numbers];
        let number = ENGINE.run(
            &mut machine,
            &sides.image,
            &ours.map,
            &mut ours.store,
            &mut ours.outputs,
            inputs,
            &mut answer,
            n,
            requests,
        );
        let mut numbers = vec![number];
        if machine_words != MACHINE_WORDS {
            numbers.push(ENGINE.start(&sides.image, &mut ours.store, &mut machine));
        }
        let kept = machine.iter().all(|&word| word == 7)
            && answer.iter().all(|&number| number == 7)
            && ours.store == sides.ours.store
            && ours.outputs == sides.ours.outputs;
        if numbers.iter().any(|&number| number != 20) || !kept {
            return Err(format!(
                "{machine_words} words and {answer_numbers} numbers: answered {numbers:?}, all kept: {kept}"
            ));
        }
    }
    Ok(())
}

/// A module above 255 is refused as module 255 is, the words stay, the requests come back as given, and no channel is read.
fn far_module(sides: &Sides, inputs: &[u16], n: u32, requests: u16) -> Compared<()> {
    for module in [255, 256, 257, 65_535] {
        let mut ours = sides.ours.clone();
        ours.machine[0] = module;
        let machine = ours.machine;
        let answer = ours.run(&sides.image, inputs, n, requests);
        let mut theirs = sides.theirs.clone();
        theirs.machine.module = 255;
        let other = theirs.run(&sides.image, inputs, n, requests);
        let kept = ours.machine == machine
            && ours.store == sides.ours.store
            && ours.outputs == sides.ours.outputs;
        let refused = (u16::from(other.number), [0, 0, u32::from(requests), 0]);
        if answer != refused || !kept {
            return Err(format!(
                "module {module}: answered {answer:?}, all kept: {kept}"
            ));
        }
    }
    Ok(())
}

/// A case of a seed. Each kind of case recurs in every round, and every other round is one of full cases.
fn generated(seed: u64, index: u64) -> Case {
    let scale = if index / gen::ROUND % 2 == 1 {
        &gen::FULL
    } else {
        &gen::SMALL
    };
    gen::case(scale, seed, index)
}

/// Compares `count` cases; the first difference is an error that names its case.
pub fn compare(count: u64, seed: u64) -> Compared<Total> {
    let mut total = Total::default();
    for index in 0..count {
        let case = generated(seed, index);
        // other numbers than those that made the case
        let rng = &mut Rng::for_case(!seed, index);
        total
            .archive(&case, rng)
            .and_then(|()| total.case(&case))
            .map_err(|error| format!("case {index} of seed {seed}: {error}"))?;
    }
    let Forms {
        compared,
        shorter,
        spelled,
    } = total.forms;
    if count >= LARGE && (shorter == 0 || spelled == 0) {
        return Err(format!(
            "of {count} cases {compared} have forms, {shorter} of them shorter than the image, and {spelled} were spelled out"
        ));
    }
    Ok(total)
}
