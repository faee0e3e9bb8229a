//! Writes a file of inputs and their answers, for another program to repeat.
//!
//! Each entry: the input's length (two bytes, high first), the input, one byte
//! of refusal or 0, and the twelve counts in their printed order (four bytes
//! each, high first), which are 0 where there is a refusal.

use compare::inputs::{
    any_choices, any_plan, whole_input, Costs, Shape, Wish, COSTS, MAX_ACTIONS, MAX_CHOICES,
    MAX_JOBS, SHAPES,
};
use compare::random::Random;
use std::error::Error;
use std::{env, fs};

const MAX_INPUT: usize = 16_384;
const MAX_FILE: usize = 400_000;

fn main() -> Result<(), Box<dyn Error>> {
    let path = env::args().nth(1).ok_or("a path is needed")?;
    let mut random = Random(0x5EED_0009);
    let mut inputs = headers();
    inputs.extend(accepted(&mut random));
    inputs.extend(turned_down(&mut random));
    inputs.extend(several_causes(&mut random));
    inputs.extend(large(&mut random));

    let mut file = Vec::new();
    let mut told = [0; 9];
    for input in &inputs {
        assert!(input.len() <= MAX_INPUT);
        file.extend((input.len() as u16).to_be_bytes());
        file.extend(input);
        match second::build(input) {
            Err(refusal) => {
                file.push(refusal as u8);
                file.extend([0; 48]);
                told[refusal as usize] += 1;
            }
            Ok(counts) => {
                file.push(0);
                told[0] += 1;
                for (_, value) in counts.named() {
                    file.extend(value.to_be_bytes());
                }
            }
        }
    }
    assert!(inputs.len() >= 500 && file.len() <= MAX_FILE);
    assert!(told.iter().all(|&count| count > 0), "an answer is missing");
    fs::write(&path, &file)?;
    println!("{} runs, {} bytes", inputs.len(), file.len());
    for (refusal, count) in told.iter().enumerate() {
        println!("{count:>4} answered {refusal}");
    }
    Ok(())
}

/// Inputs that end or are turned down before the plan.
fn headers() -> Vec<Vec<u8>> {
    let plan = [1, 0, 0x80, 0, 0x80, 0x80, 0];
    let mut inputs = vec![
        vec![],
        vec![1],
        vec![1, 0],
        vec![0, 0],
        vec![1, 0, 0],
        vec![0, 0, 0],
        vec![2, 0, 1],
        vec![2, 0, 2, 0],
        vec![2, 0x10, 0],
        vec![2, 0x10, 1],
        vec![0, 0x10, 1, 0],
        vec![0, 0xFF, 0xFF],
        vec![17, 0xFF, 0xFF, 1, 2, 3],
    ];
    let costed = [2, 0, 0x80, 0, 0x80, 0xBC];
    for workers in [0, 1, 2, 16, 17, 128, 255] {
        for choices in [&[][..], &[0], &[1], &[0, 16], &[255]] {
            inputs.push(whole_input(workers, choices, &plan));
        }
        for choices in [&[][..], &[0]] {
            inputs.push(whole_input(workers, choices, &costed));
        }
    }
    // One choice too many, and just as many as may be.
    for count in [MAX_CHOICES + 1, MAX_CHOICES, MAX_CHOICES - 1] {
        inputs.push(whole_input(2, &vec![1; count], &plan));
    }
    // The last choice is missing, or the plan is.
    let full = whole_input(2, &[1; MAX_CHOICES], &[]);
    inputs.push(full[..full.len() - 1].to_vec());
    inputs.push(full);
    inputs
}

/// A plan and list of the generator that take no more than `most` bytes.
fn input(random: &mut Random, most: usize) -> Vec<u8> {
    loop {
        let plan = any_plan(random).bytes();
        let workers = random.within(1, 16);
        let choices = any_choices(random, workers);
        let input = whole_input(workers as u8, &choices, &plan);
        if input.len() <= most {
            return input;
        }
    }
}

fn accepted(random: &mut Random) -> Vec<Vec<u8>> {
    let small = (0..420).map(|_| 200);
    let others = (0..60).map(|_| 1000);
    small
        .chain(others)
        .map(|most| input(random, most))
        .collect()
}

/// Good inputs, touched in one place, cut or made longer.
fn turned_down(random: &mut Random) -> Vec<Vec<u8>> {
    (0..300)
        .map(|k| {
            let mut input = input(random, 160);
            let at = random.below(input.len());
            match k % 6 {
                0 => input.truncate(at),
                1 => input.push(random.pick(&[0, 1, 255])),
                2 => input[0] = random.pick(&[0, 17, 255]),
                3 => input[at] = random.number() as u8,
                _ => input[at] ^= 1 << random.below(8),
            }
            input
        })
        .collect()
}

/// Plans with one field out of its range or rule, half of them with worker
/// counts and choices that would be turned down too.
fn several_causes(random: &mut Random) -> Vec<Vec<u8>> {
    (0..120)
        .map(|k| {
            let mut wish = Wish::any(random, 1 + k % 5, 3 + k % 17);
            if k % 10 == 8 {
                wish.costs = Some(random.pick(&COSTS));
            }
            let mut sketch = wish.grant(random);
            let number = random.below(sketch.jobs.len());
            let job = &mut sketch.jobs[number];
            let at = random.below(job.actions.len());
            match k % 10 {
                0 => job.frame = 0,
                1 => job.actions.clear(),
                2 => job.actions[at].child = Some(random.below(8) as u8),
                3 => job.actions[at].child = None,
                4 => job.actions[at].target = Some(random.below(20) as u8),
                5 => sketch.jobs.clear(),
                6 => sketch.jobs.resize(257, sketch.jobs[0].clone()),
                8 => job.actions[at].cost = 0,
                _ => {}
            }
            let mut plan = sketch.bytes();
            match k % 10 {
                7 => plan[0] = random.pick(&[0, 3, 129]),
                // Read in the other form, fields stand elsewhere.
                9 => plan[0] = 3 - plan[0],
                _ => {}
            }
            if k / 10 % 2 == 0 {
                whole_input(random.pick(&[0, 17, 3]), &[3, 200], &plan)
            } else {
                whole_input(2, &[0, 1, 1], &plan)
            }
        })
        .collect()
}

/// The largest plans, some with the longest lists, and inputs of many bytes.
fn large(random: &mut Random) -> Vec<Vec<u8>> {
    let mut inputs = Vec::new();
    for (k, shape) in SHAPES.into_iter().cycle().take(12).enumerate() {
        let mut wish = Wish::any(random, MAX_JOBS, MAX_ACTIONS);
        wish.shape = shape;
        wish.joins = if k < 6 { 0 } else { 100 };
        wish.costs = (k % 2 == 1).then_some(COSTS[k % 5]);
        let plan = wish.grant(random).bytes();
        let workers = [16, 4, 15, 2, 9, 1][k % 6];
        let length = if k % 3 == 0 { MAX_CHOICES } else { 40 };
        let choices: Vec<u8> = (0..length).map(|_| random.below(workers) as u8).collect();
        inputs.push(whole_input(workers as u8, &choices, &plan));
    }
    let longest = longest(random);
    let mut full = longest.clone();
    full.resize(MAX_INPUT, 0);
    inputs.push(longest);
    inputs.push(full);
    inputs
}

/// A good input of more than 8,192 bytes: nearly all that an input can have.
fn longest(random: &mut Random) -> Vec<u8> {
    let wish = Wish {
        shape: Shape::Any,
        joins: 100,
        costs: Some(Costs::Largest),
        ..Wish::any(random, MAX_JOBS, MAX_ACTIONS)
    };
    let plan = wish.grant(random).bytes();
    let choices: Vec<u8> = (0..MAX_CHOICES).map(|_| random.below(16) as u8).collect();
    let input = whole_input(16, &choices, &plan);
    assert!(input.len() > 8192, "{} bytes", input.len());
    input
}
