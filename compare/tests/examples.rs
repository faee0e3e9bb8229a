//! Each input of `examples/` gives what stands in the file beside it.

use compare::inputs::MAX_CHOICES;
use compare::proved;
use second::Counts;
use std::path::Path;
use std::{fs, str};

/// `buildrun` sees no more of its input than this.
const MAX_INPUT: usize = 16_384;

/// P, the choices and the plan, where the input has all of its header.
fn parts(input: &[u8]) -> Option<(u32, &[u8], &[u8])> {
    let [workers, high, low, ref rest @ ..] = *input else {
        return None;
    };
    let count = usize::from(u16::from_be_bytes([high, low]));
    let (choices, plan) = rest.split_at_checked(count)?;
    (count <= MAX_CHOICES).then_some((workers.into(), choices, plan))
}

/// What `buildrun` prints, by the proved library. An input whose header is not
/// whole is turned down before the library's calls, so there is nothing to ask.
fn proved_build(input: &[u8]) -> Option<Result<Counts, u32>> {
    let (workers, choices, plan) = parts(input)?;
    let mut schedule = [0; 5124];
    Some(proved::measure(plan).and_then(|measures| {
        let tally = proved::run(plan, workers, choices, &mut schedule)?;
        Ok(Counts::of(tally, measures))
    }))
}

fn printed(counts: Result<Counts, u32>) -> String {
    match counts {
        Ok(counts) => counts.to_string(),
        Err(number) => format!("refused {number}\n"),
    }
}

#[test]
fn examples_print_what_they_say() {
    let folder = Path::new(env!("CARGO_MANIFEST_DIR")).join("../examples");
    let (mut seen, mut whole) = (0, 0);
    for entry in fs::read_dir(folder).expect("examples") {
        let path = entry.expect("an example").path();
        if path.extension().is_some_and(|end| end == "in") {
            let input = fs::read(&path).expect("an input");
            let input = &input[..input.len().min(MAX_INPUT)];
            let wanted = fs::read(path.with_extension("out")).expect("what it prints");
            let wanted = str::from_utf8(&wanted).expect("text");
            assert_eq!(printed(second::build(input)), wanted, "{path:?}, second");
            if let Some(counts) = proved_build(input) {
                assert_eq!(printed(counts), wanted, "{path:?}, proved");
                whole += 1;
            }
            seen += 1;
        }
    }
    assert!(seen >= 26, "only {seen} examples");
    assert!(whole >= 22, "only {whole} examples with a whole header");
}

/// The plan of an example.
fn plan_of(name: &str) -> Vec<u8> {
    let folder = Path::new(env!("CARGO_MANIFEST_DIR")).join("../examples");
    let input = fs::read(folder.join(name).with_extension("in")).expect("an input");
    parts(&input).expect("a whole header").2.to_vec()
}

#[test]
fn roman_and_italic_are_a_pair() {
    let [roman, italic] = [plan_of("roman"), plan_of("italic")];
    let wanted = plan_of("roman-and-italic");
    for pair in [proved::pair, second::pair] {
        let mut bytes = vec![0; wanted.len()];
        assert_eq!(pair(&roman, &italic, 6, &mut bytes), Ok(wanted.len()));
        assert_eq!(bytes, wanted);
    }
}
