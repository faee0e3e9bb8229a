//! Writes the cases of the program crate `cases`: their files, the list that the program reads, and what it has to print.
//! What a case must give is stated by hand, from documents 01 and 02, or by the runners of `run_cases.rs` and `pool_cases.rs`; nothing here
//! looks at the proved code.
//!
//!     rustc -O tools/cases.rs -o target/cases && target/cases crates/cases
//!
//! It writes CRATE/data anew, CRATE/stdin, and CRATE/stdout.
mod check_cases;
mod form_cases;
mod pair_cases;
mod plan_cases;
mod plans;
mod pool_cases;
mod run_cases;

use std::fmt::Write;
use std::fs;
use std::path::Path;

/// The list, what must be printed, and the files of data/.
#[derive(Default)]
struct Cases {
    list: String,
    expected: String,
    files: Vec<(String, Vec<u8>)>,
}

impl Cases {
    fn save(&mut self, file: &str, bytes: Vec<u8>) {
        assert!(self.files.iter().all(|(other, _)| other != file), "{} twice", file);
        self.files.push((file.to_string(), bytes));
    }

    /// A line of the list, whose file is saved. What follows the file's name in it is `rest`.
    fn line(&mut self, kind: &str, file: &str, rest: &str, answer: &str) {
        writeln!(self.list, "{kind} {file}{rest}").unwrap();
        writeln!(self.expected, "{kind} {file}{rest}: {answer}").unwrap();
    }

    /// A file and its one line.
    fn case(&mut self, kind: &str, file: &str, bytes: Vec<u8>, answer: &str) {
        self.save(file, bytes);
        self.line(kind, file, "", answer);
    }

    fn write(&self, folder: &Path) -> std::io::Result<()> {
        let data = folder.join("data");
        if data.exists() {
            fs::remove_dir_all(&data)?;
        }
        for (file, bytes) in &self.files {
            let path = data.join(file);
            fs::create_dir_all(path.parent().unwrap())?;
            fs::write(path, bytes)?;
        }
        fs::write(folder.join("stdin"), &self.list)?;
        fs::write(folder.join("stdout"), format!("{}cases {}\n", self.expected, self.list.lines().count()))
    }
}

fn main() -> std::io::Result<()> {
    let folder = std::env::args().nth(1).expect("the crate's folder");
    let mut cases = Cases::default();
    plan_cases::all(&mut cases);
    form_cases::all(&mut cases);
    pair_cases::all(&mut cases);
    run_cases::all(&mut cases);
    pool_cases::all(&mut cases);
    check_cases::all(&mut cases);
    println!("{} cases of {} files", cases.list.lines().count(), cases.files.len());
    cases.write(Path::new(&folder))
}
