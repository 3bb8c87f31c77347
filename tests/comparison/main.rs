//! Tests the program that compares two named files. All that it prints must be the line and a line feed; it must end with status 0, and say
//! nothing on standard error. The arguments are the program and a folder for files, which is empty. The last line is `N passed, M failed`.

mod beside;
#[allow(dead_code)]
mod diagrams;
#[path = "../differential/instructions.rs"]
#[allow(dead_code)]
mod instructions;
#[path = "../../bench/plain/mod.rs"]
#[allow(dead_code, unused_imports)]
mod plain;
mod prepared;
mod program;
#[path = "../differential/random.rs"]
#[allow(dead_code)]
mod random;
mod turned;

use instructions::WORDS;
use plain::find::FORMS;
use program::Program;

fn main() {
    let arguments: Vec<String> = std::env::args().skip(1).collect();
    let [program, folder] = [0, 1].map(|k| arguments.get(k).expect("a program and a folder").as_str());
    let program = Program { path: program.into(), folder: folder.into() };
    let (mut passed, mut failed) = (0, 0);
    let mut count = |what: &str, outcome: Result<String, String>| match outcome {
        Ok(how) => {
            passed += 1;
            println!("ok    {what}: {how}");
        }
        Err(why) => {
            failed += 1;
            println!("FAIL  {what}: {why}");
        }
    };
    for (place, form) in FORMS.iter().enumerate() {
        let what = format!("every bit of {}, {} bytes, turned round", WORDS[form.name as usize], form.length);
        count(&what, turned::outcome(&program, place));
    }
    prepared::files(&program);
    for (what, outcome) in prepared::outcomes(&program) {
        count(&what, outcome);
    }
    println!("{passed} passed, {failed} failed");
    std::process::exit(if failed == 0 { 0 } else { 1 });
}
