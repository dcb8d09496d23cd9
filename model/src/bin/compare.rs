//! Plays random scripts on a built player and on the model, and compares what they print, byte for byte.
//! Arguments: the player's path, how many scripts, how many lines each.

use std::io::Write;
use std::process::{Command, ExitCode, Stdio};

fn run(player: &str, script: &[u8]) -> Vec<u8> {
    let mut child = Command::new(player).stdin(Stdio::piped()).stdout(Stdio::piped()).spawn().expect("the player starts");
    let mut input = child.stdin.take().expect("its input is piped");
    let script = script.to_vec();
    let writer = std::thread::spawn(move || input.write_all(&script));
    let output = child.wait_with_output().expect("the player ends");
    writer.join().expect("the writer ends").expect("the script is written");
    assert!(output.status.success(), "the player ends with status 0");
    output.stdout
}

fn main() -> ExitCode {
    let words: Vec<String> = std::env::args().collect();
    let [_, player, scripts, lines] = words.as_slice() else {
        eprintln!("compare PLAYER SCRIPTS LINES");
        return ExitCode::FAILURE;
    };
    let (scripts, lines): (u64, usize) = (scripts.parse().expect("a number"), lines.parse().expect("a number"));
    for seed in 1..=scripts {
        let script = model::scripts::script(seed, lines);
        if run(player, &script) != model::player::play(&script) {
            eprintln!("script {seed} differs");
            return ExitCode::FAILURE;
        }
    }
    println!("{scripts} scripts of {lines} lines agree");
    ExitCode::SUCCESS
}
