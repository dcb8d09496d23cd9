//! Plays one script on the proved player and on the model, in turn, and prints both times and their ratio.
//! Arguments: how many lines, how many rounds.

use std::time::{Duration, Instant};

unsafe extern "C" {
    /// The allocator that the player is given takes no room, so it is not an argument here.
    fn buvzhanik_play(script: *const u8, script_len: usize, output: *mut u8, output_len: usize) -> usize;
}

/// No line is printed with more bytes than this, its end among them.
const LONGEST: usize = 32;

fn proved(script: &[u8], output: &mut [u8]) -> usize {
    // The pointers and lengths are those of two slices that do not overlap.
    unsafe { buvzhanik_play(script.as_ptr(), script.len(), output.as_mut_ptr(), output.len()) }
}

fn main() {
    let words: Vec<usize> = std::env::args().skip(1).filter_map(|word| word.parse().ok()).collect();
    let (lines, rounds) = (words.first().copied().unwrap_or(200_000), words.get(1).copied().unwrap_or(15));
    let script = model::scripts::script(1, lines);
    let mut output = vec![0; LONGEST * lines];
    let (mut player_best, mut model_best) = (Duration::MAX, Duration::MAX);
    for _ in 0..rounds {
        let start = Instant::now();
        let len = proved(&script, &mut output);
        player_best = player_best.min(start.elapsed());
        let start = Instant::now();
        let told = model::player::play(&script);
        model_best = model_best.min(start.elapsed());
        assert!(output.get(..len) == Some(told.as_slice()), "player and model print the same");
    }
    let (player, model) = (player_best.as_secs_f64() * 1e3, model_best.as_secs_f64() * 1e3);
    println!("{lines} lines, best of {rounds} rounds: player {player:.2} ms, model {model:.2} ms, ratio {:.2}", player / model);
}
