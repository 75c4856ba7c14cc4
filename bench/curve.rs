// LRU's fetches on each number of frames, from one pass over the touches of a trace, written plainly: a list of the latest keys, in which
// the place of a touched key is the touch's distance.
mod trace;

use std::hint::black_box;
use std::io;
use std::process::ExitCode;
use trace::Key;

const MOST_FRAMES: usize = 64;

/// Writes for each touch its distance, and answers what is fetched on each number of frames from 1 on.
fn curve(keys: &[Key], distances: &mut [u8]) -> [u64; MOST_FRAMES] {
    // The latest different keys, the latest first.
    let mut stack = Vec::with_capacity(MOST_FRAMES);
    let mut touches_at = [0; MOST_FRAMES + 1];
    for (&key, distance) in keys.iter().zip(distances) {
        let found = match stack.iter().position(|&held| held == key) {
            Some(place) => {
                stack[..=place].rotate_right(1);
                place
            }
            None => {
                stack.truncate(MOST_FRAMES - 1);
                stack.insert(0, key);
                MOST_FRAMES
            }
        };
        *distance = found as u8;
        touches_at[found] += 1;
    }
    // A touch is a fetch on as many frames as its distance, and on fewer.
    let mut counts = [0; MOST_FRAMES];
    let mut fetches = 0;
    for (count, touches) in counts.iter_mut().zip(&touches_at[1..]).rev() {
        fetches += touches;
        *count = fetches;
    }
    counts
}

fn main() -> io::Result<ExitCode> {
    let Some(Ok(rounds)) = std::env::args().nth(1).map(|word| word.parse::<u32>()) else {
        eprintln!("give the number of rounds");
        return Ok(ExitCode::FAILURE);
    };
    let Some(keys) = trace::read_keys()? else {
        eprintln!("refused");
        return Ok(ExitCode::FAILURE);
    };
    let mut distances = vec![0; keys.len()];
    let mut counts = [0; MOST_FRAMES];
    for _ in 0..rounds {
        counts = curve(&keys, black_box(&mut distances));
    }
    println!("{counts:?}");
    Ok(ExitCode::SUCCESS)
}
