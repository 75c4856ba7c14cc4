// The sheet of a trace, written plainly with the standard library's collections. Its maps have the standard library's hash, or with
// `--cfg multiplicative` a key's spread in the program beside it, which scatters it once more.
mod trace;

use std::collections::{HashMap, VecDeque};
use std::io::{self, Write};
use std::process::ExitCode;
use trace::Key;

#[cfg(multiplicative)]
use multiplied::Hashing;
#[cfg(not(multiplicative))]
use std::collections::hash_map::RandomState as Hashing;

const FRAME_COUNTS: [usize; 6] = [1, 2, 3, 4, 8, 64];

/// Numbers of keys.
type Numbers = HashMap<Key, usize, Hashing>;

fn numbers_for(keys: usize) -> Numbers {
    HashMap::with_capacity_and_hasher(keys, Hashing::default())
}

/// A hash by one multiplication.
#[cfg(multiplicative)]
mod multiplied {
    use std::hash::{BuildHasherDefault, Hasher};

    pub type Hashing = BuildHasherDefault<Multiplied>;

    #[derive(Default)]
    pub struct Multiplied(u64);

    impl Hasher for Multiplied {
        fn write(&mut self, _bytes: &[u8]) {
            unreachable!("a key is one u64");
        }

        fn write_u64(&mut self, code: u64) {
            self.0 = code.wrapping_mul(0x9e37_79b9_7f4a_7c15);
        }

        /// The halves of the product, swapped: the map takes a place from the lower bits, and a tag from the topmost.
        fn finish(&self) -> u64 {
            self.0.rotate_left(32)
        }
    }
}

/// Decides which frame a fetched key goes into.
trait Policy {
    fn new(frames: usize) -> Self;
    /// The frame for a fetched key.
    fn place(&mut self) -> usize;
    /// Notes a hit in a frame.
    fn touch(&mut self, frame: usize);
}

struct Lru {
    frames: usize,
    /// The filled frames, the latest touched last.
    order: VecDeque<usize>,
}

impl Policy for Lru {
    fn new(frames: usize) -> Self {
        Lru {
            frames,
            order: VecDeque::with_capacity(frames),
        }
    }

    fn place(&mut self) -> usize {
        let frame = next_in_queue(&mut self.order, self.frames);
        self.order.push_back(frame);
        frame
    }

    fn touch(&mut self, frame: usize) {
        // Frames touched a short time ago stand near the end.
        if let Some(at) = self.order.iter().rposition(|&held| held == frame) {
            self.order.remove(at);
            self.order.push_back(frame);
        }
    }
}

struct Fifo {
    frames: usize,
    /// The filled frames, the latest placed last.
    order: VecDeque<usize>,
}

impl Policy for Fifo {
    fn new(frames: usize) -> Self {
        Fifo {
            frames,
            order: VecDeque::with_capacity(frames),
        }
    }

    fn place(&mut self) -> usize {
        let frame = next_in_queue(&mut self.order, self.frames);
        self.order.push_back(frame);
        frame
    }

    fn touch(&mut self, _frame: usize) {}
}

/// A frame not filled yet, or else the first in the queue, which leaves it.
fn next_in_queue(order: &mut VecDeque<usize>, frames: usize) -> usize {
    let filled = order.len();
    if filled < frames {
        filled
    } else {
        order.pop_front().unwrap_or(0)
    }
}

struct Clock {
    hand: usize,
    filled: usize,
    marks: Vec<bool>,
}

impl Clock {
    fn advance(&mut self) {
        self.hand += 1;
        if self.hand == self.marks.len() {
            self.hand = 0;
        }
    }
}

impl Policy for Clock {
    fn new(frames: usize) -> Self {
        Clock {
            hand: 0,
            filled: 0,
            marks: vec![false; frames],
        }
    }

    fn place(&mut self) -> usize {
        if self.filled < self.marks.len() {
            self.filled += 1;
        } else {
            while self.marks[self.hand] {
                self.marks[self.hand] = false;
                self.advance();
            }
        }
        let frame = self.hand;
        self.marks[frame] = true;
        self.advance();
        frame
    }

    fn touch(&mut self, frame: usize) {
        self.marks[frame] = true;
    }
}

/// How many of the touches a policy fetches on so many frames.
fn fetches<P: Policy>(keys: &[Key], frames: usize) -> usize {
    let mut policy = P::new(frames);
    let mut frame_of = numbers_for(frames);
    let mut held: Vec<Key> = Vec::with_capacity(frames);
    let mut fetches = 0;
    for &key in keys {
        if let Some(&frame) = frame_of.get(&key) {
            policy.touch(frame);
            continue;
        }
        fetches += 1;
        let frame = policy.place();
        if frame < held.len() {
            frame_of.remove(&held[frame]);
            held[frame] = key;
        } else {
            held.push(key);
        }
        frame_of.insert(key, frame);
    }
    fetches
}

/// For each touch the place of its key's next touch, or the list's length where there is none.
fn next_touches(keys: &[Key]) -> Vec<usize> {
    let mut next = vec![keys.len(); keys.len()];
    let mut seen = numbers_for(keys.len());
    for (place, &key) in keys.iter().enumerate().rev() {
        if let Some(later) = seen.insert(key, place) {
            next[place] = later;
        }
    }
    next
}

/// How many of the touches MIN fetches on so many frames.
fn min_fetches(keys: &[Key], next: &[usize], frames: usize) -> usize {
    let mut frame_of = numbers_for(frames);
    let mut held: Vec<Key> = Vec::with_capacity(frames);
    // For each filled frame, where its key is touched again.
    let mut again: Vec<usize> = Vec::with_capacity(frames);
    let mut fetches = 0;
    for (&key, &later) in keys.iter().zip(next) {
        if let Some(&frame) = frame_of.get(&key) {
            again[frame] = later;
            continue;
        }
        fetches += 1;
        let frame = if held.len() < frames {
            held.push(key);
            again.push(later);
            held.len() - 1
        } else {
            let frame = furthest(&again);
            frame_of.remove(&held[frame]);
            held[frame] = key;
            again[frame] = later;
            frame
        };
        frame_of.insert(key, frame);
    }
    fetches
}

/// The lowest of the frames whose keys are touched again last.
fn furthest(again: &[usize]) -> usize {
    let mut best = 0;
    for (frame, &later) in again.iter().enumerate() {
        if later > again[best] {
            best = frame;
        }
    }
    best
}

fn print_sheet(keys: &[Key]) -> io::Result<()> {
    let next = next_touches(keys);
    let mut out = io::stdout().lock();
    writeln!(out, "frames,LRU,FIFO,CLOCK,MIN")?;
    for frames in FRAME_COUNTS {
        let lru = fetches::<Lru>(keys, frames);
        let fifo = fetches::<Fifo>(keys, frames);
        let clock = fetches::<Clock>(keys, frames);
        let min = min_fetches(keys, &next, frames);
        writeln!(out, "{frames},{lru},{fifo},{clock},{min}")?;
    }
    Ok(())
}

fn main() -> io::Result<ExitCode> {
    let Some(keys) = trace::read_keys()? else {
        eprintln!("refused");
        return Ok(ExitCode::FAILURE);
    };
    print_sheet(&keys)?;
    Ok(ExitCode::SUCCESS)
}
