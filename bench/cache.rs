// Turns through a write-back cache over an image, written plainly.
use std::collections::VecDeque;
use std::process::ExitCode;

const FRAMES: usize = 64;
const SECTORS: u32 = 128;
const SECTOR: usize = 512;

#[derive(Clone, Copy, PartialEq)]
enum Refusal {
    BufferLength,
    NoSuchSector,
    DeadSector,
}

/// A disk in memory, with a list of the sectors that are dead.
struct Image<'a> {
    bytes: &'a mut [u8],
    dead: &'a [u32],
    reads: u64,
    writes: u64,
}

impl Image<'_> {
    /// Where a sector stands in the image.
    fn place(&self, sector: u32, len: usize) -> Result<usize, Refusal> {
        if len != SECTOR {
            return Err(Refusal::BufferLength);
        }
        if sector as usize >= self.bytes.len() / SECTOR {
            return Err(Refusal::NoSuchSector);
        }
        if self.dead.contains(&sector) {
            return Err(Refusal::DeadSector);
        }
        Ok(sector as usize * SECTOR)
    }

    fn read(&mut self, sector: u32, buffer: &mut [u8]) -> Result<(), Refusal> {
        let at = self.place(sector, buffer.len())?;
        buffer.copy_from_slice(&self.bytes[at..at + SECTOR]);
        self.reads = self.reads.saturating_add(1);
        Ok(())
    }

    fn write(&mut self, sector: u32, buffer: &[u8]) -> Result<(), Refusal> {
        let at = self.place(sector, buffer.len())?;
        self.bytes[at..at + SECTOR].copy_from_slice(buffer);
        self.writes = self.writes.saturating_add(1);
        Ok(())
    }
}

#[derive(Clone, Copy)]
struct Frame {
    sector: u32,
    dirty: bool,
    block: [u8; SECTOR],
}

struct Cache<'a> {
    below: Image<'a>,
    frames: Vec<Frame>,
    /// The filled frames, the latest used last.
    order: VecDeque<usize>,
    fetches: u64,
    reads: u64,
    writes: u64,
}

impl<'a> Cache<'a> {
    fn new(below: Image<'a>) -> Self {
        Cache {
            below,
            frames: Vec::with_capacity(FRAMES),
            order: VecDeque::with_capacity(FRAMES),
            fetches: 0,
            reads: 0,
            writes: 0,
        }
    }

    fn write_back(&mut self, frame: usize) {
        let frame = &mut self.frames[frame];
        if frame.dirty {
            let written = self.below.write(frame.sector, &frame.block);
            assert!(written.is_ok());
            frame.dirty = false;
        }
    }

    /// Brings a sector in from below. It is read before a frame is given up, so that a refusal changes nothing.
    fn fetch(&mut self, sector: u32) -> Result<usize, Refusal> {
        let mut block = [0; SECTOR];
        self.below.read(sector, &mut block)?;
        let fetched = Frame { sector, dirty: false, block };
        let frame = if self.frames.len() < FRAMES {
            self.frames.push(fetched);
            self.frames.len() - 1
        } else {
            let frame = self.order.pop_front().expect("full");
            self.write_back(frame);
            self.frames[frame] = fetched;
            frame
        };
        self.order.push_back(frame);
        self.fetches = self.fetches.saturating_add(1);
        Ok(frame)
    }

    /// The frame that holds a sector, which is then the latest used.
    fn touch(&mut self, sector: u32) -> Result<usize, Refusal> {
        match self.frames.iter().position(|held| held.sector == sector) {
            Some(frame) => {
                // Frames used a short time ago stand near the end.
                if let Some(at) = self.order.iter().rposition(|&held| held == frame) {
                    self.order.remove(at);
                    self.order.push_back(frame);
                }
                Ok(frame)
            }
            None => self.fetch(sector),
        }
    }

    fn read(&mut self, sector: u32, buffer: &mut [u8]) -> Result<(), Refusal> {
        if buffer.len() != SECTOR {
            return Err(Refusal::BufferLength);
        }
        let frame = self.touch(sector)?;
        buffer.copy_from_slice(&self.frames[frame].block);
        self.reads = self.reads.saturating_add(1);
        Ok(())
    }

    fn write(&mut self, sector: u32, buffer: &[u8]) -> Result<(), Refusal> {
        if buffer.len() != SECTOR {
            return Err(Refusal::BufferLength);
        }
        let frame = self.touch(sector)?;
        self.frames[frame].block.copy_from_slice(buffer);
        self.frames[frame].dirty = true;
        self.writes = self.writes.saturating_add(1);
        Ok(())
    }

    fn flush(&mut self) {
        for frame in 0..self.frames.len() {
            self.write_back(frame);
        }
    }
}

fn main() -> ExitCode {
    let args: Vec<String> = std::env::args().collect();
    let (turns, kind) = match args.as_slice() {
        [_, turns, kind] => (turns.parse::<u32>(), kind.as_str()),
        _ => return ExitCode::FAILURE,
    };
    let Ok(turns) = turns else {
        return ExitCode::FAILURE;
    };
    let (writes, sectors) = match kind {
        "hit" => (false, FRAMES as u32),
        "clean" => (false, SECTORS),
        "dirty" => (true, SECTORS),
        _ => return ExitCode::FAILURE,
    };
    let mut image: Vec<u8> = (0..SECTORS as usize * SECTOR).map(|at| (at % 251) as u8).collect();
    let below = Image { bytes: &mut image, dead: &[], reads: 0, writes: 0 };
    let mut cache = Cache::new(below);
    let mut buffer = [0; SECTOR];
    let mut sum = 0u8;
    for turn in 0..turns {
        let at = turn as usize % SECTOR;
        if writes {
            sum = sum.wrapping_add(1);
            buffer[at] = sum;
            let _ = cache.write(turn % sectors, &buffer);
        } else {
            let _ = cache.read(turn % sectors, &mut buffer);
            sum = sum.wrapping_add(buffer[at]);
        }
    }
    cache.flush();
    let fetches = cache.fetches;
    let left = image.iter().fold(0u8, |sum, byte| sum.wrapping_add(*byte));
    println!("F is {fetches}, sums {sum} and {left}");
    ExitCode::SUCCESS
}
