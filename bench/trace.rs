//! The keys of a trace, read plainly: what the programs beside this file share.
use std::io::{self, Read};

const MOST_BYTES: usize = 32_768;
const MOST_TOUCHES: usize = 4096;
const SECTOR: u32 = 512;
const MOST_SECTORS: u32 = 128;

/// A sector of a unit: the unit above the lower 32 bits, the sector number in them.
pub type Key = u64;

fn is_time_stamp(field: &str) -> bool {
    let (whole, part) = field.split_once('.').unwrap_or((field, "0"));
    let digits = |text: &str, most| {
        (1..=most).contains(&text.len()) && text.bytes().all(|byte| byte.is_ascii_digit())
    };
    digits(whole, 10) && digits(part, 9)
}

/// Adds the touches of one line to the keys, or answers nothing where the line is not one of a trace.
fn read_line(line: &str, keys: &mut Vec<Key>) -> Option<()> {
    let mut fields = line.split(',');
    let asu: u8 = fields.next()?.parse().ok()?;
    let lba: u32 = fields.next()?.parse().ok()?;
    let size: u32 = fields.next()?.parse().ok()?;
    let opcode = fields.next()?;
    let time_stamp = fields.next()?;
    let sectors = size / SECTOR;
    if fields.next().is_some()
        || !size.is_multiple_of(SECTOR)
        || !(1..=MOST_SECTORS).contains(&sectors)
        || !matches!(opcode, "R" | "r" | "W" | "w")
        || !is_time_stamp(time_stamp)
        || keys.len() + sectors as usize > MOST_TOUCHES
    {
        return None;
    }
    let last = lba.checked_add(sectors - 1)?;
    keys.extend((lba..=last).map(|sector| Key::from(asu) << 32 | Key::from(sector)));
    Some(())
}

fn keys_in(text: &str) -> Option<Vec<Key>> {
    if text.len() > MOST_BYTES {
        return None;
    }
    let mut keys = Vec::new();
    for line in text.lines() {
        read_line(line, &mut keys)?;
    }
    Some(keys)
}

/// The keys of the trace on standard input, or nothing where it is refused.
pub fn read_keys() -> io::Result<Option<Vec<Key>>> {
    let mut text = String::new();
    io::stdin().lock().read_to_string(&mut text)?;
    Ok(keys_in(&text))
}
