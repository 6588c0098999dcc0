//! The check of a book by document 01.
//!
//! Right bytes are passed over in bulk, in loops that the compiler turns into vector code; only
//! where something is wrong are they looked at one by one, to name the place.

use super::book::{entries, rows_of};

type Block = [u8; 512];
type Entry = [u8; 8];

/// refusal × 65,536 + place, or the accepted figure.
pub fn check(book: &[u8]) -> u64 {
    let (blocks, rest) = book.as_chunks::<512>();
    let Some(head) = blocks.first() else {
        return refused(1, 0);
    };
    if !rest.is_empty() || blocks.len() > 33 {
        return refused(1, 0);
    }
    if let Some(block) = wrong_check(blocks) {
        return refused(2, block);
    }
    if let Some(place) = wrong_field(head) {
        return refused(3, place);
    }
    let entries = entries(head);
    let needed = 1 + entries
        .iter()
        .map(|entry| rows_of(entry).div_ceil(127))
        .sum::<usize>();
    if blocks.len() != needed {
        return refused(4, needed);
    }
    match wrong_rows(head, entries, &blocks[1..]) {
        Some(block) => refused(5, block),
        None => u64::from(head[4]) * 16 + u64::from(head[5]),
    }
}

fn refused(refusal: u64, place: usize) -> u64 {
    refusal << 16 | place as u64
}

fn wrong_check(blocks: &[Block]) -> Option<usize> {
    blocks
        .iter()
        .zip(1..)
        .position(|(block, over)| check_less_sum(block) != over)
}

/// The check less the sum, b + 1 in a right block b. All 128 words are added up, so that no vector
/// is left half full, and the last is taken off again.
fn check_less_sum(block: &Block) -> u32 {
    let words = block.as_chunks::<4>().0;
    let numbers = words.iter().map(|word| u32::from_le_bytes(*word));
    let sum = numbers.fold(0, u32::wrapping_add);
    let check = u32::from_le_bytes(words[127]);
    check.wrapping_add(check).wrapping_sub(sum)
}

fn wrong_field(head: &Block) -> Option<usize> {
    let (columns, sheets) = (head[4], head[5]);
    if head[..4] != *b"FGB1" {
        return Some(0);
    }
    if !(1..=16).contains(&columns) {
        return Some(4);
    }
    if sheets > 8 {
        return Some(5);
    }
    if let Some(place) = not_zero(&head[6..8]) {
        return Some(6 + place);
    }
    if let Some(column) = wrong_values(&head[8..24], columns) {
        return Some(8 + column);
    }
    for (s, entry) in entries(head).iter().enumerate() {
        if let Some(place) = wrong_in_entry(entry, columns) {
            return Some(24 + 8 * s + place);
        }
    }
    // The entries from S on and the zeros after them are one run.
    let zeros = 24 + 8 * usize::from(sheets);
    not_zero(&head[zeros..508]).map(|place| zeros + place)
}

fn wrong_values(values: &[u8], columns: u8) -> Option<usize> {
    let wrong = |(&value, i): (&u8, u8)| {
        let used = i < columns;
        let (least, most) = (u8::from(used), if used { 32 } else { 0 });
        (value < least) | (value > most)
    };
    let mut numbered = values.iter().zip(0..);
    let any = numbered.clone().fold(false, |any, it| any | wrong(it));
    any.then(|| numbered.position(wrong)).flatten()
}

fn wrong_in_entry(entry: &Entry, columns: u8) -> Option<usize> {
    let width = entry[0];
    if !(1..=4).contains(&width) {
        return Some(0);
    }
    let (mut least, mut most) = (0, columns - 1);
    for i in 1..=4 {
        if i > width {
            (least, most) = (0, 0);
        }
        let number = entry[usize::from(i)];
        if (number < least) | (number > most) {
            return Some(usize::from(i));
        }
        least = number + 1;
    }
    if entry[5] != 0 {
        return Some(5);
    }
    (rows_of(entry) > 508).then_some(6)
}

/// The first of these bytes that isn't zero.
fn not_zero(bytes: &[u8]) -> Option<usize> {
    if bytes.iter().fold(0, |any, byte| any | byte) == 0 {
        None
    } else {
        bytes.iter().position(|&byte| byte != 0)
    }
}

/// The first wrong block; `blocks` are those after the head.
fn wrong_rows(head: &Block, entries: &[Entry], blocks: &[Block]) -> Option<usize> {
    let mut place = 0;
    for entry in entries {
        let mut left = rows_of(entry);
        if left == 0 {
            continue;
        }
        let mut most = largest(head, entry);
        while left > 0 {
            let used = left.min(127);
            if used < 127 {
                most[4 * used..508].fill(0);
            }
            if over(&blocks[place], &most) {
                return Some(1 + place);
            }
            left -= used;
            place += 1;
        }
    }
    None
}

/// The largest right byte at each place of a block of used rows. Its check may be anything.
fn largest(head: &Block, entry: &Entry) -> Block {
    let mut row = [0; 4];
    for (most, &column) in row.iter_mut().zip(&entry[1..1 + usize::from(entry[0])]) {
        *most = head[8 + usize::from(column)] - 1;
    }
    let mut most = [255; 512];
    most[..508].as_chunks_mut::<4>().0.fill(row);
    most
}

fn over(block: &Block, most: &Block) -> bool {
    let bytes = block.iter().zip(most);
    bytes.fold(0, |any, (byte, most)| any | byte.saturating_sub(*most)) != 0
}
