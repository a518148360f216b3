//! Files that are not what a section's writer makes.

use section::{ident, write, Section, BLOCK, HEADER, PAYLOAD};
use sleigh_parse::ast::Statement;

use crate::rng::Rng;

/// A changed copy of a file, its block checks repaired or not.
pub fn damage(file: &[u8], rng: &mut Rng) -> Vec<u8> {
    let mut out = file.to_vec();
    match rng.below(10) {
        0..=3 => change_bytes(&mut out, rng),
        4 => change_header(&mut out, rng),
        5 => out = lengthen(out, rng),
        6 => drop_bytes(&mut out, rng),
        7 => out = cut_stream(file, rng),
        8 => change_used(&mut out, rng),
        _ => change_check(&mut out, rng),
    }
    if rng.percent(85) && out.len() % BLOCK == 0 {
        write::reseal(&out)
    } else {
        out
    }
}

/// Bytes that the stream uses, not its zero tail.
fn change_bytes(file: &mut [u8], rng: &mut Rng) {
    let used = used(file);
    for _ in 0..rng.range(1, 3) {
        let at = rng.below(used);
        file[at] = match rng.below(4) {
            0 => rng.below(256) as u8,
            1 => file[at].wrapping_add(1),
            2 => 255,
            _ => rng.below(12) as u8,
        };
    }
}

fn used(file: &[u8]) -> usize {
    let zeros = file[..file.len() - 2].iter().rev().take_while(|b| **b == 0).count();
    (file.len() - 2 - zeros).max(1)
}

fn change_header(file: &mut [u8], rng: &mut Rng) {
    let at = 2 * rng.below(HEADER / 2);
    let value: u16 = match rng.below(4) {
        0 => 65_535,
        1 => rng.pick(&[9, 33, 65, 129, 257, 1_025]),
        2 => rng.below(65_536) as u16,
        _ => u16::from_le_bytes([file[at], file[at + 1]]).wrapping_add(rng.pick(&[1, 65_535])),
    };
    file[at..at + 2].copy_from_slice(&value.to_le_bytes());
}

/// A byte after the end, or whole blocks of zeros with right checks.
fn lengthen(mut file: Vec<u8>, rng: &mut Rng) -> Vec<u8> {
    if rng.percent(50) {
        let end = file.len() - 3;
        file[end] = rng.below(2) as u8;
    }
    let blocks = rng.pick(&[0, 1, 1, 2, 127, 128]);
    file.resize(file.len() + blocks * BLOCK, 0);
    write::reseal(&file)
}

fn drop_bytes(file: &mut Vec<u8>, rng: &mut Rng) {
    let length = match rng.below(4) {
        0 => 0,
        1 => file.len() - 1,
        2 => rng.below(file.len() + 1),
        _ => file.len() / BLOCK / 2 * BLOCK,
    };
    file.truncate(length);
}

/// The stream ends before its last statement does: one block less, or bytes shifted to the end.
fn cut_stream(file: &[u8], rng: &mut Rng) -> Vec<u8> {
    let payloads: Vec<u8> =
        file.chunks(BLOCK).flat_map(|b| b[..PAYLOAD.min(b.len())].to_vec()).collect();
    let zeros = payloads.iter().rev().take_while(|b| **b == 0).count();
    let gap = (zeros + rng.range(0, 12)).min(payloads.len());
    let kept = payloads.len() - gap;
    // Names are made longer so that the stream is pushed past the last block.
    let at = HEADER.min(kept);
    let mut stream = payloads[..at].to_vec();
    let names = u16::from_le_bytes([stream[2], stream[3]]).saturating_add(gap as u16 / 25 + 1);
    stream[2..4].copy_from_slice(&names.to_le_bytes());
    for i in 0..gap / 25 + 1 {
        stream.push(24);
        stream.extend((0..24).map(|j| (i * 7 + j) as u8));
    }
    stream.extend_from_slice(&payloads[at..kept]);
    stream.truncate(payloads.len());
    write::seal(&stream)
}

/// One u16 of the stream, wherever it lies, gets a value at an edge.
fn change_used(file: &mut [u8], rng: &mut Rng) {
    let at = rng.below(used(file));
    let value: u16 = rng.pick(&[65_535, 1_024, 1_025, 8_192, 8_193, 65_534, 0]);
    for (i, byte) in value.to_le_bytes().into_iter().enumerate() {
        if at + i < file.len() {
            file[at + i] = byte;
        }
    }
}

fn change_check(file: &mut [u8], rng: &mut Rng) {
    let block = rng.below(file.len() / BLOCK);
    file[block * BLOCK + PAYLOAD + rng.below(2)] ^= 1 << rng.below(8);
}

/// A section with one entry that the reader refuses, or nearly.
pub fn bad_entry(section: &mut Section, rng: &mut Rng) {
    let far = section.names.len() as u16;
    let name = rng.pick(&[far, far - 1, 65_535, 0]);
    match rng.below(14) {
        0 => {
            section.registers.iter_mut().for_each(|r| r.size = rng.pick(&[1_024, 1_025, 65_535, 4]))
        }
        1 => section.spaces.iter_mut().for_each(|s| s.kind = rng.pick(&[0, 1, 2, 3])),
        2 => section.bit_ranges.iter_mut().for_each(|b| b.count = rng.pick(&[8_192, 8_193])),
        3 => section.tables.iter_mut().for_each(|t| t.export = Some(rng.pick(&[1_024, 1_025]))),
        4 => section.subtables.iter_mut().for_each(|s| s.table = rng.pick(&[0, 1, 255])),
        5 => section.default_space = Some(rng.pick(&[0, 1, 2, 3, 65_535])),
        6 => section.names[0] = vec![b'x'; rng.pick(&[0, 1, 24, 25, 255])],
        7 => section.names.push(section.names[rng.below(far as usize)].clone()),
        8 => section.user_ops.push(name),
        9 => section.others.push(section.registers[0].name),
        10 => section.statements.push(Statement::Local { name: ident(name), size: Some(1_025) }),
        11 => section.inst_next = name,
        12 => twice(section, rng),
        _ => section.statements.push(Statement::Label { label: ident(name) }),
    }
}

/// One name for two of the fields and subtables, at times with a wrong size after it.
fn twice(section: &mut Section, rng: &mut Rng) {
    let name = rng.below(section.names.len()) as u16;
    let size = Some(rng.pick(&[4, 2_000]));
    section.fields.push(section::Field { name, size: None });
    match rng.below(2) {
        0 => section.fields.push(section::Field { name, size }),
        _ => section.subtables.push(section::Subtable { name, table: rng.pick(&[0, 300]) }),
    }
}
