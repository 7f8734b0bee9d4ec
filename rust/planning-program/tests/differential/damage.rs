//! Damage to a file of records, whatever the records say.

use super::random::Random;
use super::task::record;

pub fn damaged(random: &mut Random, file: &[u8]) -> Vec<u8> {
    let mut file = file.to_vec();
    match random.below(3) {
        0 => change_bytes(random, &mut file),
        1 => change_end(random, &mut file),
        _ => {
            let mut records = records(&file);
            change_records(random, &mut records);
            file = records.concat();
        }
    }
    file
}

/// The records of a file that is all records.
pub fn records(mut file: &[u8]) -> Vec<Vec<u8>> {
    let mut records = Vec::new();
    while let [low, high, ..] = *file {
        let (record, rest) = file.split_at(4 + usize::from(u16::from_le_bytes([low, high])));
        records.push(record.to_vec());
        file = rest;
    }
    records
}

fn change_bytes(random: &mut Random, file: &mut Vec<u8>) {
    let at = random.below(file.len());
    match random.below(6) {
        0 => file[at] ^= 1 << random.below(8),
        1 => file[at] = random.byte(),
        2 => file[at] = random.pick(&[0, 255]),
        3 => file[at] = file[at].wrapping_add(random.pick(&[1, 255])),
        4 => file.insert(at, random.byte()),
        _ => {
            file.remove(at);
        }
    }
}

/// Cuts the file within a record or behind one, or adds bytes or a record.
fn change_end(random: &mut Random, file: &mut Vec<u8>) {
    match random.below(4) {
        0 => file.truncate(random.below(file.len())),
        1 => {
            let records = records(file);
            *file = records[..random.below(records.len())].concat();
        }
        2 => {
            let more = 1 + random.below(9);
            file.extend(random.bytes(more));
        }
        _ => {
            let records = records(file);
            file.extend(&records[random.below(records.len())]);
        }
    }
}

fn change_records(random: &mut Random, records: &mut Vec<Vec<u8>>) {
    let (one, other) = (random.below(records.len()), random.below(records.len()));
    match random.below(6) {
        0 => {
            records.remove(one);
        }
        1 => records.insert(one, records[one].clone()),
        2 => records.swap(one, other),
        3 => {
            let moved = records.remove(one);
            records.insert(other.min(records.len()), moved);
        }
        4 => {
            let kind = random.pick(&[0, 1, 2, 3, 4, 5, 6, 15, 16, 17, 18, 256, 273, 1280]);
            records[one] = record(kind, &records[one][4..]);
            if random.one_in(3) {
                change_length(random, &mut records[one]);
            }
        }
        _ => change_length(random, &mut records[one]),
    }
}

/// Changes a record's length, with its body or without.
pub fn change_length(random: &mut Random, changed: &mut Vec<u8>) {
    let more = random.pick(&[1, 1, 2, 16, 32, 256]);
    if random.one_in(2) {
        let len = u16::from_le_bytes([changed[0], changed[1]]);
        let len = random.pick(&[len.wrapping_add(more), len.wrapping_sub(more), u16::MAX]);
        changed[..2].copy_from_slice(&len.to_le_bytes());
        return;
    }
    let kind = u16::from_le_bytes([changed[2], changed[3]]);
    let mut body = changed.split_off(4);
    if random.one_in(2) {
        body.extend(random.bytes(more.into()));
    } else {
        body.truncate(body.len().saturating_sub(more.into()));
    }
    *changed = record(kind, &body);
}
