//! Damaging a sequence of commands: one command or operand dropped, added, doubled, swapped, changed or cut.

use crate::random::Random;

/// Operands of a command, 0 for an unknown one.
pub fn operands(command: u8) -> usize {
    match command {
        0x01 | 0x02 | 0x03 | 0x05 | 0x14 | 0x15 | 0x22 | 0x23 | 0x28 | 0x47 => 1,
        0x16 | 0x24 | 0x25 | 0x40 | 0x44 | 0x45 | 0x46 => 2,
        0x17 => 9,
        0x30..=0x33 => 4,
        0x34 | 0x37 => 3,
        0x35 | 0x36 => 6,
        0x39 => 5,
        0x41 => 1,
        0x42 | 0x43 => 3,
        _ => 0,
    }
}

/// Splits bytes into commands with their operands, the last one perhaps cut.
pub fn commands(bytes: &[u8]) -> Vec<Vec<u8>> {
    let mut list = Vec::new();
    let mut at = 0;
    while at < bytes.len() {
        let to = (at + 1 + operands(bytes[at])).min(bytes.len());
        list.push(bytes[at..to].to_vec());
        at = to;
    }
    list
}

const EDGES: [u8; 14] = [0, 1, 2, 3, 4, 7, 8, 16, 31, 32, 63, 64, 128, 255];

fn operand(random: &mut Random) -> u8 {
    if random.percent(70) {
        random.pick(&EDGES)
    } else {
        random.byte()
    }
}

/// A command out of `known`, or now and then any byte, with operands at random.
pub fn any_command(random: &mut Random, known: &[u8]) -> Vec<u8> {
    let command = if random.percent(90) { random.pick(known) } else { random.byte() };
    let mut bytes = vec![command];
    for _ in 0..operands(command) {
        bytes.push(operand(random));
    }
    bytes
}

pub fn damage(random: &mut Random, bytes: &[u8], known: &[u8]) -> Vec<u8> {
    let mut list = commands(bytes);
    if list.is_empty() {
        return any_command(random, known);
    }
    let at = random.below(list.len());
    match random.below(11) {
        0 => drop(list.remove(at)),
        1 => {
            let place = random.below(list.len() + 1);
            list.insert(place, any_command(random, known));
        }
        2 => {
            let copy = list[at].clone();
            list.insert(at, copy);
        }
        3 => {
            let other = random.below(list.len());
            list.swap(at, other);
        }
        4 if at + 1 < list.len() => list.swap(at, at + 1),
        5 => {
            let length = random.below(bytes.len());
            return bytes[..length].to_vec();
        }
        6 => drop(list[at].pop()),
        7 => list[at].push(operand(random)),
        8 => {
            let place = random.below(list[at].len());
            list[at][place] = operand(random);
        }
        9 => list[at] = any_command(random, known),
        _ => {
            // An operand is likelier to be hit here than the command itself.
            let place = list[at].len() - 1;
            list[at][place] = operand(random);
        }
    }
    list.concat()
}
