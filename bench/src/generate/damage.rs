//! Ways to damage a byte string or a text.

use crate::random::Random;

/// Bytes that mean something in a sheet or a script, or are easily taken for such.
const TELLING: &[u8] = b"\n\r\t \0-+.0189AFafIRx\x7F\x80\xC3\xFF";
const HUGE: &str = "340282366920938463463374607431768211456000000000000000";

/// One to three damages.
pub fn string(random: &mut Random, s: &mut Vec<u8>) {
    for _ in 0..=random.below(3) {
        damage_string(random, s);
    }
}

fn damage_string(random: &mut Random, s: &mut Vec<u8>) {
    match random.below(5) {
        0 => s.truncate(random.below(s.len() + 1)),
        1 => insert(random, s),
        2 => s.push(random.byte()),
        // The first bytes decide most.
        3 => flip(random, s, 6),
        _ => flip(random, s, usize::MAX),
    }
}

/// Flips a bit among the first bytes.
fn flip(random: &mut Random, s: &mut [u8], first: usize) {
    if !s.is_empty() {
        let place = random.below(s.len().min(first));
        s[place] ^= 1 << random.below(8);
    }
}

fn insert(random: &mut Random, s: &mut Vec<u8>) {
    let place = random.below(s.len() + 1);
    s.insert(place, random.byte());
}

/// One or two damages, of the kinds that a hand or an editor does.
pub fn text(random: &mut Random, s: &mut Vec<u8>) {
    for _ in 0..=random.below(2) {
        damage_text(random, s);
    }
}

fn damage_text(random: &mut Random, s: &mut Vec<u8>) {
    match random.below(12) {
        0 => s.truncate(random.below(s.len() + 1)),
        1 => drop(s.pop()),
        2 => s.push(random.pick(b"\n \r0")),
        3 => insert(random, s),
        4 => {
            let place = random.below(s.len() + 1);
            s.insert(place, random.pick(TELLING));
        }
        5 => replace_byte(random, s),
        6 => delete_byte(random, s),
        7 => swap_lines(random, s),
        8 => repeat_line(random, s),
        9 => *s = s.split(|&b| b == b'\n').collect::<Vec<_>>().join(&b"\r\n"[..]),
        10 => change_word(random, s),
        _ => flip(random, s, usize::MAX),
    }
}

fn replace_byte(random: &mut Random, s: &mut [u8]) {
    if !s.is_empty() {
        s[random.below(s.len())] = random.pick(TELLING);
    }
}

fn delete_byte(random: &mut Random, s: &mut Vec<u8>) {
    if !s.is_empty() {
        s.remove(random.below(s.len()));
    }
}

fn swap_lines(random: &mut Random, s: &mut Vec<u8>) {
    let mut lines: Vec<&[u8]> = s.split_inclusive(|&b| b == b'\n').collect();
    if !lines.is_empty() {
        let (one, other) = (random.below(lines.len()), random.below(lines.len()));
        lines.swap(one, other);
        *s = lines.concat();
    }
}

fn repeat_line(random: &mut Random, s: &mut Vec<u8>) {
    let mut lines: Vec<&[u8]> = s.split_inclusive(|&b| b == b'\n').collect();
    if !lines.is_empty() {
        lines.insert(random.below(lines.len()), lines[random.below(lines.len())]);
        *s = lines.concat();
    }
}

/// Gives one word of a line another form.
fn change_word(random: &mut Random, s: &mut Vec<u8>) {
    let mut words: Vec<Vec<u8>> = s.split(|&b| b == b' ').map(<[u8]>::to_vec).collect();
    let place = random.below(words.len());
    let word = &mut words[place];
    match random.below(6) {
        0 => word.insert(0, b'0'),
        1 => word.insert(0, b'-'),
        2 => *word = HUGE.into(),
        3 => word.make_ascii_lowercase(),
        4 => word.clear(),
        _ => word.extend_from_slice(b" 0"),
    }
    *s = words.join(&b' ');
}
