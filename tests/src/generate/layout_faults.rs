//! Files that are not laid out (question 2), each by one change of a good file. Where the change
//! stands before the end line, the end line's sum is made right again.

use crate::generate::faults::sound_region;
use crate::generate::spelling::{file_of, lines_of, with_end};
use crate::limits::HIGHEST_NUMBER;
use crate::random::Random;

type Lines = Vec<Vec<u8>>;

/// A file that question 2 is the first to refuse.
pub fn file(random: &mut Random) -> Vec<u8> {
    let good = file_of(&sound_region(random));
    let mut lines: Lines = lines_of(&good).into_iter().map(<[u8]>::to_vec).collect();
    match random.below(7) {
        0 => in_a_number(&mut lines, random),
        1 => in_a_byte(&mut lines, random),
        2 => in_the_parts(&mut lines, random),
        3 => in_a_table(&mut lines, random),
        4 => in_the_lines(&mut lines, random),
        5 => in_a_fixed_bed(&mut lines, random),
        _ => return at_the_end(good, random),
    }
    match lines.split_last() {
        // The lines before are taken as they now are: one of them may have lost its line end.
        Some((last, before)) if last.starts_with(b"(end ") && random.chance(80) => with_end(&before.concat()),
        _ => lines.concat(),
    }
}

/// Any line but the end line, which is written anew.
fn body_line<'a>(lines: &'a mut Lines, random: &mut Random) -> &'a mut Vec<u8> {
    let place = random.below(lines.len() - 1);
    &mut lines[place]
}

/// Places in a line where the byte passes.
fn places(line: &[u8], passes: impl Fn(u8) -> bool) -> Vec<usize> {
    (0..line.len()).filter(|place| passes(line[*place])).collect()
}

/// Beginning and end of a random number of a line.
fn a_number(line: &[u8], random: &mut Random) -> (usize, usize) {
    let digit = random.pick(&places(line, |byte| byte.is_ascii_digit()));
    let start = (0..digit).rev().take_while(|place| line[*place].is_ascii_digit()).last().unwrap_or(digit);
    let end = (digit..line.len()).find(|place| !line[*place].is_ascii_digit()).expect("a line ends in no digit");
    (start, end)
}

fn in_a_number(lines: &mut Lines, random: &mut Random) {
    let line = body_line(lines, random);
    let (start, end) = a_number(line, random);
    let number = line[start..end].to_vec();
    let instead = match random.below(7) {
        0 => [b"0", &number[..]].concat(),
        1 => b"00".to_vec(),
        2 => random.between(HIGHEST_NUMBER + 1, HIGHEST_NUMBER * 10 + 9).to_string().into_bytes(),
        3 => [b"0000000", &number[..]].concat(),
        4 => [b"-", &number[..]].concat(),
        5 => [b"+", &number[..]].concat(),
        _ => b"18446744073709551616".to_vec(),
    };
    line.splice(start..end, instead);
}

fn in_a_byte(lines: &mut Lines, random: &mut Random) {
    let line = body_line(lines, random);
    let space = random.pick(&places(line, |byte| byte == b' '));
    let bracket = random.pick(&places(line, |byte| byte == b'(' || byte == b')'));
    let letter = random.pick(&places(line, |byte| byte.is_ascii_lowercase()));
    let any = random.below(line.len());
    match random.below(10) {
        0 => line.insert(space, b' '),
        1 => line[space] = b'\t',
        2 => drop(line.remove(bracket)),
        3 => line.insert(bracket, line[bracket]),
        4 => line[letter] = line[letter].to_ascii_uppercase(),
        5 => drop(line.remove(letter)),
        6 => line[any] = random.pick(&[0, 1, 9, 13, 33, 46, 127, 128, 176, 185, 255]),
        7 => line.insert(line.len() - 1, b'\r'),
        8 => line.insert(line.len() - 1, b' '),
        _ => line.insert(0, b' '),
    }
}

/// A part too many, too few, or a hyphen where none stands.
fn in_the_parts(lines: &mut Lines, random: &mut Random) {
    let line = &mut lines[random.below(2)];
    let last_space = *places(line, |byte| byte == b' ').last().expect("a space");
    let first_space = places(line, |byte| byte == b' ')[0];
    match random.below(4) {
        0 => drop(line.splice(last_space..last_space, b" 1".to_vec())),
        1 => drop(line.splice(last_space..line.len(), b")\n".to_vec())),
        2 => drop(line.splice(first_space..first_space, b" -".to_vec())),
        _ => {
            let second_space = places(line, |byte| byte == b' ')[1];
            line.splice(first_space + 1..second_space, b"-".to_vec());
        }
    }
}

/// The fourth field of a patient missing, doubled or misspelt.
fn in_a_fixed_bed(lines: &mut Lines, random: &mut Random) {
    let patients = lines.iter().filter(|line| line.starts_with(b"(patient ")).count();
    let line = &mut lines[1 + random.below(patients)];
    let space = *places(line, |byte| byte == b' ').last().expect("a space");
    let field = String::from_utf8(line[space + 1..line.len() - 2].to_vec()).expect("a good line");
    let instead = match random.below(12) {
        0 => String::new(),
        1 => " ".to_string(),
        2 => format!(" {field} {field}"),
        3 => " --".to_string(),
        4 => format!(" 0{}", random.below(16)),
        5 => format!(" {}", HIGHEST_NUMBER + 1),
        6 => format!("  {field}"),
        7 => format!(" {field} "),
        8 => format!(" -{}", random.below(16)),
        9 => format!(" {}-", random.below(16)),
        10 => " (0)".to_string(),
        _ => field,
    };
    line.splice(space..line.len() - 2, instead.into_bytes());
}

fn in_a_table(lines: &mut Lines, random: &mut Random) {
    let tables: Vec<usize> = (0..lines.len()).filter(|place| lines[*place].starts_with(b"(cost ")).collect();
    let place = random.pick(&tables);
    let text = String::from_utf8(lines[place].clone()).expect("a good line");
    let (members, entries) = text.split_once(") (").expect("two lists");
    let changed = match random.below(8) {
        0 => format!("(cost () ({entries}"),
        1 => format!("{members}) ())\n"),
        2 => format!("(cost (-) ({entries}"),
        3 => format!("{members}) (1) ({entries}"),
        4 => format!("{members})\n"),
        5 => format!("{members})({entries}"),
        6 => format!("{members}) (--))\n"),
        _ => format!("{members} ) ({entries}"),
    };
    lines[place] = changed.into_bytes();
}

/// A line missing, doubled, empty or out of its place.
fn in_the_lines(lines: &mut Lines, random: &mut Random) {
    let end = lines.len() - 1;
    let first_table = (0..end).find(|place| lines[*place].starts_with(b"(cost ")).expect("a table");
    match random.below(8) {
        0 => lines.insert(random.below(end + 1), b"\n".to_vec()),
        1 => drop(lines.remove(0)),
        2 => lines.insert(random.below(end), lines[0].clone()),
        3 => lines.insert(1 + random.below(first_table - 1), b"(cost (0) (0))\n".to_vec()),
        4 => lines.insert(first_table + 1, lines[1].clone()),
        5 => lines.insert(random.below(end), lines[end].clone()),
        6 => lines.swap(0, 1),
        _ => drop(lines.remove(end)),
    }
}

/// A file that ends too early or goes on too long.
fn at_the_end(mut file: Vec<u8>, random: &mut Random) -> Vec<u8> {
    match random.below(7) {
        0 => drop(file.pop()),
        1 => file.push(b'\n'),
        2 => file.push(0),
        3 => file.extend(file.clone()),
        4 => file.extend(b"(end 0)\n"),
        5 => file.clear(),
        _ => file.truncate(random.below(file.len())),
    }
    file
}
