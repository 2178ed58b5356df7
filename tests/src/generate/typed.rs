//! Members as they are typed: good lists, lists that no table may have, and texts that are no list.

use crate::generate::spelling;
use crate::limits::{HIGHEST_NUMBER, MOST_DIGITS};
use crate::random::Random;
use crate::region::{Region, Table};

/// The text of a member list.
pub fn text_of(members: &[u64]) -> Vec<u8> {
    let members: Vec<String> = members.iter().map(u64::to_string).collect();
    format!("({})", members.join(" ")).into_bytes()
}

/// A text for any call: mostly the members of a table of the region, where it has one.
pub fn any(region: Option<&Region>, random: &mut Random) -> Vec<u8> {
    let members = match region {
        Some(region) if !region.tables.is_empty() => region.tables[random.below(region.tables.len())].members.clone(),
        _ => vec![0, 1],
    };
    match random.below(4) {
        0 => random_text(random),
        1 => random.pick(&[&b""[..], b"(0", b"0 1", b"(0 1)\n", b"(00)"]).to_vec(),
        _ => text_of(&members),
    }
}

/// Bytes, most of them such as stand in a member list.
pub fn random_text(random: &mut Random) -> Vec<u8> {
    let length = random.below(12);
    let mut text: Vec<u8> = (0..length).map(|_| random.pick(b"0123456789 () -\n")).collect();
    if random.chance(60) {
        text.insert(0, b'(');
        text.push(b')');
    }
    text
}

/// Member lists beside one of a region with so many patients: other orders, fewer and more members, others, and such as nobody is.
pub fn beside(members: &[u64], patients: u64, random: &mut Random) -> Vec<Vec<u64>> {
    let mut lists = vec![
        members.iter().rev().copied().collect(),
        members[..members.len() - 1].to_vec(),
        members[1..].to_vec(),
        [members, &members[..1]].concat(),
        [members, members, members].concat(),
        [members, &[patients]].concat(),
        [&[0], members].concat(),
        (0..5).collect(),
        vec![patients],
        vec![HIGHEST_NUMBER; random.between(1, 9) as usize],
    ];
    lists.extend(numbers_beside(members, patients, random));
    lists.retain(|list: &Vec<u64>| !list.is_empty());
    lists
}

/// One member becomes another: a neighbour, one that is taken for it where numbers are cut, or one that shares its digits.
fn numbers_beside(members: &[u64], patients: u64, random: &mut Random) -> Vec<Vec<u64>> {
    let place = random.below(members.len());
    let member = members[place];
    let digit = random.between(0, 9);
    let others = [
        member + 1,
        member.saturating_sub(1),
        member / 10,
        member * 10 + digit,
        member + 32,
        member + 256,
        member + 65_536,
        random.between(0, patients),
    ];
    let with = |other: u64| [&members[..place], &[other], &members[place + 1..]].concat();
    others.into_iter().map(with).collect()
}

/// A table's entries as they stand in its line: a list too where none is forbidden.
pub fn entries_of(table: &Table) -> Vec<u8> {
    let line = spelling::table_line(table);
    let (_, entries) = line.split_once(") ").expect("members, then entries");
    entries.strip_suffix(")\n").expect("the line's own bracket").into()
}

/// Texts of a table's members that have not the layout of a list, whatever the members are.
pub fn spoiled(table: &Table, random: &mut Random) -> Vec<Vec<u8>> {
    let text = text_of(&table.members);
    let inside = &text[1..text.len() - 1];
    let other = random.pick(b"\0\t\n\r,;[]{}<>.+_:'\"aXz/\x7f\x80\xff");
    let line = spelling::table_line(table).into_bytes();
    let mut texts = [around(&text, inside, other), within(inside)].concat();
    texts.extend([
        [b"(cost ", &text[..]].concat(),
        [b"(cost ", &text[..], b" ("].concat(),
        line.clone(),
        line[..line.len() - 1].to_vec(),
        line[b"(cost ".len()..line.len() - 2].to_vec(),
    ]);
    texts
}

/// Brackets that are missing or too many, and bytes before and behind.
fn around(text: &[u8], inside: &[u8], other: u8) -> Vec<Vec<u8>> {
    vec![
        Vec::new(),
        inside.to_vec(),
        text[1..].to_vec(),
        text[..text.len() - 1].to_vec(),
        [b"(", text, b")"].concat(),
        [b" ", text].concat(),
        [text, b" "].concat(),
        [text, b"\n"].concat(),
        [text, b"\r\n"].concat(),
        [b"\n", text].concat(),
        [text, b"\0"].concat(),
        [text, &[other]].concat(),
        [&text[..text.len() - 1], &[other], b")"].concat(),
        [text, text].concat(),
        [text, b" ", text].concat(),
    ]
}

/// Members that are none, stand apart otherwise than by one space, or are no numbers as the files have them.
fn within(inside: &[u8]) -> Vec<Vec<u8>> {
    let first = inside.iter().position(|byte| *byte == b' ').unwrap_or(inside.len());
    let after_first = &inside[first..];
    let eight_digits = "1".repeat(MOST_DIGITS + 1);
    let lists = [
        Vec::new(),
        b" ".to_vec(),
        [b" ", inside].concat(),
        [inside, b" "].concat(),
        [inside, b"  ", inside].concat(),
        [inside, b",", inside].concat(),
        [inside, b")(", inside].concat(),
        [b"0", inside].concat(),
        [inside, b" 00"].concat(),
        [b"+", inside].concat(),
        [b"-", inside].concat(),
        [inside, b" -"].concat(),
        [b"-", after_first].concat(),
        [eight_digits.as_bytes(), after_first].concat(),
        [inside, b" 10000000"].concat(),
        [inside, b" 18446744073709551616"].concat(),
    ];
    lists.map(|list| [b"(", &list[..], b")"].concat()).to_vec()
}

/// All texts that are one byte, or a cut at one of its ends, away from this one.
pub fn changed(good: &[u8]) -> Vec<Vec<u8>> {
    let mut texts = Vec::new();
    for place in 0..=good.len() {
        let (before, from) = good.split_at(place);
        let behind = from.get(1..).unwrap_or_default();
        texts.extend([before.to_vec(), from.to_vec(), [before, behind].concat()]);
        for byte in 0..=255 {
            texts.push([before, &[byte], from].concat());
            texts.push([before, &[byte], behind].concat());
        }
    }
    texts
}

/// A good list of exactly so many bytes (at least 3), which may be thousands of members.
pub fn of_length(length: usize, random: &mut Random) -> Vec<u8> {
    let mut text = b"(".to_vec();
    while text.len() + 1 < length {
        let missing = length - 1 - text.len();
        let space = usize::from(text.len() > 1);
        // What is left over must be another member with its space, or nothing.
        let digits = match missing - space {
            few if few <= MOST_DIGITS => few,
            few if few == MOST_DIGITS + 1 => MOST_DIGITS - 1,
            _ => random.between(1, MOST_DIGITS as u64) as usize,
        };
        let lowest = if digits == 1 { 0 } else { 10u64.pow(digits as u32 - 1) };
        let number = random.between(lowest, 10u64.pow(digits as u32) - 1);
        text.extend(&b" "[..space]);
        text.extend(number.to_string().bytes());
    }
    text.push(b')');
    text
}
