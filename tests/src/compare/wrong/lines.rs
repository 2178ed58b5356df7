//! Wrong calls of line, made from the proved one.

use crate::boundary;
use crate::compare::wrong::checks::line_ended;
use crate::compare::wrong::fixed_beds;
use crate::generate::spelling::with_right_sum;
use crate::generate::typed::text_of;
use crate::limits::{HIGHEST_NUMBER, MOST_DIGITS};
use crate::outcomes::{Lines, TableLine};
use crate::reader;

/// Writes both numbers of a result area that has room for them.
fn write_part(result: &mut [u8], start: u64, size: u64) {
    if let Some(numbers) = result.get_mut(..16) {
        numbers[..8].copy_from_slice(&start.to_le_bytes());
        numbers[8..].copy_from_slice(&size.to_le_bytes());
    }
}

/// The proved answer; where its number is 0, the part is told otherwise.
fn told(file: &[u8], typed: &[u8], result: &mut [u8], tell: impl Fn(u64, u64) -> (u64, u64)) -> u64 {
    let number = boundary::line(file, typed, result);
    if number == 0 {
        let number_at = |at: usize| u64::from_le_bytes(result[at..at + 8].try_into().expect("8 bytes"));
        let (start, size) = tell(number_at(0), number_at(8));
        write_part(result, start, size);
    }
    number
}

pub fn with_line_end(file: &[u8], typed: &[u8], result: &mut [u8]) -> u64 {
    told(file, typed, result, |start, size| (start, if size == 0 { 0 } else { size + 1 }))
}

pub fn size_for_start(file: &[u8], typed: &[u8], result: &mut [u8]) -> u64 {
    told(file, typed, result, |start, size| (size, start))
}

pub fn end_for_size(file: &[u8], typed: &[u8], result: &mut [u8]) -> u64 {
    told(file, typed, result, |start, size| (start, start + size))
}

pub fn counted_from_1(file: &[u8], typed: &[u8], result: &mut [u8]) -> u64 {
    told(file, typed, result, |start, size| (start + 1, size))
}

pub fn zeros_for_none(file: &[u8], typed: &[u8], result: &mut [u8]) -> u64 {
    told(file, typed, result, |start, size| if size == 0 { (0, 0) } else { (start, size) })
}

pub fn last_byte_for_none(file: &[u8], typed: &[u8], result: &mut [u8]) -> u64 {
    told(file, typed, result, |start, size| if size == 0 { (start - 1, 0) } else { (start, size) })
}

/// Where there is no such line, the end line.
pub fn end_line_for_none(file: &[u8], typed: &[u8], result: &mut [u8]) -> u64 {
    let mut lines = file.split_inclusive(|byte| *byte == b'\n');
    let last = lines.next_back().map_or(0, |line| line.len() as u64 - 1);
    told(file, typed, result, |start, size| if size == 0 { (start - last - 1, last) } else { (start, size) })
}

/// The start is cut to so many bits.
pub fn start_cut<const BITS: u32>(file: &[u8], typed: &[u8], result: &mut [u8]) -> u64 {
    told(file, typed, result, |start, size| (start % (1 << BITS), size))
}

pub fn highest_byte_first(file: &[u8], typed: &[u8], result: &mut [u8]) -> u64 {
    told(file, typed, result, |start, size| (start.swap_bytes(), size.swap_bytes()))
}

/// Without the form's own brackets and word: members and entries alone.
pub fn lists_alone(file: &[u8], typed: &[u8], result: &mut [u8]) -> u64 {
    let word = "(cost ".len() as u64;
    told(file, typed, result, |start, size| if size == 0 { (start, 0) } else { (start + word, size - word - 1) })
}

/// The proved number; where it is 0, the first of these table lines that passes a test of its own text and members,
/// given the typed text and members.
fn picked<'a>(
    (file, typed): (&[u8], &[u8]),
    result: &mut [u8],
    tables: impl Iterator<Item = &'a TableLine>,
    test: impl Fn((&[u8], &[u64]), (&[u8], &[u64])) -> bool,
) -> u64 {
    let members = reader::typed_members(typed).unwrap_or_default();
    let text_at = |line: &TableLine| &file[line.start as usize..][..line.size as usize];
    let mut passing = tables.filter(|line| test((text_at(line), &line.members), (typed, &members)));
    let (start, size) = passing.next().map_or((file.len() as u64, 0), |line| (line.start, line.size));
    told(file, typed, result, |_, _| (start, size))
}

/// The first table line that passes a test.
fn first_with(
    file: &[u8],
    typed: &[u8],
    result: &mut [u8],
    test: impl Fn((&[u8], &[u64]), (&[u8], &[u64])) -> bool,
) -> u64 {
    picked((file, typed), result, Lines::of(file).tables.iter(), test)
}

pub fn last_of_several(file: &[u8], typed: &[u8], result: &mut [u8]) -> u64 {
    picked((file, typed), result, Lines::of(file).tables.iter().rev(), |(_, own), (_, asked)| own == asked)
}

/// The last of the lines that are alike byte for byte.
pub fn last_of_alike(file: &[u8], typed: &[u8], result: &mut [u8]) -> u64 {
    told(file, typed, result, |start, size| {
        let line = &file[start as usize..][..size as usize];
        let alike = |at: &usize| size > 0 && file[*at..].starts_with(line) && file[*at - 1] == b'\n';
        ((start as usize..file.len()).rev().find(alike).map_or(start, |at| at as u64), size)
    })
}

/// The last table is not looked at.
pub fn last_table_left_out(file: &[u8], typed: &[u8], result: &mut [u8]) -> u64 {
    let lines = Lines::of(file);
    let but_last = lines.tables.len().saturating_sub(1);
    picked((file, typed), result, lines.tables.iter().take(but_last), |(_, own), (_, asked)| own == asked)
}

pub fn first_table_left_out(file: &[u8], typed: &[u8], result: &mut [u8]) -> u64 {
    picked((file, typed), result, Lines::of(file).tables.iter().skip(1), |(_, own), (_, asked)| own == asked)
}

/// A search for the typed text anywhere in a table's line.
pub fn text_anywhere(file: &[u8], typed: &[u8], result: &mut [u8]) -> u64 {
    first_with(file, typed, result, |(line, _), (text, _)| line.windows(text.len().max(1)).any(|part| part == text))
}

/// The line begins with the text but for its last bracket.
pub fn without_bracket(file: &[u8], typed: &[u8], result: &mut [u8]) -> u64 {
    first_with(file, typed, result, |(line, _), (text, _)| line[6..].starts_with(&text[..text.len().max(1) - 1]))
}

/// The text begins with the line's members but for their last bracket: `(12)` finds `(1)`.
pub fn within_text(file: &[u8], typed: &[u8], result: &mut [u8]) -> u64 {
    first_with(file, typed, result, |(_, own), (text, _)| {
        let own = text_of(own);
        text.starts_with(&own[..own.len() - 1])
    })
}

pub fn first_members_enough(file: &[u8], typed: &[u8], result: &mut [u8]) -> u64 {
    first_with(file, typed, result, |(_, own), (_, asked)| own.starts_with(asked))
}

pub fn more_members_passed_over(file: &[u8], typed: &[u8], result: &mut [u8]) -> u64 {
    first_with(file, typed, result, |(_, own), (_, asked)| asked.starts_with(own))
}

/// Of more than four typed members only four are kept.
pub fn four_members_kept(file: &[u8], typed: &[u8], result: &mut [u8]) -> u64 {
    first_with(file, typed, result, |(_, own), (_, asked)| own == &asked[..asked.len().min(4)])
}

pub fn order_ignored(file: &[u8], typed: &[u8], result: &mut [u8]) -> u64 {
    first_with(file, typed, result, |(_, own), (_, asked)| {
        let mut sorted = asked.to_vec();
        sorted.sort();
        own == sorted
    })
}

pub fn compared_as_sets(file: &[u8], typed: &[u8], result: &mut [u8]) -> u64 {
    first_with(file, typed, result, |(_, own), (_, asked)| {
        own.iter().all(|member| asked.contains(member)) && asked.iter().all(|member| own.contains(member))
    })
}

pub fn one_in_common(file: &[u8], typed: &[u8], result: &mut [u8]) -> u64 {
    first_with(file, typed, result, |(_, own), (_, asked)| own.iter().any(|member| asked.contains(member)))
}

pub fn count_alone(file: &[u8], typed: &[u8], result: &mut [u8]) -> u64 {
    first_with(file, typed, result, |(_, own), (_, asked)| own.len() == asked.len())
}

/// Typed members are cut to so many bits.
pub fn members_cut<const BITS: u32>(file: &[u8], typed: &[u8], result: &mut [u8]) -> u64 {
    let cut = |member: &u64| member % (1 << BITS);
    first_with(file, typed, result, |(_, own), (_, asked)| own.iter().copied().eq(asked.iter().map(cut)))
}

/// Refuses with 21 what would be fine.
fn refusing(file: &[u8], typed: &[u8], result: &mut [u8], refused: impl Fn(&[u64], &[u8]) -> bool) -> u64 {
    let number = boundary::line(file, typed, result);
    let members = reader::typed_members(typed).unwrap_or_default();
    if number == 0 && refused(&members, &result[8..16]) {
        write_part(result, 0, 0);
        return 21;
    }
    number
}

pub fn none_is_21(file: &[u8], typed: &[u8], result: &mut [u8]) -> u64 {
    refusing(file, typed, result, |_, size| size == [0; 8])
}

pub fn five_members_are_21(file: &[u8], typed: &[u8], result: &mut [u8]) -> u64 {
    refusing(file, typed, result, |members, _| members.len() > 4)
}

pub fn not_rising_is_21(file: &[u8], typed: &[u8], result: &mut [u8]) -> u64 {
    refusing(file, typed, result, |members, _| members.windows(2).any(|two| two[0] >= two[1]))
}

pub fn nobody_is_21(file: &[u8], typed: &[u8], result: &mut [u8]) -> u64 {
    let patients = reader::said(file).map_or(0, |region| region.patients.len() as u64);
    refusing(file, typed, result, |members, _| members.iter().any(|member| *member >= patients))
}

pub fn seven_digits_are_21(file: &[u8], typed: &[u8], result: &mut [u8]) -> u64 {
    refusing(file, typed, result, |members, _| members.iter().any(|member| *member > HIGHEST_NUMBER / 10))
}

/// The answer to a text that was corrected first.
fn retyped(file: &[u8], typed: &[u8], result: &mut [u8], correct: impl Fn(&str) -> String) -> u64 {
    boundary::line(file, correct(&String::from_utf8_lossy(typed)).as_bytes(), result)
}

/// Each part of the text between spaces and brackets becomes another.
fn with_parts(text: &str, other: impl Fn(&str) -> String) -> String {
    let inside = text.strip_prefix('(').and_then(|text| text.strip_suffix(')'));
    let parts = |inside: &str| inside.split(' ').map(&other).collect::<Vec<_>>().join(" ");
    inside.map_or(text.to_string(), |inside| format!("({})", parts(inside)))
}

pub fn leading_zeros_taken(file: &[u8], typed: &[u8], result: &mut [u8]) -> u64 {
    let led = |part: &str| part.len() > 1 && part.starts_with('0');
    retyped(file, typed, result, |text| {
        with_parts(text, |part| if led(part) { part[1..].to_string() } else { part.to_string() })
    })
}

pub fn eight_digits_taken(file: &[u8], typed: &[u8], result: &mut [u8]) -> u64 {
    let long = |part: &str| part.len() == MOST_DIGITS + 1 && part.bytes().all(|byte| byte.is_ascii_digit());
    retyped(file, typed, result, |text| {
        with_parts(text, |part| if long(part) { HIGHEST_NUMBER.to_string() } else { part.to_string() })
    })
}

pub fn hyphen_taken(file: &[u8], typed: &[u8], result: &mut [u8]) -> u64 {
    retyped(file, typed, result, |text| {
        with_parts(text, |part| if part == "-" { HIGHEST_NUMBER.to_string() } else { part.to_string() })
    })
}

pub fn no_member_taken(file: &[u8], typed: &[u8], result: &mut [u8]) -> u64 {
    retyped(file, typed, result, |text| if text == "()" { format!("({HIGHEST_NUMBER})") } else { text.to_string() })
}

pub fn doubled_spaces_taken(file: &[u8], typed: &[u8], result: &mut [u8]) -> u64 {
    retyped(file, typed, result, |text| text.replace("  ", " "))
}

pub fn inner_spaces_taken(file: &[u8], typed: &[u8], result: &mut [u8]) -> u64 {
    retyped(file, typed, result, |text| text.replace("( ", "(").replace(" )", ")"))
}

pub fn outer_spaces_taken(file: &[u8], typed: &[u8], result: &mut [u8]) -> u64 {
    retyped(file, typed, result, |text| text.trim_matches(' ').to_string())
}

pub fn line_end_taken(file: &[u8], typed: &[u8], result: &mut [u8]) -> u64 {
    retyped(file, typed, result, |text| text.strip_suffix('\n').unwrap_or(text).to_string())
}

pub fn commas_taken(file: &[u8], typed: &[u8], result: &mut [u8]) -> u64 {
    retyped(file, typed, result, |text| text.replace(',', " "))
}

pub fn brackets_added(file: &[u8], typed: &[u8], result: &mut [u8]) -> u64 {
    retyped(file, typed, result, |text| format!("({})", text.trim_matches(['(', ')'])))
}

pub fn last_bracket_added(file: &[u8], typed: &[u8], result: &mut [u8]) -> u64 {
    retyped(file, typed, result, |text| if text.ends_with(')') { text.to_string() } else { format!("{text})") })
}

/// Nothing is read behind the list's bracket.
pub fn behind_passed_over(file: &[u8], typed: &[u8], result: &mut [u8]) -> u64 {
    let end = typed.iter().position(|byte| *byte == b')').map_or(typed.len(), |at| at + 1);
    boundary::line(file, &typed[..end], result)
}

/// A table's whole line is taken for its members.
pub fn whole_line_taken(file: &[u8], typed: &[u8], result: &mut [u8]) -> u64 {
    let line = typed.strip_suffix(b"\n").unwrap_or(typed);
    let text = reader::table(line).map_or(typed.to_vec(), |table| text_of(&table.members));
    boundary::line(file, &text, result)
}

/// The typed text's length is cut to 16 bits.
pub fn text_cut(file: &[u8], typed: &[u8], result: &mut [u8]) -> u64 {
    boundary::line(file, &typed[..typed.len() % 65_536], result)
}

/// A text of more than so many bytes is refused unread.
pub fn long_texts_refused<const MOST: usize>(file: &[u8], typed: &[u8], result: &mut [u8]) -> u64 {
    boundary::line(file, if typed.len() > MOST { b"" } else { typed }, result)
}

pub fn result_left(file: &[u8], typed: &[u8], result: &mut [u8]) -> u64 {
    let before = result.to_vec();
    let number = boundary::line(file, typed, result);
    if number != 0 {
        result.copy_from_slice(&before);
    }
    number
}

pub fn length_on_refusal(file: &[u8], typed: &[u8], result: &mut [u8]) -> u64 {
    let number = boundary::line(file, typed, result);
    if number != 0 {
        write_part(result, file.len() as u64, 0);
    }
    number
}

/// The line is told though 21 refuses: that of the file's first table.
pub fn first_table_on_21(file: &[u8], typed: &[u8], result: &mut [u8]) -> u64 {
    let number = boundary::line(file, typed, result);
    if let (21, Some(line)) = (number, Lines::of(file).tables.first()) {
        write_part(result, line.start, line.size);
    }
    number
}

pub fn short_result(file: &[u8], typed: &[u8], result: &mut [u8]) -> u64 {
    match boundary::line(file, typed, result) {
        12 if result.len() >= 8 => 0,
        number => number,
    }
}

pub fn longer_result_asked(file: &[u8], typed: &[u8], result: &mut [u8]) -> u64 {
    match boundary::line(file, typed, result) {
        0 if result.len() < 24 => 12,
        number => number,
    }
}

pub fn short_result_written(file: &[u8], typed: &[u8], result: &mut [u8]) -> u64 {
    let number = boundary::line(file, typed, result);
    if (8..16).contains(&result.len()) {
        result[..8].fill(0);
    }
    number
}

pub fn behind_result_written(file: &[u8], typed: &[u8], result: &mut [u8]) -> u64 {
    let number = boundary::line(file, typed, result);
    if let Some(byte) = result.get_mut(16) {
        *byte = 0;
    }
    number
}

pub fn twelve_first(file: &[u8], typed: &[u8], result: &mut [u8]) -> u64 {
    if result.len() < 16 {
        return 12;
    }
    boundary::line(file, typed, result)
}

pub fn twenty_one_before_12(file: &[u8], typed: &[u8], result: &mut [u8]) -> u64 {
    match boundary::line(file, typed, result) {
        12 if reader::typed_members(typed).is_none() => 21,
        number => number,
    }
}

pub fn twenty_one_first(file: &[u8], typed: &[u8], result: &mut [u8]) -> u64 {
    let number = boundary::line(file, typed, result);
    if reader::typed_members(typed).is_none() {
        return 21;
    }
    number
}

/// Says 0 where this question's "no" was the first.
pub fn without<const QUESTION: u64>(file: &[u8], typed: &[u8], result: &mut [u8]) -> u64 {
    match boundary::line(file, typed, result) {
        number if number == QUESTION => 0,
        number => number,
    }
}

pub fn without_sum(file: &[u8], typed: &[u8], result: &mut [u8]) -> u64 {
    boundary::line(&with_right_sum(file), typed, result)
}

pub fn line_end_added(file: &[u8], typed: &[u8], result: &mut [u8]) -> u64 {
    boundary::line(&line_ended(file), typed, result)
}

pub fn old_form_taken(file: &[u8], typed: &[u8], result: &mut [u8]) -> u64 {
    boundary::line(&fixed_beds::in_new_form(file), typed, result)
}
