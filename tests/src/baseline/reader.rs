//! Bytes to the held region in one pass over the file and one over its bytes' sum.

use crate::baseline::held::{Held, Patient, HYPHEN, MOST_ENTRIES, MOST_MEMBERS, MOST_PATIENTS, MOST_TABLES};

/// What the first and the last line state.
struct Stated {
    patients: u32,
    tables: u32,
    m: u32,
    sum: u32,
}

/// Check's number of a file.
pub fn check(file: &[u8]) -> u64 {
    let mut held = Held::blank();
    read(file, &mut held).err().unwrap_or(0)
}

/// Reads a file into a blank region, or gives the number of the first question answered "no".
pub fn read(file: &[u8], held: &mut Held) -> Result<(), u64> {
    read_to_five(file, held)?;
    questions_6_to_10(held)
}

/// The same of a file whose parents may be any that the layout allows: questions 1 to 9.
pub fn read_whatever_parents(file: &[u8], held: &mut Held) -> Result<(), u64> {
    read_to_five(file, held)?;
    questions_6_to_9(held, |_, _| true)
}

fn read_to_five(file: &[u8], held: &mut Held) -> Result<(), u64> {
    if file.len() > 65_535 {
        return Err(1);
    }
    let mut cursor = Cursor { rest: file };
    let (stated, end_line) = lines(&mut cursor, held).ok_or(2u64)?;
    if stated.patients as usize != held.patient_count || stated.tables as usize != held.table_count {
        return Err(3);
    }
    let before_end = &file[..file.len() - end_line];
    if before_end.iter().map(|byte| u32::from(*byte)).sum::<u32>() % 65_521 != stated.sum {
        return Err(4);
    }
    let in_limits = (1..=MOST_PATIENTS).contains(&held.patient_count)
        && held.table_count <= MOST_TABLES
        && (1..=64).contains(&stated.m);
    if !in_limits {
        return Err(5);
    }
    held.m = stated.m as usize;
    Ok(())
}

/// Question 2. Also gives how many bytes the end line has.
fn lines(cursor: &mut Cursor, held: &mut Held) -> Option<(Stated, usize)> {
    cursor.word(b"(region ")?;
    let patients = cursor.number()?;
    cursor.word(b" ")?;
    let tables = cursor.number()?;
    cursor.word(b" ")?;
    let m = cursor.number()?;
    cursor.word(b")\n")?;
    while cursor.word(b"(patient ").is_some() {
        patient_line(cursor, held)?;
    }
    while cursor.word(b"(cost (").is_some() {
        table_line(cursor, held)?;
    }
    let end_line = cursor.rest.len();
    cursor.word(b"(end ")?;
    let sum = cursor.number()?;
    cursor.word(b")\n")?;
    cursor.rest.is_empty().then_some((Stated { patients, tables, m, sum }, end_line))
}

fn patient_line(cursor: &mut Cursor, held: &mut Held) -> Option<()> {
    let clinic = cursor.number()?;
    cursor.word(b" ")?;
    let beds = cursor.number()?;
    cursor.word(b" ")?;
    let parent = cursor.number_or_hyphen()?;
    cursor.word(b" ")?;
    let fixed = cursor.number_or_hyphen()?;
    cursor.word(b")\n")?;
    if let Some(patient) = held.patients.get_mut(held.patient_count) {
        *patient = Patient { clinic, beds, parent, fixed };
    }
    held.patient_count += 1;
    Some(())
}

/// Members up to the closing bracket, and how many there are; those beyond four are counted and not kept.
fn members(cursor: &mut Cursor) -> Option<([u32; MOST_MEMBERS], usize)> {
    let mut members = [0; MOST_MEMBERS];
    let mut count = 0;
    loop {
        let member = cursor.number()?;
        if let Some(place) = members.get_mut(count) {
            *place = member;
        }
        count += 1;
        match cursor.byte()? {
            b' ' => {}
            b')' => return Some((members, count)),
            _ => return None,
        }
    }
}

/// Question 21: has a typed text the layout of a member list?
pub fn is_member_list(typed: &[u8]) -> bool {
    let mut cursor = Cursor { rest: typed };
    cursor.word(b"(").and_then(|()| members(&mut cursor)).is_some() && cursor.rest.is_empty()
}

/// Entries beyond the store are counted and not kept.
fn table_line(cursor: &mut Cursor, held: &mut Held) -> Option<()> {
    let (members, member_count) = members(cursor)?;
    cursor.word(b" (")?;
    let start = held.entry_count;
    let entry_count = entries(cursor, held.store.get_mut(start..).unwrap_or_default())?;
    cursor.word(b")\n")?;
    if let Some(table) = held.tables.get_mut(held.table_count) {
        table.members = members;
        table.member_count = member_count;
        table.start = start;
        table.entry_count = entry_count;
    }
    held.entry_count += entry_count;
    held.table_count += 1;
    Some(())
}

/// Entries up to the closing bracket; gives how many there are.
fn entries(cursor: &mut Cursor, store: &mut [u32]) -> Option<usize> {
    let mut count = 0;
    loop {
        let entry = cursor.number_or_hyphen()?;
        if let Some(place) = store.get_mut(count) {
            *place = entry;
        }
        count += 1;
        match cursor.byte()? {
            b' ' => {}
            b')' => return Some(count),
            _ => return None,
        }
    }
}

pub fn questions_6_to_10(held: &Held) -> Result<(), u64> {
    questions_6_to_9(held, |number, patient| patient.parent == HYPHEN || (patient.parent as usize) < number)?;
    if !on_one_path(held) {
        return Err(10);
    }
    Ok(())
}

/// What question 6 asks of a parent is given.
#[inline]
fn questions_6_to_9(held: &Held, parent_fits: impl Fn(usize, &Patient) -> bool) -> Result<(), u64> {
    let patient_fits = |(number, patient): (usize, &Patient)| {
        patient.clinic <= 15
            && (1..=16).contains(&patient.beds)
            && parent_fits(number, patient)
            && (patient.fixed == HYPHEN || patient.fixed < patient.beds)
    };
    if !held.patients().iter().enumerate().all(patient_fits) {
        return Err(6);
    }
    let members_fit = held.tables().iter().all(|table| {
        (1..=MOST_MEMBERS).contains(&table.member_count)
            && table.members().windows(2).all(|two| two[0] < two[1])
            && (table.members()[table.member_count - 1] as usize) < held.patient_count
    });
    if !members_fit {
        return Err(7);
    }
    let product = |members: &[u32]| members.iter().map(|member| held.patients[*member as usize].beds).product::<u32>();
    let counted = held.tables().iter().all(|table| table.entry_count == product(table.members()) as usize);
    if !counted || held.entry_count > MOST_ENTRIES {
        return Err(8);
    }
    if held.store[..held.entry_count].iter().any(|entry| *entry > 1_000_000 && *entry != HYPHEN) {
        return Err(9);
    }
    Ok(())
}

/// Question 10: each member but the last is an ancestor of the next.
fn on_one_path(held: &Held) -> bool {
    let mut above = [0u32; MOST_PATIENTS];
    for (number, patient) in held.patients().iter().enumerate() {
        if patient.parent != HYPHEN {
            above[number] = above[patient.parent as usize] | 1 << patient.parent;
        }
    }
    let joined = |two: &[u32]| above[two[1] as usize] & 1 << two[0] != 0;
    held.tables().iter().all(|table| table.members().windows(2).all(joined))
}

struct Cursor<'a> {
    rest: &'a [u8],
}

impl Cursor<'_> {
    /// Steps over these bytes, where they come next.
    #[inline]
    fn word(&mut self, word: &[u8]) -> Option<()> {
        self.rest = self.rest.strip_prefix(word)?;
        Some(())
    }

    #[inline]
    fn byte(&mut self) -> Option<u8> {
        let (byte, rest) = self.rest.split_first()?;
        self.rest = rest;
        Some(*byte)
    }

    /// 1 to 7 digits with no leading zero except `0` itself.
    #[inline]
    fn number(&mut self) -> Option<u32> {
        let mut value = 0;
        let mut digits = 0;
        while let Some(digit) = self.rest.get(digits).map(|byte| byte.wrapping_sub(b'0')).filter(|digit| *digit <= 9) {
            if digits == 7 {
                return None;
            }
            value = value * 10 + u32::from(digit);
            digits += 1;
        }
        if digits == 0 || digits > 1 && self.rest[0] == b'0' {
            return None;
        }
        self.rest = &self.rest[digits..];
        Some(value)
    }

    #[inline]
    fn number_or_hyphen(&mut self) -> Option<u32> {
        match self.rest.first() {
            Some(b'-') => {
                self.rest = &self.rest[1..];
                Some(HYPHEN)
            }
            _ => self.number(),
        }
    }
}
