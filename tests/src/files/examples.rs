//! `examples/*.region`. What each is there to show stands in `examples/README.md`.

use crate::files::describe::{chain, child, flat_table, paper, region, root, table};
use crate::files::mersenne::Mersenne;
use crate::files::Made;
use crate::generate::spelling::file_of;
use crate::limits::{HIGHEST_ENTRY, HIGHEST_NUMBER};
use crate::region::{Patient, Region, Table};

pub const DIRECTORY: &str = "examples";

pub fn made() -> Vec<Made> {
    let all = [
        ("paper", paper()),
        ("small_ward", small_ward()),
        ("ties", ties()),
        ("clinics", clinics()),
        ("separate", separate()),
        ("forbidden", forbidden()),
        ("full_size", full_size()),
        ("one_tree", one_tree()),
        ("stays_put", stays_put()),
        ("north", north()),
        ("south", south()),
        ("north_and_south", north_and_south()),
        ("wrong_parents", wrong_parents()),
        ("parents_made", parents_made()),
        ("chained", chained()),
    ];
    all.map(|(name, region)| Made { path: format!("{DIRECTORY}/{name}.region"), bytes: file_of(&region) }).into()
}

/// The example of this name.
pub fn file(name: &str) -> Vec<u8> {
    let path = format!("{DIRECTORY}/{name}.region");
    made().into_iter().find(|made| made.path == path).expect("an example of this name").bytes
}

fn small_ward() -> Region {
    let patients = [root(0, 2), child(0, 3, 0), child(0, 2, 1)];
    let tables = [table(&[0], "2 1"), table(&[0, 1], "0 1 - 3 - 0"), table(&[1, 2], "1 0 - 2 0 4"), table(&[2], "0 1")];
    region(64, patients, tables)
}

fn ties() -> Region {
    let patients = [root(0, 2), root(1, 2), child(0, 3, 0)];
    region(10, patients, [table(&[0], "5 5"), table(&[1], "2 2"), table(&[0, 2], "1 1 2 1 2 1")])
}

fn clinics() -> Region {
    let patients = [root(0, 2), child(0, 3, 0), child(1, 2, 1), root(2, 2), child(1, 2, 2), child(2, 3, 3)];
    let tables = [
        table(&[0], "4 1"),
        table(&[0, 1], "- 2 0 3 - 1"),
        table(&[1, 2], "0 5 5 0 2 2"),
        table(&[2, 4], "- 3 3 -"),
        table(&[4], "0 2"),
        table(&[3], "1 1"),
        table(&[3, 5], "- 0 4 0 - 6"),
        table(&[0, 1, 4], "0 0 1 0 0 0 0 7 0 0 0 0"),
    ];
    region(12, patients, tables)
}

fn separate() -> Region {
    let patients = [root(0, 2), root(3, 3), child(0, 3, 0), child(3, 2, 1)];
    let tables = [
        table(&[0], "6 2"),
        table(&[0, 2], "- 1 4 3 - 0"),
        table(&[1], "0 3 1"),
        table(&[3], "2 0"),
        table(&[1, 3], "0 - 5 0 1 1"),
    ];
    region(8, patients, tables)
}

fn forbidden() -> Region {
    let patients = [root(0, 2), root(1, 3), child(1, 2, 1)];
    let tables =
        [flat_table(&[0], HIGHEST_ENTRY, 2), table(&[1], "- - -"), table(&[1, 2], "0 0 0 0 0 0"), table(&[2], "7 0")];
    region(5, patients, tables)
}

/// The most of everything: 16 clinics of two patients with 13 and 9 beds, each a tree of its own.
/// Each patient has prices; of a clinic's two tables over both patients, one forbids them the same bed.
fn full_size() -> Region {
    const BEDS: [u64; 2] = [13, 9];
    let patients: Vec<_> =
        (0..32).map(|n| if n < 16 { root(n, BEDS[0]) } else { child(n - 16, BEDS[1], n - 16) }).collect();
    let mut drawn = Mersenne::of(32);
    let mut tables = Vec::new();
    for clinic in 0..16 {
        let both = vec![clinic, clinic + 16];
        for (patient, beds) in both.iter().zip(BEDS) {
            let entries = (0..beds).map(|_| Some(drawn.up_to(499).into())).collect();
            tables.push(Table { members: vec![*patient], entries });
        }
        let plans: Vec<(u64, u64)> = (0..BEDS[0]).flat_map(|one| (0..BEDS[1]).map(move |other| (one, other))).collect();
        let apart = plans.iter().map(|(one, other)| (one != other).then(|| drawn.up_to(90).into())).collect();
        tables.push(Table { members: both.clone(), entries: apart });
        let some = plans.iter().map(|_| (!drawn.chance(10)).then(|| drawn.up_to(30).into())).collect();
        tables.push(Table { members: both, entries: some });
    }
    region(64, patients, tables)
}

fn one_tree() -> Region {
    let tables: Vec<Table> = (0..31).map(|number| table(&[number, number + 1], "0 5 5 1")).collect();
    region(64, chain(32, 2), tables)
}

fn stays_put() -> Region {
    let patients = [root(0, 2), child(0, 3, 0).staying_in(2), root(1, 2).staying_in(1), child(1, 2, 2)];
    let tables = [table(&[0], "2 1"), table(&[0, 1], "0 1 4 3 - 0"), table(&[2], "1 3"), table(&[2, 3], "0 2 5 1")];
    region(8, patients, tables)
}

fn north() -> Region {
    let patients = [root(0, 2), child(0, 2, 0), root(1, 2)];
    let tables = [table(&[0], "3 1"), table(&[0, 1], "0 1 1 -"), table(&[1], "0 1"), table(&[2], "0 2")];
    region(6, patients, tables)
}

fn south() -> Region {
    let patients = [root(4, 3), child(4, 2, 0).staying_in(1)];
    region(4, patients, [table(&[0], "1 0 4"), table(&[0, 1], "9 0 0 2 - 2")])
}

/// The two joined, by hand: nothing here is made of the two.
fn north_and_south() -> Region {
    let patients = [root(0, 2), child(0, 2, 0), root(1, 2), root(4, 3), child(4, 2, 3).staying_in(1)];
    let tables = [
        table(&[0], "3 1"),
        table(&[0, 1], "0 1 1 -"),
        table(&[1], "0 1"),
        table(&[2], "0 2"),
        table(&[3], "1 0 4"),
        table(&[3, 4], "9 0 0 2 - 2"),
    ];
    region(4, patients, tables)
}

/// A later patient, the highest number, the patient itself, none, one whom no table joins, an earlier one of another clinic.
fn wrong_parents() -> Region {
    let patients = [
        child(0, 2, 3),
        child(0, 2, HIGHEST_NUMBER),
        child(1, 2, 2),
        root(0, 2),
        child(1, 3, 1).staying_in(2),
        child(0, 2, 4),
    ];
    region(4, patients, tables_for_parents())
}

/// The same with its parents made, by hand: nothing here makes them.
fn parents_made() -> Region {
    let patients =
        [root(0, 2), child(0, 2, 0), root(1, 2), child(0, 2, 1), child(1, 3, 2).staying_in(2), child(0, 2, 1)];
    region(4, patients, tables_for_parents())
}

fn tables_for_parents() -> [Table; 5] {
    [
        table(&[0, 3], "0 1 2 -"),
        table(&[1, 3], "1 0 - 3"),
        table(&[1, 5], "0 4 1 0"),
        table(&[2], "2 0"),
        table(&[2, 4], "5 - 1 0 3 2"),
    ]
}

/// Eight clinics of three patients with four beds, dealt in turn. No table joins two clinics, but the parents make one tree of all.
fn chained() -> Region {
    const CLINICS: u64 = 8;
    const BEDS: u64 = 4;
    let patients: Vec<Patient> = (0..3 * CLINICS).map(|n| Patient::of(n % CLINICS, BEDS, n.checked_sub(1))).collect();
    let mut drawn = Mersenne::of(107);
    let mut tables = Vec::new();
    for clinic in 0..CLINICS {
        let [one, two, three] = [0, 1, 2].map(|round| clinic + round * CLINICS);
        for patient in [one, two, three] {
            let entries = (0..BEDS).map(|_| Some(drawn.up_to(9).into())).collect();
            tables.push(Table { members: vec![patient], entries });
        }
        for members in [[one, two], [one, three], [two, three]] {
            let entries = (0..BEDS * BEDS).map(|place| (place % (BEDS + 1) != 0).then(|| drawn.up_to(9).into()));
            tables.push(Table { members: members.to_vec(), entries: entries.collect() });
        }
    }
    region(10, patients, tables)
}
