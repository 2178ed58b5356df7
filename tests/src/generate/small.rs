//! Random small regions, few enough plans to walk them all.

use crate::generate::fixed_beds::fix_sometimes;
use crate::generate::parents::{join_some_roots, set_parents};
use crate::limits::HIGHEST_ENTRY;
use crate::random::Random;
use crate::region::{Patient, Region, Table};

/// No region made here has more plans than this.
pub const MOST_PLANS: u64 = 2_048;

/// In so many of a hundred regions of the other kinds, beds are fixed too.
const FIXED: u64 = 30;

/// What a region is made to try.
#[derive(Clone, Copy, Debug, PartialEq)]
pub enum Kind {
    Ties,
    ManyForbidden,
    NoneAllowed,
    FewPlans,
    RepeatedTables,
    SeveralRoots,
    Interleaved,
    OneBed,
    FourMembers,
    HighPrices,
    NoTables,
    ParentsMade,
    FixedBeds,
}

pub const KINDS: [Kind; 13] = [
    Kind::Ties,
    Kind::ManyForbidden,
    Kind::NoneAllowed,
    Kind::FewPlans,
    Kind::RepeatedTables,
    Kind::SeveralRoots,
    Kind::Interleaved,
    Kind::OneBed,
    Kind::FourMembers,
    Kind::HighPrices,
    Kind::NoTables,
    Kind::ParentsMade,
    Kind::FixedBeds,
];

/// How a region's parts are drawn. Pairs are lowest and highest.
struct Shape {
    patients: (u64, u64),
    beds: (u64, u64),
    /// How many trees the patients are dealt to, in turn at random.
    trees: (u64, u64),
    tables: (u64, u64),
    members: (u64, u64),
    price: (u64, u64),
    /// In percent: entries forbidden, tables that repeat an earlier one.
    forbidden: u64,
    repeated: u64,
    m: (u64, u64),
}

fn shape_of(kind: Kind) -> Shape {
    let usual = Shape {
        patients: (1, 7),
        beds: (1, 4),
        trees: (1, 3),
        tables: (0, 9),
        members: (1, 3),
        price: (0, 9),
        forbidden: 10,
        repeated: 5,
        m: (1, 64),
    };
    match kind {
        Kind::Ties => Shape { price: (0, 1), forbidden: 5, tables: (0, 4), ..usual },
        Kind::ManyForbidden => Shape { forbidden: 45, tables: (1, 6), ..usual },
        Kind::NoneAllowed => Shape { tables: (0, 5), ..usual },
        Kind::FewPlans => Shape { patients: (1, 3), beds: (1, 3), m: (28, 64), ..usual },
        Kind::RepeatedTables => Shape { repeated: 60, tables: (2, 9), m: (1, 9), ..usual },
        Kind::SeveralRoots => Shape { patients: (3, 8), beds: (1, 3), trees: (3, 8), ..usual },
        Kind::Interleaved => Shape { patients: (4, 8), beds: (2, 3), trees: (2, 2), tables: (3, 9), ..usual },
        Kind::OneBed => Shape { patients: (1, 32), beds: (1, 1), tables: (0, 20), forbidden: 1, ..usual },
        Kind::FourMembers => Shape { patients: (4, 6), members: (4, 4), trees: (1, 1), tables: (1, 4), ..usual },
        Kind::HighPrices => Shape {
            price: (HIGHEST_ENTRY - 1, HIGHEST_ENTRY),
            tables: (64, 64),
            members: (1, 2),
            forbidden: 0,
            m: (1, 9),
            ..usual
        },
        Kind::NoTables => Shape { tables: (0, 0), ..usual },
        Kind::ParentsMade => Shape { trees: (1, 1), members: (1, 4), tables: (1, 5), forbidden: 20, ..usual },
        Kind::FixedBeds => usual,
    }
}

/// A random region of a kind.
pub fn region(kind: Kind, random: &mut Random) -> Region {
    let shape = shape_of(kind);
    let mut region = Region { patients: patients(&shape, random), tables: Vec::new(), m: 0 };
    region.m = drawn(shape.m, random);
    add_tables(&mut region, &shape, kind == Kind::ParentsMade, random);
    if kind == Kind::NoneAllowed {
        forbid_one_patient(&mut region, random);
    }
    if kind == Kind::ParentsMade {
        set_parents(&mut region);
        join_some_roots(&mut region, 30, random);
    }
    fix_sometimes(if kind == Kind::FixedBeds { 100 } else { FIXED }, &mut region, random);
    region
}

/// A random region of a random kind.
pub fn any_region(random: &mut Random) -> Region {
    let kind = random.pick(&KINDS);
    region(kind, random)
}

fn drawn(range: (u64, u64), random: &mut Random) -> u64 {
    random.between(range.0, range.1)
}

/// Patients dealt to trees at random; within a tree any earlier patient may be the parent.
fn patients(shape: &Shape, random: &mut Random) -> Vec<Patient> {
    let trees = drawn(shape.trees, random) as usize;
    let clinics = random.between(1, 4) as usize;
    let numbers: Vec<u64> = (0..clinics).map(|_| random.between(0, 15)).collect();
    let mut of_tree: Vec<Vec<u64>> = vec![Vec::new(); trees];
    let mut patients = Vec::new();
    let mut plans = 1;
    for number in 0..drawn(shape.patients, random) {
        let tree = &mut of_tree[random.below(trees)];
        let parent = if tree.is_empty() { None } else { Some(random.pick(tree)) };
        tree.push(number);
        let drawn_beds = drawn(shape.beds, random);
        let beds = if plans * drawn_beds > MOST_PLANS { 1 } else { drawn_beds };
        plans *= beds;
        patients.push(Patient::of(random.pick(&numbers), beds, parent));
    }
    patients
}

/// Tables over patients of one path, or over any patients where parents are made afterwards.
fn add_tables(region: &mut Region, shape: &Shape, any_members: bool, random: &mut Random) {
    let mut room = 4_096;
    for _ in 0..drawn(shape.tables, random) {
        let table = if !region.tables.is_empty() && random.chance(shape.repeated) {
            region.tables[random.below(region.tables.len())].clone()
        } else {
            let from = if any_members { everyone(region) } else { path(region, random) };
            let members = some_of(from, drawn(shape.members, random) as usize, random);
            priced(region, members, shape, random)
        };
        if table.entries.len() <= room {
            room -= table.entries.len();
            region.tables.push(table);
        }
    }
}

fn everyone(region: &Region) -> Vec<u64> {
    (0..region.patients.len() as u64).collect()
}

/// A patient and its ancestors.
pub fn path(region: &Region, random: &mut Random) -> Vec<u64> {
    let lowest = random.below(region.patients.len()) as u64;
    (0..=lowest).filter(|patient| *patient == lowest || region.is_ancestor(*patient, lowest)).collect()
}

/// At most so many of the patients, by rising number.
pub fn some_of(mut patients: Vec<u64>, most: usize, random: &mut Random) -> Vec<u64> {
    random.shuffle(&mut patients);
    patients.truncate(most);
    patients.sort();
    patients
}

fn priced(region: &Region, members: Vec<u64>, shape: &Shape, random: &mut Random) -> Table {
    let price = |random: &mut Random| (!random.chance(shape.forbidden)).then(|| drawn(shape.price, random));
    let entries = (0..region.entries_over(&members)).map(|_| price(random)).collect();
    Table { members, entries }
}

/// A table that forbids every bed of one patient.
fn forbid_one_patient(region: &mut Region, random: &mut Random) {
    let patient = random.below(region.patients.len());
    let entries = vec![None; region.patients[patient].beds as usize];
    let place = random.below(region.tables.len() + 1);
    region.tables.insert(place, Table { members: vec![patient as u64], entries });
}
