//! Regions with far more plans than can be walked, whose lists a search finds at once.

use crate::generate::clinics::{self, Parameters};
use crate::generate::fixed_beds::fix_share;
use crate::generate::parents::chained;
use crate::limits::HIGHEST_ENTRY;
use crate::random::Random;
use crate::region::{Patient, Region, Table};

/// Many small clinics, a region of zero prices, or patients with no table at all. In half of them the patients are dealt to clinics
/// anew, so that tables join these, and in half beds are fixed.
pub fn region(random: &mut Random) -> Region {
    let mut region = free_region(random);
    if random.chance(50) {
        region.patients.iter_mut().for_each(|patient| patient.clinic = random.between(0, 15));
    }
    if random.chance(50) {
        fix_share(&mut region, random.pick(&[5, 20, 100]), random);
    }
    region
}

fn free_region(random: &mut Random) -> Region {
    let m = random.pick(&[1, 10, 63, 64]);
    match random.below(4) {
        0 => clinics::region(Parameters { clinics: 16, patients: 2, beds: 8, density: 1.0, m }, random),
        1 => clinics::region(Parameters { clinics: 8, patients: 4, beds: 4, density: 1.0, m }, random),
        2 => chained(&equal_prices(0, m, random)),
        _ => equal_prices(HIGHEST_ENTRY, m, random),
    }
}

/// 32 patients, most of them with a table in which every bed has the same price.
fn equal_prices(price: u64, m: u64, random: &mut Random) -> Region {
    let mut region = Region { patients: Vec::new(), tables: Vec::new(), m };
    for number in 0..32 {
        let beds = random.between(1, 16);
        region.patients.push(Patient::of(random.between(0, 15), beds, None));
        if random.chance(80) {
            region.tables.push(Table { members: vec![number], entries: vec![Some(price); beds as usize] });
        }
    }
    region
}
