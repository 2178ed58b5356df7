//! Region files to try: good ones, damaged ones, and ones with a fault of a known number.

pub mod clinics;
pub mod damage;
pub mod faults;
pub mod faulty;
pub mod fixed_beds;
pub mod full_size;
pub mod graphs;
pub mod joins;
pub mod large;
pub mod layout_faults;
pub mod lent_faults;
pub mod pairs;
pub mod parents;
pub mod small;
pub mod spelling;
pub mod typed;
