//! Wrong calls of read, each beside the comparison that must find it.

mod areas;
mod judged;
mod values;

use crate::compare::read::{back, by_hand, files, lengths, refusals};
use crate::compare::wrong::{Comparison, ComparisonOfAll};
use crate::compare::{every_call, Calls, ReadCall, Tested, LIBRARY};
use crate::lent::NONE;
use values::{BEDS, CLINIC, FIXED, M, MARK, N, PARENT, T, V};

type Wrong = (&'static str, Comparison<ReadCall>, ReadCall);

/// Places of the areas in their order.
const PATIENTS: usize = 0;
const TABLES: usize = 1;
const ENTRIES: usize = 2;
const RESULT: usize = 3;

pub fn all() -> Vec<Wrong> {
    let numbers =
        [other_patients(), other_parents(), other_fixed_beds(), other_tables(), other_entries(), other_counts()];
    let lists = numbers.into_iter().chain([not_back(), unasked(), misasked(), other_needs(), asked_too_much()]);
    lists.chain([other_results(), other_bytes(), on_refusals()]).flatten().collect()
}

/// Clinics, bed counts and whole patients are others.
fn other_patients() -> Vec<Wrong> {
    vec![
        ("a clinic is one higher", files::good_files, values::field_one_higher::<CLINIC>),
        ("a clinic is one higher", by_hand::run, values::field_one_higher::<CLINIC>),
        ("a clinic is one lower", files::good_files, values::field_one_lower::<CLINIC>),
        ("a bed count is one higher", files::good_files, values::field_one_higher::<BEDS>),
        ("a bed count is one lower", files::good_files, values::field_one_lower::<BEDS>),
        ("clinics and bed counts are exchanged", files::good_files, values::fields_exchanged::<CLINIC, BEDS>),
        ("clinics and bed counts are exchanged", by_hand::run, values::fields_exchanged::<CLINIC, BEDS>),
        ("bed counts and parents are exchanged", files::good_files, values::fields_exchanged::<BEDS, PARENT>),
        ("bed counts and fixed beds are exchanged", files::good_files, values::fields_exchanged::<BEDS, FIXED>),
        ("clinics and fixed beds are exchanged", files::good_files, values::fields_exchanged::<CLINIC, FIXED>),
        ("a clinic is cut to 3 bits", files::fields, values::field_cut::<CLINIC, 3>),
        ("a bed count is cut to 4 bits", files::fields, values::field_cut::<BEDS, 4>),
        ("clinics are shifted", files::good_files, values::field_shifted::<CLINIC>),
        ("bed counts are shifted", files::good_files, values::field_shifted::<BEDS>),
        ("patients in falling order", files::good_files, values::patients_turned),
        ("patients in falling order", by_hand::run, values::patients_turned),
        ("the last patient is left out", files::good_files, values::last_patient_left_out),
        ("the last patient is left out", files::counts, values::last_patient_left_out),
        ("the first patient comes twice", files::good_files, values::first_patient_twice),
        ("patients have 24 bytes", files::good_files, values::patients_of_24_bytes),
        ("field by field", files::good_files, values::field_by_field),
    ]
}

fn other_parents() -> Vec<Wrong> {
    vec![
        ("parents and fixed beds are exchanged", files::good_files, values::fields_exchanged::<PARENT, FIXED>),
        ("parents and fixed beds are exchanged", by_hand::run, values::fields_exchanged::<PARENT, FIXED>),
        ("a parent is one higher", files::good_files, values::field_one_higher::<PARENT>),
        ("a parent is one lower", files::good_files, values::field_one_lower::<PARENT>),
        ("no parent is 0", files::good_files, values::field_none_as::<PARENT, 0>),
        ("no parent is 0", by_hand::run, values::field_none_as::<PARENT, 0>),
        ("no parent is 2^32 - 1", files::good_files, values::field_none_as::<PARENT, MARK>),
        ("no parent is 2^64 - 2", files::good_files, values::field_none_as::<PARENT, { NONE - 1 }>),
        ("no parent is 32", files::good_files, values::field_none_as::<PARENT, 32>),
        ("no parent is the patient itself", files::good_files, values::own_parent_for_none),
        ("parent 0 is none", files::good_files, values::field_zero_as_none::<PARENT>),
        ("parent 0 is none", by_hand::run, values::field_zero_as_none::<PARENT>),
        ("a parent is cut to 4 bits", files::fields, values::field_cut::<PARENT, 4>),
        ("parents are shifted", files::good_files, values::field_shifted::<PARENT>),
        ("nobody has a parent", files::good_files, values::field_always::<PARENT, NONE>),
        ("parents are made anew", files::good_files, values::parents_made),
        ("parents are made anew", files::fields, values::parents_made),
    ]
}

fn other_fixed_beds() -> Vec<Wrong> {
    vec![
        ("a fixed bed is one higher", files::good_files, values::field_one_higher::<FIXED>),
        ("a fixed bed is one lower", files::good_files, values::field_one_lower::<FIXED>),
        ("no fixed bed is 0", files::good_files, values::field_none_as::<FIXED, 0>),
        ("no fixed bed is 0", by_hand::run, values::field_none_as::<FIXED, 0>),
        ("no fixed bed is 2^32 - 1", files::good_files, values::field_none_as::<FIXED, MARK>),
        ("no fixed bed is 2^64 - 2", files::good_files, values::field_none_as::<FIXED, { NONE - 1 }>),
        ("no fixed bed is the bed count", files::good_files, values::count_for_no_fixed_bed),
        ("fixed bed 0 is none", files::good_files, values::field_zero_as_none::<FIXED>),
        ("fixed bed 0 is none", by_hand::run, values::field_zero_as_none::<FIXED>),
        ("a fixed bed is cut to 3 bits", files::fields, values::field_cut::<FIXED, 3>),
        ("fixed beds are shifted", files::good_files, values::field_shifted::<FIXED>),
        ("fixed beds are lost", files::good_files, values::field_always::<FIXED, NONE>),
        ("fixed beds are lost", files::fields, values::field_always::<FIXED, NONE>),
        ("the last fixed bed is lost", files::good_files, values::last_fixed_bed_lost),
    ]
}

fn other_tables() -> Vec<Wrong> {
    vec![
        ("places without a member stay as they were", files::good_files, values::unused_members_left),
        ("places without a member stay as they were", by_hand::run, values::unused_members_left),
        ("places without a member are none", files::good_files, values::unused_members::<NONE>),
        ("places without a member are none", by_hand::run, values::unused_members::<NONE>),
        ("places without a member are 1", files::counts, values::unused_members::<1>),
        ("places without a member repeat the last", files::good_files, values::last_member_repeated),
        ("members stand in the last places", files::good_files, values::members_at_the_end),
        ("members in falling order", files::good_files, values::members_turned),
        ("members in falling order", by_hand::run, values::members_turned),
        ("members are counted from 1", files::good_files, values::members_counted_from_1),
        ("the fourth member is lost", files::good_files, values::fourth_member_lost),
        ("the fourth member is lost", by_hand::run, values::fourth_member_lost),
        ("a member is cut to 4 bits", files::counts, values::members_cut::<4>),
        ("the member count is one higher", files::good_files, values::table_field_one_higher::<0>),
        ("the member count is one lower", files::good_files, values::table_field_one_lower::<0>),
        ("the first member is one higher", files::good_files, values::table_field_one_higher::<1>),
        ("the member count is always 4", files::good_files, values::member_count_always_4),
        ("member count and entry count are exchanged", files::good_files, values::table_counts_exchanged),
        ("the entry count stands second", files::good_files, values::entry_count_second),
        ("the entry count is one higher", files::good_files, values::table_field_one_higher::<5>),
        ("the entry count is one lower", files::good_files, values::table_field_one_lower::<5>),
        ("the entry count is in bytes", files::good_files, values::entry_count_in_bytes),
        ("the entry count is cut to 8 bits", files::good_files, values::entry_count_cut::<8>),
        ("the entry count is cut to 12 bits", files::good_files, values::entry_count_cut::<12>),
        ("where entries begin, for their count", files::good_files, values::entries_begin),
        ("where entries end, for their count", files::good_files, values::entries_end),
        ("where entries end, for their count", by_hand::run, values::entries_end),
        ("tables in falling order", files::good_files, values::tables_turned),
        ("the last table is left out", files::good_files, values::last_table_left_out),
        ("the last table is left out", files::counts, values::last_table_left_out),
    ]
}

fn other_entries() -> Vec<Wrong> {
    vec![
        ("the last table's entries come first", files::good_files, values::table_entries_turned),
        ("the last table's entries come first", by_hand::run, values::table_entries_turned),
        ("entries in falling order", files::good_files, values::entries_turned),
        ("entries in falling order", by_hand::run, values::entries_turned),
        ("entries by their price", files::good_files, values::entries_rising),
        ("the first member's bed moves fastest", files::good_files, values::first_member_fastest),
        ("the first member's bed moves fastest", by_hand::run, values::first_member_fastest),
        ("entries of repeated tables are left out", files::good_files, values::repeated_entries_left_out),
        ("the last entry is left out", files::good_files, values::last_entry_left_out),
        ("the last entry is left out", files::counts, values::last_entry_left_out),
        ("a forbidden entry is 0", files::good_files, values::forbidden_as::<0>),
        ("a forbidden entry is 0", by_hand::run, values::forbidden_as::<0>),
        ("a forbidden entry is 2^32 - 1", files::good_files, values::forbidden_as::<MARK>),
        ("a forbidden entry is 2^64 - 2", files::good_files, values::forbidden_as::<{ NONE - 1 }>),
        ("a forbidden entry is 1,000,001", files::good_files, values::forbidden_as::<1_000_001>),
        ("an entry 0 is forbidden", files::good_files, values::as_forbidden::<0>),
        ("an entry 1,000,000 is forbidden", files::good_files, values::as_forbidden::<1_000_000>),
        ("an entry 1,000,000 is forbidden", by_hand::run, values::as_forbidden::<1_000_000>),
        ("an entry is one higher", files::good_files, values::entries_one_higher),
        ("an entry is cut to 8 bits", files::fields, values::entries_cut::<8>),
        ("an entry is cut to 16 bits", files::fields, values::entries_cut::<16>),
        ("an entry is cut to 19 bits", files::fields, values::entries_cut::<19>),
        ("an entry is at most 999,999", files::fields, values::below_the_highest),
    ]
}

fn other_counts() -> Vec<Wrong> {
    vec![
        ("V and T are exchanged", files::good_files, values::counts_exchanged::<V, T>),
        ("V and T are exchanged", by_hand::run, values::counts_exchanged::<V, T>),
        ("m and N are exchanged", files::good_files, values::counts_exchanged::<M, N>),
        ("m and N are exchanged", by_hand::run, values::counts_exchanged::<M, N>),
        ("T and m are exchanged", files::good_files, values::counts_exchanged::<T, M>),
        ("V is one higher", files::good_files, values::count_one_higher::<V>),
        ("V is one lower", files::good_files, values::count_one_lower::<V>),
        ("T is one higher", files::good_files, values::count_one_higher::<T>),
        ("T is one lower", files::good_files, values::count_one_lower::<T>),
        ("m is one higher", files::good_files, values::count_one_higher::<M>),
        ("m is one lower", files::good_files, values::count_one_lower::<M>),
        ("N is one higher", files::good_files, values::count_one_higher::<N>),
        ("N is one lower", files::good_files, values::count_one_lower::<N>),
        ("m is always 64", files::good_files, values::m_always_64),
        ("m is cut to 6 bits", files::fields, values::count_cut::<M, 6>),
        ("V is cut to 5 bits", files::counts, values::count_cut::<V, 5>),
        ("T is cut to 6 bits", files::counts, values::count_cut::<T, 6>),
        ("N is cut to 8 bits", files::counts, values::count_cut::<N, 8>),
        ("N is cut to 12 bits", files::counts, values::count_cut::<N, 12>),
        ("N counts no forbidden entries", files::good_files, values::allowed_entries_counted),
        ("N counts no forbidden entries", by_hand::run, values::allowed_entries_counted),
        ("N counts the last table alone", files::good_files, values::last_entries_counted),
        ("N counts bytes", files::good_files, values::entry_bytes_counted),
        ("N is the area's room", lengths::good_files, values::room_counted),
    ]
}

/// What is written of it is another file, or none.
fn not_back() -> Vec<Wrong> {
    vec![
        ("back: fixed beds are lost", back::files, values::field_always::<FIXED, NONE>),
        ("back: fixed beds are shifted", back::files, values::field_shifted::<FIXED>),
        ("back: parents are made anew", back::files, values::parents_made),
        ("back: parents and fixed beds are exchanged", back::files, values::fields_exchanged::<PARENT, FIXED>),
        ("back: clinics are one higher", back::files, values::field_one_higher::<CLINIC>),
        ("back: m is one lower", back::files, values::count_one_lower::<M>),
        ("back: V and T are exchanged", back::files, values::counts_exchanged::<V, T>),
        ("back: N counts bytes", back::files, values::entry_bytes_counted),
        ("back: N is one lower", back::files, values::count_one_lower::<N>),
        ("back: tables in falling order", back::files, values::tables_turned),
        ("back: the last table's entries come first", back::files, values::table_entries_turned),
        ("back: a forbidden entry is 0", back::files, values::forbidden_as::<0>),
        ("back: the member count is always 4", back::files, values::member_count_always_4),
        ("back: where entries begin, for their count", back::files, values::entries_begin),
        ("back: a region without a plan is refused", back::files, judged::thirteen),
        ("of written: places without a member stay as they were", back::regions, values::unused_members_left),
        ("of written: places without a member are none", back::regions, values::unused_members::<NONE>),
        ("of written: fixed bed 0 is none", back::regions, values::field_zero_as_none::<FIXED>),
        ("of written: no parent is 0", back::regions, values::field_none_as::<PARENT, 0>),
        ("of written: the last entry is left out", back::regions, values::last_entry_left_out),
        ("of written: m is always 64", back::regions, values::m_always_64),
        ("changed: the last table's entries come first", back::changed_regions, values::table_entries_turned),
        ("changed: fixed beds are lost", back::changed_regions, values::field_always::<FIXED, NONE>),
        (
            "changed: clinics and bed counts are exchanged",
            back::changed_regions,
            values::fields_exchanged::<CLINIC, BEDS>,
        ),
        ("changed: patients in falling order", back::changed_regions, values::patients_turned),
        ("changed: an entry is cut to 16 bits", back::changed_regions, values::entries_cut::<16>),
        ("changed: m is one higher", back::changed_regions, values::count_one_higher::<M>),
    ]
}

/// A question is not asked.
fn unasked() -> Vec<Wrong> {
    vec![
        ("question 1 is not asked", refusals::one_fault, judged::without::<1>),
        ("question 2 is not asked", refusals::one_fault, judged::without::<2>),
        ("question 3 is not asked", refusals::one_fault, judged::without::<3>),
        ("question 4 is not asked", refusals::one_fault, judged::without::<4>),
        ("question 5 is not asked", refusals::one_fault, judged::without::<5>),
        ("question 6 is not asked", refusals::one_fault, judged::without::<6>),
        ("question 7 is not asked", refusals::one_fault, judged::without::<7>),
        ("question 8 is not asked", refusals::one_fault, judged::without::<8>),
        ("question 9 is not asked", refusals::one_fault, judged::without::<9>),
        ("question 10 is not asked", refusals::one_fault, judged::without::<10>),
        ("12 is not asked", refusals::one_fault, judged::without::<12>),
        ("12 is not asked", lengths::good_files, judged::without::<12>),
        ("the patients' area is not asked", lengths::good_files, judged::area_unasked::<PATIENTS>),
        ("the tables' area is not asked", lengths::good_files, judged::area_unasked::<TABLES>),
        ("the entries' area is not asked", lengths::good_files, judged::area_unasked::<ENTRIES>),
        ("the result area is not asked", lengths::good_files, judged::area_unasked::<RESULT>),
        ("the entries' area is not asked", refusals::one_fault, judged::area_unasked::<ENTRIES>),
        ("nothing is asked of parents", refusals::one_fault, judged::parents_not_asked),
        ("nothing is asked of parents", by_hand::run, judged::parents_not_asked),
        ("the sum is not asked", refusals::changed_files, judged::without_sum),
        ("a line end is added", refusals::changed_files, judged::line_end_added),
    ]
}

/// The questions come in another order, or a number is another.
fn misasked() -> Vec<Wrong> {
    vec![
        ("12 before 10", refusals::two_faults, judged::twelve_before::<10>),
        ("12 before 9", refusals::two_faults, judged::twelve_before::<9>),
        ("12 before 8", refusals::two_faults, judged::twelve_before::<8>),
        ("12 before 5", refusals::two_faults, judged::twelve_before::<5>),
        ("12 before 4", refusals::two_faults, judged::twelve_before::<4>),
        ("12 before the file's", refusals::two_faults, judged::result_first),
        ("12 before the file's", lengths::refused_files, judged::result_first),
        ("12 before the file's", by_hand::run, judged::result_first),
        ("15 for 12", refusals::one_fault, judged::renumbered::<12, 15>),
        ("2 for 12", refusals::one_fault, judged::renumbered::<12, 2>),
        ("10 for 6", refusals::one_fault, judged::renumbered::<6, 10>),
        ("1 for 0", files::good_files, judged::renumbered::<0, 1>),
    ]
}

/// 12 asks for other lengths.
fn other_needs() -> Vec<Wrong> {
    vec![
        ("a byte fewer of patients is enough", lengths::good_files, judged::bytes_fewer::<PATIENTS, 1>),
        ("a byte fewer of patients is enough", by_hand::run, judged::bytes_fewer::<PATIENTS, 1>),
        ("a byte fewer of tables is enough", lengths::good_files, judged::bytes_fewer::<TABLES, 1>),
        ("a byte fewer of tables is enough", by_hand::run, judged::bytes_fewer::<TABLES, 1>),
        ("a byte fewer of entries is enough", lengths::good_files, judged::bytes_fewer::<ENTRIES, 1>),
        ("a byte fewer of entries is enough", by_hand::run, judged::bytes_fewer::<ENTRIES, 1>),
        ("a byte fewer of result is enough", lengths::good_files, judged::bytes_fewer::<RESULT, 1>),
        ("a byte fewer of result is enough", by_hand::run, judged::bytes_fewer::<RESULT, 1>),
        ("a patient fewer is enough", lengths::good_files, judged::bytes_fewer::<PATIENTS, 32>),
        ("24 bytes of result are enough", lengths::good_files, judged::bytes_fewer::<RESULT, 8>),
        ("a byte more of patients is needed", files::good_files, judged::bytes_more::<PATIENTS, 1>),
        ("a byte more of tables is needed", files::good_files, judged::bytes_more::<TABLES, 1>),
        ("a byte more of entries is needed", files::good_files, judged::bytes_more::<ENTRIES, 1>),
        ("a byte more of result is needed", files::good_files, judged::bytes_more::<RESULT, 1>),
        ("a byte more of patients is needed", lengths::good_files, judged::bytes_more::<PATIENTS, 1>),
        ("a byte more of tables is needed", lengths::good_files, judged::bytes_more::<TABLES, 1>),
        ("a byte more of entries is needed", lengths::good_files, judged::bytes_more::<ENTRIES, 1>),
        ("a byte more of result is needed", lengths::good_files, judged::bytes_more::<RESULT, 1>),
        ("40 bytes of result are asked for", lengths::good_files, judged::bytes_more::<RESULT, 8>),
        ("the three areas are long enough together", lengths::good_files, judged::together_enough),
        ("the three areas are long enough together", by_hand::run, judged::together_enough),
    ]
}

/// What could be read is refused.
fn asked_too_much() -> Vec<Wrong> {
    vec![
        ("a longer area of patients is refused", files::good_files, judged::longer_refused::<PATIENTS>),
        ("a longer area of tables is refused", files::good_files, judged::longer_refused::<TABLES>),
        ("a longer area of entries is refused", files::good_files, judged::longer_refused::<ENTRIES>),
        ("a longer result area is refused", files::good_files, judged::longer_refused::<RESULT>),
        ("a longer area of tables is refused", lengths::good_files, judged::longer_refused::<TABLES>),
        ("a much longer area of patients is refused", files::good_files, judged::much_longer_refused::<PATIENTS>),
        ("a much longer area of entries is refused", back::files, judged::much_longer_refused::<ENTRIES>),
        ("areas must be whole", files::good_files, judged::whole_areas_asked),
        ("patients' area for every file is asked for", files::good_files, judged::room_for_all_asked::<PATIENTS>),
        ("tables' area for every file is asked for", files::good_files, judged::room_for_all_asked::<TABLES>),
        ("entries' area for every file is asked for", files::good_files, judged::room_for_all_asked::<ENTRIES>),
        ("a region without a plan is refused with 13", files::good_files, judged::thirteen),
        ("a region without tables is refused", files::good_files, judged::no_tables_refused),
        ("32 patients are too many", files::counts, judged::the_most_refused::<32, 65>),
        ("64 tables are too many", files::counts, judged::the_most_refused::<33, 64>),
        ("4,096 entries are too many", files::counts, judged::full_store_refused),
        ("1,000,000 is too much", files::fields, judged::highest_price_refused),
    ]
}

/// The result area has other bytes afterwards.
fn other_results() -> Vec<Wrong> {
    vec![
        ("a refusal leaves the result area", refusals::one_fault, areas::result_left),
        ("a refusal leaves the result area", lengths::refused_files, areas::result_left),
        ("12 leaves the result area", refusals::one_fault, areas::result_left_on::<12>),
        ("12 leaves the result area", lengths::good_files, areas::result_left_on::<12>),
        ("1 leaves the result area", refusals::one_fault, areas::result_left_on::<1>),
        ("10 leaves the result area", lengths::refused_files, areas::result_left_on::<10>),
        ("a refusal zeroes 8 bytes", refusals::one_fault, areas::zeros_up_to::<8>),
        ("a refusal zeroes 24 bytes", refusals::one_fault, areas::zeros_up_to::<24>),
        ("a refusal zeroes 31 bytes", lengths::refused_files, areas::zeros_up_to::<31>),
        ("a refusal zeroes all of the result area", lengths::refused_files, areas::all_of_the_result_zeroed),
        ("12 tells what is needed", lengths::good_files, areas::need_told),
        ("12 tells what is needed", refusals::one_fault, areas::need_told),
        ("the number stands in the result area", refusals::one_fault, areas::number_told),
        ("bytes after the result are written", lengths::good_files, areas::behind_result_written),
        ("bytes after the result are written", lengths::refused_files, areas::behind_result_written),
        ("N is not written", files::good_files, areas::three_results),
        ("zeros into a short result area", lengths::good_files, areas::short_result_zeroed),
        ("zeros into a short result area", lengths::refused_files, areas::short_result_zeroed),
        ("zeros into a short result area", by_hand::run, areas::short_result_zeroed),
        ("whole zeros into a short result area", lengths::refused_files, areas::short_result_zeroed_by_numbers),
    ]
}

/// The areas have other bytes after a file was read.
fn other_bytes() -> Vec<Wrong> {
    vec![
        ("patients are written highest byte first", files::good_files, areas::highest_byte_first::<PATIENTS>),
        ("tables are written highest byte first", files::good_files, areas::highest_byte_first::<TABLES>),
        ("entries are written highest byte first", files::good_files, areas::highest_byte_first::<ENTRIES>),
        ("the result is written highest byte first", files::good_files, areas::highest_byte_first::<RESULT>),
        ("patients have numbers of four bytes", files::good_files, areas::four_bytes::<PATIENTS>),
        ("tables have numbers of four bytes", files::good_files, areas::four_bytes::<TABLES>),
        ("entries have four bytes", files::good_files, areas::four_bytes::<ENTRIES>),
        ("the result has numbers of four bytes", files::good_files, areas::four_bytes::<RESULT>),
        ("a byte after the patients is written", files::good_files, areas::byte_behind::<PATIENTS>),
        ("a byte after the tables is written", files::good_files, areas::byte_behind::<TABLES>),
        ("a byte after the entries is written", files::good_files, areas::byte_behind::<ENTRIES>),
        ("a byte after the result is written", files::good_files, areas::byte_behind::<RESULT>),
        ("a byte after the patients' area is written", files::good_files, areas::spilling::<PATIENTS>),
        ("a byte after the tables' area is written", files::good_files, areas::spilling::<TABLES>),
        ("a byte after the entries' area is written", files::good_files, areas::spilling::<ENTRIES>),
        ("a byte after the result area is written", files::good_files, areas::spilling::<RESULT>),
        ("a byte after a full area of patients is written", files::counts, areas::spilling_where_full::<PATIENTS>),
        ("a byte after a full area of tables is written", files::counts, areas::spilling_where_full::<TABLES>),
        ("a byte after a full area of entries is written", files::counts, areas::spilling_where_full::<ENTRIES>),
        ("patients beyond are cleared", lengths::good_files, areas::beyond_cleared::<PATIENTS>),
        ("tables beyond are cleared", lengths::good_files, areas::beyond_cleared::<TABLES>),
        ("entries beyond are cleared", lengths::good_files, areas::beyond_cleared::<ENTRIES>),
    ]
}

/// The three areas are written though the file is refused or an area is too short.
fn on_refusals() -> Vec<Wrong> {
    vec![
        ("patients are written on 12", lengths::good_files, areas::written_on_12::<PATIENTS>),
        ("tables are written on 12", lengths::good_files, areas::written_on_12::<TABLES>),
        ("entries are written on 12", lengths::good_files, areas::written_on_12::<ENTRIES>),
        ("patients are written on 12", refusals::one_fault, areas::written_on_12::<PATIENTS>),
        ("tables are written on 12", by_hand::run, areas::written_on_12::<TABLES>),
        ("entries are written on 12", by_hand::run, areas::written_on_12::<ENTRIES>),
        ("patients are cleared on 12", refusals::one_fault, areas::cleared_on::<PATIENTS, 12>),
        ("patients are cleared on 2", refusals::one_fault, areas::cleared_on::<PATIENTS, 2>),
        ("tables are cleared on 7", refusals::one_fault, areas::cleared_on::<TABLES, 7>),
        ("entries are cleared on 9", refusals::one_fault, areas::cleared_on::<ENTRIES, 9>),
        ("entries are cleared on 4", lengths::refused_files, areas::cleared_on::<ENTRIES, 4>),
        ("entries are cleared on 2", refusals::changed_files, areas::cleared_on::<ENTRIES, 2>),
        ("a patient is written before 10 is asked", refusals::one_fault, areas::written_before_10),
        ("a patient is written before 10 is asked", lengths::refused_files, areas::written_before_10),
    ]
}

/// A wrong call of read among the calls of a program.
pub fn among_all() -> Vec<(&'static str, ComparisonOfAll, Calls)> {
    let read = |call| Calls { read: Tested { call, ..LIBRARY.read }, ..LIBRARY };
    vec![
        ("read does not ask for the sum", every_call::one_byte_changes, read(judged::without_sum)),
        ("read adds a line end", every_call::cuts, read(judged::line_end_added)),
        ("read takes the old form", every_call::old_form, read(judged::old_form_taken)),
        ("read does not ask for the sum of damaged files", every_call::damaged_files, read(judged::without_sum)),
        ("read asks nothing of parents of damaged files", every_call::damaged_files, read(judged::parents_not_asked)),
        (
            "read loses fixed beds of damaged files",
            every_call::damaged_files,
            read(values::field_always::<FIXED, NONE>),
        ),
        ("read does not ask question 2 of random bytes", every_call::random_files, read(judged::without::<2>)),
        (
            "read zeroes a short result area for random bytes",
            every_call::random_files,
            read(areas::short_result_zeroed),
        ),
    ]
}
