//! Wrong calls, each beside the comparison that must find it: a comparison that finds none of them
//! could not fail.

mod checks;
mod fixed_beds;
mod joins;
mod lines;
mod lists;
mod parents;
mod parts;
mod prices;
mod reads;
mod sheets;
mod texts;
mod versions;
mod writes;

use crate::compare::printing::{self, Text};
use crate::compare::report::{Difference, Tally};
use crate::compare::{check, clinic_pairs, every_call, large, line, list, price, shares, sheet, version, write};
use crate::compare::{Calls, CheckCall, LineCall, ListCall, PriceCall, SheetCall, Tested, WriteCall, LIBRARY};
use crate::generate::small::{Kind, KINDS};

/// A comparison of one call, with a seed and a count.
type Comparison<Call> = fn(Tested<Call>, u64, usize) -> Result<Tally, Difference>;

/// A comparison of the calls of a file, read, join and parents among them.
type ComparisonOfAll = fn(Calls, u64, usize) -> Result<Tally, Difference>;

/// A printing program's text of a file.
type TextCall = fn(&[u8]) -> Text;

/// One seed and count, so that what is found does not depend on those of the run.
const SEED: u64 = 1;
const COUNT: usize = 4_800;

/// Runs every comparison on its wrong calls. Each must end in a difference.
pub fn run() -> Result<Tally, Difference> {
    let mut tally = Tally::of("wrong calls, each found");
    for (name, comparison, call) in wrong_checks().into_iter().chain(fixed_checks()) {
        found(&mut tally, name, comparison(Tested { name, call }, SEED, COUNT))?;
    }
    for (name, comparison, call) in wrong_prices().into_iter().chain(fixed_prices()) {
        found(&mut tally, name, comparison(Tested { name, call }, SEED, COUNT))?;
    }
    for (name, comparison, call) in wrong_lists().into_iter().chain(fixed_lists()) {
        found(&mut tally, name, comparison(Tested { name, call }, SEED, COUNT))?;
    }
    for (name, comparison, call) in wrong_sheets().into_iter().chain(wrong_shares()).chain(fixed_sheets()) {
        found(&mut tally, name, comparison(Tested { name, call }, SEED, COUNT))?;
    }
    for (name, comparison, call) in wrong_writes().into_iter().chain(unlike_writes()).chain(fixed_writes()) {
        found(&mut tally, name, comparison(Tested { name, call }, SEED, COUNT))?;
    }
    for (name, comparison, call) in wrong_lines().into_iter().chain(wrong_texts_taken()).chain(misasked_lines()) {
        found(&mut tally, name, comparison(Tested { name, call }, SEED, COUNT))?;
    }
    for (name, comparison, call) in parts::all() {
        found(&mut tally, name, comparison(Tested { name, call }, SEED, COUNT))?;
    }
    for (name, comparison, call) in joins::all() {
        found(&mut tally, name, comparison(Tested { name, call }, SEED, COUNT))?;
    }
    for (name, comparison, call) in parents::all() {
        found(&mut tally, name, comparison(Tested { name, call }, SEED, COUNT))?;
    }
    for (name, comparison, call) in reads::all() {
        found(&mut tally, name, comparison(Tested { name, call }, SEED, COUNT))?;
    }
    for (name, header, call) in versions::all() {
        found(&mut tally, name, version::run(Tested { name, call }, &header))?;
    }
    let among_all = [wrong_calls(), joins::among_all(), parents::among_all(), reads::among_all()];
    for (name, comparison, calls) in among_all.into_iter().flatten() {
        found(&mut tally, name, comparison(calls, SEED, COUNT))?;
    }
    for (name, text) in wrong_texts() {
        found(&mut tally, name, printing::texts(Tested { name, call: &text }, SEED, COUNT))?;
    }
    Ok(tally)
}

/// Counts a wrong call that was found: two answers differ, which is more than a number that never came up.
fn found(tally: &mut Tally, name: &str, compared: Result<Tally, Difference>) -> Result<(), Difference> {
    let by = match compared {
        Err(difference) if difference.answers.len() > 1 => {
            tally.count(0);
            return Ok(());
        }
        Err(lack) => lack.kind,
        Ok(unmoved) => unmoved.kind().to_string(),
    };
    let answers = vec![("not found".to_string(), name.to_string()), ("by".to_string(), by)];
    Err(Difference { kind: tally.kind().to_string(), file: Vec::new(), answers })
}

fn wrong_checks() -> Vec<(&'static str, Comparison<CheckCall>, CheckCall)> {
    vec![
        ("m 64 is refused", check::good_files, checks::refusing_64),
        ("65,535 bytes are too long", check::large_files, checks::one_byte_too_strict),
        ("question 1 is not asked", check::large_files, checks::without::<1>),
        ("question 2 is not asked", check::single_faults, checks::without::<2>),
        ("question 3 is not asked", check::single_faults, checks::without::<3>),
        ("question 4 is not asked", check::single_faults, checks::without::<4>),
        ("question 5 is not asked", check::single_faults, checks::without::<5>),
        ("question 6 is not asked", check::single_faults, checks::without::<6>),
        ("question 7 is not asked", check::single_faults, checks::without::<7>),
        ("question 8 is not asked", check::single_faults, checks::without::<8>),
        ("question 9 is not asked", check::single_faults, checks::without::<9>),
        ("question 10 is not asked", check::single_faults, checks::without::<10>),
        ("question 4 is put before 3", check::double_faults, checks::sum_first),
        ("question 10 is not asked of damaged files", check::damaged_files, checks::without::<10>),
        ("question 2 is not asked of random bytes", check::random_files, checks::without::<2>),
    ]
}

/// Checks that judge fixed beds otherwise.
fn fixed_checks() -> Vec<(&'static str, Comparison<CheckCall>, CheckCall)> {
    vec![
        ("a fixed bed may be the bed count", check::single_faults, checks::bed_at_the_count_taken),
        ("a fixed bed may be the bed count", check::fixed_beds, checks::bed_at_the_count_taken),
        ("the limit of every fixed bed is 16", check::fixed_beds, checks::beds_below_16_taken),
        ("the last patient's fixed bed is not asked", check::single_faults, checks::last_fixed_bed_taken),
        ("the last patient's fixed bed is not asked", check::fixed_beds, checks::last_fixed_bed_taken),
        ("only the first patient's fixed bed is asked", check::fixed_beds, checks::first_fixed_bed_asked_alone),
        ("fixed beds are asked last", check::double_faults, checks::fixed_beds_last),
        ("a missing fourth field is none", check::single_faults, checks::old_form_taken),
        ("a fifth field is passed over", check::single_faults, checks::fifth_field_passed_over),
        ("a fixed bed may have a leading zero", check::single_faults, checks::leading_zero_taken),
    ]
}

fn wrong_prices() -> Vec<(&'static str, Comparison<PriceCall>, PriceCall)> {
    vec![
        ("a forbidden plan is allowed, for nothing", price::regions, prices::forbidden_for_nothing),
        ("a forbidden plan has a total", price::regions, prices::forbidden_with_total),
        ("the total leaves out the last table", price::regions, prices::without_last_table),
        ("the limit of every bed is 16", price::regions, prices::beds_below_16),
        ("a longer plan is cut", price::regions, prices::longer_plan_cut),
        ("8 bytes of result are enough", price::regions, prices::short_result),
        ("a refusal leaves the result area", price::regions, prices::result_left),
        ("question 12 is put before the file's", price::faulty_files, prices::result_first),
    ]
}

fn fixed_prices() -> Vec<(&'static str, Comparison<PriceCall>, PriceCall)> {
    vec![
        ("fixed beds are ignored", price::regions, prices::fixed_ignored),
        ("only the first patient's fixed bed is kept", price::regions, prices::first_fixed_alone),
        ("the last patient's fixed bed is ignored", price::regions, prices::last_fixed_ignored),
        ("another bed than the fixed one is refused with 14", price::regions, prices::moved_is_14),
        ("another bed than the fixed one has a total", price::regions, prices::moved_with_total),
        ("a fixed bed costs something", price::regions, prices::fixed_costs),
        ("a fixed bed is allowed where a table forbids it", price::regions, prices::fixed_over_forbidden),
    ]
}

/// List on small regions of one kind.
fn list_of<const KIND: usize>(tested: Tested<ListCall>, seed: u64, count: usize) -> Result<Tally, Difference> {
    list::regions(tested, KINDS[KIND], seed, count)
}

fn wrong_lists() -> Vec<(&'static str, Comparison<ListCall>, ListCall)> {
    vec![
        ("equal totals in falling order", list_of::<{ Kind::Ties as usize }>, lists::falling_ties),
        ("the last row is lost", list_of::<{ Kind::FewPlans as usize }>, lists::last_lost),
        ("forbidden is a large price", list_of::<{ Kind::ManyForbidden as usize }>, lists::hyphen_as_price),
        ("costs are written highest byte first", list_of::<{ Kind::HighPrices as usize }>, lists::highest_byte_first),
        ("the beds beyond the rows are cleared", list_of::<{ Kind::NoTables as usize }>, lists::beds_cleared),
        ("the costs beyond the rows are cleared", list_of::<{ Kind::OneBed as usize }>, lists::costs_cleared),
        ("a byte after the beds is written", list_of::<{ Kind::Interleaved as usize }>, lists::spilling),
        ("13 before 12", list_of::<{ Kind::NoneAllowed as usize }>, lists::thirteen_first),
        ("costs of 4 bytes are enough", list::all_lengths, lists::short_costs),
        ("a short result area is written", list::all_lengths, lists::short_result_written),
        ("a refusal leaves the result area", list::faulty_files, lists::result_left),
        ("a row is lost in a large region", large::lists, lists::last_lost_in_large),
    ]
}

fn fixed_lists() -> Vec<(&'static str, Comparison<ListCall>, ListCall)> {
    vec![
        ("fixed beds are ignored", list_of::<{ Kind::FixedBeds as usize }>, lists::fixed_ignored),
        ("fixed beds are ignored without tables", list_of::<{ Kind::NoTables as usize }>, lists::fixed_ignored),
        ("fixed beds are ignored in a large region", large::lists, lists::fixed_ignored),
        ("only the first fixed bed is kept", list_of::<{ Kind::FixedBeds as usize }>, lists::first_fixed_alone),
        ("the last fixed bed is ignored", list_of::<{ Kind::FixedBeds as usize }>, lists::last_fixed_ignored),
        ("fixed beds yield to 13", list_of::<{ Kind::FixedBeds as usize }>, lists::fixed_ignored_for_13),
        ("a fixed bed costs something", list_of::<{ Kind::FixedBeds as usize }>, lists::fixed_costs),
        ("other beds come behind the fixed ones", list_of::<{ Kind::FixedBeds as usize }>, lists::moved_behind),
    ]
}

fn wrong_sheets() -> Vec<(&'static str, Comparison<SheetCall>, SheetCall)> {
    vec![
        ("the cost is the plan's total", sheet::regions, sheets::total_as_cost),
        ("repeated rows are kept", sheet::regions, sheets::repeats_kept),
        ("rows that repeat a cost are dropped", sheet::regions, sheets::equal_costs_dropped),
        ("rows repeat only if side by side", sheet::regions, sheets::neighbours_compared),
        ("rows begin at r x V", sheet::regions, sheets::rows_as_in_list),
        ("the clinic is cut to 4 bits", sheet::regions, sheets::clinic_cut::<4>),
        ("the clinic is cut to 8 bits", sheet::regions, sheets::clinic_cut::<8>),
        ("the clinic is cut to 32 bits", sheet::regions, sheets::clinic_cut::<32>),
        ("a byte after the costs is written", sheet::regions, sheets::spilling),
        ("12 before 11", sheet::all_lengths, sheets::twelve_first),
        ("m x k bytes of beds are enough", sheet::all_lengths, sheets::short_beds),
        ("a refusal leaves the result area", sheet::faulty_files, sheets::result_left),
        ("the cost is the plan's total", clinic_pairs::apart, sheets::total_as_cost),
        ("repeated rows are kept", clinic_pairs::apart, sheets::repeats_kept),
        ("a sheet without rows", clinic_pairs::apart, sheets::no_rows),
        ("always 13", clinic_pairs::apart, sheets::always_13),
        ("the cost tells of the other patients", clinic_pairs::apart_large, sheets::cost_with_patients),
        ("joining tables are left out of the list", clinic_pairs::joined, sheets::joining_left_out),
        ("a row is lost in a large region", large::sheets, sheets::last_lost_in_large),
    ]
}

/// Sheets whose tables count for another clinic, or whose costs are those of another row.
fn wrong_shares() -> Vec<(&'static str, Comparison<SheetCall>, SheetCall)> {
    vec![
        ("joining tables count for no clinic", sheet::regions, sheets::joining_for_nobody),
        ("joining tables count for no clinic", sheet::joined_regions, sheets::joining_for_nobody),
        ("joining tables count for no clinic", shares::small_regions, sheets::joining_for_nobody),
        ("joining tables count for each of their clinics", sheet::regions, sheets::joining_for_all),
        ("joining tables count for each of their clinics", shares::small_regions, sheets::joining_for_all),
        ("a table counts for its highest member's clinic", sheet::regions, sheets::highest_member),
        ("a table counts for its highest member's clinic", sheet::joined_regions, sheets::highest_member),
        ("a table counts for its highest member's clinic", shares::small_regions, sheets::highest_member),
        ("the cost is that of the last row with these beds", sheet::regions, sheets::cost_of_the_last_row),
        ("the cost is the least that these beds have", sheet::regions, sheets::least_cost),
        ("the cost is the plan's total", shares::small_regions, sheets::total_as_cost),
        ("the cost tells of the other patients", shares::large_regions, sheets::cost_with_patients),
    ]
}

fn fixed_sheets() -> Vec<(&'static str, Comparison<SheetCall>, SheetCall)> {
    vec![
        ("fixed beds are ignored", sheet::regions, sheets::fixed_ignored),
        ("fixed beds are ignored in a large region", large::sheets, sheets::fixed_ignored),
        ("fixed beds are ignored", clinic_pairs::fixed_otherwise, sheets::fixed_ignored),
        ("only the first patient's fixed bed is kept", sheet::regions, sheets::first_fixed_alone),
        ("only the first patient's fixed bed is kept", clinic_pairs::apart, sheets::first_fixed_alone),
        ("fixed beds of other clinics are ignored", sheet::regions, sheets::fixed_elsewhere_ignored),
        ("a fixed bed costs something", sheet::regions, sheets::fixed_costs),
        ("the cost tells of fixed beds elsewhere", clinic_pairs::apart, sheets::cost_with_fixed_beds),
        ("the cost tells of fixed beds elsewhere", clinic_pairs::apart_large, sheets::cost_with_fixed_beds),
    ]
}

/// Writes that judge otherwise.
fn wrong_writes() -> Vec<(&'static str, Comparison<WriteCall>, WriteCall)> {
    vec![
        ("a clinic is cut to 32 bits", write::large_numbers, writes::patient_field_cut::<0, 32>),
        ("a clinic is cut to 8 bits", write::large_numbers, writes::patient_field_cut::<0, 8>),
        ("a bed count is cut to 32 bits", write::large_numbers, writes::patient_field_cut::<1, 32>),
        ("a parent is cut to 32 bits", write::large_numbers, writes::patient_field_cut::<2, 32>),
        ("a member count is cut to 32 bits", write::large_numbers, writes::table_field_cut::<0, 32>),
        ("a member is cut to 32 bits", write::large_numbers, writes::table_field_cut::<1, 32>),
        ("an entry is cut to 32 bits", write::large_numbers, writes::entries_cut::<32>),
        ("m is cut to 32 bits", write::large_numbers, writes::m_cut::<32>),
        ("m is cut to 8 bits", write::large_numbers, writes::m_cut::<8>),
        ("an entry 2^32 - 1 is forbidden", write::large_numbers, writes::mark_forbidden),
        ("a parent 2^32 - 1 is none", write::large_numbers, writes::mark_as_none::<2>),
        ("the sum of counts wraps at 2^64", write::not_whole, writes::sum_wrapping::<64>),
        ("the bytes of entries wrap at 2^64", write::not_whole, writes::sum_wrapping::<61>),
        ("the sum of counts wraps at 2^32", write::not_whole, writes::sum_wrapping::<32>),
        ("question 2 is not asked", write::not_whole, writes::without::<2>),
        ("question 5 is not asked", write::single_faults, writes::without::<5>),
        ("question 6 is not asked", write::single_faults, writes::without::<6>),
        ("question 7 is not asked", write::single_faults, writes::without::<7>),
        ("question 8 is not asked", write::single_faults, writes::without::<8>),
        ("question 9 is not asked", write::single_faults, writes::without::<9>),
        ("question 10 is not asked", write::single_faults, writes::without::<10>),
        ("question 7 is put before 6", write::double_faults, writes::members_first),
        ("15 before 10", write::double_faults, writes::room_before::<10>),
        ("15 before 12", write::double_faults, writes::room_before::<12>),
        ("12 before the region's", write::double_faults, writes::twelve_first),
        ("a table without members is taken", write::limits, writes::no_members_taken),
        ("32 patients are too many", write::counts, writes::refusing_the_most::<32, 0>),
        ("64 tables are too many", write::counts, writes::refusing_the_most::<0, 64>),
        ("patients are counted in 8 bits", write::counts, writes::patients_counted_in::<8>),
        ("patients are counted in 16 bits", write::counts, writes::patients_counted_in::<16>),
        ("members that are not there are judged", write::good_regions, writes::unused_judged),
    ]
}

/// Writes that leave other bytes.
fn unlike_writes() -> Vec<(&'static str, Comparison<WriteCall>, WriteCall)> {
    vec![
        ("the end line's sum is one higher", write::good_regions, writes::sum_one_higher),
        ("the end line is missing", write::good_regions, writes::end_line_missing),
        ("m is not written", write::good_regions, writes::m_always_64),
        ("a byte after the file is written", write::good_regions, writes::byte_behind),
        ("a byte after the output area is written", write::good_regions, writes::spilling),
        ("the byte count is written highest byte first", write::good_regions, writes::count_turned),
        ("the last entry is left out", write::good_regions, writes::last_entry_left_out),
        ("output is written on 15", write::all_lengths, writes::written_on_15),
        ("15 before 12", write::all_lengths, writes::room_before::<12>),
        ("a byte too few is enough", write::all_lengths, writes::room_one_byte_short),
        ("a byte more is needed", write::all_lengths, writes::room_one_byte_more),
        ("a short result area is written", write::all_lengths, writes::short_result_written),
        ("a refusal leaves the result area", write::single_faults, writes::result_left),
        ("a refusal leaves the result area", write::large_numbers, writes::result_left),
        ("parents are shifted", write::round_trips, writes::parents_shifted),
        ("the end line's sum is one higher", write::round_trips, writes::sum_one_higher),
        ("a forbidden entry is a large price", write::round_trips, writes::hyphen_as_price),
        ("tables in falling order", write::round_trips, writes::tables_turned),
    ]
}

fn fixed_writes() -> Vec<(&'static str, Comparison<WriteCall>, WriteCall)> {
    vec![
        ("a fixed bed is cut to 32 bits", write::large_numbers, writes::patient_field_cut::<3, 32>),
        ("a fixed bed is cut to 32 bits", write::fixed_beds, writes::patient_field_cut::<3, 32>),
        ("a fixed bed is cut to 8 bits", write::large_numbers, writes::patient_field_cut::<3, 8>),
        ("a fixed bed 2^32 - 1 is none", write::fixed_beds, writes::mark_as_none::<3>),
        ("a fixed bed 2^64 - 2 is none", write::fixed_beds, writes::fixed_below_none_as_none),
        ("a fixed bed may be the bed count", write::fixed_beds, writes::bed_at_the_count_taken),
        ("a fixed bed may be the bed count", write::limits, writes::bed_at_the_count_taken),
        ("the last patient's fixed bed is not asked", write::single_faults, writes::last_fixed_bed_taken),
        ("patients have 24 bytes", write::good_regions, writes::patients_of_24_bytes),
        ("patients have 24 bytes", write::not_whole, writes::patients_of_24_bytes),
        ("fixed beds are not written", write::good_regions, writes::fixed_beds_dropped),
        ("fixed beds are not written", write::round_trips, writes::fixed_beds_dropped),
        ("fixed beds are shifted", write::round_trips, writes::fixed_beds_shifted),
        ("fixed beds and parents are exchanged", write::good_regions, writes::fixed_beds_and_parents_exchanged),
    ]
}

/// Lines that are another, or told otherwise.
fn wrong_lines() -> Vec<(&'static str, Comparison<LineCall>, LineCall)> {
    vec![
        ("the last of several", line::repeated_tables, lines::last_of_several),
        ("the last of several", line::own_members, lines::last_of_several),
        ("the last of lines that are alike", line::repeated_tables, lines::last_of_alike),
        ("the last table is not looked at", line::own_members, lines::last_table_left_out),
        ("the first table is not looked at", line::own_members, lines::first_table_left_out),
        ("the text is looked for anywhere in a line", line::own_members, lines::text_anywhere),
        ("the text is looked for anywhere in a line", line::other_members, lines::text_anywhere),
        ("(1) finds (12)", line::own_members, lines::without_bracket),
        ("(1) finds (12)", line::other_members, lines::without_bracket),
        ("(12) finds (1)", line::other_members, lines::within_text),
        ("(0) finds (0 1)", line::own_members, lines::first_members_enough),
        ("(0) finds (0 1)", line::other_members, lines::first_members_enough),
        ("(0 1) finds (0)", line::own_members, lines::more_members_passed_over),
        ("(0 1) finds (0)", line::other_members, lines::more_members_passed_over),
        ("a fifth member is not kept", line::other_members, lines::four_members_kept),
        ("the order is ignored", line::other_members, lines::order_ignored),
        ("members are compared as sets", line::other_members, lines::compared_as_sets),
        ("one member in common is enough", line::own_members, lines::one_in_common),
        ("the count of members is enough", line::own_members, lines::count_alone),
        ("members are cut to 5 bits", line::other_members, lines::members_cut::<5>),
        ("members are cut to 8 bits", line::other_members, lines::members_cut::<8>),
        ("members are cut to 16 bits", line::other_members, lines::members_cut::<16>),
        ("with the line end", line::own_members, lines::with_line_end),
        ("the length for the start", line::own_members, lines::size_for_start),
        ("the end for the length", line::own_members, lines::end_for_size),
        ("places are counted from 1", line::own_members, lines::counted_from_1),
        ("the start is cut to 8 bits", line::own_members, lines::start_cut::<8>),
        ("the start is cut to 15 bits", line::own_members, lines::start_cut::<15>),
        ("numbers are written highest byte first", line::own_members, lines::highest_byte_first),
        ("members and entries alone", line::own_members, lines::lists_alone),
        ("zeros where there is no line", line::other_members, lines::zeros_for_none),
        ("the last byte's place where there is no line", line::other_members, lines::last_byte_for_none),
        ("the end line where there is no line", line::other_members, lines::end_line_for_none),
        ("zeros where there is no line", line::all_lengths, lines::zeros_for_none),
        ("zeros where there is no line, of a long text", line::long_texts, lines::zeros_for_none),
    ]
}

/// Lines that take other texts for a member list, or refuse some.
fn wrong_texts_taken() -> Vec<(&'static str, Comparison<LineCall>, LineCall)> {
    vec![
        ("no such line is 21", line::other_members, lines::none_is_21),
        ("five members are 21", line::other_members, lines::five_members_are_21),
        ("five members are 21", line::long_texts, lines::five_members_are_21),
        ("members that do not rise are 21", line::other_members, lines::not_rising_is_21),
        ("a member that nobody is is 21", line::other_members, lines::nobody_is_21),
        ("seven digits are 21", line::other_members, lines::seven_digits_are_21),
        ("seven digits are 21", line::changed_texts, lines::seven_digits_are_21),
        ("leading zeros are taken", line::spoiled_texts, lines::leading_zeros_taken),
        ("leading zeros are taken", line::changed_texts, lines::leading_zeros_taken),
        ("eight digits are taken", line::spoiled_texts, lines::eight_digits_taken),
        ("eight digits are taken", line::changed_texts, lines::eight_digits_taken),
        ("a hyphen is taken", line::spoiled_texts, lines::hyphen_taken),
        ("a hyphen is taken", line::changed_texts, lines::hyphen_taken),
        ("no member is taken", line::spoiled_texts, lines::no_member_taken),
        ("no member is taken", line::changed_texts, lines::no_member_taken),
        ("doubled spaces are taken", line::spoiled_texts, lines::doubled_spaces_taken),
        ("doubled spaces are taken", line::changed_texts, lines::doubled_spaces_taken),
        ("spaces within brackets are taken", line::spoiled_texts, lines::inner_spaces_taken),
        ("spaces within brackets are taken", line::changed_texts, lines::inner_spaces_taken),
        ("spaces before and after are taken", line::spoiled_texts, lines::outer_spaces_taken),
        ("a line end is taken", line::spoiled_texts, lines::line_end_taken),
        ("a line end is taken", line::changed_texts, lines::line_end_taken),
        ("a line end is taken", line::long_texts, lines::line_end_taken),
        ("commas are taken", line::spoiled_texts, lines::commas_taken),
        ("missing brackets are added", line::spoiled_texts, lines::brackets_added),
        ("a missing last bracket is added", line::changed_texts, lines::last_bracket_added),
        ("a missing last bracket is added", line::long_texts, lines::last_bracket_added),
        ("what is behind the bracket is passed over", line::spoiled_texts, lines::behind_passed_over),
        ("what is behind the bracket is passed over", line::long_texts, lines::behind_passed_over),
        ("a table's whole line is taken", line::spoiled_texts, lines::whole_line_taken),
        ("the text's length is cut to 16 bits", line::long_texts, lines::text_cut),
        ("a text of more than 65,535 bytes is 21", line::long_texts, lines::long_texts_refused::<65_535>),
        ("a text of more than 99,999 bytes is 21", line::long_texts, lines::long_texts_refused::<99_999>),
    ]
}

/// Lines that ask in another order, or leave other bytes on a refusal.
fn misasked_lines() -> Vec<(&'static str, Comparison<LineCall>, LineCall)> {
    vec![
        ("21 is not asked", line::spoiled_texts, lines::without::<21>),
        ("12 before the file's", line::faulty_files, lines::twelve_first),
        ("12 before the file's", line::all_lengths, lines::twelve_first),
        ("21 before 12", line::all_lengths, lines::twenty_one_before_12),
        ("21 before 12", line::changed_texts, lines::twenty_one_before_12),
        ("21 before the file's", line::faulty_files, lines::twenty_one_first),
        ("question 1 is not asked", line::faulty_files, lines::without::<1>),
        ("question 2 is not asked", line::faulty_files, lines::without::<2>),
        ("question 3 is not asked", line::faulty_files, lines::without::<3>),
        ("question 4 is not asked", line::faulty_files, lines::without::<4>),
        ("question 5 is not asked", line::faulty_files, lines::without::<5>),
        ("question 6 is not asked", line::faulty_files, lines::without::<6>),
        ("question 7 is not asked", line::faulty_files, lines::without::<7>),
        ("question 8 is not asked", line::faulty_files, lines::without::<8>),
        ("question 9 is not asked", line::faulty_files, lines::without::<9>),
        ("question 10 is not asked", line::faulty_files, lines::without::<10>),
        ("a refusal leaves the result area", line::faulty_files, lines::result_left),
        ("a refusal leaves the result area", line::spoiled_texts, lines::result_left),
        ("a refusal gives the file's length", line::faulty_files, lines::length_on_refusal),
        ("a refusal gives the file's length", line::spoiled_texts, lines::length_on_refusal),
        ("21 tells a line", line::spoiled_texts, lines::first_table_on_21),
        ("8 bytes of result are enough", line::all_lengths, lines::short_result),
        ("24 bytes of result are asked for", line::all_lengths, lines::longer_result_asked),
        ("a short result area is written", line::all_lengths, lines::short_result_written),
        ("a byte after the result is written", line::all_lengths, lines::behind_result_written),
    ]
}

/// One wrong call among five of a file.
fn wrong_calls() -> Vec<(&'static str, ComparisonOfAll, Calls)> {
    let check = |call| Calls { check: Tested { call, ..LIBRARY.check }, ..LIBRARY };
    let price = |call| Calls { price: Tested { call, ..LIBRARY.price }, ..LIBRARY };
    let line = |call| Calls { line: Tested { call, ..LIBRARY.line }, ..LIBRARY };
    let list = |call| Calls { list: Tested { call, ..LIBRARY.list }, ..LIBRARY };
    let sheet = |call| Calls { sheet: Tested { call, ..LIBRARY.sheet }, ..LIBRARY };
    vec![
        ("check takes capitals for small letters", every_call::one_byte_changes, check(checks::capitals_taken)),
        ("list does not ask for the sum", every_call::one_byte_changes, list(lists::without_sum)),
        ("price does not ask for the sum", every_call::one_byte_changes, price(prices::without_sum)),
        ("sheet does not ask for the sum", every_call::one_byte_changes, sheet(sheets::without_sum)),
        ("line does not ask for the sum", every_call::one_byte_changes, line(lines::without_sum)),
        ("line adds a line end", every_call::cuts, line(lines::line_end_added)),
        ("line takes the old form", every_call::old_form, line(lines::old_form_taken)),
        ("line does not ask question 4 of damaged files", every_call::damaged_files, line(lines::without::<4>)),
        ("line does not ask question 2 of random bytes", every_call::random_files, line(lines::without::<2>)),
        ("check adds a line end", every_call::cuts, check(checks::line_end_added)),
        ("list adds a line end", every_call::cuts, list(lists::line_end_added)),
        ("price adds a line end", every_call::cuts, price(prices::line_end_added)),
        ("sheet adds a line end", every_call::cuts, sheet(sheets::line_end_added)),
        ("check takes the old form", every_call::old_form, check(checks::old_form_taken)),
        ("list takes the old form", every_call::old_form, list(lists::old_form_taken)),
        ("price takes the old form", every_call::old_form, price(prices::old_form_taken)),
        ("sheet takes the old form", every_call::old_form, sheet(sheets::old_form_taken)),
        ("sheet does not ask for the sum of damaged files", every_call::damaged_files, sheet(sheets::without_sum)),
        ("check does not ask question 2 of random bytes", every_call::random_files, check(checks::without::<2>)),
    ]
}

/// What a printing program might print.
fn wrong_texts() -> Vec<(&'static str, TextCall)> {
    vec![
        ("a refusal is one higher", texts::refusal_one_higher),
        ("an empty list is printed for 13", texts::empty_list_for_13),
        ("a list follows the refusal", texts::list_after_refusal),
        ("the list's last row is missing", texts::list_row_missing),
        ("a sheet's last row is missing", texts::sheet_row_missing),
        ("every sheet has the first clinic's rows", texts::sheet_of_the_first_clinic),
        ("a sheet is that of the clinic one higher", texts::clinic_one_higher),
        ("clinics without patients have sheets", texts::sheets_of_all_clinics),
        ("fixed beds are ignored", texts::fixed_beds_ignored),
        ("the last line end is missing", texts::line_end_missing),
        ("there is a line end too many", texts::line_end_added),
        ("a zero byte follows", texts::zero_byte_added),
        ("the file itself is printed", texts::file_itself),
        ("nothing is printed", texts::nothing),
        ("the program fails", texts::right_with_failure),
    ]
}
