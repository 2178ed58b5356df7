//! Wrong calls of parents, each beside the comparison that must find it.

mod areas;
mod judged;
mod written;

use crate::compare::parents::{answers, by_hand, choices, refusals, written as files};
use crate::compare::wrong::{Comparison, ComparisonOfAll};
use crate::compare::{every_call, Calls, ParentsCall, Tested, LIBRARY};

type Wrong = (&'static str, Comparison<ParentsCall>, ParentsCall);

pub fn all() -> Vec<Wrong> {
    let lists = [other_parents(), other_graphs(), other_choices(), other_regions(), other_answers(), unasked()];
    lists.into_iter().flatten().chain(asked_too_much()).chain(misasked()).chain(other_bytes()).collect()
}

/// The parents are others than those of the request.
fn other_parents() -> Vec<Wrong> {
    vec![
        ("the parent is the lowest earlier neighbour", files::good_files, written::lowest_neighbour),
        ("the parent is the lowest earlier neighbour", files::all_graphs, written::lowest_neighbour),
        ("the parent is the lowest earlier neighbour", by_hand::run, written::lowest_neighbour),
        ("the parent is the second highest", files::good_files, written::second_highest_neighbour),
        ("neighbours are not joined", files::good_files, written::neighbours_not_joined),
        ("neighbours are not joined", files::all_graphs, written::neighbours_not_joined),
        ("neighbours are not joined", by_hand::run, written::neighbours_not_joined),
        ("only the last patient's neighbours are joined", files::good_files, written::joined_once),
        ("only the last patient's neighbours are joined", files::all_graphs, written::joined_once),
        ("the parent is not joined with the others", files::all_graphs, written::parent_not_joined),
        ("only two neighbours are joined", files::good_files, written::two_joined),
        ("from the first patient to the last", files::good_files, written::first_to_last),
        ("from the first patient to the last", files::all_graphs, written::first_to_last),
        ("from the first patient to the last", by_hand::run, written::first_to_last),
        ("the file is written as it stands", files::good_files, written::as_it_stands),
        ("the file is written as it stands", by_hand::run, written::as_it_stands),
        ("parents in order are kept", files::good_files, written::kept_where_in_order),
        ("parents are kept where check accepts them", files::good_files, written::kept_where_accepted),
        ("parents are kept where check accepts them", files::all_graphs, written::kept_where_accepted),
        ("only missing parents are made", files::good_files, written::only_missing_made),
        ("missing parents stay missing", files::good_files, written::missing_left),
        ("the last patient's parent stays", files::good_files, written::last_left),
        ("nobody has a parent", files::good_files, written::no_parents),
        ("every patient's parent is the one before", files::good_files, written::chained),
        ("roots hang below the patient before", files::good_files, written::roots_hung_up),
        ("parents are counted from 1", files::good_files, written::counted_from_1),
        ("0 stands for none", files::good_files, written::zero_for_none),
        ("0 is taken for none", files::good_files, written::none_for_zero),
        ("a parent has one digit", files::good_files, written::cut_to_a_digit),
        ("a parent has one digit", by_hand::run, written::cut_to_a_digit),
        ("patient 31 is left out", files::good_files, written::highest_patient_left_out),
    ]
}

/// The graph is another than that of shared tables.
fn other_graphs() -> Vec<Wrong> {
    vec![
        ("the last table is not looked at", files::good_files, written::last_table_unseen),
        ("the last table is not looked at", files::all_graphs, written::last_table_unseen),
        ("the first table is not looked at", files::good_files, written::first_table_unseen),
        ("only tables of two members are looked at", files::good_files, written::only_pairs_seen),
        ("only tables of two members are looked at", by_hand::run, written::only_pairs_seen),
        ("only the first two members are neighbours", files::good_files, written::first_two_members_seen),
        ("only the first and the last member are neighbours", files::good_files, written::ends_seen),
        ("the fourth member is not looked at", files::good_files, written::fourth_member_unseen),
        ("the fourth member is not looked at", by_hand::run, written::fourth_member_unseen),
        ("tables that join clinics are not looked at", files::good_files, written::joining_tables_unseen),
        ("all patients of a clinic are neighbours", files::good_files, written::clinics_joined),
        ("patients who stay put are left out", files::good_files, written::staying_left_out),
        ("tables of one price are not looked at", files::good_files, written::flat_tables_unseen),
    ]
}

/// Check accepts what is written, or not; either way others have fewer ancestors.
fn other_choices() -> Vec<Wrong> {
    vec![
        ("not the least: a chain", choices::all_graphs, written::chained),
        ("not the least: a chain", choices::any_tables, written::chained),
        ("not the least: roots hang below others", choices::all_graphs, written::roots_hung_up),
        ("not the least: parents are kept", choices::all_graphs, written::kept_where_accepted),
        ("not the least: parents are kept", choices::any_tables, written::kept_where_accepted),
        ("not the least: clinics are joined", choices::any_tables, written::clinics_joined),
        ("none: neighbours are not joined", choices::all_graphs, written::neighbours_not_joined),
        ("none: the lowest earlier neighbour", choices::any_tables, written::lowest_neighbour),
        ("none: from the first patient to the last", choices::all_graphs, written::first_to_last),
        ("none: nobody has a parent", choices::any_tables, written::no_parents),
        ("none: 6 asks for parents in order", choices::any_tables, judged::asks_order),
    ]
}

/// The parents are right, and something else of the region is not; or the file is none.
fn other_regions() -> Vec<Wrong> {
    vec![
        ("fixed beds are lost", files::good_files, written::fixed_beds_lost),
        ("fixed beds are lost", by_hand::run, written::fixed_beds_lost),
        ("the last fixed bed is lost", files::good_files, written::last_fixed_bed_lost),
        ("fixed beds and parents are exchanged", files::good_files, written::fields_exchanged),
        ("m is always 64", files::good_files, written::m_always_64),
        ("m is one lower", files::good_files, written::m_one_lower),
        ("clinics get other numbers", files::good_files, written::clinics_moved),
        ("the last table is lost", files::good_files, written::last_table_lost),
        ("tables in falling order", files::good_files, written::tables_turned),
        ("a repeated table is written once", files::good_files, written::repeated_tables_lost),
        ("a forbidden entry is a large price", files::good_files, written::hyphen_as_price),
        ("the last entry is another", files::good_files, written::last_entry_otherwise),
        ("the end line's sum is that of the file read", files::good_files, written::sum_of_the_file_read),
        ("the end line's sum is that of the file read", by_hand::run, written::sum_of_the_file_read),
        ("the end line's sum is one higher", files::good_files, written::sum_one_higher),
        ("the end line's sum is not reduced", files::good_files, written::sum_not_reduced),
        ("the end line is missing", files::good_files, written::end_line_missing),
        ("the first line counts a patient too few", files::good_files, written::count_one_lower),
    ]
}

/// What is written lists something else, or its sheets and prices do.
fn other_answers() -> Vec<Wrong> {
    vec![
        ("other answers: fixed beds are lost", answers::accepted_files, written::fixed_beds_lost),
        ("other answers: m is always 64", answers::accepted_files, written::m_always_64),
        ("other answers: m is one lower", answers::accepted_files, written::m_one_lower),
        ("other answers: clinics get other numbers", answers::accepted_files, written::clinics_moved),
        ("other answers: the last table is lost", answers::accepted_files, written::last_table_lost),
        ("other answers: the last entry is another", answers::accepted_files, written::last_entry_otherwise),
        ("other answers: a forbidden entry is a price", answers::accepted_files, written::hyphen_as_price),
        ("other answers: neighbours are not joined", answers::accepted_files, written::neighbours_not_joined),
        ("other answers: nobody has a parent", answers::accepted_files, written::no_parents),
        ("other answers: a wrong sum", answers::accepted_files, written::sum_of_the_file_read),
        ("a region without a plan is refused", answers::accepted_files, judged::thirteen),
        ("other answers: fixed beds are lost in a large region", answers::large_files, written::fixed_beds_lost),
        ("other answers: the last table of a large region is lost", answers::large_files, written::last_table_lost),
        ("other rows: fixed beds are lost", answers::refused_files, written::fixed_beds_lost),
        ("other rows: the last table is lost", answers::refused_files, written::last_table_lost),
        ("other rows: m is one lower", answers::refused_files, written::m_one_lower),
        ("other rows: clinics get other numbers", answers::refused_files, written::clinics_moved),
        ("no rows: the file is written as it stands", answers::refused_files, written::as_it_stands),
        ("no rows: neighbours are not joined", answers::refused_files, written::neighbours_not_joined),
        ("no rows: check is asked first", answers::refused_files, judged::asks_as_check),
    ]
}

/// A question is not asked.
fn unasked() -> Vec<Wrong> {
    vec![
        ("question 1 is not asked", refusals::one_fault, judged::without::<1>),
        ("question 2 is not asked", refusals::one_fault, judged::without::<2>),
        ("question 3 is not asked", refusals::one_fault, judged::without::<3>),
        ("question 4 is not asked", refusals::one_fault, judged::without::<4>),
        ("question 5 is not asked", refusals::one_fault, judged::without::<5>),
        ("question 6 is not asked", refusals::one_fault, judged::without::<6>),
        ("question 7 is not asked", refusals::one_fault, judged::without::<7>),
        ("question 8 is not asked", refusals::one_fault, judged::without::<8>),
        ("question 9 is not asked", refusals::one_fault, judged::without::<9>),
        ("12 is not asked", refusals::one_fault, judged::without::<12>),
        ("12 is not asked", files::all_lengths, judged::without::<12>),
        ("15 is not asked", refusals::one_fault, judged::without::<15>),
        ("15 is not asked", files::all_lengths, judged::without::<15>),
        ("clinics are not asked", refusals::one_fault, judged::clinics_not_asked),
        ("bed counts are not asked", refusals::one_fault, judged::bed_counts_not_asked),
        ("fixed beds are not asked", refusals::one_fault, judged::fixed_beds_not_asked),
        ("patients with wrong parents are not asked", refusals::one_fault, judged::patients_not_asked),
        ("patients with wrong parents are not asked", refusals::two_faults, judged::patients_not_asked),
        ("anything may stand for a parent", refusals::parent_fields, judged::any_word_taken),
        ("the sum is not asked", refusals::changed_files, judged::without_sum),
        ("a line end is added", refusals::changed_files, judged::line_end_added),
    ]
}

/// Something is asked for the sake of parents, or of plans, or more room than is needed.
fn asked_too_much() -> Vec<Wrong> {
    vec![
        ("6 asks for parents in order", refusals::parents_alone, judged::asks_order),
        ("6 asks for parents in order", by_hand::run, judged::asks_order),
        ("6 asks for parents in order, before 7 to 9", refusals::parents_alone, judged::asks_order_first),
        ("6 asks for parents in order, before 7 to 9", refusals::two_faults, judged::asks_order_first),
        ("10 is asked", refusals::parents_alone, judged::asks_ancestors),
        ("10 is asked", by_hand::run, judged::asks_ancestors),
        ("10 is asked", files::all_graphs, judged::asks_ancestors),
        ("check is asked first", refusals::parents_alone, judged::asks_as_check),
        ("a patient may not be its own parent", refusals::parent_fields, judged::itself_refused),
        ("a parent may not be a later patient", refusals::parents_alone, judged::later_refused),
        ("a parent must be a patient", refusals::parent_fields, judged::nobody_refused),
        ("a parent has at most six digits", refusals::parent_fields, judged::digits::<6>),
        ("a parent has at most six digits", by_hand::run, judged::digits::<6>),
        ("a parent has at most two digits", refusals::parents_alone, judged::digits::<2>),
        ("a hyphen is no parent", refusals::parents_alone, judged::hyphen_refused),
        ("a file with its parents made is refused", files::good_files, judged::nothing_to_do_refused),
        ("a region without a plan is refused with 13", files::good_files, judged::thirteen),
        ("an area of 35,038 bytes is asked for", files::good_files, judged::room_for_all_asked),
        ("an area as long as the file read is asked for", files::good_files, judged::room_for_the_file_read_asked),
        ("an area as long as the file read is enough", files::all_lengths, judged::room_for_the_file_read_enough),
        ("a byte more is needed", files::good_files, judged::room_one_byte_more),
        ("a byte more is needed", files::all_lengths, judged::room_one_byte_more),
        ("a byte too few is enough", files::all_lengths, judged::room_one_byte_short),
    ]
}

/// The questions come in another order, or a number is another.
fn misasked() -> Vec<Wrong> {
    vec![
        ("12 before the file's", refusals::two_faults, judged::first_of_all::<12>),
        ("12 before the file's", files::all_lengths, judged::first_of_all::<12>),
        ("15 before the file's", refusals::two_faults, judged::first_of_all::<15>),
        ("15 before 9", refusals::two_faults, judged::before::<15, 9>),
        ("12 before 9", refusals::two_faults, judged::before::<12, 9>),
        ("15 before 12", refusals::two_faults, judged::before::<15, 12>),
        ("15 before 12", files::all_lengths, judged::before::<15, 12>),
        ("17 for 15", refusals::one_fault, judged::renumbered::<15, 17>),
        ("15 for 12", refusals::one_fault, judged::renumbered::<12, 15>),
        ("10 for 6", refusals::one_fault, judged::renumbered::<6, 10>),
        ("1 for 0", files::good_files, judged::renumbered::<0, 1>),
    ]
}

/// The lent areas have other bytes afterwards.
fn other_bytes() -> Vec<Wrong> {
    vec![
        ("a refusal leaves the result area", refusals::one_fault, areas::result_left),
        ("a refusal leaves the result area", files::all_lengths, areas::result_left),
        ("the count is written highest byte first", files::good_files, areas::highest_byte_first),
        ("the count has four bytes", files::good_files, areas::count_in_four_bytes),
        ("the count is one higher", files::good_files, areas::count_one_higher),
        ("the count is one lower", files::good_files, areas::count_one_lower),
        ("the count is that of the file read", files::good_files, areas::count_of_the_file_read),
        ("the count is that of the area", files::all_lengths, areas::count_of_the_area),
        ("15 tells how many bytes are needed", files::all_lengths, areas::need_told),
        ("bytes after the result are written", files::all_lengths, areas::behind_result_written),
        ("a short result area is written", files::all_lengths, areas::short_result_written),
        ("4 bytes of result are enough", files::all_lengths, areas::short_result),
        ("16 bytes of result are asked for", files::all_lengths, areas::longer_result_asked),
        ("a byte after the file is written", files::good_files, areas::byte_behind),
        ("the file read stays behind the file written", files::all_lengths, areas::copied_first),
        ("a byte after the output area is written", files::good_files, areas::spilling),
        ("output is written on 15", files::all_lengths, areas::written_on_15),
        ("output is written before 12 is asked", files::all_lengths, areas::copied_before::<12>),
        ("output is written before 9 is asked", refusals::one_fault, areas::copied_before::<9>),
        ("output is cleared where the file is refused", refusals::one_fault, areas::cleared),
    ]
}

/// A wrong call of parents among the calls of a program.
pub fn among_all() -> Vec<(&'static str, ComparisonOfAll, Calls)> {
    let parents = |call| Calls { parents: Tested { call, ..LIBRARY.parents }, ..LIBRARY };
    vec![
        ("parents does not ask for the sum", every_call::one_byte_changes, parents(judged::without_sum)),
        ("parents adds a line end", every_call::cuts, parents(judged::line_end_added)),
        ("parents takes the old form", every_call::old_form, parents(judged::old_form_taken)),
        ("parents asks 10 of damaged files", every_call::damaged_files, parents(judged::asks_ancestors)),
        ("parents does not ask question 2 of random bytes", every_call::random_files, parents(judged::without::<2>)),
    ]
}
