//! Wrong calls of join, each beside the comparison that must find it.

mod areas;
mod judged;
mod written;

use crate::compare::join::{by_hand, lists, refusals, written as files};
use crate::compare::wrong::{Comparison, ComparisonOfAll};
use crate::compare::{every_call, Calls, JoinCall, Tested, LIBRARY};
use crate::joining::{FIRST, NEITHER, SECOND};

type Wrong = (&'static str, Comparison<JoinCall>, JoinCall);

pub fn all() -> Vec<Wrong> {
    let lists = [other_regions(), unlike_files(), other_lists(), other_files_told(), unasked(), misasked()];
    lists.into_iter().flatten().chain(sizes_and_clinics()).chain(other_bytes()).collect()
}

/// What a joined file says is not what the two regions make.
fn other_regions() -> Vec<Wrong> {
    vec![
        ("m is the larger", files::good_pairs, written::m_larger),
        ("m is the first's", files::good_pairs, written::m_of_the_first),
        ("m is the second's", files::good_pairs, written::m_of_the_second),
        ("m is the sum", files::good_pairs, written::m_added),
        ("m is always 64", by_hand::run, written::m_always_64),
        ("parents are not moved", files::good_pairs, written::parents_not_moved),
        ("parents are not moved", by_hand::run, written::parents_not_moved),
        ("parents are moved by one too few", files::good_pairs, written::parents_one_short),
        ("the second's patients have no parents", files::good_pairs, written::parents_dropped),
        ("the second's roots hang below the first's patients", files::good_pairs, written::roots_hung_up),
        ("members are not moved", files::good_pairs, written::members_not_moved),
        ("members are not moved", by_hand::run, written::members_not_moved),
        ("members are moved by one too few", files::good_pairs, written::members_one_short),
        ("only the first member is moved", files::good_pairs, written::first_member_alone_moved),
        ("the last member is not moved", files::good_pairs, written::last_member_not_moved),
        ("the second's fixed beds are lost", files::good_pairs, written::second_fixed_beds_lost),
        ("the second's fixed beds are lost", by_hand::run, written::second_fixed_beds_lost),
        ("the first's fixed beds are lost", files::good_pairs, written::first_fixed_beds_lost),
        ("the last fixed bed is lost", files::good_pairs, written::last_fixed_bed_lost),
        ("fixed beds are moved like patients", files::good_pairs, written::fixed_beds_moved),
        ("fixed beds are the first's", files::good_pairs, written::fixed_beds_of_the_first),
        ("bed counts are the first's", files::good_pairs, written::beds_of_the_first),
        ("the second's clinics get other numbers", files::good_pairs, written::clinics_moved),
        ("the second's tables have the first's entries", files::good_pairs, written::entries_of_the_first),
        ("a forbidden entry is a large price", files::good_pairs, written::hyphen_as_price),
        ("the last entry is another", files::good_pairs, written::last_entry_otherwise),
        ("the last table is lost", files::good_pairs, written::last_table_lost),
        ("the first's tables are lost", files::good_pairs, written::first_tables_lost),
        ("a repeated table is written once", files::good_pairs, written::repeated_tables_lost),
        ("the second comes first", files::good_pairs, written::turned),
        ("the second comes first", by_hand::run, written::turned),
        ("the second's tables come first", files::good_pairs, written::tables_turned),
    ]
}

/// The joined file is not one, or has another first or end line.
fn unlike_files() -> Vec<Wrong> {
    vec![
        ("the first line counts the first region alone", files::good_pairs, written::counts_of_the_first),
        ("the end line's sum is one higher", files::good_pairs, written::sum_one_higher),
        ("the end lines' sums are added", files::good_pairs, written::sums_added),
        ("the end line's sum is the first's", files::good_pairs, written::sum_of_the_first),
        ("the end line's sum is not reduced", files::good_pairs, written::sum_not_reduced),
        ("the end line is missing", files::good_pairs, written::end_line_missing),
        ("the files are pasted together", files::good_pairs, written::pasted),
        ("three regions: m is the second's", files::threes, written::m_of_the_second),
        ("three regions: the second's tables come first", files::threes, written::tables_turned),
        ("three regions: the second's clinics get other numbers", files::threes, written::clinics_moved),
        ("three regions: the second's roots hang below the first's", files::threes, written::roots_hung_up),
        ("three regions: the last fixed bed is lost", files::threes, written::last_fixed_bed_lost),
        ("three regions: members are not moved", files::threes, written::members_not_moved),
    ]
}

/// The joined file lists something else, or its sheets do.
fn other_lists() -> Vec<Wrong> {
    vec![
        ("a list is longer: m is the larger", lists::small_pairs, written::m_larger),
        ("a list is longer: m is the larger", lists::large_pairs, written::m_larger),
        ("a list is longer: m is the first's", lists::small_pairs, written::m_of_the_first),
        ("a list is longer: m is the second's", lists::small_pairs, written::m_of_the_second),
        ("rows begin with the second's beds", lists::small_pairs, written::turned),
        ("rows begin with the second's beds", lists::large_pairs, written::turned),
        ("no list: parents are not moved", lists::small_pairs, written::parents_not_moved),
        ("another list: members are not moved", lists::small_pairs, written::members_not_moved),
        ("another list: members are not moved", lists::large_pairs, written::members_not_moved),
        ("another list: the second's fixed beds are lost", lists::small_pairs, written::second_fixed_beds_lost),
        ("another list: the first's fixed beds are lost", lists::small_pairs, written::first_fixed_beds_lost),
        ("another list: fixed beds are lost in a large region", lists::large_pairs, written::second_fixed_beds_lost),
        ("another list: the last table is lost", lists::small_pairs, written::last_table_lost),
        ("another list: the first's tables are lost", lists::small_pairs, written::first_tables_lost),
        ("another list: forbidden is a large price", lists::small_pairs, written::hyphen_as_price),
        ("another list: the second has the first's entries", lists::small_pairs, written::entries_of_the_first),
        ("no list: the sum is the first's", lists::small_pairs, written::sum_of_the_first),
        ("a file without a plan is refused with 13", lists::small_pairs, judged::thirteen),
        ("another sheet: m is the larger", lists::sheets, written::m_larger),
        ("another sheet: the last entry is another", lists::sheets, written::last_entry_otherwise),
        ("another sheet: the last table is lost", lists::sheets, written::last_table_lost),
        ("another sheet: the first's tables are lost", lists::sheets, written::first_tables_lost),
        ("another sheet: the second's fixed beds are lost", lists::sheets, written::second_fixed_beds_lost),
        ("another sheet: the second's clinics get other numbers", lists::sheets, written::clinics_moved),
        ("another sheet: members are not moved", lists::sheets, written::members_not_moved),
    ]
}

/// Another file is told.
fn other_files_told() -> Vec<Wrong> {
    vec![
        ("first and second are exchanged", refusals::either_file, judged::files_exchanged),
        ("first and second are exchanged", by_hand::run, judged::files_exchanged),
        ("no file is told", refusals::either_file, judged::neither_always),
        ("files are counted from 0", refusals::either_file, judged::counted_from_0),
        ("of two refused files the second is told", refusals::two_faults, judged::second_told),
        ("of two refused files the second is told", refusals::either_file, judged::second_told),
        ("15 tells the first file", files::good_pairs, judged::told_for::<15, FIRST>),
        ("16 tells the second file", refusals::clinics, judged::told_for::<16, SECOND>),
        ("17 tells the second file", refusals::sizes, judged::told_for::<17, SECOND>),
        ("17 tells the first file", files::all_lengths, judged::told_for::<17, FIRST>),
    ]
}

/// A question is not asked.
fn unasked() -> Vec<Wrong> {
    vec![
        ("question 1 is not asked of the first", refusals::either_file, judged::without::<1, FIRST>),
        ("question 2 is not asked of the first", refusals::either_file, judged::without::<2, FIRST>),
        ("question 3 is not asked of the first", refusals::either_file, judged::without::<3, FIRST>),
        ("question 4 is not asked of the first", refusals::either_file, judged::without::<4, FIRST>),
        ("question 5 is not asked of the first", refusals::either_file, judged::without::<5, FIRST>),
        ("question 6 is not asked of the first", refusals::either_file, judged::without::<6, FIRST>),
        ("question 7 is not asked of the first", refusals::either_file, judged::without::<7, FIRST>),
        ("question 8 is not asked of the first", refusals::either_file, judged::without::<8, FIRST>),
        ("question 9 is not asked of the first", refusals::either_file, judged::without::<9, FIRST>),
        ("question 10 is not asked of the first", refusals::either_file, judged::without::<10, FIRST>),
        ("question 1 is not asked of the second", refusals::either_file, judged::without::<1, SECOND>),
        ("question 2 is not asked of the second", refusals::either_file, judged::without::<2, SECOND>),
        ("question 3 is not asked of the second", refusals::either_file, judged::without::<3, SECOND>),
        ("question 4 is not asked of the second", refusals::either_file, judged::without::<4, SECOND>),
        ("question 5 is not asked of the second", refusals::either_file, judged::without::<5, SECOND>),
        ("question 6 is not asked of the second", refusals::either_file, judged::without::<6, SECOND>),
        ("question 7 is not asked of the second", refusals::either_file, judged::without::<7, SECOND>),
        ("question 8 is not asked of the second", refusals::either_file, judged::without::<8, SECOND>),
        ("question 9 is not asked of the second", refusals::either_file, judged::without::<9, SECOND>),
        ("question 10 is not asked of the second", refusals::either_file, judged::without::<10, SECOND>),
        ("12 is not asked", files::all_lengths, judged::without::<12, NEITHER>),
        ("16 is not asked", refusals::clinics, judged::without::<16, NEITHER>),
        ("17 is not asked", refusals::sizes, judged::without::<17, NEITHER>),
        ("15 is not asked", files::all_lengths, judged::without::<15, NEITHER>),
    ]
}

/// The questions come in another order.
fn misasked() -> Vec<Wrong> {
    vec![
        ("the second is asked first", refusals::two_faults, judged::second_asked_first),
        ("the second is asked first", refusals::either_file, judged::second_asked_first),
        ("each question is put to both files", refusals::two_faults, judged::question_by_question),
        ("12 before the files'", refusals::two_faults, judged::first_of_all::<12>),
        ("12 before the files'", refusals::either_file, judged::first_of_all::<12>),
        ("12 before the second's", refusals::two_faults, judged::twelve_between),
        ("12 before the second's", refusals::either_file, judged::twelve_between),
        ("16 before the files'", refusals::two_faults, judged::first_of_all::<16>),
        ("16 before the files'", refusals::either_file, judged::first_of_all::<16>),
        ("17 before the files'", refusals::two_faults, judged::first_of_all::<17>),
        ("15 before the files'", refusals::two_faults, judged::first_of_all::<15>),
        ("16 before the second's", refusals::either_file, judged::before_the_second::<16>),
        ("17 before the second's", refusals::either_file, judged::before_the_second::<17>),
        ("15 before the second's", refusals::either_file, judged::before_the_second::<15>),
        ("16 before 12", refusals::two_faults, judged::before::<16, 12>),
        ("16 before 12", files::all_lengths, judged::before::<16, 12>),
        ("17 before 12", refusals::two_faults, judged::before::<17, 12>),
        ("17 before 12", files::all_lengths, judged::before::<17, 12>),
        ("15 before 12", refusals::two_faults, judged::before::<15, 12>),
        ("15 before 12", files::all_lengths, judged::before::<15, 12>),
        ("17 before 16", refusals::two_faults, judged::before::<17, 16>),
        ("15 before 16", refusals::two_faults, judged::before::<15, 16>),
        ("15 before 17", refusals::two_faults, judged::before::<15, 17>),
    ]
}

/// 16, 17 and 15 are answered otherwise.
fn sizes_and_clinics() -> Vec<Wrong> {
    vec![
        ("16 asks of the first's first patient", refusals::clinics, judged::sixteen_of_ends::<true, false>),
        ("16 asks of the first's last patient", refusals::clinics, judged::sixteen_of_ends::<true, true>),
        ("16 asks of the second's first patient", refusals::clinics, judged::sixteen_of_ends::<false, false>),
        ("16 asks of the second's last patient", refusals::clinics, judged::sixteen_of_ends::<false, true>),
        ("16 asks patient by patient", refusals::clinics, judged::sixteen_side_by_side),
        ("16 takes clinic 0 for none", refusals::clinics, judged::sixteen_but_for_0),
        ("16 compares 3 bits of a clinic", refusals::clinics, judged::clinics_cut::<3>),
        ("32 patients are too many", refusals::sizes, judged::limit::<0, 31>),
        ("33 patients are fine", refusals::sizes, judged::limit::<0, 33>),
        ("64 tables are too many", refusals::sizes, judged::limit::<1, 63>),
        ("65 tables are fine", refusals::sizes, judged::limit::<1, 65>),
        ("4,096 entries are too many", refusals::sizes, judged::limit::<2, 4_095>),
        ("4,097 entries are fine", refusals::sizes, judged::limit::<2, 4_097>),
        ("patients are not counted", refusals::sizes, judged::limit::<0, 64>),
        ("tables are not counted", refusals::sizes, judged::limit::<1, 128>),
        ("entries are not counted", refusals::sizes, judged::limit::<2, 8_192>),
        ("32 patients are too many", files::good_pairs, judged::limit::<0, 31>),
        ("64 tables are too many", files::good_pairs, judged::limit::<1, 63>),
        ("4,096 entries are too many", files::good_pairs, judged::limit::<2, 4_095>),
        ("an area of 35,038 bytes is asked for", files::good_pairs, judged::room_for_all_asked),
        ("an area as long as both files is asked for", files::good_pairs, judged::room_for_both_asked),
        ("a byte more is needed", files::good_pairs, judged::room_one_byte_more),
        ("a byte more is needed", files::all_lengths, judged::room_one_byte_more),
        ("a byte too few is enough", files::all_lengths, judged::room_one_byte_short),
    ]
}

/// The lent areas have other bytes afterwards.
fn other_bytes() -> Vec<Wrong> {
    vec![
        ("a refusal leaves the result area", refusals::either_file, areas::result_left),
        ("a refusal leaves the result area", refusals::clinics, areas::result_left),
        ("a refusal leaves the result area", refusals::sizes, areas::result_left),
        ("a refusal leaves the byte count", refusals::either_file, areas::count_left),
        ("a refusal leaves the byte count", refusals::two_faults, areas::count_left),
        ("which file stays untold where none is refused", files::good_pairs, areas::which_left),
        ("which file stays untold where none is refused", refusals::clinics, areas::which_left),
        ("which file comes before the byte count", files::good_pairs, areas::numbers_exchanged),
        ("which file comes before the byte count", refusals::either_file, areas::numbers_exchanged),
        ("numbers are written highest byte first", files::good_pairs, areas::highest_byte_first),
        ("numbers are written highest byte first", refusals::either_file, areas::highest_byte_first),
        ("which file has one byte", refusals::either_file, areas::which_in_one_byte),
        ("a byte after the result is written", files::all_lengths, areas::behind_result_written),
        ("a short result area is written", files::all_lengths, areas::short_result_written),
        ("8 bytes of result are enough", files::all_lengths, areas::short_result),
        ("24 bytes of result are asked for", files::all_lengths, areas::longer_result_asked),
        ("a byte after the file is written", files::good_pairs, areas::byte_behind),
        ("a byte after the output area is written", files::good_pairs, areas::spilling),
        ("output is written on 15", files::all_lengths, areas::written_on_15),
        ("output is written before 16 is asked", refusals::clinics, areas::copied_before::<16>),
        ("output is written before 17 is asked", refusals::sizes, areas::copied_before::<17>),
        ("output is written before 12 is asked", files::all_lengths, areas::copied_before::<12>),
        ("output is cleared where a file is refused", refusals::either_file, areas::cleared),
    ]
}

/// A wrong join among the calls of a program.
pub fn among_all() -> Vec<(&'static str, ComparisonOfAll, Calls)> {
    let join = |call| Calls { join: Tested { call, ..LIBRARY.join }, ..LIBRARY };
    vec![
        ("join does not ask for the first's sum", every_call::one_byte_changes, join(judged::without_sum::<FIRST>)),
        ("join does not ask for the second's sum", every_call::one_byte_changes, join(judged::without_sum::<SECOND>)),
        ("join adds a line end to the first", every_call::cuts, join(judged::line_end_added::<FIRST>)),
        ("join adds a line end to the second", every_call::cuts, join(judged::line_end_added::<SECOND>)),
        ("join takes a first of the old form", every_call::old_form, join(judged::old_form_taken::<FIRST>)),
        ("join takes a second of the old form", every_call::old_form, join(judged::old_form_taken::<SECOND>)),
        ("join loses the last table of damaged files", every_call::damaged_files, join(written::last_table_lost)),
        ("join tells no file of random bytes", every_call::random_files, join(judged::neither_always)),
    ]
}
