// A second implementation of the calls on lent memory, from the words of documents
// 01 and 02 on links, heads, tails and bits. Each step writes at once, through a journal; where a
// number that is read is out of its range, the journal is undone. So nothing here
// plans ahead, and a refusal is known by the clause of refusal 3 that gave it.
#pragma once
#include <array>
#include <cstddef>
#include <cstdint>
#include <deque>
#include <string>
#include <vector>

#include "clurimoon.h"

namespace calls {

// Every clause of refusal 3, by the place in a call that reads the number.
#define CALLS_RULES(X, where)                                                                                \
  X(where##_m) X(where##_F_low) X(where##_F_high) X(where##_C_low) X(where##_C_high) X(where##_S)            \
  X(where##_m2) X(where##_F2_0) X(where##_F2_high) X(where##_C2_low) X(where##_C2_high) X(where##_tag)       \
  X(where##_S2)
#define CALLS_PAIR(X, where) X(where##_head) X(where##_tail) X(where##_half_empty)
#define CALLS_CLAUSES(X)                                                                                     \
  X(slot_raw) X(slot_mode) X(slot_T) X(slot_rotation)                                                        \
  X(rotation_open) CALLS_RULES(X, rotation)                                                                  \
  X(arrival_kind) X(arrival_open) CALLS_RULES(X, arrival) X(arrival_waiting)                                 \
  X(take_bit_above) X(take_number) X(take_none)                                                              \
  CALLS_PAIR(X, join_pair) CALLS_PAIR(X, entry_pair) CALLS_PAIR(X, output_pair) X(output_link)               \
  X(departing_kind) X(departing_vpi_high) X(departing_vci_0) X(departing_vci_high) X(departing_closed)       \
  X(departing_open)                                                                                          \
  X(departing_waiting_0) X(departing_waiting_high)                                                           \
  X(give_bit_above) X(give_number) X(give_already_free)                                                      \
  X(open_open) CALLS_RULES(X, open) X(open_waiting)                                                          \
  X(close_open) CALLS_RULES(X, close) X(close_waiting)                                                       \
  X(next_T) CALLS_PAIR(X, next_output_pair) CALLS_PAIR(X, next_entry_pair) X(next_entry_empty)

enum Clause {
#define X(name) name,
  CALLS_CLAUSES(X)
#undef X
      clause_count
};
extern const char *const clause_name[clause_count];

// Every reason for which the audit says no, by its clause of document 01.
#define CALLS_FAULTS(X)                                                                                      \
  X(no_range)                                                                                                \
  X(no_length)                                                                                               \
  X(no_splits) X(no_T)                                                                                                    \
  X(no_raw)                                                                                                  \
  X(no_mode)                                                                                                 \
  X(no_kind)                                                                                                 \
  X(no_rotation)                                                                                             \
  X(no_open_word)                                                                                            \
  X(no_rules) X(no_S) X(no_second_limits) X(no_second_S) X(no_waiting_range) X(no_bit_above) X(no_number) X(no_mark_above) X(no_mark_missing) X(no_mark_of_an_empty_entry) X(no_pair) X(no_link) X(no_space_twice) X(no_free_space_queued) X(no_space_missing)        \
      X(no_chain_end) X(no_entry_T) X(no_header) X(no_waiting_count)

enum Fault {
#define X(name) name,
  CALLS_FAULTS(X)
#undef X
      fault_count
};
extern const char *const fault_name[fault_count];

// What decides a close of an open VC, by what is left of S as of t.
#define CALLS_CLOSES(X)                                                                                      \
  X(refused_waiting_only)                                                                                    \
  X(refused_debt_only)                                                                                       \
  X(refused_both)                                                                                            \
  X(refused_last_not_t)     /* for a debt that has fallen: a close that stored it would be seen */           \
  X(refused_for_one_part)   /* S is 1 */                                                                     \
  X(closed_S_was_0)                                                                                          \
  X(closed_S_fell_exactly)  /* elapsed x L is the stored S */                                                \
  X(closed_S_fell_past)                                                                                      \
  X(closed_product_is_wide) /* elapsed x L takes more than 32 bits, and their lower part is below S */       \
  X(S_above_C_would_fall)   /* 3, though S as of t is 0 */                                                   \
  X(closed_second_not_empty) /* what is in the second bucket as of t doesn't matter */                       \
  X(closed_second_fell)

enum Close {
#define X(name) name,
  CALLS_CLOSES(X)
#undef X
      close_count
};
extern const char *const close_name[close_count];

// What the header check made of a lent cell, and how its slot ended.
#define CALLS_CHECKS(X)                                                                                      \
  X(clean_in_correction)                                                                                     \
  X(clean_in_detection)                                                                                      \
  X(mended_accepted)                                                                                         \
  X(mended_excess)                                                                                           \
  X(mended_unknown)                                                                                          \
  X(mended_tagged)                                                                                           \
  X(mended_to_no_user_cell)                                                                                  \
  X(mended_from_no_user_cell) /* as it came, its slot would have been empty */                               \
  X(mended_in_octet_5)                                                                                       \
  X(mended_and_refused) /* with 3: the mode stays */                                                         \
  X(dropped_in_correction)                                                                                   \
  X(dropped_in_detection_for_one_bit)                                                                        \
  X(dropped_in_detection)                                                                                    \
  X(dropped_and_another_departs)                                                                             \
  X(dropped_no_user_cell)                                                                                    \
  X(dropped_and_refused)                                                                                     \
  X(clean_and_refused_in_detection)                                                                          \
  X(no_cell_in_detection)                                                                                    \
  X(unfit_raw_not_read)                                                                                      \
  X(unfit_mode_not_read)                                                                                     \
  X(unfit_raw_after_1_2_9) /* another refusal comes first */                                                 \
  X(not_raw_with_a_wrong_octet_5)

enum Check {
#define X(name) name,
  CALLS_CHECKS(X)
#undef X
      check_count
};
extern const char *const check_name[check_count];

// What the two buckets made of a cell of an open VC, and open of a second bucket.
#define CALLS_BUCKETS(X)                                                                                     \
  X(no_second_bucket)                                                                                        \
  X(fills_both)                                                                                              \
  X(is_tagged)                                                                                               \
  X(tagged_not_raw)                                                                                          \
  X(tagged_and_mended)                                                                                       \
  X(excess_by_second)                                                                                        \
  X(clp_1_within_second)                                                                                     \
  X(clp_1_above_second) /* accepted all the same */                                                          \
  X(above_peak_alone)                                                                                        \
  X(above_both_with_the_flag) /* excess, not tagged */                                                       \
  X(above_both_without)                                                                                      \
  X(above_second_by_one_part)                                                                                \
  X(just_within_second)                                                                                      \
  X(F_below_L_in_second)                                                                                     \
  X(opened_with_second)                                                                                      \
  X(opened_with_greatest_C)                                                                                  \
  X(broken_6_and_11) /* 6 */                                                                                 \
  X(refused_11_zeros_but_one) /* m or flag alone is not 0 */                                                 \
  X(refused_11_m)                                                                                            \
  X(refused_11_F_0)                                                                                          \
  X(refused_11_F_high)                                                                                       \
  X(refused_11_C_low)                                                                                        \
  X(refused_11_C_high)                                                                                       \
  X(refused_11_flag)

enum Bucket {
#define X(name) name,
  CALLS_BUCKETS(X)
#undef X
      bucket_count
};
extern const char *const bucket_name[bucket_count];

// What a slot made of line kind and VPI, what a path's calls answered, and what the audit saw of paths.
#define CALLS_PATHS(X)                                                                                       \
  X(kind_not_read_without_a_cell) /* stored outside 0 and 1, in a slot with no header to read */             \
  X(kind_not_read_for_a_dropped_cell)                                                                        \
  X(kind_read_of_an_idle_cell) /* 3, though the cell is no user cell */                                      \
  X(kind_after_1_2_9) /* another refusal comes first */                                                      \
  X(no_user_cell_with_gfc)                                                                                   \
  X(vc_with_gfc)                                                                                             \
  X(vc_at_the_nni)                                                                                           \
  X(gfc_bits_are_vpi) /* what is a VC at the UNI is unknown at the NNI */                                    \
  X(vpi_above_255)                                                                                           \
  X(vpi_above_255_ends_as_an_open_path)                                                                      \
  X(closed_path)                                                                                             \
  X(closed_path_vci_of_an_open_vc)                                                                           \
  X(vci_is_number_of_an_open_path) /* unknown: VCI of V or more */                                           \
  X(path_accepted_uni) X(path_accepted_nni) X(path_excess_uni) X(path_excess_nni)                            \
  X(path_tagged_uni) X(path_tagged_nni) X(path_vci_0) X(path_vci_of_an_open_vc) X(path_with_gfc)             \
  X(path_255) X(path_mended)                                                                                 \
  X(path_departed_uni) X(path_departed_nni)                                                                  \
  X(rotation_at_V) /* record V is not read */                                                                \
  X(rotation_at_V_in_disguise) /* though it looks like an open one */                                        \
  X(rotation_updates_a_path)                                                                                 \
  X(rotation_wraps)                                                                                          \
  X(path_opened) X(path_closed) X(refused_4_path_0) X(refused_4_path_256) X(refused_4_path_above)            \
  X(refused_13) X(refused_1_before_13) X(refused_13_before_2)                                                \
  X(audited_with_a_path_queued) X(audited_with_record_V_in_disguise) X(no_for_a_vpi_above_255)               \
  X(no_for_a_closed_path)

enum Path {
#define X(name) name,
  CALLS_PATHS(X)
#undef X
      path_count
};
extern const char *const path_name[path_count];

// What a slot and the audit made of the bits and of the number of free spaces.
#define CALLS_SPACES(X)                                                                                      \
  X(took_one_of_several) X(took_the_last_free) X(took_above_a_hole) /* not space 0, nor the only free one */ \
  X(took_bit_63) X(took_beyond_word_0) X(took_in_word_15) X(took_at_N_64_k) /* no word is cut by N */        \
  X(freed_the_first) X(freed_bit_63) X(freed_beyond_word_0) X(freed_in_word_15)                              \
  X(took_and_freed_another) X(freed_the_one_just_taken)                                                      \
  X(took_a_queued_space) X(took_the_head_of_its_entry) /* its link then names itself */                      \
  X(took_the_next_to_depart) /* free and queued at once: taken first, so not free when it departs */         \
  X(already_free_after_a_taking) X(already_free_without)                                                     \
  X(bit_N_alone) X(bit_above_in_a_word_below_N) X(bit_in_a_word_above_N) X(bit_1023_alone)                   \
  X(bit_above_counted) /* the number is the ones, with those at and above N */                               \
  X(bit_above_not_counted) /* it is the ones below N */                                                      \
  X(number_one_above) X(number_one_below) X(number_0_of_some) X(number_above_N) X(number_of_none)            \
  X(none_for_a_cell_and_one_would_leave) X(unfit_not_read) X(unfit_and_excess) X(unfit_after_9)              \
  X(audited_all_free) X(audited_none_free) X(audited_with_a_wide_link) /* of a free space: no chain reads it */

enum Space {
#define X(name) name,
  CALLS_SPACES(X)
#undef X
      space_count
};
extern const char *const space_name[space_count];

// What a slot, the audit and the call for the next departure made of the bits of the calendar entries.
#define CALLS_MARKS(X)                                                                                       \
  X(join_set_a_mark) X(join_found_it_set) X(join_found_it_set_of_an_empty_entry)                             \
  X(join_found_it_clear_of_a_marked_entry) X(join_beyond_word_16) X(join_in_word_31)                         \
  X(transfer_cleared_a_mark) X(transfer_found_it_clear) X(transfer_beyond_word_16)                           \
  X(joined_and_transferred) X(joined_and_transferred_where_it_was_set) /* D 0, and entry T was empty */      \
  X(quiet_kept_a_mark_of_T) /* entry T is empty: its bit stays, though it is wrong */                        \
  X(wrong_marks_not_judged) /* in a slot that joins or transfers */                                          \
  X(undone_with_a_mark) /* 3, after a mark was set */                                                        \
  X(next_of_the_output) X(next_of_the_output_reads_no_bit) /* though the bits name an empty entry */         \
  X(next_is_none) X(next_is_none_with_the_mark_of_T) X(next_is_none_with_a_mark_above)                       \
  X(next_is_none_with_an_unmarked_entry) X(next_at_N_1)                                                      \
  X(next_is_1_entry_on) X(next_is_N_1_entries_on) X(next_ahead) X(next_beyond_the_end)                       \
  X(next_in_the_word_of_T_ahead) X(next_in_the_word_of_T_behind) X(next_in_another_word)                     \
  X(next_two_words_on) X(next_at_bit_0) X(next_at_bit_63) X(next_from_bit_63) X(next_at_entry_0)             \
  X(next_at_the_last_entry) X(next_past_the_mark_of_T) X(next_past_a_mark_above) X(next_past_an_unmarked_entry) \
  X(next_before_a_wrong_mark) /* one farther on names an empty entry */                                      \
  X(next_3_though_a_later_one_fits) X(next_is_refused_1) X(next_is_refused_2) X(next_unfit_after_1_2)        \
  X(audited_with_a_mark) X(audited_with_marks) X(audited_without)

enum Mark {
#define X(name) name,
  CALLS_MARKS(X)
#undef X
      mark_count
};
extern const char *const mark_name[mark_count];

// What splits and operators had to do with setup, open and close.
#define CALLS_OWNERS(X)                                                                                      \
  X(setup_split_vci_0) X(setup_split_vci_V) X(setup_split_path_0) X(setup_split_path_256)                    \
  X(setup_split_1_before_13) X(setup_split_1_before_2) X(setup_split_vci_last) X(setup_split_path_255)       \
  X(stored_split_vci_unfit) X(stored_split_path_unfit) X(stored_split_1_before_2) X(stored_split_1_before_4) \
  X(opened_by_the_first) X(opened_by_the_second) X(closed_by_the_first) X(closed_by_the_second)              \
  X(path_of_the_first) X(path_of_the_second) X(at_the_split_vci) X(below_the_split_vci)                      \
  X(at_the_split_path) X(below_the_split_path)                                                               \
  X(refused_16_to_the_first) X(refused_16_to_the_second) X(refused_16_to_nobody)                             \
  X(refused_16_at_the_split) /* the first asks for the split itself */                                       \
  X(refused_16_below_the_split) /* the second asks for the one below it */                                   \
  X(refused_16_of_a_path) X(refused_16_by_the_other_split) /* the split of the other kind would let it pass */ \
  X(refused_16_of_an_unfit_one) /* no word is read: it would be 3 */                                         \
  X(refused_16_of_an_open_one) X(refused_16_of_a_closed_one) X(refused_4_to_nobody) X(unfit_split_not_read)

enum Owner {
#define X(name) name,
  CALLS_OWNERS(X)
#undef X
      owner_count
};
extern const char *const owner_name[owner_count];

// What a slot did to the arrival slots, and what the tally of a connection's delays and its percentile were asked and said.
#define CALLS_DELAYS(X)                                                                                      \
  X(arrival_slot_written) X(arrival_slot_written_for_a_tagged_one) X(arrival_slot_kept_for_an_excess_one)    \
  X(arrival_slot_written_and_undone) X(arrival_slot_of_the_next_to_depart_written) X(arrival_slot_at_the_wrap) \
  X(waited_0) X(waited_1) X(waited_62) X(waited_63) X(waited_64) X(waited_longer) X(waited_over_the_wrap)    \
  X(tallied_vc) X(tallied_path) X(tallied_the_last_space)                                                    \
  X(another_left) X(none_left) X(another_left_with_a_wide_space) /* the space isn't read then */             \
  X(full_took_no_more) X(full_and_another_left) X(took_the_last_cell) /* of 2^32 */                          \
  X(tally_refused_1) X(tally_refused_2_short) X(tally_refused_2_long) X(tally_refused_4_0) X(tally_refused_4_V) \
  X(tally_refused_4_V_256) X(tally_refused_4_above) X(tally_1_before_2) X(tally_2_before_4) X(tally_4_before_3) \
  X(tally_3_space_N) X(tally_3_space_above) X(tally_3_though_another_left)                                   \
  X(unfit_cells_above) /* 2^32 + 1, which is the sum of its bins */                                          \
  X(unfit_sum_one_more) X(unfit_sum_one_less) X(unfit_sum_wraps) /* on 64 bits it would be the cells */      \
  X(unfit_bin_wide) /* a bin of 2^32 and more whose lower 32 bits would do */                                \
  X(percentile_refused_15_share_0) X(percentile_refused_15_share_1001) X(percentile_refused_15_no_cell)      \
  X(percentile_3_before_15) X(percentile_of_share_1) X(percentile_of_share_500) X(percentile_of_share_999)   \
  X(percentile_of_share_1000) X(percentile_bin_0) X(percentile_bin_63) X(percentile_between)                 \
  X(percentile_reached_exactly) /* 1,000 times the running sum is share times cells */                       \
  X(percentile_one_short_before) /* and at a lower bin not empty it was not yet */                           \
  X(percentile_past_empty_bins) X(percentile_of_2_to_the_32)                                                 \
  X(burst_tally_refused_4) X(burst_tally_refused_3) X(burst_tally_2_before_4) X(burst_tally_4_before_3)      \
  X(burst_tally_4_before_2) X(burst_tally_3_before_2) /* a length but that of the arrival slots is wrong */  \
  X(burst_tally_2_after_the_tally) X(burst_tally_3_before_9) X(burst_tally_stopped) X(burst_tally_took)      \
  X(burst_tally_space_taken_again) X(burst_tally_filled_up)

enum Delay {
#define X(name) name,
  CALLS_DELAYS(X)
#undef X
      delay_count
};
extern const char *const delay_name[delay_count];

// What was met, for the summary of a run.
struct Tally {
  std::array<uint64_t, clause_count> clause{};
  std::array<uint64_t, fault_count> fault{};
  std::array<uint64_t, close_count> close{};
  std::array<uint64_t, check_count> check{};
  std::array<uint64_t, bucket_count> bucket{};
  std::array<uint64_t, path_count> path{};
  std::array<uint64_t, space_count> space{};
  std::array<uint64_t, mark_count> mark{};
  std::array<uint64_t, owner_count> owner{};
  std::array<uint64_t, delay_count> delay{};
  std::array<uint64_t, 40> mended_bit{};
};
extern Tally tally;

// A lent buffer: where it starts and how many elements were lent.
template <class Word> struct Lent {
  Word *at;
  size_t length;
};

struct Memory {
  Lent<uint8_t> cells;
  Lent<uint16_t> links, calendar;
  Lent<uint32_t> vcs;
  Lent<uint64_t> bits;
  Lent<uint32_t> arrived;
};

// The first connections that are the second operator's: a VCI, and a path's number.
struct Splits {
  uint16_t vci, path;
};
clurimoon_set setup(uint16_t n, uint16_t v, bool raw, uint16_t kind, Splits, Memory);
// What is opened or closed, and by which operator: a VC by its VCI, or a path by its VPI.
struct Name {
  bool path;
  uint16_t number;
  uint16_t owner;
};
// What it is opened with: its peak bucket, and its second one or zeros.
struct Rates {
  uint8_t m;
  uint32_t f, c;
  uint8_t m2;
  uint32_t f2, c2;
  uint8_t tag;
};
uint16_t open(const clurimoon_record &, Lent<uint32_t> vcs, Name, const Rates &);
uint16_t close(const clurimoon_record &, Lent<uint32_t> vcs, Name);
clurimoon_served slot(const clurimoon_record &, Memory, Lent<const uint8_t> cell);
// The same slot with document 01's Free List in place of the lowest free space: its head is taken, and what departs goes to
// its tail. A refused slot leaves the list as it came.
clurimoon_served slot_listed(const clurimoon_record &, Memory, Lent<const uint8_t> cell, std::deque<uint16_t> &free_list);
clurimoon_part line(size_t cells_length, size_t idle_length, uint16_t number);
bool audit(const clurimoon_record &, Memory);
// How long until a cell leaves: by the bits, one after the other.
clurimoon_wait next(const clurimoon_record &, Lent<const uint16_t> calendar, Lent<const uint64_t> bits);
// The same by a walk over the entries themselves, which looks at no bit; of a state whose numbers are in range.
uint16_t walked(const clurimoon_record &, Lent<const uint16_t> calendar);
clurimoon_burst_end burst(const clurimoon_record &, Memory, Lent<const uint8_t> arrivals,
                          Lent<const uint8_t> sizes, Lent<uint8_t> departures, Lent<uint16_t> answers);
// The delay summary of one connection, from document 02's words: `tally` here and in the header is that of its delays.
clurimoon_tallied tally_slot(const clurimoon_tally &, const clurimoon_record &, Lent<const uint32_t> arrived,
                             uint16_t connection, uint16_t space, uint16_t out_vci);
clurimoon_bin percentile(const clurimoon_tally &, uint16_t share);
// A burst, and after each of its slots the tally.
clurimoon_burst_tally burst_tallied(const clurimoon_tally &, uint16_t connection, const clurimoon_record &, Memory,
                                    Lent<const uint8_t> arrivals, Lent<const uint8_t> sizes, Lent<uint8_t> departures,
                                    Lent<uint16_t> answers);

} // namespace calls
