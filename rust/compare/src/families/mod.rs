//! The families: named kinds of input, each with its seed and its number of cases.

mod broken_tables;
mod full;
mod homes;
mod logs;
mod numbers;
mod one_sum;
mod refusal_orders;
mod rounding;
mod sharing;
mod sound_tables;
mod withdrawals;

use crate::case::Case;
use crate::check::Check;

/// A family of inputs.
pub struct Family {
    pub name: &'static str,
    pub seed: u64,
    pub cases: u64,
    /// Makes the input of a case and compares the calls on it.
    pub run: fn(&mut Case, &mut Check),
}

/// Every family but the coverage, in the order of running.
pub fn all() -> Vec<Family> {
    let family = |name, seed, cases, run| Family { name, seed, cases, run };
    let (worked, mixed) = (logs::worked_byte_cases(), logs::mixed_byte_cases());
    vec![
        family("random-logs", 0x0101, 12_000, logs::random_logs),
        family("close-logs", 0x0102, 12_000, logs::close_logs),
        family("limit-logs", 0x0103, 14_000, logs::limit_logs),
        family("full-logs", 0x0201, 10_000, full::full_logs),
        family("full-tables", 0x0202, 20_000, full::full_tables),
        family("last-readings", 0x0203, 20_000, full::last_readings),
        family("reading-limit", 0x0204, 40, full::reading_limit),
        family("greatest-tables", 0x0205, 12, full::greatest_tables),
        family("worked-log-bytes", 0x0301, worked, logs::worked_log_bytes),
        family("mixed-log-bytes", 0x0302, mixed, logs::mixed_log_bytes),
        family("log-cuts", 0x0303, logs::cut_cases(), logs::log_cuts),
        family("item-orders", 0x0304, 24_000, logs::item_orders),
        family("program-limits", 0x0305, 1_000, logs::program_limits),
        family("fresh", 0x0401, 20_000, sound_tables::fresh),
        family("enter", 0x0402, 20_000, sound_tables::enter),
        family("merge", 0x0403, 24_000, sound_tables::merge),
        family("list", 0x0404, 20_000, sound_tables::list),
        family("filter", 0x0405, 20_000, sound_tables::filter),
        family("equal-homes", 0x0501, 6_000, homes::equal_homes),
        family("round-the-end", 0x0502, 6_000, homes::round_the_end),
        family("every-place-taken", 0x0503, 8_000, homes::every_place_taken),
        family("damage-alone", 0x0601, 111_000, broken_tables::damage_alone),
        family("damage-together", 0x0602, 60_000, broken_tables::damage_together),
        family("call-orders", 0x0701, 60_000, refusal_orders::call_orders),
        family("merge-orders", 0x0702, 60_000, refusal_orders::merge_orders),
        family("reading-orders", 0x0703, 40_000, refusal_orders::reading_orders),
        family("shared-readings", 0x0801, 3_000, sharing::shared_readings),
        family("rounding-alone", 0x0901, 40_000, rounding::lone_points),
        family("rounding-together", 0x0902, 60_000, rounding::neighbours),
        family("withdraw", 0x0A01, 8_000, withdrawals::every_place),
        family("withdraw-in-turn", 0x0A02, 10_000, withdrawals::in_turn),
        family("histories", 0x0A03, 10_000, withdrawals::histories),
        family("numbers-in-lists", 0x0B01, 20_000, numbers::in_lists),
        family("numbers-in-merges", 0x0B02, 15_000, numbers::in_merges),
        family("numbers-in-logs", 0x0B03, 15_000, numbers::in_logs),
    ]
}
