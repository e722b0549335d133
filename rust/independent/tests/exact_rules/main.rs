//! Every worked line of the exact rules, and the limits they name.

mod both_ways;
mod calls;
mod furthest;
mod in_place;
mod limits;
mod live_rules;
mod long_lines;
mod random;
mod records;
mod repeated_nothing;
mod reports;
mod rows;
mod sheets;
mod turns_both_ways;
mod worked_lines;
