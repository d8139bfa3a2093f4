//! Hard cases for every call. All comes from a seed; the same seed gives the same cases.

mod benches;
mod families;
mod fixed;
mod floored;
mod handheld;
mod lists;
mod matrices;
mod packed;
mod rng;
mod solves;
mod teaching;
mod trays;
mod twins;

pub use benches::{bench_lists, benches, benches_of_all_orders, largest_benches};
pub use families::{Chain, Family, alpha_case, family, largest, many_columns};
pub use fixed::{SPECIAL, marks, refusals, runs, sweep};
pub use floored::{
    FAILING, PASSING, floored, floored_chain, floored_refusals, floored_sweep, floors_beside, floors_for, largest_floored,
    largest_floored_chain,
};
pub use handheld::{held, held_few, held_pivots, held_sides, held_special};
pub use lists::{largest_lists, lists, lists_but_one_bit, lists_over, short_lists, short_records, sound_lists};
pub use matrices::{fill, filled};
pub use packed::{chains_of_all_cuts, full_calls_on_triangles, largest_chains, largest_packed, packed_chain, packed_refusals};
pub use rng::Rng;
pub use solves::{largest_solves, solves, solves_of_all_orders};
pub use teaching::{largest_taught, taught, taught_orders, taught_refusals, taught_small};
pub use trays::{largest_trays, tray_refusals, trays, trays_of_all_orders, trays_of_many, trays_small};
pub use twins::{largest_twins, twins};
