//! A second mapper: LUT covers with moved registers, by listing every k-cut.
//!
//! It answers the same questions as the proved mapper by another method, so that
//! the two can be compared: all k-cuts of each gate are searched for, labels are
//! the least fixed point over those cuts, the chosen cut is found by comparing all
//! of them, and the least period by trying 1, 2, and so on. No flow is used.
//! On nets with too many cuts it gives up and says so. The jobs of document 02 have their own modules.

pub mod align;
pub mod bench;
pub mod board;
pub mod bytes;
pub mod classes;
pub mod cone;
pub mod contents;
pub mod cover;
pub mod cuts;
pub mod damage;
pub mod encode;
pub mod find;
pub mod generate;
pub mod jobs;
pub mod labels;
pub mod listing;
pub mod loader;
pub mod mark;
pub mod net;
pub mod programs;
pub mod random;
pub mod rare;
pub mod run;
pub mod solve;

pub use align::align;
pub use bench::{bench, Bench};
pub use board::Board;
pub use classes::class_table;
pub use cone::{cone_of, lut_table, lut_value};
pub use contents::{contents_after, first_contents};
pub use cover::{read_record, write_record, Cover, Lut};
pub use cuts::{all_cuts, all_cuts_within, Cut, CutSets, Limits};
pub use find::find_root;
pub use jobs::{map, map_loader, map_within, mark, mark_within, Answer, Areas, Job};
pub use labels::{chosen_cut, lag_of, least_labels, least_labels_over, Mode, Outcome};
pub use listing::{listing, listing_within};
pub use net::{
    check_net, parse_net, parse_with_section, read_net, read_with_section, Gate, Net, NodeCopy,
    Output, Pin, Section,
};
pub use random::Random;
pub use solve::{least_period, solve, Stop};
