//! The Rust original's modules under their own names, or nothing if it is not at hand.
//!
//! `lattice::predict_grid_position` finds the position of a cell from its neighbours;
//! `shared::validate` holds `validate` and `wrong_label_filters::drop_set`;
//! `test_only::wrong_label_filters::weak_leaf_peel` is the filter that the original
//! compiles for its tests only.

include!(concat!(env!("OUT_DIR"), "/modules.rs"));
