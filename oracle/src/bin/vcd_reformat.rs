//! `vcd_reformat`: the crate's own program `vcd-reformat`, unchanged.
include!("../../../../shared/docs/src/src/bin/vcd-reformat.rs");
