//! Document 01 in plain Rust, what document 02 asks for so far, and the burst of searches that was asked for later, written from their words
//! alone; the window's area, which no paper lays out, from those of `include/flow.h`; the listing of a search from source document 001. It shares no
//! code with the doors or with the crate over them.
//! Clear before fast: a layout takes time in proportion to records and buckets, all else is done as the paper says it.

pub mod bench_load;
pub mod calls;
pub mod card;
pub mod flowrun;
pub mod hash;
pub mod layout;
pub mod ledger;
pub mod listing;
pub mod lookup;
pub mod packet;
pub mod placing;
pub mod records;
pub mod settings;
pub mod snapshot;
pub mod trials;
pub mod window;
pub mod window_area;
