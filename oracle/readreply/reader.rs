//! The reader's model and streams, and the reasons found otherwise, as the comparison of the library has them.

#[path = "../compare/reader/discards.rs"]
pub mod discards;
#[path = "../compare/reader/model.rs"]
pub mod model;
#[path = "../compare/reader/reasons.rs"]
pub mod reasons;
#[path = "../compare/reader/streams.rs"]
pub mod streams;
#[path = "../compare/reader/told.rs"]
pub mod told;
