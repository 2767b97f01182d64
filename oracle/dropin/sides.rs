//! The two sides: the Rust file, and the drop-in over the library.

pub mod rust {
    use dalybms_lib as lib;
    include!("ask.rs");
    include!("signatures.rs");
}

pub mod dropin {
    use daly as lib;
    include!("ask.rs");
    include!("signatures.rs");
}
