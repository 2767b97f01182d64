//! Stands in for the kit's `std::num`, where the port is built as Rust.

pub fn nearest_i32_to_f32(number: i32) -> f32 {
    number as f32
}
