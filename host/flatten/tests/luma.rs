//! A pixel's luma, without the original at hand: its expression, in Rust.

use flatten::ffi;

#[test]
fn luma_of_every_three_bytes_is_the_originals_expression() {
    for r in 0..=255u8 {
        for g in 0..=255u8 {
            for b in 0..=255u8 {
                let original = 0.299 * r as f32 + 0.587 * g as f32 + 0.114 * b as f32;
                assert_eq!(ffi::luma(r, g, b).to_bits(), original.to_bits(), "{r} {g} {b}");
            }
        }
    }
}
