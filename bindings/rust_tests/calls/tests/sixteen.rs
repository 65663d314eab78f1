//! Both forms of sixteen tags give the bits that a loop over the bytes gives: the one by SSE2, where it is, and the one in two words. They are read
//! from the place 3 of a longer slice.
#[allow(dead_code, unused_imports)]
#[path = "../../../rust/src/sixteen.rs"]
mod sixteen;

/// Fails unless a form gives these bits for tags that are equal to `tag`, at least `tag`, and less.
macro_rules! gives {
    ($form:ident, $bytes:expr, $tag:expr, $expected:expr) => {{
        use sixteen::$form::u8x16;
        let mut tags = [$tag; 24];
        tags[3..19].copy_from_slice(&$bytes);
        let (a, b) = (u8x16::at(&tags, 3), u8x16::splat($tag));
        let found = [a.simd_eq(b).to_bitmask(), a.simd_ge(b).to_bitmask(), a.simd_lt(b).to_bitmask()];
        assert_eq!(found, $expected, "{:?} {}", $bytes, $tag);
    }};
}

#[test]
fn as_a_loop() {
    let mut x = 1u64;
    let mut next = || {
        x = x.wrapping_mul(6364136223846793005).wrapping_add(1442695040888963407);
        (x >> 33) as u8
    };
    for round in 0..50_000u32 {
        let bytes: [u8; 16] = std::array::from_fn(|_| if round % 2 == 0 { next() } else { [0, 1, 2, 127, 128, 129, 254, 255][next() as usize % 8] });
        let tag = if round % 3 == 0 { bytes[round as usize % 16] } else { next() };
        let mask = |test: &dyn Fn(u8) -> bool| (0..16).fold(0u64, |m, i| m | u64::from(test(bytes[i])) << i);
        let expected = [mask(&|b| b == tag), mask(&|b| b >= tag), mask(&|b| b < tag)];
        #[cfg(all(target_arch = "x86_64", not(hashbag_portable)))]
        gives!(by_sse2, bytes, tag, expected);
        gives!(in_words, bytes, tag, expected);
    }
}
