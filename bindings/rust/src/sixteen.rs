//! Sixteen tags at once, as the kit's `u8x16`: by SSE2, which every x86-64 has, or else in two words. `--cfg hashbag_portable` asks for the words,
//! and so does Miri.
//!
//! # Why this is sound
//!
//! Only `by_sse2::u8x16::at` and `tag_at` read memory: the sixteen tags from a place on, and one tag. They don't test that these are there. The
//! sources slice and index the tags, and have proved that they may. Here is why they may for all types. All other calls are of registers.
//!
//! - After the tags of a table's slots come sixteen more, the guards. So each place of a slot will do.
//! - The place where a probe begins is a hash modulo the number of slots, whatever the hash is. Its later places are below that number, too.
//! - `Table::quick`, which is that number less 1, belongs to the newer table, also after a panic: `Table::adopt` sets it before it hashes.
//!   `Table::carried_to` is below the number of the older table's slots, as long as that has slots.
//! - What has no guards is read by multiples of sixteen within its length: walks, copies, `next_live` and drops.

/// The tag at a place.
#[inline(always)]
#[allow(unsafe_code)]
pub(crate) fn tag_at(tags: &[u8], at: usize) -> u8 {
    #[cfg(feature = "check")]
    assert!(at < tags.len(), "READ PAST THE TAGS");
    debug_assert!(at < tags.len());
    // SAFETY: the tag is there, as said above.
    unsafe { *tags.get_unchecked(at) }
}

/// Which of sixteen tags pass a test: bit i is set if tag i does.
#[derive(Clone, Copy)]
pub struct Mask16(u64);

impl Mask16 {
    #[inline(always)]
    pub fn to_bitmask(self) -> u64 {
        self.0
    }
}

/// Sixteen tags by SSE2, which every x86-64 has.
#[cfg(all(target_arch = "x86_64", not(miri), not(hashbag_portable)))]
pub(crate) mod by_sse2 {
    #![allow(unsafe_code)]
    use super::Mask16;
    use core::arch::x86_64::*;

    #[derive(Clone, Copy)]
    #[allow(non_camel_case_types)]
    pub(crate) struct u8x16(__m128i);

    // SAFETY of all: SSE2 is there, and only `at` reads memory.
    impl u8x16 {
        /// The tags from a place on. There must be sixteen.
        #[inline(always)]
        pub(crate) fn at(tags: &[u8], from: usize) -> u8x16 {
            #[cfg(feature = "check")]
            assert!(from + 16 <= tags.len(), "READ PAST THE TAGS");
            debug_assert!(from + 16 <= tags.len());
            // SAFETY: sixteen tags follow, as said above.
            u8x16(unsafe { _mm_loadu_si128(tags.as_ptr().add(from).cast()) })
        }

        #[inline(always)]
        pub(crate) fn splat(byte: u8) -> u8x16 {
            u8x16(unsafe { _mm_set1_epi8(byte as i8) })
        }

        #[inline(always)]
        pub(crate) fn simd_eq(self, other: u8x16) -> Mask16 {
            Mask16(unsafe { _mm_movemask_epi8(_mm_cmpeq_epi8(self.0, other.0)) } as u64)
        }

        #[inline(always)]
        pub(crate) fn simd_ge(self, other: u8x16) -> Mask16 {
            Mask16(unsafe { _mm_movemask_epi8(_mm_cmpeq_epi8(_mm_max_epu8(self.0, other.0), self.0)) } as u64)
        }

        #[inline(always)]
        pub(crate) fn simd_lt(self, other: u8x16) -> Mask16 {
            Mask16(self.simd_ge(other).0 ^ 0xffff)
        }
    }
}

/// Sixteen tags in two words.
pub(crate) mod in_words {
    use super::Mask16;

    const LOW: u64 = 0x0101_0101_0101_0101;
    const HIGH: u64 = LOW << 7;

    #[derive(Clone, Copy)]
    #[allow(non_camel_case_types)]
    pub(crate) struct u8x16([u64; 2]);

    /// Gathers the highest bit of each byte; the other bits are 0.
    #[inline(always)]
    fn gather(high: u64) -> u64 {
        // Bit 7 of byte i goes to bit 56 + i. No two of the products' bits meet.
        (high >> 7).wrapping_mul(0x0102_0408_1020_4080) >> 56
    }

    /// The highest bit of each byte that is at least `other`'s.
    #[inline(always)]
    fn at_least(word: u64, other: u64) -> u64 {
        // Without their highest bits no byte borrows from the next. Then the highest bits decide, unless they are the same.
        let low = (word | HIGH) - (other & !HIGH);
        ((word & !other) | (!(word ^ other) & low)) & HIGH
    }

    impl u8x16 {
        /// The tags from a place on. There must be sixteen.
        #[inline(always)]
        pub(crate) fn at(tags: &[u8], from: usize) -> u8x16 {
            let ([low, high], _) = tags[from..from + 16].as_chunks() else { unreachable!("two words") };
            u8x16([u64::from_le_bytes(*low), u64::from_le_bytes(*high)])
        }

        #[inline(always)]
        pub(crate) fn splat(byte: u8) -> u8x16 {
            u8x16([u64::from(byte) * LOW; 2])
        }

        #[inline(always)]
        fn by(self, other: u8x16, test: impl Fn(u64, u64) -> u64) -> Mask16 {
            Mask16(gather(test(self.0[0], other.0[0])) | gather(test(self.0[1], other.0[1])) << 8)
        }

        #[inline(always)]
        pub(crate) fn simd_eq(self, other: u8x16) -> Mask16 {
            self.by(other, |a, b| {
                let x = a ^ b;
                // Exact: the highest bit of each byte that is 0.
                !(((x & !HIGH) + !HIGH) | x) & HIGH
            })
        }

        #[inline(always)]
        pub(crate) fn simd_ge(self, other: u8x16) -> Mask16 {
            self.by(other, at_least)
        }

        #[inline(always)]
        pub(crate) fn simd_lt(self, other: u8x16) -> Mask16 {
            Mask16(self.simd_ge(other).0 ^ 0xffff)
        }
    }
}

#[cfg(all(target_arch = "x86_64", not(miri), not(hashbag_portable)))]
pub(crate) use by_sse2::u8x16;
#[cfg(not(all(target_arch = "x86_64", not(miri), not(hashbag_portable))))]
pub(crate) use in_words::u8x16;
