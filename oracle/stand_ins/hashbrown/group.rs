//! Sixteen control bytes looked at together. Each answer has bit i set if byte i qualifies.

/// The bytes in a group.
pub(crate) const WIDTH: usize = 16;

#[cfg(target_arch = "x86_64")]
mod bytes {
    use std::arch::x86_64::{
        __m128i, _mm_cmpeq_epi8, _mm_loadu_si128, _mm_movemask_epi8, _mm_set1_epi8,
    };

    #[derive(Clone, Copy)]
    pub(crate) struct Group(__m128i);

    // SAFETY, for all three: every x86_64 processor has these instructions, and the load need not be aligned.
    impl Group {
        #[inline]
        pub(crate) fn load(bytes: &[u8; super::WIDTH]) -> Group {
            Group(unsafe { _mm_loadu_si128(bytes.as_ptr().cast()) })
        }

        #[inline]
        pub(crate) fn equal(self, byte: u8) -> u16 {
            unsafe { _mm_movemask_epi8(_mm_cmpeq_epi8(self.0, _mm_set1_epi8(byte as i8))) as u16 }
        }

        #[inline]
        pub(crate) fn top_bit(self) -> u16 {
            unsafe { _mm_movemask_epi8(self.0) as u16 }
        }
    }
}

#[cfg(not(target_arch = "x86_64"))]
mod bytes {
    #[derive(Clone, Copy)]
    pub(crate) struct Group([u8; super::WIDTH]);

    impl Group {
        pub(crate) fn load(bytes: &[u8; super::WIDTH]) -> Group {
            Group(*bytes)
        }

        pub(crate) fn equal(self, byte: u8) -> u16 {
            self.mask(|found| found == byte)
        }

        pub(crate) fn top_bit(self) -> u16 {
            self.mask(|found| found >= 0x80)
        }

        fn mask(self, test: impl Fn(u8) -> bool) -> u16 {
            (0..super::WIDTH).fold(0, |mask, i| mask | (u16::from(test(self.0[i])) << i))
        }
    }
}

pub(crate) use bytes::Group;
