//! Lent buffers, compared by their bits.
use crate::rng::Rng;

/// A number as it lies in a buffer.
pub trait Word: Copy + PartialEq + std::fmt::Debug {
    fn bits(self) -> u64;
    /// Any content.
    fn any(r: &mut Rng) -> Self;
}

impl Word for f64 {
    fn bits(self) -> u64 {
        self.to_bits()
    }
    /// Some are NaNs with a payload, infinities and negative zeros.
    fn any(r: &mut Rng) -> f64 {
        match r.below(8) {
            0 => f64::from_bits(0x7ff0_0000_0000_0001 | r.next() >> 12 | r.next() << 63),
            1 => r.pick(&[f64::INFINITY, f64::NEG_INFINITY, -0.0, 0.0, f64::MAX]),
            _ => f64::from_bits(r.next()),
        }
    }
}

macro_rules! whole {
    ($($kind:ty),*) => {$(
        impl Word for $kind {
            fn bits(self) -> u64 {
                self as u64
            }
            fn any(r: &mut Rng) -> $kind {
                r.next() as $kind
            }
        }
    )*};
}
whole!(i8, u8, i64, u64, usize);

/// So many numbers of any content.
pub fn any<T: Word>(r: &mut Rng, count: usize) -> Vec<T> {
    (0..count).map(|_| T::any(r)).collect()
}

pub fn same<T: Word>(a: &[T], b: &[T]) -> bool {
    a.len() == b.len() && a.iter().zip(b).all(|(x, y)| x.bits() == y.bits())
}

const GUARD: usize = 4;

/// A buffer that is lent to a call, with some numbers before and behind it that no call may touch.
pub struct Lent<T> {
    all: Vec<T>,
    before: Vec<T>,
}

impl<T: Word> Lent<T> {
    pub fn new(r: &mut Rng, content: &[T]) -> Lent<T> {
        let mut all = any(r, GUARD);
        all.extend_from_slice(content);
        all.extend(any::<T>(r, GUARD));
        Lent {
            before: all.clone(),
            all,
        }
    }

    pub fn lend(&mut self) -> &mut [T] {
        let end = self.all.len() - GUARD;
        &mut self.all[GUARD..end]
    }

    /// Whether the buffer holds these numbers, and all around it is as it was.
    pub fn holds(&self, content: &[T]) -> bool {
        let end = self.all.len() - GUARD;
        same(&self.all[GUARD..end], content)
            && same(&self.all[..GUARD], &self.before[..GUARD])
            && same(&self.all[end..], &self.before[end..])
    }
}
