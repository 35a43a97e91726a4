//! The samples that have a signal, as a word. A few signals are each gathered from all samples; from the fifth on the samples are turned round once, for all 64.

/// So many words are gathered one by one, for less than turning all round costs.
const FEW: u8 = 4;

pub struct Signals<'a> {
    samples: &'a [u64],
    gathered: u8,
    turned: Option<[u64; 64]>,
}

impl<'a> Signals<'a> {
    pub fn of(samples: &'a [u64]) -> Self {
        Self {
            samples,
            gathered: 0,
            turned: None,
        }
    }

    /// The places of all samples.
    pub fn all_samples(&self) -> u64 {
        (1 << self.samples.len()) - 1
    }

    /// The samples that have signal s.
    pub fn word(&mut self, s: u8) -> u64 {
        if let Some(turned) = &self.turned {
            return turned[usize::from(s & 63)];
        }
        if self.gathered == FEW {
            let turned = self.turned.insert(turned(self.samples));
            return turned[usize::from(s & 63)];
        }
        self.gathered += 1;
        gathered(self.samples, s)
    }
}

/// From the last sample down, eight at a time, so that the loop itself costs little.
fn gathered(samples: &[u64], s: u8) -> u64 {
    let with = |word, sample: &u64| word << 1 | sample >> s & 1;
    let (eights, rest) = samples.as_chunks::<8>();
    let mut word = rest.iter().rev().fold(0, with);
    for eight in eights.iter().rev() {
        word = eight.iter().rev().fold(word, with);
    }
    word
}

/// Bit k of word s for bit s of sample k: the two quarters off the diagonal change places, then those of each quarter, and so on down to single bits.
#[inline(never)]
fn turned(samples: &[u64]) -> [u64; 64] {
    let mut words = [0; 64];
    words[..samples.len()].copy_from_slice(samples);
    exchange::<32>(&mut words, 0x0000_0000_ffff_ffff);
    exchange::<16>(&mut words, 0x0000_ffff_0000_ffff);
    exchange::<8>(&mut words, 0x00ff_00ff_00ff_00ff);
    exchange::<4>(&mut words, 0x0f0f_0f0f_0f0f_0f0f);
    exchange::<2>(&mut words, 0x3333_3333_3333_3333);
    exchange::<1>(&mut words, 0x5555_5555_5555_5555);
    words
}

/// In each square of twice the side, exchanges the high bits of the low words with the low bits, those of the mask, of the high words.
fn exchange<const SIDE: usize>(words: &mut [u64; 64], mask: u64) {
    for square in words.chunks_exact_mut(2 * SIDE) {
        let (low, high) = square.split_at_mut(SIDE);
        for (low, high) in low.iter_mut().zip(high) {
            let other = (*low >> SIDE ^ *high) & mask;
            *low ^= other << SIDE;
            *high ^= other;
        }
    }
}
