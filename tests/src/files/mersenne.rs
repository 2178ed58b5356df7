//! The Mersenne Twister MT19937, seeded and read as Python's `random` does it: `full_size.region` was drawn with it.

const WORDS: usize = 624;
const APART: usize = 397;

pub struct Mersenne {
    words: [u32; WORDS],
    next: usize,
}

impl Mersenne {
    pub fn of(seed: u32) -> Mersenne {
        let mut words = [19_650_218; WORDS];
        for i in 1..WORDS {
            words[i] = folded(words[i - 1]).wrapping_mul(1_812_433_253).wrapping_add(i as u32);
        }
        let mut i = 1;
        for _ in 0..WORDS {
            words[i] = (words[i] ^ folded(words[i - 1]).wrapping_mul(1_664_525)).wrapping_add(seed);
            i = after(i, &mut words);
        }
        for _ in 1..WORDS {
            words[i] = (words[i] ^ folded(words[i - 1]).wrapping_mul(1_566_083_941)).wrapping_sub(i as u32);
            i = after(i, &mut words);
        }
        words[0] = 1 << 31;
        Mersenne { words, next: WORDS }
    }

    /// A number of 0 to `highest`.
    pub fn up_to(&mut self, highest: u32) -> u32 {
        let bits = u32::BITS - (highest + 1).leading_zeros();
        loop {
            let number = self.word() >> (u32::BITS - bits);
            if number <= highest {
                return number;
            }
        }
    }

    /// True in `percent` of a hundred cases.
    pub fn chance(&mut self, percent: u32) -> bool {
        let (high, low) = (u64::from(self.word() >> 5), u64::from(self.word() >> 6));
        ((high << 26) + low) as f64 / (1u64 << 53) as f64 * 100.0 < f64::from(percent)
    }

    fn word(&mut self) -> u32 {
        if self.next == WORDS {
            self.twist();
        }
        let word = self.words[self.next];
        self.next += 1;
        let word = word ^ word >> 11;
        let word = word ^ word << 7 & 0x9d2c_5680;
        let word = word ^ word << 15 & 0xefc6_0000;
        word ^ word >> 18
    }

    fn twist(&mut self) {
        for i in 0..WORDS {
            let both = self.words[i] & 1 << 31 | self.words[(i + 1) % WORDS] & !(1 << 31);
            let odd = if both & 1 == 1 { 0x9908_b0df } else { 0 };
            self.words[i] = self.words[(i + APART) % WORDS] ^ both >> 1 ^ odd;
        }
        self.next = 0;
    }
}

fn folded(word: u32) -> u32 {
    word ^ word >> 30
}

/// The place after this one; from the last place it goes on at place 1, with the last word at place 0.
fn after(i: usize, words: &mut [u32; WORDS]) -> usize {
    if i + 1 < WORDS {
        return i + 1;
    }
    words[0] = words[WORDS - 1];
    1
}
