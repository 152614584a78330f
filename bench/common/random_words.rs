//! Random words: keys by SplitMix64, streams by xoshiro256++.

fn mix(state: u64) -> u64 {
    let mut word = state;
    word = (word ^ (word >> 30)).wrapping_mul(0xbf58476d1ce4e5b9);
    word = (word ^ (word >> 27)).wrapping_mul(0x94d049bb133111eb);
    word ^ (word >> 31)
}

const GOLDEN: u64 = 0x9e3779b97f4a7c15;

/// The first output of SplitMix64 from a state.
fn split_mix(state: u64) -> u64 {
    mix(state.wrapping_add(GOLDEN))
}

/// xoshiro256++, seeded by four outputs of SplitMix64.
pub struct Words {
    state: [u64; 4],
}

impl Words {
    fn of_key(key: u64) -> Words {
        let output = |number: u64| mix(key.wrapping_add(GOLDEN.wrapping_mul(number)));
        Words {
            state: [output(1), output(2), output(3), output(4)],
        }
    }

    pub fn next(&mut self) -> u64 {
        let s = &mut self.state;
        let output = s[0].wrapping_add(s[3]).rotate_left(23).wrapping_add(s[0]);
        let shifted = s[1] << 17;
        s[2] ^= s[0];
        s[3] ^= s[1];
        s[1] ^= s[2];
        s[0] ^= s[3];
        s[2] ^= shifted;
        s[3] = s[3].rotate_left(45);
        output
    }
}

/// The streams of one cycle and seed.
#[derive(Clone, Copy)]
pub struct Streams {
    of_cycle: u64,
}

impl Streams {
    pub fn new(seed: u64, cycle: u32) -> Streams {
        Streams {
            of_cycle: split_mix(split_mix(seed) ^ u64::from(cycle)),
        }
    }

    pub fn element(self, pass: u64, element: u32) -> Words {
        Words::of_key(split_mix(self.of_cycle ^ (pass << 32 | u64::from(element))))
    }

    /// The stream that belongs to no element.
    pub fn own(self) -> Words {
        self.element(255, 0)
    }
}
