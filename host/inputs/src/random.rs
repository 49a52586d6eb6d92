//! Numbers that depend on a seed alone (splitmix64).

pub struct Random {
    state: u64,
}

impl Random {
    /// The numbers of one round of a seed. They start the same whatever came before the round.
    pub fn of_round(seed: u64, round: u64) -> Random {
        let mut first = Random { state: seed };
        let state = first.next() ^ round.wrapping_mul(0xd134_2543_de82_ef95);
        Random { state }
    }

    pub fn word(&mut self) -> u32 {
        (self.next() >> 32) as u32
    }

    pub fn byte(&mut self) -> u8 {
        (self.next() >> 56) as u8
    }

    /// A number from 0 to `most`.
    pub fn upto(&mut self, most: u32) -> u32 {
        (u64::from(self.word()) % (u64::from(most) + 1)) as u32
    }

    pub fn index(&mut self, length: usize) -> usize {
        self.upto(length as u32 - 1) as usize
    }

    pub fn pick<T: Copy>(&mut self, items: &[T]) -> T {
        items[self.index(items.len())]
    }

    pub fn one_in(&mut self, times: u32) -> bool {
        self.upto(times - 1) == 0
    }

    fn next(&mut self) -> u64 {
        self.state = self.state.wrapping_add(0x9e37_79b9_7f4a_7c15);
        let mut mixed = self.state;
        mixed = (mixed ^ mixed >> 30).wrapping_mul(0xbf58_476d_1ce4_e5b9);
        mixed = (mixed ^ mixed >> 27).wrapping_mul(0x94d0_49bb_1331_11eb);
        mixed ^ mixed >> 31
    }
}
