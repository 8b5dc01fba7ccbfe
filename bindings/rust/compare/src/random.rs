//! Numbers by chance from a fixed seed, and the edges that chance alone would miss.

use orlyukan::Settings;

pub struct Random(u64);

impl Random {
    pub fn new(seed: u64) -> Self {
        Random(seed)
    }

    /// Any number (splitmix64).
    pub fn any(&mut self) -> u64 {
        self.0 = self.0.wrapping_add(0x9e37_79b9_7f4a_7c15);
        let a = (self.0 ^ self.0 >> 30).wrapping_mul(0xbf58_476d_1ce4_e5b9);
        let b = (a ^ a >> 27).wrapping_mul(0x94d0_49bb_1331_11eb);
        b ^ b >> 31
    }

    /// A number below n, which is not 0.
    pub fn below(&mut self, n: u64) -> u64 {
        self.any() % n
    }

    pub fn between(&mut self, least: u64, most: u64) -> u64 {
        least + self.below(most - least + 1)
    }

    /// True once in n times.
    pub fn once_in(&mut self, n: u64) -> bool {
        self.below(n) == 0
    }

    pub fn pick<A: Copy>(&mut self, from: &[A]) -> A {
        from[self.below(from.len() as u64) as usize]
    }

    pub fn index(&mut self, length: usize) -> usize {
        self.below(length as u64) as usize
    }

    /// A number of at most so many bits, often an edge of its width.
    pub fn bits(&mut self, width: u32) -> u64 {
        let most = u64::MAX >> (64 - width);
        match self.below(6) {
            0 => 0,
            1 => most,
            2 => self.below(3).min(most),
            3 => most - self.below(2),
            _ => self.any() & most,
        }
    }

    /// A number that is too wide for a field of so many values: just so, or far off.
    pub fn too_wide(&mut self, values: u64) -> u64 {
        let far = [values, values + 1, values + 256, values + 65_536, 1 << 32, 1 << 63, u64::MAX, u64::MAX - 1];
        self.pick(&far).max(values)
    }

    /// Octets: all alike, from a few values that mean something, or any.
    pub fn octets(&mut self, length: usize) -> Vec<u8> {
        const TELLING: [u8; 12] = [0, 1, 2, 15, 16, 0x4d, 0x50, 0x53, 0x7f, 0x80, 0x81, 0xff];
        match self.below(4) {
            0 => vec![self.pick(&TELLING); length],
            1 => (0..length).map(|_| self.pick(&TELLING)).collect(),
            _ => (0..length).map(|_| self.any() as u8).collect(),
        }
    }

    /// Text of just so many octets: of single octets, or of characters of one to four, often the first or the last of their length or
    /// beside the surrogates.
    pub fn text(&mut self, length: usize) -> Vec<u8> {
        const EDGES: [u32; 12] = [0, 0x7f, 0x80, 0x7ff, 0x800, 0xd7ff, 0xe000, 0xfeff, 0xfffe, 0xffff, 0x1_0000, 0x10_ffff];
        let single = self.once_in(2);
        let mut made = String::new();
        while made.len() < length {
            let any = self.below(0x11_0000) as u32;
            let number = if self.once_in(2) { any } else { self.pick(&EDGES) };
            let next = char::from_u32(number).unwrap_or('m');
            let fits = !single && made.len() + next.len_utf8() <= length;
            made.push(if fits { next } else { char::from(self.below(128) as u8) });
        }
        made.into_bytes()
    }

    /// Octets that are no text, or were one until a part was cut off, or one that an octet was changed in.
    pub fn no_text(&mut self) -> Vec<u8> {
        const BAD: [&[u8]; 14] = [
            &[0x80],
            &[0xff],
            &[0xc0, 0x80],
            &[0xc1, 0xbf],
            &[0xc3],
            &[0xe0, 0x9f, 0xbf],
            &[0xe2, 0x82],
            &[0xed, 0xa0, 0x80],
            &[0xed, 0xbf, 0xbf],
            &[0xf0, 0x8f, 0xbf, 0xbf],
            &[0xf0, 0x9f, 0x9a],
            &[0xf4, 0x90, 0x80, 0x80],
            &[0xf5, 0x80, 0x80, 0x80],
            &[0xc3, 0xa9, 0xa9],
        ];
        let (before, after) = (self.index(70), self.index(70));
        let mut made = self.text(before);
        if self.once_in(3) {
            let bad = self.pick(&BAD);
            made.extend(bad);
            made.extend(self.text(after));
        } else if !made.is_empty() {
            let at = self.index(made.len());
            made[at] = self.any() as u8;
            made.truncate(before - self.index(2));
        }
        made
    }

    /// A length for a lent output that should hold `wanted` octets: mostly enough, else one short or far too short.
    pub fn room(&mut self, wanted: usize) -> usize {
        match self.below(8) {
            0 => wanted.saturating_sub(1),
            1 => self.index(wanted + 1),
            2 => 0,
            3 | 4 => wanted,
            _ => wanted + self.index(40),
        }
    }

    /// T: mostly in its range.
    pub fn t(&mut self) -> u64 {
        if self.once_in(40) {
            return self.pick(&[0, 17, 18, 256, 65_536, 1 << 32, u64::MAX]);
        }
        self.between(1, 16)
    }

    /// The profile: mostly one that there is.
    pub fn profile(&mut self) -> u64 {
        if self.once_in(60) {
            return self.pick(&[2, 3, 255, 256, 257, 1 << 32, u64::MAX]);
        }
        self.below(2)
    }

    pub fn settings(&mut self) -> Settings {
        Settings { t: self.t(), profile: self.profile() }
    }

    /// Settings that are in range.
    pub fn good_settings(&mut self) -> Settings {
        Settings { t: self.between(1, 16), profile: self.below(2) }
    }

    pub fn shuffle<A>(&mut self, list: &mut [A]) {
        for i in (1..list.len()).rev() {
            list.swap(i, self.index(i + 1));
        }
    }
}
