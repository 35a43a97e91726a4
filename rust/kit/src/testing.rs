//! What the tests here and those of the commands, in `tests`, share.

/// Numbers that look random and that the seed alone decides (splitmix64).
pub struct Random(pub u64);

impl Random {
    /// Any number.
    pub fn next(&mut self) -> u64 {
        self.0 = self.0.wrapping_add(0x9E37_79B9_7F4A_7C15);
        let mut z = self.0;
        z = (z ^ z >> 30).wrapping_mul(0xBF58_476D_1CE4_E5B9);
        z = (z ^ z >> 27).wrapping_mul(0x94D0_49BB_1331_11EB);
        z ^ z >> 31
    }

    /// A number below the bound.
    pub fn below(&mut self, bound: usize) -> usize {
        (self.next() % bound as u64) as usize
    }

    /// One of the items.
    pub fn pick<T: Copy>(&mut self, items: &[T]) -> T {
        items[self.below(items.len())]
    }

    /// This many bytes.
    pub fn bytes(&mut self, count: usize) -> Vec<u8> {
        (0..count).map(|_| self.next() as u8).collect()
    }
}

/// A table of nodes given by operator, x and y, and the fourth byte where it is not to be 0.
pub fn table<const BYTES: usize>(nodes: &[[u8; BYTES]]) -> Vec<u8> {
    table_of_version(1, nodes)
}

/// The same with version 2.
pub fn table_2<const BYTES: usize>(nodes: &[[u8; BYTES]]) -> Vec<u8> {
    table_of_version(2, nodes)
}

/// The same with version 3.
pub fn table_3<const BYTES: usize>(nodes: &[[u8; BYTES]]) -> Vec<u8> {
    table_of_version(3, nodes)
}

/// A table as version 2, in which some of the signals rise or fall.
pub fn rising(table: &[u8], seed: u64) -> Vec<u8> {
    let (mut table, random) = (table.to_vec(), &mut Random(seed));
    if let Some(version) = table.get_mut(3) {
        *version = 2;
    }
    let nodes = table.get_mut(6..).unwrap_or_default();
    for node in nodes.chunks_exact_mut(4).filter(|node| node[0] == 1) {
        node[0] = random.pick(&[1, 1, 5, 6]);
    }
    table
}

fn table_of_version<const BYTES: usize>(version: u8, nodes: &[[u8; BYTES]]) -> Vec<u8> {
    let mut table = vec![b'S', b'V', b'T', version, 0, nodes.len() as u8];
    for node in nodes {
        table.extend(node);
        table.resize(table.len() + 4 - BYTES, 0);
    }
    table
}
