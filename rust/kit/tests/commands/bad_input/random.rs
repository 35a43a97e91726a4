//! Bad files that look random and are the same in every run.

use crate::support::{record, table, table_2, Random};

impl Random {
    /// A table of either version whose first refusals do not apply: nodes of known operators over lower
    /// nodes. In version 1, 5 and 6 are not known.
    pub fn table(&mut self) -> Vec<u8> {
        let operators = [
            1, 2, 5, 6, 16, 16, 17, 19, 20, 21, 22, 32, 33, 34, 37, 38, 39, 40,
        ];
        let mut nodes = vec![[1, 0, 0]];
        for node in 1..1 + self.below(9) {
            let operator = self.pick(&operators);
            let [x, y] = [self.below(node) as u8, self.below(node) as u8];
            let two = [17, 19, 22, 37, 39, 40].contains(&operator);
            nodes.push([operator, x, if two { y } else { 0 }]);
        }
        match self.below(3) {
            0 => table(&nodes),
            _ => table_2(&nodes),
        }
    }

    /// A record with any samples, or more than there may be.
    pub fn record(&mut self) -> Vec<u8> {
        let samples: Vec<u64> = (0..self.below(66)).map(|_| self.next()).collect();
        record(&samples)
    }

    /// Words that stand in a text or a waveform, in no order.
    pub fn words(&mut self, words: &[&str]) -> Vec<u8> {
        let count = self.below(60);
        let words: Vec<&str> = (0..count).map(|_| self.pick(words)).collect();
        let between = self.pick(&[" ", "\n", ""]);
        words.join(between).into_bytes()
    }
}

pub const NOTATION: [&str; 33] = [
    "signals", "signal", "ack", "=", "0", "1", "63", "64", ",", ";", "(", ")", "@(", "strong(",
    "weak(", "not", "and", "or", "until", "nexttime", "|->", "##1", "##0", "[*0]", "[*1:$]", "!",
    "&", "|", "assert", "#", "rose(", "fell", "$rose(",
];

pub const CHANGES: [&str; 28] = [
    "$timescale",
    "1ns",
    "10",
    "ps",
    "$end",
    "$scope",
    "module",
    "top",
    "$var",
    "wire",
    "real",
    "1",
    "64",
    "!",
    "ack",
    "[3:0]",
    "$upscope",
    "$enddefinitions",
    "#0",
    "#5",
    "#99999999999999999999999",
    "0!",
    "x!",
    "b01xz",
    "r1.5",
    "$dumpvars",
    "$dumpoff",
    "$comment",
];
