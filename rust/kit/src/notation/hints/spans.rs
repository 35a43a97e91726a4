//! A sequence so many times, and samples so far apart, as texts that grow evenly with the number when they are
//! written out. `R[*m:n]` and `##[m:n]` write each number from m to n by itself, so they grow with its square.
use crate::notation::counts::MOST;

/// Up to this number a range is written as `[*m:n]` or `##[m:n]`, which then has about as many nodes and is
/// plainer.
pub const SHORT: u8 = 4;

/// A number as numbers of at most [`MOST`].
fn pieces(number: u8) -> Vec<u8> {
    let (full, rest) = (number / MOST, number % MOST);
    let mut all = vec![MOST; usize::from(full)];
    if rest > 0 || full == 0 {
        all.push(rest);
    }
    all
}

/// R so many times: `R[*15] ##1 R[*5]` for 20.
pub fn times(r: &str, number: u8) -> String {
    let piece = |k: &u8| match k {
        1 => r.to_string(),
        k => format!("{r}[*{k}]"),
    };
    let all: Vec<String> = pieces(number).iter().map(piece).collect();
    all.join(" ##1 ")
}

/// R m to n times, m below n: m times, and up to n - m times more.
pub fn between(r: &str, m: u8, n: u8) -> String {
    if n <= SHORT {
        return format!("{r}[*{m}:{n}]");
    }
    let more = times(&format!("({r}[*0] or {r})"), n.saturating_sub(m));
    match m {
        0 => more,
        _ => format!("{} ##1 {more}", times(r, m)),
    }
}

/// A delay of so many samples: `##15 1 ##5` for 20.
pub fn apart(number: u8) -> String {
    let all: Vec<String> = pieces(number).iter().map(|k| format!("##{k}")).collect();
    all.join(" 1 ")
}

/// What ends m to n samples after the first.
pub fn later(m: u8, n: u8) -> String {
    match (m, n) {
        (0, 0) => "1".to_string(),
        _ if m == n => format!("1 {} 1", apart(m)),
        _ if n <= SHORT => format!("1 ##[{m}:{n}] 1"),
        _ => between("1", m.saturating_add(1), n.saturating_add(1)),
    }
}

/// A long range of repetitions, and the same as it grows evenly.
pub fn even_times(m: u8, n: u8) -> Option<(String, String)> {
    let long = m < n && n > SHORT;
    long.then(|| (format!("R[*{m}:{n}]"), between("R", m, n)))
}

/// A long range of delays, and the same as it grows evenly.
pub fn even_delay(m: u8, n: u8) -> Option<(String, String)> {
    let long = 0 < m && m < n && n > SHORT;
    let more = || times("(1[*0] or 1)", n.saturating_sub(m));
    long.then(|| {
        (
            format!("##[{m}:{n}]"),
            format!("{} {} ##1", apart(m), more()),
        )
    })
}

#[cfg(test)]
mod tests {
    use super::*;

    #[test]
    fn large_numbers_are_taken_in_pieces() {
        assert_eq!(times("R", 1), "R");
        assert_eq!(times("R", 15), "R[*15]");
        assert_eq!(times("R", 16), "R[*15] ##1 R");
        assert_eq!(times("R", 32), "R[*15] ##1 R[*15] ##1 R[*2]");
        assert_eq!(apart(30), "##15 1 ##15");
        assert_eq!(apart(0), "##0");
    }

    #[test]
    fn long_ranges_grow_evenly() {
        assert_eq!(between("R", 0, 4), "R[*0:4]");
        assert_eq!(between("R", 0, 5), "(R[*0] or R)[*5]");
        assert_eq!(
            between("R", 1, 20),
            "R ##1 (R[*0] or R)[*15] ##1 (R[*0] or R)[*4]"
        );
        assert_eq!(later(2, 2), "1 ##2 1");
        assert_eq!(later(1, 4), "1 ##[1:4] 1");
        assert_eq!(later(4, 5), "1[*5] ##1 (1[*0] or 1)");
        assert_eq!(later(0, 5), "1 ##1 (1[*0] or 1)[*5]");
    }
}
