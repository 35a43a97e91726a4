//! The second line of a picture: that the kit wrote it, and by a digest of the other lines that nobody changed
//! it since.
use crate::sha256;

/// A picture with its second line put in.
pub fn sign(svg: &str) -> String {
    let (first, rest) = svg.split_once('\n').unwrap_or((svg, ""));
    let digest = sha256::of(svg.as_bytes());
    format!("{first}\n<!-- written by kit picture, SHA-256 of the other lines {digest} -->\n{rest}")
}

/// Whether these bytes are a picture as the kit wrote it.
pub fn is_signed(bytes: &[u8]) -> bool {
    let text = String::from_utf8_lossy(bytes);
    let mut lines = text.splitn(3, '\n');
    let [first, _, rest] = [(); 3].map(|()| lines.next().unwrap_or_default());
    sign(&format!("{first}\n{rest}")) == text
}

#[cfg(test)]
mod tests {
    use super::*;

    #[test]
    fn a_change_in_any_line_is_noticed() {
        let svg = "<svg>\n<title>é</title>\n</svg>\n";
        let signed = sign(svg);
        // what sha256sum prints of the three lines
        let digest = "a93e08d7056bc293437541d6891490173ad3b653ee46db4f61512abb48837272";
        let second =
            format!("<!-- written by kit picture, SHA-256 of the other lines {digest} -->");
        assert_eq!(
            signed,
            format!("<svg>\n{second}\n<title>é</title>\n</svg>\n")
        );
        assert!(is_signed(signed.as_bytes()));
        for place in 0..signed.len() {
            let mut changed = signed.clone().into_bytes();
            changed[place] ^= 1;
            assert!(!is_signed(&changed), "{place}");
        }
        for other in ["", "\n", "\n\n", svg, "my notes"] {
            assert!(!is_signed(other.as_bytes()), "{other}");
        }
    }
}
