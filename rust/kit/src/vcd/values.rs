//! The values of the chosen bits as a waveform is read.
use super::bit::Bit;
use super::choose::Wire;
use super::codes::Codes;

/// The chosen bits, now and at the end of the time before.
pub struct Values<'a> {
    wires: &'a [Wire],
    /// Whether a bit has this code. Most codes are of none.
    codes: Codes<'a, bool>,
    now: Vec<Bit>,
    before: Vec<Bit>,
}

impl<'a> Values<'a> {
    /// No values yet.
    pub fn of(wires: &'a [Wire]) -> Values<'a> {
        let mut codes = Codes::new();
        for wire in wires {
            codes.put(&wire.probe.code, true);
        }
        Values {
            wires,
            codes,
            now: vec![Bit::Nothing; wires.len()],
            before: vec![Bit::Nothing; wires.len()],
        }
    }

    /// The values now.
    pub fn now(&self) -> &[Bit] {
        &self.now
    }

    /// The values at the end of the time before.
    pub fn before(&self) -> &[Bit] {
        &self.before
    }

    /// A new time begins.
    pub fn turn(&mut self) {
        self.before.copy_from_slice(&self.now);
    }

    /// Takes a value. The error says why it cannot be one of the chosen variable.
    pub fn change(&mut self, code: &[u8], digits: &[u8]) -> Result<(), String> {
        if !self.codes.get(code) {
            return Ok(());
        }
        let values = self.wires.iter().zip(&mut self.now);
        for (wire, value) in values.filter(|(wire, _)| wire.probe.code == code) {
            let width = wire.probe.width as usize;
            let extra = digits.len().saturating_sub(width);
            if digits.iter().take(extra).any(|digit| *digit != b'0') {
                let (path, count) = (&wire.path, digits.len());
                return Err(format!(
                    "{count} digits for {path}, whose variable has size {width}"
                ));
            }
            let bit = Bit::at(digits, wire.probe.place as usize);
            match (*value, bit) {
                // the x that a simulator writes at $dumpoff says no more than that it is off
                (Bit::Off, Some(Bit::Unknown(_))) => {}
                // nobody knows how long such a value lasts
                (Bit::Off, _) => {
                    let path = &wire.path;
                    return Err(format!("a value for {path} between $dumpoff and $dumpon"));
                }
                (_, bit) => *value = bit.unwrap_or(*value),
            }
        }
        Ok(())
    }

    /// The chosen bit that a code is of, if any.
    pub fn chosen(&self, code: &[u8]) -> Option<&Wire> {
        self.wires.iter().find(|wire| wire.probe.code == code)
    }

    /// `$dumpoff`: nothing is known any more.
    pub fn off(&mut self) {
        self.now.fill(Bit::Off);
    }

    /// `$dumpon`: what is not known yet is unknown, not off.
    pub fn on(&mut self) {
        for value in self.now.iter_mut().filter(|value| **value == Bit::Off) {
            *value = Bit::Unknown('x');
        }
    }
}
