//! What was compared, and how often the two sides differed.

#[derive(Default)]
pub struct Tally {
    pub compared: usize,
    pub failed: usize,
    /// Cases that the reference could not judge, since their lines have too many chains of equal totals.
    pub left_out: usize,
    /// What else is worth telling, by name.
    pub counts: Vec<(&'static str, usize)>,
}

impl Tally {
    /// Counts one comparison. The first difference of the kind is shown whole.
    pub fn compare(&mut self, same: bool, case: usize, show: impl FnOnce() -> String) {
        self.compared += 1;
        if same {
            return;
        }
        self.failed += 1;
        if self.failed == 1 {
            println!("DIFFERENCE in case {case}\n{}", show());
        }
    }

    /// Counts something beside the comparisons.
    pub fn count(&mut self, name: &'static str) {
        match self.counts.iter_mut().find(|(known, _)| *known == name) {
            Some((_, count)) => *count += 1,
            None => self.counts.push((name, 1)),
        }
    }

    pub fn tell(&self, kind: &str) {
        println!("{kind}: {} compared, {} differ, {} left out", self.compared, self.failed, self.left_out);
        let mut counts = self.counts.clone();
        counts.sort();
        for row in counts.chunks(8) {
            let told: Vec<String> = row.iter().map(|(name, count)| format!("{name} {count}")).collect();
            println!("    {}", told.join(", "));
        }
    }
}

/// Bytes in hex, in rows of 32.
pub fn hex(bytes: &[u8]) -> String {
    let row = |row: &[u8]| row.iter().map(|byte| format!("{byte:02x}")).collect::<Vec<_>>().join(" ");
    let rows: Vec<String> = bytes.chunks(32).map(row).collect();
    format!("{} bytes\n        {}", bytes.len(), rows.join("\n        "))
}

/// The first place where two rows of bytes differ.
pub fn first_difference(one: &[u8], other: &[u8]) -> Option<usize> {
    (0..one.len().max(other.len())).find(|at| one.get(*at) != other.get(*at))
}
