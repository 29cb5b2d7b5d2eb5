//! A text as lines of pieces, so that any piece can be put wrong.

#[derive(Clone)]
pub struct Form {
    pub lines: Vec<Vec<String>>,
}

/// The lines of the sections in a form; holes and loads come after their first lines.
pub const BAR: usize = 1;
pub const BOLT: usize = 3;
pub const HOLES: usize = 4;

impl Form {
    /// The first line of the loads.
    pub fn loads(&self) -> usize {
        self.lines.len() - 8
    }

    /// How many holes there are.
    pub fn holes(&self) -> usize {
        self.loads() - HOLES - 1
    }

    pub fn text(&self) -> Vec<u8> {
        let mut text = Vec::new();
        for line in &self.lines {
            text.extend_from_slice(line.join(" ").as_bytes());
            text.push(b'\n');
        }
        text
    }
}
