// A recorded answer as a line, for tests that need no Rust at hand.
//
// Fields, in lowercase hex with one space between: call, n, data, start, position, length, argument, m, what was lent before,
// seven words, what was lent after. Data and lent memory of 0 bytes are a dash.

use crate::window::Window;

fn hex(bytes: &[u8]) -> String {
    if bytes.is_empty() { "-".into() } else { bytes.iter().map(|byte| format!("{byte:02x}")).collect() }
}

pub struct Line<'a> {
    pub call: u8,
    pub data: &'a [u8],
    pub window: Window,
    pub argument: u64,
    pub before: &'a [u8],
    pub words: [u64; 7],
    pub after: &'a [u8],
}

impl Line<'_> {
    pub fn text(&self) -> String {
        let [start, position, length] = self.window;
        let mut fields = vec![format!("{:02x} {:04x} {}", self.call, self.data.len(), hex(self.data))];
        fields.extend([start, position, length, self.argument].map(|number| format!("{number:016x}")));
        fields.push(format!("{:02x} {}", self.before.len(), hex(self.before)));
        fields.extend(self.words.map(|number| format!("{number:016x}")));
        fields.push(hex(self.after));
        fields.join(" ")
    }
}
