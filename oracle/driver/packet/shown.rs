// An input and its answers in words, and simpler inputs.

use super::{Answer, Case};
use crate::compare::Shown;
use crate::{shrink, text};

const NAMES: [&str; 5] = ["channels", "sequences", "partial channels", "partial sequences", "reliables"];

fn columns(columns: &[Vec<u32>; 5]) -> String {
    let line = |(name, column): (&&str, &Vec<u32>)| {
        let shown: Vec<_> = column.iter().take(24).map(|word| format!("{word:x}")).collect();
        let more = if column.len() > 24 { format!(" .. ({} places)", column.len()) } else { String::new() };
        format!("            {name} {}{more}\n", shown.join(" "))
    };
    NAMES.iter().zip(columns).map(line).collect()
}

/// Without a live place of a table.
fn without(case: &Case, table: usize, index: usize) -> Case {
    let mut fewer = case.clone();
    let of_table = if table == 0 { 0..2 } else { 2..5 };
    for column in &mut fewer.columns[of_table] {
        column.remove(index);
        column.push(0);
    }
    fewer.live[table] -= 1;
    fewer
}

impl Shown for Case {
    type Answer = Answer;

    fn simpler(&self) -> Vec<Case> {
        let mut list = Vec::new();
        list.extend(shrink::smaller_bytes(&self.packet).into_iter().map(|packet| Case { packet, ..self.clone() }));
        list.extend(shrink::smaller(self.at).into_iter().map(|at| Case { at, ..self.clone() }));
        if self.id > 0 {
            list.extend(shrink::smaller(self.id as u64).into_iter().map(|id| Case { id: id as i32, ..self.clone() }));
        }
        list.extend(shrink::smaller(self.limit as u64).into_iter().map(|limit| Case { limit: limit as usize, ..self.clone() }));
        let fits = self.columns.iter().all(|column| self.live.iter().all(|&live| live <= column.len()));
        if fits {
            for table in [0, 1] {
                list.extend((0..self.live[table].min(64)).map(|index| without(self, table, index)));
            }
        }
        list
    }

    fn input_in_words(&self) -> String {
        let mut text = format!("  call      {:?}\n", self.call);
        text += &text::data(&self.packet);
        text += &format!("  id        {}, cursor {}, limit {}, live {:?}\n", self.id, self.at, self.limit, self.live);
        text + &columns(&self.columns)
    }

    fn answer_in_words(&self, Answer { words, columns: after, damage }: &Answer) -> String {
        let [number, a, b, case, next, bunches, malformed, partial_errors, channel_limit, sequences, partials, bunch @ ..] = words;
        let mut text = format!("number {number}, returns {a}, {b}; case {case}; next {next}; ");
        text += &format!("rises {bunches}, {malformed}, {partial_errors}, {channel_limit}; live {sequences}, {partials}\n");
        text += &format!("            header and window {bunch:?}\n{}", columns(after));
        text + &text::damage(*damage)
    }
}
