// An input and its answers in words, and simpler inputs.

use super::{Answer, Call, Case, before};
use crate::compare::Shown;
use crate::shrink::{self, Parts};
use crate::text;

impl Shown for Case {
    type Answer = Answer;

    fn simpler(&self) -> Vec<Case> {
        let parts = Parts { data: self.data.clone(), window: self.window, argument: u64::from(self.function_count) };
        let fewer = shrink::smaller(self.places as u64).into_iter().map(|k| Case { places: k as usize, ..self.clone() });
        let with_parts = shrink::simpler(&parts).into_iter().map(|Parts { data, window, argument }| {
            Case { data, window, function_count: argument as u32, ..self.clone() }
        });
        fewer.chain(with_parts).collect()
    }

    fn input_in_words(&self) -> String {
        let mut text = format!("  call      {}\n", self.call.name());
        text += &text::data(&self.data);
        text += &text::window(self.window);
        if self.call == Call::ClassNetCache {
            text += &format!("  functions {}\n", self.function_count);
        }
        text + &format!("  places    {}\n", self.places)
    }

    fn answer_in_words(&self, Answer { words, places, damage }: &Answer) -> String {
        let [stop @ .., count] = *words;
        let mut text = format!("{}; {count} records", text::words(stop));
        for (index, place) in places.iter().enumerate().take(40) {
            text += &match *place == before(index) {
                true => format!("\n            place {index} untouched"),
                false => format!("\n            place {index}: {place:?}"),
            };
        }
        text + &text::damage(*damage)
    }
}
