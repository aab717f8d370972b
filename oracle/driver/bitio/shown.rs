// An input and its answers in words, and simpler inputs.

use super::Call::*;
use super::{Answer, CALLS, Case, NO_FLOAT};
use crate::compare::Shown;
use crate::shrink::{self, Parts};
use crate::text::{self, hex, words};

impl Shown for Case {
    type Answer = Answer;

    fn simpler(&self) -> Vec<Case> {
        let parts = Parts { data: self.data.clone(), window: self.window, argument: self.argument };
        let with_parts = shrink::simpler(&parts).into_iter();
        let with_target = shrink::smaller_bytes(&self.target).into_iter().map(|target| Case { target, ..self.clone() });
        let of_parts = |Parts { data, window, argument }| Case { data, window, argument, ..self.clone() };
        with_parts.map(of_parts).chain(with_target).collect()
    }

    fn input_in_words(&self) -> String {
        let mut text = format!("  call      {}\n", CALLS[self.call as usize - 1].1);
        text += &text::data(&self.data);
        if self.call.takes_window() {
            text += &text::window(self.window);
        }
        if let Some(name) = self.call.argument() {
            text += &format!("  {name:<9} {}\n", self.argument);
        }
        if self.call.takes_target() {
            text += &format!("  target    {} ({} bytes)\n", hex(&self.target), self.target.len());
        }
        text
    }

    fn answer_in_words(&self, answer: &Answer) -> String {
        let mut text = words(answer.words);
        match self.call {
            ReadF32 | ReadF64 if answer.beside == NO_FLOAT => text += "; float untouched",
            ReadF32 => text += &format!("; float {:?}, bits {:08x}", f32::from_bits(answer.beside as u32), answer.beside),
            ReadF64 => text += &format!("; float {:?}, bits {:016x}", f64::from_bits(answer.beside), answer.beside),
            _ => {}
        }
        if self.call.takes_target() {
            text += &format!("; target then {}", hex(&answer.bytes));
        }
        text + &text::damage(answer.damage)
    }
}
