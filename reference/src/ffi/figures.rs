//! The library's entries for figures over a shelf.

use super::{Library, done};
use crate::figures::{Figures, Shelf};
use crate::side::Inputs;
use crate::walker::Done;

entry!(sst_add_book(table tokens answers; budget: u64, allowance: u16; figures events; written steps));
entry!(sst_shelf(figures;;; books total covered mean rest));
entry!(sst_rules(text;; rows; rules));
entry!(sst_rule_total(figures; from: u64, to: u64;; total));
entry!(sst_rules_total(figures rows; end: u64;; total));

impl Figures for Library {
    fn name(&self) -> &'static str {
        "lib"
    }

    fn add_book(&self, inputs: Inputs, budget: u64, allowance: u16, figures: &mut [u8], events: &mut [u8]) -> Done {
        done(sst_add_book(inputs.table, inputs.tokens, inputs.answers, budget, allowance, figures, events))
    }

    fn shelf(&self, figures: &[u8]) -> Shelf {
        let (number, [books, total, covered, mean, rest]) = sst_shelf(figures);
        Shelf { number, books, total, covered, mean, rest }
    }

    fn rules(&self, text: &[u8], rows: &mut [u8]) -> (u16, u64) {
        let (number, [rules]) = sst_rules(text, rows);
        (number, rules)
    }

    fn rule_total(&self, figures: &[u8], from: u64, to: u64) -> (u16, u64) {
        let (number, [total]) = sst_rule_total(figures, from, to);
        (number, total)
    }

    fn rules_total(&self, figures: &[u8], rows: &[u8], end: u64) -> (u16, u64) {
        let (number, [total]) = sst_rules_total(figures, rows, end);
        (number, total)
    }
}
