//! The verdict as it was before returned values were looked at: a quiet path takes any alternative of a rule choice. Kept to compare: every
//! program that is finishing by this one is finishing.

use crate::processor::{Act, By, Program};
use std::collections::HashSet;

/// The program's points and the ways between them that read nothing; a way through a rule is one that may be passed quietly.
#[derive(Default)]
struct Graph {
    quiet: Vec<Vec<usize>>,
    through: Vec<Vec<(usize, usize)>>,
    cycles: Vec<(usize, usize)>,
}

impl Graph {
    fn point(&mut self) -> usize {
        self.quiet.push(Vec::new());
        self.through.push(Vec::new());
        self.quiet.len() - 1
    }

    /// From a point over a list to the point behind it. `ret` is where `>>` goes, `out` where `>` goes.
    fn acts(&mut self, acts: &[Act], from: usize, ret: usize, out: Option<usize>) -> usize {
        let mut at = from;
        for act in acts {
            let next = self.point();
            match act {
                Act::Match(_) | Act::Any => {}
                Act::Emit(_) | Act::Signal(_) | Act::Update(..) => self.quiet[at].push(next),
                Act::Return(_) => self.quiet[at].push(ret),
                Act::Exit => self.quiet[at].extend(out),
                Act::Call(rule) => self.through[at].push((*rule, next)),
                Act::Cycle(acts) => {
                    let start = self.point();
                    self.quiet[at].push(start);
                    let end = self.acts(acts, start, ret, Some(next));
                    self.quiet[end].push(start);
                    self.cycles.push((start, end));
                }
                Act::Choice(choice) => {
                    let chosen = self.point();
                    match &choice.by {
                        By::Rule(rule) => self.through[at].push((*rule, chosen)),
                        _ => self.quiet[at].push(chosen),
                    }
                    for (_, acts) in &choice.alternatives {
                        let start = self.point();
                        if choice.by != By::Token {
                            self.quiet[chosen].push(start);
                        }
                        let end = self.acts(acts, start, ret, out);
                        self.quiet[end].push(next);
                    }
                    if let Some(acts) = &choice.otherwise {
                        let end = self.acts(acts, chosen, ret, out);
                        self.quiet[end].push(next);
                    }
                }
            }
            at = next;
        }
        at
    }

    fn reach(&self, from: usize, passed: &[bool]) -> Vec<bool> {
        let mut seen = vec![false; self.quiet.len()];
        let mut open = vec![from];
        while let Some(at) = open.pop() {
            if std::mem::replace(&mut seen[at], true) {
                continue;
            }
            open.extend(&self.quiet[at]);
            open.extend(self.through[at].iter().filter(|(rule, _)| passed[*rule]).map(|(_, to)| to));
        }
        seen
    }
}

/// Whether the program is finishing, whatever its rules return.
pub fn finishing(program: &Program) -> bool {
    let mut graph = Graph::default();
    let mut ends = Vec::new();
    for rule in &program.rules {
        let (start, ret) = (graph.point(), graph.point());
        let end = graph.acts(&rule.acts, start, ret, None);
        graph.quiet[end].push(ret);
        ends.push((start, ret));
    }
    let mut passed = vec![false; ends.len()];
    loop {
        let again: Vec<bool> = ends.iter().map(|(start, ret)| graph.reach(*start, &passed)[*ret]).collect();
        if again == passed {
            break;
        }
        passed = again;
    }
    if graph.cycles.iter().any(|(start, end)| graph.reach(*start, &passed)[*end]) {
        return false;
    }
    let calls: Vec<HashSet<usize>> = ends
        .iter()
        .map(|(start, _)| {
            let seen = graph.reach(*start, &passed);
            let reached = graph.through.iter().zip(seen).filter(|(_, seen)| *seen);
            reached.flat_map(|(through, _)| through.iter().map(|(rule, _)| *rule)).collect()
        })
        .collect();
    // 0 not seen, 1 on the way, 2 done.
    fn comes_back(calls: &[HashSet<usize>], colour: &mut [u8], rule: usize) -> bool {
        colour[rule] = 1;
        let back = calls[rule].iter().any(|to| colour[*to] == 1 || colour[*to] == 0 && comes_back(calls, colour, *to));
        colour[rule] = 2;
        back
    }
    let mut colour = vec![0; calls.len()];
    !(0..calls.len()).any(|rule| colour[rule] == 0 && comes_back(&calls, &mut colour, rule))
}
