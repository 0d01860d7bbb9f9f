//! Structured programs and the tables they make.

pub type Actions = Vec<Action>;

#[derive(Clone, Debug)]
pub enum Action {
    Match(u16),
    Any,
    Emit(u16),
    Error(u16),
    Cycle(Actions),
    Exit,
    Choice(Choice),
    Call(usize),
    Return,
    Value(u16),
    Update(u16),
    UpdateWith(u16, u16),
}

#[derive(Clone, Copy, Debug)]
pub enum Selector {
    Input,
    Rule(usize),
    Operation(u16),
    OperationWith(u16, u16),
}

#[derive(Clone, Debug)]
pub struct Choice {
    pub selector: Selector,
    pub alternatives: Vec<(Vec<u16>, Actions)>,
    pub otherwise: Option<Actions>,
}

/// A rule; a procedure rule ends in return.
#[derive(Clone, Debug)]
pub struct Rule {
    pub procedure: bool,
    pub body: Actions,
}

/// The words of the rules, the first of them standing at location `origin`.
pub fn assemble(rules: &[Rule], origin: usize) -> Vec<u16> {
    let mut assembler = Assembler { origin, ..Assembler::default() };
    let mut starts = Vec::new();
    for rule in rules {
        starts.push(assembler.here());
        assembler.actions(&rule.body);
        if rule.procedure {
            assembler.words.push(9);
        }
    }
    for (index, rule) in std::mem::take(&mut assembler.calls) {
        assembler.words[index] = starts.get(rule).map_or(0, |start| *start as u16);
    }
    assembler.words
}

/// Words as bytes, high byte first.
pub fn bytes(words: &[u16]) -> Vec<u8> {
    words.iter().flat_map(|word| word.to_be_bytes()).collect()
}

#[derive(Default)]
struct Assembler {
    origin: usize,
    words: Vec<u16>,
    /// Operands of calls, and the rules they want.
    calls: Vec<(usize, usize)>,
    /// Operands of the jumps out of each open cycle.
    exits: Vec<Vec<usize>>,
}

impl Assembler {
    /// The location of the next word.
    fn here(&self) -> usize {
        self.origin + self.words.len()
    }

    fn actions(&mut self, actions: &[Action]) {
        for action in actions {
            self.action(action);
        }
    }

    fn action(&mut self, action: &Action) {
        match action {
            Action::Match(token) => self.words.extend([3, *token]),
            Action::Any => self.words.push(4),
            Action::Emit(token) => self.words.extend([5, *token]),
            Action::Error(signal) => self.words.extend([6, *signal]),
            Action::Cycle(body) => {
                let start = self.here();
                self.exits.push(Vec::new());
                self.actions(body);
                self.back(start);
                for exit in self.exits.pop().unwrap_or_default() {
                    self.land(exit);
                }
            }
            Action::Exit => {
                let operand = self.forward(1);
                if let Some(exits) = self.exits.last_mut() {
                    exits.push(operand);
                }
            }
            Action::Choice(choice) => self.choice(choice),
            Action::Call(rule) => self.call(*rule),
            Action::Return => self.words.push(9),
            Action::Value(value) => self.words.extend([10, *value, 9]),
            Action::Update(operation) => self.words.push(*operation),
            Action::UpdateWith(operation, parameter) => self.words.extend([13, *parameter, *operation]),
        }
    }

    fn choice(&mut self, choice: &Choice) {
        let instruction = match choice.selector {
            Selector::Input => 7,
            Selector::Rule(rule) => {
                self.call(rule);
                11
            }
            Selector::Operation(operation) => {
                self.words.push(operation);
                11
            }
            Selector::OperationWith(operation, parameter) => {
                self.words.extend([13, parameter, operation]);
                11
            }
        };
        let table = self.forward(instruction);
        let mut ends = Vec::new();
        let mut labels = Vec::new();
        for (of, actions) in &choice.alternatives {
            labels.extend(of.iter().map(|label| (*label, self.here())));
            self.actions(actions);
            ends.push(self.forward(1));
        }
        self.land(table);
        self.words.push(labels.len() as u16);
        for (label, start) in &labels {
            self.words.push(*label);
            self.words.push((self.here() - start) as u16);
        }
        match (&choice.otherwise, choice.selector, labels.first()) {
            (Some(actions), _, _) => self.actions(actions),
            (None, Selector::Input, Some((label, start))) => {
                self.words.extend([3, *label]);
                self.back(*start);
            }
            _ => self.words.push(12),
        }
        for end in ends {
            self.land(end);
        }
    }

    fn call(&mut self, rule: usize) {
        self.words.extend([8, 0]);
        self.calls.push((self.words.len() - 1, rule));
    }

    /// An instruction with a distance that is yet to be known; the index of its operand.
    fn forward(&mut self, instruction: u16) -> usize {
        self.words.extend([instruction, 0]);
        self.words.len() - 1
    }

    /// Lets the operand reach the next word.
    fn land(&mut self, operand: usize) {
        self.words[operand] = (self.words.len() - operand) as u16;
    }

    fn back(&mut self, start: usize) {
        self.words.push(2);
        self.words.push((self.here() - start) as u16);
    }
}

#[cfg(test)]
mod tests {
    use super::*;

    fn only(body: Actions) -> Vec<u16> {
        assemble(&[Rule { procedure: true, body }], 1)
    }

    #[test]
    fn cases_of_the_paper() {
        assert_eq!(only(vec![]), [9]);
        let choice = Choice {
            selector: Selector::Input,
            alternatives: vec![(vec![2], vec![]), (vec![3], vec![Action::Error(10)])],
            otherwise: Some(vec![Action::Exit]),
        };
        let p2 = only(vec![Action::Cycle(vec![Action::Choice(choice)])]);
        assert_eq!(p2, [7, 7, 1, 12, 6, 10, 1, 8, 2, 2, 8, 3, 8, 1, 3, 2, 16, 9]);
        assert_eq!(only(vec![Action::Cycle(vec![])]), [2, 1, 9]);
        assert_eq!(only(vec![Action::Cycle(vec![Action::Exit])]), [1, 3, 2, 3, 9]);
        assert_eq!(only(vec![Action::Match(0)]), [3, 0, 9]);
        let choice = Choice { selector: Selector::Input, alternatives: vec![(vec![1], vec![])], otherwise: None };
        assert_eq!(only(vec![Action::Choice(choice)]), [7, 3, 1, 8, 1, 1, 4, 3, 1, 2, 8, 9]);
        assert_eq!(only(vec![Action::Call(0)]), [8, 1, 9]);
    }

    #[test]
    fn other_choices() {
        // [ f(5) | 0, 2: .7 ]; and [ @R | 1: | *: ] with R >> T: >> 1
        let choice = Choice {
            selector: Selector::OperationWith(1024, 5),
            alternatives: vec![(vec![0, 2], vec![Action::Emit(7)])],
            otherwise: None,
        };
        assert_eq!(only(vec![Action::Choice(choice)]), [13, 5, 1024, 11, 5, 5, 7, 1, 7, 2, 0, 6, 2, 8, 12, 9]);
        let choice = Choice { selector: Selector::Rule(1), alternatives: vec![(vec![1], vec![])], otherwise: Some(vec![]) };
        let rules = [
            Rule { procedure: true, body: vec![Action::Choice(choice)] },
            Rule { procedure: false, body: vec![Action::Value(1)] },
        ];
        assert_eq!(assemble(&rules, 1), [8, 11, 11, 3, 1, 4, 1, 1, 4, 9, 10, 1, 9]);
        assert_eq!(assemble(&rules, 101)[..2], [8, 111]);
    }
}
