//! The rows of a file of `crates/worked_examples/specs`, evaluated.

use crate::naturals::Natural;
use crate::syntax::{definitions_of, Definition, Expression, Form};
use crate::words::{list, Value, WORDS};
use crate::{Call, Outcome};
use std::collections::HashMap;
use std::rc::Rc;

/// A row by its name.
pub struct Row {
    pub name: String,
    pub call: Call,
    pub expected: Outcome,
}

/// What names stand for, with those of files that were read before, and the definitions of those that are
/// given something.
#[derive(Clone, Default)]
pub struct Names {
    values: HashMap<String, Value>,
    given: HashMap<String, Rc<Definition>>,
}

impl Names {
    fn word(&self, text: &str) -> Value {
        if let Some(value) = self.values.get(text) {
            return value.clone();
        }
        if let Some(word) = WORDS.iter().find(|(name, ..)| *name == text) {
            return applied(Value::Word(word, Vec::new()), Vec::new());
        }
        let number = match text.strip_prefix("0x") {
            Some(digits) => u128::from_str_radix(digits, 16),
            None => text.parse(),
        };
        match number {
            Ok(n) => Value::Natural(Natural::of(n)),
            Err(_) => panic!("the word {text} is none of cases/words.rs"),
        }
    }

    fn value(&self, expression: &Expression) -> Value {
        let value = match &expression.form {
            Form::Word(text) => self.word(text),
            Form::Apply(parts) => {
                let values = parts[1..].iter().map(|p| self.value(p)).collect();
                match self.defined(&parts[0]) {
                    Some(definition) => self.unfolded(definition, values),
                    None => applied(self.value(&parts[0]), values),
                }
            }
            Form::Tuple(parts) => Value::Tuple(parts.iter().map(|p| self.value(p)).collect()),
            Form::Operation(operator, left, right) => {
                operation(operator, self.value(left), self.value(right))
            }
        };
        named(value, &expression.label)
    }

    /// The definition of a name that is given something.
    fn defined(&self, function: &Expression) -> Option<&Definition> {
        match &function.form {
            Form::Word(text) => self.given.get(text).map(|definition| &**definition),
            _ => None,
        }
    }

    /// What a definition stands for once it is given all that it takes.
    fn unfolded(&self, definition: &Definition, values: Vec<Value>) -> Value {
        let (name, takes) = (&definition.name, definition.given.len());
        assert_eq!(values.len(), takes, "what {name} is given");
        let mut names = self.clone();
        let given = definition.given.iter().cloned();
        names.values.extend(given.zip(values));
        names.value(&definition.body)
    }

    fn define(&mut self, definition: Definition) {
        let name = definition.name.clone();
        if definition.given.is_empty() {
            let value = self.value(&definition.body);
            self.values.insert(name, value);
        } else {
            self.given.insert(name, Rc::new(definition));
        }
    }
}

/// A row takes the name that stands before it.
fn named(value: Value, label: &str) -> Value {
    match value {
        Value::Row(name, row) if name.is_empty() => Value::Row(label.to_string(), row),
        other => other,
    }
}

/// A word given some more, and what it makes of them once it has all that it takes.
fn applied(function: Value, given: Vec<Value>) -> Value {
    let Value::Word(word, mut values) = function else {
        assert!(given.is_empty(), "{function:?} is no word that takes any");
        return function;
    };
    let (name, takes, made) = word;
    values.extend(given);
    assert!(values.len() <= *takes, "{name} takes {takes}");
    match values.len() == *takes {
        true => made(&values),
        false => Value::Word(word, values),
    }
}

fn operation(operator: &str, left: Value, right: Value) -> Value {
    match (operator, left, right) {
        ("∷", first, Value::List(mut rest)) => {
            rest.insert(0, first);
            Value::List(rest)
        }
        ("++", Value::List(mut first), Value::List(rest)) => {
            first.extend(rest);
            Value::List(first)
        }
        ("+", Value::Natural(a), Value::Natural(b)) => Value::Natural(a.plus(&b)),
        ("-", Value::Natural(a), Value::Natural(b)) => Value::Natural(a.less(&b)),
        ("*", Value::Natural(a), Value::Natural(b)) => Value::Natural(a.times(&b)),
        ("^", Value::Natural(a), Value::Natural(b)) => Value::Natural(a.to_the(&b)),
        (operator, left, right) => panic!("{operator} of {left:?} and {right:?}"),
    }
}

fn row_of(value: &Value) -> Row {
    let Value::Row(name, row) = value else {
        panic!("a row, and not {value:?}");
    };
    assert!(!name.is_empty(), "a row without a name: {row:?}");
    let (call, expected) = *row.clone();
    Row {
        name: name.clone(),
        call,
        expected,
    }
}

/// The rows that a table's name stands for, by the definitions of some files in their order.
pub fn rows_of(texts: &[&str], table: &str) -> Vec<Row> {
    let mut names = Names::default();
    for text in texts {
        for definition in definitions_of(text) {
            names.define(definition);
        }
    }
    list(&names.word(table)).iter().map(row_of).collect()
}
