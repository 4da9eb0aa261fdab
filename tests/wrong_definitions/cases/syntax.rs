//! The language in which the files of `crates/worked_examples/specs` write rows: numbers, names,
//! application, `∷` and `++`, `+`, `-`, `*` and `^`, tuples and parentheses. A row's name is the first word of
//! the last comment before it.

/// An expression, with the name that stands before its first word.
#[derive(Clone, Debug)]
pub struct Expression {
    pub label: String,
    pub form: Form,
}

#[derive(Clone, Debug)]
pub enum Form {
    Word(String),
    Apply(Vec<Expression>),
    Operation(String, Box<Expression>, Box<Expression>),
    Tuple(Vec<Expression>),
}

/// A name, the names of what it is given, and what stands for it.
pub struct Definition {
    pub name: String,
    pub given: Vec<String>,
    pub body: Expression,
}

struct Token {
    text: String,
    label: String,
}

/// The operators by how tightly they bind, the loosest first; those of the first line group from the right.
const OPERATORS: [&[&str]; 4] = [&["∷", "++"], &["+", "-"], &["*"], &["^"]];

/// The words of a line, with parentheses and commas as words of their own.
fn words_of(line: &str) -> Vec<String> {
    let mut spaced = String::new();
    for c in line.chars() {
        match c {
            '(' | ')' | ',' => spaced.extend([' ', c, ' ']),
            _ => spaced.push(c),
        }
    }
    spaced.split_whitespace().map(String::from).collect()
}

/// The first word of a comment, without what stands behind it.
fn label_of(comment: &str) -> String {
    let first = comment.split_whitespace().next().unwrap_or("");
    first.trim_end_matches([':', ',']).to_string()
}

/// The words of some lines, each with the name of the last comment before it.
fn tokens_of(lines: &[&str]) -> Vec<Token> {
    let mut tokens = Vec::new();
    let mut label = String::new();
    for line in lines {
        let (code, comment) = line.split_once("--").unwrap_or((line, ""));
        let token = |text| Token {
            text,
            label: label.clone(),
        };
        tokens.extend(words_of(code).into_iter().map(token));
        if !comment.is_empty() {
            label = label_of(comment);
        }
    }
    tokens
}

struct Parser {
    tokens: Vec<Token>,
    at: usize,
}

impl Parser {
    fn text(&self) -> &str {
        self.tokens.get(self.at).map_or("", |t| &t.text)
    }

    fn label(&self) -> String {
        let token = self.tokens.get(self.at);
        token.map_or(String::new(), |t| t.label.clone())
    }

    /// Goes past this word.
    fn expect(&mut self, text: &str) {
        assert_eq!(self.text(), text, "word {} of a definition", self.at);
        self.at += 1;
    }

    /// An expression of the operators from this level on.
    fn level(&mut self, level: usize) -> Expression {
        let Some(operators) = OPERATORS.get(level) else {
            return self.application();
        };
        let mut left = self.level(level + 1);
        while operators.contains(&self.text()) {
            let operator = self.text().to_string();
            self.at += 1;
            let right = self.level(if level == 0 { 0 } else { level + 1 });
            left = Expression {
                label: left.label.clone(),
                form: Form::Operation(operator, Box::new(left), Box::new(right)),
            };
        }
        left
    }

    /// One thing, or a function and what it is given.
    fn application(&mut self) -> Expression {
        let mut parts = vec![self.atom()];
        while self.begins_atom() {
            parts.push(self.atom());
        }
        match parts.len() {
            1 => parts.remove(0),
            _ => Expression {
                label: parts[0].label.clone(),
                form: Form::Apply(parts),
            },
        }
    }

    fn begins_atom(&self) -> bool {
        let operator = OPERATORS.iter().any(|level| level.contains(&self.text()));
        !operator && !matches!(self.text(), "" | ")" | ",")
    }

    /// A word, or what stands in parentheses.
    fn atom(&mut self) -> Expression {
        let label = self.label();
        if self.text() != "(" {
            let word = self.text().to_string();
            self.at += 1;
            let form = Form::Word(word);
            return Expression { label, form };
        }
        self.expect("(");
        let mut parts = vec![self.level(0)];
        while self.text() == "," {
            self.at += 1;
            parts.push(self.level(0));
        }
        self.expect(")");
        match parts.len() {
            1 => parts.remove(0),
            _ => Expression {
                label,
                form: Form::Tuple(parts),
            },
        }
    }
}

fn parsed(lines: &[&str]) -> Expression {
    let tokens = tokens_of(lines);
    let mut parser = Parser { tokens, at: 0 };
    let whole = parser.level(0);
    assert_eq!(parser.text(), "", "a word too many");
    whole
}

/// The definitions of a file: `name = ..` at the line's start, or `name given = ..`, with the lines below
/// that are set in.
pub fn definitions_of(text: &str) -> Vec<Definition> {
    let lines: Vec<&str> = text.lines().collect();
    let mut definitions = Vec::new();
    for (at, line) in lines.iter().enumerate() {
        let Some((names, first)) = line.split_once(" =") else {
            continue;
        };
        if line.starts_with([' ', '-']) {
            continue;
        }
        let mut names = names.split_whitespace().map(String::from);
        let inner = |line: &&&str| line.starts_with(' ');
        let mut body = vec![first];
        body.extend(lines[at + 1..].iter().take_while(inner));
        definitions.push(Definition {
            name: names.next().expect("a name"),
            given: names.collect(),
            body: parsed(&body),
        });
    }
    definitions
}
