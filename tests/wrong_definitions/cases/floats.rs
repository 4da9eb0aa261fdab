//! The cases of `replay_floats`, of 25 bytes each (`tests/vectors/floats.rs`).

use crate::stored::Stored;
use crate::{Call, Function, Outcome};
use std::ops::ControlFlow;

fn function_of(letter: u8) -> Function {
    match letter {
        b's' => Function::Sqrt,
        b'p' => Function::Powi,
        b'l' => Function::Ln,
        b'x' => Function::Max,
        b'm' => Function::Min,
        b'a' => Function::Abs,
        b'f' => Function::Finite,
        other => panic!("no function has the letter {other}"),
    }
}

pub fn cases(stored: &mut Stored) -> ControlFlow<()> {
    while !stored.reader.ended() {
        stored.begun();
        let function = function_of(stored.reader.letter());
        let x = stored.reader.float();
        let n = stored.reader.number(8);
        let result = stored.reader.float();
        let call = Call::Elementary(function, x, n);
        stored.case(call, Outcome::Values(vec![result]))?;
    }
    ControlFlow::Continue(())
}
