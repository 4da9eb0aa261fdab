//! `crates/cuts_answer/specs`: Answer.

use crate::cuts_input::{request_of, Request};
use crate::cuts_output::text;
use crate::readings::first_length;
use crate::refusals::{refusing, tried, Refusal, Test};
use crate::search_answer::{cuts_found, Asked};
use crate::search_tests::{search_tests, Lengths};
use cases::Said;

/// The refusals of the strict search, with room for what it asks, so that 7 isn't met.
fn strict_tests(q: &Request) -> Vec<Test> {
    let n = first_length(&q.channels.lengths);
    let k = q.channels.lengths.len();
    let lent = Lengths {
        cuts: n / 2,
        floats: (2 * k + 2) * (n + 1),
        indices: 3 * (n + 1),
    };
    let (settings, channels) = (&q.settings, &q.channels);
    search_tests(
        true,
        settings.penalty,
        settings.m,
        &channels.run,
        &channels.lengths,
        lent,
    )
}

/// The cuts that it finds with 40 slots, or 9.
fn strict_cuts(q: &Request) -> Option<Vec<usize>> {
    cuts_found(Asked {
        cost: q.settings.cost,
        penalty: q.settings.penalty,
        m: q.settings.m,
        run: &q.channels.run,
        n: first_length(&q.channels.lengths),
        k: q.channels.lengths.len(),
        slots: 40,
    })
}

/// What is said of them: the cuts themselves, or refusal 9.
fn cuts_said(found: Option<Vec<usize>>) -> Said {
    match found {
        Some(cuts) => Said::Answered(cuts),
        None => refusing(Refusal::Pool),
    }
}

/// 10 is tried first, then the search.
fn request_said(request: Option<Request>) -> Said {
    match request {
        Some(q) => tried(refusing, &strict_tests(&q), || cuts_said(strict_cuts(&q))),
        None => refusing(Refusal::Form),
    }
}

/// The bytes in, the bytes out.
pub fn output(input: &[u8]) -> Vec<u8> {
    text(&request_said(request_of(input)))
}
