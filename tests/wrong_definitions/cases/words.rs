//! The words of the rows, as `crates/worked_examples/specs/Rows.antt` and what it uses define them. All of them
//! stand in `WORDS`: a word that gets another name there gets it here, and nowhere else.

use crate::naturals::{nearest, Natural};
use crate::{Areas, Ball, Call, Chart, Cost, CusumResult, Edition, EwmaResult, Function, Outcome};
use crate::{Penalty, Said, Search, Settings, Side, Stated, Sum};
use std::rc::Rc;

#[derive(Clone, Debug)]
pub enum Value {
    Natural(Natural),
    Float(f64),
    Truth(bool),
    List(Vec<Value>),
    Tuple(Vec<Value>),
    Cost(Cost),
    Penalty(Penalty),
    Areas(Areas),
    Search(Box<Search>),
    Stated(Stated),
    Edition(Edition),
    Chart(Chart),
    Side(Side),
    Sum(Sum),
    Ball(Ball),
    /// A call and what it is to come to, with the row's name once it is known.
    Row(String, Box<(Call, Outcome)>),
    /// A word that has not been given all it takes.
    Word(&'static Word, Vec<Value>),
}

/// How many things a word takes, and what it makes of them.
pub type Word = (&'static str, usize, fn(&[Value]) -> Value);

pub static WORDS: &[Word] = &[
    ("true", 0, |_| Value::Truth(true)),
    ("false", 0, |_| Value::Truth(false)),
    ("[]", 0, |_| Value::List(Vec::new())),
    ("nan", 0, |_| Value::Float(f64::NAN)),
    ("+0", 0, |_| Value::Float(0.0)),
    ("+∞", 0, |_| Value::Float(f64::INFINITY)),
    ("-∞", 0, |_| Value::Float(f64::NEG_INFINITY)),
    ("neg", 1, |v| Value::Float(-float(&v[0]))),
    ("of_whole", 1, |v| whole(&v[0])),
    ("wholes", 1, |v| mapped(&v[0], whole)),
    ("ratio", 2, |v| Value::Float(ratio(&v[0], &v[1]))),
    ("ten_billionths", 1, |v| mapped(&v[0], ten_billionth)),
    ("of_pattern", 1, |v| {
        Value::Float(f64::from_bits(size(&v[0]) as u64))
    }),
    ("replicate", 2, |v| {
        Value::List(vec![v[1].clone(); size(&v[0])])
    }),
    ("L2", 0, |_| Value::Cost(Cost::L2)),
    ("Normal", 0, |_| Value::Cost(Cost::Normal)),
    ("Bic", 0, |_| Value::Penalty(Penalty::Bic)),
    ("Custom", 1, |v| custom(float(&v[0]))),
    ("custom", 1, |v| custom(float(&whole(&v[0])))),
    ("halves", 1, |v| {
        custom(nearest(natural(&v[0]), &Natural::of(2)))
    }),
    ("sevens", 4, |v| {
        Value::Areas(sevens([0, 1, 2, 3].map(|i| size(&v[i]))))
    }),
    ("within", 7, |v| {
        search(areas(&v[0]), truth(&v[1]), &v[2..5], &v[5], &v[6])
    }),
    ("among", 7, |v| {
        among(truth(&v[0]), &v[1..4], &v[4], &v[5], &v[6])
    }),
    ("plainly", 5, |v| alone(false, v)),
    ("strictly", 5, |v| alone(true, v)),
    ("finds", 3, |v| finds(&v[0], &v[1], &v[2])),
    ("runs_out", 1, |v| runs_out(&v[0])),
    ("refuses", 2, |v| refuses(&v[0], &v[1])),
    ("resolves", 2, |v| {
        row(
            Call::Resolve(searched(&v[0])),
            Outcome::Values(vec![float(&v[1])]),
        )
    }),
    ("plain", 1, |v| stated(size(&v[0]), vec![])),
    ("gap_at", 2, |v| stated(8, vec![size(&v[0]), size(&v[1])])),
    ("Cusum.new_of", 2, |v| chart(true, v, Edition::First)),
    ("Cusum.with_params", 4, |v| chart(false, v, Edition::First)),
    ("First", 0, |_| Value::Edition(Edition::First)),
    ("Second", 0, |_| Value::Edition(Edition::Second)),
    ("Ewma.new_of", 3, |v| chart(true, &v[..2], edition(&v[2]))),
    ("Ewma.with_params", 5, |v| {
        chart(false, &v[..4], edition(&v[4]))
    }),
    ("None", 0, |_| Value::Side(Side::None)),
    ("Above", 0, |_| Value::Side(Side::Above)),
    ("Below", 0, |_| Value::Side(Side::Below)),
    ("Both", 0, |_| Value::Side(Side::Both)),
    ("Upper", 0, |_| Value::Sum(Sum::Upper)),
    ("Lower", 0, |_| Value::Sum(Sum::Lower)),
    ("sums_are", 3, |v| sums_are(&v[0], &v[1], &v[2])),
    ("averages_are", 3, |v| averages_are(&v[0], &v[1], &v[2])),
    ("sums_signal", 4, |v| {
        signal(|c, xs, room| Call::CusumPoints(c, xs, room), v)
    }),
    ("averages_signal", 4, |v| {
        signal(|c, xs, room| Call::EwmaPoints(c, xs, room), v)
    }),
    ("sums_refuse", 4, |v| {
        let room = vec![LENT_SUMS; size(&v[2])];
        let call = Call::Cusum(charted(&v[0]), floats(&v[1]), room.clone());
        row(call, Outcome::Sums(refused(&v[3]), room))
    }),
    ("averages_refuse", 4, |v| {
        let room = vec![LENT_AVERAGE; size(&v[2])];
        let call = Call::Ewma(charted(&v[0]), floats(&v[1]), room.clone());
        row(call, Outcome::Averages(refused(&v[3]), room))
    }),
    ("hears", 4, |v| hear(v, Said::Answered(vec![size(&v[3])]))),
    ("refuses_to_hear", 4, |v| hear(v, refused(&v[3]))),
    ("ball", 2, |v| Value::Ball(ball(size(&v[0]), float(&v[1])))),
    ("balls_from", 2, |v| balls_from(size(&v[0]), size(&v[1]))),
    ("keeps", 3, |v| {
        let call = Call::Lose(one_ball(&v[0]), balls(&v[1]));
        row(call, Outcome::Losing(balls(&v[2])))
    }),
    ("logarithm_is", 2, |v| {
        let [x, result] = [0, 1].map(|i| f64::from_bits(size(&v[i]) as u64));
        let call = Call::Elementary(Function::Ln, x, 0);
        row(call, Outcome::Values(vec![result]))
    }),
];

// ---- what a value is

fn natural(value: &Value) -> &Natural {
    match value {
        Value::Natural(n) => n,
        other => panic!("a number, and not {other:?}"),
    }
}

fn size(value: &Value) -> usize {
    natural(value).small().expect("a number of 64 bits") as usize
}

fn float(value: &Value) -> f64 {
    match value {
        Value::Float(x) => *x,
        other => panic!("a float, and not {other:?}"),
    }
}

fn truth(value: &Value) -> bool {
    match value {
        Value::Truth(b) => *b,
        other => panic!("true or false, and not {other:?}"),
    }
}

pub fn list(value: &Value) -> &[Value] {
    match value {
        Value::List(values) => values,
        other => panic!("a list, and not {other:?}"),
    }
}

fn tuple(value: &Value) -> &[Value] {
    match value {
        Value::Tuple(values) => values,
        other => panic!("a tuple, and not {other:?}"),
    }
}

fn floats(value: &Value) -> Rc<Vec<f64>> {
    Rc::new(list(value).iter().map(float).collect())
}

fn sizes(value: &Value) -> Vec<usize> {
    list(value).iter().map(size).collect()
}

fn areas(value: &Value) -> Areas {
    match value {
        Value::Areas(areas) => areas.clone(),
        other => panic!("areas, and not {other:?}"),
    }
}

fn searched(value: &Value) -> Search {
    match value {
        Value::Search(search) => *search.clone(),
        other => panic!("a search, and not {other:?}"),
    }
}

fn edition(value: &Value) -> Edition {
    match value {
        Value::Edition(edition) => *edition,
        other => panic!("an edition, and not {other:?}"),
    }
}

fn charted(value: &Value) -> Chart {
    match value {
        Value::Chart(chart) => *chart,
        other => panic!("a chart, and not {other:?}"),
    }
}

fn side(value: &Value) -> Side {
    match value {
        Value::Side(side) => *side,
        other => panic!("a side, and not {other:?}"),
    }
}

fn sum(value: &Value) -> Sum {
    match value {
        Value::Sum(sum) => *sum,
        other => panic!("a sum, and not {other:?}"),
    }
}

fn one_ball(value: &Value) -> Ball {
    match value {
        Value::Ball(ball) => *ball,
        other => panic!("a ball, and not {other:?}"),
    }
}

fn balls(value: &Value) -> Vec<Ball> {
    list(value).iter().map(one_ball).collect()
}

fn refused(value: &Value) -> Said {
    match value {
        Value::Stated(stated) => Said::Refused(stated.clone()),
        other => panic!("a refusal, and not {other:?}"),
    }
}

// ---- numbers

fn mapped(value: &Value, word: fn(&Value) -> Value) -> Value {
    Value::List(list(value).iter().map(word).collect())
}

fn whole(n: &Value) -> Value {
    Value::Float(nearest(natural(n), &Natural::of(1)))
}

fn ratio(a: &Value, b: &Value) -> f64 {
    nearest(natural(a), natural(b))
}

fn ten_billionth(n: &Value) -> Value {
    Value::Float(nearest(natural(n), &Natural::of(10_000_000_000)))
}

// ---- searches

fn custom(value: f64) -> Value {
    Value::Penalty(Penalty::Custom(value))
}

/// Areas of `cuts` cuts, `floats` floats, `indices` indices and `pool` pool floats, which hold 7.
fn sevens([cuts, floats, indices, pool]: [usize; 4]) -> Areas {
    Areas {
        cuts: vec![7; cuts],
        floats: vec![7.0; floats],
        indices: vec![7; indices],
        pool: vec![7.0; pool],
    }
}

/// By cost, penalty and least length.
fn search(areas: Areas, strict: bool, by: &[Value], run: &Value, lengths: &Value) -> Value {
    let (Value::Cost(cost), Value::Penalty(penalty)) = (&by[0], &by[1]) else {
        panic!("a cost and a penalty, and not {by:?}");
    };
    Value::Search(Box::new(Search {
        strict,
        settings: Settings {
            cost: *cost,
            penalty: *penalty,
            least: Some(size(&by[2])),
        },
        run: floats(run),
        lengths: sizes(lengths),
        areas,
    }))
}

/// With exactly the room that the lengths ask for.
fn among(strict: bool, by: &[Value], run: &Value, lengths: &Value, slots: &Value) -> Value {
    let channels = sizes(lengths);
    let (n, k) = (channels.first().copied().unwrap_or(0), channels.len());
    let room = [n / 2, (2 * k + 2) * (n + 1), 3 * (n + 1), 200 * size(slots)];
    search(sevens(room), strict, by, run, lengths)
}

fn alone(strict: bool, v: &[Value]) -> Value {
    let n = Natural::of(list(&v[3]).len() as u128);
    let lengths = Value::List(vec![Value::Natural(n)]);
    among(strict, &v[..3], &v[3], &lengths, &v[4])
}

fn row(call: Call, expected: Outcome) -> Value {
    Value::Row(String::new(), Box::new((call, expected)))
}

/// Zeros in all areas but that of the cuts.
fn cleared(before: &Areas, cuts: Vec<usize>) -> Areas {
    Areas {
        cuts,
        floats: vec![0.0; before.floats.len()],
        indices: vec![0; before.indices.len()],
        pool: vec![0.0; before.pool.len()],
    }
}

fn finds(search: &Value, count: &Value, cuts: &Value) -> Value {
    let s = searched(search);
    let left = cleared(&s.areas, sizes(cuts));
    let said = Said::Answered(vec![size(count)]);
    row(Call::Search(s), Outcome::Searched(said, left))
}

fn runs_out(search: &Value) -> Value {
    let s = searched(search);
    let left = cleared(&s.areas, s.areas.cuts.clone());
    let said = refused(&stated(9, vec![]));
    row(Call::Search(s), Outcome::Searched(said, left))
}

fn refuses(search: &Value, reason: &Value) -> Value {
    let s = searched(search);
    let left = s.areas.clone();
    row(Call::Search(s), Outcome::Searched(refused(reason), left))
}

fn stated(number: usize, values: Vec<usize>) -> Value {
    Value::Stated(Stated { number, values })
}

// ---- charts

const LENT_SUMS: CusumResult = CusumResult {
    s_upper: 7.0,
    s_lower: 7.0,
    side: Side::Both,
    index: 7,
};

const LENT_AVERAGE: EwmaResult = EwmaResult {
    ewma: 7.0,
    ucl: 7.0,
    lcl: 7.0,
    side: Side::Both,
    index: 7,
};

fn chart(by_new: bool, settings: &[Value], edition: Edition) -> Value {
    let mut values = [0.0; 4];
    for (place, setting) in values.iter_mut().zip(settings) {
        *place = float(setting);
    }
    Value::Chart(Chart {
        by_new,
        values,
        edition,
    })
}

/// `analyze` with one record more than it needs, which stays as it was.
fn sums_are(chart: &Value, xs: &Value, shown: &Value) -> Value {
    let readings = floats(xs);
    let said = Said::Answered(vec![readings.len()]);
    let entry = vec![LENT_SUMS; readings.len() + 1];
    let shown = list(shown).iter().enumerate();
    let mut left: Vec<CusumResult> = shown
        .map(|(index, r)| CusumResult {
            s_upper: float(&tuple(r)[0]),
            s_lower: float(&tuple(r)[1]),
            side: side(&tuple(r)[2]),
            index,
        })
        .collect();
    left.push(LENT_SUMS);
    let call = Call::Cusum(charted(chart), readings, entry);
    row(call, Outcome::Sums(said, left))
}

/// By the statistic, the lower limit, the upper limit and the side.
fn averages_are(chart: &Value, xs: &Value, shown: &Value) -> Value {
    let readings = floats(xs);
    let said = Said::Answered(vec![readings.len()]);
    let entry = vec![LENT_AVERAGE; readings.len() + 1];
    let shown = list(shown).iter().enumerate();
    let mut left: Vec<EwmaResult> = shown
        .map(|(index, r)| EwmaResult {
            ewma: float(&tuple(r)[0]),
            lcl: float(&tuple(r)[1]),
            ucl: float(&tuple(r)[2]),
            side: side(&tuple(r)[3]),
            index,
        })
        .collect();
    left.push(LENT_AVERAGE);
    let call = Call::Ewma(charted(chart), readings, entry);
    row(call, Outcome::Averages(said, left))
}

/// `signal_points` with exactly the room that it needs.
fn signal(call: fn(Chart, Rc<Vec<f64>>, Vec<usize>) -> Call, v: &[Value]) -> Value {
    let readings = floats(&v[1]);
    let room = vec![7; readings.len()];
    let said = Said::Answered(vec![size(&v[2])]);
    let call = call(charted(&v[0]), readings, room);
    row(call, Outcome::Points(said, sizes(&v[3])))
}

fn hear(v: &[Value], said: Said) -> Value {
    let call = Call::RunLength(charted(&v[0]), float(&v[1]), sum(&v[2]));
    row(call, Outcome::Said(said))
}

// ---- balls

/// A ball about a whole number and ten more, with this square of its radius.
fn ball(centre: usize, r2: f64) -> Ball {
    Ball {
        centre: [centre as f64, (10 + centre) as f64],
        r2,
    }
}

/// `count` balls, about `centre` and the numbers after it, each as wide as its number.
fn balls_from(centre: usize, count: usize) -> Value {
    let one = |c: usize| Value::Ball(ball(c, c as f64));
    Value::List((centre..centre + count).map(one).collect())
}
