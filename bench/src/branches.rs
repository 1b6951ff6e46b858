//! `--branches`: what it takes to find a pair's branches beside its carrier, by one way and another. README.md says by which.

use std::array;
use std::time::Duration;

use crate::buffers::Buffers;
use crate::candidates::RUST;
use crate::climb;
use crate::fast::by_tour;
use crate::machine;
use crate::measure::{in_turns, Budget};
use crate::pool::Pool;
use crate::report::{count, head, row};
use crate::sheets::{Shape, ALL_SHAPES, SIZES};

mod view;

use view::{carriers, each, View};

type Pair = [u16; 2];
/// Carrier, x's branch, y's branch.
type Found = [u16; 3];

/// Answers pairs, whose number is a multiple of ten.
type Answer = fn(&View, &[Pair], &mut [Found]);

struct Way {
    name: &'static str,
    /// Which cells it fills: the carrier's, or all.
    cells: usize,
    answer: Answer,
}

const fn way(cells: usize, name: &'static str, answer: Answer) -> Way {
    Way {
        name,
        cells,
        answer,
    }
}

const WAYS: [Way; 14] = [
    way(1, "labels: carrier alone", |v, pairs, answer| {
        carriers(pairs, answer, |pair| v.labels.carrier(pair))
    }),
    way(3, "labels + lift rows", |v, pairs, answer| {
        each(pairs, answer, |pair| {
            v.by_lifts(v.labels.carrier(pair), pair)
        })
    }),
    way(3, "labels + tour comes back", |v, pairs, answer| {
        each(pairs, answer, |pair| {
            v.by_return(v.labels.carrier(pair), pair)
        })
    }),
    way(
        3,
        "labels + HEAD, or tour comes back",
        |v, pairs, answer| each(pairs, answer, |pair| v.by_head(pair)),
    ),
    way(
        3,
        "labels, in stages (the Rust version)",
        |v, pairs, answer| v.labels.answer(&v.tour, pairs, answer),
    ),
    way(1, "tour: carrier alone", |v, pairs, answer| {
        carriers(pairs, answer, |pair| v.between(pair).carrier)
    }),
    way(3, "tour + lift rows", |v, pairs, answer| {
        each(pairs, answer, |pair| {
            v.by_lifts(v.between(pair).carrier, pair)
        })
    }),
    way(3, "tour + tour comes back", |v, pairs, answer| {
        each(pairs, answer, |pair| {
            v.by_return(v.between(pair).carrier, pair)
        })
    }),
    way(
        3,
        "tour + own position, then tour comes back",
        |v, pairs, answer| each(pairs, answer, |pair| v.by_position(pair)),
    ),
    way(
        3,
        "tour, in stages (the Rust version)",
        |v, pairs, answer| by_tour::answer(&v.tour, pairs, answer),
    ),
    way(1, "lifts: carrier alone", |v, pairs, answer| {
        v.at_once(pairs, answer, |cells, _, found| cells[0] = found[0])
    }),
    way(3, "lifts + lift rows", |v, pairs, answer| {
        v.at_once(pairs, answer, |cells, pair, found| {
            *cells = v.by_lifts(found[0], pair)
        })
    }),
    way(3, "lifts + tour comes back", |v, pairs, answer| {
        v.at_once(pairs, answer, |cells, pair, found| {
            *cells = v.by_return(found[0], pair)
        })
    }),
    way(
        3,
        "lifts + own sides (the Rust version)",
        |v, pairs, answer| v.at_once(pairs, answer, |cells, _, found| *cells = found),
    ),
];

/// Pairs that are asked for in a run.
const PAIRS: usize = 10_000;
/// Pairs that are held to the climber.
const HELD: usize = 200;

struct State {
    own: Buffers,
    pool: Pool,
    answer: Vec<Found>,
}

/// Every way gives what the climber does.
fn hold(state: &mut State, what: &str) -> Result<(), String> {
    let question = state.pool.next(0, 2 * HELD);
    let climbed = climb::pairs(&state.own.parents, question);
    let view = View::new(&state.own);
    for way in &WAYS {
        let answer = &mut state.answer[..HELD];
        (way.answer)(&view, question.as_chunks().0, answer);
        for (cells, wanted) in answer.iter().zip(climbed.chunks_exact(3)) {
            if cells[..way.cells] != wanted[..way.cells] {
                let name = way.name;
                return Err(format!("{what}, {name}: {cells:?} and not {wanted:?}"));
            }
        }
    }
    Ok(())
}

/// Nanoseconds a pair by each way.
fn measure(budget: Budget, n: usize, shape: Shape) -> Result<[f64; WAYS.len()], String> {
    let mut own = Buffers::new(shape.sheet(n));
    let (label, tour, lift) = (&mut own.label, &mut own.tour, &mut own.lift);
    let built = (RUST.build)(
        &own.parents,
        label,
        tour,
        lift,
        &mut own.order,
        &mut own.work,
    );
    built.map_err(|refusal| format!("{refusal:?}"))?;
    let state = &mut State {
        own,
        pool: Pool::new(n, WAYS.len()),
        answer: vec![[0; 3]; PAIRS],
    };
    hold(state, &format!("{} of {n}", shape.name()))?;
    let calls: [_; WAYS.len()] = array::from_fn(|i| {
        move |s: &mut State| {
            let pairs = s.pool.next(i, 2 * PAIRS).as_chunks().0;
            (WAYS[i].answer)(&View::new(&s.own), pairs, &mut s.answer);
        }
    });
    let rounds = in_turns(budget, state, calls.each_ref().map(|call| call as _));
    Ok(array::from_fn(|i| rounds.median(|t| t[i] / PAIRS as f64)))
}

/// Prints a row for each size and way, with a column for each shape.
pub fn run(quick: bool) -> Result<(), String> {
    let each = Duration::from_millis(if quick { 10 } else { 150 });
    let most_rounds = 2_001;
    let mut out = String::new();
    let names = ["n", "nanoseconds a pair"].into_iter();
    let names = names.chain(ALL_SHAPES.map(Shape::name)).map(str::to_owned);
    head(&mut out, &names.collect::<Vec<_>>(), 2);
    for n in SIZES {
        let mut columns = Vec::new();
        for shape in ALL_SHAPES {
            columns.push(measure(Budget { each, most_rounds }, n, shape)?);
        }
        for (i, way) in WAYS.iter().enumerate() {
            let mut cells = vec![count(n), way.name.to_owned()];
            cells.extend(columns.iter().map(|times| format!("{:.1}", times[i])));
            row(&mut out, &cells);
        }
    }
    print!("{}\n\n{out}", machine::line());
    Ok(())
}
