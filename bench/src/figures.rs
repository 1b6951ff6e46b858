//! What is measured on one sheet.

use crate::candidates::{Calls, PROVED, ROUTES, RUST};
use crate::measure::{in_turns, Budget};
use crate::sheets::Shape;

mod calls;

use calls::State;

/// Pairs in a call.
pub const PAIRS: [usize; 3] = [1, 100, 10_000];
/// Parts in a list.
pub const LISTED: usize = 100;

/// Both implementations at one call, in nanoseconds; `beside` is the climber or the floor.
pub struct Figure {
    pub call: String,
    pub proved: f64,
    pub rust: f64,
    pub ratio: f64,
    pub beside: Option<f64>,
}

/// All figures of one sheet, or those of the calls for pairs.
pub struct Sheet {
    pub n: usize,
    pub shape: Shape,
    pub cells: usize,
    pub figures: Vec<Figure>,
}

/// A call of each implementation, and what is measured beside it.
fn both(
    budget: Budget,
    state: &mut State,
    name: &str,
    call: fn(&Calls, &mut State),
    beside: Option<fn(&mut State)>,
) -> Figure {
    let (proved, rust) = (
        |s: &mut State| call(&PROVED, s),
        |s: &mut State| call(&RUST, s),
    );
    let rounds = in_turns(budget, state, [&proved, &rust]);
    let beside = beside.map(|call| in_turns(budget, state, [&call]).median(|[t]| *t));
    Figure {
        call: name.into(),
        proved: rounds.median(|[proved, _]| *proved),
        rust: rounds.median(|[_, rust]| *rust),
        ratio: rounds.median(|[proved, rust]| proved / rust),
        beside,
    }
}

/// Pairs by one route: per pair at each count, and what a further pair costs.
fn by_route(budget: Budget, state: &mut State, route: usize, climbed: f64) -> Vec<Figure> {
    let call = |of: &'static Calls, count| move |s: &mut State| calls::pairs(of, route, count, s);
    let [one, some, many] = PAIRS.map(|count| (call(&PROVED, count), call(&RUST, count)));
    let rounds = in_turns(
        budget,
        state,
        [&one.0, &one.1, &some.0, &some.1, &many.0, &many.1],
    );
    let figure = |what: String, per: &dyn Fn(&[f64; 6]) -> [f64; 2]| Figure {
        call: format!("pairs by {}, {what}", ROUTES[route]),
        proved: rounds.median(|times| per(times)[0]),
        rust: rounds.median(|times| per(times)[1]),
        ratio: rounds.median(|times| per(times)[0] / per(times)[1]),
        beside: Some(climbed),
    };
    let counts = PAIRS.iter().enumerate().map(|(i, &count)| {
        let what = if count == 10_000 {
            "10,000 a call".into()
        } else {
            format!("{count} a call")
        };
        figure(what, &|t| {
            [t[2 * i] / count as f64, t[2 * i + 1] / count as f64]
        })
    });
    let between = (PAIRS[2] - PAIRS[1]) as f64;
    let further = |t: &[f64; 6]| [(t[4] - t[2]) / between, (t[5] - t[3]) / between];
    let mut figures: Vec<Figure> = counts.collect();
    let mut each = figure("each further one".into(), &further);
    each.ratio = each.proved / each.rust;
    figures.push(each);
    figures
}

/// Pairs by every route, with the climber beside them.
fn by_routes(budget: Budget, state: &mut State) -> Vec<Figure> {
    let climb = |s: &mut State| calls::climb_pairs(PAIRS[1], s);
    let climbed = in_turns(budget, state, [&climb]).median(|[t]| t / PAIRS[1] as f64);
    let routes = 0..ROUTES.len();
    routes
        .flat_map(|route| by_route(budget, state, route, climbed))
        .collect()
}

/// Everything on one sheet.
pub fn sheet(budget: Budget, n: usize, shape: Shape) -> Sheet {
    let state = &mut State::new(shape.sheet(n), PAIRS[2]);
    let (copy, equal) = (calls::memory_copy, calls::byte_compare);
    let mut figures = vec![
        both(budget, state, "check", calls::check, None),
        both(budget, state, "build", calls::build, Some(copy)),
        both(budget, state, "compare", calls::compare, Some(equal)),
    ];
    figures.extend(by_routes(budget, state));
    let (pair, list) = (calls::climb_pair, calls::climb_list);
    figures.extend([
        both(budget, state, "trail", calls::trail, Some(pair)),
        both(budget, state, "list of 100", calls::list, Some(list)),
        both(budget, state, "subtree", calls::subtree, None),
        both(budget, state, "totals", calls::totals, None),
    ]);
    Sheet {
        n,
        shape,
        cells: state.own.table_cells(),
        figures,
    }
}

/// The calls for pairs on one sheet.
pub fn pairs(budget: Budget, n: usize, shape: Shape) -> Sheet {
    let state = &mut State::new(shape.sheet(n), PAIRS[2]);
    Sheet {
        n,
        shape,
        figures: by_routes(budget, state),
        cells: state.own.table_cells(),
    }
}
