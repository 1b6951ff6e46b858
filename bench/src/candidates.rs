//! The two implementations behind one set of function pointers, so that both are called in the same way.

use crate::fast;

/// What a call gives: a trail's lifts (0 for any other call), or number and place of a refusal.
pub type Outcome = Result<u64, (u32, u64)>;
/// What a subtree call gives: a stretch of the order table.
pub type Stretch<'a> = Result<&'a [u16], (u32, u64)>;

/// Cells that are read, and cells that are written.
type In<'a> = &'a [u16];
type Out<'a> = &'a mut [u16];

/// parents, work
pub type Check = fn(In, Out) -> Outcome;
/// parents, label, tour, lift, order, work
pub type Build = fn(In, Out, Out, Out, Out, Out) -> Outcome;
/// parents, label, tour, lift, order, work
pub type Compare = fn(In, In, In, In, In, Out) -> Outcome;
/// parents, label, tour, lift, order, work, question, answer
pub type Ask = fn(In, In, In, In, In, Out, In, Out) -> Outcome;
/// parents, label, tour, lift, order, work, question, answer, trail
pub type Trail = fn(In, In, In, In, In, Out, In, Out, Out) -> Outcome;
/// parents, label, tour, lift, order, work, part
pub type Subtree = for<'a> fn(In, In, In, In, In<'a>, Out, usize) -> Stretch<'a>;
/// parents, work, counts, totals
pub type Totals = fn(In, Out, &[u32], &mut [u64]) -> Outcome;

/// Who is asked.
#[derive(Clone, Copy)]
pub enum Who {
    Proved,
    Rust,
    Climber,
}
/// How many they are.
pub const ASKED: usize = 3;

pub struct Calls {
    pub who: Who,
    pub check: Check,
    pub build: Build,
    pub compare: Compare,
    /// By labels, by tour, by lifts.
    pub pairs: [Ask; 3],
    pub list: Ask,
    pub trail: Trail,
    pub subtree: Subtree,
    pub totals: Totals,
}

pub const ROUTES: [&str; 3] = ["labels", "tour", "lifts"];

macro_rules! calls {
    ($who:expr, $from:path) => {{
        use $from as from;
        macro_rules! ask {
            ($call:path) => {
                |p, a, b, c, o, w, q, z| {
                    $call(p, a, b, c, o, w, q, z)
                        .map(|()| 0)
                        .map_err(|r| (r.number, r.place))
                }
            };
        }
        Calls {
            who: $who,
            check: |p, w| {
                from::check(p, w)
                    .map(|()| 0)
                    .map_err(|r| (r.number, r.place))
            },
            build: |p, a, b, c, o, w| {
                from::build(p, a, b, c, o, w)
                    .map(|()| 0)
                    .map_err(|r| (r.number, r.place))
            },
            compare: |p, a, b, c, o, w| {
                from::compare(p, a, b, c, o, w)
                    .map(|()| 0)
                    .map_err(|r| (r.number, r.place))
            },
            pairs: [
                ask!(from::pairs_by_labels),
                ask!(from::pairs_by_tour),
                ask!(from::pairs_by_lifts),
            ],
            list: ask!(from::list),
            trail: |p, a, b, c, o, w, q, z, t| {
                from::trail(p, a, b, c, o, w, q, z, t).map_err(|r| (r.number, r.place))
            },
            subtree: |p, a, b, c, o, w, part| {
                from::subtree(p, a, b, c, o, w, part).map_err(|r| (r.number, r.place))
            },
            totals: |p, w, c, t| {
                from::totals(p, w, c, t)
                    .map(|()| 0)
                    .map_err(|r| (r.number, r.place))
            },
        }
    }};
}

/// The proved library, through its C interface.
pub static PROVED: Calls = calls!(Who::Proved, lca::calls);
/// The independent version in safe Rust.
pub static RUST: Calls = calls!(Who::Rust, fast);
