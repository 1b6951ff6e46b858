//! One sheet, on which the library is compared with the plain model.

use std::fmt::Display;

use super::fenced::run;
use super::{damaged, sheet, Damage, Rng, Shape};
use crate::model::{Call, Lent, Plain, Refused, Tables, BUFFERS};

pub struct Case {
    pub parents: Vec<u16>,
    pub plain: Plain,
    /// How to make the case again.
    pub note: String,
    pub rng: Rng,
}

impl Case {
    pub fn new(parents: Vec<u16>, note: String, rng: Rng) -> Case {
        Case {
            plain: Plain::new(&parents),
            parents,
            note,
            rng,
        }
    }

    /// A sheet that is one rooted tree.
    pub fn sound(seed: u64, shape: Shape, n: usize) -> Case {
        let mut rng = Rng::new(seed);
        let shuffled = rng.once_in(2);
        let parents = sheet(shape, n, shuffled, &mut rng);
        Case::new(parents, format!("seed {seed}, {shape:?}, n {n}"), rng)
    }

    /// Such a sheet, damaged. It has two parts or more.
    pub fn damaged(seed: u64, shape: Shape, n: usize, damage: Damage) -> Case {
        let sound = Case::sound(seed, shape, n);
        let mut rng = sound.rng;
        let parents = damaged(damage, &sound.parents, &mut rng);
        Case::new(parents, format!("{}, {damage:?}", sound.note), rng)
    }

    pub fn n(&self) -> usize {
        self.parents.len()
    }

    /// Buffers of exact lengths for the call, with the sheet's own tables and a question that can be answered. All else holds random
    /// cells: what the call is to fill, and the tables of a sheet that has none.
    pub fn lent(&mut self, call: Call) -> Lent {
        let n = self.n();
        let rng = &mut self.rng;
        let asked = match call {
            Call::Trail => 2,
            Call::List => 1 + rng.below(9),
            _ => 2 * (1 + rng.below(9)),
        };
        let [label, tour, lift, order] = Tables::lengths(n.max(1));
        let mut lent = Lent {
            parents: self.parents.clone(),
            label: rng.cells(label),
            tour: rng.cells(tour),
            lift: rng.cells(lift),
            work: rng.cells(4 * n),
            question: (0..asked).map(|_| rng.below(n.max(1)) as u16).collect(),
            answer: rng.cells(call.answer_cells(asked)),
            trail: rng.cells(64),
            order: rng.cells(order),
            counts: rng.counts(n),
            totals: (0..n).map(|_| rng.next()).collect(),
            part: rng.below(n.max(1)),
            found: None,
        };
        if let (true, Ok(own)) = (call.reads_tables(), &self.plain.tree) {
            lent.label.clone_from(&own.label);
            lent.tour.clone_from(&own.tour);
            lent.lift.clone_from(&own.lift);
            lent.order.clone_from(&own.order);
        }
        lent
    }

    /// The library's call gives what the plain model gives, hands back the same stretch of the order table if any, and leaves every buffer as
    /// the model does. Gives the result.
    pub fn agree(&self, call: Call, lent: &Lent) -> Result<u64, Refused> {
        let mut want = lent.clone();
        let mut got = lent.clone();
        let result = self.plain.call(call, &mut want);
        let note = format!("{call:?}, {}", self.note);
        assert_eq!(run(call, &mut got), result, "{note}");
        assert_eq!(got.found, want.found, "{note}");
        assert_same("the sheet", &got.parents, &want.parents, &note);
        for buffer in BUFFERS {
            let name = format!("buffer {buffer}");
            let (got, want) = (got.buffer(buffer).wide(), want.buffer(buffer).wide());
            assert_same(&name, &got, &want, &note);
        }
        result
    }
}

/// So many sheets of all shapes in turn, each a tree of `least` to `most` parts.
pub fn sound_cases(count: u64, least: usize, most: usize) -> impl Iterator<Item = Case> {
    (0..count).map(move |seed| {
        let n = least + Rng::new(!seed).below(most - least + 1);
        Case::sound(seed, Shape::ALL[seed as usize % Shape::ALL.len()], n)
    })
}

fn assert_same<T: PartialEq + Display>(name: &str, got: &[T], want: &[T], note: &str) {
    assert_eq!(got.len(), want.len(), "length of {name}: {note}");
    if let Some(i) = (0..got.len()).find(|&i| got[i] != want[i]) {
        panic!("cell {i} of {name} is {}, not {}: {note}", got[i], want[i]);
    }
}
