//! The questions: pairs by each route, a list, a trail, a subtree, totals.

use super::{zeros, Tree};
use crate::{calls, cells, Answer, Refusal, Route, Trail};

impl Tree {
    /// The carrier of each pair and its branches towards x and y, by the route named (tests 9 to 11).
    ///
    /// The tables are compared once for all pairs; [`Route`] says what a further pair costs. The place of a refusal counts the listed
    /// numbers, two to a pair.
    ///
    /// ```
    /// use lca::{Answer, Refusal, Route, Tree};
    ///
    /// # fn main() -> Result<(), Refusal> {
    /// let tree = Tree::new(&[0, 0, 0, 1, 1, 2, 5])?;
    /// for route in [Route::Labels, Route::Tour, Route::Lifts] {
    ///     let answers = tree.pairs(route, &[(3, 4), (6, 6), (0, 6)])?;
    ///     assert_eq!(answers[0], Answer { carrier: 1, x_branch: 3, y_branch: 4 });
    ///     assert_eq!(answers[1], Answer { carrier: 6, x_branch: 6, y_branch: 6 });
    ///     assert_eq!(answers[2], Answer { carrier: 0, x_branch: 0, y_branch: 2 });
    /// }
    /// let refusal = tree.pairs(Route::Tour, &[(3, 4), (0, 7)]).unwrap_err();
    /// assert_eq!(refusal, Refusal { number: Refusal::NO_SUCH_PART, place: 3 });
    /// # Ok(())
    /// # }
    /// ```
    pub fn pairs(&self, route: Route, pairs: &[(u16, u16)]) -> Result<Vec<Answer>, Refusal> {
        let call = match route {
            Route::Labels => calls::pairs_by_labels,
            Route::Tour => calls::pairs_by_tour,
            Route::Lifts => calls::pairs_by_lifts,
        };
        let question: Vec<u16> = pairs.iter().flat_map(|&(x, y)| [x, y]).collect();
        let mut answer = vec![0; cells::ANSWER * pairs.len()];
        call(
            &self.parents,
            &self.label,
            &self.tour,
            &self.lift,
            &self.order,
            &mut self.work(),
            &question,
            &mut answer,
        )?;
        Ok(Answer::all(&answer))
    }

    /// The carrier of each pair and its branches, by labels: after the comparison, constant time a pair.
    pub fn pairs_by_labels(&self, pairs: &[(u16, u16)]) -> Result<Vec<Answer>, Refusal> {
        self.pairs(Route::Labels, pairs)
    }

    /// The carrier of each pair and its branches, by the tour: after the comparison, constant time a pair.
    pub fn pairs_by_tour(&self, pairs: &[(u16, u16)]) -> Result<Vec<Answer>, Refusal> {
        self.pairs(Route::Tour, pairs)
    }

    /// The carrier of each pair and its branches, by lifts: after the comparison, up to about 2 log n + 2 steps a pair, and constant time for
    /// the branches.
    pub fn pairs_by_lifts(&self, pairs: &[(u16, u16)]) -> Result<Vec<Answer>, Refusal> {
        self.pairs(Route::Lifts, pairs)
    }

    /// The carrier of one pair and its branches towards x and y, by labels.
    ///
    /// This is a call with one pair, and nearly all its time is the comparison of the tables: 2 µs at 64 parts and 350 µs at 16,384, where a
    /// further pair of the same call costs 29 ns. So for more pairs there is [`pairs`](Tree::pairs).
    ///
    /// ```
    /// # fn main() -> Result<(), lca::Refusal> {
    /// let tree = lca::Tree::new(&[0, 0, 0, 1, 1, 2, 5])?;
    /// let answer = tree.pair(6, 2)?;
    /// assert_eq!((answer.carrier, answer.x_branch, answer.y_branch), (2, 5, 2));
    /// # Ok(())
    /// # }
    /// ```
    pub fn pair(&self, x: u16, y: u16) -> Result<Answer, Refusal> {
        let answers = self.pairs_by_labels(&[(x, y)])?;
        Ok(answers[0])
    }

    /// The carrier of one pair alone, by labels. It takes as long as [`pair`](Tree::pair), which gives the branches too.
    pub fn carrier(&self, x: u16, y: u16) -> Result<u16, Refusal> {
        self.pair(x, y).map(|answer| answer.carrier)
    }

    /// The carrier of all the parts listed (tests 9 to 11).
    ///
    /// ```
    /// use lca::{Refusal, Tree};
    ///
    /// # fn main() -> Result<(), Refusal> {
    /// let tree = Tree::new(&[0, 0, 0, 1, 1, 2, 5])?;
    /// assert_eq!(tree.list(&[6, 5, 2])?, 2);
    /// assert_eq!(tree.list(&[4])?, 4);
    /// assert_eq!(tree.list(&[]).unwrap_err().number, Refusal::NOTHING_LISTED);
    /// # Ok(())
    /// # }
    /// ```
    pub fn list(&self, parts: &[u16]) -> Result<u16, Refusal> {
        let mut answer = [0];
        calls::list(
            &self.parents,
            &self.label,
            &self.tour,
            &self.lift,
            &self.order,
            &mut self.work(),
            parts,
            &mut answer,
        )?;
        Ok(answer[0])
    }

    /// The carrier of one pair, with the trail of the lift route (tests 9 to 11).
    pub fn trail(&self, x: u16, y: u16) -> Result<Trail, Refusal> {
        let mut answer = [0];
        let mut rows = [0; cells::TRAIL];
        let lifts = calls::trail(
            &self.parents,
            &self.label,
            &self.tour,
            &self.lift,
            &self.order,
            &mut self.work(),
            &[x, y],
            &mut answer,
            &mut rows,
        )?;
        let rows = rows.chunks_exact(2).take(lifts as usize);
        Ok(Trail {
            carrier: answer[0],
            rows: rows.map(|row| (row[0], row[1])).collect(),
        })
    }

    /// The subtree of a part (test 10, at 0): the parts that it carries, in preorder and itself first.
    ///
    /// It is a stretch of the tree's own [`order`](Tree::order), and nothing is copied. Nearly all its time is the comparison of the tables,
    /// as with [`pair`](Tree::pair).
    ///
    /// ```
    /// use lca::{Refusal, Tree};
    ///
    /// # fn main() -> Result<(), Refusal> {
    /// let tree = Tree::new(&[0, 0, 0, 1, 1, 2, 5])?;
    /// assert_eq!(tree.order(), [0, 1, 3, 4, 2, 5, 6]);
    /// assert_eq!(tree.subtree(1)?, [1, 3, 4]);
    /// assert!(std::ptr::eq(tree.subtree(1)?, &tree.order()[1..4]));
    ///
    /// let refusal = tree.subtree(7).unwrap_err();
    /// assert_eq!(refusal, Refusal { number: Refusal::NO_SUCH_PART, place: 0 });
    /// # Ok(())
    /// # }
    /// ```
    pub fn subtree(&self, part: u16) -> Result<&[u16], Refusal> {
        calls::subtree(
            &self.parents,
            &self.label,
            &self.tour,
            &self.lift,
            &self.order,
            &mut self.work(),
            part.into(),
        )
    }

    /// Wear by assembly: each part's total, the sum of the counts of all parts that it carries. There is a count for each part, or the
    /// refusal is a misfit of buffer 9.
    ///
    /// The root's total is the sum of all counts, and no total wraps. The sheet is tested once more (tests 1 to 7), and no table is read:
    /// [`calls::totals`] does the same from a sheet alone.
    ///
    /// ```
    /// use lca::{Refusal, Tree};
    ///
    /// # fn main() -> Result<(), Refusal> {
    /// let tree = Tree::new(&[0, 0, 0, 1, 1, 2, 5])?;
    /// let totals = tree.totals(&[1, 2, 4, 8, 16, 32, 64])?;
    /// // Part 1 carries 1, 3 and 4: 2 + 8 + 16. Part 2 carries 2, 5 and 6: 4 + 32 + 64.
    /// assert_eq!(totals, [127, 26, 100, 8, 16, 96, 64]);
    ///
    /// let refusal = tree.totals(&[1, 2, 4]).unwrap_err();
    /// assert_eq!(refusal, Refusal { number: Refusal::MISFIT, place: 9 });
    /// # Ok(())
    /// # }
    /// ```
    pub fn totals(&self, counts: &[u32]) -> Result<Vec<u64>, Refusal> {
        let mut totals = vec![0; cells::totals(self.len())];
        calls::totals(&self.parents, &mut self.work(), counts, &mut totals)?;
        Ok(totals)
    }

    fn work(&self) -> Box<[u16]> {
        zeros(cells::work(self.len()))
    }
}
