//! The four tables of a sheet that is one rooted tree, each cell as its definition says.

use super::sheet::carriers;

/// What a cell holds that stands for nothing.
pub const NONE: u16 = 65_535;

/// The greatest k with 2^k at most m.
pub fn log(m: usize) -> usize {
    (0..).take_while(|&k| 1 << k <= m).last().unwrap()
}

/// A sheet's own tables.
pub struct Tables {
    pub label: Vec<u16>,
    pub tour: Vec<u16>,
    pub lift: Vec<u16>,
    pub order: Vec<u16>,
}

impl Tables {
    pub fn of(parents: &[u16]) -> Tables {
        let visits = visits(parents);
        let paths = Paths::of(parents);
        Tables {
            label: label(parents, &visits, &paths),
            tour: tour(&visits, &paths.level),
            lift: paths.lift,
            order: order(parents),
        }
    }

    /// The cells of label, tour, lift and order for n parts.
    pub fn lengths(n: usize) -> [usize; 4] {
        let t = log(2 * n - 1);
        [6 * n, (2 * n - 1) * (t + 2) + n, n * (log(n) + 1), n]
    }
}

/// What each part's climb to the root tells.
struct Paths {
    level: Vec<u16>,
    size: Vec<u16>,
    lift: Vec<u16>,
}

impl Paths {
    fn of(parents: &[u16]) -> Paths {
        let n = parents.len();
        let rows = log(n) + 1;
        let mut paths = Paths {
            level: vec![0; n],
            size: vec![0; n],
            lift: vec![0; n * rows],
        };
        for v in 0..n {
            let path = carriers(parents, v as u16);
            paths.level[v] = (path.len() - 1) as u16;
            for &carrier in &path {
                paths.size[carrier as usize] += 1;
            }
            for k in 0..rows {
                let steps = (1 << k).min(path.len() - 1);
                paths.lift[k * n + v] = path[steps];
            }
        }
        paths
    }
}

/// The root, and for each part the parts bolted into it, in rising number.
fn bolted(parents: &[u16]) -> (u16, Vec<Vec<u16>>) {
    let mut below = vec![Vec::new(); parents.len()];
    let mut root = 0;
    for v in 0..parents.len() as u16 {
        if parents[v as usize] == v {
            root = v;
        } else {
            below[parents[v as usize] as usize].push(v);
        }
    }
    (root, below)
}

/// The parts in preorder: each is followed by what is bolted into it, with all that these carry.
fn order(parents: &[u16]) -> Vec<u16> {
    let (root, below) = bolted(parents);
    let mut order = Vec::new();
    let mut waiting = vec![root];
    while let Some(v) = waiting.pop() {
        order.push(v);
        waiting.extend(below[v as usize].iter().rev());
    }
    order
}

/// The tour: down into each part's own parts, in rising number, and back after each.
fn visits(parents: &[u16]) -> Vec<u16> {
    let (root, below) = bolted(parents);
    let mut gone = vec![0; parents.len()];
    let mut here = root;
    let mut visits = vec![root];
    loop {
        let v = here as usize;
        if gone[v] < below[v].len() {
            here = below[v][gone[v]];
            gone[v] += 1;
        } else if here != root {
            here = parents[v];
        } else {
            return visits;
        }
        visits.push(here);
    }
}

fn label(parents: &[u16], visits: &[u16], paths: &Paths) -> Vec<u16> {
    let mut preorder = vec![0; parents.len()];
    let mut order = Vec::new();
    for &v in visits {
        if preorder[v as usize] == 0 {
            order.push(v as usize);
            preorder[v as usize] = order.len() as u16;
        }
    }
    let inlabel: Vec<u16> = (0..parents.len())
        .map(|v| most_zeros(preorder[v], preorder[v] + paths.size[v] - 1))
        .collect();
    let ascendant = ascendant(parents, &order, &inlabel);
    let head = head(&paths.level, &inlabel);
    [
        preorder,
        paths.size.clone(),
        paths.level.clone(),
        inlabel,
        ascendant,
        head,
    ]
    .concat()
}

/// The number from `first` to `last` with most rightmost zero bits.
fn most_zeros(first: u16, last: u16) -> u16 {
    (first..=last).max_by_key(|m| m.trailing_zeros()).unwrap()
}

/// `order` has each part after its entry.
fn ascendant(parents: &[u16], order: &[usize], inlabel: &[u16]) -> Vec<u16> {
    let n = parents.len();
    let mut ascendant = vec![0; n];
    for &v in order {
        let entry = parents[v] as usize;
        ascendant[v] = if entry == v {
            1 << log(n)
        } else if inlabel[v] == inlabel[entry] {
            ascendant[entry]
        } else {
            ascendant[entry] + (1 << inlabel[v].trailing_zeros())
        };
    }
    ascendant
}

/// For each k from 1 to n, the part of least LEVEL whose INLABEL is k.
fn head(level: &[u16], inlabel: &[u16]) -> Vec<u16> {
    let mut head = vec![NONE; level.len()];
    for (v, &k) in inlabel.iter().enumerate() {
        let cell = &mut head[k as usize - 1];
        if *cell == NONE || level[v] < level[*cell as usize] {
            *cell = v as u16;
        }
    }
    head
}

fn tour(visits: &[u16], level: &[u16]) -> Vec<u16> {
    let mut first = vec![NONE; level.len()];
    for (position, &v) in visits.iter().enumerate() {
        if first[v as usize] == NONE {
            first[v as usize] = position as u16;
        }
    }
    let levels: Vec<u16> = visits.iter().map(|&v| level[v as usize]).collect();
    let mut table = [visits, &first].concat();
    for j in 0..=log(levels.len()) {
        for i in 0..levels.len() {
            table.push(match levels.get(i..i + (1 << j)) {
                Some(block) => (i + leftmost_least(block)) as u16,
                None => NONE,
            });
        }
    }
    table
}

fn leftmost_least(block: &[u16]) -> usize {
    let least = block.iter().min();
    block.iter().position(|level| Some(level) == least).unwrap()
}
