//! Settled statements, in order, and by shape with one name at its position.

use crate::statement::Statement;

const SHAPES: usize = 10;
const NAMES: usize = 64;

pub struct Settled<G> {
    pub all: Vec<(Statement, G)>,
    /// For each shape, position and name the places in `all`.
    by_name: Vec<[Vec<u32>; 5 * NAMES]>,
}

impl<G: Copy> Settled<G> {
    pub fn new() -> Self {
        Settled {
            all: Vec::new(),
            by_name: (0..SHAPES)
                .map(|_| [const { Vec::new() }; 5 * NAMES])
                .collect(),
        }
    }

    pub fn push(&mut self, statement: Statement, grade: G) {
        let place = self.all.len() as u32;
        let lists = &mut self.by_name[usize::from(statement.shape)];
        for (position, name) in statement.names.into_iter().enumerate() {
            lists[position * NAMES + usize::from(name)].push(place);
        }
        self.all.push((statement, grade));
    }

    /// The settled statements of this shape that have this name at this position.
    pub fn with(&self, shape: u8, position: usize, name: u8) -> impl Iterator<Item = ([u8; 5], G)> {
        self.by_name[usize::from(shape)][position * NAMES + usize::from(name)]
            .iter()
            .map(|&place| {
                let (statement, grade) = self.all[place as usize];
                (statement.names, grade)
            })
    }
}
