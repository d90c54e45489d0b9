//! Statements, sizes and what fits them.

pub const SHARPER: u8 = 1;
pub const INTERSECTION: u8 = 2;
pub const NESTED: u8 = 3;
pub const POSSIBLE: u8 = 4;
pub const SOME_RIGHT: u8 = 5;
pub const SOME_LEFT: u8 = 6;
pub const CONJUNCTION: u8 = 7;
pub const ROLES: u8 = 8;
pub const CHAIN: u8 = 9;

pub const TOP: u8 = 0;
pub const BOTTOM: u8 = 1;

#[derive(Clone, Copy, Debug, PartialEq, Eq, PartialOrd, Ord, Hash)]
pub struct Statement {
    pub shape: u8,
    pub names: [u8; 5],
}

pub const CONTRADICTION: Statement = Statement {
    shape: NESTED,
    names: [0, 0, 0, TOP, BOTTOM],
};

#[derive(Clone, Copy)]
pub struct Sizes {
    pub standpoints: u8,
    pub concepts: u8,
    pub roles: u8,
    pub individuals: u8,
}

#[derive(Clone, Copy, PartialEq)]
enum Sort {
    Standpoint,
    Concept,
    Role,
}

fn sorts(shape: u8) -> Option<&'static [Sort]> {
    use Sort::{Concept as C, Role as R, Standpoint as S};
    Some(match shape {
        SHARPER => &[S, S],
        INTERSECTION => &[S, S, S],
        NESTED => &[S, C, S, C, C],
        POSSIBLE => &[S, C, S, C],
        SOME_RIGHT => &[S, C, R, C],
        SOME_LEFT => &[S, R, C, C],
        CONJUNCTION => &[S, C, C, C],
        ROLES => &[S, R, R],
        CHAIN => &[S, R, R, R],
        _ => return None,
    })
}

impl Sizes {
    pub fn in_range(&self) -> bool {
        (1..=16).contains(&self.standpoints)
            && (2..=64).contains(&self.concepts)
            && self.roles <= 16
            && self.individuals <= 16
            && self.individuals + 2 <= self.concepts
    }

    pub fn is_individual(&self, concept: u8) -> bool {
        (2..2 + self.individuals).contains(&concept)
    }

    pub fn tautologies(&self) -> Vec<Statement> {
        let mut all = Vec::new();
        for s in 0..self.standpoints {
            all.push(Statement {
                shape: SHARPER,
                names: [s, 0, 0, 0, 0],
            });
            if s != 0 {
                all.push(Statement {
                    shape: SHARPER,
                    names: [s, s, 0, 0, 0],
                });
            }
        }
        for c in 0..self.concepts {
            all.push(Statement {
                shape: NESTED,
                names: [0, 0, 0, c, TOP],
            });
            if c != TOP {
                all.push(Statement {
                    shape: NESTED,
                    names: [0, 0, 0, c, c],
                });
            }
        }
        for r in 0..self.roles {
            all.push(Statement {
                shape: ROLES,
                names: [0, r, r, 0, 0],
            });
        }
        all
    }

    fn size(&self, sort: Sort) -> u8 {
        match sort {
            Sort::Standpoint => self.standpoints,
            Sort::Concept => self.concepts,
            Sort::Role => self.roles,
        }
    }
}

impl Statement {
    pub fn fits(&self, sizes: &Sizes) -> bool {
        sorts(self.shape).is_some_and(|sorts| {
            let (used, unused) = self.names.split_at(sorts.len());
            used.iter()
                .zip(sorts)
                .all(|(&name, &sort)| name < sizes.size(sort))
                && unused.iter().all(|&name| name == 0)
        })
    }

    /// Whether an individual stands where only other concepts may.
    pub fn is_misplaced(&self, sizes: &Sizes) -> bool {
        sorts(self.shape).is_some_and(|sorts| {
            sorts.iter().enumerate().any(|(i, &sort)| {
                sort == Sort::Concept
                    && !(self.shape == NESTED && i == 1)
                    && sizes.is_individual(self.names[i])
            })
        })
    }
}
