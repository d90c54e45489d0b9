//! Accepting and settling, best grade first.

use std::cmp::Reverse;
use std::collections::{BinaryHeap, HashMap};

use crate::kind::Kind;
use crate::rules::Search;
use crate::settled::Settled;
use crate::statement::{Sizes, Statement};

/// No row is free.
pub struct NoRow;

pub enum Stand {
    Ended,
    Full,
}

struct Row<G> {
    grade: G,
    settled: bool,
}

/// The known statements. The queue may hold stale entries, of a row that got a better grade.
struct Known<G> {
    most: usize,
    rows: HashMap<Statement, Row<G>>,
    queue: BinaryHeap<Reverse<(G, Statement)>>,
}

impl<G: Copy + Ord> Known<G> {
    fn offer(&mut self, statement: Statement, grade: G) -> Result<(), NoRow> {
        if let Some(row) = self.rows.get_mut(&statement) {
            if row.settled || row.grade <= grade {
                return Ok(());
            }
            row.grade = grade;
        } else if self.rows.len() == self.most {
            return Err(NoRow);
        } else {
            self.rows.insert(
                statement,
                Row {
                    grade,
                    settled: false,
                },
            );
        }
        self.queue.push(Reverse((grade, statement)));
        Ok(())
    }

    fn settle_best(&mut self) -> Option<(Statement, G)> {
        while let Some(Reverse((grade, statement))) = self.queue.pop() {
            let row = self
                .rows
                .get_mut(&statement)
                .expect("queued statements have rows");
            if !row.settled {
                row.settled = true;
                return Some((statement, grade));
            }
        }
        None
    }
}

pub struct Reasoner<K: Kind> {
    sizes: Sizes,
    known: Known<K::Grade>,
    settled: Settled<K::Grade>,
}

impl<K: Kind> Reasoner<K> {
    pub fn begin(sizes: Sizes, most: usize) -> Result<Self, NoRow> {
        let known = Known {
            most,
            rows: HashMap::new(),
            queue: BinaryHeap::new(),
        };
        let mut reasoner = Reasoner {
            sizes,
            known,
            settled: Settled::new(),
        };
        for tautology in sizes.tautologies() {
            reasoner.accept(tautology, K::START)?;
        }
        Ok(reasoner)
    }

    pub fn accept(&mut self, statement: Statement, grade: K::Grade) -> Result<(), NoRow> {
        self.known.offer(statement, grade)
    }

    pub fn settle(&mut self) -> Stand {
        while let Some((statement, grade)) = self.known.settle_best() {
            self.settled.push(statement, grade);
            let known = &mut self.known;
            let mut search = Search::<K, _> {
                settled: &self.settled,
                sizes: self.sizes,
                offer: |x, g| known.offer(x, g),
            };
            if search.follow(statement, grade).is_err() {
                return Stand::Full;
            }
        }
        Stand::Ended
    }

    pub fn settled(&self) -> &[(Statement, K::Grade)] {
        &self.settled.all
    }
}
