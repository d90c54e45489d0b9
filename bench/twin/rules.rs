//! What follows from a newly settled statement and those settled before.

use crate::kind::Kind;
use crate::settled::Settled;
use crate::statement::*;

/// The search for what follows: `offer` takes each consequence, and may end the search.
pub struct Search<'a, K: Kind, F> {
    pub settled: &'a Settled<K::Grade>,
    pub sizes: Sizes,
    pub offer: F,
}

impl<K: Kind, E, F: FnMut(Statement, K::Grade) -> Result<(), E>> Search<'_, K, F> {
    /// Offers all that one rule gives from x, which is settled at g, and settled statements.
    pub fn follow(&mut self, x: Statement, g: K::Grade) -> Result<(), E> {
        if x.shape >= NESTED {
            self.lower(x, g)?;
        }
        match x.shape {
            SHARPER => self.sharper(x.names, g),
            INTERSECTION => self.intersection(x.names, g),
            NESTED => self.nested(x.names, g),
            POSSIBLE => self.possible(x.names, g),
            SOME_RIGHT => self.some_right(x.names, g),
            SOME_LEFT => self.some_left(x.names, g),
            CONJUNCTION => self.conjunction(x.names, g),
            ROLES => self.roles(x.names, g),
            CHAIN => self.chain(x.names, g),
            _ => Ok(()),
        }
    }

    fn give(&mut self, shape: u8, names: [u8; 5], grade: K::Grade) -> Result<(), E> {
        (self.offer)(Statement { shape, names }, grade)
    }

    fn empty(&mut self, s: u8, c: u8, g: K::Grade) -> Result<(), E> {
        self.give(NESTED, [0, 0, s, c, BOTTOM], g)
    }

    /// Rule 4, with x as first premise.
    fn lower(&mut self, x: Statement, g: K::Grade) -> Result<(), E> {
        for ([s, ..], h) in self.settled.with(SHARPER, 1, x.names[0]) {
            let mut names = x.names;
            names[0] = s;
            self.give(x.shape, names, K::join(g, h))?;
        }
        Ok(())
    }

    fn sharper(&mut self, [s, u, ..]: [u8; 5], g: K::Grade) -> Result<(), E> {
        let settled = self.settled;
        for ([r, ..], h) in settled.with(SHARPER, 1, s) {
            self.give(SHARPER, [r, u, 0, 0, 0], K::join(h, g))?;
        }
        for ([_, v, ..], h) in settled.with(SHARPER, 0, u) {
            self.give(SHARPER, [s, v, 0, 0, 0], K::join(g, h))?;
        }
        for ([_, v, ..], h) in settled.with(SHARPER, 0, s) {
            for ([_, second, w, ..], i) in settled.with(INTERSECTION, 0, u) {
                if second == v {
                    self.give(SHARPER, [s, w, 0, 0, 0], K::join(K::join(g, h), i))?;
                }
            }
            for ([_, second, w, ..], i) in settled.with(INTERSECTION, 0, v) {
                if second == u {
                    self.give(SHARPER, [s, w, 0, 0, 0], K::join(K::join(h, g), i))?;
                }
            }
        }
        for shape in NESTED..=CHAIN {
            for (mut names, h) in settled.with(shape, 0, u) {
                names[0] = s;
                self.give(shape, names, K::join(h, g))?;
            }
        }
        for (mut names, h) in settled.with(NESTED, 2, u) {
            names[2] = s;
            self.give(NESTED, names, K::join(h, g))?;
        }
        Ok(())
    }

    fn intersection(&mut self, [s1, s2, u, ..]: [u8; 5], g: K::Grade) -> Result<(), E> {
        let settled = self.settled;
        for ([s, ..], h) in settled.with(SHARPER, 1, s1) {
            for ([other, ..], i) in settled.with(SHARPER, 1, s2) {
                if other == s {
                    self.give(SHARPER, [s, u, 0, 0, 0], K::join(K::join(h, i), g))?;
                }
            }
        }
        Ok(())
    }

    fn nested(&mut self, x: [u8; 5], g: K::Grade) -> Result<(), E> {
        let [t, b, s, c, d] = x;
        self.nested_alone(x, g)?;
        self.nested_transitive(x, g)?;
        self.nested_conjunction(x, g)?;
        self.nested_before(x, g)?;
        self.nested_after(x, g)?;
        let settled = self.settled;
        for ([u, ..], h) in settled.with(SHARPER, 1, s) {
            self.give(NESTED, [t, b, u, c, d], K::join(g, h))?;
        }
        for ([t2, _, s2, d2, _], h) in settled.with(POSSIBLE, 1, b) {
            if (t2, s2, d2) == (t, s, c) {
                self.give(POSSIBLE, [t, b, s, d, 0], K::join(h, g))?;
            }
        }
        if b == TOP {
            self.widen_role(s, c, d, g)?;
        }
        Ok(())
    }

    /// Rules 18, 19, 21 and 23.
    fn nested_alone(&mut self, [t, b, s, c, d]: [u8; 5], g: K::Grade) -> Result<(), E> {
        if t == s && c == TOP {
            self.give(NESTED, [0, 0, s, b, d], g)?;
        }
        if b == TOP {
            self.give(NESTED, [0, 0, s, c, d], g)?;
        }
        if c == TOP && d == BOTTOM {
            self.empty(t, b, g)?;
            if self.sizes.is_individual(b) {
                (self.offer)(CONTRADICTION, g)?;
            }
        }
        Ok(())
    }

    /// Rule 6, with x on either side.
    fn nested_transitive(&mut self, [t, b, s, c, d]: [u8; 5], g: K::Grade) -> Result<(), E> {
        let settled = self.settled;
        for ([t2, b2, s2, _, e], h) in settled.with(NESTED, 3, d) {
            if (t2, b2, s2) == (t, b, s) {
                self.give(NESTED, [t, b, s, c, e], K::join(g, h))?;
            }
        }
        for ([t2, b2, s2, a, _], h) in settled.with(NESTED, 4, c) {
            if (t2, b2, s2) == (t, b, s) {
                self.give(NESTED, [t, b, s, a, d], K::join(h, g))?;
            }
        }
        Ok(())
    }

    /// Rule 17, with x as first or second premise.
    fn nested_conjunction(&mut self, [t, b, s, c, d]: [u8; 5], g: K::Grade) -> Result<(), E> {
        let settled = self.settled;
        for ([s2, _, other, e, _], i) in settled.with(CONJUNCTION, 1, d) {
            if s2 != s {
                continue;
            }
            for ([t3, b3, s3, c3, _], h) in settled.with(NESTED, 4, other) {
                if (t3, b3, s3, c3) == (t, b, s, c) {
                    self.give(NESTED, [t, b, s, c, e], K::join(K::join(g, h), i))?;
                }
            }
        }
        for ([s2, other, _, e, _], i) in settled.with(CONJUNCTION, 2, d) {
            if s2 != s {
                continue;
            }
            for ([t3, b3, s3, c3, _], h) in settled.with(NESTED, 4, other) {
                if (t3, b3, s3, c3) == (t, b, s, c) {
                    self.give(NESTED, [t, b, s, c, e], K::join(K::join(h, g), i))?;
                }
            }
        }
        Ok(())
    }

    /// Rules 7, 8, 10 and 11, with x as first premise.
    fn nested_before(&mut self, [t, b, s, c, d]: [u8; 5], g: K::Grade) -> Result<(), E> {
        let settled = self.settled;
        if b != TOP && c != TOP {
            return Ok(());
        }
        for ([t2, _, s2, d2, e2], h) in settled.with(NESTED, 1, d) {
            if t2 == s && b == TOP {
                self.give(NESTED, [s, c, s2, d2, e2], K::join(g, h))?;
            }
            if t2 == s && c == TOP {
                self.give(NESTED, [t, b, s2, d2, e2], K::join(g, h))?;
            }
        }
        for ([t2, _, s2, e2, _], h) in settled.with(POSSIBLE, 1, d) {
            if t2 == s && b == TOP {
                self.give(POSSIBLE, [s, c, s2, e2, 0], K::join(g, h))?;
            }
            if t2 == s && c == TOP {
                self.give(POSSIBLE, [t, b, s2, e2, 0], K::join(g, h))?;
            }
        }
        Ok(())
    }

    /// Rules 7, 10 and 12, with x as second premise.
    fn nested_after(&mut self, [t, b, s, c, d]: [u8; 5], g: K::Grade) -> Result<(), E> {
        let settled = self.settled;
        for ([t1, b1, s1, c1, _], h) in settled.with(NESTED, 4, b) {
            if s1 == t && b1 == TOP {
                self.give(NESTED, [t, c1, s, c, d], K::join(h, g))?;
            }
            if s1 == t && c1 == TOP {
                self.give(NESTED, [t1, b1, s, c, d], K::join(h, g))?;
            }
        }
        for ([t1, c1, s1, _, _], h) in settled.with(POSSIBLE, 3, b) {
            if s1 == t {
                self.give(NESTED, [t1, c1, s, c, d], K::join(h, g))?;
            }
        }
        Ok(())
    }

    /// Rule 14, with x = 3(v,0,s,d,e) as second premise.
    fn widen_role(&mut self, s: u8, d: u8, e: u8, g: K::Grade) -> Result<(), E> {
        let settled = self.settled;
        for ([s1, c, r1, _, _], h) in settled.with(SOME_RIGHT, 3, d) {
            if s1 != s {
                continue;
            }
            for ([s3, _, r2, ..], i) in settled.with(ROLES, 1, r1) {
                if s3 == s {
                    self.give(SOME_RIGHT, [s, c, r2, e, 0], K::join(K::join(h, g), i))?;
                }
            }
        }
        Ok(())
    }

    fn possible(&mut self, x: [u8; 5], g: K::Grade) -> Result<(), E> {
        let [t, c, s, d, _] = x;
        let settled = self.settled;
        if d == BOTTOM {
            self.empty(t, c, g)?;
        }
        for ([t1, b1, s1, c1, _], h) in settled.with(NESTED, 4, c) {
            if s1 == t && b1 == TOP {
                self.give(POSSIBLE, [t, c1, s, d, 0], K::join(h, g))?;
            }
            if s1 == t && c1 == TOP {
                self.give(POSSIBLE, [t1, b1, s, d, 0], K::join(h, g))?;
            }
        }
        for ([t2, _, s2, d2, e], h) in settled.with(NESTED, 1, c) {
            if (t2, s2, d2) == (t, s, d) {
                self.give(POSSIBLE, [t, c, s, e, 0], K::join(g, h))?;
            }
        }
        for ([t2, _, s2, e, f], h) in settled.with(NESTED, 1, d) {
            if t2 == s {
                self.give(NESTED, [t, c, s2, e, f], K::join(g, h))?;
            }
        }
        self.possible_twice(x, g)
    }

    /// Rule 13, with x on either side.
    fn possible_twice(&mut self, [t, c, s, d, _]: [u8; 5], g: K::Grade) -> Result<(), E> {
        let settled = self.settled;
        for ([t2, _, s2, e, _], h) in settled.with(POSSIBLE, 1, d) {
            if t2 == s {
                self.give(POSSIBLE, [t, c, s2, e, 0], K::join(g, h))?;
            }
        }
        for ([t1, c1, s1, _, _], h) in settled.with(POSSIBLE, 3, c) {
            if s1 == t {
                self.give(POSSIBLE, [t1, c1, s, d, 0], K::join(h, g))?;
            }
        }
        Ok(())
    }

    fn some_right(&mut self, x: [u8; 5], g: K::Grade) -> Result<(), E> {
        let [s, c, r, d, _] = x;
        let settled = self.settled;
        if d == BOTTOM {
            self.empty(s, c, g)?;
        }
        for ([s2, r2, _, f, _], h) in settled.with(SOME_LEFT, 2, d) {
            if (s2, r2) == (s, r) {
                self.give(NESTED, [0, 0, s, c, f], K::join(g, h))?;
            }
        }
        for ([s3, _, r2, ..], i) in settled.with(ROLES, 1, r) {
            if s3 != s {
                continue;
            }
            for ([_, b2, s2, _, e], h) in settled.with(NESTED, 3, d) {
                if (b2, s2) == (TOP, s) {
                    self.give(SOME_RIGHT, [s, c, r2, e, 0], K::join(K::join(g, h), i))?;
                }
            }
        }
        self.some_chained(x, g)
    }

    /// Rule 15, with x as first or second premise.
    fn some_chained(&mut self, [s, c, r, d, _]: [u8; 5], g: K::Grade) -> Result<(), E> {
        let settled = self.settled;
        for ([s2, _, r2, e, _], h) in settled.with(SOME_RIGHT, 1, d) {
            for ([s3, r1, _, r3, _], i) in settled.with(CHAIN, 2, r2) {
                if s2 == s && (s3, r1) == (s, r) {
                    self.give(SOME_RIGHT, [s, c, r3, e, 0], K::join(K::join(g, h), i))?;
                }
            }
        }
        for ([s1, c1, r1, _, _], h) in settled.with(SOME_RIGHT, 3, c) {
            for ([s3, _, second, r3, _], i) in settled.with(CHAIN, 1, r1) {
                if s1 == s && (s3, second) == (s, r) {
                    self.give(SOME_RIGHT, [s, c1, r3, d, 0], K::join(K::join(h, g), i))?;
                }
            }
        }
        Ok(())
    }

    fn some_left(&mut self, [s, r, d, f, _]: [u8; 5], g: K::Grade) -> Result<(), E> {
        let settled = self.settled;
        for ([s1, c, r1, _, _], h) in settled.with(SOME_RIGHT, 3, d) {
            if (s1, r1) == (s, r) {
                self.give(NESTED, [0, 0, s, c, f], K::join(h, g))?;
            }
        }
        Ok(())
    }

    fn conjunction(&mut self, [s, c1, c2, d, _]: [u8; 5], g: K::Grade) -> Result<(), E> {
        let settled = self.settled;
        for ([t, b, s1, c, _], h) in settled.with(NESTED, 4, c1) {
            if s1 != s {
                continue;
            }
            for ([t2, b2, s2, c0, _], i) in settled.with(NESTED, 4, c2) {
                if (t2, b2, s2, c0) == (t, b, s, c) {
                    self.give(NESTED, [t, b, s, c, d], K::join(K::join(h, i), g))?;
                }
            }
        }
        Ok(())
    }

    fn roles(&mut self, [s, r1, r2, ..]: [u8; 5], g: K::Grade) -> Result<(), E> {
        let settled = self.settled;
        for ([s2, _, r3, ..], h) in settled.with(ROLES, 1, r2) {
            if s2 == s {
                self.give(ROLES, [s, r1, r3, 0, 0], K::join(g, h))?;
            }
        }
        for ([s2, r0, ..], h) in settled.with(ROLES, 2, r1) {
            if s2 == s {
                self.give(ROLES, [s, r0, r2, 0, 0], K::join(h, g))?;
            }
        }
        for ([s1, c, _, d, _], h) in settled.with(SOME_RIGHT, 2, r1) {
            if s1 != s {
                continue;
            }
            for ([_, b, s2, _, e], i) in settled.with(NESTED, 3, d) {
                if (b, s2) == (TOP, s) {
                    self.give(SOME_RIGHT, [s, c, r2, e, 0], K::join(K::join(h, i), g))?;
                }
            }
        }
        Ok(())
    }

    fn chain(&mut self, [s, r1, r2, r3, _]: [u8; 5], g: K::Grade) -> Result<(), E> {
        let settled = self.settled;
        for ([s1, c, _, d, _], h) in settled.with(SOME_RIGHT, 2, r1) {
            if s1 != s {
                continue;
            }
            for ([s2, _, second, e, _], i) in settled.with(SOME_RIGHT, 1, d) {
                if (s2, second) == (s, r2) {
                    self.give(SOME_RIGHT, [s, c, r3, e, 0], K::join(K::join(h, i), g))?;
                }
            }
        }
        Ok(())
    }
}
