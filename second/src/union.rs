//! Union-find: what is joined with what.

pub struct Union {
    above: Vec<usize>,
    parts: usize,
}

impl Union {
    /// Every member stands alone.
    pub fn new(members: usize) -> Union {
        Union { above: (0..members).collect(), parts: members }
    }

    fn top(&mut self, mut member: usize) -> usize {
        while self.above[member] != member {
            self.above[member] = self.above[self.above[member]];
            member = self.above[member];
        }
        member
    }

    /// Joins two members; says whether they were apart.
    pub fn join(&mut self, one: usize, other: usize) -> bool {
        let (one, other) = (self.top(one), self.top(other));
        if one == other {
            return false;
        }
        self.above[one] = other;
        self.parts -= 1;
        true
    }

    pub fn parts(&self) -> usize {
        self.parts
    }
}
