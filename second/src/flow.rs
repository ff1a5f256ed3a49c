//! A maximum flow by Dinic's method: stations, and pipes that carry whole amounts.

/// More than any flow here can be.
pub const UNBOUNDED: i64 = 1 << 40;

struct Pipe {
    to: usize,
    /// What the pipe can still carry; its partner (number exclusive-or 1) can give back what it carries.
    free: i64,
}

pub struct Network {
    pipes: Vec<Pipe>,
    /// The pipes that begin at each station.
    from: Vec<Vec<usize>>,
}

impl Network {
    pub fn new(stations: usize) -> Network {
        Network { pipes: Vec::new(), from: vec![Vec::new(); stations] }
    }

    /// Lays a pipe and gives its number.
    pub fn lay(&mut self, from: usize, to: usize, width: i64) -> usize {
        let number = self.pipes.len();
        self.pipes.push(Pipe { to, free: width });
        self.pipes.push(Pipe { to: from, free: 0 });
        self.from[from].push(number);
        self.from[to].push(number + 1);
        number
    }

    /// What a pipe carries.
    pub fn carried(&self, pipe: usize) -> i64 {
        self.pipes[pipe ^ 1].free
    }

    /// Sends as much as possible from `start` to `end` and gives the amount.
    pub fn fill(&mut self, start: usize, end: usize) -> i64 {
        let mut sent = 0;
        loop {
            let level = self.levels(start);
            if level[end].is_none() {
                return sent;
            }
            let mut tried = vec![0; self.from.len()];
            loop {
                let more = self.push(start, end, UNBOUNDED, &level, &mut tried);
                if more == 0 {
                    break;
                }
                sent += more;
            }
        }
    }

    /// The stations that free pipes still lead to from `start`.
    pub fn reached(&self, start: usize) -> Vec<bool> {
        self.levels(start).iter().map(|level| level.is_some()).collect()
    }

    /// The number of free pipes on a shortest way from `start`.
    fn levels(&self, start: usize) -> Vec<Option<usize>> {
        let mut level = vec![None; self.from.len()];
        level[start] = Some(0);
        let mut front = vec![start];
        let mut steps = 0;
        while !front.is_empty() {
            steps += 1;
            let mut further = Vec::new();
            for station in front {
                for &pipe in &self.from[station] {
                    let Pipe { to, free } = self.pipes[pipe];
                    if free > 0 && level[to].is_none() {
                        level[to] = Some(steps);
                        further.push(to);
                    }
                }
            }
            front = further;
        }
        level
    }

    /// Sends up to `most` along one way that climbs a level at each pipe.
    fn push(&mut self, here: usize, end: usize, most: i64, level: &[Option<usize>], tried: &mut [usize]) -> i64 {
        if here == end {
            return most;
        }
        while let Some(&pipe) = self.from[here].get(tried[here]) {
            let Pipe { to, free } = self.pipes[pipe];
            if free > 0 && level[to] == level[here].map(|l| l + 1) {
                let sent = self.push(to, end, most.min(free), level, tried);
                if sent > 0 {
                    self.pipes[pipe].free -= sent;
                    self.pipes[pipe ^ 1].free += sent;
                    return sent;
                }
            }
            tried[here] += 1;
        }
        0
    }
}
