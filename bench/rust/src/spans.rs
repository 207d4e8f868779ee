//! Sets of numbers as ascending runs, up to four of them in place.

#[derive(Clone, Copy, Default)]
pub struct Run {
    pub lo: i64,
    pub hi: i64,
}

impl Run {
    #[inline]
    fn stretch(self, first: i64, last: i64) -> Run {
        Run { lo: self.lo + first, hi: self.hi + last }
    }

    #[inline]
    fn meet(self, other: Run) -> Run {
        Run { lo: self.lo.max(other.lo), hi: self.hi.min(other.hi) }
    }
}

pub enum Spans {
    Inline { len: usize, runs: [Run; 4] },
    Heap(Vec<Run>),
}

impl Spans {
    pub fn new() -> Spans {
        Spans::Inline { len: 0, runs: [Run::default(); 4] }
    }

    pub fn of(runs: &[Run]) -> Spans {
        let mut set = Spans::new();
        for run in runs {
            set.push(*run);
        }
        set
    }

    #[inline]
    pub fn as_slice(&self) -> &[Run] {
        match self {
            Spans::Inline { len, runs } => &runs[..*len],
            Spans::Heap(runs) => runs,
        }
    }

    #[inline]
    fn as_mut_slice(&mut self) -> &mut [Run] {
        match self {
            Spans::Inline { len, runs } => &mut runs[..*len],
            Spans::Heap(runs) => runs,
        }
    }

    #[inline]
    pub fn clear(&mut self) {
        match self {
            Spans::Inline { len, .. } => *len = 0,
            Spans::Heap(runs) => runs.clear(),
        }
    }

    #[inline]
    pub fn push(&mut self, run: Run) {
        match self {
            Spans::Inline { len, runs } if *len < 4 => {
                runs[*len] = run;
                *len += 1;
            }
            Spans::Inline { runs, .. } => {
                let mut heap = runs.to_vec();
                heap.push(run);
                *self = Spans::Heap(heap);
            }
            Spans::Heap(runs) => runs.push(run),
        }
    }

    // Keeps back the last run, so that the next one can be joined to it.
    #[inline]
    fn push_behind(&mut self, held: Option<Run>, run: Run) -> Option<Run> {
        if run.lo > run.hi {
            return held;
        }
        let Some(last) = held else {
            return Some(run);
        };
        if run.lo <= last.hi + 1 {
            return Some(Run { lo: last.lo, hi: last.hi.max(run.hi) });
        }
        self.push(last);
        Some(run)
    }

    #[inline]
    fn put(&mut self, run: Run) {
        if run.lo > run.hi {
            self.clear();
            return;
        }
        if let [only] = self.as_mut_slice() {
            *only = run;
            return;
        }
        self.clear();
        self.push(run);
    }

    /// Writes the numbers of `within` over `self` that are some number of `from` plus `first..=last`.
    #[inline]
    pub fn reach(&mut self, from: &[Run], first: i64, last: i64, within: &[Run]) {
        if from.len() == 1 && within.len() == 1 {
            return self.put(from[0].stretch(first, last).meet(within[0]));
        }
        self.reach_by_run(from, first, last, within);
    }

    #[inline(never)]
    fn reach_by_run(&mut self, from: &[Run], first: i64, last: i64, within: &[Run]) {
        self.clear();
        let mut held = None;
        let mut left = from;
        let mut right = within;
        while !left.is_empty() && !right.is_empty() {
            let reached = left[0].stretch(first, last);
            let bound = right[0];
            held = self.push_behind(held, reached.meet(bound));
            if reached.hi <= bound.hi {
                left = &left[1..];
            } else {
                right = &right[1..];
            }
        }
        if let Some(run) = held {
            self.push(run);
        }
    }

    /// Writes those numbers of `from` over `self` that lie in a run.
    pub fn clip(&mut self, from: &[Run], within: Run) {
        self.clear();
        for run in from {
            let both = run.meet(within);
            if both.lo <= both.hi {
                self.push(both);
            }
        }
    }

    /// Writes the numbers of two sets over `self`.
    pub fn join(&mut self, left: &[Run], right: &[Run]) {
        self.clear();
        let (mut i, mut j) = (0, 0);
        let mut held = None;
        while i < left.len() || j < right.len() {
            let run = if j == right.len() || (i < left.len() && left[i].lo <= right[j].lo) {
                i += 1;
                left[i - 1]
            } else {
                j += 1;
                right[j - 1]
            };
            held = self.push_behind(held, run);
        }
        if let Some(run) = held {
            self.push(run);
        }
    }
}
