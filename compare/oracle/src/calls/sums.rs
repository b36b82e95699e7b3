//! Crafted sums of a window: right ones, wrong ones, calls while one is wrong, and the
//! sum or the window right again.
use super::{bits, Calls, Manner};

impl Calls {
    /// A bucket, often one that has lags, and a sum that it has not.
    fn wrong_sum(&mut self, columns: &[u64]) -> (usize, u64) {
        let last = columns.len() - 1;
        let any = self.r.below(columns.len() as u64) as usize;
        let lags: Vec<usize> = (0..=last).filter(|b| columns[*b] > 0).collect();
        let lagged = if lags.is_empty() { any } else { self.r.pick(&lags) };
        let b = self.r.pick(&[lagged, lagged, lagged, any, 0, last]);
        let right = columns[b];
        let beside = columns[if b == last { b - 1 } else { b + 1 }];
        let (all, any) = (columns.iter().sum(), self.r.next());
        let sum = self.r.pick(&[right + 1, right + 1, right.saturating_sub(1), 0, beside, all, right + (1 << 32), u64::MAX, any]);
        (b, if sum == right { right + 1 } else { sum })
    }

    /// A bucket, and its right sum.
    fn right_sum(&mut self, columns: &[u64]) -> (usize, u64) {
        let b = self.r.below(columns.len() as u64) as usize;
        let b = self.r.pick(&[b, 0, columns.len() - 1]);
        (b, columns[b])
    }

    /// A right sum of an input: nothing changes.
    pub(super) fn put_right_sum(&mut self, i: u64) -> String {
        let columns = self.checked.columns(i as usize);
        let (b, sum) = self.right_sum(&columns);
        format!("put {i} sum {b} {sum}")
    }

    /// Wrong sums of an input, some calls (all refused), and right ones in their place.
    pub(super) fn put_wrong_sums(&mut self, now: u64, i: u64, manner: &mut Manner) {
        for _ in 0..self.r.pick(&[1, 1, 2]) {
            let columns = self.checked.columns(i as usize);
            let (b, sum) = self.wrong_sum(&columns);
            self.call(format!("put {i} sum {b} {sum}"));
        }
        self.while_broken(now, i, manner);
        if self.r.chance(15) {
            // A new supervisor has right sums, whatever the lists held.
            let mut new = self.settings();
            while !self.call(new.line()) {
                new = self.settings();
            }
            return;
        }
        if self.r.chance(30) {
            self.call(format!("put {i} window"));
        }
        for b in self.checked.wrong_sums[i as usize].clone() {
            let sum = self.checked.columns(i as usize)[b];
            self.call(format!("put {i} sum {b} {sum}"));
            if self.r.chance(50) {
                self.status(i);
            }
        }
    }

    /// The same of the window alone. Now and then a wrong sum stays, until a `wset` or a `wnew`.
    pub(super) fn lone_sums(&mut self, now: u64, reach: [u32; 3]) {
        let columns = self.checked.driver.window.columns();
        let beyond = columns.len() as u64 + self.r.pick(&[0, 0, 1, 4096, u64::from(u32::MAX)]);
        let (b, sum) = self.right_sum(&columns);
        self.call(format!("wsum {b} {sum}"));
        if self.r.chance(10) {
            self.call(format!("wsum {beyond} 0"));
        }
        if self.r.chance(40) {
            return;
        }
        for _ in 0..self.r.pick(&[1, 1, 2]) {
            let (b, sum) = self.wrong_sum(&columns);
            self.call(format!("wsum {b} {sum}"));
        }
        for _ in 0..self.r.pick(&[1, 2, 4]) {
            let short = if self.r.chance(5) { "!5 " } else { "" };
            let line = match self.r.below(4) {
                0 => format!("wpush {} {now}", reach[0]),
                1 => "wclear".into(),
                2 => "wspan".into(),
                _ => format!("wquant {} {}", bits(0.5), u32::MAX),
            };
            self.call(format!("{short}{line}"));
        }
        let [offset, max, w] = reach;
        match self.r.below(10) {
            0 => {
                self.call(format!("wnew {offset} {max} {w}"));
            }
            1 => {
                let rows = self.rows_of(now, columns.len() as u64);
                self.call(format!("wset{rows}"));
            }
            2 => (),
            _ => {
                for b in self.checked.wrong_lone.clone() {
                    self.call(format!("wsum {b} {}", columns[b]));
                }
            }
        }
    }
}
