//! Nanoseconds a call: the best of some rounds, the two sides in turn within each round.
use std::time::Instant;

/// Times each of the works in turn, so many rounds, and gives the best time of each.
pub fn best(rounds: u32, calls: u32, works: &mut [&mut dyn FnMut(u32)]) -> Vec<f64> {
    let mut least = vec![f64::INFINITY; works.len()];
    for _ in 0..rounds {
        for (at, work) in works.iter_mut().enumerate() {
            let start = Instant::now();
            work(calls);
            let each = start.elapsed().as_nanos() as f64 / f64::from(calls);
            least[at] = least[at].min(each);
        }
    }
    least
}

/// What something takes that is done now and then, between other things: the mean of all times but the slowest quarter. The least would be of no
/// use where a clock counts in tens of nanoseconds.
pub struct Usual(Vec<f64>);

impl Usual {
    pub fn new() -> Usual {
        Usual(Vec::new())
    }

    pub fn of<T>(&mut self, work: impl FnOnce() -> T) -> T {
        let start = Instant::now();
        let answer = work();
        self.0.push(start.elapsed().as_nanos() as f64);
        answer
    }

    /// Nanoseconds for each of so many, without what the clock itself takes.
    pub fn each(&self, count: usize) -> f64 {
        let looks = (0..1_000).map(|_| Instant::now().elapsed().as_nanos() as f64).collect();
        (usual(self.0.clone()) - usual(looks)).max(0.1) / count as f64
    }
}

fn usual(mut times: Vec<f64>) -> f64 {
    times.sort_by(f64::total_cmp);
    times.truncate((times.len() * 3).div_ceil(4));
    times.iter().sum::<f64>() / times.len() as f64
}
