//! Taking times in turns.

use std::time::{Duration, Instant};

/// Something to be timed.
pub struct Contender<'a> {
    /// What it is called in the table.
    pub name: &'a str,
    /// The work.
    pub work: Box<dyn FnMut() + 'a>,
}

impl<'a> Contender<'a> {
    /// Names some work.
    pub fn new(name: &'a str, work: impl FnMut() + 'a) -> Contender<'a> {
        let work = Box::new(work);
        Contender { name, work }
    }
}

/// Runs all in turns and prints the least time of each. The first is the one
/// that the others are set against.
pub fn compare(title: &str, rounds: usize, mut contenders: Vec<Contender<'_>>) {
    let mut least = vec![Duration::MAX; contenders.len()];
    for _ in 0..rounds {
        for (contender, least) in contenders.iter_mut().zip(&mut least) {
            let start = Instant::now();
            (contender.work)();
            *least = start.elapsed().min(*least);
        }
    }
    println!("\n{title}");
    println!("  {:24} {:>12} {:>8}", "", "time", "ratio");
    for (contender, time) in contenders.iter().zip(&least) {
        let ratio = least[0].as_secs_f64() / time.as_secs_f64();
        let micros = time.as_secs_f64() * 1e6;
        println!("  {:24} {micros:>9.1} µs {ratio:>8.2}", contender.name);
    }
}
