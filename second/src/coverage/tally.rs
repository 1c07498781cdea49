// Counts the cases of many seeds that show each row of a table of wrong programs.

use std::process::ExitCode;
use std::thread;

/// A wrong program that fewer cases show is shown by too few.
const FEWEST: usize = 10;
/// So many of the rarest are told again at the end.
const RAREST: usize = 5;

/// A sentence, and what a program does that gets it wrong.
pub type Row = (&'static str, &'static str);

/// What is counted.
pub struct Survey {
    /// The program that counts.
    pub program: &'static str,
    /// What the cases are called.
    pub cases: &'static str,
    /// What the rows stand for.
    pub wrongs: &'static str,
    pub rows: Vec<Row>,
    /// The numbers of the rows that the case of a seed shows.
    pub shown: fn(u64) -> Vec<usize>,
}

impl Survey {
    /// Counts as the arguments FROM TO ask: the cases of every seed from FROM up to, but not with,
    /// TO. Gives 0 where each row is shown by enough of them, 1 where one is not, 2 where nothing
    /// can be counted.
    pub fn take(&self, arguments: &[String]) -> ExitCode {
        let (from, to) = match parse(arguments) {
            Some(seeds) => seeds,
            None => {
                eprintln!("usage: {} FROM TO", self.program);
                return ExitCode::from(2);
            }
        };
        let counts = self.count(from, to);
        self.print_table(&counts);
        self.print_rarest(&counts);
        let few = counts.iter().filter(|&&count| count < FEWEST).count();
        println!(
            "{} {}, {} {}, {} of them shown by fewer than {}",
            to.saturating_sub(from),
            self.cases,
            self.rows.len(),
            self.wrongs,
            few,
            FEWEST
        );
        match few {
            0 => ExitCode::SUCCESS,
            _ => ExitCode::FAILURE,
        }
    }

    /// Each sentence, and under it what the wrong programs do, with the number of cases that show
    /// it.
    fn print_table(&self, counts: &[usize]) {
        let mut said = "";
        for ((says, does), count) in self.rows.iter().zip(counts) {
            if *says != said {
                println!("{}", says);
                said = says;
            }
            println!("{:6}  {}", count, does);
        }
    }

    fn print_rarest(&self, counts: &[usize]) {
        let mut rows: Vec<(&usize, &Row)> = counts.iter().zip(&self.rows).collect();
        rows.sort_by_key(|row| row.0);
        println!("The rarest:");
        for (count, (says, does)) in rows.iter().take(RAREST) {
            println!("{:6}  {} ({})", count, does, says);
        }
    }

    /// For each row, how many of the seeds' cases show it. Each core takes some of the seeds.
    fn count(&self, from: u64, to: u64) -> Vec<usize> {
        let cores = thread::available_parallelism().map_or(1, |count| count.get());
        let mut counts = vec![0; self.rows.len()];
        thread::scope(|scope| {
            let start = |core: usize| {
                let seeds = (from + core as u64..to).step_by(cores);
                scope.spawn(move || self.count_some(seeds))
            };
            let started: Vec<_> = (0..cores).map(start).collect();
            for some in started {
                add(&mut counts, &some.join().expect("a core counts to its end"));
            }
        });
        counts
    }

    fn count_some(&self, seeds: impl Iterator<Item = u64>) -> Vec<usize> {
        let mut counts = vec![0; self.rows.len()];
        for number in seeds.flat_map(self.shown) {
            counts[number] += 1;
        }
        counts
    }
}

fn parse(arguments: &[String]) -> Option<(u64, u64)> {
    match arguments {
        [from, to] => Some((from.parse().ok()?, to.parse().ok()?)),
        _ => None,
    }
}

fn add(counts: &mut [usize], more: &[usize]) {
    for (count, some) in counts.iter_mut().zip(more) {
        *count += some;
    }
}
