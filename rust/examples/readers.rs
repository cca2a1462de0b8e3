//! A pool of readers, each with its own handle on one index text: each line of the standard input is a query, and whichever thread is free answers it.
//!
//!     cargo run --release --example readers -- INDEX [THREADS] < QUERIES
//!
//! The answers are printed in the order of the queries: the query, a TAB, and how many documents there are or why not.

use ix::Index;
use std::io::{self, BufRead};
use std::sync::atomic::{AtomicUsize, Ordering};
use std::sync::Mutex;
use std::{env, fs, thread};

fn main() -> Result<(), Box<dyn std::error::Error>> {
    let mut words = env::args().skip(1);
    let path = words.next().ok_or("usage: readers INDEX [THREADS]")?;
    let threads = words.next().map_or(Ok(4), |word| word.parse::<usize>())?;
    let index = Index::open(fs::read(path)?)?;
    let readers = (0..threads.max(1)).map(|_| index.again()).collect::<Result<Vec<_>, _>>()?;
    let queries = io::stdin().lock().lines().collect::<Result<Vec<_>, _>>()?;
    let answers = Mutex::new(vec![String::new(); queries.len()]);
    let next = AtomicUsize::new(0);
    thread::scope(|scope| {
        for mut reader in readers {
            let (queries, answers, next) = (&queries, &answers, &next);
            scope.spawn(move || loop {
                let place = next.fetch_add(1, Ordering::Relaxed);
                let Some(query) = queries.get(place) else { return };
                let answer = match reader.search(query) {
                    Ok(names) => names.len().to_string(),
                    Err(error) => error.to_string(),
                };
                answers.lock().unwrap()[place] = answer;
            });
        }
    });
    for (query, answer) in queries.iter().zip(answers.into_inner().unwrap()) {
        println!("{query}\t{answer}");
    }
    Ok(())
}
