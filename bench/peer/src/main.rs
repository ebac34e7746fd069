//! The jobs of bench/run as one writes them in Rust with rayon and csv.
//!
//!     peer JOB WORKERS [DATA]
//!
//! Prints the answer that the program's pipeline of the same name gives, and on standard error the seconds that the
//! job took after its numbers were there.

use rayon::prelude::*;
use std::error::Error;
use std::time::Instant;

const ITEMS: i64 = 4_194_304;

fn expensive(x: i64) -> i64 {
    (0..12).fold(0, |sum: i64, k| sum.wrapping_add(x.wrapping_mul(x) % (7 + 2 * k) * (x / (3 + k)) % (11 + k)))
}

fn sum(items: impl ParallelIterator<Item = i64>) -> i64 {
    items.reduce(|| 0, i64::wrapping_add)
}

fn index(found: Option<usize>) -> i64 {
    found.map_or(-1, |at| at as i64)
}

/// A job over the numbers from 0 on.
fn over_numbers(job: &str, items: &[i64]) -> Option<i64> {
    let answer = match job {
        "sum of an expensive number" => sum(items.par_iter().map(|x| expensive(*x))),
        "count by an expensive test" => items.par_iter().filter(|x| expensive(**x) > 100).count() as i64,
        "filter, sum" => sum(items.par_iter().copied().filter(|x| x % 3 == 0)),
        "map, sum" => {
            let mapped: Vec<i64> = items.par_iter().map(|x| x.wrapping_mul(2)).collect();
            sum(mapped.into_par_iter())
        }
        "sum" => sum(items.par_iter().copied()),
        "whole search" => index(items.par_iter().position_first(|x| *x < 0)),
        "search, found at item 10" => index(items.par_iter().position_first(|x| *x == 10)),
        "last item of all" => index(items.par_iter().position_last(|x| *x >= 0)),
        _ => return None,
    };
    Some(answer)
}

/// A job over a file: the records are read in order, and what is typed is filtered and added by all workers.
fn over_file(job: &str, data: &str) -> Result<i64, Box<dyn Error>> {
    let columns: &[usize] = if job.starts_with("sales") { &[3, 4] } else { &[0] };
    let mut reader = csv::Reader::from_path(data)?;
    let mut record = csv::ByteRecord::new();
    let mut rows: Vec<Vec<i64>> = Vec::new();
    while reader.read_byte_record(&mut record)? {
        let number = |at: &usize| Ok::<i64, Box<dyn Error>>(std::str::from_utf8(&record[*at])?.parse()?);
        rows.push(columns.iter().map(number).collect::<Result<_, _>>()?);
    }
    Ok(match job {
        "sales: filter, sum" => sum(rows.par_iter().filter(|it| it[0] >= 5).map(|it| it[0].wrapping_mul(it[1]))),
        "ints: filter, sum" => sum(rows.par_iter().map(|it| it[0]).filter(|x| *x >= 500_000)),
        _ => rows.len() as i64,
    })
}

fn main() -> Result<(), Box<dyn Error>> {
    let words: Vec<String> = std::env::args().skip(1).collect();
    let [job, workers, data @ ..] = words.as_slice() else {
        return Err("peer JOB WORKERS [DATA]".into());
    };
    rayon::ThreadPoolBuilder::new().num_threads(workers.parse()?).build_global()?;
    if let [data] = data {
        println!("{}", over_file(job, data)?);
        return Ok(());
    }
    let items: Vec<i64> = (0..ITEMS).collect();
    let begun = Instant::now();
    let answer = over_numbers(job, &items).ok_or("no such job")?;
    eprintln!("{:.6}", begun.elapsed().as_secs_f64());
    println!("{answer}");
    Ok(())
}
