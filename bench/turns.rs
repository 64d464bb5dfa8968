// Counts to a number under a Mutex, by so many threads, and prints the count:
// what crates/turn_bench is measured against. Its arguments are `TURNS THREADS`.

use std::sync::Mutex;

fn main() {
    let words: Vec<String> = std::env::args().collect();
    let turns: u32 = words[1].parse().expect("a number of turns");
    let threads: u32 = words[2].parse().expect("a number of threads");
    let count = Mutex::new(0_u64);
    std::thread::scope(|scope| {
        for _ in 0..threads {
            scope.spawn(|| {
                for _ in 0..turns / threads {
                    let mut count = count.lock().expect("no thread panics");
                    *count = count.checked_add(1).expect("a next number");
                }
            });
        }
    });
    println!("{}", count.into_inner().expect("no thread panics"));
}
