// `mutex rust THREADS TURNS`: so many threads take so many turns each over one number under Rust's own `Mutex`.
use std::sync::Mutex;

fn main() {
    let words: Vec<String> = std::env::args().collect();
    let threads: u32 = words[2].parse().unwrap();
    let turns: u32 = words[3].parse().unwrap();
    let tally = Mutex::new(0u64);
    std::thread::scope(|scope| {
        for _ in 0..threads {
            scope.spawn(|| {
                for _ in 0..turns {
                    *tally.lock().unwrap() += 1;
                }
            });
        }
    });
    println!("{} turns", tally.into_inner().unwrap());
}
