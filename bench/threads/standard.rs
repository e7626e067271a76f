// Threads of Rust's library: a channel, a lock, scoped threads, a barrier, a thread's own value.
use std::cell::Cell;
use std::sync::{mpsc, Arc, Barrier, Mutex, RwLock};
use std::thread;

thread_local!(static OWN: Cell<u64> = Cell::new(3));

fn main() {
    let (giver, taker) = mpsc::channel();
    let (sum, ready, read) = (Arc::new(Mutex::new(0u64)), Arc::new(Barrier::new(3)), RwLock::new(5u64));
    let workers: Vec<_> = (0..3u64)
        .map(|n| {
            let (giver, sum, ready) = (giver.clone(), sum.clone(), ready.clone());
            thread::spawn(move || {
                ready.wait();
                OWN.with(|own| own.set(own.get() + n));
                for i in 0..20 {
                    giver.send(n * i).unwrap();
                }
                *sum.lock().unwrap() += OWN.with(|own| own.get());
            })
        })
        .collect();
    drop(giver);
    let got: u64 = taker.iter().sum();
    for worker in workers {
        worker.join().unwrap();
    }
    thread::scope(|scope| {
        for _ in 0..2 {
            scope.spawn(|| *read.write().unwrap() += 1);
        }
    });
    println!("total {}", got + *sum.lock().unwrap() + *read.read().unwrap());
    std::process::exit(7);
}
