//! Eight threads send words through a channel, and count them in a shared map.
use std::collections::BTreeMap;
use std::sync::{mpsc, Arc, Mutex};
use std::thread;

fn main() {
    let (sender, receiver) = mpsc::channel();
    let counts = Arc::new(Mutex::new(BTreeMap::new()));
    let threads: Vec<_> = (0..8u64)
        .map(|number| {
            let (sender, counts) = (sender.clone(), Arc::clone(&counts));
            thread::spawn(move || {
                let mut value = number;
                for _ in 0..2000 {
                    value = value.wrapping_mul(6364136223846793005).wrapping_add(1442695040888963407);
                    *counts.lock().unwrap().entry(value >> 60).or_insert(0u32) += 1;
                    sender.send(format!("{value:x}")).unwrap();
                }
            })
        })
        .collect();
    drop(sender);
    let letters: usize = receiver.iter().map(|word| word.len()).sum();
    for thread in threads {
        thread.join().unwrap();
    }
    println!("{letters} {:?}", counts.lock().unwrap());
}
