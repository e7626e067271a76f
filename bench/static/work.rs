// A match over many values, traits, iterators, a map, and a panic that is caught.
use std::collections::BTreeMap;
use std::io::{self, BufRead};

trait Step {
    fn apply(&self, x: u32) -> u32;
}
struct Add(u32);
struct Turn(u32);
impl Step for Add {
    fn apply(&self, x: u32) -> u32 {
        x.wrapping_add(self.0)
    }
}
impl Step for Turn {
    fn apply(&self, x: u32) -> u32 {
        x.rotate_left(self.0)
    }
}

fn step_of(letter: u8) -> Box<dyn Step> {
    match letter % 13 {
        0 => Box::new(Add(7)),
        1 => Box::new(Turn(3)),
        2 => Box::new(Add(9)),
        3 => Box::new(Turn(5)),
        4 => Box::new(Add(11)),
        5 => Box::new(Turn(7)),
        6 => Box::new(Add(13)),
        7 => Box::new(Turn(9)),
        8 => Box::new(Add(1)),
        9 => Box::new(Turn(1)),
        _ => panic!("no step"),
    }
}

fn main() {
    std::panic::set_hook(Box::new(|_| ()));
    let mut marks: BTreeMap<String, Option<u32>> = BTreeMap::new();
    for line in io::stdin().lock().lines() {
        for word in line.unwrap().split_whitespace() {
            let text = word.to_owned();
            let mark = std::panic::catch_unwind(move || text.bytes().fold(1, |x, letter| step_of(letter).apply(x)));
            marks.insert(word.to_owned(), mark.ok());
        }
    }
    for (word, mark) in &marks {
        println!("{:<12} {:x?} {:.3}", word, mark, word.len() as f64 / 3.0);
    }
    std::process::exit(marks.len() as i32);
}
