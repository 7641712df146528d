//! What a lock costs in plain Rust: a `Mutex` over a `VecDeque` for each box, and a `Condvar` for each, in the place of a shared mail.
//!
//! `baseline WAY COUNT`: `alone` posts and takes COUNT letters by one thread; `turns` hands one letter to and fro between two threads, COUNT times each; `apart`
//! has two threads post and take COUNT letters each, each at a box of its own; `held` is `alone` with 16 posts, and then 16 takes, under one lock.
use std::collections::VecDeque;
use std::sync::{Condvar, Mutex};

struct Mail {
    boxes: Mutex<[VecDeque<[u64; 4]>; 2]>,
    changed: [Condvar; 2],
}

impl Mail {
    fn post(&self, to: usize, item: [u64; 4]) {
        self.boxes.lock().unwrap()[to].push_back(item);
        self.changed[to].notify_all();
    }

    fn take(&self, at: usize) -> [u64; 4] {
        let boxes = self.boxes.lock().unwrap();
        let mut boxes = self.changed[at].wait_while(boxes, |boxes| boxes[at].is_empty()).unwrap();
        boxes[at].pop_front().unwrap()
    }
}

fn alone(mail: &Mail, at: usize, count: u64) {
    for number in 0..count {
        mail.post(at, [number; 4]);
        std::hint::black_box(mail.take(at));
    }
}

fn held(mail: &Mail, count: u64) {
    for _ in 0..count / 16 {
        let mut boxes = mail.boxes.lock().unwrap();
        for number in 0..16 {
            boxes[0].push_back([number; 4]);
        }
        drop(boxes);
        mail.changed[0].notify_all();
        let mut boxes = mail.boxes.lock().unwrap();
        for _ in 0..16 {
            std::hint::black_box(boxes[0].pop_front());
        }
    }
}

fn main() {
    let words: Vec<String> = std::env::args().collect();
    let count: u64 = words[2].parse().unwrap();
    let boxes = Mutex::new([VecDeque::with_capacity(64), VecDeque::with_capacity(64)]);
    let mail = Mail { boxes, changed: [Condvar::new(), Condvar::new()] };
    match words[1].as_str() {
        "alone" => alone(&mail, 0, count),
        "held" => held(&mail, count),
        "turns" => std::thread::scope(|scope| {
            scope.spawn(|| {
                for _ in 0..count {
                    let item = mail.take(1);
                    mail.post(0, item);
                }
            });
            for number in 0..count {
                mail.post(1, [number; 4]);
                std::hint::black_box(mail.take(0));
            }
        }),
        "apart" => std::thread::scope(|scope| {
            scope.spawn(|| alone(&mail, 1, count));
            alone(&mail, 0, count);
        }),
        _ => panic!("no such way"),
    }
}
