// The same work as `mta_bench shared`, with the standard library's Mutex: each thread writes its numbers
// one at a time behind a list in memory and a list of entries, both under one lock.
use std::env;
use std::process::exit;
use std::sync::Mutex;
use std::thread;

struct Recorder {
    disk: Vec<u64>,
    entries: Vec<u64>,
}

fn words() -> Option<(u8, u32)> {
    let mut words = env::args().skip(1);
    Some((words.next()?.parse().ok()?, words.next()?.parse().ok()?))
}

fn main() {
    let Some((threads, turns)) = words() else {
        eprintln!("usage: lock THREADS TURNS");
        exit(2);
    };
    let batches: Vec<Vec<u64>> = (0..threads).map(|_| (0..u64::from(turns)).collect()).collect();
    let recorder = Mutex::new(Recorder {
        disk: Vec::new(),
        entries: Vec::new(),
    });
    let shared = &recorder;
    thread::scope(|scope| {
        for batch in &batches {
            scope.spawn(move || {
                for number in batch {
                    let mut recorder = shared.lock().unwrap();
                    recorder.disk.push(*number);
                    recorder.entries.push(*number);
                }
            });
        }
    });
    println!("{} turns", recorder.into_inner().unwrap().entries.len());
}
