//! The same under std's mutex; with `pauses` alone, the pauses of a millisecond.
use std::sync::Mutex;
use std::time::Instant;

struct Busy {
    pauses: u64,
}

fn pause(pauses: u64) {
    for _ in 0..pauses {
        std::hint::spin_loop();
    }
}

fn serve(machine: &Mutex<Busy>, calls: u64, between: u64, timed: bool) -> u64 {
    let mut longest = 0;
    for _ in 0..calls {
        let from = timed.then(Instant::now);
        let busy = machine.lock().unwrap();
        pause(busy.pauses);
        drop(busy);
        if let Some(from) = from {
            longest = longest.max(from.elapsed().as_nanos() as u64);
        }
        pause(between);
    }
    longest
}

fn main() {
    let words: Vec<String> = std::env::args().collect();
    if words[1] == "pauses" {
        let from = Instant::now();
        pause(10_000_000);
        println!("{}", (10_000_000.0 / from.elapsed().as_secs_f64() / 1000.0).round());
        return;
    }
    let [threads, calls, pauses, between] = [1, 2, 3, 4].map(|i| words[i].parse::<u64>().unwrap());
    let timed = words[5] == "timed";
    let machine = Mutex::new(Busy { pauses });
    let from = Instant::now();
    let longest = std::thread::scope(|scope| {
        let workers: Vec<_> = (0..threads).map(|_| scope.spawn(|| serve(&machine, calls, between, timed))).collect();
        workers.into_iter().map(|worker| worker.join().unwrap()).max().unwrap()
    });
    println!("{} {}", from.elapsed().as_nanos(), longest);
}
