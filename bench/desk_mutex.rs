// The work of crates/desk_bench with a plain Mutex round a Vec: eight threads put 10,000 numbers each.
use std::sync::Mutex;
use std::thread;

const CHAIRS: u32 = 8;
const PUTS: u32 = 10_000;

fn main() {
    let tally = Mutex::new(Vec::new());
    thread::scope(|scope| {
        for by in 0..CHAIRS {
            let tally = &tally;
            scope.spawn(move || {
                for number in 0..PUTS {
                    tally.lock().unwrap().push((by, number));
                }
            });
        }
    });
    let tally = tally.into_inner().unwrap();
    let whole = tally.len() as u32 == CHAIRS * PUTS
        && (0..CHAIRS).all(|by| tally.iter().filter(|put| put.0 == by).map(|put| put.1).eq(0..PUTS));
    if whole {
        println!("{CHAIRS} chairs put {PUTS} numbers each, and none is lost");
    } else {
        println!("a number is lost");
    }
}
