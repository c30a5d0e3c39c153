// The least that a program can do with outputs: keep them, and sort them by timestamp and channel.

struct Event {
    channel: u8,
    address: u8,
    value: u32,
    stamp: i64,
}

fn main() {
    let words: Vec<u64> = std::env::args().skip(1).map(|word| word.parse().unwrap()).collect();
    let (outputs, distance, rounds) = (words[0], words[1], words[2]);
    let mut last = 0;
    let mut sum = 0u64;
    for _ in 0..rounds {
        let mut events = Vec::new();
        for number in 0..outputs {
            events.push(Event {
                channel: 0,
                address: 0,
                value: (1 - number % 2) as u32,
                stamp: ((number * distance + 1) * 8) as i64,
            });
        }
        events.sort_by_key(|event| (event.stamp, event.channel));
        last = events.last().map_or(0, |event| event.stamp / 8);
        sum += events.iter().map(|event| u64::from(event.value) + u64::from(event.address)).sum::<u64>();
    }
    println!("{outputs} outputs put out, counter {last}");
    assert!(sum <= outputs * rounds);
}
