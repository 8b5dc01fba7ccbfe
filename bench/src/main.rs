//! Times the proved library against the model, on the same inputs, in turn, and prints a table: the least time of a call of each,
//! and the model's time over ours. Every field of an answer is taken in, and both must agree. With `keys BEFORE AFTER`, two shared objects
//! of the library are timed in turn instead.

mod codec;
mod keys;
mod measure;
mod recording;
mod shapes;
mod store;

fn main() {
    let words: Vec<String> = std::env::args().skip(1).collect();
    if let [word, before, after] = words.as_slice() {
        assert_eq!(word, "keys", "two libraries are timed with the word keys alone");
        return keys::run(before, after);
    }
    let only = words.first();
    let wanted = |name: &str| only.is_none_or(|given| given == name);
    println!("| call | input | ours | model | ratio | wanted |");
    println!("|---|---|---|---|---|---|");
    if wanted("codec") {
        codec::run();
    }
    if wanted("store") {
        store::run();
    }
    if wanted("recording") {
        recording::run();
    }
    if wanted("salvage") {
        recording::run_salvage();
    }
}
