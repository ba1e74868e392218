//! Counts the words of a file by threads that share a map of strings, and looks some up meanwhile.
//! Without an argument it takes a text of its own. It prints the words that come most often.
use rcu::{Engine, HashMap};
use std::cmp::Reverse;
use std::sync::atomic::{AtomicU64, Ordering::Relaxed};
use std::{env, error, fs, thread};

const TEXT: &str =
    "a reader that finds a word takes no lock and a writer that counts a word waits for \
                    no reader so the map grows with the words while a reader reads a word";
const THREADS: usize = 3;
const SHOWN: usize = 5;

fn main() -> Result<(), Box<dyn error::Error>> {
    let text = match env::args().nth(1) {
        Some(path) => fs::read_to_string(path)?,
        None => TEXT.to_string(),
    };
    let words: Vec<&str> = text.split_whitespace().collect();
    let engine = Engine::new()?;
    let counts = HashMap::<String, AtomicU64>::new(&engine);
    thread::scope(|scope| {
        for part in words.chunks(words.len() / THREADS + 1) {
            let mut reader = engine.reader().expect("three are there");
            let counts = &counts;
            scope.spawn(move || {
                for word in part {
                    reader.read(|guard| {
                        let count = match counts.get(guard, *word) {
                            Some(count) => count,
                            None => counts.get_or_insert_with(
                                guard,
                                word.to_string(),
                                AtomicU64::default,
                            ),
                        };
                        count.fetch_add(1, Relaxed);
                    });
                }
            });
        }
    });
    let mut reader = engine.reader()?;
    reader.read(|guard| {
        let all = counts.iter(guard);
        let mut often: Vec<_> = all
            .map(|(word, count)| (Reverse(count.load(Relaxed)), word))
            .collect();
        often.sort();
        for (Reverse(count), word) in often.iter().take(SHOWN) {
            println!("{word}: {count}");
        }
        println!("{} different words of {}", counts.len(), words.len());
    });
    Ok(())
}
