//! A value that is replaced while a reader reads it.

use rcu::{Engine, Shared};

fn main() -> Result<(), rcu::Error> {
    let engine = Engine::new()?;
    let shared = Shared::new(&engine, String::from("old"));
    let mut reader = engine.reader()?;
    println!("{}", shared.load(&reader.enter()));
    shared.replace(&engine, String::from("new"));
    println!("{}", shared.load(&reader.enter()));
    println!("{}", reader.while_idle(|| engine.run_deferred()));
    Ok(())
}
