//! Clerks in threads of their own sell from one stock, each apple on the guess that it is paid. The kernel has a thread too, to which they
//! send their steps; in the end it is taken back.
//!
//!     cargo run --release --example clerks
use hidewillow::shared::Shared;
use hidewillow::speculator::{Refusal, Speculator};
use hidewillow::watch::{Fate, Watch};
use std::error::Error;
use std::thread;

type Shop = Shared<str, u64>;

const APPLES: u64 = 100;

/// Sells ten apples. The bank refuses the third card, and what others sold on that guess meanwhile is taken back too.
fn sell(shop: &Shop, clerk: u16) -> Result<Vec<Watch>, Box<dyn Error + Send + Sync>> {
    let mut sold = Vec::new();
    for order in 0..10 {
        let ((), paid) = shop.guess(move |s| {
            let left = s.get("apples")?.unwrap_or_default() - 1;
            s.put("apples", left);
            s.say(clerk, format!("clerk {clerk} sends an apple, {left} are left"))
        })?;
        sold.push(shop.watch(&paid)?);
        match order {
            2 => shop.fail(paid)?,
            _ => shop.commit(paid)?,
        };
    }
    Ok(sold)
}

fn main() -> Result<(), Box<dyn Error + Send + Sync>> {
    let shop = Shop::new(Speculator::open(64, 1)?)?;
    shop.step(|s| {
        s.put("apples", APPLES);
        Ok(())
    })?;
    let clerks: Vec<_> = (1..=4)
        .map(|clerk| {
            let shop = shop.clone();
            thread::spawn(move || sell(&shop, clerk))
        })
        .collect();
    let mut orders = Vec::new();
    for clerk in clerks {
        orders.extend(clerk.join().map_err(|_| "a clerk panicked")??);
    }
    let stand = orders.iter().filter(|it| it.fate() == Some(Fate::Committed)).count() as u64;
    println!("of {} orders each is decided: {}", orders.len(), orders.iter().all(|it| it.fate().is_some()));
    println!("as many apples are gone as orders stand: {}", shop.value("apples")? == Some(APPLES - stand));

    let letters = shop.with(|kernel| {
        let next = || kernel.next_channel().and_then(|channel| kernel.released(channel).transpose());
        std::iter::from_fn(next).collect::<Result<Vec<_>, _>>()
    })??;
    println!("and as many letters go out: {}", letters.len() as u64 == stand);

    let other = shop.clone();
    let broken = thread::spawn(move || other.step(|_| -> Result<(), Refusal> { panic!("a closure of a clerk") }));
    println!("a closure panics for its caller alone: {}", broken.join().is_err());

    let other = shop.clone();
    let kernel = shop.end().ok_or("somebody else took it")?;
    println!("the kernel is back, and has what it had: {}", kernel.value("apples")? == Some(APPLES - stand));
    if let Err(refusal) = other.value("apples") {
        println!("to another handle it says: {refusal}");
    }
    Ok(())
}
