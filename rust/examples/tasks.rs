//! Tasks that await what becomes of guesses, on a runtime of thirty lines: a clerk ships ahead of the bank's word, a customer awaits his
//! letters, and the bank decides.
use hidewillow::shared::Shared;
use hidewillow::speculator::{Guess, Refusal, Speculator};
use hidewillow::watch::Fate;
use std::error::Error;
use std::future::Future;
use std::pin::pin;
use std::sync::{mpsc, Arc};
use std::task::{Context, Poll, Wake, Waker};
use std::thread::{self, Thread};

type Shop = Shared<str, u32>;

/// Wakes a thread.
struct Parked(Thread);

impl Wake for Parked {
    fn wake(self: Arc<Self>) {
        self.0.unpark();
    }
}

/// Runs a future on this thread.
fn wait_for<T>(future: impl Future<Output = T>) -> T {
    let waker = Waker::from(Arc::new(Parked(thread::current())));
    let (mut context, mut future) = (Context::from_waker(&waker), pin!(future));
    loop {
        match future.as_mut().poll(&mut context) {
            Poll::Ready(it) => return it,
            Poll::Pending => thread::park(),
        }
    }
}

/// Sells one apple, on the guess that it is paid: the guess, for the bank.
fn sell(shop: &Shop, customer: u16) -> Result<Guess, Refusal> {
    let ((), paid) = shop.guess(move |s| {
        let stock = s.get("apples")?.unwrap_or_default();
        s.put("apples", stock - 1);
        s.say(customer, format!("an apple for customer {customer}, {} are left", stock - 1))
    })?;
    Ok(paid)
}

/// Ships on the guess that it is paid; what became of it.
async fn ships(
    shop: Shop,
    bank: mpsc::Sender<(u16, Guess)>,
    customer: u16,
) -> Result<Fate, Box<dyn Error + Send + Sync>> {
    let paid = sell(&shop, customer)?;
    let fate = shop.watch(&paid)?;
    bank.send((customer, paid))?;
    Ok(fate.await)
}

fn main() -> Result<(), Box<dyn Error + Send + Sync>> {
    let shop = Shop::new(Speculator::open(16, 1)?)?;
    shop.step(|s| {
        s.put("apples", 10);
        Ok(())
    })?;
    let (bank, asked) = mpsc::channel();
    let mut clerks = Vec::new();
    let mut tokens = Vec::new();
    for customer in 1..=3 {
        let (shop, bank) = (shop.clone(), bank.clone());
        clerks.push(thread::spawn(move || wait_for(ships(shop, bank, customer))));
        tokens.push(asked.recv()?); // one after the other, so that each depends on those before
    }
    let letters = {
        let shop = shop.clone();
        thread::spawn(move || wait_for(shop.output(1)))
    };
    println!("{} apples are left if all is paid", shop.value("apples")?.unwrap_or_default());
    for (customer, paid) in tokens {
        // The second card is refused, and so what the third was told of the stock is wrong.
        let word = if customer == 2 { shop.fail(paid)? } else { shop.commit(paid)? };
        println!("the bank on customer {customer}: {word:?}");
    }
    for (clerk, customer) in clerks.into_iter().zip(1..) {
        let fate = clerk.join().map_err(|_| "a clerk panicked")??;
        println!("the clerk of customer {customer}: {fate:?}");
    }
    let letter = letters.join().map_err(|_| "a reader panicked")??;
    println!("customer 1 reads: {}", String::from_utf8_lossy(&letter));
    println!("{} apples are left", shop.value("apples")?.unwrap_or_default());
    Ok(())
}
