//! Sells a hundred tickets, each by its own number, with one wait for all of them: `tickets [ADDRESS]`.
use hidewillow_client::{Answer, Client};
use std::io;

fn main() -> io::Result<()> {
    let address = std::env::args().nth(1).unwrap_or("127.0.0.1:7379".into());
    let mut store = Client::connect(address, None)?;
    let mut sold = Vec::new();
    for _ in 0..100 {
        let Answer::Number(number) = store.ask(&["INCR", "tickets"])? else { return Err(io::Error::other("INCR")) };
        store.ask(&["SET", &format!("ticket:{number}"), "sold"])?;
        sold.push(number);
    }
    // Output, behind the wait.
    match store.wait_all()? {
        None => println!("sold {} tickets, up to {:?}", sold.len(), sold.last()),
        Some(undone) => println!("nothing was sold from command {} on", undone.commands[0].0),
    }
    Ok(())
}
