//! A ledger in a folder, without a server: transfers that are on the disk when they are told, and a night's work that goes on ahead of the
//! disk and waits once. It begins anew each time, in the folder that is named, or in one of its own.
use hidewillow::store::file::Transaction;
use hidewillow::store::File;
use std::path::PathBuf;
use std::{env, fs, io, process};

/// What an account has.
fn balance(t: &mut Transaction<'_>, account: &str) -> io::Result<i64> {
    Ok(t.text(account)?.parse().unwrap_or(0))
}

/// Moves an amount between accounts, if it is there: whether it was.
fn transfer(ledger: &File, from: &str, to: &str, amount: i64) -> io::Result<bool> {
    ledger.transaction(|t| {
        let (has, had) = (balance(t, from)?, balance(t, to)?);
        if has >= amount {
            t.set(from, (has - amount).to_string());
            t.set(to, (had + amount).to_string());
        }
        Ok(has >= amount)
    })
}

fn show(ledger: &File) -> io::Result<()> {
    for account in ["ann", "bob", "bank"] {
        let has = ledger.get(account)?.unwrap_or_default();
        println!("{account:<5} {}", String::from_utf8_lossy(&has));
    }
    Ok(())
}

fn main() -> io::Result<()> {
    let named = env::args_os().nth(1).map(PathBuf::from);
    let folder = named.clone().unwrap_or_else(|| env::temp_dir().join(format!("ledger-{}", process::id())));

    let ledger = File::open(&folder)?;
    ledger.set("ann", "100")?;
    ledger.set("bob", "5")?;
    ledger.set("bank", "0")?;
    println!("ann pays bob 30: {}", transfer(&ledger, "ann", "bob", 30)?);
    println!("bob pays ann 50: {}", transfer(&ledger, "bob", "ann", 50)?);
    show(&ledger)?;

    // Interest, a thousand times: each depends on the one before, and none waits for the disk.
    let mut night = ledger.ahead()?;
    for _ in 0..1000 {
        night.transaction(|t| {
            let ann = balance(t, "ann")?;
            t.set("ann", (ann + 1).to_string());
            let bank = balance(t, "bank")?;
            t.set("bank", (bank - 1).to_string());
            Ok(())
        })?;
    }
    let undone = night.wait()?;
    println!("a night's work is on the disk: {}", undone.is_empty());
    drop(night);
    ledger.close()?;

    // The next start finds all of it, and so does `hidewillow-server --folder`.
    let ledger = File::open(&folder)?;
    show(&ledger)?;

    // A backup is a folder that opens by itself.
    let backup = folder.join(format!("backups/{}", process::id()));
    ledger.backup(&backup)?;
    println!("bob pays ann 35: {}", transfer(&ledger, "bob", "ann", 35)?);
    show(&File::open(&backup)?)?;
    if named.is_none() {
        fs::remove_dir_all(&folder)?;
    }
    Ok(())
}
