//! A kernel in a thread of its own: handles in many threads, held against what each of them was told; closures that panic; its end.
use hidewillow::shared::Shared;
use hidewillow::speculator::{Decided, Guess, Refusal, Speculator, Stranger};
use hidewillow::watch::{Fate, Watch};
use std::error::Error;
use std::future::Future;
use std::panic::{self, AssertUnwindSafe};
use std::pin::pin;
use std::sync::mpsc;
use std::sync::Arc;
use std::task::{Context, Poll, Wake, Waker};
use std::thread;
use std::time::Duration;

mod dice;
use dice::{runs, Dice, Named};

type Shop = Shared<str, u64>;
type Done = Result<(), Box<dyn Error + Send + Sync>>;

fn shop() -> Result<Shop, Box<dyn Error + Send + Sync>> {
    Ok(Shop::new(Speculator::open(1024, 1)?)?)
}

/// One order, which rests on all that are undecided before it.
fn order(shop: &Shop, clerk: u16) -> Result<(Guess, Watch), Refusal> {
    let ((), paid) = shop.guess(move |s| {
        let before = s.get("orders")?.unwrap_or_default();
        s.put("orders", before + 1);
        s.say(clerk, before.to_le_bytes())
    })?;
    let watch = shop.watch(&paid)?;
    Ok((paid, watch))
}

/// What a clerk does: orders, decided in any order, some of them by a dropped token.
fn clerk(shop: &Shop, clerk: u16, mut dice: Dice) -> Result<Vec<Watch>, Refusal> {
    let (mut watches, mut open) = (Vec::new(), Vec::new());
    for _ in 0..20 {
        let (paid, watch) = order(shop, clerk)?;
        watches.push(watch);
        open.push(paid);
        while open.len() > dice.pick(&[0, 1, 3]) {
            let paid = open.remove(dice.roll(open.len()));
            match dice.roll(8) {
                _ if dice.once_in(8) => drop(paid),
                0 => assert!(matches!(shop.fail(paid), Ok(Decided::Failed(_) | Decided::Gone))),
                _ => assert!(matches!(shop.commit(paid), Ok(Decided::Committed { .. } | Decided::Gone))),
            }
        }
    }
    Ok(watches)
}

/// Of the orders of several threads just those stand whose clerks were told so in the end.
#[test]
fn what_stands_is_what_threads_were_told() -> Done {
    for run in runs(0, 200) {
        let _named = Named("threads, run", run);
        let shop = shop()?;
        let clerks: Vec<_> = (0..4)
            .map(|of| {
                let shop = shop.clone();
                thread::spawn(move || clerk(&shop, of, Dice(run * 4 + u64::from(of))))
            })
            .collect();
        let watches: Vec<_> = clerks.into_iter().map(|it| it.join().expect("no panic")).collect::<Result<_, _>>()?;
        let mut kernel = shop.end().expect("nobody else ends it");
        assert_eq!(kernel.counts().undecided, 0);
        let mut stand = 0;
        for (of, watches) in (0..).zip(watches) {
            assert!(watches.iter().all(|it| it.fate().is_some()));
            let told = watches.iter().filter(|it| it.fate() == Some(Fate::Committed)).count();
            let letters = std::iter::from_fn(|| kernel.released(of).transpose()).count();
            assert_eq!(letters, told, "the letters of clerk {of}");
            stand += told as u64;
        }
        assert_eq!(kernel.value("orders")?.unwrap_or_default(), stand);
    }
    Ok(())
}

#[test]
fn a_closure_that_panics_does_so_for_its_caller_alone() -> Done {
    let shop = shop()?;
    let panicked = panic::catch_unwind(AssertUnwindSafe(|| {
        shop.step(|s| -> Result<(), Refusal> {
            s.put("stock", 1);
            panic!("on purpose")
        })
    }));
    assert_eq!(panicked.expect_err("it panics here").downcast_ref(), Some(&"on purpose"));
    assert_eq!(shop.value("stock")?, None);
    shop.step(|s| {
        s.put("stock", 2);
        Ok(())
    })?;
    let there = shop.clone();
    let panicked = thread::spawn(move || there.with(|_| -> u8 { panic!("on purpose") })).join();
    assert!(panicked.is_err());
    assert_eq!(shop.value("stock")?, Some(2));
    Ok(())
}

/// It would wait for itself.
#[test]
fn a_closure_that_calls_its_own_kernel_panics() -> Done {
    let shop = shop()?;
    let there = shop.clone();
    let panicked = panic::catch_unwind(AssertUnwindSafe(|| shop.with(move |_| there.value("stock"))));
    assert!(panicked.is_err());
    let other = self::shop()?;
    assert_eq!(shop.with(move |_| other.value("stock"))??, None, "another kernel may be called, and end there");
    Ok(())
}

#[derive(Debug, PartialEq)]
enum Own {
    Refused(Refusal),
    SoldOut,
}

impl From<Refusal> for Own {
    fn from(refusal: Refusal) -> Own {
        Own::Refused(refusal)
    }
}

#[test]
fn errors_of_ones_own_leave_nothing() -> Done {
    let shop = shop()?;
    let refused = shop.try_step(|s| {
        s.put("stock", 1);
        Err::<(), _>(Own::SoldOut)
    });
    assert_eq!(refused, Err(Own::SoldOut));
    let refused = shop.try_guess(|s| {
        s.say(1, "once")?;
        Ok::<_, Own>(s.say(1, "twice")?)
    });
    assert_eq!(refused.err(), Some(Own::Refused(Refusal::SaidTwice)));
    assert_eq!(shop.value("stock")?, None);
    Ok(())
}

#[derive(Debug, PartialEq)]
struct Woken;

/// Tells that something was woken.
struct Bell(mpsc::Sender<Woken>);

impl Wake for Bell {
    fn wake(self: Arc<Self>) {
        let _ = self.0.send(Woken);
    }
}

/// A handle may take the kernel back: it is as it was, and the others say that it has gone.
#[test]
fn a_kernel_that_is_taken_back_is_as_it_was() -> Done {
    let (shop, (bell, rung)) = (shop()?, mpsc::channel());
    let waker = Waker::from(Arc::new(Bell(bell)));
    let (mut context, other) = (Context::from_waker(&waker), shop.clone());
    let (paid, watch) = order(&shop, 7)?;
    let mut letter = pin!(other.output(7));
    assert_eq!(letter.as_mut().poll(&mut context), Poll::Pending);

    let mut kernel = shop.end().expect("nobody else ends it");
    assert_eq!(rung.recv_timeout(Duration::from_secs(60))?, Woken, "who waits for an output is told");
    assert_eq!(letter.as_mut().poll(&mut context), Poll::Ready(Err(Refusal::Ended)));
    assert!(shop.end().is_none() && other.end().is_none());
    assert_eq!(other.value("orders"), Err(Refusal::Ended));
    assert_eq!(other.step(|_| Ok(())), Err(Refusal::Ended));
    assert_eq!(other.watch(&paid).err(), Some(Refusal::Ended));

    let Err(Stranger(paid)) = other.commit(paid) else { panic!("nobody has the kernel") };
    assert_eq!(watch.fate(), None);
    assert_eq!(kernel.value("orders")?, Some(1));
    assert_eq!(kernel.commit(paid)?, Decided::Committed { firm: true });
    assert_eq!(watch.fate(), Some(Fate::Committed));
    Ok(())
}

/// With the last handle the kernel ends, before that is gone, and its guesses fail.
#[test]
fn a_kernel_ends_with_its_last_handle() -> Done {
    let shop = shop()?;
    let (paid, watch) = order(&shop, 1)?;
    let other = shop.clone();
    drop(shop);
    assert_eq!((watch.fate(), other.value("orders")?), (None, Some(1)));
    drop(other);
    assert_eq!(watch.fate(), Some(Fate::Failed));
    drop(paid);
    Ok(())
}

#[test]
fn a_kernel_and_a_token_may_go_to_another_thread() -> Done {
    let shop = shop()?;
    let (paid, _) = order(&shop, 1)?;
    let there = shop.clone();
    let decided = thread::spawn(move || there.commit(paid)).join().expect("no panic")?;
    assert_eq!((decided, shop.value("orders")?), (Decided::Committed { firm: true }, Some(1)));
    Ok(())
}
