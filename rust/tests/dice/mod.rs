//! Numbers that look random (splitmix64), and which runs are asked for.

/// Numbers that look random.
pub struct Dice(pub u64);

impl Dice {
    /// A number below a limit.
    pub fn roll(&mut self, below: usize) -> usize {
        self.0 = self.0.wrapping_add(0x9E37_79B9_7F4A_7C15);
        let mut x = self.0;
        x = (x ^ (x >> 30)).wrapping_mul(0xBF58_476D_1CE4_E5B9);
        x = (x ^ (x >> 27)).wrapping_mul(0x94D0_49BB_1331_11EB);
        (x ^ (x >> 31)) as usize % below.max(1)
    }

    /// Whether what happens once in so many times does.
    pub fn once_in(&mut self, times: usize) -> bool {
        self.roll(times) == 0
    }

    /// Any of these.
    pub fn pick<T: Copy>(&mut self, from: &[T]) -> T {
        from[self.roll(from.len())]
    }
}

/// Tells which run it was in which something was found.
pub struct Named(pub &'static str, pub u64);

impl Drop for Named {
    fn drop(&mut self) {
        if std::thread::panicking() {
            eprintln!("{} {}", self.0, self.1);
        }
    }
}

/// The runs of a part of a test: of `all`, or of as many as the variable `RUNS` says where those are fewer, behind as many as
/// `RUNS_AFTER` says.
pub fn runs(part: u64, all: u64) -> std::ops::Range<u64> {
    let number = |name| std::env::var(name).ok().and_then(|it| it.parse().ok());
    let (first, count) = (number("RUNS_AFTER").unwrap_or(0), number("RUNS").unwrap_or(all));
    let first = first + part * all + 1;
    first..first + count.min(all)
}
