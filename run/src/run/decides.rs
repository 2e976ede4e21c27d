//! What has to be decided, and who decides it: the supervisor has no decision of these beside.
//!
//! Names, versions, checkpoints and outputs are numbers here; what they stand for is the host's.
/// What a refusal takes back.
#[derive(Debug, PartialEq, Eq)]
pub struct Back {
    pub checkpoint: u64,
    /// Names, each with the version that it has again (`None`: nothing is known of it).
    pub names: Vec<(u64, Option<u64>)>,
}

/// Epochs are decided in order, the oldest first; a refused one takes back all later ones with it.
pub trait Decides {
    /// The tree stands at this checkpoint; events from now on belong to a new epoch.
    fn begin(&mut self, checkpoint: u64);
    /// A process of the tree has changed what is known of a name.
    fn changed(&mut self, name: u64, version: Option<u64>);
    /// Whether an epoch without its reply has changed a name: what the server tells of it then is of before.
    fn has_changed(&mut self, name: u64) -> bool;
    /// The server told what is known of a name that none of them has changed: that depends on no epoch.
    fn told(&mut self, name: u64, version: Option<u64>);
    /// A process said something on a stream.
    fn said(&mut self, stream: u16, output: u64);
    /// The next output of a stream that may be shown, each once.
    fn shown(&mut self, stream: u16) -> Option<u64>;
    /// The oldest epoch is accepted, if one waits: the checkpoint that may go.
    fn accepted(&mut self) -> Option<u64>;
    /// The oldest epoch is refused, if one waits.
    fn refused(&mut self) -> Option<Back>;
    /// Whether something outside may be done now.
    fn may_act(&mut self) -> bool;
    fn undecided(&mut self) -> usize;
}

#[cfg(test)]
mod tests {
    use super::*;
    use crate::run::proved::Proved;
    use std::collections::{BTreeMap, HashMap, VecDeque};

    struct Epoch {
        checkpoint: u64,
        before: Vec<(u64, Option<u64>)>,
        outputs: Vec<(u16, u64)>,
    }

    /// A model: each epoch keeps what it changed.
    #[derive(Default)]
    struct Plain {
        epochs: VecDeque<Epoch>,
        known: HashMap<u64, u64>,
        free: VecDeque<(u16, u64)>,
    }

    impl Plain {
        fn set(&mut self, name: u64, version: Option<u64>) -> Option<u64> {
            match version {
                Some(v) => self.known.insert(name, v),
                None => self.known.remove(&name),
            }
        }
    }

    impl Decides for Plain {
        fn begin(&mut self, checkpoint: u64) {
            self.epochs.push_back(Epoch { checkpoint, before: Vec::new(), outputs: Vec::new() });
        }
        fn changed(&mut self, name: u64, version: Option<u64>) {
            let old = self.set(name, version);
            if let Some(e) = self.epochs.back_mut() {
                e.before.push((name, old));
            }
        }
        fn has_changed(&mut self, name: u64) -> bool {
            self.epochs.iter().any(|e| e.before.iter().any(|(n, _)| *n == name))
        }
        fn told(&mut self, name: u64, version: Option<u64>) {
            self.set(name, version);
        }
        fn said(&mut self, stream: u16, output: u64) {
            match self.epochs.back_mut() {
                Some(e) => e.outputs.push((stream, output)),
                None => self.free.push_back((stream, output)),
            }
        }
        fn shown(&mut self, stream: u16) -> Option<u64> {
            let at = self.free.iter().position(|(s, _)| *s == stream)?;
            self.free.remove(at).map(|(_, o)| o)
        }
        fn accepted(&mut self) -> Option<u64> {
            let e = self.epochs.pop_front()?;
            self.free.extend(e.outputs);
            Some(e.checkpoint)
        }
        fn refused(&mut self) -> Option<Back> {
            let checkpoint = self.epochs.front()?.checkpoint;
            let mut names = BTreeMap::new();
            for e in std::mem::take(&mut self.epochs).into_iter().rev() {
                for (name, old) in e.before.into_iter().rev() {
                    self.set(name, old);
                    names.insert(name, old);
                }
            }
            Some(Back { checkpoint, names: names.into_iter().collect() })
        }
        fn may_act(&mut self) -> bool {
            self.epochs.is_empty()
        }
        fn undecided(&mut self) -> usize {
            self.epochs.len()
        }
    }

    #[test]
    fn a_refusal_takes_back_all_behind() {
        let mut d = Proved::open(8);
        d.told(1, Some(10));
        d.begin(5);
        d.changed(1, Some(11));
        d.said(1, 100);
        d.begin(6);
        d.changed(1, Some(12));
        d.changed(2, Some(20));
        assert_eq!(d.shown(1), None);
        assert_eq!(d.accepted(), Some(5));
        assert_eq!((d.shown(1), d.shown(1)), (Some(100), None));
        assert!(d.has_changed(2) && !d.has_changed(3) && !d.may_act());
        assert_eq!(d.refused(), Some(Back { checkpoint: 6, names: vec![(1, Some(11)), (2, None)] }));
        assert!(d.may_act());
        assert_eq!((d.accepted(), d.refused()), (None, None));
    }

    /// A call that the numbers choose; what it answers, as text.
    fn call(d: &mut dyn Decides, kind: u64, a: u64, b: u64) -> String {
        let version = (!b.is_multiple_of(4)).then_some(b);
        match kind % 16 {
            0..=2 if d.undecided() < 8 => d.begin(b),
            0 | 3 => return format!("{:?}", d.accepted()),
            1 if b.is_multiple_of(3) => return format!("{:?}", d.refused()),
            4 | 5 => return format!("{:?}", d.shown(a as u16 % 2)),
            6 | 7 if d.has_changed(a) => return "changed".into(),
            6 | 7 => d.told(a, version),
            8..=11 => d.said(a as u16 % 2, b),
            _ => d.changed(a, version),
        }
        format!("{} {}", d.undecided(), d.may_act())
    }

    #[test]
    fn random_runs_as_the_model() {
        let mut seed = 1u64;
        let mut next = || {
            seed = seed.wrapping_mul(6_364_136_223_846_793_005).wrapping_add(1_442_695_040_888_963_407);
            seed >> 33
        };
        for _ in 0..2_000 {
            let (mut proved, mut plain) = (Proved::open(8), Plain::default());
            for _ in 0..60 {
                let (kind, name, number) = (next(), 1 + next() % 5, next());
                let told = call(&mut proved, kind, name, number);
                assert_eq!(told, call(&mut plain, kind, name, number));
            }
        }
    }
}
