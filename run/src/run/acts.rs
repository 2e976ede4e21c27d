//! Calls on files. Each is made here, is seen, and then is asked of the server.
use crate::codec::Bytes;
use crate::name::Name;
use crate::run::calls::{self, Caller, Target, Use};
use crate::run::epochs::{Alone, Need};
use crate::run::supervisor::{Done, Failure, Supervisor};
use crate::run::sys::{self, Pid, Regs, Stop, Told};
use crate::run::tree::{Hold, State};
use crate::run::undo::{self, Undo};
use crate::run::wrong;
use crate::wire::{Body, Content, Kind, Step, Version};
use std::fs::{self, Metadata};
use std::os::unix::fs::MetadataExt;
use std::path::{Path, PathBuf};

/// Times as the wire has them.
pub fn modified(m: &Metadata) -> i64 {
    m.mtime().saturating_mul(1_000_000_000).saturating_add(m.mtime_nsec())
}
/// The file that a store, or a making, puts there.
pub fn put(name: &Name, base: Version, new: Version, m: &Metadata, contents: Vec<u8>) -> Step {
    let (mode, modified) = (m.mode() & 0o7777, modified(m));
    Step::Put { name: name.clone(), base, new, mode, modified, content: Content::Whole(Body::Here(Bytes(contents))) }
}
/// A call that was made: what it did, how that is undone, and its result.
struct Act {
    steps: Vec<Step>,
    undo: Vec<Undo>,
    result: i64,
}

fn present(path: &Path) -> Option<Metadata> {
    fs::symlink_metadata(path).ok()
}

impl Supervisor {
    /// A process is at a call that names files.
    pub fn file_call(&mut self, pid: Pid, number: i64, regs: &Regs) -> Done {
        let uses = calls::uses(&Caller { pid, regs, paths: &self.paths, names: &self.names }, number);
        if uses.is_empty() {
            if !self.goes_inside(pid, number) {
                self.go(pid);
            }
            return Ok(());
        }
        if !self.store_closed(Some(pid))? {
            return Ok(());
        }
        self.stats.calls += 1;
        if uses.contains(&Use::Outside) {
            return self.outside(pid);
        }
        if let Some(e) = uses.iter().find_map(|u| if let Use::Unsupported(e) = u { Some(*e) } else { None }) {
            self.why.waits("a call that the server has nothing for is refused");
            self.finish(pid, -i64::from(e));
            return Ok(());
        }
        if self.fetch_missing(pid, &uses)? {
            return Ok(());
        }
        if std::mem::take(&mut self.tree.at(pid).granted) {
            self.go(pid);
            return Ok(());
        }
        if uses.iter().any(|u| self.changes(u)) {
            self.change_call(pid, &uses)
        } else {
            self.look_call(pid, &uses)
        }
    }
    /// What shows outside waits until all is decided.
    pub fn outside(&mut self, pid: Pid) -> Done {
        // [16]
        if (!self.epochs.decides.may_act() || !self.epochs.is_quiet()) && !wrong::is(wrong::WRITE_EARLY) {
            self.settle()?;
            self.tree.hold(pid, Hold::Settled);
            return Ok(());
        }
        self.stats.outside += 1;
        self.paths.forget_local();
        self.go(pid);
        Ok(())
    }
    /// Whether it is made by us, to see what it does. A named pipe may make it wait, so it isn't.
    fn changes(&self, u: &Use) -> bool {
        match u {
            Use::Open { at, .. } => present(&at.path(&self.names)).is_none_or(|m| m.is_file()),
            u => u.changes(),
        }
    }
    fn look_call(&mut self, pid: Pid, uses: &[Use]) -> Done {
        let looks = self.looks(uses, true);
        if looks.is_empty() || self.is_believed(uses) {
            self.go(pid);
            return Ok(());
        }
        match self.need(Some(pid))? {
            Need::Go => {
                self.guess(looks);
                self.go(pid);
            }
            Need::Again => self.go(pid),
            Need::Hold => self.tree.hold(pid, Hold::Settled),
            Need::Wait => {
                self.ask_alone(Alone { pid: Some(pid), steps: looks, ..Alone::default() })?;
            }
        }
        Ok(())
    }
    /// For tests: as other clients do, attributes are believed for a time.
    fn is_believed(&self, uses: &[Use]) -> bool {
        let recent = |n: &Name| self.epochs.believed.get(n).is_some_and(|t| t.elapsed() < self.options.believe);
        !self.options.believe.is_zero() && uses.iter().all(|u| matches!(u, Use::Look(n) if recent(n)))
    }
    fn change_call(&mut self, pid: Pid, uses: &[Use]) -> Done {
        if uses.iter().all(|u| u.names().is_empty()) {
            return self.change_scratch(pid, uses);
        }
        match self.need(Some(pid))? {
            // [16]
            Need::Go if self.take_name_of_open(uses) => self.change_alone(pid, uses)?,
            Need::Go => {
                let Some(act) = self.act(pid, uses)? else { return Ok(()) };
                self.keep(act.undo);
                if act.result == -i64::from(libc::ETXTBSY) {
                    return self.wait_for_copies(pid);
                }
                self.guess(act.steps);
                self.go(pid);
            }
            Need::Again => self.go(pid),
            Need::Hold => self.tree.hold(pid, Hold::Settled),
            Need::Wait => self.change_alone(pid, uses)?,
        }
        Ok(())
    }
    /// Only this machine's files change: that is undone with what it depends on.
    fn change_scratch(&mut self, pid: Pid, uses: &[Use]) -> Done {
        // [16]
        if !self.epochs.is_quiet() && self.take_name_of_open(uses) {
            self.settle()?;
            self.tree.hold(pid, Hold::Settled);
            return Ok(());
        }
        if let Some(act) = self.act(pid, uses)? {
            self.keep(act.undo);
            self.go(pid);
        }
        Ok(())
    }
    fn keep(&mut self, undo: Vec<Undo>) {
        match self.epochs.newest() {
            Some(e) => self.undo.extend(e, undo),
            None => undo.into_iter().for_each(undo::forget),
        }
    }
    /// A copy of a process runs this program still: once all is decided, there are no copies.
    fn wait_for_copies(&mut self, pid: Pid) -> Done {
        if self.epochs.is_quiet() {
            self.go(pid);
            return Ok(());
        }
        self.make_again(pid);
        self.settle()?;
        self.tree.hold(pid, Hold::Settled);
        Ok(())
    }
    /// The call is made while all others are stopped, so that nobody sees what it did before it is granted.
    fn change_alone(&mut self, pid: Pid, uses: &[Use]) -> Done {
        self.stop_all()?;
        if !self.tree.all.contains_key(&pid) {
            return self.go_all(None);
        }
        self.take_closed();
        if !self.stored.due.is_empty() {
            // it was closed before: so it is stored before
            self.tree.queue.push_back(pid);
            return self.go_all(None);
        }
        let drafts = self.drafts_to_be_cut(uses);
        let Some(Act { steps, undo, result }) = self.act(pid, uses)? else { return self.go_all(None) };
        let opened = uses.iter().any(|u| matches!(u, Use::Open { .. })) && result >= 0;
        let made = Some(opened.then_some(result));
        self.ask_alone(Alone { pid: Some(pid), steps, undo, made, drafts, ..Alone::default() })
    }
    /// What can't be taken back is not done.
    pub fn keeps_all(&mut self) -> Done {
        let broken = |e| Failure::Broken(format!("what a file was can't be kept: {e}"));
        self.undo.has_kept_all().map_err(broken)
    }
    /// Has a process make its call.
    fn act(&mut self, pid: Pid, uses: &[Use]) -> Done<Option<Act>> {
        if uses.iter().any(|u| self.changes_scratch_folder(u)) {
            self.paths.forget_local();
        }
        let undo = self.before(uses); // [15]
        self.keeps_all()?;
        let moved = undo.iter().any(|u| matches!(u, Undo::FolderGone { .. }));
        let is_done = moved && matches!(uses.last(), Some(Use::RemoveFolder(_)));
        // [11]
        let Some(result) = self.run_call(pid, is_done)? else {
            // it ended in it: what it did, it did
            undo::take_back(undo);
            return Ok(None);
        };
        if result < 0 {
            undo::never_mind(undo);
            return Ok(Some(Act { steps: self.looks(uses, false), undo: Vec::new(), result }));
        }
        Ok(Some(Act { steps: self.effects(uses), undo, result }))
    }
    /// Whether a scratch folder itself, not what is in it, becomes something else.
    fn changes_scratch_folder(&self, u: &Use) -> bool {
        let is_it = |at: &Target| matches!(at, Target::Scratch(path) if self.paths.is_scratch(path));
        match u {
            Use::Remove(at) | Use::RemoveFolder(at) | Use::MakeFolder(at) | Use::MakeLink(at) => is_it(at),
            Use::Rename(one, other) | Use::Exchange(one, other) => is_it(one) || is_it(other),
            _ => false,
        }
    }
    /// Has a process at a stop of the filter make its call, and stops it behind. `is_done`: we have done already what
    /// it wants, and it succeeds.
    pub fn run_call(&mut self, pid: Pid, is_done: bool) -> Done<Option<i64>> {
        let mut r = self.tree.at(pid).regs;
        let number = r.orig_rax;
        if is_done {
            (r.orig_rax, r.rax) = (u64::MAX, 0);
            let _ = sys::set_registers(pid, &r);
        }
        let _ = sys::to_call(pid);
        while let Some(w) = sys::wait(pid) {
            match w.told {
                Told::Ended(_) => {
                    self.on_event(w)?;
                    return Ok(None);
                }
                Told::Stopped(Stop::Call) => {
                    let Ok(mut r) = sys::registers(pid) else { return Ok(None) };
                    r.orig_rax = number;
                    let p = self.tree.at(pid);
                    p.regs = r;
                    p.state = State::Behind;
                    self.tree.forget_copy(pid);
                    return Ok(Some(r.rax as i64));
                }
                Told::Stopped(Stop::Signal(s)) => self.tree.at(pid).signals.push(s),
                Told::Stopped(_) => {}
            }
            let _ = sys::to_call(pid);
        }
        Ok(None)
    }

    /// The looks that these uses depend on; `new`: only those that this epoch has not.
    fn looks(&mut self, uses: &[Use], new: bool) -> Vec<Step> {
        let epoch = self.epochs.current.as_ref().map_or(0, |e| e.number);
        let mut v = Vec::new();
        for u in uses {
            if let Use::List(n) | Use::Read(n) = u {
                if self.names.get(n).kind == Kind::Folder && self.lists(u) {
                    v.push(Step::Names { name: n.clone(), sum: self.names.sum(n) });
                }
            }
            for n in u.names() {
                let k = self.names.get(n);
                if new && k.looked == epoch && epoch != 0 {
                    continue;
                }
                v.push(Step::Look { name: n.clone(), version: k.version });
                v.extend(self.missing_folder(n));
            }
        }
        v
    }
    fn lists(&self, u: &Use) -> bool {
        matches!(u, Use::List(_) | Use::Read(_))
    }
    /// Where a name is missing since a folder of it is: what is there in its place.
    fn missing_folder(&self, name: &Name) -> Option<Step> {
        if self.names.get(name).kind != Kind::Absent {
            return None;
        }
        let mut found = None;
        let mut at = name.parent();
        while !at.is_root() {
            let k = self.names.get(&at);
            if k.kind == Kind::Folder {
                break;
            }
            found = Some(Step::Look { name: at.clone(), version: k.version });
            at = at.parent();
        }
        found
    }
    /// What a call that succeeded has done, seen by what is there now.
    fn effects(&mut self, uses: &[Use]) -> Vec<Step> {
        let mut v = Vec::new();
        for u in uses {
            match u {
                Use::Look(_) | Use::Read(_) | Use::List(_) => v.extend(self.looks(std::slice::from_ref(u), true)),
                Use::Open { at: Target::Remote(n), truncates, appends, .. } => {
                    v.push(self.opened(n, *truncates, *appends));
                }
                Use::Remove(Target::Remote(n)) => v.push(self.removed(n, false)),
                Use::RemoveFolder(Target::Remote(n)) => v.push(self.removed(n, true)),
                Use::MakeFolder(Target::Remote(n)) => v.extend(self.folder_made(n)),
                Use::MakeLink(Target::Remote(n)) => v.extend(self.link_made(n)),
                Use::Rename(Target::Remote(a), Target::Remote(b)) => v.extend(self.renamed(a, b)),
                Use::Exchange(Target::Remote(a), Target::Remote(b)) => v.extend(self.exchanged(a, b)),
                Use::Link(Target::Remote(a), Target::Remote(b)) => v.extend(self.linked(a, b)),
                Use::Attributes(Target::Remote(n)) => v.extend(self.attributes_set(n)),
                Use::Truncate(Target::Remote(n)) => {
                    v.push(self.look(n));
                    self.stored.is_due(n);
                }
                Use::MakeNode(Target::Remote(n)) => v.push(self.look(n)),
                _ => {}
            }
        }
        v
    }
    fn look(&self, name: &Name) -> Step {
        Step::Look { name: name.clone(), version: self.names.get(name).version }
    }
    fn opened(&mut self, name: &Name, truncates: bool, appends: bool) -> Step {
        let k = self.names.get(name);
        let m = present(&self.names.local(name)).filter(|m| m.is_file());
        if let Some(m) = &m {
            self.begin_draft(name, m, truncates || k.kind == Kind::Absent, appends);
        }
        match (k.kind, m) {
            (Kind::Absent, Some(m)) => put(name, Version::ABSENT, self.epochs.new_version(), &m, Vec::new()),
            (Kind::File, Some(m)) if truncates => put(name, k.version, self.epochs.new_version(), &m, Vec::new()),
            _ => self.look(name),
        }
    }
    fn removed(&mut self, name: &Name, folder: bool) -> Step {
        let k = self.names.get(name);
        let name = name.clone();
        match k.kind {
            Kind::Absent => Step::Look { name, version: Version::ABSENT },
            _ if folder => Step::RemoveFolder { name, base: k.version },
            _ => Step::Remove { name, base: k.version },
        }
    }
    fn folder_made(&mut self, name: &Name) -> Option<Step> {
        let m = present(&self.names.local(name))?;
        let mode = if wrong::is(wrong::PREDICTED) { 0o755 } else { m.mode() & 0o7777 };
        Some(Step::MakeFolder { name: name.clone(), new: self.epochs.new_version(), mode })
    }
    fn link_made(&mut self, name: &Name) -> Option<Step> {
        use std::os::unix::ffi::OsStringExt;
        let target = fs::read_link(self.names.local(name)).ok()?.into_os_string().into_vec();
        Some(Step::MakeLink { name: name.clone(), new: self.epochs.new_version(), target: Bytes(target) })
    }
    fn renamed(&mut self, from: &Name, to: &Name) -> Vec<Step> {
        let (a, b) = (self.names.get(from), self.names.get(to));
        let stays = present(&self.names.local(from)).is_some();
        if a.kind == Kind::Absent || stays {
            // a named pipe; or both were the same file, and nothing is done
            return vec![self.look(from), self.look(to)];
        }
        vec![Step::Rename { from: from.clone(), base: a.version, to: to.clone(), over: b.version }]
    }
    /// Two that take each other's names, by a third one that nobody sees here.
    fn exchanged(&mut self, one: &Name, other: &Name) -> Vec<Step> {
        let (a, b) = (self.names.get(one), self.names.get(other));
        let between = other.parent().child(format!(".hidewillow-{}", self.epochs.new_number()).as_bytes());
        let Some(between) = between.filter(|_| one != other && a.kind != Kind::Absent && b.kind != Kind::Absent) else {
            return vec![self.look(one), self.look(other)];
        };
        self.stored.exchanged(&self.paths, one, other);
        let moved = |from: &Name, base: Version, to: &Name| Step::Rename {
            from: from.clone(),
            base,
            to: to.clone(),
            over: Version::ABSENT,
        };
        vec![moved(other, b.version, &between), moved(one, a.version, other), moved(&between, b.version, one)]
    }
    fn linked(&mut self, from: &Name, to: &Name) -> Option<Step> {
        let k = self.names.get(from);
        if k.kind != Kind::Absent {
            return Some(Step::Link { from: from.clone(), base: k.version, to: to.clone() });
        }
        // a file without a name gets one
        let path = self.names.local(to);
        let m = present(&path).filter(Metadata::is_file)?;
        self.stored.named(m.ino(), to);
        self.undo.has_name(&m);
        self.begin_draft(to, &m, false, false);
        let contents = self.sent_of(to);
        Some(put(to, Version::ABSENT, self.epochs.new_version(), &m, contents))
    }
    fn attributes_set(&mut self, name: &Name) -> Option<Step> {
        let k = self.names.get(name);
        let m = present(&self.names.local(name))?;
        if k.kind == Kind::Absent {
            return Some(self.look(name));
        }
        let mode = (k.kind != Kind::Link).then(|| m.mode() & 0o7777);
        let new = self.epochs.new_version();
        Some(Step::Attributes { name: name.clone(), base: k.version, new, mode, modified: Some(modified(&m)) })
    }

    fn before_open(&mut self, path: PathBuf, truncates: bool) -> Option<Undo> {
        match present(&path) {
            None => Some(Undo::Made(path)),
            Some(m) if m.is_file() && (truncates || self.epochs.newest().is_some()) => self.undo.keep_content(&path),
            _ => None,
        }
    }
    /// How what these uses may change is undone.
    fn before(&mut self, uses: &[Use]) -> Vec<Undo> {
        let mut v = Vec::new();
        for u in uses {
            self.before_folders(u, &mut v);
            match u {
                Use::Open { at, truncates, .. } => v.extend(self.before_open(at.path(&self.names), *truncates)),
                Use::Remove(at) => self.before_removal(&at.path(&self.names), &mut v),
                Use::RemoveFolder(at) if at.remote().is_none_or(|n| !n.is_root()) => {
                    v.extend(self.undo.move_folder(&at.path(&self.names)));
                }
                Use::Link(from, to) if present(&from.path(&self.names)).is_none() => {
                    v.extend(self.undo.name_nameless(&to.path(&self.names)));
                }
                Use::MakeFolder(at) | Use::MakeLink(at) | Use::MakeNode(at) | Use::Link(_, at) => {
                    let path = at.path(&self.names);
                    if present(&path).is_none() {
                        v.push(Undo::Made(path));
                    }
                }
                Use::Rename(a, b) => {
                    let (from, to) = (a.path(&self.names), b.path(&self.names));
                    if present(&from).is_some() {
                        self.before_removal(&to, &mut v);
                        if present(&from).is_some_and(|m| m.is_dir()) && from != to {
                            v.extend(self.undo.move_folder(&to));
                        }
                        v.push(Undo::Renamed { from, to });
                    }
                }
                Use::Exchange(a, b) => v.push(Undo::Exchanged(a.path(&self.names), b.path(&self.names))),
                Use::Attributes(at) => before_attributes(&at.path(&self.names), &mut v),
                Use::Truncate(at) => {
                    at.remote().cloned().iter().for_each(|n| self.begin_draft_of(n));
                    v.extend(self.undo.keep_content(&at.path(&self.names)));
                }
                _ => {}
            }
        }
        v
    }
    /// The times of the folders in which names come or go.
    fn before_folders(&self, u: &Use, v: &mut Vec<Undo>) {
        let (one, other) = match u {
            Use::Open { at, creates: true, .. } if present(&at.path(&self.names)).is_none() => (at, None),
            Use::Remove(at) | Use::RemoveFolder(at) | Use::MakeFolder(at) | Use::MakeLink(at) | Use::MakeNode(at) => {
                (at, None)
            }
            Use::Rename(a, b) | Use::Exchange(a, b) => (a, Some(b)),
            Use::Link(_, at) => (at, None),
            _ => return,
        };
        for at in std::iter::once(one).chain(other) {
            let path = at.path(&self.names);
            let Some((folder, m)) = path.parent().and_then(|f| Some((f, present(f)?))) else { continue };
            v.push(Undo::Time { path: folder.to_owned(), at: (m.mtime(), m.mtime_nsec()) });
        }
    }
    fn before_removal(&mut self, path: &Path, v: &mut Vec<Undo>) {
        if present(path).is_some_and(|m| !m.is_dir()) {
            v.extend(self.undo.keep_name(path));
        }
    }
}

fn before_attributes(path: &Path, v: &mut Vec<Undo>) {
    let Some(m) = present(path) else { return };
    let (mode, at) = (m.mode() & 0o7777, (m.mtime(), m.mtime_nsec()));
    let (accessed, owner) = ((m.atime(), m.atime_nsec()), (m.uid(), m.gid()));
    v.push(Undo::Attributes { path: path.to_owned(), mode, at, accessed, owner, of_link: m.is_symlink() });
}
