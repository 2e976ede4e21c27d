//! What is said of damage: where it is, what was expected there, what was found, and what can be done.
use super::folder::Folder;
use super::reading::Walked;
use super::recovery::found;
use super::ReadCounts;
use std::io;
use std::path::Path;

const WAYS: &str = "Nothing was changed. Copy the folder before anything else is tried; then start on a backup, or on a copy from before";

/// What came of reading a file that is to be whole.
pub fn of_file<T>(path: &Path, did: io::Result<T>) -> io::Result<T> {
    did.map_err(|error| {
        let name = path.display();
        io::Error::new(error.kind(), format!("{name} is damaged, or isn't what its name says: {error}. {WAYS}"))
    })
}

/// Frames that were synced are not there.
pub struct Loss<'a> {
    pub counts: &'a ReadCounts,
    pub walked: &'a [Walked],
    /// The segments that a snapshot stands for.
    pub kept: u64,
}

impl Loss<'_> {
    /// The first segment that is to be there and isn't.
    fn missing(&self) -> Option<u64> {
        let mut all = (self.kept + 1..).zip(self.walked);
        all.find_map(|(wanted, it)| (it.segment != wanted).then_some(wanted))
    }

    /// Where the frame that is missing was expected.
    fn place(&self, folder: &Folder) -> String {
        let next = self.counts.next;
        let missing = self.missing();
        let last = self.walked.iter().take_while(|it| missing.is_none_or(|missing| it.segment < missing));
        match last.filter(|it| it.first.is_none() || it.next == next).last() {
            Some(it) if !it.found.is_empty() => {
                let (path, place, found) = (folder.segment(it.segment), it.place, &it.found);
                let later =
                    if it.later > 0 { format!(", with {} whole frames behind it", it.later) } else { String::new() };
                let gone = missing.map_or(String::new(), |it| format!("; segment {it} isn't there at all"));
                format!(
                    "{}, at byte {place}, segment {}: expected frame {next}, found {found}{later}{gone}",
                    path.display(),
                    it.segment
                )
            }
            _ => {
                let missing = missing.unwrap_or(self.kept + 1 + self.walked.len() as u64);
                format!(
                    "{}: expected frame {next} in segment {missing}, and it isn't there",
                    folder.segment(missing).display()
                )
            }
        }
    }

    /// Why a start refuses the log, in which this frame was wanted next, or a later one.
    pub fn error(&self, folder: &Folder, wanted: u64) -> io::Error {
        let (place, next, known) = (self.place(folder), self.counts.next, wanted - 1);
        io::Error::other(format!(
            "the log is damaged: all frames up to {known} were synced, and the first that isn't there is {next}. {place}. Before it are {}. \
             {WAYS}. Or give up frames {next} to {known}, and all behind, for ever: by --accept-loss-from {next}",
            found(self.counts)
        ))
    }
}

/// A frame is whole, and says nothing that a store could have written.
pub fn says_nothing(counts: &ReadCounts) -> io::Error {
    let (frame, segment) = (counts.next, counts.segment);
    io::Error::other(format!(
        "the log is damaged, more than a crash explains: frame {frame}, in or behind segment {segment}, is not one that a store wrote. Before it \
         are {}. {WAYS}",
        found(counts)
    ))
}

/// More stands behind the end of the log than was under way.
pub fn too_much(counts: &ReadCounts) -> io::Error {
    io::Error::other(format!(
        "the log is damaged, more than a crash explains: {} bytes stand behind its end, and so many weren't under way. Before that place are \
         {}. {WAYS}",
        counts.dropped,
        found(counts)
    ))
}
