//! The files that a plan names: those that it reads, and those that it writes.

use std::io::Write;
use std::path::{Path, PathBuf};

use usage::outputs::{Identity, Output, Over};

use super::unwritten::Unwritten;
use super::{Run, Stop};
use crate::data::{Blocks, Data};
use crate::{files, platter};

/// Lists the files that the lines of a plan named so far.
#[derive(Clone, Debug, Default)]
pub struct NamedFiles {
    read: Vec<PathBuf>,
    written: Vec<PathBuf>,
    unwritten: Unwritten,
}

impl NamedFiles {
    /// Lists the files that were read, without those that the run made itself.
    fn inputs(&self) -> Vec<PathBuf> {
        let read = self.read.iter().filter(|path| !self.made(path));
        read.cloned().collect()
    }

    /// Says whether the run made this file.
    fn made(&self, path: &Path) -> bool {
        let file = Identity::of(path);
        self.written.iter().any(|path| Identity::of(path) == file)
    }
}

impl<W: Write> Run<W> {
    /// Lists the files that the lines so far read, without those that the run made itself.
    pub fn inputs(&self) -> Vec<PathBuf> {
        self.files.inputs()
    }

    /// Loads the data of a line, block by block.
    pub(super) fn load(&mut self, data: &Data, blocks: Blocks) -> Result<Vec<Vec<u8>>, Stop> {
        let folder = &self.settings.folder;
        let read = |name: &str| self.files.unwritten.read(&folder.join(name));
        let loaded = data.load(blocks, read)?;
        if let Data::File { path, .. } = data {
            let path = self.settings.folder.join(path);
            if !self.files.read.contains(&path) {
                self.files.read.push(path);
            }
        }
        Ok(loaded)
    }

    /// Makes the output of so many bytes to a file that a line names, if it may go there.
    pub(super) fn output(&self, name: &str, length: usize) -> Result<Output, Stop> {
        let to = self.settings.folder.join(name);
        let over = self.may_replace(&to, length);
        let output = Output::new(&to, over, "what is read", self.not_to_be_replaced());
        output.check()?;
        Ok(output)
    }

    /// Says what so many bytes may replace: what an earlier run left, which has as many, and
    /// what this run made, whatever it has.
    fn may_replace(&self, to: &Path, length: usize) -> Over {
        match self.writes_files() && !self.files.made(to) {
            true => Over::Bytes(length),
            false => Over::Own(length),
        }
    }

    /// Lists what no output of the run may replace, and says what each is.
    fn not_to_be_replaced(&self) -> Vec<(PathBuf, &'static str)> {
        let standard = Path::new("/dev/stdin").to_path_buf();
        let plan = self.settings.plan.clone().unwrap_or(standard);
        let mut all = vec![
            (plan, "the plan that is run"),
            (PathBuf::from("/dev/stdout"), "where the output goes"),
        ];
        if let Some(path) = &self.settings.platter {
            all.push((path.clone(), "the platter in use"));
            let list = platter::unreadable_file(path);
            all.extend(list.map(|list| (list, "the list of the platter in use")));
        }
        let inputs = self.inputs().into_iter();
        all.extend(inputs.map(|path| (path, "a file that the plan reads")));
        all
    }

    /// Says whether a line may write a file. One run of many writes none, nor does a run
    /// for a picture or a page, whose platter is a blank one in memory.
    pub(super) fn writes_files(&self) -> bool {
        !(self.settings.one_of_many || self.settings.moments || self.settings.log)
    }

    /// Writes what was read to a file, or keeps it if the run writes none.
    pub(super) fn write_to(&mut self, name: &str, bytes: &[u8]) -> Result<(), Stop> {
        let output = self.output(name, bytes.len())?;
        if self.writes_files() {
            files::write(&output, bytes)?;
        } else {
            self.files.unwritten.keep(&output.to, bytes)?;
        }
        self.files.written.push(output.to);
        Ok(())
    }
}
