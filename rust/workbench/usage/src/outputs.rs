//! What an output must not replace: the files that a command reads, platters and their
//! lists of unreadable sectors. Files are told apart by device and number, through links.

use std::ffi::OsString;
use std::fs::{self, File, Metadata};
use std::io::{self, Read, Seek, SeekFrom};
use std::os::unix::fs::{FileTypeExt, MetadataExt};
use std::path::{Path, PathBuf};

/// Length of a platter file: 9,792 sectors of 532 bytes.
pub const PLATTER_LENGTH: u64 = 9792 * 532;

/// Length of an image file: 9,728 blocks of 532 bytes.
pub const IMAGE_LENGTH: u64 = 9728 * 532;

/// Length of an image file of 9,728 blocks of 512 bytes.
const DATA_IMAGE_LENGTH: u64 = 9728 * 512;

/// Stands near the beginning of each picture that the workbench draws, by which it is known.
pub const DRAWN: &str = "<!-- drawn by the workbench -->";

/// Stands before the list at the end of a platter whose save is not over.
pub const LIST_AT_END: &str = "unreadable sectors:\n";

/// Tells a file from all others, whatever its names are.
#[derive(Clone, Copy, Debug, PartialEq, Eq)]
pub struct Identity {
    device: u64,
    number: u64,
}

impl Identity {
    /// Finds the file that a path names, through links.
    pub fn of(path: &Path) -> Option<Identity> {
        fs::metadata(path).ok().as_ref().map(Identity::from)
    }
}

impl From<&Metadata> for Identity {
    fn from(file: &Metadata) -> Identity {
        Identity {
            device: file.dev(),
            number: file.ino(),
        }
    }
}

/// Says what an output may replace.
#[derive(Clone, Copy, Debug, PartialEq, Eq)]
pub enum Over {
    /// No file at all.
    Nothing,
    /// A file of this kind, or one with nothing in it.
    Same(Kind),
    /// A file of so many bytes that is nothing known, or one with nothing in it.
    Bytes(usize),
    /// Any file that is nothing known, since this run made it or writes none. It gets so many
    /// bytes.
    Own(usize),
}

/// Names a kind of file, by which an older one is known.
#[derive(Clone, Copy, Debug, PartialEq, Eq)]
pub enum Kind {
    /// A picture in SVG that the workbench drew.
    Picture,
    /// The page of a run.
    Page,
    /// The odds of a plan as JSON.
    Odds,
}

impl Kind {
    /// Returns it in words.
    fn words(self) -> &'static str {
        match self {
            Kind::Picture => "picture",
            Kind::Page => "page of a run",
            Kind::Odds => "JSON of odds",
        }
    }

    /// Says whether a file is of this kind.
    fn has(self, path: &Path) -> bool {
        let start = beginning(path);
        let has = |text| has(&start, text);
        let begins = |text: &str| start.starts_with(text.as_bytes());
        match self {
            Kind::Picture => begins("<svg") && has(DRAWN),
            Kind::Page => begins("<!DOCTYPE html>\n") && has("<title>The run of "),
            Kind::Odds => begins("{\n  \"plan\": "),
        }
    }

    /// Says why a file that is not of this kind may not be replaced by one.
    fn why_not_over(self, path: &Path) -> String {
        match self {
            Kind::Picture if is_svg(path) => {
                format!("a picture without the workbench's mark {OTHERWISE}")
            }
            _ => format!("there already, and no {}", self.words()),
        }
    }
}

/// Says what can be done about a file that is in the way.
const OTHERWISE: &str = "(remove it, or name another file)";

/// Says what can be done about a file that is in the way and must stay.
const ELSEWHERE: &str = "(name another file)";

/// Reads the beginning of a file; nothing of one that cannot be read.
fn beginning(path: &Path) -> Vec<u8> {
    let mut start = vec![];
    let read = File::open(path).and_then(|file| file.take(1024).read_to_end(&mut start));
    read.map_or(vec![], |_| start)
}

/// Says whether bytes have this text in them.
fn has(bytes: &[u8], text: &str) -> bool {
    let mut parts = bytes.windows(text.len());
    parts.any(|part| part == text.as_bytes())
}

/// Says whether a file is a picture in SVG, whoever drew it.
fn is_svg(path: &Path) -> bool {
    has(&beginning(path), "<svg")
}

/// Says where an output goes, and what it must leave alone.
#[derive(Clone, Debug)]
pub struct Output {
    pub to: PathBuf,
    pub over: Over,
    /// Names it in messages: "the picture".
    what: &'static str,
    /// The files that it is made from, and what each is: "the plan that is drawn".
    inputs: Vec<(PathBuf, &'static str)>,
}

impl Output {
    /// Makes an output that is made from these files.
    pub fn new(
        to: &Path,
        over: Over,
        what: &'static str,
        inputs: Vec<(PathBuf, &'static str)>,
    ) -> Output {
        Output {
            to: to.to_path_buf(),
            over,
            what,
            inputs,
        }
    }

    /// Makes an output that goes to a new file.
    pub fn to_new(to: &Path, what: &'static str) -> Output {
        Output::new(to, Over::Nothing, what, vec![])
    }

    /// Says of an output which file it is made from.
    pub fn made_from(mut self, source: &Path, what: &'static str) -> Output {
        self.inputs.push((source.to_path_buf(), what));
        self
    }

    /// Makes the picture of a platter, or of a table's image.
    pub fn picture(source: &Path, to: &Path) -> Output {
        let mut inputs = vec![(source.to_path_buf(), "what is drawn")];
        inputs.extend(list_of(source).map(|list| (list, "the list of what is drawn")));
        Output::new(to, Over::Same(Kind::Picture), "the picture", inputs)
    }

    /// Makes the picture of a plan's run, which read these files.
    pub fn timeline(plan: &Path, read: &[PathBuf], to: &Path) -> Output {
        let inputs = inputs((plan, "the plan that is drawn"), read);
        Output::new(to, Over::Same(Kind::Picture), "the picture", inputs)
    }

    /// Makes the odds of a plan, which read these files, as JSON.
    pub fn odds(plan: &Path, read: &[PathBuf], to: &Path) -> Output {
        let over = Over::Same(Kind::Odds);
        Output::new(to, over, "the JSON of the odds", said_inputs(plan, read))
    }

    /// Makes the picture of the odds of a plan, which read these files.
    pub fn odds_picture(plan: &Path, read: &[PathBuf], to: &Path) -> Output {
        let over = Over::Same(Kind::Picture);
        Output::new(to, over, "the picture", said_inputs(plan, read))
    }

    /// Makes the page of a plan's run, which read these files.
    pub fn page(plan: &Path, read: &[PathBuf], to: &Path) -> Output {
        let over = Over::Same(Kind::Page);
        Output::new(to, over, "the page", said_inputs(plan, read))
    }

    /// Says what keeps the output from going where it is to go, if anything does.
    pub fn check(&self) -> Result<(), String> {
        let why = match fs::metadata(&self.to) {
            Ok(found) => self.why_not_over(&found),
            // Whatever else is the matter is told when the file is written.
            Err(_) => None,
        };
        match why.or_else(|| self.why_not_a_list()) {
            None => Ok(()),
            Some(why) => Err(format!(
                "{} is {why}: {} is not written there",
                self.to.display(),
                self.what
            )),
        }
    }

    /// Says why a file that is there may not be replaced.
    fn why_not_over(&self, found: &Metadata) -> Option<String> {
        let kind = found.file_type();
        if kind.is_dir() {
            return Some(String::from("a folder"));
        }
        if kind.is_block_device() {
            return Some(String::from("a device with data of its own"));
        }
        if self.over == Over::Nothing {
            return Some(self.why_not_new(found));
        }
        if !kind.is_file() {
            return None;
        }
        let input = self.input(found).map(String::from);
        input.or_else(|| self.why_not_over_this(found))
    }

    /// Says which of the inputs a file is, if it is one.
    fn input(&self, found: &Metadata) -> Option<&'static str> {
        let same = |(path, _): &&(PathBuf, _)| Identity::of(path) == Some(found.into());
        self.inputs.iter().find(same).map(|(_, what)| *what)
    }

    /// Says what is there in the place of a new file. Nobody is told to remove what cannot be
    /// made again.
    fn why_not_new(&self, found: &Metadata) -> String {
        let there = String::from("there already");
        let stays = match self.input(found) {
            Some(input) => Some(String::from(input)),
            None if found.is_file() => kept(&self.to, found.len()),
            None => Some(there.clone()),
        };
        match stays {
            Some(what) => format!("{what} {ELSEWHERE}"),
            None => {
                let list = self.why_not_a_list();
                list.unwrap_or_else(|| format!("{there} {OTHERWISE}"))
            }
        }
    }

    /// Says why a plain file that is no input may not be replaced.
    fn why_not_over_this(&self, found: &Metadata) -> Option<String> {
        if is_platter(&self.to) {
            return Some(String::from("a platter"));
        }
        match self.over {
            Over::Same(kind) if found.len() > 0 && !kind.has(&self.to) => {
                Some(kind.why_not_over(&self.to))
            }
            Over::Bytes(length) => known_as(&self.to, found.len(), length)
                .or_else(|| of_another_length(found.len(), length)),
            Over::Own(length) => known_as(&self.to, found.len(), length),
            _ => None,
        }
    }

    /// Says so if the file is a platter's list, be it there or not.
    fn why_not_a_list(&self) -> Option<String> {
        let platter = platter_of_list(&self.to)?;
        let platter = platter.display();
        Some(format!("the list of unreadable sectors of {platter}"))
    }
}

/// Lists a plan and the files that it read.
fn inputs(plan: (&Path, &'static str), read: &[PathBuf]) -> Vec<(PathBuf, &'static str)> {
    let mut inputs = vec![(plan.0.to_path_buf(), plan.1)];
    let read = read.iter().cloned();
    inputs.extend(read.map(|path| (path, "a file that the plan reads")));
    inputs
}

/// Lists a plan, the files that it read, and where it is told what came of it.
fn said_inputs(plan: &Path, read: &[PathBuf]) -> Vec<(PathBuf, &'static str)> {
    let mut inputs = inputs((plan, "the plan that is run"), read);
    inputs.push((PathBuf::from("/dev/stdout"), "where the output goes"));
    inputs
}

/// Finds the file that a path names through links, be it there or not.
pub fn followed(path: &Path) -> io::Result<PathBuf> {
    let mut path = path.to_path_buf();
    // As many as the system follows.
    for _ in 0..40 {
        match fs::symlink_metadata(&path) {
            Ok(found) if found.is_symlink() => {
                let to = fs::read_link(&path)?;
                path = path.parent().unwrap_or(Path::new("")).join(to);
            }
            Err(error) if error.kind() != io::ErrorKind::NotFound => return Err(error),
            _ => return Ok(path),
        }
    }
    Err(io::Error::other("its links lead to no file"))
}

/// Says whether two names lead to one file, be it there or not.
pub fn are_one(one: &Path, other: &Path) -> bool {
    match (Identity::of(one), Identity::of(other)) {
        (None, None) => place(one) == place(other),
        (one, other) => one == other,
    }
}

/// Finds the place of a file that is not there: its folder, by itself or by its name if there
/// is none, and its name.
fn place(path: &Path) -> (Option<Identity>, Option<PathBuf>, Option<OsString>) {
    let path = followed(path).unwrap_or(path.to_path_buf());
    let folder = match path.parent() {
        Some(folder) if folder != Path::new("") => folder,
        _ => Path::new("."),
    };
    let found = Identity::of(folder);
    let named = found.is_none().then(|| folder.to_path_buf());
    (found, named, path.file_name().map(OsString::from))
}

/// Names the list of unreadable sectors that belongs to a platter's file. It stands beside
/// the file itself, and not beside a link to it.
pub fn list_of(platter: &Path) -> io::Result<PathBuf> {
    let mut name = followed(platter)?.into_os_string();
    name.push(".unreadable");
    Ok(PathBuf::from(name))
}

/// Finds the platter whose list has this name.
pub fn platter_of_list(path: &Path) -> Option<PathBuf> {
    let path = followed(path).ok()?;
    let is_list = path.extension().is_some_and(|end| end == "unreadable");
    let platter = path.with_extension("");
    (is_list && is_platter(&platter)).then_some(platter)
}

/// Says whether a file is a platter: by its length, or by the list at its end.
pub fn is_platter(path: &Path) -> bool {
    let length = match fs::metadata(path) {
        Ok(found) if found.is_file() => found.len(),
        _ => return false,
    };
    let list = || has_at(path, PLATTER_LENGTH, LIST_AT_END).unwrap_or(false);
    length == PLATTER_LENGTH || length > PLATTER_LENGTH && list()
}

/// Says whether a file has this text at a place.
fn has_at(path: &Path, place: u64, text: &str) -> io::Result<bool> {
    let mut file = File::open(path)?;
    file.seek(SeekFrom::Start(place))?;
    let mut bytes = vec![0; text.len()];
    file.read_exact(&mut bytes)?;
    Ok(bytes == text.as_bytes())
}

/// Says what a file of this length is, if it holds a drive's data: a platter, a table's image
/// or an image of blocks.
fn kept(path: &Path, length: u64) -> Option<String> {
    match is_platter(path) {
        true => Some(String::from("a platter")),
        false => table_image(path).or_else(|| image(path, length)),
    }
}

/// Says so if a file is a table's image, or what `put-table` kept.
fn table_image(path: &Path) -> Option<String> {
    let name = path.file_name().unwrap_or_default().to_string_lossy();
    let table = |text: &[u8]| {
        let mut start = vec![0; text.len()];
        let read = File::open(path).and_then(|mut file| file.read_exact(&mut start));
        read.is_ok() && start == text
    };
    let is_table = table(b"PROFILE") || table(b"\xF0\x78\x3C\x1E") || name.contains(".old-table");
    is_table.then(|| String::from("a table's image"))
}

/// Says what a file is that another command made, or that belongs to a platter, if it is
/// one: a table's image, what `put-table` kept, a picture, a page, odds.
fn made_otherwise(path: &Path) -> Option<String> {
    if let Some(table) = table_image(path) {
        return Some(table);
    }
    if is_svg(path) {
        return Some(String::from("a picture"));
    }
    let mut kinds = [Kind::Page, Kind::Odds].into_iter();
    let kind = kinds.find(|kind| kind.has(path))?;
    Some(format!("a {}", kind.words()))
}

/// Says what a file of this length is that so many bytes may not replace, if it is known.
fn known_as(path: &Path, length: u64, bytes: usize) -> Option<String> {
    let other = length != bytes as u64;
    made_otherwise(path).or_else(|| other.then(|| image(path, length)).flatten())
}

/// Says that a file with something in it has another length than these bytes, if it does.
fn of_another_length(length: u64, bytes: usize) -> Option<String> {
    let other = length > 0 && length != bytes as u64;
    other.then(|| format!("there already, with {length} bytes and not {bytes} {OTHERWISE}"))
}

/// Says what image of blocks a file of this length is, if it is one.
fn image(path: &Path, length: u64) -> Option<String> {
    match length {
        IMAGE_LENGTH | DATA_IMAGE_LENGTH => Some(String::from("an image of 9728 blocks")),
        _ => is_disk_copy(path, length)
            .unwrap_or(false)
            .then(|| String::from("a DiskCopy 4.2 image")),
    }
}

/// Says whether a file of this length has a header of DiskCopy 4.2: its mark, and sizes of
/// data and tags that fit.
fn is_disk_copy(path: &Path, length: u64) -> io::Result<bool> {
    let mut header = [0; 84];
    File::open(path)?.read_exact(&mut header)?;
    let size = |at: usize| {
        header[at..at + 4]
            .iter()
            .fold(0, |n, &b| n * 256 + u64::from(b))
    };
    Ok(header[82..] == [1, 0] && 84 + size(64) + size(68) == length)
}

#[cfg(test)]
mod tests {
    use super::*;
    use std::os::unix::fs::symlink;

    /// Makes an empty folder for one test.
    fn folder(name: &str) -> PathBuf {
        let folder = std::env::temp_dir().join(format!("workbench-{}-{name}", std::process::id()));
        let _ = fs::remove_dir_all(&folder);
        fs::create_dir(&folder).expect("a folder");
        folder
    }

    /// Makes a file of this length.
    fn file(path: &Path, length: u64) {
        let made = File::create(path).and_then(|file| file.set_len(length));
        made.expect("a file");
    }

    fn refusal(output: Output) -> String {
        output.check().expect_err("a refusal")
    }

    #[test]
    fn what_is_drawn_is_not_replaced_under_any_name() {
        let here = folder("outputs");
        let [plan, hard, soft, other] = ["a.plan", "hard", "soft", "b.plan"].map(|n| here.join(n));
        fs::write(&plan, format!("<svg>{DRAWN}")).expect("written");
        fs::write(&other, "start\n").expect("written");
        fs::hard_link(&plan, &hard).expect("a link");
        symlink("a.plan", &soft).expect("a link");
        for to in [&plan, &hard, &soft, &here.join("./a.plan")] {
            let words = "is the plan that is drawn: the picture is not written there";
            let message = refusal(Output::timeline(&plan, &[], to));
            assert_eq!(message, format!("{} {words}", to.display()));
            let message = refusal(Output::timeline(&other, std::slice::from_ref(&soft), to));
            assert!(message.contains(" is a file that the plan reads: "));
            assert_eq!(Output::timeline(&other, &[], to).check(), Ok(()));
        }
        let message = refusal(Output::timeline(&plan, &[], &other));
        assert!(
            message.contains("b.plan is there already, and no picture: "),
            "{message}"
        );
        fs::write(&other, "").expect("written");
        assert_eq!(Output::timeline(&plan, &[], &other).check(), Ok(()));
        fs::remove_dir_all(here).expect("removed");
    }

    #[test]
    fn a_picture_replaces_what_the_workbench_drew_alone() {
        let here = folder("drawn");
        let [source, to] = ["p", "a.svg"].map(|name| here.join(name));
        let ways = [
            Output::picture(&source, &to),
            Output::timeline(&source, &[], &to),
            Output::odds_picture(&source, &[], &to),
        ];
        for (held, why) in [
            (format!("<svg width=\"9\">\n{DRAWN}\n"), None),
            (String::from("<svg>\n<title>old</title>"), Some(UNMARKED)),
            (format!("<?xml?>\n<svg>{DRAWN}"), Some(UNMARKED)),
            (format!("<svg>{}{DRAWN}", " ".repeat(1024)), Some(UNMARKED)),
            (format!("{DRAWN}\n"), Some("there already, and no picture")),
        ] {
            fs::write(&to, &held).expect("written");
            let refused = why.map(|why| {
                let to = to.display();
                format!("{to} is {why}: the picture is not written there")
            });
            for output in &ways {
                assert_eq!(output.check().err(), refused, "{held}");
            }
        }
        fs::remove_dir_all(here).expect("removed");
    }

    const UNMARKED: &str =
        "a picture without the workbench's mark (remove it, or name another file)";

    #[test]
    fn a_platter_is_not_replaced_and_its_list_neither() {
        let here = folder("platters");
        let [platter, link, list] = ["p", "link", "p.unreadable"].map(|n| here.join(n));
        symlink("p", &link).expect("a link");
        let bytes = |to: &Path| Output::new(to, Over::Bytes(532), "what is read", vec![]);
        for length in [0, 532, PLATTER_LENGTH - 1, PLATTER_LENGTH + 50] {
            file(&platter, length);
            let own = Output::new(&link, Over::Own(532), "what is read", vec![]);
            assert_eq!(own.check(), Ok(()), "{length}");
            assert_eq!(bytes(&list).check(), Ok(()), "{length}");
        }
        let at_end = [
            &vec![0; PLATTER_LENGTH as usize][..],
            LIST_AT_END.as_bytes(),
        ]
        .concat();
        for length in [PLATTER_LENGTH as usize, at_end.len()] {
            fs::write(&platter, &at_end[..length]).expect("written");
            let message = refusal(bytes(&link));
            assert!(message.contains("/link is a platter: what is read is not written there"));
            for output in [bytes(&list), Output::to_new(&list, "the image")] {
                let message = refusal(output);
                let words = "p.unreadable is the list of unreadable sectors of ";
                assert!(message.contains(words), "{message}");
            }
        }
        file(&platter, IMAGE_LENGTH);
        assert!(refusal(bytes(&link)).contains("/link is an image of 9728 blocks: "));
        let all = Output::new(&link, Over::Bytes(IMAGE_LENGTH as usize), "all", vec![]);
        assert_eq!(all.check(), Ok(()));
        fs::remove_dir_all(here).expect("removed");
    }

    #[test]
    fn bytes_replace_as_many_bytes_or_none() {
        let here = folder("lengths");
        let to = here.join("a.dat");
        let over = |over| Output::new(&to, over, "what is read", vec![]);
        for (length, refused) in [(0, false), (531, true), (532, false), (533, true)] {
            file(&to, length);
            let message = over(Over::Bytes(532)).check().err();
            let words = format!(
                "{} is there already, with {length} bytes and not 532 (remove it, or name \
                 another file): what is read is not written there",
                to.display()
            );
            assert_eq!(message, refused.then_some(words));
            assert_eq!(over(Over::Own(532)).check(), Ok(()));
        }
        fs::remove_dir_all(here).expect("removed");
    }

    #[test]
    fn what_is_no_plain_file_and_what_must_be_new() {
        let here = folder("kinds");
        let message = refusal(Output::picture(&here.join("p"), &here));
        assert!(message.ends_with(" is a folder: the picture is not written there"));
        let null = Path::new("/dev/null");
        assert_eq!(Output::picture(null, null).check(), Ok(()));
        let there = here.join("there");
        fs::write(&there, "").expect("written");
        for (to, advice) in [(null, "(name"), (&there, "(remove it, or name")] {
            let message = refusal(Output::to_new(to, "the image"));
            let words = format!(" is there already {advice} another file): the image is not ");
            assert!(message.contains(&words), "{message}");
        }
        let output = Output::to_new(&here.join("new"), "the image");
        assert_eq!(output.check(), Ok(()));
        fs::remove_dir_all(here).expect("removed");
    }

    #[test]
    fn links_are_followed_to_what_they_name() {
        let here = folder("links");
        let [one, two, round] = ["one", "two", "round"].map(|name| here.join(name));
        symlink("two", &one).expect("a link");
        symlink("none/file", &two).expect("a link");
        symlink("round", &round).expect("a link");
        assert_eq!(followed(&one).expect("a name"), here.join("none/file"));
        assert_eq!(
            list_of(&one).expect("a name"),
            here.join("none/file.unreadable")
        );
        assert!(followed(&round).is_err());
        fs::remove_dir_all(here).expect("removed");
    }

    #[test]
    fn names_of_one_file_are_known_be_it_there_or_not() {
        let here = folder("one");
        fs::create_dir(here.join("far")).expect("a folder");
        symlink("far", here.join("near")).expect("a link");
        symlink("far/o", here.join("link")).expect("a link");
        let one = |a: &str, b: &str| are_one(&here.join(a), &here.join(b));
        for _ in 0..2 {
            for name in ["far/o", "far/./o", "far/../far/o", "near/o", "link"] {
                assert!(one("far/o", name) && one(name, "far/o"), "{name}");
            }
            for name in ["o", "far/p", "far", "none/o"] {
                assert!(!one("far/o", name) && !one(name, "link"), "{name}");
            }
            fs::write(here.join("far/o"), "").expect("written");
        }
        assert!(one("none/o", "none/o") && !one("none/o", "far/none/o"));
        assert!(are_one(Path::new("none"), Path::new("./none")));
        fs::remove_dir_all(here).expect("removed");
    }
}
