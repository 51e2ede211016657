//! The program `books`, run on files in a temporary folder: what it prints,
//! its exit status, and what it leaves in the files.

use chantgarden::Job;
use std::path::{Path, PathBuf};
use std::process::{Command, Output};
use std::sync::LazyLock;
use std::{env, fs, process, thread};

/// A job record, which is read from the notation once.
type Record = LazyLock<Vec<u8>>;

/// Adds 1 to word 0, then halts with yes; halts with yes; halts with no.
static ADD: Record = LazyLock::new(|| {
    notated(
        "
        load r0 w0
        set r1 1
        add r0 r1
        store r0 w0
        halt yes",
    )
});
static YES: Record = LazyLock::new(|| notated("halt yes"));
static NO: Record = LazyLock::new(|| notated("halt no"));

fn notated(text: &str) -> Vec<u8> {
    let job: Job = text.parse().expect("it is good");
    job.record().to_vec()
}

/// A folder of one test's own, removed at its end.
struct Folder(PathBuf);

impl Folder {
    /// With a line book (jobs 3 and 300), a factory book (jobs 3 and 9), an
    /// empty book, a book that is bad at its second entry, and job records.
    fn new(test: &str) -> Folder {
        let name = format!("chantgarden-books-{test}-{}", process::id());
        let folder = Folder(env::temp_dir().join(name));
        fs::create_dir(&folder.0).expect("it is not there");
        let line = [entry(3, &ADD), entry(300, &YES)].concat();
        folder.put("line", &line);
        folder.put("factory", &[entry(3, &NO), entry(9, &NO)].concat());
        folder.put("empty", &[]);
        folder.put("bad", &[entry(3, &ADD), entry(3, &YES)].concat());
        folder.put("yes", &YES);
        folder
    }

    fn put(&self, file: &str, bytes: &[u8]) {
        fs::write(self.0.join(file), bytes).expect("it can be written");
    }

    fn get(&self, file: &str) -> Vec<u8> {
        fs::read(self.0.join(file)).expect("it can be read")
    }

    /// The names of all files, in order.
    fn files(&self) -> Vec<String> {
        let all = fs::read_dir(&self.0).expect("it is there");
        let name = |file: fs::DirEntry| file.file_name().into_string().expect("it is text");
        let mut names: Vec<String> = all.map(|file| name(file.expect("it is there"))).collect();
        names.sort();
        names
    }

    fn run(&self, words: &str) -> Output {
        let words = words.split_whitespace();
        let mut books = Command::new(env!("CARGO_BIN_EXE_books"));
        let books = books.args(words).current_dir(&self.0);
        books.output().expect("it runs")
    }

    /// It does it and prints this.
    fn does(&self, words: &str, text: &str) {
        let output = self.run(words);
        assert_eq!(told(&output.stderr), "", "{words}");
        assert_eq!(told(&output.stdout), text, "{words}");
        assert_eq!(output.status.code(), Some(0), "{words}");
    }

    /// It does not, says so with this status, and changes no file.
    fn fails(&self, words: &str, status: i32, why: &str) {
        let before = self.all();
        let output = self.run(words);
        assert_eq!(told(&output.stdout), "", "{words}");
        let said = told(&output.stderr);
        assert!(said.starts_with(why), "{words}: {said}");
        assert_eq!(output.status.code(), Some(status), "{words}");
        assert!(self.all() == before, "{words}");
    }

    fn all(&self) -> Vec<(String, Vec<u8>)> {
        let files = self.files().into_iter();
        files.map(|file| (file.clone(), self.get(&file))).collect()
    }
}

impl Drop for Folder {
    fn drop(&mut self) {
        fs::remove_dir_all(&self.0).expect("it is there");
    }
}

fn told(bytes: &[u8]) -> &str {
    std::str::from_utf8(bytes).expect("it is text")
}

fn entry(number: u16, job: &[u8]) -> Vec<u8> {
    let head = [6 + job.len() as u16, 5, number].map(u16::to_le_bytes);
    [&head.concat(), job].concat()
}

#[test]
fn lists_and_checks() {
    let folder = Folder::new("lists");
    let line =
        "3: 5 instructions, 24 bytes from offset 6\n300: 1 instruction, 8 bytes from offset 36\n";
    folder.does("list line", line);
    folder.does("list empty", "");
    folder.does("check line", "line is good: 2 jobs, 44 bytes\n");
    folder.does("check empty", "empty is good: 0 jobs, 0 bytes\n");
    for what in ["list", "check"] {
        let why =
            "refused 18: the book bad is malformed: its first bad entry begins at offset 30\n";
        folder.fails(&format!("{what} bad"), 1, why);
        folder.fails(&format!("{what} yes"), 1, "refused 18: the book yes");
        folder.fails(&format!("{what} none"), 2, "none: ");
    }
}

#[test]
fn finds() {
    let folder = Folder::new("finds");
    let add = "180001000200000001010100050001000300000000010000";
    let line = format!("{add}\nline book line, from offset 6\n");
    folder.does("find 3 line factory", &line);
    folder.does("find 3 line", &line);
    let no = "0800010000000000\nfactory book factory, from offset 20\n";
    folder.does("find 9 line factory", no);
    folder.does("find 9 empty factory", no);
    folder.fails("find 9 line", 1, "refused 19: no book has a job 9\n");
    folder.fails(
        "find 8 line factory",
        1,
        "refused 19: no book has a job 8\n",
    );
    let above = "refused 19: job numbers end at 65535, so there is no job 65536\n";
    folder.fails("find 65536 line factory", 1, above);
}

#[test]
fn finds_nothing_in_malformed_books() {
    let folder = Folder::new("malformed");
    let why = |book: &str| {
        format!("refused 18: the book bad (the {book} book) is malformed: its first bad entry begins at offset 30\n")
    };
    for number in [3, 300, 8, 65_536] {
        folder.fails(&format!("find {number} bad line"), 1, &why("line"));
        folder.fails(&format!("find {number} line bad"), 1, &why("factory"));
        folder.fails(&format!("find {number} bad bad"), 1, &why("line"));
    }
}

#[test]
fn adds() {
    let folder = Folder::new("adds");
    let files = folder.files();
    folder.does("add 8 yes line", "line has job 8 now, and 58 bytes\n");
    let whole = [entry(3, &ADD), entry(8, &YES), entry(300, &YES)];
    assert_eq!(folder.get("line"), whole.concat());
    for number in ["65535", "0"] {
        let output = folder.run(&format!("add {number} yes empty"));
        assert_eq!(output.status.code(), Some(0));
    }
    assert_eq!(
        folder.get("empty"),
        [entry(0, &YES), entry(65_535, &YES)].concat()
    );
    assert_eq!(folder.files(), files, "no file is left over");
}

/// Each refusal names the file at fault, and no file is changed.
#[test]
fn adds_nothing() {
    let folder = Folder::new("adds_nothing");
    folder.put("short", &YES[..7]);
    folder.put("kind", &[8, 0, 2, 0, 0, 1, 0, 0]);
    folder.put("seven", &[12, 0, 1, 0, 1, 0, 0, 0, 1, 0, 0, 0]);
    for (words, why) in [
        (
            "8 yes bad",
            "refused 18: the book bad is malformed: its first bad entry begins at offset 30\n",
        ),
        ("65536 yes line", "refused 19: job numbers end at 65535"),
        (
            "8 short line",
            "refused 5: short is no job record: its length is wrong\n",
        ),
        (
            "8 kind line",
            "refused 6: kind is no job record: its kind is not 1 or 4\n",
        ),
        (
            "8 seven line",
            "refused 7: instruction 1 of seven (from 0) is badly formed",
        ),
        ("3 yes line", "refused 20: line has a job 3 already\n"),
    ] {
        folder.fails(&format!("add {words}"), 1, why);
    }
    folder.fails("add 8 none line", 2, "none: ");
    folder.fails("add 8 yes none", 2, "none: ");
}

/// While another one adds to the book, or where one was cut off, nothing is
/// changed; once its file is gone the job is added.
#[test]
fn adds_one_at_a_time() {
    let folder = Folder::new("one_at_a_time");
    folder.put("line.new", b"half");
    let output = folder.run("add 8 yes line");
    assert_eq!(output.status.code(), Some(2));
    assert!(told(&output.stderr).contains("line.new: "));
    assert!(told(&output.stderr).ends_with("remove it)\n"));
    assert_eq!(folder.get("line.new"), b"half");
    assert_eq!(
        folder.get("line"),
        [entry(3, &ADD), entry(300, &YES)].concat()
    );
    fs::remove_file(folder.0.join("line.new")).expect("it is there");
    folder.does("add 8 yes line", "line has job 8 now, and 58 bytes\n");
}

/// Of many that add at a time, each as often as it takes, none loses another's
/// job.
#[test]
fn adds_many_at_a_time() {
    let folder = Folder::new("many");
    let added = |number: u16| {
        let words = format!("add {number} yes empty");
        let done = |_| folder.run(&words).status.success();
        assert!((0..10_000).any(done), "{words}");
    };
    thread::scope(|scope| {
        for first in 0..4 {
            scope.spawn(move || (0..10).for_each(|job| added(4 * job + first)));
        }
    });
    let all: Vec<Vec<u8>> = (0..40).map(|number| entry(number, &YES)).collect();
    assert_eq!(folder.get("empty"), all.concat());
}

/// A link to a book stays a link, and who may read the book stays as it was.
#[cfg(unix)]
#[test]
fn adds_through_a_link() {
    use std::os::unix::fs::{symlink, PermissionsExt};
    let folder = Folder::new("link");
    let book = folder.0.join("line");
    fs::set_permissions(&book, PermissionsExt::from_mode(0o640)).expect("it is ours");
    symlink(Path::new("line"), folder.0.join("link")).expect("it can be made");
    folder.does("add 8 yes link", "link has job 8 now, and 58 bytes\n");
    assert_eq!(folder.get("line").len(), 58);
    let link = fs::symlink_metadata(folder.0.join("link")).expect("it is there");
    assert!(link.is_symlink());
    let mode = fs::metadata(&book)
        .expect("it is there")
        .permissions()
        .mode();
    assert_eq!(mode & 0o777, 0o640);
}

#[test]
fn wants_words_that_make_sense() {
    let folder = Folder::new("usage");
    for words in [
        "",
        "list",
        "list line factory",
        "check",
        "find 3",
        "find three line",
        "find -1 line",
        "find 3 line factory bad",
        "add 8 yes",
        "add x yes line",
        "drop 3 line",
    ] {
        folder.fails(words, 2, "usage: books list FILE");
    }
}
