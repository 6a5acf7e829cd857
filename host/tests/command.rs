//! The command: what it prints and its exit status.

use std::ffi::OsStr;
use std::fs;
use std::io::Write;
use std::path::{Path, PathBuf};
use std::process::{Command, Stdio};

/// A run: exit status, standard output, standard error.
struct Run {
    status: Option<i32>,
    out: Vec<u8>,
    err: String,
}

impl Run {
    fn text(&self) -> &str {
        std::str::from_utf8(&self.out).expect("text")
    }
}

fn run_with<A: AsRef<OsStr>>(arguments: &[A], input: &[u8]) -> Run {
    let mut child = Command::new(env!("CARGO_BIN_EXE_rowlist-host"))
        .args(arguments)
        .stdin(Stdio::piped())
        .stdout(Stdio::piped())
        .stderr(Stdio::piped())
        .spawn()
        .expect("the command starts");
    // A command that reads nothing may be gone already.
    let _ = child.stdin.take().expect("a pipe").write_all(input);
    let output = child.wait_with_output().expect("the command ends");
    Run { status: output.status.code(), out: output.stdout, err: String::from_utf8(output.stderr).expect("text") }
}

fn run<A: AsRef<OsStr>>(arguments: &[A]) -> Run {
    run_with(arguments, &[])
}

/// A folder of its own for each test.
fn folder(name: &str) -> PathBuf {
    let folder = Path::new(env!("CARGO_TARGET_TMPDIR")).join(name);
    fs::create_dir_all(&folder).expect("a folder");
    folder
}

fn made(folder: &Path, name: &str, text: &str) -> PathBuf {
    let file = folder.join(name);
    let run = run_with(&[OsStr::new("make"), OsStr::new("-"), file.as_os_str()], text.as_bytes());
    assert_eq!((run.status, run.err.as_str(), run.text()), (Some(0), "", ""));
    file
}

fn on(command: &str, files: &[&Path]) -> Run {
    let mut arguments = vec![OsStr::new(command)];
    arguments.extend(files.iter().map(|file| file.as_os_str()));
    run(&arguments)
}

const LEFT: &str = "family prefix\n0 reject 20.0.0.0/8 8-24\ndefault accept\n";
const RIGHT: &str = "family prefix\n0 reject 20.0.0.0/8 8-16\ndefault accept\n";
const PACKETS: &str = "family packet\n0 reject 10.0.0.0-10.0.0.9 protocol 6-6 port 80-80\ndefault accept\n";

#[test]
fn compares() {
    let folder = folder("compares");
    let left = made(&folder, "left.flt", LEFT);
    let right = made(&folder, "right.flt", RIGHT);
    let differences = on("compare", &[&left, &right]);
    assert_eq!(differences.text(), "rows 1\n0 d 20.0.0.0/8 8-24 - 20.0.0.0/8 8-16\n");
    assert_eq!((differences.status, differences.err.as_str()), (Some(1), ""));

    let none = on("compare", &[&left, &left]);
    assert_eq!((none.status, none.text(), none.err.as_str()), (Some(0), "rows 0\n", ""));
}

#[test]
fn tells_which_file_is_refused() {
    let folder = folder("tells_which_file_is_refused");
    let good = made(&folder, "good.flt", LEFT);
    let bad = folder.join("bad.flt");
    fs::write(&bad, [1, 1, 0x10, 0, 0]).expect("a file");
    let empty = folder.join("empty.flt");
    fs::write(&empty, []).expect("a file");

    let left = on("compare", &[&bad, &good]);
    assert_eq!((left.status, left.text()), (Some(2), ""));
    assert!(
        left.err.contains(&format!("left file {}: refused with 15: a map has a bit", bad.display())),
        "{}",
        left.err
    );
    assert!(left.err.contains("unproved: clause 0, byte 2"), "{}", left.err);
    assert!(!left.err.contains("right file"), "{}", left.err);

    let right = on("compare", &[&good, &empty]);
    assert_eq!(right.status, Some(2));
    assert!(right.err.contains("right file") && right.err.contains("refused with 12"), "{}", right.err);
    assert!(right.err.contains("unproved: head, byte 0"), "{}", right.err);
    assert!(!right.err.contains("left file"), "{}", right.err);

    let both = on("compare", &[&bad, &empty]);
    assert_eq!(both.status, Some(2));
    assert!(both.err.contains("left file") && both.err.contains("right file"), "{}", both.err);
}

#[test]
fn compares_prefix_ranges_only() {
    let folder = folder("compares_prefix_ranges_only");
    let good = made(&folder, "good.flt", LEFT);
    let packets = made(&folder, "packets.flt", PACKETS);
    for (left, right, side) in [(&packets, &good, "left"), (&good, &packets, "right"), (&packets, &packets, "left")] {
        let run = on("compare", &[left, right]);
        assert_eq!((run.status, run.text()), (Some(2), ""));
        assert!(run.err.contains(&format!("{side} file {}: refused with 13", packets.display())), "{}", run.err);
    }
}

#[test]
fn tells_that_a_comparison_was_declined() {
    let folder = folder("tells_that_a_comparison_was_declined");
    let mut text = "family prefix\n".to_owned();
    for band in 0..11 {
        text += &format!("accept 128.0.0.0/1 {}-{}\n", 10 + 2 * band, 12 + 2 * band);
    }
    for prefix in 200..250 {
        text += &format!("accept {prefix}.0.0.0/8 8-32\n");
    }
    text += "default reject\n";
    let left = made(&folder, "left.flt", &text);
    let right = made(&folder, "right.flt", RIGHT);
    let run = on("compare", &[&left, &right]);
    assert_eq!((run.status, run.text()), (Some(2), ""));
    assert!(run.err.contains("comparison refused with 9"), "{}", run.err);
}

#[test]
fn checks_and_shows() {
    let folder = folder("checks_and_shows");
    for (name, text) in [("left.flt", LEFT), ("packets.flt", PACKETS)] {
        let file = made(&folder, name, text);
        let check = on("check", &[&file]);
        assert_eq!((check.status, check.text(), check.err.as_str()), (Some(0), "good\n", ""));
        let show = on("show", &[&file]);
        assert_eq!((show.status, show.text(), show.err.as_str()), (Some(0), text, ""));
        let bytes = fs::read(&file).expect("the file");
        assert_eq!(run_with(&["show", "-"], &bytes).text(), text);
        assert_eq!(run_with(&["make", "-", "-"], text.as_bytes()).out, bytes);
    }
    let broken = folder.join("broken.flt");
    fs::write(&broken, [1, 1, 2, 40, 0, 1]).expect("a file");
    for command in ["check", "show"] {
        let run = on(command, &[&broken]);
        assert_eq!((run.status, run.text()), (Some(2), ""));
        assert!(run.err.contains("refused with 17"), "{}", run.err);
        assert!(run.err.contains("unproved: clause 0, byte 2, cause 1"), "{}", run.err);
    }
}

#[test]
fn makes_nothing_from_a_mistake() {
    let folder = folder("makes_nothing_from_a_mistake");
    let text = folder.join("filter.txt");
    let out = folder.join("filter.flt");
    let _ = fs::remove_file(&out);
    fs::write(&text, "family prefix\nreject 20.0.0.0/8 8-33\ndefault accept\n").expect("a file");
    let run = on("make", &[&text, &out]);
    assert_eq!((run.status, run.text()), (Some(2), ""));
    assert!(run.err.contains("line 2: 20.0.0.0/8 8-33"), "{}", run.err);
    assert!(!out.exists());

    assert_eq!(run_with(&["make", "-", "-"], &[b'f', 0xFF]).status, Some(2));
}

#[test]
fn unreadable_files_and_wrong_arguments() {
    let folder = folder("unreadable_files_and_wrong_arguments");
    let missing = folder.join("missing.flt");
    for command in ["check", "show"] {
        let run = on(command, &[&missing]);
        assert_eq!((run.status, run.text()), (Some(2), ""));
        assert!(run.err.contains("missing.flt"), "{}", run.err);
    }
    assert_eq!(on("compare", &[&missing, &missing]).status, Some(2));
    assert_eq!(on("make", &[&missing, &folder.join("out.flt")]).status, Some(2));

    for arguments in
        [&[][..], &["compare"], &["compare", "a"], &["compare", "a", "b", "c"], &["check"], &["diff", "a", "b"]]
    {
        let run = run(arguments);
        assert_eq!((run.status, run.text()), (Some(2), ""));
        assert!(run.err.contains("--help"), "{}", run.err);
    }
}

#[test]
fn helps() {
    let run = run(&["--help"]);
    assert_eq!((run.status, run.err.as_str()), (Some(0), ""));
    for word in ["compare", "check", "show", "make", "Exit status", "proved"] {
        assert!(run.text().contains(word), "{word}");
    }
}
