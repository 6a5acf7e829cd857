//! The command: two files compared by the proved call, and what helps to write and to look at such files.

use std::env;
use std::ffi::{OsStr, OsString};
use std::fmt::Display;
use std::fs;
use std::io::{self, Read, Write};
use std::process::ExitCode;

use rowlist_host::filter::{Family, Filter};
use rowlist_host::{Refusal, check, compare};

const HELP: &str = "\
usage:
  rowlist-host compare LEFT RIGHT   print the routes that two filters treat unlike
  rowlist-host check FILE           tell whether FILE is a good filter file
  rowlist-host show FILE            print FILE as text
  rowlist-host make TEXT OUT        write the filter file OUT from text as `show` prints it
  rowlist-host --help

A file that is to be read may be -, which is standard input; OUT may be -, which is standard output.

Exit status: 0 if it was done, and in `compare` if every route is treated alike; 1 if `compare` found a difference;
2 if a file was refused or not read, the comparison was declined, or the arguments make no sense.

What is proved: which files `compare` and `check` refuse with which number, and what the listing of two good files is, by
the contracts of the two calls in the library host_calls. What is not: this command. It reads files, passes on what the calls
answer, and where it tells a clause and a byte it has found these itself; it marks them as unproved. `show` and `make`
are not proved, but `make` writes no file that the proved call refuses.
";

/// Every route is treated alike; or it was done.
const DONE: u8 = 0;
const DIFFERENCES: u8 = 1;
const REFUSED: u8 = 2;

/// Why there was nothing to do or to print. Each line is printed behind the name of the command.
type Complaint = Vec<String>;

fn main() -> ExitCode {
    let arguments: Vec<OsString> = env::args_os().skip(1).collect();
    match run(&arguments) {
        Ok(status) => ExitCode::from(status),
        Err(complaint) => {
            for line in complaint {
                // If this cannot be told, the exit status still tells that something went wrong.
                let _ = writeln!(io::stderr(), "rowlist-host: {line}");
            }
            ExitCode::from(REFUSED)
        }
    }
}

fn run(arguments: &[OsString]) -> Result<u8, Complaint> {
    let (command, files) = match arguments.split_first() {
        Some((command, files)) => (command.to_str().unwrap_or_default(), files),
        None => ("", arguments),
    };
    match (command, files) {
        ("compare", [left, right]) => run_compare(left, right),
        ("check", [file]) => run_check(file),
        ("show", [file]) => run_show(file),
        ("make", [text, out]) => run_make(text, out),
        ("--help" | "-h" | "help", []) => print(HELP.as_bytes()),
        _ => Err(vec!["wrong arguments; rowlist-host --help tells what there is".to_owned()]),
    }
}

fn run_compare(left_name: &OsStr, right_name: &OsStr) -> Result<u8, Complaint> {
    let left = read(left_name)?;
    let right = read(right_name)?;

    // Each file alone, so that it is known which one is refused.
    let mut refused = Complaint::new();
    for (side, name, file) in [("left", left_name, &left), ("right", right_name, &right)] {
        if let Err(refusal) = check(file) {
            refused.extend(about(&format!("{side} file {}", name.display()), refusal, file));
        }
    }
    if !refused.is_empty() {
        return Err(refused);
    }

    match compare(&left, &right) {
        Ok(listing) => {
            print(listing.as_bytes())?;
            Ok(if listing == "rows 0\n" { DONE } else { DIFFERENCES })
        }
        Err(refusal @ Refusal::OtherFamily) => {
            // Good files, but of a family that this call does not compare. The first byte tells which.
            let other = |file: &[u8]| file.first() != Some(&Family::Prefix.code());
            let (side, name) = if other(&left) { ("left", left_name) } else { ("right", right_name) };
            Err(vec![
                format!("{side} file {}: {refusal}", name.display()),
                "only filters of prefix ranges can be compared".to_owned(),
            ])
        }
        Err(refusal) => Err(vec![format!("comparison {refusal}")]),
    }
}

fn run_check(name: &OsStr) -> Result<u8, Complaint> {
    let file = read(name)?;
    match check(&file) {
        Ok(()) => print(b"good\n"),
        Err(refusal) => Err(about(&name.display().to_string(), refusal, &file)),
    }
}

fn run_show(name: &OsStr) -> Result<u8, Complaint> {
    let file = read(name)?;
    if let Err(refusal) = check(&file) {
        return Err(about(&name.display().to_string(), refusal, &file));
    }
    match Filter::read(&file) {
        Ok(filter) => print(filter.to_string().as_bytes()),
        Err(fault) => Err(vec![
            format!("{}: good by the proved call, but it cannot be shown", name.display()),
            format!("  where, unproved: {fault}"),
        ]),
    }
}

fn run_make(text_name: &OsStr, out_name: &OsStr) -> Result<u8, Complaint> {
    let text = String::from_utf8(read(text_name)?)
        .map_err(|error| vec![format!("{}: {}", text_name.display(), error.utf8_error())])?;
    let filter: Filter = text.parse().map_err(|error| vec![format!("{}: {error}", text_name.display())])?;
    let file = filter.write();
    if let Err(refusal) = check(&file) {
        return Err(vec![format!("what was made of {} is {refusal}; nothing was written", text_name.display())]);
    }
    if out_name == "-" {
        return print(&file);
    }
    fs::write(out_name, file).map_err(|error| trouble(out_name, &error))?;
    Ok(DONE)
}

/// A refused file: what the call told, and where this package's own reader sees the fault.
fn about(name: &str, refusal: Refusal, file: &[u8]) -> Complaint {
    let place = match Filter::read(file) {
        Err(fault) if fault.refusal() == refusal => fault.to_string(),
        // The tests look for such a file and have found none.
        Err(fault) => format!("another fault, {} in {fault}", fault.refusal().number()),
        Ok(_) => "no fault found".to_owned(),
    };
    vec![format!("{name}: {refusal}"), format!("  where, unproved: {place}")]
}

fn read(name: &OsStr) -> Result<Vec<u8>, Complaint> {
    let read = if name == "-" {
        let mut bytes = Vec::new();
        io::stdin().lock().read_to_end(&mut bytes).map(|_| bytes)
    } else {
        fs::read(name)
    };
    read.map_err(|error| trouble(name, &error))
}

fn print(bytes: &[u8]) -> Result<u8, Complaint> {
    let mut out = io::stdout().lock();
    out.write_all(bytes).and_then(|()| out.flush()).map_err(|error| trouble(OsStr::new("standard output"), &error))?;
    Ok(DONE)
}

fn trouble(name: &OsStr, error: &dyn Display) -> Complaint {
    vec![format!("{}: {error}", name.display())]
}
