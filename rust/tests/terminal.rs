//! The terminal program, run on stored texts and on what it is called with. A text in `tests/texts` begins with comments that say what it must give: the exit
//! status, and the line that is written.
use std::fs;
use std::io::Write;
use std::process::{Command, Stdio};

const TEXTS: &str = concat!(env!("CARGO_MANIFEST_DIR"), "/tests/texts");
const EXAMPLE: &str = include_str!("../src/bin/chickadoor/example.txt");
const ACCEPTED: &str = "accepted: from every table the list clears the target and touches nobody else\n";

#[derive(Debug, PartialEq, Eq)]
struct Said {
    status: i32,
    words: String,
}

/// Runs the program. What is accepted or refused is written to standard output, what cannot be read to standard error.
fn chickadoor(arguments: &[&str], input: &[u8]) -> Said {
    let mut child = command()
        .args(arguments)
        .current_dir(TEXTS)
        .stdin(Stdio::piped())
        .stdout(Stdio::piped())
        .stderr(Stdio::piped())
        .spawn()
        .expect("the program starts");
    // It may end before it has read everything.
    let _ = child.stdin.take().expect("an input").write_all(input);
    let output = child.wait_with_output().expect("the program ends");
    let status = output.status.code().expect("an exit status");
    let (words, nothing) = if status == 2 { (output.stderr, output.stdout) } else { (output.stdout, output.stderr) };
    assert_eq!(String::from_utf8_lossy(&nothing), "");
    Said { status, words: String::from_utf8(words).expect("words") }
}

/// The program by itself, or by the runner that cargo was told for it.
fn command() -> Command {
    let program = env!("CARGO_BIN_EXE_chickadoor");
    let runner = std::env::var("CARGO_TARGET_X86_64_UNKNOWN_LINUX_GNU_RUNNER").unwrap_or_default();
    let mut words = runner.split_whitespace();
    match words.next() {
        Some(runner) => {
            let mut command = Command::new(runner);
            command.args(words).arg(program);
            command
        }
        None => Command::new(program),
    }
}

fn expected(text: &[u8]) -> Said {
    let lines: Vec<String> = text.split(|byte| *byte == b'\n').map(|line| String::from_utf8_lossy(line).into_owned()).collect();
    let told: Vec<&str> = lines.iter().filter_map(|line| line.trim_start_matches('\u{feff}').strip_prefix("#> ")).collect();
    match told.as_slice() {
        [status, words] => Said {
            status: status.strip_prefix("exit ").and_then(|status| status.parse().ok()).expect("`#> exit N`"),
            words: format!("{}\n", words),
        },
        _ => panic!("expected two lines `#> ...`, and found {:?}", told),
    }
}

#[test]
fn texts() {
    let mut statuses = [0; 3];
    let mut names: Vec<_> = fs::read_dir(TEXTS).expect("the texts").map(|entry| entry.expect("a text").path()).collect();
    names.sort();
    for name in names {
        let text = fs::read(&name).expect("a text");
        let said = chickadoor(&[], &text);
        assert_eq!(said, expected(&text), "{}", name.display());
        statuses[said.status as usize] += 1;
    }
    println!("texts that are accepted, refused and not read: {:?}", statuses);
    assert!(statuses.iter().all(|count| *count > 0), "{:?}", statuses);
}

#[test]
fn help_has_an_example_that_is_accepted() {
    for option in ["--help", "-h"] {
        let help = chickadoor(&[option], b"");
        assert_eq!(help.status, 0);
        assert!(help.words.ends_with(EXAMPLE));
    }
    assert_eq!(chickadoor(&[], EXAMPLE.as_bytes()), Said { status: 0, words: ACCEPTED.to_string() });
}

#[test]
fn files_are_read_one_behind_the_other() {
    let (state, target) = EXAMPLE.split_once('\n').expect("lines");
    let folder = std::env::temp_dir().join(format!("chickadoor-{}", std::process::id()));
    fs::create_dir_all(&folder).expect("a folder");
    let file = |name: &str| folder.join(name).to_string_lossy().into_owned();
    fs::write(file("state.txt"), state).expect("a file");
    fs::write(file("target.txt"), target).expect("a file");
    fs::write(file("bad.txt"), "\n\nTLBI\n").expect("a file");
    let accepted = Said { status: 0, words: ACCEPTED.to_string() };
    assert_eq!(chickadoor(&[&file("state.txt"), &file("target.txt")], b""), accepted);
    assert_eq!(chickadoor(&["-", &file("target.txt")], state.as_bytes()), accepted);
    let bad = chickadoor(&[&file("state.txt"), &file("bad.txt")], b"");
    assert_eq!(bad.status, 2);
    assert!(bad.words.starts_with(&format!("{}, line 3: expected a step", file("bad.txt"))), "{}", bad.words);
    fs::remove_dir_all(&folder).expect("the folder goes");
}

#[test]
fn what_is_no_file_is_named() {
    let missing = chickadoor(&["no-such-text"], b"");
    assert_eq!(missing.status, 2);
    assert!(missing.words.starts_with("no-such-text cannot be read: "), "{}", missing.words);
    let folder = chickadoor(&["."], b"");
    assert_eq!(folder.status, 2);
    assert!(folder.words.starts_with(". cannot be read: "), "{}", folder.words);
    let option = chickadoor(&["--verbose"], b"");
    let words = "expected names of files, and found the option `--verbose`: `chickadoor --help` says how it is used\n";
    assert_eq!(option, Said { status: 2, words: words.to_string() });
}
