//! The program: its arguments, statuses and messages, and the vectors of events.
//!
//! It is the one that cargo builds, or the one that the variable `VTLOG` names, such as the proved
//! program.

use std::ffi::OsString;
use std::fs::File;
use std::io::{BufReader, Read, Seek, SeekFrom, Write};
use std::process::{Command, Output, Stdio};
use std::time::Duration;

#[allow(dead_code)]
#[path = "../../vte/tests/vectors/json.rs"]
mod vectors;

use vectors::{vectors, Value};

/// The arguments with which it reads, and those with which it writes.
const WAYS: [&[&str]; 2] = [&[], &["text"]];
const WRITING: [&[&str]; 5] = [&[], &["text"], &["-h"], &["--help"], &["--version"]];

const HINT: &str = "it reads standard input, as in vtlog text <FILE; see vtlog --help";

/// The program that is tested instead of the one that cargo builds.
fn other_program() -> Option<OsString> {
    std::env::var_os("VTLOG")
}

fn vtlog(arguments: &[&str]) -> Command {
    let own = || env!("CARGO_BIN_EXE_vtlog").into();
    let mut command = Command::new(other_program().unwrap_or_else(own));
    command.args(arguments).stdin(Stdio::piped());
    command.stdout(Stdio::piped()).stderr(Stdio::piped());
    command
}

fn run(arguments: &[&str], input: &[u8]) -> Output {
    finish(&mut vtlog(arguments), input)
}

/// Runs a command on this standard input.
fn finish(command: &mut Command, input: &[u8]) -> Output {
    let mut child = command.spawn().unwrap();
    let (mut stdin, input) = (child.stdin.take().unwrap(), input.to_vec());
    // the program may end before it has read all
    let writer = std::thread::spawn(move || drop(stdin.write_all(&input)));
    let output = child.wait_with_output().unwrap();
    writer.join().unwrap();
    output
}

fn assert_ends(output: &Output, status: i32, written: &str, message: &str) {
    assert_eq!(String::from_utf8_lossy(&output.stderr), message);
    assert_eq!(String::from_utf8_lossy(&output.stdout), written);
    assert_eq!(output.status.code(), Some(status));
}

/// What is said of a stream that fails.
fn failure(verb: &str, stream: &str, why: &str) -> String {
    format!("vtlog: {verb} failed\nvtlog: standard {stream}: {why}\n")
}

#[test]
fn vectors_give_their_lines() {
    let mut count = 0;
    for vector in vectors() {
        let (kind, limit) = (vector.text("kind"), vector.number("limit"));
        let (arguments, wanted): (&[&str], _) = match (kind, limit) {
            ("events", Some(1024)) => (&[], vector.lines("events").into_bytes()),
            ("text", _) => (&["text"], vector.get("text").map_or(vec![], Value::bytes)),
            _ => continue,
        };
        let output = run(arguments, &vector.chunks().concat());
        let (name, is_reported) = (vector.text("name"), !output.stderr.is_empty());
        assert!(output.status.success() && !is_reported, "{name}");
        assert!(output.stdout == wanted, "{name}");
        count += 1;
    }
    assert!(count > 190, "{count} vectors");
}

#[test]
fn help_and_version_are_printed() {
    for argument in ["-h", "--help"] {
        let output = run(&[argument], b"");
        assert!(output.status.success() && output.stderr.is_empty());
        assert!(output.stdout.starts_with(b"usage: vtlog [text]\n"));
        let page = String::from_utf8(output.stdout).unwrap();
        for words in [
            "with `text`, the text without its escape sequences",
            "\n  -h, --help  ",
            "\n      --version  ",
            "vtlog(1)",
        ] {
            assert!(page.contains(words), "{page}");
        }
        assert!(page.ends_with(".\n"));
    }
    let version = concat!("vtlog ", env!("CARGO_PKG_VERSION"), "\n");
    assert_ends(&run(&["--version"], b""), 0, version, "");
}

#[test]
fn other_arguments_are_refused() {
    for (arguments, shown) in [
        (&[""][..], r#""""#),
        (&["Text"], r#""Text""#),
        (&["text "], r#""text ""#),
        (&["text", "text"], r#""text""#),
        (&["text", ""], r#""""#),
        (&["text", "--help"], r#""--help""#),
        (&["--help", "a", "b"], r#""a""#),
        (&["a", "--help"], r#""a""#),
        (&["--lines"], r#""--lines""#),
        (&["--"], r#""--""#),
        (&["-"], r#""-""#),
        (&["a\x1b[m\"é\n"], r#""a\u{1b}[m\"é\n""#),
    ] {
        let message = format!("vtlog: unexpected argument\nvtlog: {shown}: {HINT}\n");
        assert_ends(&run(arguments, b"a"), 2, "", &message);
    }
}

#[cfg(unix)]
#[test]
fn arguments_are_text() {
    use std::os::unix::ffi::OsStrExt;
    let word = std::ffi::OsStr::from_bytes(b"\xff");
    for arguments in [&[][..], &["text"], &["--help"]] {
        let output = finish(vtlog(arguments).arg(word), b"a");
        assert_ends(&output, 3, "", "vtlog: no arguments read\n");
    }
}

/// A file that has 16 bytes and then an error: the end of this process's stack, where the kernel
/// puts the name of the program and zeros.
#[cfg(target_os = "linux")]
fn memory() -> (File, Vec<u8>) {
    let maps = std::fs::read_to_string("/proc/self/maps").unwrap();
    let stack = maps.lines().find(|line| line.ends_with("[stack]")).unwrap();
    let end = stack.split(['-', ' ']).nth(1).unwrap();
    let position = u64::from_str_radix(end, 16).unwrap() - 16;
    let mut file = File::open("/proc/self/mem").unwrap();
    let mut bytes = vec![0; 16];
    std::os::unix::fs::FileExt::read_exact_at(&file, &mut bytes, position).unwrap();
    assert!(bytes[..7].iter().all(u8::is_ascii_graphic) && bytes[7..] == [0; 9]);
    file.seek(SeekFrom::Start(position)).unwrap();
    (file, bytes)
}

/// A terminal whose program has ended after it wrote something.
#[cfg(target_os = "linux")]
fn left_terminal(written: &[u8]) -> File {
    extern "C" {
        fn unlockpt(file: i32) -> i32;
    }
    let mut options = File::options();
    let terminal = options.read(true).write(true).open("/dev/ptmx").unwrap();
    let file = std::os::unix::io::AsRawFd::as_raw_fd(&terminal);
    // SAFETY: the function of C with this name takes the number of any file
    assert_eq!(unsafe { unlockpt(file) }, 0);
    let text = std::fs::read_to_string(format!("/proc/self/fdinfo/{file}")).unwrap();
    let mut lines = text.lines();
    let number = lines.find_map(|line| line.strip_prefix("tty-index:"));
    let path = format!("/dev/pts/{}", number.unwrap().trim());
    let mut program = File::options().write(true).open(path).unwrap();
    program.write_all(written).unwrap();
    terminal
}

/// What was read before is written.
#[cfg(target_os = "linux")]
#[test]
fn standard_input_may_fail() {
    type Input = fn() -> (File, Vec<u8>);
    #[rustfmt::skip]
    let inputs: [(Input, &str); 3] = [
        (|| (File::open("/").unwrap(), vec![]), "Is a directory (os error 21)"),
        (memory, "Input/output error (os error 5)"),
        (|| (left_terminal(b"a\x1b[1"), vec![b'a']), "Input/output error (os error 5)"),
    ];
    for (input, why) in inputs {
        for arguments in WAYS {
            let (file, bytes) = input();
            let lines = bytes.iter().map(|byte| match (byte, arguments) {
                (0, []) => "execute 00\n".to_owned(),
                (_, []) => format!("print {byte:04x}\n"),
                (0, _) => String::new(),
                _ => char::from(*byte).to_string(),
            });
            let output = vtlog(arguments).stdin(file).output().unwrap();
            let message = failure("read", "input", why);
            assert_ends(&output, 1, &lines.collect::<String>(), &message);
        }
    }
}

/// What is open at the end isn't written.
#[test]
fn a_file_may_end_in_the_middle() {
    let path = std::env::temp_dir().join(format!("vtlog-{}", std::process::id()));
    #[rustfmt::skip]
    let ends = ["\u{4e00}", "\x1b", "\x1b[1", "\x1b]0;b", "\x1bX", "\x1b[\u{e9}"];
    for end in ends {
        for (arguments, written) in WAYS.into_iter().zip(["print 0061\n", "a"]) {
            // without the last byte of a character
            let size = end.len() - usize::from(!end.is_ascii());
            std::fs::write(&path, [b"a", &end.as_bytes()[..size]].concat()).unwrap();
            let file = File::open(&path).unwrap();
            let output = vtlog(arguments).stdin(file).output().unwrap();
            assert_ends(&output, 0, written, "");
        }
    }
    std::fs::remove_file(path).unwrap();
}

/// Rust's std opens /dev/null for a standard stream that is closed from the start, so the program
/// that cargo builds can't tell.
#[cfg(unix)]
#[test]
fn standard_streams_may_be_closed() {
    for (redirection, verb, stream) in [("<&-", "read", "input"), (">&-", "write", "output")] {
        let message = failure(verb, stream, "Bad file descriptor (os error 9)");
        for argument in ["", "text"] {
            let program = vtlog(&[]).get_program().to_owned();
            let mut command = Command::new("sh");
            let script = format!("exec \"$1\" {argument} {redirection}");
            command.args(["-c", &script, "sh"]).arg(program);
            command.stdin(Stdio::piped()).stdout(Stdio::piped());
            let output = finish(command.stderr(Stdio::piped()), b"a");
            match other_program() {
                Some(_) => assert_ends(&output, 1, "", &message),
                None => assert_ends(&output, 0, "", ""),
            }
        }
    }
}

/// The other end of a socket is closed for whoever has it, so that one write is enough.
#[cfg(unix)]
#[test]
fn a_closed_output_is_silent_whatever_is_written() {
    use std::os::unix::{io::OwnedFd, net::UnixStream};
    for arguments in WRITING {
        let (output, _other) = UnixStream::pair().unwrap();
        output.shutdown(std::net::Shutdown::Both).unwrap();
        let mut command = vtlog(arguments);
        command.stdout(OwnedFd::from(output));
        assert_ends(&finish(&mut command, b"a"), 141, "", "");
    }
}

/// A log that grows can be followed: what has no line end is written as well.
#[test]
fn what_a_chunk_gives_is_written_before_the_next_is_read() {
    let of_text = [("a\x1b[1", "a"), ("mb", "b"), ("\r\n\tc", "\r\n\tc")];
    let of_lines = [("a", "print 0061\n"), ("\x1b[m", "csi [0] - false 6d\n")];
    for (arguments, chunks) in WAYS.into_iter().zip([&of_lines[..], &of_text]) {
        let mut child = vtlog(arguments).spawn().unwrap();
        let (mut stdin, stdout) = (child.stdin.take().unwrap(), child.stdout.take().unwrap());
        let (sender, written) = std::sync::mpsc::channel();
        let mut bytes = BufReader::new(stdout).bytes();
        std::thread::spawn(move || bytes.try_for_each(|byte| sender.send(byte)));
        for (input, output) in chunks {
            stdin.write_all(input.as_bytes()).unwrap();
            let next = || written.recv_timeout(Duration::from_secs(1200)).ok()?.ok();
            let bytes: Vec<u8> = output.bytes().map_while(|_| next()).collect();
            assert_eq!(String::from_utf8_lossy(&bytes), *output);
        }
        drop(stdin);
        assert!(child.wait().unwrap().success());
    }
}

/// A device that every write to fails.
#[cfg(target_os = "linux")]
fn full() -> File {
    File::options().write(true).open("/dev/full").unwrap()
}

#[cfg(target_os = "linux")]
#[test]
fn a_full_device_fails() {
    for arguments in WRITING {
        let output = finish(vtlog(arguments).stdout(full()), b"a");
        let why = "No space left on device (os error 28)";
        assert_ends(&output, 1, "", &failure("write", "output", why));
        // the status needs no message
        let output = finish(vtlog(arguments).stdout(full()).stderr(full()), b"a");
        assert_ends(&output, 1, "", "");
    }
    let refused = finish(vtlog(&["Text"]).stderr(full()), b"a");
    assert_ends(&refused, 2, "", "");
}
