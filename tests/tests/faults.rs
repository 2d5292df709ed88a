//! The program `journal` under faults of the system, made for real: reads and writes that are
//! interrupted, not ready, short or fail, and files that are missing, closed, full or can't be read. Then
//! the program `letter_sets` under those of its output. The last test of each draws faults at random, by
//! functions in C that are loaded before the C library's.

use outside::cases::{longest, plain, session_sheet};
use outside::monitor::Monitor;
use outside::program::{Ended, Folder, Run};
use outside::random::Random;
use outside::vectors::{self, Case};
use outside::{expect_same, hex, letter_table, session};
use std::ffi::c_int;
use std::fs::{self, File, OpenOptions, Permissions};
use std::io::{self, Read, Seek, Write};
use std::os::fd::{AsRawFd, OwnedFd};
use std::os::unix::fs::{symlink, MetadataExt, OpenOptionsExt, PermissionsExt};
use std::os::unix::net::{UnixListener, UnixStream};
use std::os::unix::process::CommandExt;
use std::path::{Path, PathBuf};
use std::process::{Command, Stdio};
use std::sync::OnceLock;
use std::thread;
use std::time::Duration;

const SHEET: &str = "read sheet.slr";
const INPUT: &str = "read standard input";
const OUTPUT: &str = "write standard output";

/// The line on standard error.
fn cannot(action: &str, reason: &str) -> String {
    format!("journal: cannot {action}: {reason}\n")
}

/// The only one of `letter_sets`.
fn cannot_print(reason: &str) -> String {
    format!("letter_sets: cannot {OUTPUT}: {reason}\n")
}

/// Sheets and journals, most of them random.
fn cases() -> &'static [Case] {
    static CASES: OnceLock<Vec<Case>> = OnceLock::new();
    CASES.get_or_init(vectors::cases)
}

/// The lines of an input that have ended.
fn complete(input: &[u8]) -> &[u8] {
    let end = input.iter().rposition(|&byte| byte == b'\n');
    &input[..end.map_or(0, |place| place + 1)]
}

/// A sheet whose seven outputs are its only input, an input for it, and the answers: 1.6 MB.
fn long_case() -> (Vec<u8>, Vec<u8>, String) {
    let mut random = Random::new(71);
    let (mut input, mut answers) = (Vec::new(), String::new());
    for _ in 0..200_000 {
        let sign = random.pick(&["0", "1", "?"]);
        input.extend([sign.as_bytes(), b"\n"].concat());
        answers += &(sign.repeat(7) + "\n");
    }
    (plain(1, &["40"; 7]), input, answers)
}

/// The program's end of a pipe or of sockets, then the test's.
type Ends = (File, File);

fn file(end: impl Into<OwnedFd>) -> File {
    File::from(end.into())
}

fn input_pipe() -> Ends {
    let (from, to) = io::pipe().expect("a pipe");
    (file(from), file(to))
}

fn output_pipe() -> Ends {
    let (from, to) = io::pipe().expect("a pipe");
    (file(to), file(from))
}

fn sockets() -> Ends {
    let (program, test) = UnixStream::pair().expect("sockets");
    (file(program), file(test))
}

/// Sockets at which the program's reads and writes wait so long and then fail: they are not ready.
/// Unlike others, they also fail if the program is stopped meanwhile: they are interrupted.
fn timed_sockets(limit: Duration) -> Ends {
    let (program, test) = UnixStream::pair().expect("sockets");
    program.set_read_timeout(Some(limit)).expect("a socket");
    program.set_write_timeout(Some(limit)).expect("a socket");
    (file(program), file(test))
}

/// The program's reads and writes then fail where they would wait.
fn not_blocking(ends: Ends) -> Ends {
    extern "C" {
        fn fcntl(file: c_int, command: c_int, ...) -> c_int;
    }
    const F_GETFL: c_int = 3;
    const F_SETFL: c_int = 4;
    let end = ends.0.as_raw_fd();
    // SAFETY: the file is open, and these commands touch no memory.
    let done = unsafe { fcntl(end, F_SETFL, fcntl(end, F_GETFL) | O_NONBLOCK) };
    assert_eq!(done, 0, "fcntl");
    ends
}

const O_NONBLOCK: c_int = 0o4000;

/// An output that nobody reads.
fn unread(ends: fn() -> Ends) -> File {
    ends().0
}

fn full_device() -> File {
    File::create("/dev/full").expect("a device")
}

/// An input with these bytes that goes on as long as the test holds its end.
fn open_input(bytes: &[u8]) -> Ends {
    let (input, mut to) = input_pipe();
    send(&mut to, bytes);
    (input, to)
}

/// Starts the program with this input.
fn feed(folder: &Folder, input: impl Into<Stdio>) -> Run {
    let mut command = folder.command();
    command.stdin(input);
    folder.start(command)
}

/// Starts the program with this input and output.
fn connect(folder: &Folder, input: impl Into<Stdio>, output: impl Into<Stdio>) -> Run {
    let mut command = folder.command();
    command.stdin(input).stdout(output);
    folder.start(command)
}

/// Writes as much as the program takes.
fn send(to: &mut File, bytes: &[u8]) {
    // It may have ended, at a refused line.
    let _ = to.write_all(bytes);
}

fn pause(milliseconds: u64) {
    thread::sleep(Duration::from_millis(milliseconds));
}

/// A program that waits takes hardly any processor time. One that tried without a pause would take
/// all there is.
fn expect_idle(run: &Run) {
    let before = run.ticks();
    pause(1000);
    let taken = run.ticks() - before;
    assert!(taken < 20, "{taken} hundredths of a second");
}

/// Makes the read or write in which the program waits fail.
fn interrupt(run: &Run) {
    run.until("a wait", Run::is_waiting);
    run.signal("STOP");
    run.until("a stop", Run::is_stopped);
    run.signal("CONT");
}

/// Inputs at which a read fails where it would wait.
fn hasty_inputs() -> [Ends; 3] {
    [not_blocking(input_pipe()), not_blocking(sockets()), timed_sockets(Duration::from_millis(3))]
}

/// Outputs at which a write fails where it would wait.
fn hasty_outputs() -> [Ends; 3] {
    [not_blocking(output_pipe()), not_blocking(sockets()), timed_sockets(Duration::from_millis(3))]
}

/// The program waits for the rest of a line, and says nothing of it before.
#[test]
fn input_that_is_not_ready() {
    let Some(folder) = Folder::with_sheet("input_that_is_not_ready", &session_sheet()) else { return };
    for (input, mut to) in hasty_inputs() {
        let run = feed(&folder, input);
        send(&mut to, b"10\n1?\n1");
        run.until("two answers", |run| run.output() == "?1\n?1\n");
        expect_idle(&run);
        assert_eq!(run.output(), "?1\n?1\n");
        send(&mut to, b"1\n0");
        run.until("a third answer", |run| run.output() == "?1\n?1\n11\n");
        send(&mut to, b"0");
        drop(to);
        run.end().expect("?1\n?1\n11\n11\n", "");
    }
}

#[test]
fn slow_writers() {
    let Some(folder) = Folder::new("slow_writers") else { return };
    let mut random = Random::new(72);
    for case in cases().iter().filter(|case| (60..200).contains(&case.session.len())).step_by(100) {
        folder.put_sheet(&case.sheet);
        for (input, mut to) in hasty_inputs() {
            let run = feed(&folder, input);
            let mut rest = &case.session[..];
            while !rest.is_empty() {
                let (piece, after) = rest.split_at(random.range(1, rest.len().min(16)));
                send(&mut to, piece);
                pause(random.below(20) as u64);
                rest = after;
            }
            drop(to);
            run.end().expect(&session::run(&case.sheet, &case.session), "");
        }
    }
}

#[test]
fn interrupted_reads() {
    let Some(folder) = Folder::with_sheet("interrupted_reads", &session_sheet()) else { return };
    let (input, mut to) = timed_sockets(Duration::from_secs(1000));
    let run = feed(&folder, input);
    let pieces = ["1", "0\n", "1?\n1", "", "?\n0", "0|", "1", "1\n0", "0", "|11", "\n", "\n", "01\n.", ""];
    for piece in pieces {
        interrupt(&run);
        send(&mut to, piece.as_bytes());
    }
    drop(to);
    run.end().expect(&session::run(&session_sheet(), pieces.concat().as_bytes()), "");
}

#[test]
fn interrupted_writes() {
    let (sheet, input, answers) = long_case();
    let Some(folder) = Folder::with_sheet("interrupted_writes", &sheet) else { return };
    let (output, mut from) = timed_sockets(Duration::from_secs(1000));
    let run = connect(&folder, folder.input(&input), output);
    let mut found = vec![0; 10 * 10_000];
    for part in found.chunks_mut(10_000) {
        interrupt(&run);
        from.read_exact(part).expect("answers");
    }
    from.read_to_end(&mut found).expect("answers");
    run.end().expect("", "");
    expect_same("the output", &found, answers.as_bytes());
}

#[test]
fn output_that_is_not_ready() {
    let (sheet, input, answers) = long_case();
    let Some(folder) = Folder::with_sheet("output_that_is_not_ready", &sheet) else { return };
    for (output, mut from) in hasty_outputs() {
        let run = connect(&folder, folder.input(&input), output);
        run.until("a wait", Run::is_waiting);
        expect_idle(&run);
        let mut found = Vec::new();
        from.read_to_end(&mut found).expect("answers");
        run.end().expect("", "");
        expect_same("the output", &found, answers.as_bytes());
    }
}

/// All there is to read, so much at a time.
fn read_slowly(from: &mut File, most: usize) -> Vec<u8> {
    let (mut found, mut part) = (Vec::new(), vec![0; most]);
    loop {
        let length = from.read(&mut part).expect("output");
        if length == 0 {
            return found;
        }
        found.extend(&part[..length]);
        pause(3);
    }
}

#[test]
fn slow_readers() {
    let (sheet, input, answers) = long_case();
    let Some(folder) = Folder::with_sheet("slow_readers", &sheet) else { return };
    for (output, mut from) in hasty_outputs().into_iter().chain([output_pipe(), sockets()]) {
        let run = connect(&folder, folder.input(&input), output);
        let found = read_slowly(&mut from, 20_000);
        run.end().expect("", "");
        expect_same("the output", &found, answers.as_bytes());
    }
}

/// Sockets of which the program gets these bytes, and then an error.
fn failing_after(bytes: &[u8]) -> File {
    let (mut program, mut test) = sockets();
    // The end that is closed holds bytes that were not read.
    program.write_all(b"unread").expect("a write");
    test.write_all(bytes).expect("a write");
    program
}

/// A line that had not ended when the input failed gets no answer.
#[test]
fn input_that_fails() {
    let Some(folder) = Folder::with_sheet("input_that_fails", &session_sheet()) else { return };
    let here = File::open(&folder.path).expect("a folder");
    feed(&folder, here).end().expect("", &cannot(INPUT, "Is a directory"));
    let reset = cannot(INPUT, "Connection reset by peer");
    let cuts =
        [("", ""), ("1", ""), ("10\n", "?1\n"), ("10\n1", "?1\n"), ("10\n1?", "?1\n"), ("\n", "?1\n"), ("\n.", "?1\n")];
    for (input, output) in cuts {
        feed(&folder, failing_after(input.as_bytes())).end().expect(output, &reset);
    }
}

#[test]
fn journals_cut_by_a_fault() {
    let Some(folder) = Folder::new("journals_cut_by_a_fault") else { return };
    let mut random = Random::new(73);
    for case in cases().iter().step_by(5) {
        folder.put_sheet(&case.sheet);
        let input = &case.session[..random.range(0, case.session.len())];
        let output = session::run(&case.sheet, complete(input));
        // After a refusal nothing is read.
        let refused = output.contains("refused");
        let errors = if refused { String::new() } else { cannot(INPUT, "Connection reset by peer") };
        feed(&folder, failing_after(input)).end().expect(&output, &errors);
    }
}

/// The program ends although there might be more to read.
#[test]
fn a_full_device() {
    let Some(folder) = Folder::new("a_full_device") else { return };
    let errors = cannot(OUTPUT, "No space left on device");
    for (sheet, line) in
        [(session_sheet(), "10\n"), (session_sheet(), "\n1?\n0"), (session_sheet(), "x\n"), (vec![], "")]
    {
        folder.put_sheet(&sheet);
        let (input, _to) = open_input(line.as_bytes());
        connect(&folder, input, full_device()).end().expect("", &errors);
    }
    folder.put_sheet(&session_sheet());
    connect(&folder, folder.input(b"10"), full_device()).end().expect("", &errors);
    connect(&folder, folder.input(b"\n"), full_device()).end().expect("", &errors);
    connect(&folder, folder.input(b""), full_device()).end().expect("", "");
}

/// A file that reaches the size it may have takes the beginning of a write.
#[test]
fn a_file_that_is_full() {
    let (sheet, input, answers) = long_case();
    let Some(folder) = Folder::with_sheet("a_file_that_is_full", &sheet) else { return };
    let mut command = folder.shell("ulimit -f 3; trap '' XFSZ; exec \"$0\"");
    command.stdin(folder.input(&input));
    let ended = folder.end(command);
    assert!(!ended.output.is_empty());
    ended.expect(&answers[..ended.output.len()], &cannot(OUTPUT, "File too large"));
}

/// The write fails: a program of Rattle does not end by the signal.
#[test]
fn an_output_that_nobody_reads() {
    let Some(folder) = Folder::with_sheet("an_output_that_nobody_reads", &session_sheet()) else { return };
    let errors = cannot(OUTPUT, "Broken pipe");
    for ends in [output_pipe, sockets] {
        let (input, _to) = open_input(b"10\n");
        connect(&folder, input, unread(ends)).end().expect("", &errors);

        let (input, _to) = open_input(b"10\n");
        let mut command = folder.shell("trap '' PIPE; exec \"$0\"");
        command.stdin(input).stdout(unread(ends));
        folder.end(command).expect("", &errors);

        let ((input, mut to), (output, mut from)) = (open_input(b"10\n"), ends());
        let run = connect(&folder, input, output);
        from.read_exact(&mut [0; 3]).expect("an answer");
        drop(from);
        send(&mut to, b"10\n");
        run.end().expect("", &errors);
    }
}

/// A run with something made where the sheet is expected. No input is read.
fn expect_without_sheet(name: &str, make: fn(&Path) -> io::Result<()>, output: &str, errors: &str) {
    let Some(folder) = Folder::new(name) else { return };
    make(&folder.sheet()).expect(name);
    let mut input = folder.input(b"10\n");
    feed(&folder, input.try_clone().expect("a file")).end().expect(output, errors);
    assert_eq!(input.stream_position().expect("a file"), 0, "{name}");
}

#[test]
fn sheets_that_are_missing() {
    expect_without_sheet("nothing", |_| Ok(()), "refused 1 sheet\n", "");
    expect_without_sheet("a_link_to_nothing", |path| symlink("nothing", path), "refused 1 sheet\n", "");
}

#[test]
fn sheets_that_are_no_files() {
    let folder = cannot(SHEET, "Is a directory");
    expect_without_sheet("a_folder", |path| fs::create_dir(path), "", &folder);
    expect_without_sheet("a_link_to_a_folder", |path| symlink(".", path), "", &folder);
    let socket = cannot("open sheet.slr", "No such device or address");
    expect_without_sheet("a_socket", |path| UnixListener::bind(path).map(drop), "", &socket);
    let endless = cannot("open sheet.slr", "Too many levels of symbolic links");
    expect_without_sheet("a_link_to_itself", |path| symlink(path, path), "", &endless);
}

#[test]
fn a_link_to_a_sheet() {
    let Some(folder) = Folder::new("a_link_to_a_sheet") else { return };
    fs::write(folder.path.join("other.slr"), session_sheet()).expect("a file");
    symlink("other.slr", folder.sheet()).expect("a link");
    assert_eq!(folder.written(folder.input(b"10\n").into()), "?1\n");
}

#[test]
fn a_sheet_without_permission() {
    let Some(mut folder) = Folder::with_sheet("a_sheet_without_permission", &session_sheet()) else { return };
    // The program may lie where another user can't go.
    let program = folder.path.join("journal");
    let copied = Command::new("cp").args([&folder.program, &program]).status().expect("a copy");
    assert!(copied.success(), "cp");
    folder.program = program;
    for (path, mode) in [(&folder.path, 0o755), (&folder.program, 0o755), (&folder.sheet(), 0)] {
        fs::set_permissions(path, Permissions::from_mode(mode)).expect("a mode");
    }
    let mut command = folder.command();
    command.stdin(folder.input(b"10\n"));
    if fs::metadata(&folder.path).expect("a folder").uid() == 0 {
        // Permissions bind anyone but root.
        command.uid(65_534).gid(65_534);
    }
    folder.end(command).expect("", &cannot("open sheet.slr", "Permission denied"));
}

/// A sheet that comes byte by byte. No more is read of it than the longest sheet and a byte.
#[test]
fn a_slow_sheet() {
    let (short, mut long) = (session_sheet(), longest());
    long.push(0x40);
    for (sheet, closed, output) in [(short, true, "?1\n"), (long, false, "refused 9 sheet\n")] {
        let Some(folder) = Folder::new("a_slow_sheet") else { return };
        let made = Command::new("mkfifo").arg(folder.sheet()).status().expect("a command");
        assert!(made.success(), "mkfifo");
        let run = feed(&folder, folder.input(b"10\n"));
        let mut to = None;
        run.until("a reader", |_| {
            to = OpenOptions::new().write(true).custom_flags(O_NONBLOCK).open(folder.sheet()).ok();
            to.is_some()
        });
        for byte in sheet {
            send(to.as_mut().expect("a writer"), &[byte]);
            pause(1);
        }
        if closed {
            to = None;
        }
        run.end().expect(output, "");
        drop(to);
    }
}

/// Each line is sent byte by byte, and the next one when its answer has come. At a refused line the
/// program ends although the input has not.
#[test]
fn line_by_line() {
    let Some(folder) = Folder::new("line_by_line") else { return };
    let (mut random, mut refused) = (Random::new(74), 0);
    for case in cases().iter().step_by(40) {
        let Ok(monitor) = Monitor::new(&case.sheet) else { continue };
        folder.put_sheet(&case.sheet);
        let ((input, mut to), (output, mut from)) = (input_pipe(), output_pipe());
        let run = connect(&folder, input, output);
        let answers = session::answers(&monitor, &case.session);
        for (line, answer) in session::lines(&case.session).iter().zip(&answers) {
            for &byte in line.iter().chain(b"\n") {
                send(&mut to, &[byte]);
                pause(random.one_in(8) as u64);
            }
            let mut found = vec![0; answer.len()];
            from.read_exact(&mut found).expect("an answer");
            assert_eq!(String::from_utf8_lossy(&found), *answer, "sheet {}", hex(&case.sheet));
        }
        if answers.last().is_some_and(|answer| answer.starts_with("refused")) {
            refused += 1;
        } else {
            drop(to);
        }
        run.end().expect("", "");
        let mut more = String::new();
        from.read_to_string(&mut more).expect("an end");
        assert_eq!(more, "");
    }
    assert!(refused > 3, "{refused} refused lines");
}

/// Whether the line is malformed or not, no more of it is kept than what it stands for.
#[test]
fn lines_of_a_hundred_megabytes() {
    let Some(folder) = Folder::with_sheet("lines_of_a_hundred_megabytes", &plain(1, &["40"])) else { return };
    for (part, answer) in [("11", "refused 17 line 2\n"), ("1|", "?\n")] {
        let (input, mut to) = input_pipe();
        let run = feed(&folder, input);
        send(&mut to, b"1\n");
        run.until("an answer", |run| run.output() == "1\n");
        let before = run.peak();
        let part = part.repeat(500_000);
        for _ in 0..100 {
            send(&mut to, part.as_bytes());
        }
        let after = run.peak();
        assert!(after < 16_000 && after < before + 1000, "{before} kB before, {after} kB after");
        send(&mut to, b"0");
        drop(to);
        run.end().expect(&format!("1\n{answer}"), "");
    }
}

/// A file that is opened gets the lowest number that is free, so the sheet may get one of these.
#[test]
fn closed_files() {
    let Some(folder) = Folder::new("closed_files") else { return };
    let ended = |words: &str, input: &[u8]| {
        let mut command = folder.shell(&format!("exec \"$0\" {words}"));
        command.stdin(folder.input(input));
        folder.end(command)
    };
    let (no_input, no_output) = (cannot(INPUT, "Bad file descriptor"), cannot(OUTPUT, "Bad file descriptor"));
    ended("<&-", b"").expect("refused 1 sheet\n", "");
    ended(">&-", b"").expect("", &no_output);
    ended("2>&-", b"").expect("refused 1 sheet\n", "");
    fs::create_dir(folder.sheet()).expect("a folder");
    ended("<&-", b"").expect("", &cannot(SHEET, "Is a directory"));
    ended(">&-", b"").expect("", &cannot(SHEET, "Is a directory"));
    ended("2>&-", b"").expect("", "");
    fs::remove_dir(folder.sheet()).expect("a folder");
    folder.put_sheet(&session_sheet());
    ended("<&-", b"").expect("", &no_input);
    ended(">&-", b"10\n").expect("", &no_output);
    ended(">&-", b"\n").expect("", &no_output);
    ended(">&-", b"").expect("", "");
    ended("2>&-", b"10\n1").expect("?1\nrefused 17 line 2\n", "");
    ended("<&- >&-", b"").expect("", &no_input);
    ended("<&- 2>&-", b"").expect("", "");
    ended(">&- 2>&-", b"10\n").expect("", "");
    ended("<&- >&- 2>&-", b"").expect("", "");
    ended("2>&- >/dev/full", b"10\n").expect("", "");
    ended("2>/dev/full >/dev/full", b"10\n").expect("", "");
}

/// The functions that fail by a schedule, compiled.
fn faults(folder: &Folder) -> PathBuf {
    let (source, made) = (Path::new(env!("CARGO_MANIFEST_DIR")).join("c/faults.c"), folder.path.join("faults.so"));
    let words = ["-std=c99", "-Wall", "-Wextra", "-Wpedantic", "-Werror", "-shared", "-fPIC", "-o"];
    let compiled = Command::new("cc").args(words).args([&made, &source]).status().expect("a compiler");
    assert!(compiled.success(), "cc");
    made
}

/// What the functions told: how much had been read and written before each read of standard input,
/// and where the final error came and its number, if one did.
struct Told {
    reads: Vec<(usize, usize)>,
    fault: Option<(String, i32)>,
}

impl Told {
    fn of(log: &str) -> Told {
        let mut told = Told { reads: Vec::new(), fault: None };
        for line in log.lines() {
            assert!(told.fault.is_none(), "{line:?} after a final error");
            let words: Vec<&str> = line.split(' ').collect();
            let number = |word: &str| word.parse::<usize>().expect("a number");
            match words[..] {
                ["read", handed, taken] => told.reads.push((number(handed), number(taken))),
                [place, error] => told.fault = Some((place.to_string(), number(error) as i32)),
                _ => panic!("{line}: no pause before trying again"),
            }
        }
        told
    }

    /// All answers that are due are written before more is read, and nothing is read after a refusal.
    fn expect_answers_first(&self, case: &Case) {
        let Ok(monitor) = Monitor::new(&case.sheet) else {
            assert!(self.reads.is_empty(), "reads after a refused sheet");
            return;
        };
        let answers = session::answers(&monitor, &case.session);
        for &(handed, taken) in &self.reads {
            let lines = case.session[..handed].iter().filter(|&&byte| byte == b'\n').count();
            let due = &answers[..lines.min(answers.len())];
            assert_eq!(due.iter().map(String::len).sum::<usize>(), taken, "written before a read");
            assert!(!due.last().is_some_and(|answer| answer.starts_with("refused")), "a read after a refused line");
        }
    }
}

/// Runs the program with this input under a schedule of faults.
fn run_with_faults(folder: &Folder, faults: &Path, seed: usize, input: &[u8]) -> (Ended, Told) {
    let log = folder.path.join("log");
    let mut command = folder.command();
    command.stdin(folder.input(input)).env("LD_PRELOAD", faults);
    command.env("FAULTS_SEED", seed.to_string()).env("FAULTS_LOG", &log);
    let ended = folder.end(command);
    let told = Told::of(&fs::read_to_string(&log).expect("the functions were loaded"));
    fs::remove_file(&log).expect("a file");
    (ended, told)
}

/// The system's text for an error.
fn reason(number: i32) -> String {
    let text = io::Error::from_raw_os_error(number).to_string();
    text.replace(&format!(" (os error {number})"), "")
}

#[test]
fn random_faults() {
    let Some(folder) = Folder::new("random_faults") else { return };
    let (faults, mut seen) = (faults(&folder), [0; 4]);
    for (seed, case) in cases().iter().enumerate().step_by(3) {
        folder.put_sheet(&case.sheet);
        let (ended, told) = run_with_faults(&folder, &faults, seed, &case.session);
        told.expect_answers_first(case);
        let whole = session::run(&case.sheet, &case.session);
        let (place, error) = told.fault.unwrap_or_default();
        let (kind, action, output) = match &*place {
            "" => (0, "", whole),
            "sheet" => (1, SHEET, String::new()),
            "input" => {
                let handed = told.reads.last().expect("a read").0;
                (2, INPUT, session::run(&case.sheet, complete(&case.session[..handed])))
            }
            _ => (3, OUTPUT, whole[..ended.output.len().min(whole.len())].to_string()),
        };
        let errors = if kind == 0 { String::new() } else { cannot(action, &reason(error)) };
        ended.expect(&output, &errors);
        seen[kind] += 1;
    }
    assert!(seen.iter().all(|&times| times >= 30), "{seen:?}");
}

#[test]
fn a_table_that_is_not_taken() {
    let Some(folder) = Folder::of("letter_sets", "a_table_that_is_not_taken") else { return };
    let ended = |words: &str| folder.end(folder.shell(&format!("exec \"$0\" {words}")));
    let (full, closed) = (cannot_print("No space left on device"), cannot_print("Bad file descriptor"));
    for input in ["", "<&-"] {
        ended(&format!("{input} >/dev/full")).expect("", &full);
        ended(&format!("{input} >&-")).expect("", &closed);
        ended(&format!("{input} >/dev/full 2>&-")).expect("", "");
        ended(&format!("{input} >&- 2>&-")).expect("", "");
        ended(&format!("{input} 2>&-")).expect(&letter_table::text(), "");
    }
    ended(">/dev/full 2>/dev/full").expect("", "");
    // Open, but not for writing.
    ended(">&0").expect("", &closed);
}

#[test]
fn a_table_in_a_file_that_is_full() {
    let Some(folder) = Folder::of("letter_sets", "a_table_in_a_file_that_is_full") else { return };
    let ended = folder.end(folder.shell("ulimit -f 3; trap '' XFSZ; exec \"$0\""));
    assert!(!ended.output.is_empty());
    ended.expect(&letter_table::text()[..ended.output.len()], &cannot_print("File too large"));
}

#[test]
fn a_table_that_nobody_reads() {
    let Some(folder) = Folder::of("letter_sets", "a_table_that_nobody_reads") else { return };
    for ends in [output_pipe, sockets] {
        connect(&folder, Stdio::null(), unread(ends)).end().expect("", &cannot_print("Broken pipe"));
        let mut command = folder.shell("trap '' PIPE; exec \"$0\"");
        command.stdout(unread(ends));
        folder.end(command).expect("", &cannot_print("Broken pipe"));
    }
}

/// The pipe has no room for all of the table, as there is something in it before.
#[test]
fn a_table_that_is_read_slowly() {
    let Some(folder) = Folder::of("letter_sets", "a_table_that_is_read_slowly") else { return };
    let (mut output, mut from) = output_pipe();
    let before = "-".repeat(64_000);
    output.write_all(before.as_bytes()).expect("a pipe holds 65,536 bytes");
    let run = connect(&folder, Stdio::null(), output);
    run.until("a wait", Run::is_waiting);
    let found = read_slowly(&mut from, 300);
    run.end().expect("", "");
    expect_same("the output", &found, (before + &letter_table::text()).as_bytes());
}

/// Where nothing is said the whole table was written, and else a beginning of it. A write that was interrupted or
/// not ready may be made again, or given up as a failure.
#[test]
fn random_faults_of_letter_sets() {
    const EINTR: i32 = 4;
    const EAGAIN: i32 = 11;
    let Some(folder) = Folder::of("letter_sets", "random_faults_of_letter_sets") else { return };
    let (faults, text, mut failed) = (faults(&folder), letter_table::text(), 0);
    for seed in 0..400 {
        let (ended, told) = run_with_faults(&folder, &faults, seed, b"??????\n");
        assert!(told.reads.is_empty(), "a read of standard input");
        if told.fault.is_none() && ended.errors.is_empty() {
            ended.expect(&text, "");
            continue;
        }
        let passing = [EINTR, EAGAIN].into_iter().find(|&error| ended.errors == cannot_print(&reason(error)));
        let (place, error) = told.fault.unwrap_or_else(|| ("output".to_string(), passing.unwrap_or_default()));
        assert_eq!(place, "output");
        ended.expect(&text[..ended.output.len().min(text.len())], &cannot_print(&reason(error)));
        failed += 1;
    }
    assert!(failed >= 30, "{failed} runs with a failure");
}
