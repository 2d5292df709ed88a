//! Runs of the programs `journal` and `letter_sets` where they have been built, each in a folder of its
//! own and none without end.

use std::env;
use std::fs::{self, File};
use std::io::{self, Write};
use std::path::{Path, PathBuf};
use std::process::{self, Child, Command, ExitStatus, Stdio};
use std::sync::mpsc::{self, RecvTimeoutError, Sender};
use std::sync::{Arc, Mutex};
use std::thread;
use std::time::{Duration, Instant};

/// A run that takes longer is killed, and its test fails.
const LIMIT: Duration = Duration::from_secs(60);

/// A folder for a program to run in, with an input and perhaps a sheet.
pub struct Folder {
    pub program: PathBuf,
    pub path: PathBuf,
}

impl Folder {
    /// One for the journal program.
    pub fn new(name: &str) -> Option<Folder> {
        Folder::of("journal", name)
    }

    /// None where the program is missing, which is told even where the output of tests is held back.
    pub fn of(program: &str, name: &str) -> Option<Folder> {
        let built = Path::new(env!("CARGO_MANIFEST_DIR")).join("../target/bin").join(program);
        let Ok(built) = built.canonicalize() else {
            let missing = format!("target/bin/{program} is missing, `tools/build` builds it");
            writeln!(io::stderr(), "skipped {name}: {missing}").expect("standard error");
            return None;
        };
        let path = env::temp_dir().join(format!("{program}-{}-{name}", process::id()));
        fs::create_dir_all(&path).expect("a new folder");
        Some(Folder { program: built, path })
    }

    /// One for the journal program, with a sheet.
    pub fn with_sheet(name: &str, sheet: &[u8]) -> Option<Folder> {
        let folder = Folder::new(name)?;
        folder.put_sheet(sheet);
        Some(folder)
    }

    /// Where the sheet's file lies, if there is one.
    pub fn sheet(&self) -> PathBuf {
        self.path.join("sheet.slr")
    }

    pub fn put_sheet(&self, sheet: &[u8]) {
        fs::write(self.sheet(), sheet).expect("a file");
    }

    /// A file with these bytes, open at its beginning.
    pub fn input(&self, bytes: &[u8]) -> File {
        let path = self.path.join("lines");
        fs::write(&path, bytes).expect("a file");
        File::open(path).expect("a file")
    }

    /// The program in this folder. What it writes goes to files, as long as the command is not told
    /// otherwise.
    pub fn command(&self) -> Command {
        self.keeping(Command::new(&self.program))
    }

    /// The same, started by the words of a shell, in which `"$0"` is the program.
    pub fn shell(&self, words: &str) -> Command {
        let mut command = Command::new("sh");
        command.args(["-c", words]).arg(&self.program);
        self.keeping(command)
    }

    fn keeping(&self, mut command: Command) -> Command {
        let file = |path: PathBuf| File::create(path).expect("a file");
        command.current_dir(&self.path).stdin(Stdio::null()).stdout(file(self.output())).stderr(file(self.errors()));
        command
    }

    fn output(&self) -> PathBuf {
        self.path.join("output")
    }

    fn errors(&self) -> PathBuf {
        self.path.join("errors")
    }

    /// Starts a command that this folder made.
    pub fn start(&self, mut command: Command) -> Run {
        let child = Arc::new(Mutex::new(command.spawn().expect("a run")));
        let (alive, watch) = mpsc::channel();
        let watched = child.clone();
        thread::spawn(move || {
            if watch.recv_timeout(LIMIT) == Err(RecvTimeoutError::Timeout) {
                let _ = watched.lock().expect("a run").kill();
            }
        });
        Run { child, output: self.output(), errors: self.errors(), _alive: alive }
    }

    /// Starts a command and waits for its end.
    pub fn end(&self, command: Command) -> Ended {
        self.start(command).end()
    }

    /// What the program writes for a sheet's file, which may be missing, and an input.
    pub fn run(&self, sheet: Option<&[u8]>, input: &[u8]) -> String {
        match sheet {
            Some(bytes) => self.put_sheet(bytes),
            None if self.sheet().exists() => fs::remove_file(self.sheet()).expect("a file"),
            None => {}
        }
        self.written(self.input(input).into())
    }

    /// What the program writes for an input.
    pub fn written(&self, input: Stdio) -> String {
        let mut command = self.command();
        command.stdin(input);
        let ended = self.end(command);
        assert!(ended.status.success() && ended.errors.is_empty(), "{:?} {}", ended.status, ended.errors);
        ended.output
    }
}

impl Drop for Folder {
    fn drop(&mut self) {
        let _ = fs::remove_dir_all(&self.path);
    }
}

/// A run of the program.
pub struct Run {
    child: Arc<Mutex<Child>>,
    output: PathBuf,
    errors: PathBuf,
    /// Once it is gone nobody watches the time any more.
    _alive: Sender<()>,
}

/// How a run ended, and what it left in its files.
#[derive(Debug)]
pub struct Ended {
    pub status: ExitStatus,
    pub output: String,
    pub errors: String,
}

impl Ended {
    /// It ended by itself, with status 0 and nothing but this written.
    pub fn expect(&self, output: &str, errors: &str) {
        let found = (self.status.code(), &*self.output, &*self.errors);
        assert_eq!(found, (Some(0), output, errors), "{:?}", self.status);
    }
}

fn text(path: &Path) -> String {
    String::from_utf8(fs::read(path).expect("a file")).expect("plain text")
}

impl Run {
    pub fn end(self) -> Ended {
        while !self.has_ended() {
            thread::sleep(Duration::from_millis(1));
        }
        let status = self.child.lock().expect("a run").wait().expect("an end");
        Ended { status, output: self.output(), errors: text(&self.errors) }
    }

    fn has_ended(&self) -> bool {
        self.child.lock().expect("a run").try_wait().expect("a run").is_some()
    }

    /// What is in the file for its output so far.
    pub fn output(&self) -> String {
        text(&self.output)
    }

    /// Waits for something that has to come, at the latest by the end of the run.
    pub fn until(&self, what: &str, mut come: impl FnMut(&Run) -> bool) {
        let begun = Instant::now();
        while !come(self) {
            let over = self.has_ended() || begun.elapsed() > LIMIT;
            assert!(!over || come(self), "{what} did not come");
            thread::sleep(Duration::from_millis(1));
        }
    }

    fn id(&self) -> u32 {
        self.child.lock().expect("a run").id()
    }

    /// Sends a signal by its name.
    pub fn signal(&self, name: &str) {
        let sent = Command::new("sh").args(["-c", &format!("kill -{name} {}", self.id())]).status();
        assert!(sent.expect("a shell").success(), "kill -{name}");
    }

    /// What the system says of it, empty after its end.
    fn about(&self, file: &str) -> String {
        fs::read_to_string(format!("/proc/{}/{file}", self.id())).unwrap_or_default()
    }

    /// The fields of its `stat` file after the name, of which the first is the state.
    fn stat(&self) -> Vec<String> {
        let stat = self.about("stat");
        let fields = stat.rsplit(") ").next().unwrap_or_default();
        fields.split_whitespace().map(String::from).collect()
    }

    fn is_in(&self, state: &str) -> bool {
        self.stat().first().is_some_and(|found| found == state)
    }

    /// Whether it waits for a read, a write or the end of a pause.
    pub fn is_waiting(&self) -> bool {
        self.is_in("S")
    }

    pub fn is_stopped(&self) -> bool {
        self.is_in("T")
    }

    /// The processor time it took so far, in hundredths of a second.
    pub fn ticks(&self) -> u64 {
        self.stat()[11..13].iter().map(|ticks| ticks.parse::<u64>().expect("a number")).sum()
    }

    /// The most memory it had so far, in kB.
    pub fn peak(&self) -> usize {
        let status = self.about("status");
        let peak = status.lines().find_map(|line| line.strip_prefix("VmHWM:")).expect("a run that goes on");
        peak.trim().trim_end_matches(" kB").parse().expect("a number")
    }
}

impl Drop for Run {
    /// A test that fails leaves no run behind.
    fn drop(&mut self) {
        if let Ok(mut child) = self.child.lock() {
            let _ = child.kill();
            let _ = child.wait();
        }
    }
}
