//! The program as a child process.

use std::env;
use std::fmt::Write as _;
use std::io::{self, Read, Write};
use std::path::{Path, PathBuf};
use std::process::{Child, ChildStdin, Command, Stdio};
use std::sync::mpsc;
use std::thread;
use std::time::Duration;

use hankboulder_reference::program::output;

/// Names the program's file. A relative path counts from this package.
const VARIABLE: &str = "HANKBOULDER_JUDGE";
/// Where `make judge` writes the program
const DEFAULT: &str = "../../target/bin/judge";

/// A run that has not ended after this time has failed.
const DEADLINE: Duration = Duration::from_secs(20);

/// Files are handed to the program on this many threads at once.
const THREADS: usize = 2;

/// The program.
pub struct Program {
    path: PathBuf,
}

impl Program {
    /// The program under test.
    pub fn under_test() -> Program {
        let named = env::var_os(VARIABLE).unwrap_or_else(|| DEFAULT.into());
        let path = Path::new(env!("CARGO_MANIFEST_DIR")).join(named);
        let help = format!("`make judge` makes it, or {VARIABLE} names another");
        assert!(path.is_file(), "no program {}: {help}", path.display());
        Program { path }
    }

    /// What the program prints for a file on a pipe. Here and below, a run fails
    /// where standard error is not empty or the exit status is not 0.
    pub fn print(&self, file: &[u8]) -> String {
        let file = file.to_vec();
        self.print_fed(move |pipe| pipe.write_all(&file))
    }

    /// What the program prints for the bytes that `feed` writes to its standard
    /// input. It may close its input early.
    pub fn print_fed<F>(&self, feed: F) -> String
    where
        F: FnOnce(&mut ChildStdin) -> io::Result<()> + Send + 'static,
    {
        let mut child = self.start(Stdio::piped());
        let mut input = child.stdin.take().expect("a pipe");
        ended(child, move || match feed(&mut input) {
            Err(error) if error.kind() == io::ErrorKind::BrokenPipe => {}
            fed => fed.expect("the program's input is written"),
        })
    }

    /// What the program prints where its standard input is a file of the disk.
    pub fn print_from(&self, input: std::fs::File) -> String {
        ended(self.start(input.into()), || {})
    }

    fn start(&self, input: Stdio) -> Child {
        let started = Command::new(&self.path)
            .stdin(input)
            .stdout(Stdio::piped())
            .stderr(Stdio::piped())
            .spawn();
        started.unwrap_or_else(|error| panic!("{}: {error}", self.path.display()))
    }

    /// Fails where the program or the reference prints anything but the text.
    pub fn expect(&self, file: &[u8], text: &str) {
        assert_eq!(output(file), text, "the reference on {}", hex(file));
        assert_eq!(self.print(file), text, "the program on {}", hex(file));
    }

    /// Fails where the program and the reference differ; their common text.
    pub fn agree(&self, file: &[u8]) -> String {
        let text = output(file);
        assert_eq!(self.print(file), text, "the program on {}", hex(file));
        text
    }
}

fn read(pipe: Option<impl Read>) -> Vec<u8> {
    let mut bytes = vec![];
    let read = pipe.expect("a pipe").read_to_end(&mut bytes);
    read.expect("a pipe is read");
    bytes
}

/// The text of a child that is fed, and then read, on a thread of its own. Ends
/// the child and fails where the deadline passes.
fn ended(mut child: Child, feed: impl FnOnce() + Send + 'static) -> String {
    let (printed, said) = (child.stdout.take(), child.stderr.take());
    let (sender, receiver) = mpsc::channel();
    let talking = thread::spawn(move || {
        feed();
        sender.send((read(printed), read(said)))
    });
    let texts = receiver.recv_timeout(DEADLINE);
    if let Err(mpsc::RecvTimeoutError::Timeout) = texts {
        child.kill().expect("the child is ours");
        child.wait().expect("the child is ours");
        panic!("the program has not ended after {DEADLINE:?}");
    }
    let status = child.wait().expect("the child is ours");
    let sent = talking.join().expect("the program is talked to");
    sent.expect("its texts are taken");
    let (printed, said) = texts.expect("its texts were sent");
    let said = String::from_utf8_lossy(&said);
    assert!(said.is_empty(), "on standard error: {said}");
    assert!(status.success(), "the program ended with {status}");
    String::from_utf8(printed).expect("the program prints text")
}

/// What `work` makes of each item, on several threads, in the items' order.
pub fn on_threads<T: Sync, R: Send>(items: &[T], work: impl Fn(&T) -> R + Sync) -> Vec<R> {
    let share = items.len().div_ceil(THREADS).max(1);
    let work = &work;
    thread::scope(|scope| {
        let shares = items.chunks(share);
        let threads = shares.map(|share| scope.spawn(move || share.iter().map(work).collect()));
        let threads: Vec<_> = threads.collect();
        let joined = threads.into_iter().map(|thread| thread.join());
        let results = joined.map(|share: thread::Result<Vec<R>>| share.expect("every item passes"));
        results.flatten().collect()
    })
}

/// A file in hexadecimal, as far as it is short.
fn hex(file: &[u8]) -> String {
    let mut text = format!("{} bytes:", file.len());
    for byte in file.iter().take(1000) {
        write!(text, " {byte:02X}").expect("a string grows");
    }
    text
}
