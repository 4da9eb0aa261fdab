// What the program `cuts` prints where a read or a write fails. The words of the command line start it.
use std::fs::{File, OpenOptions};
use std::io::{pipe, Write};
use std::os::fd::AsRawFd;
use std::process::{Command, Stdio};

// POSIX's fcntl, and on Linux F_SETFL and O_NONBLOCK.
extern "C" {
    fn fcntl(descriptor: i32, request: i32, flags: i32) -> i32;
}
const F_SETFL: i32 = 4;
const O_NONBLOCK: i32 = 0o4000;

const UNREAD: &str = "cuts: standard input could not be read\n";
const UNWRITTEN: &str = "cuts: the answer could not be written\n";

// L2, custom penalty 1, minimum length 2, and one channel of these readings.
fn fields(readings: &[f64]) -> Vec<u8> {
    let mut bytes = vec![1, 0, 1, 0, 2, 0, 8];
    bytes.extend(1.0f64.to_be_bytes());
    bytes.extend([3, 0, 2, 0, 2, 4]);
    bytes.extend((8 * readings.len() as u16).to_be_bytes());
    bytes.extend(readings.iter().flat_map(|x| x.to_be_bytes()));
    bytes
}

// What the program prints and says, with this input and this output; the output is not kept where it
// goes to a file.
fn run(words: &[String], input: Stdio, output: Stdio) -> (String, String) {
    let done = Command::new(&words[0])
        .args(&words[1..])
        .stdin(input)
        .stdout(output)
        .stderr(Stdio::piped())
        .spawn()
        .and_then(|child| child.wait_with_output())
        .expect("the program starts");
    let text = |bytes: Vec<u8>| String::from_utf8_lossy(&bytes).into_owned();
    (text(done.stdout), text(done.stderr))
}

// Bytes that wait in a pipe, whose writer is held open while `ask` runs where `open`, and is closed before
// it otherwise. With `blocking` false a read that finds nothing fails.
fn piped<T>(bytes: &[u8], blocking: bool, open: bool, ask: impl Fn(Stdio) -> T) -> T {
    let (reader, mut writer) = pipe().expect("a pipe");
    if !blocking {
        assert_eq!(unsafe { fcntl(reader.as_raw_fd(), F_SETFL, O_NONBLOCK) }, 0);
    }
    writer.write_all(bytes).expect("the pipe holds the input");
    let held = Some(writer).filter(|_| open);
    let said = ask(Stdio::from(reader));
    drop(held);
    said
}

fn directory() -> Stdio {
    Stdio::from(File::open("/").expect("the root folder opens"))
}

fn full() -> Stdio {
    Stdio::from(OpenOptions::new().write(true).open("/dev/full").expect("/dev/full opens"))
}

fn main() {
    let words: Vec<String> = std::env::args().skip(1).collect();
    // A log with a change at 2, the front of which is a whole input with a change of its own, if its end
    // is taken for the end of the input.
    let log = fields(&[0.0, 0.0, 4.0, 4.0]);
    let mut longer = log.clone();
    longer.extend([4, 0, 32]);
    let plain = |input| run(&words, input, Stdio::piped());
    let rows = [
        ("a whole log", piped(&log, true, false, plain), "cuts 1\n2\n", ""),
        ("a whole log on a pipe that does not block", piped(&log, false, false, plain), "cuts 1\n2\n", ""),
        ("a producer that pauses after a whole field", piped(&log, false, true, plain), "refused 10\n", UNREAD),
        ("a producer that pauses within a field", piped(&longer, false, true, plain), "refused 10\n", UNREAD),
        ("a producer that has written nothing yet", piped(&[], false, true, plain), "refused 10\n", UNREAD),
        ("an empty input", piped(&[], true, false, plain), "refused 10\n", ""),
        ("a directory", plain(directory()), "refused 10\n", UNREAD),
        ("a full device", piped(&log, true, false, |input| run(&words, input, full())), "", UNWRITTEN),
    ];
    let mut wrong = 0;
    for (name, (printed, said), expected, complaint) in &rows {
        let same = printed == expected && said == complaint;
        println!("{}: {name}: {printed:?} {said:?}", if same { "as it should be" } else { "WRONG" });
        wrong += usize::from(!same);
    }
    println!("{} tried, {wrong} wrong", rows.len());
    std::process::exit(i32::from(wrong > 0));
}
