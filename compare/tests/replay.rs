//! The program `replay` as it is run: its whole output against this program's
//! own, on logs that are whole, cut, refused, long and empty, with tables good
//! and bad; every line by which it says that something cannot be done; and
//! outputs and inputs that fail, stall or move by parts.

use compare::builder::{
    sequence, value, Cross, Form, Point, Range, Table, TransitionBin, ValueBin,
};
use compare::random::{self, Caller, Rng};
use compare::replay::{cannot_write, log, reason, replay, replay_until, After, Entry};
use compare::table::{VALUE_BINS, VALUE_RANGES};
use std::collections::BTreeMap;
use std::ffi::OsStr;
use std::fs;
use std::io::{ErrorKind, Write};
use std::os::fd::AsRawFd;
use std::os::unix::ffi::{OsStrExt, OsStringExt};
use std::os::unix::fs::{MetadataExt, PermissionsExt};
use std::os::unix::process::CommandExt;
use std::path::{Path, PathBuf};
use std::process::{Child, ChildStdin, Command, Output, Stdio};

const LOGS: usize = 1_500;

fn program() -> PathBuf {
    let built = concat!(env!("CARGO_MANIFEST_DIR"), "/../target/bin/replay");
    std::env::var_os("FLUVIQUEN_REPLAY").map_or(built.into(), PathBuf::from)
}

fn output(command: &mut Command) -> Output {
    // A copy of the program is busy while another thread's child still holds it open.
    let mut ran = command.output();
    while ran
        .as_ref()
        .is_err_and(|e| e.kind() == ErrorKind::ExecutableFileBusy)
    {
        ran = command.output();
    }
    ran.expect("replay runs")
}

/// What a run wrote to standard output, and to standard error.
fn told(command: &mut Command) -> (String, String) {
    let output = output(command);
    assert!(output.status.success(), "{output:?}");
    let text = |bytes| String::from_utf8(bytes).expect("plain text");
    (text(output.stdout), text(output.stderr))
}

/// What a run without errors wrote.
fn said(command: &mut Command) -> String {
    let (out, err) = told(command);
    assert_eq!(err, "", "{out}");
    out
}

fn replay_of(table: &Path, log: &Path) -> Command {
    let mut command = Command::new(program());
    command.args([table, log]);
    command
}

fn run(table: &Path, log: &Path) -> String {
    said(&mut replay_of(table, log))
}

/// A folder of its own for each test.
fn folder(name: &str) -> PathBuf {
    let path = Path::new(env!("CARGO_TARGET_TMPDIR")).join(name);
    fs::create_dir_all(&path).unwrap();
    path
}

fn file(folder: &Path, name: &str, bytes: &[u8]) -> PathBuf {
    let path = folder.join(name);
    fs::write(&path, bytes).unwrap();
    path
}

/// One point of one bit with two auto bins: document 01's smallest table.
fn smallest() -> Vec<u8> {
    Table::new(vec![Point::new(1)]).bytes()
}

fn sample(value: u32, unknown: u32) -> Entry {
    Entry::Sample(vec![0, 0, 0, 0, value, unknown])
}

/// A log's bytes that may end anywhere, hold an entry that is refused, or a word that begins none.
fn drawn_log(rng: &mut Rng, table: &Table) -> Vec<u8> {
    let mut caller = Caller::new(table);
    let mut stopped = false;
    let mut entries = Vec::new();
    for _ in 0..rng.below(60) {
        let entry = match rng.below(100) {
            0..=4 => Entry::Stop,
            5..=8 => Entry::Start,
            9 if rng.chance(20) => Entry::Other(3 + rng.u32() % 1_000),
            10 if rng.chance(20) => Entry::Other(u32::MAX),
            11 if rng.chance(30) => wide_sample(rng, table, &mut caller),
            _ if stopped && rng.chance(90) => Entry::Start,
            _ => Entry::Sample(caller.sample_words(rng)),
        };
        stopped = match entry {
            Entry::Stop => true,
            Entry::Start => false,
            _ => stopped,
        };
        entries.push(entry);
    }
    let mut bytes = log(&entries);
    if rng.chance(20) {
        bytes.truncate(rng.below(bytes.len() + 1));
    }
    bytes
}

/// A bit above a point's width, if one is narrow enough.
fn wide_sample(rng: &mut Rng, table: &Table, caller: &mut Caller) -> Entry {
    let mut words = caller.sample_words(rng);
    let point = rng.below(table.points.len());
    if table.points[point].width < 32 {
        words[4 + 2 * point + rng.below(2)] |= 1 << 31;
    }
    Entry::Sample(words)
}

/// How an output ends: its last line without what differs from log to log.
fn ending(output: &str) -> String {
    let line = output.lines().last().expect("a line");
    let words: Vec<&str> = line.split_whitespace().collect();
    match words[..] {
        ["partial", "report:", "entry", _, "refused:", number, ..] => {
            format!("entry refused: {number}")
        }
        ["partial", "report:", "entry", _, "of", "no", "kind:", ..] => "entry of no kind".into(),
        ["partial", "report:", "log", "cut", "at", "entry", _] => "log cut".into(),
        ["no", "report:", "table", "refused:", number, ..] => format!("table refused: {number}"),
        _ => line.into(),
    }
}

#[test]
fn logs_agree() {
    let folder = folder("logs");
    let seed = random::seed();
    println!("COMPARE_SEED={seed:#x}");
    let mut endings: BTreeMap<String, usize> = BTreeMap::new();
    let mut illegal = 0;
    let mut limited = 0;
    for list in 0..LOGS {
        let mut rng = Rng::of_list(seed ^ 0x2E97A7, list);
        let drawn = random::table(&mut rng);
        let bytes = match rng.below(10) {
            0 => random::damaged(&mut rng, &drawn).0,
            _ => drawn.bytes(),
        };
        let entries = drawn_log(&mut rng, &drawn);
        let expected = replay(&bytes, &entries);
        let output = run(
            &file(&folder, "table", &bytes),
            &file(&folder, "log", &entries),
        );
        assert_eq!(
            output,
            expected,
            "log {list}, table {}",
            compare::hex(&bytes)
        );
        *endings.entry(ending(&output)).or_default() += 1;
        illegal += usize::from(output.contains("illegal place"));
        limited += usize::from(output.contains(" (10 shown)\n"));
    }
    println!("{LOGS} logs, illegal bins in {illegal}, many in {limited}, {endings:#?}");
    for (how, least) in [
        ("end of report", 500),
        ("log cut", 50),
        ("entry of no kind", 50),
        ("entry refused: 10", 20),
        ("entry refused: 13", 20),
        ("table refused: 15", 5),
    ] {
        let met = endings.get(how).copied().unwrap_or(0);
        assert!(met > least, "{how}: met only {met} times");
    }
    assert!(illegal > 200);
    assert!(limited > 100);
}

#[path = "../examples/yarn_table.rs"]
mod yarn_table;

/// The table and the log that ship with the program, and what it must write of them.
#[test]
fn the_log_that_ships() {
    let shipped = |name: &str| {
        let folder = concat!(env!("CARGO_MANIFEST_DIR"), "/../crates/replay");
        fs::read(Path::new(folder).join(name)).unwrap()
    };
    let table = shipped("data/table");
    assert_eq!(table, yarn_table::table().bytes());
    let expected = String::from_utf8(shipped("stdout")).unwrap();
    assert_eq!(replay(&table, &shipped("data/log")), expected);
}

/// The smallest table of document 01, by its own figures.
#[test]
fn the_smallest_table() {
    let entries = log(&[sample(1, 0), sample(1, 0), sample(0, 1)]);
    let expected = "samples 3, running\nplace 0: 0 (point 0, bin, uncovered)\n\
                    place 1: 2 (point 0, bin, covered)\npoint 0 unknown: 1\n\
                    item 0: 50.000000 % (point 0)\ngroup: 50.000000 %\nend of report\n";
    assert_eq!(replay(&smallest(), &entries), expected);
    let folder = folder("smallest");
    let (table, log) = (
        file(&folder, "table", &smallest()),
        file(&folder, "log", &entries),
    );
    assert_eq!(run(&table, &log), expected);
    let empty = file(&folder, "empty", &[]);
    let expected = "samples 0, running\nplace 0: 0 (point 0, bin, uncovered)\n\
                    place 1: 0 (point 0, bin, uncovered)\npoint 0 unknown: 0\n\
                    item 0: 0.000000 % (point 0)\ngroup: 0.000000 %\nend of report\n";
    assert_eq!(run(&table, &empty), expected);
}

/// What the last line says of an entry, after the report on those before it.
#[test]
fn entries_that_stop_a_replay() {
    let folder = folder("stops");
    let bytes = Table::new(vec![Point::new(1)])
        .values(vec![
            ValueBin::illegal(0, &[value(1)]),
            ValueBin::cover(0, &[value(0)]),
        ])
        .bytes();
    let table = file(&folder, "table", &bytes);
    let whole = log(&[sample(1, 0), Entry::Stop, Entry::Start]);
    for (name, entries, state, last) in [
        (
            "stopped",
            log(&[Entry::Stop, sample(0, 0)]),
            "stopped",
            "entry 4 refused: 10 (the register is stopped)",
        ),
        (
            "wide",
            log(&[sample(2, 0)]),
            "running",
            "entry 3 refused: 13 (a value or unknown bit above a point's width)",
        ),
        (
            "kind",
            log(&[Entry::Other(7)]),
            "running",
            "entry 3 of no kind: its first word is 7, none of 0, 1, 2",
        ),
        ("cut-word", vec![0, 0], "running", "log cut at entry 3"),
        (
            "cut-after-word",
            vec![0; 4],
            "running",
            "log cut at entry 3",
        ),
        (
            "cut-sample",
            log(&[sample(0, 0)])[..24].to_vec(),
            "running",
            "log cut at entry 3",
        ),
    ] {
        let entries = [&whole[..], &entries].concat();
        let expected = format!(
            "illegal place 0 raised at sample 1 (entry 0)\n\
             illegal place 0 total: 1 (1 shown)\nsamples 1, {state}\n\
             place 0: 1 (point 0, illegal bin, not in the total)\n\
             place 1: 0 (point 0, bin, uncovered)\npoint 0 unknown: 0\n\
             item 0: 0.000000 % (point 0)\ngroup: 0.000000 %\npartial report: {last}\n"
        );
        assert_eq!(replay(&bytes, &entries), expected, "{name}");
        let log = file(&folder, name, &entries);
        assert_eq!(run(&table, &log), expected, "{name}");
    }
}

/// The line of an illegal place is shown ten times at most, and its count always.
#[test]
fn illegal_places() {
    let folder = folder("illegal");
    let bytes = Table::new(vec![Point::new(4)])
        .values(vec![
            ValueBin::illegal(0, &[value(1)]),
            ValueBin::illegal(0, &[value(2)]),
            ValueBin::illegal(0, &[value(3)]),
            ValueBin::illegal(0, &[value(4)]),
        ])
        .bytes();
    let mut entries = vec![sample(1, 0); 25];
    entries.extend(vec![sample(3, 0); 10]);
    entries.extend(vec![sample(4, 0); 11]);
    entries.push(sample(1, 0));
    let mut expected = String::new();
    for (place, first, times) in [(0, 0, 10), (2, 25, 10), (3, 35, 10)] {
        for entry in first..first + times {
            let at = format!("sample {} (entry {entry})", entry + 1);
            expected += &format!("illegal place {place} raised at {at}\n");
        }
    }
    expected += "illegal place 0 total: 26 (10 shown)\nillegal place 2 total: 10 (10 shown)\n\
                 illegal place 3 total: 11 (10 shown)\nsamples 47, running\n";
    let table = file(&folder, "table", &bytes);
    let entries = log(&entries);
    let output = run(&table, &file(&folder, "log", &entries));
    assert_eq!(output, replay(&bytes, &entries));
    assert!(output.starts_with(&expected), "{output}");
}

/// One point with eight illegal values and a transition.
fn illegal_table() -> Vec<u8> {
    let illegal = |v| ValueBin::illegal(0, &[value(v)]);
    Table::new(vec![Point::new(4)])
        .values((1..9).map(illegal).collect())
        .transitions(vec![TransitionBin::cover(0, &[sequence(&[9, 10])])])
        .bytes()
}

/// Samples one after another are taken by blocks, of 256 at most: what is written is the same
/// wherever a block begins and ends.
#[test]
fn blocks() {
    let folder = folder("blocks");
    let meddled = Meddled::new(&folder);
    let bytes = illegal_table();
    let table = file(&folder, "table", &bytes);
    let of = |value: u32, times: usize| vec![sample(value, 0); times];
    let cut = |entries: &[Entry], bytes: usize| {
        let whole = log(entries);
        whole[..whole.len() - bytes].to_vec()
    };
    for (name, entries) in [
        // More than a block; exactly one, two; one sample beside them.
        ("long", log(&of(9, 1_000))),
        ("one", log(&of(1, 256))),
        ("two", log(&of(1, 512))),
        ("beside", log(&of(2, 257))),
        // A place raised more than 10 times within a block, and in several.
        ("within", log(&[of(1, 11), of(0, 3), of(1, 1)].concat())),
        (
            "across",
            log(&[of(3, 4), of(0, 255), of(3, 4), of(0, 300), of(3, 4)].concat()),
        ),
        // A start and a stop between samples; a stopped register refuses within a log.
        (
            "between",
            log(&[
                of(9, 100),
                vec![Entry::Start],
                of(10, 1),
                vec![Entry::Stop, Entry::Start],
                of(10, 300),
            ]
            .concat()),
        ),
        (
            "stopped",
            log(&[of(1, 5), vec![Entry::Stop], of(1, 5)].concat()),
        ),
        // A refused sample in the middle of a block, at its start, and just after one.
        ("refused", log(&[of(4, 7), of(16, 1), of(5, 9)].concat())),
        ("refused-first", log(&of(16, 2))),
        ("refused-last", log(&[of(6, 255), of(16, 1)].concat())),
        ("refused-next", log(&[of(6, 256), of(16, 1)].concat())),
        // A log that ends within a sample, and one with an entry of no kind, after whole samples.
        ("cut", cut(&of(7, 9), 1)),
        ("cut-head", cut(&of(7, 9), 25)),
        ("cut-next", cut(&of(7, 257), 4)),
        (
            "kind",
            log(&[of(8, 3), vec![Entry::Other(3)], of(8, 3)].concat()),
        ),
    ] {
        let expected = replay(&bytes, &entries);
        let log = file(&folder, name, &entries);
        assert_eq!(run(&table, &log), expected, "{name}");
        // By few bytes at a time a block has one sample or a few.
        for size in [5, 28, 100] {
            let slow = meddled.run(&table, &log, &[("READ_SIZE", size)]);
            assert_eq!(slow, (expected.clone(), String::new()), "{name}, {size}");
        }
    }
}

/// So many illegal places that the reports of few samples fill a block.
#[test]
fn blocks_of_many_illegal_places() {
    let folder = folder("many");
    let points = 4;
    let bins = (0..points * 120).map(|i| {
        let (point, low) = ((i % points) as u8, (i / points) as i64);
        ValueBin::illegal(point, &[value(2 * low)])
    });
    let bytes = Table::new(vec![Point::new(8); points])
        .values(bins.collect())
        .bytes();
    let entries: Vec<Entry> = (0..1_500u32)
        .map(|i| Entry::Sample([vec![0; 4], vec![i % 240, 0, 2, 0, 1, 0, i % 8, 0]].concat()))
        .collect();
    let entries = log(&entries);
    let expected = replay(&bytes, &entries);
    assert!(expected.ends_with("end of report\n"));
    assert_eq!(expected.matches(", illegal bin, ").count(), points * 120);
    assert!(expected.contains("illegal place "));
    let table = file(&folder, "table", &bytes);
    assert_eq!(run(&table, &file(&folder, "log", &entries)), expected);
}

#[test]
fn tables_that_are_refused() {
    let folder = folder("tables");
    let log = file(&folder, "log", &log(&[sample(1, 0)]));
    let good = smallest();
    let two_defaults =
        Table::new(vec![Point::new(1)]).values(vec![ValueBin::default(0), ValueBin::default(0)]);
    let places =
        Table::new(vec![Point::new(16)]).values(vec![
            ValueBin::cover(0, &[Range::Span(0, 256)]).form(Form::PerValue)
        ]);
    let spoiled = |section, name: &str, v| {
        let mut written = places.written();
        written.set(section, 0, name, v);
        written.bytes
    };
    let (over, long) = (places.bytes(), [&good[..], &[0; 65_536]].concat());
    for (head, number, bytes) in [
        ("1", 1, long),
        ("2 at byte 29", 2, good[..30].to_vec()),
        ("2 at byte 0", 2, Vec::new()),
        ("3 at byte 0", 3, [&[17, 0], &good[2..]].concat()),
        ("4 at byte 23", 4, two_defaults.bytes()),
        ("5 at byte 31", 5, [&good[..], &[0]].concat()),
        ("6 at byte 56", 6, over),
        ("15 at byte 16", 15, spoiled(VALUE_BINS, "kind", 4)),
        ("16 at byte 34", 16, spoiled(VALUE_RANGES, "b", -1)),
        ("17 at byte 18", 17, spoiled(VALUE_BINS, "number", 1)),
    ] {
        let table = file(&folder, "table", &bytes);
        let expected = format!("no report: table refused: {head} ({})\n", reason(number));
        assert_eq!(replay(&bytes, &[]), expected);
        assert_eq!(run(&table, &log), expected);
    }
}

/// A log longer than any buffer, from a file and dribbled through a pipe.
#[test]
fn long_logs() {
    let folder = folder("long");
    let table = Table::new(vec![Point::signed(8), Point::new(3)])
        .values(vec![ValueBin::illegal(0, &[value(-10)])])
        .transitions(vec![TransitionBin::cover(1, &[sequence(&[1, 2, 3])])]);
    let bytes = table.bytes();
    let mut rng = Rng::new(7);
    let mut caller = Caller::new(&table);
    let entries: Vec<Entry> = (0..60_000)
        .map(|_| Entry::Sample(caller.sample_words(&mut rng)))
        .collect();
    let entries = log(&entries);
    assert!(entries.len() > 2_000_000);
    let expected = replay(&bytes, &entries);
    assert!(expected.contains("samples 60000, running"));
    let table = file(&folder, "table", &bytes);
    assert_eq!(run(&table, &file(&folder, "log", &entries)), expected);

    let dribbled = &entries[..40_000];
    let mut child = Command::new(program())
        .args([&table, Path::new("/dev/stdin")])
        .stdin(Stdio::piped())
        .stdout(Stdio::piped())
        .spawn()
        .unwrap();
    let mut pipe = child.stdin.take().unwrap();
    for part in dribbled.chunks(7) {
        pipe.write_all(part).unwrap();
    }
    drop(pipe);
    let output = child.wait_with_output().unwrap().stdout;
    assert_eq!(String::from_utf8(output).unwrap(), replay(&bytes, dribbled));
}

/// A table with nearly as many places as there can be, a log, and a report that no buffer holds.
fn large() -> (Vec<u8>, Vec<u8>, String) {
    let mut points = vec![Point::new(8).auto_max(256); 14];
    points.extend(vec![Point::new(5); 2]);
    let mut table = Table::new(points);
    for _ in 0..8 {
        table = table.cross(Cross::new(&[14, 15]));
    }
    let mut rng = Rng::new(11);
    let mut caller = Caller::new(&table);
    let entries: Vec<Entry> = (0..50)
        .map(|_| Entry::Sample(caller.sample_words(&mut rng)))
        .collect();
    let (table, log) = (table.bytes(), log(&entries));
    let text = replay(&table, &log);
    assert!(text.len() > 400_000 && text.ends_with("end of report\n"));
    (table, log, text)
}

/// The help text says how much stack is enough.
#[test]
fn the_stack_it_says() {
    let folder = folder("stack");
    let (bytes, entries, text) = large();
    let table = file(&folder, "table", &bytes);
    let log = file(&folder, "log", &entries);
    let help = said(Command::new(program()).arg("--help"));
    assert!(help.contains("\nStack: 1,024 KB.\n"));
    let small = |log: &Path| {
        let mut command = Command::new("bash");
        command.args(["-c", "ulimit -s 1024; exec \"$@\"", "bash"]);
        told(command.args([program().as_path(), &table, log]))
    };
    assert_eq!(small(&log), (text, String::new()));
    let last = "partial report: log not read on from entry 0\n";
    assert!(small(&folder).0.ends_with(last));
}

/// Files that cannot be read, on either side.
#[test]
fn files_that_cannot_be_read() {
    let folder = folder("unread");
    let table = file(&folder, "table", &smallest());
    let log = file(&folder, "log", &log(&[sample(1, 0)]));
    let cannot =
        |path: &Path, why: &str| format!("replay: cannot read {}: {why}\n", path.display());
    let no_table = |path: &Path, why: &str| {
        let told = told(&mut replay_of(path, &log));
        assert_eq!(
            told,
            ("no report: table not read\n".into(), cannot(path, why))
        );
    };
    let no_log = |path: &Path, why: &str| {
        let told = told(&mut replay_of(&table, path));
        assert_eq!(
            told,
            ("no report: log not opened\n".into(), cannot(path, why))
        );
    };
    let (missing, within) = (folder.join("missing"), table.join("within"));
    no_table(&missing, "No such file or directory");
    no_log(&missing, "No such file or directory");
    no_table(&within, "Not a directory");
    no_log(&within, "Not a directory");
    no_log(Path::new(""), "No such file or directory");

    // A directory opens, and cannot be read.
    no_table(&folder, "Is a directory");
    let empty = replay_until(&smallest(), &[], After::AFailedRead);
    assert!(empty.ends_with("\npartial report: log not read on from entry 0\n"));
    let output = told(&mut replay_of(&table, &folder));
    assert_eq!(output, (empty, cannot(&folder, "Is a directory")));

    // Permissions bind everyone but root.
    let shut = file(&folder, "shut", &smallest());
    fs::set_permissions(&shut, fs::Permissions::from_mode(0o000)).unwrap();
    let denied = "Permission denied";
    let as_nobody = |args: [&Path; 2]| {
        let open = OpenFolder::with(&args);
        let mut command = Command::new(open.program());
        command.args(open.args());
        if open.root {
            command.uid(65_534).gid(65_534);
        }
        (told(&mut command), open)
    };
    let ((out, err), open) = as_nobody([&shut, &log]);
    assert_eq!(out, "no report: table not read\n");
    assert_eq!(err, cannot(&open.args()[0], denied));
    let ((out, err), open) = as_nobody([&table, &shut]);
    assert_eq!(out, "no report: log not opened\n");
    assert_eq!(err, cannot(&open.args()[1], denied));
}

/// The system's calls `read` and `write` as a run is to meet them.
struct Meddled {
    library: PathBuf,
}

impl Meddled {
    fn new(folder: &Path) -> Meddled {
        let code = file(folder, "meddled.c", MEDDLED.as_bytes());
        let library = folder.join("meddled.so");
        let compiler = Command::new("cc")
            .args(["-O2", "-shared", "-fPIC", "-o"])
            .args([&library, &code])
            .status();
        assert!(compiler.expect("a C compiler").success());
        Meddled { library }
    }

    fn run(&self, table: &Path, log: &Path, settings: &[(&str, usize)]) -> (String, String) {
        let mut command = replay_of(table, log);
        for (name, number) in settings {
            command.env(name, number.to_string());
        }
        told(command.env("LD_PRELOAD", &self.library))
    }
}

/// READ_SIZE, WRITE_SIZE: what a call moves at most. READS, WRITES: the number of the one call that
/// fails, with EIO, or answers 0 where ANSWER is 0. READ_PASSING, WRITE_PASSING: the error of every
/// second call. STUCK: the error of every write. Only writes to standard output are meddled with.
const MEDDLED: &str = "
#include <errno.h>
#include <stdlib.h>
#include <sys/syscall.h>
#include <unistd.h>
static long set(const char *name, long otherwise) {
    const char *text = getenv(name);
    return text ? atol(text) : otherwise;
}
static int fails(long *calls, long *taken, long passing, long failing) {
    if (passing && (*calls)++ % 2 == 0) {
        errno = passing;
        return 1;
    }
    if ((*taken)++ != failing)
        return 0;
    errno = EIO;
    return 2;
}
ssize_t read(int fd, void *to, size_t n) {
    static long calls, taken;
    size_t most = set(\"READ_SIZE\", n);
    if (fails(&calls, &taken, set(\"READ_PASSING\", 0), set(\"READS\", -1)))
        return -1;
    return syscall(SYS_read, fd, to, n < most ? n : most);
}
ssize_t write(int fd, const void *from, size_t n) {
    static long calls, taken, stuck = -1;
    if (fd != 1)
        return syscall(SYS_write, fd, from, n);
    if (stuck < 0)
        stuck = set(\"STUCK\", 0);
    if (stuck) {
        errno = stuck;
        return -1;
    }
    size_t most = set(\"WRITE_SIZE\", n);
    int failed = fails(&calls, &taken, set(\"WRITE_PASSING\", 0), set(\"WRITES\", -1));
    if (failed)
        return failed == 2 ? set(\"ANSWER\", -1) : -1;
    return syscall(SYS_write, fd, from, n < most ? n : most);
}
int sched_yield(void) {
    return 0;
}
";

const EINTR: usize = 4;
const EAGAIN: usize = 11;

/// A read that fails after some that did not: within the table, within an entry, between two.
#[test]
fn reads_that_fail() {
    let folder = folder("reads");
    let meddled = Meddled::new(&folder);
    let (bytes, entries) = (smallest(), log(&[sample(1, 0), sample(1, 0), sample(0, 0)]));
    let table = file(&folder, "table", &bytes);
    let log = file(&folder, "log", &entries);
    let cannot =
        |path: &Path, why: &str| format!("replay: cannot read {}: {why}\n", path.display());
    let eio = "Input/output error";
    // Each file and its end take two reads.
    for reads in 0..2 {
        let expected = ("no report: table not read\n".into(), cannot(&table, eio));
        assert_eq!(meddled.run(&table, &log, &[("READS", reads)]), expected);
    }
    let none = replay_until(&bytes, &[], After::AFailedRead);
    let expected = (none, cannot(&log, eio));
    assert_eq!(meddled.run(&table, &log, &[("READS", 2)]), expected);
    let all = replay_until(&bytes, &entries, After::AFailedRead);
    assert!(all.ends_with("\npartial report: log not read on from entry 3\n"));
    let expected = (all, cannot(&log, eio));
    assert_eq!(meddled.run(&table, &log, &[("READS", 3)]), expected);
    let whole = (replay(&bytes, &entries), String::new());
    assert_eq!(meddled.run(&table, &log, &[("READS", 4)]), whole);

    // By ten bytes at a time: what came whole before the failure is taken.
    let before = bytes.len().div_ceil(10) + 1;
    for came in (0..entries.len()).step_by(10) {
        let settings = [("READ_SIZE", 10), ("READS", before + came / 10)];
        let expected = replay_until(&bytes, &entries[..came], After::AFailedRead);
        let expected = (expected, cannot(&log, eio));
        assert_eq!(meddled.run(&table, &log, &settings), expected, "{came}");
    }
    assert_eq!(meddled.run(&table, &log, &[("READ_SIZE", 1)]), whole);

    // A signal that interrupts a read is no failure.
    let settings = [("READ_SIZE", 3), ("READ_PASSING", EINTR)];
    assert_eq!(meddled.run(&table, &log, &settings), whole);
    let settings = [("READ_PASSING", EAGAIN)];
    let (_, err) = meddled.run(&table, &log, &settings);
    assert_eq!(err, cannot(&table, "Resource temporarily unavailable"));
}

/// Writes that move a part, that pass after another try, and that fail: nothing is written after.
#[test]
fn writes_that_fail() {
    let folder = folder("writes");
    let meddled = Meddled::new(&folder);
    let (bytes, entries) = (smallest(), log(&[sample(1, 0)]));
    let table = file(&folder, "small-table", &bytes);
    let log = file(&folder, "small-log", &entries);
    let text = replay(&bytes, &entries);
    let whole = (text.clone(), String::new());
    // A small report is one write.
    assert_eq!(meddled.run(&table, &log, &[("WRITES", 1)]), whole);
    for (writes, came) in (0..text.len()).step_by(10).enumerate() {
        let settings = [("WRITE_SIZE", 10), ("WRITES", writes)];
        let expected = (text[..came].to_string(), cannot_write("Input/output error"));
        assert_eq!(meddled.run(&table, &log, &settings), expected, "{came}");
        let settings = [settings[0], settings[1], ("ANSWER", 0)];
        let (out, err) = meddled.run(&table, &log, &settings);
        assert_eq!(out, text[..came], "{came}");
        assert!(err.starts_with("replay: cannot write: "), "{err}");
        assert_eq!(err.lines().count(), 1, "{err}");
    }
    let stuck = meddled.run(&table, &log, &[("STUCK", EAGAIN)]);
    let why = "Resource temporarily unavailable";
    assert_eq!(stuck, (String::new(), cannot_write(why)));

    let (bytes, entries, text) = large();
    let table = file(&folder, "table", &bytes);
    let log = file(&folder, "log", &entries);
    let whole = (text.clone(), String::new());
    for passing in [0, EINTR, EAGAIN] {
        let settings = [("WRITE_SIZE", 777), ("WRITE_PASSING", passing)];
        assert_eq!(meddled.run(&table, &log, &settings), whole);
    }
    for writes in [0, 1, 2, 100, 500] {
        let settings = [("WRITE_SIZE", 777), ("WRITES", writes)];
        let (out, err) = meddled.run(&table, &log, &settings);
        assert!(text.starts_with(&out), "{writes}");
        assert!(writes <= out.len() && out.len() <= 777 * writes);
        assert_eq!(err, cannot_write("Input/output error"), "{writes}");
    }
}

#[test]
fn a_full_device() {
    let folder = folder("full");
    let (bytes, entries, _) = large();
    let table = file(&folder, "table", &bytes);
    let log = file(&folder, "log", &entries);
    let full = |args: &[&OsStr]| {
        let device = fs::OpenOptions::new().write(true).open("/dev/full");
        let mut command = Command::new(program());
        command.args(args).stdout(device.unwrap());
        told(command.stderr(Stdio::piped())).1
    };
    let expected = cannot_write("No space left on device");
    assert_eq!(full(&[table.as_os_str(), log.as_os_str()]), expected);
    let small = file(&folder, "small", &smallest());
    assert_eq!(full(&[small.as_os_str(), log.as_os_str()]), expected);
    assert_eq!(full(&["--help".as_ref()]), expected);
    assert_eq!(full(&["--version".as_ref()]), expected);
}

/// With standard output closed the table's file gets its number, and is not written to.
#[test]
fn no_standard_output() {
    let folder = folder("none");
    let table = file(&folder, "table", &smallest());
    let log = file(&folder, "log", &log(&[sample(1, 0)]));
    let mut command = Command::new("bash");
    command.args(["-c", "exec \"$@\" >&-", "bash"]);
    let (out, err) = told(command.args([&program(), &table, &log]));
    assert_eq!(
        (out, err),
        (String::new(), cannot_write("Bad file descriptor"))
    );
    assert_eq!(fs::read(&table).unwrap(), smallest());
}

/// A program that reads its standard input, and the pipe to it.
fn reader(script: &str) -> (Child, ChildStdin) {
    let mut child = Command::new("bash")
        .args(["-c", script])
        .stdin(Stdio::piped())
        .stdout(Stdio::piped())
        .spawn()
        .unwrap();
    let pipe = child.stdin.take().unwrap();
    (child, pipe)
}

#[test]
fn a_closed_pipe() {
    let folder = folder("closed");
    let (bytes, entries, _) = large();
    let table = file(&folder, "table", &bytes);
    let log = file(&folder, "log", &entries);
    let closed = |prepare: &str| {
        let (mut child, pipe) = reader("exit");
        child.wait().unwrap();
        let mut command = Command::new("bash");
        command.args(["-c", &format!("{prepare} exec \"$@\""), "bash"]);
        command.args([program(), table.clone(), log.clone()]);
        let child = command.stdout(pipe).stderr(Stdio::piped()).spawn();
        child.unwrap().wait_with_output().unwrap()
    };
    // The runtime ignores the signal itself, whatever its caller did.
    for prepare in ["trap '' PIPE;", "trap - PIPE;"] {
        let output = closed(prepare);
        assert!(output.status.success(), "{output:?}");
        let err = String::from_utf8(output.stderr).unwrap();
        assert_eq!(err, cannot_write("Broken pipe"), "{prepare}");
    }
}

extern "C" {
    fn fcntl(fd: i32, command: i32, ...) -> i32;
}

/// A pipe that does not block and is emptied slowly takes the whole report.
#[test]
fn a_slow_pipe() {
    const F_GETFL: i32 = 3;
    const F_SETFL: i32 = 4;
    const O_NONBLOCK: i32 = 0o4000;
    let folder = folder("slow");
    let (bytes, entries, text) = large();
    let table = file(&folder, "table", &bytes);
    let log = file(&folder, "log", &entries);
    let slow = "for i in {1..20}; do sleep 0.02; head -c 8192; done; exec cat";
    let (child, pipe) = reader(slow);
    let fd = pipe.as_raw_fd();
    // SAFETY: the descriptor is open, and these two commands touch no memory.
    let flags = unsafe { fcntl(fd, F_GETFL) };
    let done = unsafe { fcntl(fd, F_SETFL, flags | O_NONBLOCK) };
    assert!(flags >= 0 && done == 0);
    let came = std::thread::spawn(|| child.wait_with_output().unwrap().stdout);
    let mut command = replay_of(&table, &log);
    let run = command.stdout(pipe).stderr(Stdio::piped()).spawn().unwrap();
    drop(command);
    let output = run.wait_with_output().unwrap();
    assert!(output.status.success());
    assert_eq!(String::from_utf8(output.stderr).unwrap(), "");
    assert_eq!(String::from_utf8(came.join().unwrap()).unwrap(), text);
}

/// Copies of the program and of two files where every user can reach them.
struct OpenFolder {
    path: PathBuf,
    root: bool,
}

impl OpenFolder {
    fn with(files: &[&Path; 2]) -> OpenFolder {
        let own = format!("fluviquen-replay-{}-{:p}", std::process::id(), files);
        let path = std::env::temp_dir().join(own);
        fs::create_dir_all(&path).unwrap();
        let root = fs::metadata(&path).unwrap().uid() == 0;
        let open = OpenFolder { path, root };
        fs::set_permissions(&open.path, fs::Permissions::from_mode(0o755)).unwrap();
        fs::copy(program(), open.program()).unwrap();
        for (from, to) in files.iter().zip(open.args()) {
            fs::write(&to, smallest()).unwrap();
            fs::set_permissions(&to, fs::metadata(from).unwrap().permissions()).unwrap();
        }
        open
    }

    fn program(&self) -> PathBuf {
        self.path.join("replay")
    }

    fn args(&self) -> [PathBuf; 2] {
        [self.path.join("table"), self.path.join("log")]
    }
}

impl Drop for OpenFolder {
    fn drop(&mut self) {
        let _ = fs::remove_dir_all(&self.path);
    }
}

#[test]
fn usage_and_help() {
    let usage = "usage: replay TABLE LOG   (replay --help explains)\n";
    for args in [
        &[][..],
        &["a"],
        &["a", "b", "c"],
        &["--helps"],
        &["--version2"],
    ] {
        let told = told(Command::new(program()).args(args));
        assert_eq!(told, (String::new(), usage.into()));
    }
    let help = said(Command::new(program()).arg("--help"));
    assert!(help.starts_with("replay TABLE LOG\n\n"));
    for line in [
        "  illegal place P raised at sample S (entry E)\n",
        "  illegal place P total: COUNT (SHOWN shown)  (",
        "  end of report  (",
        "  partial report: log cut at entry N  (",
        "  partial report: entry N refused: NUMBER (REASON)\n",
        "  partial report: entry N of no kind: its first word is W, none of 0, 1, 2\n",
        "  partial report: log not read on from entry N  (",
        "  no report: table refused: NUMBER at byte PLACE (REASON)  (",
        "  no report: table not read\n",
        "  no report: log not opened\n",
        "  no report: a name is too long\n",
        "There is no exit status",
        "replay --version",
    ] {
        assert!(help.contains(line), "{line}");
    }
    for number in [1, 2, 3, 4, 5, 6, 15, 16, 17, 9, 10, 13] {
        let line = format!("\n  {number} ({})\n", reason(number));
        assert!(help.contains(&line), "{line}");
    }
    assert!(help.lines().all(|line| line.len() <= 91));
    assert_eq!(said(Command::new(program()).arg("-h")), help);
    let long = said(Command::new(program()).args(["--help", "a", "b"]));
    assert_eq!(long, help);
}

/// The version is the header's and the Rust crate's.
#[test]
fn version() {
    let version = said(Command::new(program()).arg("--version"));
    assert_eq!(said(Command::new(program()).arg("-V")), version);
    let number = version.strip_prefix("replay ").unwrap().trim_end();
    assert_eq!(version, format!("replay {number}\n"));
    let above = concat!(env!("CARGO_MANIFEST_DIR"), "/..");
    for (name, line) in [
        (
            "include/fluviquen.h",
            format!("#define FLUVIQUEN_VERSION \"{number}\""),
        ),
        ("rust/Cargo.toml", format!("version = \"{number}\"")),
    ] {
        let text = fs::read_to_string(Path::new(above).join(name)).unwrap();
        assert!(text.lines().any(|l| l == line), "{name}: no {line}");
    }
}

/// A name as it stands on standard error.
fn escaped(name: &[u8]) -> Vec<u8> {
    let byte = |&b: &u8| match b {
        0..=31 | 127 | b'\\' => format!("\\x{b:02x}").into_bytes(),
        _ => vec![b],
    };
    name.iter().flat_map(byte).collect()
}

/// Names are taken whole or not at all, and told with their control bytes escaped.
#[test]
fn names() {
    let folder = folder("names");
    let log = file(&folder, "log", &[]);
    let table = file(&folder, "table", &smallest());
    let long = "a".repeat(100_000);
    let long = Path::new(&long);
    let no_name = |whose: &str| {
        let why = format!("replay: the {whose}'s name: File name too long\n");
        ("no report: a name is too long\n".to_string(), why)
    };
    assert_eq!(told(&mut replay_of(long, &log)), no_name("table"));
    assert_eq!(told(&mut replay_of(&table, long)), no_name("log"));
    assert_eq!(told(&mut replay_of(long, long)), no_name("table"));

    let odd = PathBuf::from(std::ffi::OsString::from_vec(
        b"a\x1b[31m\n\xc3\xa4 %\\n".to_vec(),
    ));
    let (out, err) = told(&mut replay_of(&odd, &log));
    assert_eq!(out, "no report: table not read\n");
    let name = r"a\x1b[31m\x0a\u{e4} %\x5cn".replace(r"\u{e4}", "ä");
    assert_eq!(
        err,
        format!("replay: cannot read {name}: No such file or directory\n")
    );

    // Every byte that a name can have, and the longest name with nothing but escapes.
    let every: Vec<u8> = (1..=255).filter(|&b| b != b'/').collect();
    for (name, why) in [
        (&every[..], "No such file or directory"),
        (&[1; 4_096], "File name too long"),
    ] {
        let output = output(&mut replay_of(&table, Path::new(OsStr::from_bytes(name))));
        assert_eq!(output.stdout, b"no report: log not opened\n");
        let line = [
            b"replay: cannot read ",
            &escaped(name)[..],
            b": ",
            why.as_bytes(),
            b"\n",
        ];
        assert_eq!(output.stderr, line.concat());
    }
}
