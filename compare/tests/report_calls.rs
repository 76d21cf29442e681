//! The functions of the report that tell whether they wrote, as the program
//! `report_calls` calls them: its exit status has a bit for each that answered Err,
//! 1 the reports of samples, 2 the totals, 4 the report, 8 the last line.

use compare::replay::cannot_write;
use std::fs;
use std::process::{Command, Output, Stdio};

/// So often is each called with an argument: 16,384 bytes and more of each.
const MANY: usize = 2_000;

const REPORTS: &str = "illegal place 0 raised at sample 1 (entry 2)\n\
                       illegal place 0 raised at sample 3 (entry 4)\n";

const TOTALS: &str = "illegal place 0 total: 2 (2 shown)\n";

const REPORT: &str = "illegal place 0 total: 2 (2 shown)\n\
                      samples 3, running\n\
                      place 0: 2 (point 0, illegal bin, not in the total)\n\
                      place 1: 1 (point 0, bin, covered)\n\
                      place 2: 0 (point 0, bin, not in the total)\n\
                      point 0 unknown: 0\n\
                      item 0: 100.000000 % (point 0)\n\
                      group: 100.000000 %\n";

const ENDING: &str = "partial report: log cut at entry 5\n";

fn run(args: &[&str], out: Stdio) -> Output {
    let program = concat!(env!("CARGO_MANIFEST_DIR"), "/../target/bin/report_calls");
    let mut command = Command::new(program);
    command.args(args).stdout(out).stderr(Stdio::piped());
    command.spawn().unwrap().wait_with_output().unwrap()
}

fn full() -> Stdio {
    let device = fs::OpenOptions::new().write(true).open("/dev/full");
    device.unwrap().into()
}

/// Each of the four outputs says its first failure.
fn four_failures(output: &Output) {
    let err = String::from_utf8_lossy(&output.stderr);
    assert_eq!(err, cannot_write("No space left on device").repeat(4));
}

#[test]
fn each_writes() {
    for (args, times) in [(&[][..], 1), (&["often"], MANY)] {
        let output = run(args, Stdio::piped());
        let expected = [REPORTS, TOTALS, REPORT, ENDING].map(|text| text.repeat(times));
        let out = String::from_utf8_lossy(&output.stdout);
        assert!(out == expected.concat(), "{args:?}");
        assert_eq!(output.status.code(), Some(0), "{args:?}");
        assert!(output.stderr.is_empty());
    }
}

#[test]
fn each_tells_that_it_did_not_write() {
    let output = run(&["often"], full());
    assert_eq!(output.status.code(), Some(15));
    four_failures(&output);
}

/// Each output is written after the call, and fails then.
#[test]
fn what_the_buffer_has_room_for_counts_as_written() {
    let output = run(&[], full());
    assert_eq!(output.status.code(), Some(0));
    four_failures(&output);
}
