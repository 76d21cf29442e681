//! The wrapper on document 01's smallest table, and each way to be refused.

use fluviquen::*;

/// One unsigned point of one bit, no bins: two auto bins.
fn smallest() -> Vec<u8> {
    let mut bytes = vec![1, 0, 1, 0, 255, 1, 0, 1, 0, 0, 0, 64, 0];
    bytes.extend([0; 18]);
    bytes
}

const ONE: [u32; 6] = [0, 0, 0, 0, 1, 0];
const UNKNOWN: [u32; 6] = [0, 0, 0, 0, 0, 1];

fn number<T: std::fmt::Debug>(result: Result<T, Refusal>) -> u32 {
    result.expect_err("a refusal").number()
}

#[test]
fn the_smallest_table() {
    let bytes = smallest();
    let table = Table::new(&bytes).unwrap();
    assert_eq!(bytes.len(), 31);
    let needs = Measure {
        words: 5,
        illegal_places: 0,
    };
    assert_eq!(table.measure(), needs);
    assert_eq!(section(&bytes, 1).unwrap(), &bytes[2..13]);
    assert!(section(&bytes, 11).unwrap().is_empty());
    let mut register = table.register();
    assert_eq!(register, [1, 0, 0, 0, 0]);
    for words in [ONE, ONE, UNKNOWN] {
        sample(&bytes, &mut register, &words, &mut []).unwrap();
    }
    assert_eq!(register, [1, 3, 0, 2, 1]);
    assert_eq!(place_count(&bytes, &register, 1), Ok(2));
    assert_eq!(unknown_count(&bytes, &register, 0), Ok(1));
    assert_eq!(item_figure(&bytes, &register, 0), Ok(Some(50.0)));
    assert_eq!(group_figure(&bytes, &register), Ok(Some(50_000_000)));
    stop(&bytes, &mut register).unwrap();
    assert_eq!(number(sample(&bytes, &mut register, &ONE, &mut [])), 10);
    start(&bytes, &mut register).unwrap();
    assert_eq!(register, [1, 3, 0, 2, 1]);
}

#[test]
fn refusals() {
    let bytes = smallest();
    let mut register = Table::new(&bytes).unwrap().register();
    assert_eq!(measure(&vec![0; 65_537]), Err(Refusal::TableTooLong));
    assert_eq!(measure(&[]), Err(Refusal::TableCut { place: 0 }));
    assert_eq!(measure(&[0, 0]), Err(Refusal::TableCount { place: 0 }));
    let longer = [&bytes[..], &[0]].concat();
    assert_eq!(measure(&longer), Err(Refusal::TableLeftover { place: 31 }));
    assert_eq!(number(reset(&bytes, &mut register[..4])), 7);
    assert_eq!(number(start(&bytes, &mut [2, 0, 0, 0, 0])), 8);
    let last = &mut [1, u32::MAX, 0, 0, 0];
    assert_eq!(number(sample(&bytes, last, &ONE, &mut [])), 9);
    assert_eq!(
        number(sample(&bytes, &mut register, &ONE[..5], &mut [])),
        12
    );
    let wide = [0, 0, 0, 0, 2, 0];
    assert_eq!(number(sample(&bytes, &mut register, &wide, &mut [])), 13);
    assert_eq!(number(place_count(&bytes, &register, 2)), 14);
    assert_eq!(number(unknown_count(&bytes, &register, 1)), 14);
    assert_eq!(number(item_figure(&bytes, &register, 1)), 14);
    assert_eq!(register, [1, 0, 0, 0, 0]);
    let refusal = group_figure(&bytes, &[]).unwrap_err();
    let said = "refused: 7 (the register is shorter than the table needs)";
    assert_eq!((refusal.to_string(), refusal.place()), (said.into(), None));
}

/// A table's refusal has the byte at fault, whichever call gives it.
#[test]
fn refused_tables() {
    let spoiled = |place: usize, byte| {
        let mut bytes = watched();
        bytes[place] = byte;
        bytes
    };
    // The width, the last byte of a, b, and the illegal bin's number.
    for (place, byte, refusal) in [
        (2, 33, Refusal::TableField { place: 2 }),
        (33, 1, Refusal::TableValue { place: 26 }),
        (34, 2, Refusal::TableValue { place: 34 }),
        (18, 1, Refusal::TableUnused { place: 18 }),
        (21, 2, Refusal::TableDisagrees { place: 23 }),
    ] {
        let bytes = spoiled(place, byte);
        assert!(refusal.is_of_table());
        assert_eq!(measure(&bytes), Err(refusal));
        assert_eq!(Table::new(&bytes).err(), Some(refusal));
        assert_eq!(section(&bytes, 1), Err(refusal));
        assert_eq!(reset(&bytes, &mut [0; 9]), Err(refusal));
        assert_eq!(start(&bytes, &mut [0; 9]), Err(refusal));
        assert_eq!(stop(&bytes, &mut [0; 9]), Err(refusal));
        assert_eq!(sample(&bytes, &mut [0; 9], &ONE, &mut [0]), Err(refusal));
        let halted = Err(Halted { taken: 0, refusal });
        assert_eq!(samples(&bytes, &mut [0; 9], &ONE, &mut [0]), halted);
        assert_eq!(place_count(&bytes, &[0; 9], 0), Err(refusal));
        assert_eq!(unknown_count(&bytes, &[0; 9], 0), Err(refusal));
        assert_eq!(item_figure(&bytes, &[0; 9], 0), Err(refusal));
        assert_eq!(group_figure(&bytes, &[0; 9]), Err(refusal));
    }
    let said = "table refused: 16 at byte 34 (a, b, lo or hi outside the point's type, \
                out of order, or a pattern outside its mask)";
    assert_eq!(measure(&spoiled(34, 2)).unwrap_err().to_string(), said);
    let too_long = measure(&vec![0; 65_537]).unwrap_err();
    let said = "table refused: 1 (the table is over 65,536 bytes)";
    assert_eq!(
        (too_long.to_string(), too_long.place()),
        (said.into(), None)
    );
}

/// One unsigned point of two bits with an illegal bin for 3: an illegal place.
fn watched() -> Vec<u8> {
    let mut bytes = vec![1, 0, 2, 0, 255, 1, 0, 1, 0, 0, 0, 64, 0];
    bytes.extend([1, 0, 0, 2, 0, 0, 0, 255, 1, 0]);
    bytes.extend([1, 0, 0, 3, 0, 0, 0, 0, 0, 0, 0, 3, 0, 0, 0, 0, 0, 0, 0]);
    bytes.extend([0; 14]);
    bytes
}

/// A batch is its samples one by one, up to the first that is refused.
#[test]
fn a_batch() {
    let bytes = watched();
    let table = Table::new(&bytes).unwrap();
    let words: Vec<u32> = [0, 3, 1, 3]
        .iter()
        .flat_map(|&v| [0, 0, 0, 0, v, 0])
        .collect();
    let mut register = table.register();
    let mut reports = [7; 5];
    assert_eq!(samples(&bytes, &mut register, &words, &mut reports), Ok(4));
    assert_eq!(reports, [0, 1, 0, 1, 7]);
    let mut single = table.register();
    for (sample_words, report) in words.chunks(6).zip(reports.chunks(1)) {
        let mut own = [7];
        sample(&bytes, &mut single, sample_words, &mut own).unwrap();
        assert_eq!(own, report);
    }
    assert_eq!(register, single);

    let halted = |taken, refusal| Err(Halted { taken, refusal });
    // The reports have room for two samples.
    let mut register = table.register();
    let (number, taken) = raw::samples(&bytes, &mut register, &words, &mut reports[..2]);
    assert_eq!((number, taken, register[1]), (11, 2, 2));
    // The third sample is too wide; then it is cut.
    let mut wide = words.clone();
    wide[16] = 4;
    let mut register = table.register();
    let answer = samples(&bytes, &mut register, &wide, &mut reports);
    assert_eq!(answer, halted(2, Refusal::SampleWidth));
    assert_eq!(register[1], 2);
    let answer = samples(&bytes, &mut register, &words[..17], &mut reports);
    assert_eq!(answer, halted(2, Refusal::SampleLength));
    assert_eq!(register[1], 4);
    let said = "after 2 samples, refused: 12 (the sample has not 4 + 2 x points words)";
    assert_eq!(answer.unwrap_err().to_string(), said);
    // No words: the table and the register are tested.
    assert_eq!(samples(&bytes, &mut register, &[], &mut []), Ok(0));
    stop(&bytes, &mut register).unwrap();
    assert_eq!(samples(&bytes, &mut register, &[], &mut []), Ok(0));
    let answer = samples(&bytes, &mut register, &words, &mut reports);
    assert_eq!(answer, halted(0, Refusal::RegisterStopped));
    let answer = samples(&bytes, &mut register[..3], &[], &mut []);
    assert_eq!(answer, halted(0, Refusal::RegisterShort));
    let answer = samples(&bytes[..3], &mut register, &[], &mut []);
    assert_eq!(answer, halted(0, Refusal::TableCut { place: 2 }));
}

/// A register with its table: the same answers as the plain functions.
#[test]
fn a_register_with_its_table() {
    let bytes = watched();
    let table = Table::new(&bytes).unwrap();
    let mut register = Register::new(table);
    let mut report = table.report();
    register.sample(&[0, 0, 0, 0, 1, 0], &mut report).unwrap();
    let rest = [0, 0, 0, 0, 3, 0, 0, 0, 0, 0, 0, 1];
    assert_eq!(register.samples(&rest, &mut [7; 2]), Ok(2));
    assert_eq!((register.taken(), register.is_running()), (3, true));
    // The illegal bin, then an auto bin for each value; that of 3 is left with none.
    assert_eq!(register.counts(), [1, 0, 1, 0, 0]);
    assert_eq!(register.count(2), Ok(1));
    assert_eq!(register.count(5), Err(Refusal::NotThere));
    assert_eq!(register.unknown_count(0), Ok(1));
    assert_eq!(register.figure(1), Err(Refusal::NotThere));
    assert_eq!(register.figures(), [Some(100.0 / 3.0)]);
    assert_eq!(register.group_figure(), Some(33_333_333));
    register.stop();
    let halted = register.samples(&rest, &mut report).unwrap_err();
    assert_eq!(
        (halted.taken, halted.refusal),
        (0, Refusal::RegisterStopped)
    );
    let mut kept = Register::from_words(table, register.words().to_vec()).unwrap();
    kept.start();
    assert!(kept.is_running() && !register.is_running());
    assert_eq!(kept.words()[1..], register.words()[1..]);
    kept.reset();
    assert_eq!(kept.into_words(), table.register());
    assert_eq!(register.table().bytes(), bytes);
    let short = Register::from_words(table, vec![1, 0]);
    assert_eq!(number(short), 7);
    let mut impossible = table.register();
    impossible[2] = 1;
    assert_eq!(number(Register::from_words(table, impossible)), 8);
}

/// The numbers and names of the C header are those of this crate.
#[test]
fn names_of_the_header() {
    let names = [
        "TABLE_TOO_LONG",
        "TABLE_CUT",
        "TABLE_COUNT",
        "TABLE_DISAGREES",
        "TABLE_LEFTOVER",
        "TABLE_LIMITS",
        "REGISTER_SHORT",
        "REGISTER_IMPOSSIBLE",
        "REGISTER_FULL",
        "REGISTER_STOPPED",
        "REPORT_SHORT",
        "SAMPLE_LENGTH",
        "SAMPLE_WIDTH",
        "NOT_THERE",
        "TABLE_FIELD",
        "TABLE_VALUE",
        "TABLE_UNUSED",
    ];
    let header = include_str!("../../include/fluviquen.h");
    let (_, after) = header.split_once("enum fluviquen_refusal {").unwrap();
    let (body, _) = after.split_once("};").unwrap();
    let lines: Vec<&str> = body.lines().map(str::trim).collect();
    let lines: Vec<&str> = lines.into_iter().filter(|line| !line.is_empty()).collect();
    assert_eq!(lines[0], "FLUVIQUEN_ACCEPTED = 0,");
    assert_eq!(lines.len(), 1 + names.len());
    assert_eq!(Refusal::from_number(0, 0), None);
    assert_eq!(Refusal::from_number(18, 0), None);
    for ((number, name), line) in (1..).zip(names).zip(&lines[1..]) {
        let refusal = Refusal::from_number(number, 5).unwrap();
        assert_eq!(refusal.number(), number);
        let (code, comment) = line.split_once("/*").unwrap();
        let expected = format!("FLUVIQUEN_{name} = {number}");
        assert_eq!(code.trim().trim_end_matches(','), expected);
        // TABLE_CUT is TableCut.
        let words = name.split('_');
        let words = words.map(|word| word[..1].to_string() + &word[1..].to_lowercase());
        let variant = format!("{refusal:?}");
        assert_eq!(
            variant.split(' ').next().unwrap(),
            words.collect::<String>()
        );
        let said = comment.trim_end_matches("*/").trim();
        assert!(said.starts_with(refusal.reason()), "{said}");
        let placed = name.starts_with("TABLE") && name != "TABLE_TOO_LONG";
        assert_eq!(refusal.place(), placed.then_some(5));
        assert_eq!(refusal.is_of_table(), name.starts_with("TABLE"));
    }
    let version = format!(
        "#define FLUVIQUEN_VERSION \"{}\"",
        env!("CARGO_PKG_VERSION")
    );
    assert!(header.lines().any(|line| line == version));
    let parts = [
        ("MAJOR", env!("CARGO_PKG_VERSION_MAJOR")),
        ("MINOR", env!("CARGO_PKG_VERSION_MINOR")),
        ("PATCH", env!("CARGO_PKG_VERSION_PATCH")),
    ];
    for (part, number) in parts {
        let defined = format!("#define FLUVIQUEN_VERSION_{part} {number}");
        assert!(header.lines().any(|line| line == defined), "{part}");
    }
}

/// 16 points: four with 4, 4, 8 and 8 auto bins, twelve with 256. An illegal
/// transition bin for each of 64 sequences of 32 readings. Eight crosses of the
/// first four points, 1,024 products each, with four cross bins of 32 tokens (the
/// last of all illegal): the deepest expressions, of `intersect` leaves, nested to
/// the left and to the right.
fn crossed() -> Vec<u8> {
    let mut bytes = Vec::new();
    let count = |bytes: &mut Vec<u8>, n: u16| bytes.extend(n.to_le_bytes());
    let fields = |bytes: &mut Vec<u8>, a: i64, b: i64| {
        bytes.extend(a.to_le_bytes());
        bytes.extend(b.to_le_bytes());
    };
    count(&mut bytes, 16);
    for point in 0..16 {
        let auto_max: u16 = [4, 4, 8, 8].get(point).copied().unwrap_or(256);
        bytes.extend([8, 0, 255, 1, 0, 1, 0, 0, 0]);
        count(&mut bytes, auto_max);
    }
    count(&mut bytes, 0);
    count(&mut bytes, 0);
    // Bins, sequences, steps and their ranges: 0 to 255, 32 times in a row.
    count(&mut bytes, 64);
    for bin in 0..64 {
        bytes.extend([bin % 4, 2, 255, 1]);
    }
    count(&mut bytes, 64);
    bytes.extend([1; 64]);
    count(&mut bytes, 64);
    for _ in 0..64 {
        bytes.extend([1, 2, 32]);
    }
    count(&mut bytes, 64);
    for _ in 0..64 {
        bytes.push(0);
        fields(&mut bytes, 0, 255);
    }
    count(&mut bytes, 8);
    for _ in 0..8 {
        bytes.extend([4, 0, 1, 2, 3, 255, 1, 0, 1, 0, 0, 0, 4]);
    }
    count(&mut bytes, 32);
    for bin in 0..32 {
        bytes.extend([if bin == 31 { 2 } else { 0 }, 255, 32]);
    }
    count(&mut bytes, 1024);
    let operator = |bytes: &mut Vec<u8>, op: u8| {
        bytes.extend([op, 0, 0, 0]);
        fields(bytes, 0, 0);
    };
    let leaf = |bytes: &mut Vec<u8>, position: u8, lo: i64, hi: i64| {
        bytes.extend([2, position, 0, 0]);
        fields(bytes, lo, hi);
    };
    for bin in 0..32 {
        let op = if bin % 2 == 0 { 4 } else { 5 };
        for nth in 0..15 {
            operator(&mut bytes, op);
            if bin % 4 < 2 {
                leaf(&mut bytes, nth % 4, 0, 63);
            }
        }
        if bin % 4 >= 2 {
            for nth in 0..15 {
                leaf(&mut bytes, nth % 4, 0, 63);
            }
        }
        operator(&mut bytes, 3);
        leaf(&mut bytes, 3, 64, 255);
    }
    bytes
}

/// Every call on the table, a few samples of the same words among them; the
/// register, the last report, and the figures.
type Seen = (Vec<u32>, Vec<u32>, Vec<Option<f64>>, Option<u32>);

fn every_call(bytes: &[u8], words: &[u32]) -> Seen {
    let table = Table::new(bytes).unwrap();
    let mut register = table.register();
    let mut report = table.report();
    for _ in 0..2 {
        sample(bytes, &mut register, words, &mut report).unwrap();
    }
    stop(bytes, &mut register).unwrap();
    start(bytes, &mut register).unwrap();
    let mut batched = register.clone();
    let mut reports = [&report[..], &report[..]].concat();
    let taken = samples(bytes, &mut batched, &words.repeat(2), &mut reports);
    assert_eq!(taken, Ok(2));
    sample(bytes, &mut register, words, &mut report).unwrap();
    assert_eq!(reports[..report.len()], report);
    sample(bytes, &mut register, words, &mut report).unwrap();
    assert_eq!(reports[report.len()..], report);
    assert_eq!(batched, register);
    for number in 1..=10 {
        section(bytes, number).unwrap();
    }
    assert_eq!(place_count(bytes, &register, 0), Ok(register[2]));
    unknown_count(bytes, &register, 0).unwrap();
    let items = (0..).map_while(|item| item_figure(bytes, &register, item).ok());
    let figures = items.collect();
    let group = group_figure(bytes, &register).unwrap();
    (register, report, figures, group)
}

/// Every call on a thread with 40 KB of stack on the smallest table, and with
/// 272 KB on one with the largest crosses and expressions: 32 and 256 KB for the
/// library, the rest for the thread and this test.
#[test]
fn a_small_stack() {
    let on_thread = |kilobytes: usize, bytes: Vec<u8>, words: Vec<u32>| {
        let thread = std::thread::Builder::new().stack_size(kilobytes * 1024);
        let calls = move || every_call(&bytes, &words);
        thread.spawn(calls).unwrap().join().unwrap()
    };
    let (register, report, figures, group) = on_thread(40, smallest(), ONE.to_vec());
    assert_eq!(register, [1, 4, 0, 4, 0]);
    assert_eq!((report, figures), (vec![], vec![Some(50.0)]));
    assert_eq!(group, Some(50_000_000));

    let bytes = crossed();
    let places = (24 + 64 + 12 * 256) + 8 * (4 + 1024);
    let needs = Measure {
        words: 2 + places + 16 + 64 * 32,
        illegal_places: 64 + 1,
    };
    assert_eq!(measure(&bytes), Ok(needs));
    let (register, report, figures, group) = on_thread(272, bytes, vec![0; 36]);
    assert_eq!(register.len(), needs.words);
    // The last sample is the second reading after the restart: every illegal
    // sequence is raised, and the illegal cross bin.
    assert_eq!(report, vec![1; 65]);
    // Value 0 lies in the first bin of each point; the product of these is selected.
    // In the last cross the illegal bin takes it from the cover bins.
    let counts = &register[2..2 + places];
    assert_eq!((counts[0], counts[4]), (4, 2));
    let (first, last) = (24 + 64 + 12 * 256, places - 1028);
    assert_eq!(counts[first..first + 5], [4, 4, 4, 4, 0]);
    assert_eq!(counts[last..last + 5], [0, 0, 0, 4, 0]);
    assert_eq!(figures.len(), 16 + 8);
    assert_eq!(figures[0], Some(25.0));
    assert!(group.is_some_and(|figure| figure > 0));
}

/// Four threads at once, each on a register of its own, with one table and one
/// sample between them: each sees what a single thread sees.
#[test]
fn threads_at_once() {
    let (bytes, words) = (crossed(), [0; 36]);
    let alone = every_call(&bytes, &words);
    let calls = || every_call(&bytes, &words) == alone;
    std::thread::scope(|scope| {
        let threads: Vec<_> = (0..4).map(|_| scope.spawn(calls)).collect();
        for thread in threads {
            assert!(thread.join().unwrap());
        }
    });
}
