//! The notation there and back by hand, every fault in its words, the builder,
//! the worst case, and what a lock of a setup would refuse.

use super::*;

/// Two locks, words 5 and 9 under lock 0, word 7 under lock 1.
const S: [u8; 29] = [
    29, 0, 2, 0, 2, 3, 0, 0, 1, 5, 0, 0, 0, 9, 0, 0, 0, 7, 0, 0, 0, 0, 0, 0, 0, 0, 0, 0, 0,
];
const ALL: &str = "\
set r3 65535
load r0 w63
store r1 w0
cam w2 r0 r1
add r2 r3
sub r3 r2
skip 1 if r0 = r1
halt no
halt yes";

fn job(text: &str) -> Job {
    text.parse()
        .unwrap_or_else(|faults| panic!("{text}:\n{faults}"))
}

/// All faults of a text, a line each.
fn faults(text: &str) -> String {
    let faults = text.parse::<Job>().expect_err(text);
    faults.to_string()
}

#[test]
fn all_eight_there_and_back() {
    let job = job(ALL);
    assert_eq!(job.to_string(), ALL);
    let bytes = [
        40, 0, 1, 0, 1, 3, 255, 255, 2, 0, 63, 0, 3, 1, 0, 0, 4, 0, 1, 2, 5, 2, 3, 0, 6, 3, 2, 0,
        7, 0, 1, 1, 0, 0, 0, 0, 0, 1, 0, 0,
    ];
    assert_eq!(job.record(), bytes);
    assert_eq!(Job::from_record(&bytes), Ok(job.clone()));
    assert_eq!(Job::new(job.instructions()), Ok(job));
}

#[test]
fn comments_labels_and_room_are_free() {
    let text = "  # are words 0 and 1 equal?\n\nload\tr0   w0#first\r\nload r1 w1\nskip to equal if r0=r1\nhalt no\nequal:\n also-equal : halt yes # end\n\n";
    let plain = "load r0 w0\nload r1 w1\nskip 1 if r0 = r1\nhalt no\nhalt yes";
    assert_eq!(job(text), job(plain));
    assert_eq!(job("a: b: halt no").to_string(), "halt no");
}

/// As a new user would get them.
#[test]
fn the_five_faults_of_a_new_user() {
    for (text, told) in [
        ("load r4 w0\nhalt yes", "line 1: `r4` stands where a register may stand: r0, r1, r2 or r3"),
        ("load r0 w64\nhalt yes", "line 1: `w64` stands where a word may stand: w0 to w63"),
        ("load r0 w0\nstore r0 w1", "line 2: `store r0 w1` stands at the end, where a halt may stand: `halt yes` or `halt no`"),
        ("skip 3 if r0 = r1\nhalt no\n\nhalt no\nhalt yes", "line 1: `skip 3` stands there and goes past the end: 3 instructions follow it, so `skip 1` to `skip 2` may stand there"),
        ("laod r0 w0\nhalt yes", "line 1: `laod` stands where an instruction may stand: load, store, cam, set, add, sub, skip or halt"),
    ] {
        assert_eq!(faults(text), told);
    }
}

#[test]
fn operands_are_told_of() {
    for (line, told) in [
        ("load w0 r0", "`w0` stands where a register may stand: r0, r1, r2 or r3\nline 1: `r0` stands where a word may stand: w0 to w63"),
        ("load r0", "`load r0` ends where a word may stand: w0 to w63"),
        ("cam", "`cam` ends where a word may stand: w0 to w63"),
        ("load r0, w0", "`r0,` stands where a register may stand: r0, r1, r2 or r3"),
        ("set r0 65536", "`65536` stands where a number may stand: 0 to 65535"),
        ("set r0 -1", "`-1` stands where a number may stand: 0 to 65535"),
        ("set r0 01", "`01` stands where a number may stand: 0 to 65535"),
        ("add r0 r1 r2", "`r2` stands after `add r0 r1`, where only a comment may stand, which begins with #"),
        ("halt maybe", "`maybe` stands where an answer may stand: yes or no"),
        ("halt", "`halt` ends where an answer may stand: yes or no"),
        ("skip 0 if r0 = r1", "`0` stands where how far it goes may stand: a number from 1 on, or `to` and a label's name"),
        ("skip 1 r0 = r1", "`r0` stands where `if` may stand"),
        ("2nd: halt no", "`2nd` stands where a label's name may stand: a letter, then letters, digits, `-` or `_`"),
        ("l\u{7}ad r0 w0", "`l\\u{7}ad` stands where an instruction may stand: load, store, cam, set, add, sub, skip or halt"),
    ] {
        let text = format!("{line}\nhalt no\nhalt no");
        assert_eq!(faults(&text), format!("line 1: {told}"));
    }
}

#[test]
fn labels_are_told_of() {
    let text = "top: skip to top if r0 = r0\nskip to next if r0 = r0\nnext: skip to end if r0 = r0\nskip to edn if r0 = r0\nhalt no\nlast: halt yes\nend:\nlast:";
    let told = "\
line 1: `top` stands there, a label above the skip: next or last may stand there
line 2: `next` stands there, a label with no instruction between the skip and it: last may stand there
line 3: `end` stands there, a label with no instruction after it: last may stand there
line 4: `edn` stands there, which is no label of this text: last may stand there
line 8: the label `last` stands there, which stands at line 6 already: a new name may stand there";
    assert_eq!(faults(text), told);
    let none = "skip to x if r0 = r1\nhalt no";
    assert_eq!(
        faults(none),
        "line 1: `x` stands there, which is no label of this text: a label further down, with an instruction before it and one after it, may stand there"
    );
}

#[test]
fn counts_are_told_of() {
    let none = "no instruction stands there: 1 to 64 may stand there, the last a halt";
    assert_eq!(faults(""), format!("line 1: {none}"));
    assert_eq!(faults("# a\n\n# b\n"), format!("line 3: {none}"));
    let lines = |many: usize| vec!["halt no"; many].join("\n");
    for (many, kind) in [(1, 1), (32, 1), (33, 4), (64, 4)] {
        let job = job(&lines(many));
        assert_eq!((job.record()[2], job.record().len()), (kind, 4 + 4 * many));
    }
    let told = "line 65: `halt no` stands there as instruction number 65: a job has 1 to 64";
    assert_eq!(faults(&lines(65)), told);
    assert_eq!(faults(&lines(90)), told);
    assert!(Job::new(&[]).is_err());
    assert!(Job::new(&[Instruction::Halt(true); 65]).is_err());
    assert!(Job::new(&[Instruction::Halt(true); 20_000]).is_err());
}

/// Faults of many lines are all told, in the order of lines.
#[test]
fn all_faults_of_a_text() {
    let text = "load r4 w64\nskip 9 if r0 = r1\nhlat yes\nset r1 1 1\nadd r0 r1";
    let told = faults(text);
    let lines: Vec<&str> = told.lines().map(|line| &line[..7]).collect();
    assert_eq!(
        lines,
        ["line 1:", "line 1:", "line 2:", "line 3:", "line 4:", "line 5:"]
    );
}

/// The faults of a record name begin's refusals.
#[test]
fn records_are_told_of() {
    for (record, told) in [
        (&[8, 0, 1][..], "the record: it has 3 bytes: 8 to 260 may stand there (refused 5)"),
        (&[8, 0, 1, 0, 0, 1, 0], "the record: its length field is 8, and its bytes are 7 (refused 5)"),
        (&[8, 0, 2, 0, 0, 1, 0, 0], "the record: its kind is 2: 1 or 4 may stand there (refused 6)"),
        (&[8, 0, 4, 0, 0, 1, 0, 0], "the record: it has kind 4 and 1 instruction: of kind 4 33 to 64 may stand there (refused 5)"),
        (&[4, 0, 1, 0], "the record: it has kind 1 and 0 instructions: of kind 1 1 to 32 may stand there (refused 5)"),
        (&[12, 0, 1, 0, 9, 0, 0, 0, 0, 2, 3, 0], "instruction 0: op 9 stands where an instruction may stand: 0 to 7, in 09 00 00 00 (refused 7)\ninstruction 1: 3 stands in an unused field, where 0 may stand, in 00 02 03 00 (refused 7)\ninstruction 1: 2 stands where a halt's answer may stand: 0 (no) or 1 (yes), in 00 02 03 00 (refused 7)"),
        (&[12, 0, 1, 0, 2, 4, 64, 0, 0, 1, 0, 0], "instruction 0: `r4` stands where a register may stand: r0, r1, r2 or r3, in 02 04 40 00 (refused 7)\ninstruction 0: `w64` stands where a word may stand: w0 to w63, in 02 04 40 00 (refused 8)"),
        (&[12, 0, 1, 0, 7, 0, 1, 1, 0, 1, 0, 0], "instruction 0: `skip 1` stands there and goes past the end: 1 instruction follows it, so no skip may stand there, in 07 00 01 01 (refused 7)"),
    ] {
        assert_eq!(Job::from_record(record).unwrap_err().to_string(), told);
    }
}

#[test]
fn built_by_methods() {
    let built = Job::build().set(3, 65_535).load(0, 63).store(1, 0);
    let built = built.cam(2, 0, 1).add(2, 3).sub(3, 2).skip(1, 0, 1);
    assert_eq!(built.halt_no().halt_yes().done(), Ok(job(ALL)));
    let bad = Job::build().load(4, 64).skip(0, 0, 7).label("a b");
    let bad = bad.skip_to("a", 0, 0).skip(200, 0, 0).add(0, 1).done();
    let told = "\
call 1: `r4` stands where a register may stand: r0, r1, r2 or r3
call 1: `w64` stands where a word may stand: w0 to w63
call 2: `r7` stands where a register may stand: r0, r1, r2 or r3
call 2: `0` stands where how far it goes may stand: a number from 1 on, or `to` and a label's name
call 3: `a b` stands where a label's name may stand: a letter, then letters, digits, `-` or `_`
call 4: `a` stands there, which is no label of this text: a label further down, with an instruction before it and one after it, may stand there
call 5: `skip 200` stands there and goes past the end: 1 instruction follows it, so no skip may stand there
call 6: `add r0 r1` stands at the end, where a halt may stand: `halt yes` or `halt no`";
    assert_eq!(bad.expect_err("it is bad").to_string(), told);
    assert!(Job::build().done().is_err());
}

/// What begin then tells is the first of these.
#[test]
fn under_a_lock_of_a_setup() {
    let job = job("load r0 w0\nload r0 w2\ncam w63 r0 r1\nset r0 64\nstore r0 w1\nhalt yes");
    let told = |lock| {
        let faults = job.under(&S, lock).expect("the lock is there");
        Faults(faults).to_string()
    };
    assert_eq!(told(0), "\
instruction 1: `load r0 w2` stands there: lock 1 guards w2, and only a word of lock 0 may stand there (refused 8)
instruction 2: `cam w63 r0 r1` stands there: the setup has no w63, and only a word of lock 0 may stand there (refused 8)");
    for lock in 0..2 {
        let mut engine = Engine::blank();
        assert_eq!(engine.setup(&S), Ok(()));
        let first = job.under(&S, lock).expect("the lock is there")[0].refusal;
        assert_eq!(engine.begin(0, lock, job.record()).err(), first);
    }
    let (number, place) = (2, 0);
    assert_eq!(job.under(&S, 2), Err(Refusal { number, place }));
    let (number, place) = (5, 0);
    assert_eq!(job.under(&S[..28], 0), Err(Refusal { number, place }));
    let fits = super::tests::job("load r0 w0\nhalt no");
    assert_eq!(fits.under(&S, 0), Ok(Vec::new()));
}

#[test]
fn the_worst_case() {
    let longest = |text: &str| job(text).longest_run();
    assert_eq!(longest("halt yes"), 1);
    assert_eq!(
        longest("load r0 w0\nset r1 1\nadd r0 r1\nstore r0 w0\nhalt yes"),
        8
    );
    assert_eq!(
        longest("skip 1 if r0 = r1\nhalt no\nstore r0 w0\nhalt yes"),
        5
    );
    assert_eq!(longest("skip 1 if r0 = r1\nstore r0 w0\nhalt yes"), 5);
    let stores = "store r0 w0\n".repeat(63) + "halt yes";
    assert_eq!((longest(&stores), job(&stores).longest_try()), (190, 196));
}
