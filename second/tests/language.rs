//! The script language: its lines, its numbers and its bytes.

use second::generate;
use second::script::{parse, run, Call};

#[test]
fn every_call_is_read() {
    let record = vec![0x0A, 0xFF, 0x10];
    let (worker, lock) = (3, 4_294_967_295);
    let begin = Call::Begin {
        worker,
        lock,
        record: record.clone(),
    };
    let cases: Vec<(&[u8], Call)> = vec![
        (b"setup 0aFf10", Call::Setup(record)),
        (b"setup -", Call::Setup(Vec::new())),
        (b"begin 3 4294967295 0AfF10", begin),
        (b"step 3", Call::Step { worker, times: 1 }),
        (b"step 0000000003 0", Call::Step { worker, times: 0 }),
        (b"collect 3", Call::Collect(3)),
        (b"drop 3", Call::Drop(3)),
        (b"word 64", Call::Word(64)),
        (b"lock 16", Call::Lock(16)),
        (
            b"show 31 512",
            Call::Show {
                sheet: 31,
                size: 512,
            },
        ),
        (b"park 0", Call::Park { size: 0 }),
    ];
    for (line, call) in cases {
        assert_eq!(parse(line), Some(call.clone()));
        // A call written as a line is read as the same call.
        assert_eq!(parse(call.to_string().as_bytes()), Some(call));
    }
}

#[test]
fn lines_not_of_the_form() {
    let lines = generate::malformed();
    assert!(lines.len() > 60);
    for line in lines {
        assert_eq!(parse(&line), None, "{:?}", String::from_utf8_lossy(&line));
        let mut script = b"# a remark\n\nword 0\n".to_vec();
        script.extend(line);
        script.extend(b"\nword 0\n");
        assert_eq!(run(&script), "3 16 0 0 0 0\n4 ?\n");
    }
}

#[test]
fn lines_and_their_ends() {
    let told = "1 16 0 0 0 0\n";
    assert_eq!(run(b""), "");
    assert_eq!(run(b"\n\n"), "");
    assert_eq!(run(b"#"), "");
    assert_eq!(run(b"word 0"), told);
    assert_eq!(run(b"word 0\n"), told);
    assert_eq!(run(b"word 0\n\n"), told);
    assert_eq!(run(b"\n#\n\nword 0"), "4 16 0 0 0 0\n");
    assert_eq!(run(b"#\xFF \t\r\nword 0"), "2 16 0 0 0 0\n");
    assert_eq!(run(b"word 0\r\nword 0\n"), "1 ?\n");
}

#[test]
fn longest_bytes() {
    let longest = "00".repeat(512);
    let script = format!("setup {longest}\nbegin 0 0 {longest}\nsetup {longest}00\n");
    assert_eq!(run(script.as_bytes()), "1 5 0\n2 2 0\n3 ?\n");
}

#[test]
fn longest_script() {
    let mut script = b"word 0\n".to_vec();
    script.resize(65_536, b'\n');
    assert_eq!(run(&script), "1 16 0 0 0 0\n");
    script.push(b'\n');
    assert_eq!(run(&script), "0 ?\n");
    let lines = "word 0\n".repeat(9_362);
    assert_eq!(lines.len(), 65_534);
    let told = run((lines + "#\n").as_bytes());
    assert!(told.ends_with("\n9362 16 0 0 0 0\n"));
}

#[test]
fn no_step_at_all() {
    let script = b"step 0 0\nstep 8 0\nstep 4294967295 0\nstep 0 4294967295\nstep 8 2\n";
    let told = "1 0 0 0\n2 0 0 0\n3 0 0 0\n4 11 0 0\n5 1 0 0\n";
    assert_eq!(run(script), told);
}
