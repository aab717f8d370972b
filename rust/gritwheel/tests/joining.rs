//! The front page's program on the logs of samples/logs that have a .joined beside them, which says what is right.

use std::path::Path;

#[allow(dead_code, reason = "its main isn't called here")]
#[path = "../examples/joining.rs"]
mod joining;

fn told(log: &[u8]) -> (String, Option<String>) {
    let mut text = String::new();
    let ending = joining::joining(log, &mut |line| text = format!("{text}{line}\n"));
    (text, ending.err().map(|fault| fault.to_string()))
}

#[test]
fn what_is_right() {
    let folder = Path::new(env!("CARGO_MANIFEST_DIR")).join("../../samples/logs");
    let mut count = 0;
    for entry in std::fs::read_dir(folder).expect("samples/logs is there") {
        let right = entry.expect("an entry").path();
        if right.extension().is_some_and(|extension| extension == "joined") {
            let log = std::fs::read(right.with_extension("log")).expect("its log is there");
            let text = std::fs::read_to_string(&right).expect("it can be read");
            assert_eq!(told(&log), (text, None), "{}", right.display());
            count += 1;
        }
    }
    assert_eq!(count, 12);
}

/// Where a log is cut, what is held is told, and then the cut.
#[test]
fn a_cut_log() {
    let log = include_bytes!("../../../samples/logs/fragments_in_order.log");
    let (text, fault) = told(&log[..log.len() - 1]);
    assert_eq!(text, "lost 3 192 \"alpha,bravo,gamma,delta,\": the log ended\n");
    assert_eq!(fault.as_deref(), Some("the record at byte 73 is cut"));
}
