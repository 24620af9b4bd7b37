//! The text in which a difference is shown: `tools/log` makes the same log of it.
use compare::program;

#[test]
fn tools_log_reads_it() {
    let tool = concat!(env!("CARGO_MANIFEST_DIR"), "/../../tools/log").to_string();
    // Of each four logs the third has a hundred records, and the second ten.
    for index in [1, 2, 5, 6, 9] {
        let records = stories::log(3, index);
        let text: String = records.iter().map(|record| format!("{record}\n")).collect();
        let made = program::printed(std::slice::from_ref(&tool), text.as_bytes()).expect("tools/log does its work");
        assert!(made == stories::bytes(&records), "log {index}");
    }
}
