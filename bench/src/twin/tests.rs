use super::calls::make_calls;
use super::lines::{LINES, print_paper};
use super::rule::Rule;

const SAMPLE_LINES: &str = "1 0 1 0\n2 0 2 0\n3 8 0 0\n4 0 2 2\n5 0 1 0\n6 12 2 3\n7 0 0 0\n8 0 1 2\n9 0 1 0\n";

fn sample() -> Vec<u8> {
    std::fs::read(concat!(env!("CARGO_MANIFEST_DIR"), "/../crates/run_paper/stdin")).expect("the sample paper is there")
}

fn printed(paper: &[u8]) -> String {
    let mut out = vec![0; LINES];
    let length = print_paper(paper, &mut out);
    String::from_utf8(out[..length].to_vec()).expect("lines are plain text")
}

#[test]
fn the_sample_gives_its_lines() {
    assert_eq!(printed(&sample()), SAMPLE_LINES);
}

#[test]
fn a_short_buffer_is_left_alone() {
    let mut out = vec![7; LINES - 1];
    assert_eq!(print_paper(&sample(), &mut out), 0);
    assert!(out.iter().all(|&byte| byte == 7));
}

#[test]
fn a_damaged_check_is_told() {
    let mut paper = sample();
    paper[511] ^= 1;
    assert_eq!(printed(&paper), "F 14 0 0\n");
    assert_eq!(printed(&[]), "F 13 0 0\n");
}

#[test]
fn rules_give_the_documents_fingerprints() {
    assert_eq!(Rule::Fnv1a.fingerprint(&[], 20), 17);
    assert_eq!(Rule::PlainNumber.fingerprint(&[], 20), 0);
    assert_eq!(Rule::PlainNumber.fingerprint(&[0, 1], 20), 16);
    assert_eq!(Rule::PlainNumber.fingerprint(&[0, 1, 0, 0, 0, 0, 0, 0, 9], 20), 16);
}

#[test]
fn a_row_of_calls_stops_at_the_shorter_end() {
    let calls = [1, 1, 0, 0, 0, 1, 3, 0, 0, 0, 1, 0, 0, 0, 0, 6];
    let mut numbers = [9; 4];
    assert_eq!(make_calls(3, 2, 1, &calls, &mut numbers), 3);
    assert_eq!(numbers, [0, 0, 8, 9]);
    assert_eq!(make_calls(3, 2, 1, &calls, &mut numbers[..1]), 1);
    assert_eq!(make_calls(1, 2, 1, &calls, &mut numbers), 0);
    assert_eq!(make_calls(3, 2, 3, &calls, &mut numbers), 0);
}
