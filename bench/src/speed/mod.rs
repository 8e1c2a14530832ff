//! Measures the library, the twin and, for single calls, a hash map of the standard library.

mod calls;
mod flows;
mod measure;
mod papers;

pub fn run() {
    println!("Every run starts on a fresh table: the library and the twin open and empty theirs inside the");
    println!("timed run, the hash map is made anew. The output buffer is cleared before each run. In each");
    println!("repetition the sides take turns: a side goes through all papers or rows of a figure, after one run");
    println!("that does not count; and each repetition begins with another side.");
    papers::print_papers();
    calls::print_against_map();
    calls::print_new_flows();
    calls::print_new_flows_with_room();
}
