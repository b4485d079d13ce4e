//! Times compiling and asking beside other ways to do the same work. All
//! times of a table are taken in turns within one run, so that their ratios
//! mean more than the times themselves.

mod asking;
mod compiling;
mod inputs;
mod timing;

fn main() {
    println!("Least times of many rounds; ratio: the library's time over the other's.");
    compiling::table();
    for records in [1_000, 10_000, 100_000] {
        asking::tables(records);
    }
    asking::shapes();
}
