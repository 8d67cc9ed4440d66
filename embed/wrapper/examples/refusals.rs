//! Prints the number, the name and the sentence of each refusal.

use qh::Refusal;

fn main() {
    for refusal in Refusal::ALL {
        println!("{} {refusal:?} {refusal}", refusal.number());
    }
}
