//! The words of every refusal's number from 1 to 31, at places 0 and 5, a line each.

fn main() {
    for number in 1..32 {
        for place in [0, 5] {
            println!("{}", foamsickle::Refusal::from_answer(number + 256 * place));
        }
    }
}
