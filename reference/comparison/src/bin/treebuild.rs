//! `treebuild <FILE`: what the program prints of a file, by the reference where the words pass the
//! check, else by the model of paper 01.

use std::io::Read;

use comparison::reference;
use comparison::vector::printed;

fn main() {
    reference::install_panic_hook();
    let mut file = Vec::new();
    std::io::stdin().read_to_end(&mut file).expect("read");
    print!("{}", reference::on_large_stack(|| printed(&file)));
}
