//! Converts a file of the old form into the new one and back, writes a table's words, and asks for what is refused.

use reactive_build::convert::{NEW_LARGEST, OLD_LARGEST, Placed, new_to_old, old_to_new, write};

const OLD: &str = "entry blocks instructions cases places identifiers\n0 1 0 0 1 1\n\
    first count code a b c d e id span\n0 0 3 0 0 0 0 0 7 12\n\
    id lvalue code p q span\ntest block\nidentifier\n0\nnamed\n1\n";

// The same as words of the new form, but with a span from 3 to 9.
const WORDS: [u32; 19] = [0, 1, 0, 0, 1, 1, 0, 0, 3, 0, 0, 0, 0, 0, 7, 3, 9, 0, 1];

fn main() {
    let mut new = vec![7; NEW_LARGEST];
    let mut old = vec![7; OLD_LARGEST];
    let converted = old_to_new(OLD.as_bytes(), &mut new);
    print("old to new", converted, &new);
    let back = new_to_old(&new[..converted.length], &mut old);
    print("and back", back, &old);
    println!("the same: {}", u32::from(&old[..back.length] == OLD.as_bytes()));
    print("a byte too few lent", old_to_new(OLD.as_bytes(), &mut new[..converted.length - 1]), &new);
    let written = write(&WORDS, &mut new);
    print("written", written, &new);
    print("two ends", new_to_old(&new[..written.length], &mut old), &old);
}

fn print(what: &str, Placed { code, at, length }: Placed, text: &[u8]) {
    println!("{what}: code {code} at {at} length {length}");
    print!("{}", String::from_utf8_lossy(&text[..length]));
}
