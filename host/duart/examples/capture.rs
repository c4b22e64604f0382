//! Reads a capture from the mill (order 7). `cargo run --example capture FILE NAMEA NAMEB` reads the file's two wires at
//! 9,600 bits a second, 8 data bits and no parity, and prints a line for each character; without arguments it reads the
//! capture below, in which the height gauge sent "Up" into RxDA and RxDB was held low, a break.

use duart::bits::{mr1, sr};
use duart::{capture, characters, Capture, Channel, CAPTURE_SPACE};
use std::env;
use std::error::Error;
use std::fs;

/// Ends with a time after the last stop bit: what comes later is not read.
const TEXT: &str = "\
$timescale 1 ns $end
$scope module duart $end
$var wire 1 ! RxDA $end
$var wire 1 \" RxDB $end
$upscope $end
$enddefinitions $end
#0\n1!\n1\"
#104167\n0!\n#208333\n1!\n#312500\n0!\n#416667\n1!\n#520833\n0!\n#625000\n1!\n0\"
#729167\n0!\n#833333\n1!\n#937500\n0!\n#1041667\n1!
#1145833\n0!\n#1666667\n1!\n#1979167\n0!\n#2083333\n1!\n1\"
#2187500
";

/// The filled parts of the two logs, A's first.
fn read(text: &[u8], names: [&str; 2]) -> Result<[Vec<u8>; 2], Box<dyn Error>> {
    let eight_bits = (mr1::NO_PARITY | mr1::DATA_BITS_8).byte();
    let [name_a, name_b] = names.map(str::as_bytes);
    let asked = Capture { mr1: eight_bits, acr7: false, code: 11, text, name_a, name_b };
    let (mut log_a, mut log_b) = (vec![0; CAPTURE_SPACE], vec![0; CAPTURE_SPACE]);
    let a = capture(&asked, &mut log_a, &mut log_b, Channel::A)?.to_vec();
    let b = capture(&asked, &mut log_a, &mut log_b, Channel::B)?.to_vec();
    Ok([a, b])
}

fn show(channel: char, part: &[u8]) {
    for received in characters(part) {
        let broken = if sr::BREAK.are_in(received.marks) { " (a break)" } else { "" };
        println!("{channel} {} {}{broken}", received.data, received.marks);
    }
}

fn main() -> Result<(), Box<dyn Error>> {
    let words: Vec<String> = env::args().skip(1).collect();
    let [a, b] = match &words[..] {
        [file, name_a, name_b] => read(&fs::read(file)?, [name_a, name_b])?,
        [] => read(TEXT.as_bytes(), ["RxDA", "RxDB"])?,
        _ => return Err("FILE NAMEA NAMEB, or nothing".into()),
    };
    show('A', &a);
    show('B', &b);
    if words.is_empty() && (a != [b'U', 0, b'p', 0] || b != [0, 0x80]) {
        return Err("other characters than were sent".into());
    }
    Ok(())
}
