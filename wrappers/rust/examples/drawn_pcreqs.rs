//! Prints PCReqs that the wrapper writes, one to a line, for `tests/wireshark`.

#[path = "../tests/common/mod.rs"]
mod common;

use common::Drawn;
use yachayniq::write_pcreq;

fn main() {
    let drawn = &mut Drawn::new(4);
    for _ in 0..100 {
        let (include, exclude) = (drawn.include(), drawn.list(0x80));
        let message = write_pcreq(&drawn.pcreq(&include, &exclude)).expect("what can be written");
        let digits: Vec<String> = message.iter().map(|byte| format!("{byte:02X}")).collect();
        println!("{}", digits.join(" "));
    }
}
