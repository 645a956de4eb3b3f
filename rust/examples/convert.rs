//! Converts the card on standard input to JSON on standard output:
//!
//!     cargo run --release --offline --example convert < ../examples/ada.vcf

use std::io::Read;

fn main() -> Result<(), Box<dyn std::error::Error>> {
    let mut card = Vec::new();
    std::io::stdin().read_to_end(&mut card)?;
    let json = thymebarrel::card_to_json("reg", 1, &card)?;
    println!("{json}");
    Ok(())
}
