//! A first program: settings, two flows, a search, a save and a load. It prints what examples/newcomer.c prints.
//!
//!     cargo run --example newcomer

use flow::{FlowKey, Settings, Table, IPV4_WIDTH};
use std::error::Error;

fn main() -> Result<(), Box<dyn Error>> {
    let call: FlowKey = "10.0.0.1 10.0.0.2 5060 5060 17".parse()?;
    let line: FlowKey = "10.0.0.3 10.0.0.4 443 443 6".parse()?;
    let mut table = Table::new(Settings::new(6, 3, 2, 4, 128, 8, IPV4_WIDTH)?);
    table.add(&call, 5)?;
    table.add(&line, 1)?;
    let class = table.search(&call)?.ok_or("the call is absent")?;
    println!("the call has class {class}");
    let file = table.save();
    assert_eq!(Table::load(&file)?, table);
    println!(
        "after a save and a load of {} bytes it has the same",
        file.len()
    );
    Ok(())
}
