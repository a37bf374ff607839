//! A delivery log for the charging desk: written as a comma-separated file, and
//! such files read back.
//!
//!     cargo run --release -p drift-library --example desk

use drift_library::csv::{self, LogItem};
use drift_library::{script_state, AIR_LENGTH};
use std::error::Error;

/// The script of document 01, but for its last line.
const SCRIPT: &[u8] = b"(yard (0 both) (1 source) (2 dest))
(order 0 417)
(hear 1 0)
(order 1 90)
(hear 2 1)
(hear 0 2)
";

/// What the charging program may hand back: some fields quoted, no last CR LF.
const QUOTED: &[u8] = b"\"stamp\",lane,\"word\"\r\n1,\"0\",417\r\n\"3\",\"1\",\"90\"";

/// Files that are refused, each for its first bad record.
const REFUSED: [&[u8]; 3] = [
    b"stamp;lane;word\r\n1;0;417\r\n",
    b"stamp,lane,word\r\n1,0,417\r\n3,8,90\r\n",
    b"stamp,lane,word\r\n3,1,90\r\n1,0,417\r\n",
];

fn main() -> Result<(), Box<dyn Error>> {
    // Post 0 has logged both orders.
    let mut air = vec![0; AIR_LENGTH];
    let (state, _) = script_state(SCRIPT, &mut air).expect("a good script");
    let orders = state.rows[0].post.logged_orders();
    let log: Vec<LogItem> = orders.map(LogItem::from).collect();

    let text = csv::write(&log)?;
    for record in text.split_inclusive('\n') {
        println!("written: {record:?}");
    }
    for item in csv::read(text.as_bytes())? {
        let LogItem { stamp, lane, word } = item;
        println!("read: stamp {stamp}, lane {lane}, word {word}");
    }
    println!("quoted, the same: {}", csv::read(QUOTED)? == log);

    for file in REFUSED {
        if let Err(bad) = csv::read(file) {
            println!("{bad}");
        }
    }
    let falling: Vec<LogItem> = log.into_iter().rev().collect();
    if let Err(bad) = csv::write(&falling) {
        println!("not written, {bad}");
    }
    Ok(())
}
