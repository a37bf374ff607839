//! One post, run singly: its record is kept here and lent to each step.
//!
//!     cargo run --release -p drift-library --example one_post

use drift_library::{Heard, Post, FRAME_LENGTH};

/// What the radio has received: post 1 sends an order with word 90 at stamp 3,
/// and has heard of the order of post 0.
const RECEIVED: [u8; FRAME_LENGTH] = [
    1, 1, 1, 1, 0, 3, 0, 90, 1, 0, 1, 1, 0, 3, 0, 0, 0, 0, 0, 0, 0, 0, 0, 0, 0, 0, 0, 0, 0, 0, 0, 0,
];

fn main() -> Result<(), u8> {
    // Posts 0, 1 and 2: 0 and 1 are sources, 0 and 2 destinations. Bit i of a set
    // is lane i. This is post 0; its broadcasts go into the buffer.
    let mut post = Post::fresh(0, 0b111, 0b011, 0b101)?;
    let mut buffer = [0; FRAME_LENGTH];

    let sent = post.order(417, &mut buffer)?;
    println!("sent order {} at stamp {}", sent.serial, sent.stamp);
    println!("to broadcast: {:02X?}", &buffer[..14]);

    match post.hear(&RECEIVED, &mut buffer)? {
        Heard::Taken(delivered) => {
            println!("taken, {delivered} delivered");
            println!("to broadcast: {:02X?}", &buffer[..14]);
        }
        // Nothing to broadcast; the table may have brought a delivery.
        Heard::Again(delivered) => println!("known already, {delivered} delivered"),
        Heard::Early(delivered) => println!("early and dropped, {delivered} delivered"),
        Heard::Beacon(delivered) => println!("beacon, {delivered} delivered"),
    }

    // A damaged frame is refused: record and buffer stay as they were.
    let mut damaged = RECEIVED;
    damaged[0] = 3;
    if let Err(number) = post.hear(&damaged, &mut buffer) {
        println!("refused by {number}");
    }

    for order in post.logged_orders() {
        let (lane, serial) = (order.lane, order.serial);
        println!(
            "log: lane {lane}, serial {serial}, stamp {}, word {}",
            order.stamp, order.word
        );
    }
    Ok(())
}
