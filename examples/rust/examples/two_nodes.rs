//! Two nodes in one program, and a message of 100 bytes from one to the other: each frame that a node puts is fed to the other one.
use fulwethi::{Error, Event, Fed, Node};

/// Carries a frame, if one is to be put.
fn carry(from: &mut Node, to: &mut Node) -> Result<bool, Error> {
    let Some(frame) = from.front()? else {
        return Ok(false);
    };
    match to.feed(&frame)? {
        Fed::Taken | Fed::WithoutRoom | Fed::PassedBy => {}
    }
    from.sent()?;
    Ok(true)
}

fn main() -> Result<(), Error> {
    let (mut tool, mut engine) = (Node::new(0x21)?, Node::new(0x35)?);
    engine.open(0xEF00, 1785)?;
    let message: Vec<u8> = (0..100).collect();
    tool.send(0x35, 0xEF00, &message)?;
    while carry(&mut tool, &mut engine)? || carry(&mut engine, &mut tool)? {}
    while let Some((event, bytes)) = engine.take_next()? {
        if let Event::Given { from, .. } = event {
            println!("given from {from:02X}: {} bytes", bytes.len());
        }
    }
    while let Some((event, _)) = tool.take_next()? {
        if let Event::Outcome { number, outcome, .. } = event {
            println!("message {number}: {outcome}");
        }
    }
    Ok(())
}
