//! Each call on its way, and what it refuses.
use fulwethi::{Counts, Error, Event, Fed, Frame, Lane, Missed, Node, Outcome};

fn carry(from: &mut Node, to: &mut Node) -> bool {
    let Some(frame) = from.front().unwrap() else {
        return false;
    };
    assert_eq!(to.feed(&frame), Ok(Fed::Taken));
    from.sent().unwrap();
    true
}

#[test]
fn a_message_is_given_and_acknowledged() {
    let (mut tool, mut engine) = (Node::new(0x21).unwrap(), Node::new(0x35).unwrap());
    let port = engine.open(0xEF00, 1785).unwrap();
    let message: Vec<u8> = (0..=255).collect();
    assert_eq!(tool.send_refusal(0x35, 0xEF00, message.len()), None);
    assert_eq!(tool.send(0x35, 0xEF00, &message), Ok(1));
    assert_eq!(tool.lane(0x35), Lane { pending: 1, in_doubt: 0 });
    while carry(&mut tool, &mut engine) || carry(&mut engine, &mut tool) {}
    assert_eq!(engine.take(&mut [0; 255]), Err(Error::TooLittleRoom));
    let given = Event::Given { port, from: 0x21, to: 0x35, pgn: 0xEF00, len: 256 };
    assert_eq!(engine.take_next(), Ok(Some((given, message))));
    assert_eq!(engine.take_next(), Ok(None));
    let ended = Event::Outcome { to: 0x35, number: 1, outcome: Outcome::Acknowledged, reason: 0 };
    assert_eq!(tool.take_next(), Ok(Some((ended, vec![]))));
    assert_eq!(tool.counts(), Counts { acknowledged: 1, frames: tool.counts().frames, ..Counts::default() });
}

#[test]
fn a_node_goes_on_in_another_thread() {
    let mut node = Node::new(0x21).unwrap();
    assert_eq!(node.send(0x35, 0xEF00, &[7; 20]), Ok(1));
    let mut node = std::thread::spawn(move || {
        assert_eq!(node.send(0x35, 0xEF00, &[8; 20]), Ok(2));
        node
    })
    .join()
    .unwrap();
    assert_eq!(node.send(0x35, 0xEF00, &[9; 20]), Ok(3));
    assert_eq!(node.lane(0x35), Lane { pending: 3, in_doubt: 0 });
}

#[test]
fn the_first_frame_is_an_rts() {
    let mut node = Node::new(0x21).unwrap();
    node.send(0x35, 0xEF00, &[7; 20]).unwrap();
    let rts = Frame::new(0x1CEC3521, &[16, 20, 0, 3, 3, 0x00, 0xEF, 0x00]).unwrap();
    let front = node.front().unwrap().unwrap();
    assert_eq!((front.id, &front.bytes()[..4], &front.bytes()[5..]), (rts.id, &rts.bytes()[..4], &rts.bytes()[5..]));
    node.sent().unwrap();
    // 1,250 ticks later nothing has come.
    let due = node.next_due_at().unwrap();
    assert_eq!((due, node.next_at()), (1250, Some(1250)));
    node.clock(due).unwrap();
    assert_eq!(node.fire(), Ok(()));
    assert_eq!(node.fire(), Err(Error::NothingDue));
    assert_eq!(node.clock(due - 1), Err(Error::ClockPassed));
}

#[test]
fn what_is_refused_changes_nothing() {
    assert_eq!(Node::new(254).err(), Some(Error::BadAddress));
    let mut node = Node::new(0x21).unwrap();
    assert_eq!(node.open(0xEF01, 9), Err(Error::BadPgn));
    assert_eq!(node.send(0x35, 0xEF00, &[]), Err(Error::TooShort));
    assert_eq!(node.send(0x21, 0xEF00, &[0; 9]), Err(Error::SameStation));
    assert_eq!(node.send_refusal(254, 0xEF00, 9), Some(Error::NoSuchStation));
    assert_eq!(node.cancel(0x35, 1), Err(Error::NothingToSend));
    assert_eq!(node.sent(), Err(Error::NothingToSend));
    assert_eq!(node.feed(&Frame::new(0x1CEC3521, &[]).unwrap()), Err(Error::StationAddress));
    assert_eq!(node.feed(&Frame::new(1 << 29, &[]).unwrap()), Err(Error::IdTooLarge));
    assert_eq!(Frame::new(0, &[0; 9]), Err(Error::DataTooLong));
    let port = node.open(0xEF00, 9).unwrap();
    assert_eq!((node.pause(port), node.pause(port)), (Ok(()), Err(Error::PortPaused)));
    assert_eq!((node.resume(port), node.resume(port)), (Ok(()), Err(Error::PortNotPaused)));
    assert_eq!(node.close(port + 1), Err(Error::NoSuchPort));
    assert_eq!(node.missed(), Missed::Ended);
    assert_eq!((node.next_event(), node.next_due_at(), node.next_at()), (None, None, None));
}

#[test]
fn a_program_that_starts_again_sends_nothing_at_first() {
    assert_eq!(Node::again(254, 0).err(), Some(Error::BadAddress));
    let mut node = Node::again(0x21, 5000).unwrap();
    assert_eq!((node.sends_from(), node.send(0x35, 0xEF00, &[7; 20])), (6250, Err(Error::Starting)));
    node.clock(6250).unwrap();
    assert_eq!(node.send(0x35, 0xEF00, &[7; 20]), Ok(1));
}

#[test]
fn a_message_that_is_cancelled_ends() {
    let mut node = Node::new(0x21).unwrap();
    let number = node.send(0x35, 0xEF00, &[7; 20]).unwrap();
    node.cancel(0x35, number).unwrap();
    let ended = Event::Outcome { to: 0x35, number, outcome: Outcome::Cancelled, reason: 0 };
    assert_eq!(node.take_next(), Ok(Some((ended, vec![]))));
}

#[test]
fn the_library_is_of_this_version() {
    let mut numbers = env!("CARGO_PKG_VERSION").split('.').map(|number| number.parse::<u32>().unwrap());
    let mut next = || numbers.next().unwrap();
    assert_eq!(fulwethi::version(), next() << 16 | next() << 8 | next());
}
