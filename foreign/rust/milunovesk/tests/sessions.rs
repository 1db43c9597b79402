//! Each call of the crate once on its way, and each failure.
use milunovesk::{
    check, command_name, error_name, fault_text, packets, show, CaptureFault, Debugger, Failure,
    Handled, Heard, Packet, PacketKind, Rest, Stepped, Target, Thread, Unmade,
};
use std::fs;

fn example(name: &str) -> String {
    fs::read_to_string(format!(
        "{}/../../../examples/{name}",
        env!("CARGO_MANIFEST_DIR")
    ))
    .unwrap()
}

/// Carries bytes, and makes the target's turns, until the debugger reads something.
fn hear(debugger: &mut Debugger, target: &mut Target) -> Heard {
    for _ in 0..100 {
        let heard = debugger.turn().unwrap();
        if heard != Heard::Nothing {
            return heard;
        }
        let mut bytes = [0; 4096];
        let count = debugger.take(&mut bytes);
        assert_eq!(target.feed(&bytes[..count]), count);
        target.turn().unwrap();
        let count = target.take(&mut bytes);
        assert_eq!(debugger.feed(&bytes[..count]), count);
    }
    panic!("nothing is read");
}

fn ids(numbers: &[u64]) -> Vec<u8> {
    numbers
        .iter()
        .flat_map(|number| number.to_be_bytes())
        .collect()
}

#[test]
fn captures_are_judged_and_shown() {
    assert_eq!(check(&example("session.capture")), Ok(None));
    let (lines, fault) = show(&example("session.capture")).unwrap();
    assert_eq!(fault, None);
    // the lines that README.md shows
    assert_eq!(
        lines,
        "> hello\n< hello\n> 1 VirtualMachine.IDSizes\n< 1 reply VirtualMachine.IDSizes 0 8 8 8 8 8\n\
         > 3 ThreadReference.SuspendCount #1\n< 3 reply ThreadReference.SuspendCount 0 1\n"
    );
    assert_eq!(
        check("hello"),
        Ok(Some(CaptureFault {
            number: 51,
            line: 1
        }))
    );
}

/// A command (length, id, flags, set, number, data) and a reply (length, id, flags, error code), as the specification's "Packets" has them.
const COMMAND: [u8; 12] = [0, 0, 0, 12, 1, 2, 3, 4, 0, 11, 6, 99];
const REPLY: [u8; 11] = [0, 0, 0, 11, 0, 0, 0, 5, 0x80, 0, 20];

#[test]
fn packets_are_told_in_order() {
    let bytes = [&COMMAND[..], &REPLY[..], &[0, 0, 0]].concat();
    let mut found = packets(&bytes);
    let command = Packet {
        id: 0x01020304,
        kind: PacketKind::Command { set: 11, number: 6 },
        data: &[99],
    };
    let reply = Packet {
        id: 5,
        kind: PacketKind::Reply { error: 20 },
        data: &[],
    };
    assert_eq!((found.rest(), found.next()), (None, Some(command)));
    assert_eq!((found.used(), found.next()), (12, Some(reply)));
    assert_eq!((found.used(), found.next()), (23, None));
    assert_eq!(found.rest(), Some(Rest::Beginning));
    assert_eq!(packets(&[]).rest(), Some(Rest::Nothing));
    assert_eq!(packets(&[0, 0, 0, 10]).rest(), Some(Rest::Fault(1)));
    // more than one call tells
    let many = COMMAND.repeat(129);
    let mut found = packets(&many);
    assert_eq!(found.by_ref().filter(|it| *it == command).count(), 129);
    assert_eq!(
        (found.used(), found.rest()),
        (129 * 12, Some(Rest::Nothing))
    );
    assert_eq!(packets(&COMMAND.repeat(64)).count(), 64);
}

#[test]
fn names_and_texts_are_told() {
    assert_eq!(
        command_name(11, 6).as_deref(),
        Some("ThreadReference.Frames")
    );
    assert_eq!(command_name(0, 1), None);
    assert_eq!(error_name(13).as_deref(), Some("THREAD_NOT_SUSPENDED"));
    assert_eq!(error_name(1), None);
    assert_eq!(fault_text(33).as_deref(), Some("the session is closed"));
    assert_eq!(fault_text(99), None);
    assert_eq!(Failure::Fault(4).to_string(), "fault 4: not the handshake");
}

#[test]
fn a_thread_is_surely_suspended() {
    let mut debugger = Debugger::new_apart(1).unwrap();
    let mut target = Target::new(&example("A.json"), true, 1000).unwrap();
    assert!(target.accept());
    assert!(debugger.attach());
    while hear(&mut debugger, &mut target) != Heard::Sizes(1) {}
    let once = Some(Thread {
        count: 1,
        held: true,
    });
    assert_eq!((debugger.thread(1), debugger.thread(2)), (once, None));
    // Resume: nothing is sure from the asking on, of a thread that was named
    let unsure = Some(Thread {
        count: 0,
        held: false,
    });
    assert_eq!(debugger.ask(1, 9, &[]), Ok(1));
    assert_eq!((debugger.thread(1), debugger.thread(2)), (unsure, None));
    hear(&mut debugger, &mut target);
    assert_eq!(debugger.ask(11, 2, &ids(&[1])), Ok(2));
    assert_eq!(debugger.thread(1), unsure);
    hear(&mut debugger, &mut target);
    assert_eq!((debugger.thread(1), target.count(1)), (once, Some(1)));
    // and nobody is known from the asking of Dispose on
    assert_eq!(debugger.ask(1, 6, &[]), Ok(3));
    assert_eq!(debugger.thread(1), None);
}

#[test]
fn a_thread_is_held_at_a_breakpoint() {
    let mut debugger = Debugger::new(1).unwrap();
    let mut target = Target::new(&example("A.json"), true, 1000).unwrap();
    assert!(target.accept());
    assert_eq!(debugger.ask(1, 1, &[]), Err(Failure::Refused(33)));
    assert!(debugger.attach());
    assert_eq!(debugger.widths(), None);
    assert_eq!(hear(&mut debugger, &mut target), Heard::Hello);
    assert_eq!(hear(&mut debugger, &mut target), Heard::Parked);
    assert_eq!(hear(&mut debugger, &mut target), Heard::Sizes(1));
    let start = [&[2, 0, 0, 0, 1, 90, 0, 0, 0, 0], ids(&[1]).as_slice()].concat();
    assert_eq!(debugger.data(0), Ok(Some(start)));
    assert_eq!(
        debugger.lines().unwrap(),
        "< 1 Event.Composite 2 [(90, 0, #1)]\n< 1 reply VirtualMachine.IDSizes 0 8 8 8 8 8\n"
    );
    assert_eq!(debugger.data(1), Ok(None));
    assert_eq!(debugger.widths().unwrap().object, 8);
    assert_eq!(
        debugger.thread(1),
        Some(Thread {
            count: 1,
            held: true
        })
    );
    assert_eq!(debugger.thread(7), None);
    assert_eq!(
        (target.live(0), target.live(1), target.live(2)),
        (Some(1), Some(2), None)
    );
    let place = [&[1], ids(&[10, 20, 3]).as_slice()].concat();
    let set = [&[2, 2, 0, 0, 0, 1, 7], place.as_slice()].concat();
    assert_eq!(debugger.ask(15, 1, &set[1..]), Err(Failure::Refused(36)));
    assert_eq!(debugger.ask(15, 1, &set), Ok(1));
    assert_eq!(
        debugger
            .unanswered(0)
            .map(|one| (one.ticket, one.set, one.number)),
        Some((1, 15, 1))
    );
    assert_eq!(
        hear(&mut debugger, &mut target),
        Heard::Answered {
            ticket: 1,
            error: None
        }
    );
    assert_eq!(debugger.data(0), Ok(Some(vec![0, 0, 0, 1])));
    assert_eq!(
        debugger
            .request(0)
            .map(|one| (one.id, one.kind, one.policy)),
        Some((1, 2, 2))
    );
    assert_eq!(debugger.request(1), None);
    assert_eq!(debugger.ask(1, 9, &[]), Ok(2));
    assert_eq!(
        hear(&mut debugger, &mut target),
        Heard::Answered {
            ticket: 2,
            error: None
        }
    );
    assert_eq!(target.step(1), Ok(Stepped::Quiet));
    assert_eq!(target.step(1), Ok(Stepped::Reported));
    assert_eq!((target.count(1), target.count(9)), (Some(1), None));
    assert_eq!(hear(&mut debugger, &mut target), Heard::Seen);
    assert_eq!(
        debugger.thread(1),
        Some(Thread {
            count: 1,
            held: true
        })
    );
    let all = [0, 0, 0, 0, 255, 255, 255, 255];
    assert_eq!(
        debugger.ask(11, 6, &[ids(&[1]).as_slice(), &all].concat()),
        Ok(3)
    );
    assert_eq!(
        hear(&mut debugger, &mut target),
        Heard::Answered {
            ticket: 3,
            error: None
        }
    );
    let frames = [&[0, 0, 0, 1], ids(&[30]).as_slice(), place.as_slice()].concat();
    assert_eq!(debugger.data(0), Ok(Some(frames)));
    assert_eq!(
        debugger.ask(11, 6, &[ids(&[9]).as_slice(), &all].concat()),
        Ok(4)
    );
    assert_eq!(
        hear(&mut debugger, &mut target),
        Heard::Answered {
            ticket: 4,
            error: Some(10)
        }
    );
    assert_eq!(debugger.ask(1, 1, &[]), Ok(5));
    assert_eq!(debugger.waiting().1, 11);
    assert_eq!(debugger.lose(), [5]);
    target.lose();
    assert_eq!(target.waiting(), (0, 0, false));
}

#[test]
fn a_target_replies() {
    let mut target = Target::new(&example("A.json"), false, 5).unwrap();
    assert!(target.accept());
    target.feed(b"JDWP-Handshake\0\0\0\x0b\0\0\0\x07\0\x01\x01");
    assert_eq!(target.turn(), Ok(Handled::Hello));
    assert_eq!(target.turn(), Ok(Handled::Replied { id: 7, error: 0 }));
    assert_eq!(target.turn(), Ok(Handled::Nothing));
}

#[test]
fn faults_are_told() {
    let mut debugger = Debugger::new(9).unwrap();
    debugger.attach();
    debugger.feed(b"nonsense");
    assert_eq!(debugger.turn(), Err(Failure::Fault(4)));
    assert_eq!(debugger.turn(), Ok(Heard::Nothing));
    let mut target = Target::new(&example("A.json"), true, 1).unwrap();
    target.accept();
    target.feed(b"nonsense");
    assert_eq!(target.turn(), Err(Failure::Fault(4)));
    assert_eq!(Target::new("{}", true, 1).err(), Some(Unmade::Script(22)));
    assert_eq!(Target::new("{}", true, 0).err(), Some(Unmade::BadLimit));
}

#[test]
fn ends_go_to_other_threads() {
    let mut debugger = Debugger::new(1).unwrap();
    let mut target = std::thread::spawn(|| Target::new(&example("A.json"), true, 1000).unwrap())
        .join()
        .unwrap();
    assert!(debugger.attach());
    assert!(target.accept());
    let heard = std::thread::spawn(move || hear(&mut debugger, &mut target))
        .join()
        .unwrap();
    assert_eq!(heard, Heard::Hello);
}
