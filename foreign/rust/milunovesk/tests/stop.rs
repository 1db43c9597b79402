//! The example, at a port where a target of this crate listens.
use milunovesk::{Handled, Target};
use std::io::{Read, Write};
use std::net::TcpListener;
use std::process::Command;
use std::time::Duration;

/// One session: what came is handled, and thread 1 of the machine makes its steps.
fn serve(listener: &TcpListener) {
    let script = std::fs::read_to_string(concat!(
        env!("CARGO_MANIFEST_DIR"),
        "/../../../examples/A.json"
    ))
    .unwrap();
    let mut target = Target::new(&script, true, 1000).unwrap();
    let (mut line, _) = listener.accept().unwrap();
    line.set_read_timeout(Some(Duration::from_millis(50)))
        .unwrap();
    assert!(target.accept());
    let mut bytes = [0; 4096];
    while target.waiting().2 {
        match line.read(&mut bytes) {
            Ok(0) => return,
            Ok(count) => assert_eq!(target.feed(&bytes[..count]), count),
            Err(_) => {}
        }
        while target.turn().unwrap() != Handled::Nothing {}
        target.step(1).unwrap();
        let count = target.take(&mut bytes);
        if line.write_all(&bytes[..count]).is_err() {
            return;
        }
    }
}

#[test]
fn prints_the_frames() {
    let listener = TcpListener::bind("127.0.0.1:0").unwrap();
    let port = listener.local_addr().unwrap().port().to_string();
    let server = std::thread::spawn(move || serve(&listener));
    let tests = std::env::current_exe().unwrap();
    let stop = tests
        .parent()
        .and_then(|deps| deps.parent())
        .unwrap()
        .join("examples/stop");
    let done = Command::new(stop)
        .args([port.as_str(), "10", "20", "3"])
        .output()
        .unwrap();
    assert_eq!(String::from_utf8_lossy(&done.stderr), "");
    assert_eq!(
        String::from_utf8_lossy(&done.stdout),
        "Some(Thread { count: 1, held: true })\nframe 30 at 1:#10:#20:3\n"
    );
    server.join().unwrap();
}
