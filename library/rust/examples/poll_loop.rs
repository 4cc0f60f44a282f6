//! A small event loop over [`Poll`]: a peer that echoes, and a client that gives up.
//!
//! On the real kernel the poll would be `mio::Poll`, and the clock `std::time::Instant`. Here an
//! hour takes no time.

use nippersage::poll::{Events, Interest, Poll, Token};
use nippersage::{Errno, Fd, Flags, Kernel, Task};
use std::io::{self, Write};
use std::time::Duration;

const SERVER: Token = Token(0);
const CLIENT: Token = Token(1);
/// When the client asks, and when it gives up.
const ASKS: Duration = Duration::from_secs(60);
const GIVES_UP: Duration = Duration::from_secs(3_600);

/// Reads all that is there: a registration that is edge-triggered tells it once.
fn read_all(task: Task, fd: Fd) -> Result<Vec<u8>, Errno> {
    let (mut all, mut room) = (Vec::new(), [0; 4]);
    loop {
        match task.read(fd, &mut room) {
            Ok(0) | Err(Errno::EAGAIN) => return Ok(all),
            Ok(count) => all.extend_from_slice(&room[..count]),
            Err(error) => return Err(error),
        }
    }
}

/// Runs the loop, and says what happens and when.
pub fn run(out: &mut impl Write) -> io::Result<()> {
    let kernel = Kernel::new()?;
    let task = kernel.task(0);
    let (client, server) = task.socketpair(Flags::CLOEXEC)?;
    let mut poll = Poll::new(task)?;
    poll.registry()
        .register(server, SERVER, Interest::READABLE)?;
    poll.registry()
        .register(client, CLIENT, Interest::READABLE)?;
    let mut events = Events::with_capacity(8);
    let mut has_asked = false;
    loop {
        let now = kernel.now();
        if now >= GIVES_UP {
            return writeln!(out, "{:6} s  gives up", now.as_secs());
        }
        if now >= ASKS && !has_asked {
            task.write(client, b"ping")?;
            has_asked = true;
        }
        let next = if has_asked { GIVES_UP } else { ASKS };
        poll.poll(&mut events, Some(next - now))?;
        for event in events.iter() {
            if event.token() == SERVER {
                task.write(server, &read_all(task, server)?)?;
            } else {
                let answer = read_all(task, client)?;
                let answer = String::from_utf8_lossy(&answer);
                writeln!(out, "{:6} s  answered {answer}", kernel.now().as_secs())?;
            }
        }
    }
}

#[allow(dead_code)] // the tests call `run`
fn main() -> io::Result<()> {
    run(&mut io::stdout())
}
