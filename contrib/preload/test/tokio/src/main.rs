//! tokio: children that answer over pipes, that sleep and are killed, and that can't be run, with one thread and three.

use std::io;
use std::process::{Output, Stdio};
use std::time::{Duration, Instant};
use tokio::io::{AsyncBufReadExt, AsyncReadExt, AsyncWriteExt, BufReader};
use tokio::process::{Child, Command};
use tokio::runtime::Builder;
use tokio::time::timeout;

struct Trace {
    began: Instant,
}

impl Trace {
    fn say(&self, text: &str) {
        println!("[{} ms] {}", self.began.elapsed().as_millis(), text);
    }
}

fn with_pipes(program: &str) -> io::Result<Child> {
    Command::new(program).stdin(Stdio::piped()).stdout(Stdio::piped()).spawn()
}

/// A child that answers each line.
async fn converse(trace: &Trace) -> io::Result<()> {
    let mut child = with_pipes("cat")?;
    let mut to_child = child.stdin.take().unwrap();
    let mut lines = BufReader::new(child.stdout.take().unwrap()).lines();
    for number in 0..3 {
        to_child.write_all(format!("line {}\n", number).as_bytes()).await?;
        trace.say(&format!("{:?}", lines.next_line().await?));
    }
    drop(to_child);
    trace.say(&format!("{:?}, {}", lines.next_line().await?, child.wait().await?));
    Ok(())
}

async fn echo(trace: &Trace) -> io::Result<()> {
    let Output { status, stdout, stderr } =
        Command::new("sh").args(["-c", "echo to stdout; echo to stderr >&2; exit 4"]).output().await?;
    trace.say(&format!("{:?}, {:?}, {}", String::from_utf8(stdout), String::from_utf8(stderr), status));
    Ok(())
}

/// A time that comes while a child sleeps, and one that doesn't.
async fn guard(trace: &Trace) -> io::Result<()> {
    let mut child = Command::new("sleep").arg("100").spawn()?;
    let early = timeout(Duration::from_millis(200), child.wait()).await;
    trace.say(if early.is_err() { "it sleeps" } else { "it doesn't sleep" });
    child.start_kill()?;
    match timeout(Duration::from_secs(60), child.wait()).await {
        Ok(status) => trace.say(&format!("{}", status?)),
        Err(_) => trace.say("it lives"),
    }
    Ok(())
}

async fn much(trace: &Trace) -> io::Result<()> {
    let bytes: Vec<u8> = (0..1 << 20).map(|number| number as u8).collect();
    let mut child = with_pipes("cat")?;
    let mut to_child = child.stdin.take().unwrap();
    let mut from_child = child.stdout.take().unwrap();
    let mut got = Vec::new();
    let write = async {
        let written = to_child.write_all(&bytes).await;
        drop(to_child);
        written
    };
    let (written, read) = tokio::join!(write, from_child.read_to_end(&mut got));
    written?;
    trace.say(&format!("{} bytes, alike: {}, {}", read?, got == bytes, child.wait().await?));
    Ok(())
}

async fn many(trace: &Trace) -> io::Result<()> {
    let children: Vec<_> =
        (0..20).map(|number| tokio::spawn(Command::new("echo").arg(number.to_string()).output())).collect();
    let mut sum = 0;
    for child in children {
        sum += String::from_utf8(child.await??.stdout).unwrap().trim().parse::<i32>().unwrap();
    }
    trace.say(&format!("{}", sum));
    Ok(())
}

async fn all_of_them(trace: &Trace) -> io::Result<()> {
    converse(trace).await?;
    echo(trace).await?;
    guard(trace).await?;
    much(trace).await?;
    many(trace).await?;
    trace.say(&format!("{:?}", Command::new("/no-such-program").spawn().map_err(|error| error.kind()).err()));
    Ok(())
}

fn main() -> io::Result<()> {
    let trace = Trace { began: Instant::now() };
    Builder::new_current_thread().enable_all().build()?.block_on(all_of_them(&trace))?;
    Builder::new_multi_thread().worker_threads(3).enable_all().build()?.block_on(all_of_them(&trace))?;
    trace.say("end");
    Ok(())
}
