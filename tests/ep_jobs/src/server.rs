//! A server: connections, workers that wait for them, and timers.

use crate::run::{CLIENT, Run};
use ep_base::{Answer, Call, CallerId, Event, Fd, Mask, Reports, Span, Timeout};
use ep_plain::Kernel;
use std::alloc::AllocError;

/// How a server is made.
#[derive(Clone, Copy)]
pub(crate) struct Plan {
    /// How many connections it has.
    pub(crate) connections: u32,
    /// How many workers wait.
    pub(crate) workers: u32,
    /// Whether each worker has an instance of its own, and one instance watches all of them.
    pub(crate) nested: bool,
}

/// The two ends of a connection, and the instance that watches the server's.
#[derive(Clone, Copy)]
struct Connection {
    client: Fd,
    server: Fd,
    instance: Fd,
}

/// A server on a kernel.
#[derive(Drop)]
pub(crate) struct Server {
    connections: Vec<Connection>,
    /// The instance at which each worker waits.
    instances: Vec<Fd>,
    /// Watches the instances where each worker has its own, and else is the one of all.
    outer: Fd,
    /// What all instances watch: a client that asks for a connection writes it.
    door: Fd,
}

/// What is watched of a connection: its bytes and its end, each once.
fn edges() -> Mask {
    Mask(0x001 | 0x2000 | 2_147_483_648)
}

/// Opens a connection, watched by an instance.
fn connect<K: Kernel>(run: &mut Run, kernel: &mut K, instance: Fd) -> Connection {
    let (client, server) = run.open_pair(kernel);
    run.watch(kernel, instance, server, edges());
    Connection {
        client,
        server,
        instance,
    }
}

/// Opens a timer that expires again and again, watched by an instance.
fn open_timer<K: Kernel>(run: &mut Run, kernel: &mut K, instance: Fd) {
    let fd = run.open(
        kernel,
        Call::TimerFd {
            clock: 1,
            cloexec: false,
        },
    );
    run.watch(kernel, instance, fd, Mask::IN);
    let call = Call::SetTime {
        fd,
        absolute: false,
        value: Span(1 + u64::from(run.draw.below(500))),
        interval: Span(200 + u64::from(run.draw.below(2_000))),
    };
    run.ask(kernel, CLIENT, call);
}

/// Opens an instance.
fn open_instance<K: Kernel>(run: &mut Run, kernel: &mut K) -> Fd {
    run.open(kernel, Call::EpollCreate { cloexec: false })
}

/// Opens the instances at which the workers wait.
fn open_instances<K: Kernel>(
    run: &mut Run,
    kernel: &mut K,
    plan: Plan,
    outer: Fd,
) -> Result<Vec<Fd>, AllocError> {
    let mut instances = Vec::new(run.alloc);
    for _ in 0..plan.workers {
        if plan.nested {
            let instance = open_instance(run, kernel);
            run.watch(kernel, outer, instance, Mask::IN);
            instances.push(instance)?;
        } else {
            instances.push(outer)?;
        }
    }
    Ok(instances)
}

/// Lets each of these instances watch a descriptor.
fn watch_by_all<K: Kernel>(run: &mut Run, kernel: &mut K, instances: &[Fd], fd: Fd) {
    for instance in instances {
        run.watch(kernel, *instance, fd, Mask::IN);
    }
}

/// One of these instances, or `outer` where there is none.
fn one_of(run: &mut Run, instances: &[Fd], outer: Fd) -> Fd {
    let place = run.draw.place(instances.len());
    match instances.get(place) {
        Some(instance) => *instance,
        None => outer,
    }
}

/// Opens the connections, and a timer for every fourth.
fn open_connections<K: Kernel>(
    run: &mut Run,
    kernel: &mut K,
    count: u32,
    instances: &[Fd],
    outer: Fd,
) -> Result<Vec<Connection>, AllocError> {
    let mut connections = Vec::new(run.alloc);
    for number in 0..count {
        let instance = one_of(run, instances, outer);
        connections.push(connect(run, kernel, instance))?;
        if number % 4 == 0 {
            open_timer(run, kernel, instance);
        }
    }
    Ok(connections)
}

impl Server {
    /// Opens a server.
    pub(crate) fn open<K: Kernel>(
        run: &mut Run,
        kernel: &mut K,
        plan: Plan,
    ) -> Result<Server, AllocError> {
        let outer = open_instance(run, kernel);
        let instances = open_instances(run, kernel, plan, outer)?;
        let door = run.open(
            kernel,
            Call::EventFd {
                init: 0,
                semaphore: true,
                cloexec: false,
            },
        );
        watch_by_all(run, kernel, instances.as_slice(), door);
        let connections = open_connections(
            run,
            kernel,
            plan.connections,
            instances.as_slice(),
            outer,
        )?;
        Ok(Server {
            connections,
            instances,
            outer,
            door,
        })
    }

    /// A place of a connection.
    fn some_place(&self, run: &mut Run) -> usize {
        run.draw.place(self.connections.len())
    }

    /// A client writes, most often a few bytes, and at times reads what the server wrote.
    fn send<K: Kernel>(&self, run: &mut Run, kernel: &mut K) -> Result<(), AllocError> {
        let place = self.some_place(run);
        let Some(connection) = self.connections.get(place) else {
            return Ok(());
        };
        let most = if run.draw.one_in(32) { 1_500 } else { 30 };
        let count = 1 + run.draw.below(most) as usize;
        run.write(kernel, CLIENT, connection.client, count)?;
        if run.draw.one_in(2) {
            let call = Call::Read {
                fd: connection.client,
                n: 4_096,
            };
            run.ask(kernel, CLIENT, call);
        }
        Ok(())
    }

    /// A client goes, and another comes in its place.
    fn replace<K: Kernel>(&mut self, run: &mut Run, kernel: &mut K) -> Result<(), AllocError> {
        let place = self.some_place(run);
        let Some(connection) = self.connections.get(place).copied() else {
            return Ok(());
        };
        let Connection {
            client,
            server,
            instance,
        } = connection;
        run.ask(kernel, CLIENT, Call::Close { fd: client });
        run.ask(kernel, CLIENT, Call::Close { fd: server });
        run.signal(kernel, self.door)?;
        let next = connect(run, kernel, instance);
        if place < self.connections.len() {
            self.connections[place] = next;
        }
        Ok(())
    }

    /// The clock goes on.
    fn tick<K: Kernel>(&self, run: &mut Run, kernel: &mut K) {
        let n = Span(u64::from(run.draw.below(40)));
        run.make(kernel, CLIENT, Event::Tick { n });
    }

    /// Something watches the instances from above, and does not wait.
    fn look<K: Kernel>(&self, run: &mut Run, kernel: &mut K) {
        let call = Call::EpollWait {
            epfd: self.outer,
            max: 16,
            timeout: Timeout(0),
        };
        run.ask(kernel, CLIENT, call);
    }

    /// A worker waits, or asks whether its wait has ended, and does what is reported.
    fn work<K: Kernel>(&self, run: &mut Run, kernel: &mut K) -> Result<(), AllocError> {
        let place = run.draw.place(self.instances.len());
        let Some(instance) = self.instances.get(place) else {
            return Ok(());
        };
        let worker = CallerId(1 + (place % 1_000_000) as u32);
        let answer = if kernel.is_parked(worker) {
            run.make(kernel, worker, Event::Resume)
        } else {
            let timeout = if run.draw.one_in(2) {
                Timeout(-1)
            } else {
                Timeout(i64::from(run.draw.below(100)))
            };
            let call = Call::EpollWait {
                epfd: *instance,
                max: 8,
                timeout,
            };
            run.ask(kernel, worker, call)
        };
        match answer {
            Answer::Events(reports) => handle_all(run, kernel, worker, &reports),
            _ => Ok(()),
        }
    }

    /// One thing happens.
    fn go_on<K: Kernel>(&mut self, run: &mut Run, kernel: &mut K) -> Result<(), AllocError> {
        match run.draw.below(256) {
            0..=119 => self.send(run, kernel),
            120..=239 => self.work(run, kernel),
            240..=246 => {
                self.tick(run, kernel);
                Ok(())
            }
            247..=252 => {
                self.look(run, kernel);
                Ok(())
            }
            _ => self.replace(run, kernel),
        }
    }

    /// Goes on until the history has so many records.
    pub(crate) fn serve<K: Kernel>(
        &mut self,
        run: &mut Run,
        kernel: &mut K,
        records: usize,
    ) -> Result<(), AllocError> {
        for _ in 0..records {
            if kernel.history().len() >= records {
                return Ok(());
            }
            self.go_on(run, kernel)?;
        }
        Ok(())
    }
}

/// A worker reads what was reported, and at times answers it.
fn handle<K: Kernel>(
    run: &mut Run,
    kernel: &mut K,
    worker: CallerId,
    tag: u64,
) -> Result<(), AllocError> {
    let fd = Fd(i32::try_from(tag).unwrap_or(-1));
    run.ask(kernel, worker, Call::Read { fd, n: 4_096 });
    if run.draw.one_in(2) {
        let count = 1 + run.draw.below(24) as usize;
        run.write(kernel, worker, fd, count)?;
    }
    Ok(())
}

/// A worker handles each report.
fn handle_all<K: Kernel>(
    run: &mut Run,
    kernel: &mut K,
    worker: CallerId,
    reports: &Reports,
) -> Result<(), AllocError> {
    for report in reports.as_slice() {
        handle(run, kernel, worker, report.tag)?;
    }
    Ok(())
}
