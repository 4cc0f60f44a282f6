//! Every order of small programs: how many there are, which fail, and what mends them. The faults are those of
//! `library/python/tests/faults.py`, and the orders that fail the same by the same schedules.

use nippersage::orders::{Failure, Kind, Orders, Outcome, Tried};
use nippersage::{Errno, Event, Events, Fd, Flags, Kernel, Limits, Task};
use std::net::Shutdown;
use std::sync::atomic::{AtomicBool, AtomicUsize, Ordering::SeqCst};
use std::sync::Mutex;
use std::time::Duration;

const ONE: [u8; 8] = 1u64.to_ne_bytes();

/// A wait without end for one report.
fn wait(t: Task, instance: Fd) -> Result<Event, Errno> {
    let mut events = [Event::default()];
    t.epoll_wait(instance, &mut events, None)?;
    Ok(events[0])
}

// A loop at a pipe: it reads once for each report, or all there is, and arms its one-shot again or not.

struct Pipe {
    reader: Fd,
    writer: Fd,
    instance: Fd,
    got: AtomicUsize,
}

fn pipe(kernel: &Kernel, mask: Events) -> Pipe {
    let task = kernel.task(0);
    let (reader, writer) = task.pipe2(Flags::NONE).unwrap();
    let instance = task.epoll_create1(Flags::NONE).unwrap();
    task.epoll_add(instance, reader, mask, 7).unwrap();
    Pipe {
        reader,
        writer,
        instance,
        got: AtomicUsize::new(0),
    }
}

fn read_once(t: Task, e: &Pipe) -> Result<(), Errno> {
    let count = t.read(e.reader, &mut [0; 4])?;
    e.got.fetch_add(count, SeqCst);
    Ok(())
}

fn read_all(t: Task, e: &Pipe) -> Result<(), Errno> {
    loop {
        match read_once(t, e) {
            Err(Errno::EAGAIN) => return Ok(()),
            result => result?,
        }
    }
}

type Handler = fn(Task, &Pipe) -> Result<(), Errno>;

fn loop_at_pipe(mask: Events, handler: Handler, writes: usize) -> Orders<'static, Pipe> {
    Orders::new(move |kernel| pipe(kernel, mask))
        .daemon("loop", move |t, e| loop {
            wait(t, e.instance)?;
            handler(t, e)?;
        })
        .task("peer", move |t, e| {
            for _ in 0..writes {
                t.write(e.writer, b"ping")?;
            }
            Ok(())
        })
        .check(move |_, e| assert_eq!(e.got.load(SeqCst), 4 * writes))
}

const EDGE: Events = Events::from_bits(0x8000_0001);
const ONCE: Events = Events::from_bits(0x4000_0001);

fn arms_again(t: Task, e: &Pipe) -> Result<(), Errno> {
    read_all(t, e)?;
    t.epoll_mod(e.instance, e.reader, ONCE, 7)
}

// A herd: workers at an instance each. A write wakes them all, and one of them takes it.

struct Herd {
    jobs: Fd,
    instances: [Fd; 2],
    taken: AtomicUsize,
}

fn herd(mask: Events, is_careful: bool) -> Orders<'static, Herd> {
    let worker = move |place: usize| {
        move |t: Task<'_>, e: &Herd| loop {
            wait(t, e.instances[place])?;
            match t.read(e.jobs, &mut [0; 8]) {
                Err(Errno::EAGAIN) if is_careful => {}
                result => {
                    result?;
                    e.taken.fetch_add(1, SeqCst);
                }
            }
        }
    };
    Orders::new(move |kernel| {
        let task = kernel.task(0);
        let jobs = task.semaphore(0, Flags::NONE).unwrap();
        let instances = [(); 2].map(|()| task.epoll_create1(Flags::NONE).unwrap());
        for instance in instances {
            task.epoll_add(instance, jobs, mask, 0).unwrap();
        }
        Herd {
            jobs,
            instances,
            taken: AtomicUsize::new(0),
        }
    })
    .task("boss", |t, e: &Herd| t.write(e.jobs, &ONE).map(drop))
    .daemon("w0", worker(0))
    .daemon("w1", worker(1))
    .check(|_, e| assert_eq!(e.taken.load(SeqCst), 1))
}

// A pool at one instance. Who is told to stop passes it on; in the faulty one only if somebody idles.

struct Pool {
    jobs: Fd,
    stop: Fd,
    instance: Fd,
    idle: AtomicUsize,
}

fn pool(is_right: bool) -> Orders<'static, Pool> {
    let worker = move |t: Task<'_>, e: &Pool| loop {
        t.shared("idle");
        e.idle.fetch_add(1, SeqCst);
        let event = wait(t, e.instance)?;
        t.shared("idle");
        e.idle.fetch_sub(1, SeqCst);
        if event.data() == 2 {
            if is_right || e.idle.load(SeqCst) > 0 {
                t.write(e.stop, &ONE)?;
            }
            return Ok(());
        }
        match t.read(e.jobs, &mut [0; 8]) {
            Err(Errno::EAGAIN) => {}
            result => drop(result?),
        }
    };
    Orders::new(|kernel| {
        let task = kernel.task(0);
        let jobs = task.semaphore(0, Flags::NONE).unwrap();
        let stop = task.eventfd(0, Flags::NONE).unwrap();
        let instance = task.epoll_create1(Flags::NONE).unwrap();
        task.epoll_add(instance, jobs, Events::IN, 1).unwrap();
        task.epoll_add(instance, stop, EDGE, 2).unwrap();
        Pool {
            jobs,
            stop,
            instance,
            idle: AtomicUsize::new(0),
        }
    })
    .task("boss", |t, e: &Pool| t.write(e.stop, &ONE).map(drop))
    .task("w0", worker)
    .task("w1", worker)
}

// A proxy, which copies from a socket to another. The faulty one hands the end on before the bytes.

struct Proxy {
    client: Fd,
    near: Fd,
    far: Fd,
    server: Fd,
    instance: Fd,
}

fn copy(t: Task, e: &Proxy, is_right: bool) -> Result<(), Errno> {
    let mut bytes = [0; 64];
    loop {
        let event = wait(t, e.instance)?;
        if !is_right && event.events().contains(Events::RDHUP) {
            return t.shutdown(e.far, Shutdown::Write);
        }
        loop {
            match t.read(e.near, &mut bytes) {
                Err(Errno::EAGAIN) => break,
                Ok(0) => return t.shutdown(e.far, Shutdown::Write),
                count => t.write(e.far, &bytes[..count?])?,
            };
        }
    }
}

fn proxy(is_right: bool) -> Orders<'static, Proxy> {
    Orders::new(|kernel| {
        let task = kernel.task(0);
        let (client, near) = task.socketpair(Flags::NONE).unwrap();
        let (far, server) = task.socketpair(Flags::NONE).unwrap();
        let instance = task.epoll_create1(Flags::NONE).unwrap();
        let mask = Events::IN | Events::RDHUP | Events::ET;
        task.epoll_add(instance, near, mask, 1).unwrap();
        Proxy {
            client,
            near,
            far,
            server,
            instance,
        }
    })
    .task("client", |t, e: &Proxy| {
        t.write(e.client, b"GET")?;
        t.write(e.client, b" /")?;
        t.shutdown(e.client, Shutdown::Write)
    })
    .task("proxy", move |t, e| copy(t, e, is_right))
    .check(|kernel, e| {
        let mut got = [0; 64];
        let count = kernel.task(0).read(e.server, &mut got).unwrap();
        assert_eq!(&got[..count], b"GET /");
    })
}

// A worker that looks at a flag and then sleeps. In the faulty program it is set and nobody is woken.

struct Flag {
    wake: Fd,
    instance: Fd,
    stops: AtomicBool,
}

fn flag(is_right: bool) -> Orders<'static, Flag> {
    Orders::new(|kernel| {
        let task = kernel.task(0);
        let wake = task.eventfd(0, Flags::NONE).unwrap();
        let instance = task.epoll_create1(Flags::NONE).unwrap();
        task.epoll_add(instance, wake, Events::IN, 0).unwrap();
        Flag {
            wake,
            instance,
            stops: AtomicBool::new(false),
        }
    })
    .task("worker", |t, e: &Flag| loop {
        t.shared("stops");
        if e.stops.load(SeqCst) {
            return Ok(());
        }
        wait(t, e.instance)?;
    })
    .task("boss", move |t, e| {
        t.shared("stops");
        e.stops.store(true, SeqCst);
        if is_right {
            t.write(e.wake, &ONE)?;
        }
        Ok(())
    })
}

// A loop that reads what came, and in the faulty program does nothing about the end of the stream.

fn end_of_stream(is_right: bool) -> Orders<'static, Pipe> {
    Orders::new(|kernel| pipe(kernel, Events::IN))
        .task("loop", move |t, e: &Pipe| loop {
            if wait(t, e.instance)?.events().contains(Events::IN) {
                t.read(e.reader, &mut [0; 8])?;
            } else if is_right {
                return Ok(());
            }
        })
        .task("peer", |t, e| {
            t.write(e.writer, b"a")?;
            t.close(e.writer)
        })
        .most(100)
}

/// The failure of a faulty program by rising bounds, which is the smallest one, and replays.
fn faulty<E: Sync>(orders: Orders<'_, E>, kind: Kind, smallest: &str) -> Failure {
    let orders = orders.rising();
    let failure = orders.explore().unwrap_err();
    assert_eq!((failure.kind(), failure.order()), (kind, smallest));
    assert!(failure.tried().bound.unwrap_or(0) <= 1);
    let again = orders.order(smallest).explore().unwrap_err();
    assert_eq!((again.kind(), again.order()), (kind, smallest));
    assert_eq!((again.tried().runs, again.tried().is_whole), (1, false));
    failure
}

/// What is mended has so many orders, and none fails.
fn mended<E: Sync>(orders: Orders<'_, E>, runs: u64) {
    let tried = orders.rising().explore().unwrap();
    assert_eq!(
        (tried.runs, tried.is_whole, tried.failures),
        (runs, true, 0)
    );
    assert!(tried
        .to_string()
        .starts_with(&format!("every order was tried: {runs} orders; ")));
}

#[test]
fn faults_and_what_mends_them() {
    let beside = Kind::AsleepBesideData;
    faulty(loop_at_pipe(EDGE, read_once, 3), beside, "peer*3 loop*3");
    mended(loop_at_pipe(EDGE, read_all, 3), 50);
    faulty(
        loop_at_pipe(ONCE, read_all, 3),
        beside,
        "peer loop*4 peer*2",
    );
    mended(loop_at_pipe(ONCE, arms_again, 3), 74);
    for (mask, runs) in [(Events::IN, 80), (Events::IN | Events::EXCLUSIVE, 50)] {
        let failure = faulty(herd(mask, false), Kind::Failed, "boss w0 w1*2 w0");
        assert!(failure
            .to_string()
            .starts_with("w0 failed: EAGAIN: resource temporarily"));
        mended(herd(mask, true), runs);
    }
    faulty(pool(false), beside, "boss w0*3 w1*2");
    mended(pool(true), 126);
    faulty(proxy(false), Kind::Check, "client*3 proxy*2");
    mended(proxy(true), 68);
    faulty(flag(false), Kind::AsleepForGood, "worker*2 boss");
    mended(flag(true), 5);
    faulty(end_of_stream(false), Kind::Endless, "peer*2 loop*98");
    mended(end_of_stream(true), 8);
}

/// `library/test/orders.c` and the tests in Python count these orders by hand.
#[test]
fn numbers_of_orders() {
    let all = |orders: Orders<'_, Pipe>| orders.every().goes_on().explore();
    for (handler, writes, runs, failures) in [
        (read_once as Handler, 3, 34, 16),
        (read_once, 6, 2_702, 2_216),
        (read_all, 6, 6_478, 0),
    ] {
        let found = all(loop_at_pipe(EDGE, handler, writes));
        let tried = found.unwrap_or_else(|failure| failure.tried().clone());
        assert_eq!(
            (tried.runs, tried.failures, tried.is_whole),
            (runs, failures, true)
        );
        assert!(tried.outcomes.is_empty());
    }
}

#[test]
fn by_chance_and_limits() {
    let orders = || loop_at_pipe(EDGE, read_once, 3);
    for seed in [0, 5] {
        let found = orders().random(seed).explore().unwrap_err();
        assert_eq!(
            found.found(),
            orders().random(seed).explore().unwrap_err().found()
        );
        assert_eq!(found.kind(), Kind::AsleepBesideData);
        let found = orders().pct(seed, 3).explore().unwrap_err();
        assert_eq!(found.kind(), Kind::AsleepBesideData);
    }
    let right = || loop_at_pipe(EDGE, read_all, 6);
    let tried: Tried = right().runs(50).explore().unwrap();
    assert_eq!((tried.runs, tried.is_whole), (50, false));
    assert!(tried
        .to_string()
        .contains("then the limit of 50 orders; not every order was tried"));
    assert!(
        !right()
            .every()
            .time(Duration::from_nanos(1))
            .explore()
            .unwrap()
            .is_whole
    );
    let tried = right().bound(1).explore().unwrap();
    assert_eq!((tried.bound, tried.is_whole), (Some(1), false));
}

#[test]
fn the_message() {
    let failure = loop_at_pipe(EDGE, read_once, 2)
        .rising()
        .name("loops")
        .explore()
        .unwrap_err();
    let told = failure.to_string();
    for part in [
        "asleep beside data: loop at 5: fd 3 shows IN, registered IN|ET, reported to loop in turn 3\n",
        "  order     peer*2 loop*3\n",
        "        setup  epoll_ctl(5, ADD, 3, IN|ET, 7)\n",
        "     4  loop   read(3, 4)                      \"ping\"\n",
        "  replay    NIPPERSAGE_ORDER='loops: peer*2 loop*3' cargo test 'the_message' -- --exact\n",
    ] {
        assert!(told.contains(part), "{told}");
    }
    assert_eq!(format!("{failure:?}"), told);
}

#[test]
fn a_task_that_panics() {
    let orders = Orders::new(|kernel| pipe(kernel, Events::IN)).task("t", |t, e: &Pipe| {
        t.write(e.writer, b"a")?;
        assert_eq!(t.read(e.reader, &mut [0; 4])?, 2);
        Ok(())
    });
    let failure = orders.explore().unwrap_err();
    assert_eq!((failure.kind(), failure.order()), (Kind::Failed, "t*2"));
    assert!(failure.to_string().contains("tests/orders.rs:"));
}

/// A task that sleeps at the end is unwound: its values are dropped, by calls that are refused.
#[test]
fn a_task_that_sleeps_is_unwound() {
    let (dropped, refused) = (AtomicUsize::new(0), Mutex::new(Vec::new()));
    struct Last<'a>(Task<'a>, Fd, &'a AtomicUsize, &'a Mutex<Vec<Errno>>);
    impl Drop for Last<'_> {
        fn drop(&mut self) {
            self.2.fetch_add(1, SeqCst);
            self.3.lock().unwrap().extend(self.0.close(self.1).err());
        }
    }
    let tried = Orders::new(|kernel| pipe(kernel, Events::IN))
        .daemon("t", |t, e: &Pipe| {
            let _last = Last(t, e.reader, &dropped, &refused);
            let _own = t.own(e.writer);
            wait(t, e.instance).map(drop)
        })
        .explore()
        .unwrap();
    assert_eq!(tried.runs, 1);
    // The first order is run twice.
    assert_eq!(dropped.load(SeqCst), 2);
    assert_eq!(*refused.lock().unwrap(), [Errno::ECANCELED; 2]);
}

#[test]
fn which_registrations_count() {
    let orders = || loop_at_pipe(EDGE, read_once, 3).check(|_, _| {}).every();
    assert_eq!(
        orders()
            .beside(|watch| watch.data != 7)
            .explore()
            .unwrap()
            .runs,
        34
    );
    let failure = orders()
        .beside(|watch| watch.shown == Events::IN)
        .explore()
        .unwrap_err();
    assert_eq!(failure.kind(), Kind::AsleepBesideData);
}

/// A loop that gives up after 5 ms and closes its end, while its peer still writes.
fn gives_up() -> Orders<'static, Pipe> {
    Orders::new(|kernel| pipe(kernel, Events::IN))
        .task("loop", |t, e: &Pipe| {
            let mut events = [Event::default()];
            match t.epoll_wait(e.instance, &mut events, Some(Duration::from_millis(5)))? {
                0 => t.close(e.reader),
                _ => t.read(e.reader, &mut [0; 8]).map(drop),
            }
        })
        .task("peer", |t, e| {
            t.write(e.writer, b"a")?;
            t.write(e.writer, b"b").map(drop)
        })
        .every()
        .goes_on()
}

#[test]
fn the_clock() {
    assert_eq!(gives_up().explore().unwrap().runs, 6);
    let failure = gives_up().clock_at_any_point().explore().unwrap_err();
    assert_eq!((failure.tried().runs, failure.tried().failures), (12, 2));
    assert_eq!(failure.order(), "loop + loop*2 peer");
}

// Outcomes. The tests in C and in Python count the same of the same examples, and
// `library/python/tests/test_orders.py` says how it is done by hand.

/// Two workers that wait once at one edge-triggered instance, and read a counter that is written twice.
fn workers() -> Orders<'static, (Fd, Fd)> {
    let worker = |t: Task<'_>, &(counter, instance): &(Fd, Fd)| {
        wait(t, instance)?;
        match t.read(counter, &mut [0; 8]) {
            Err(Errno::EAGAIN) => Ok(()),
            result => result.map(drop),
        }
    };
    Orders::new(|kernel| {
        let task = kernel.task(0);
        let counter = task.eventfd(0, Flags::NONE).unwrap();
        let instance = task.epoll_create1(Flags::NONE).unwrap();
        task.epoll_add(instance, counter, EDGE, 3).unwrap();
        (counter, instance)
    })
    .daemon("w1", worker)
    .daemon("w2", worker)
    .task("boss", |t, (counter, _)| {
        t.write(*counter, &ONE)?;
        t.write(*counter, &ONE).map(drop)
    })
    .beside(|_| false)
}

/// Two tasks write so many bytes, of which the last is their own, and a third one reads them.
fn reads(length: usize) -> Orders<'static, Pipe> {
    let writes = move |last: u8| {
        move |t: Task<'_>, e: &Pipe| {
            let mut bytes = vec![b'x'; length];
            bytes[length - 1] = last;
            t.write(e.writer, &bytes).map(drop)
        }
    };
    Orders::new(|kernel| pipe(kernel, Events::IN))
        .task("a", writes(b'a'))
        .task("b", writes(b'b'))
        .task("c", move |t, e| {
            match t.read(e.reader, &mut vec![0; length]) {
                Err(Errno::EAGAIN) => Ok(()),
                result => result.map(drop),
            }
        })
}

/// What was tried, whether an order failed or not.
fn tried_by<E: Sync + 'static>(orders: &Orders<'static, E>) -> Tried {
    let found = orders.explore();
    found.unwrap_or_else(|failure| failure.tried().clone())
}

/// So many orders come to each outcome, the most at the beginning. The first of each comes to it again.
fn counts<E: Sync + 'static>(orders: impl Fn() -> Orders<'static, E>, wanted: &[u64]) {
    let ways: [fn(Orders<'static, E>) -> Orders<'static, E>; 2] = [Orders::every, Orders::rising];
    for way in ways {
        let tried = tried_by(&way(orders()).goes_on().outcomes());
        let mut runs: Vec<_> = tried.outcomes.iter().map(|it| it.runs).collect();
        runs.sort_by(|one, other| other.cmp(one));
        assert_eq!(runs, wanted);
        assert_eq!(runs.iter().sum::<u64>(), tried.runs);
        let failed = tried.outcomes.iter().filter(|it| it.kind.is_some());
        assert_eq!(failed.map(|it| it.runs).sum::<u64>(), tried.failures);
        for outcome in &tried.outcomes {
            let again = tried_by(&orders().order(&outcome.order).outcomes());
            let once = Outcome {
                runs: 1,
                ..outcome.clone()
            };
            assert_eq!(again.outcomes, [once]);
        }
    }
}

#[test]
fn numbers_of_outcomes() {
    counts(workers, &[20, 14, 14, 14, 14]);
    counts(|| loop_at_pipe(EDGE, read_once, 3), &[18, 14, 2]);
    counts(gives_up, &[4, 2]);
    counts(|| gives_up().clock_at_any_point(), &[6, 3, 1, 1, 1]);
    counts(|| reads(24), &[2, 2, 2]);
    counts(|| reads(25), &[4, 2]);
}

/// Each of the 6!/(2!2!2!) orders comes to something else, as a dup answers the lowest free number.
#[test]
fn outcomes_that_all_differ() {
    let twice = |t: Task<'_>, (): &()| {
        t.dup(Fd(0))?;
        t.dup(Fd(0)).map(drop)
    };
    let orders = || {
        let orders = Orders::new(|_| ()).task("a", twice).task("b", twice);
        orders.task("c", twice)
    };
    counts(orders, &[1; 90]);
}

#[test]
fn the_first_order_of_an_outcome() {
    let told = gives_up().outcomes().explore().unwrap().outcomes;
    let (kind, both, one) = (None, "loop peer*2 loop*2", "loop peer loop*2 peer");
    let wanted = [(4, both), (2, one)].map(|(runs, order)| Outcome {
        kind,
        runs,
        order: order.to_string(),
    });
    assert_eq!(told, wanted);
}

fn refused<E: Sync>(orders: Orders<'_, E>, kind: Kind, told: &str) {
    let failure = orders.explore().unwrap_err();
    assert_eq!(failure.kind(), kind);
    assert!(failure.to_string().contains(told), "{failure}");
    assert!(failure.tried().outcomes.is_empty());
}

#[test]
fn what_is_refused() {
    let orders = || loop_at_pipe(EDGE, read_once, 3);
    for (schedule, told) in [
        ("", "has no turns"),
        (
            "lop",
            "word 1 of the schedule 'lop' names 'lop', and the tasks are loop, peer",
        ),
        (
            "loop[1,0]",
            "what a wait reports can't be chosen in this version",
        ),
        (
            "peer*4",
            "turn 4 of the schedule is one of peer, which has come to its end",
        ),
        (
            "peer",
            "the schedule ends before turn 2, and loop, peer can go on",
        ),
    ] {
        refused(orders().order(schedule), Kind::BadSchedule, told);
    }
    refused(
        orders().name("a b"),
        Kind::BadOption,
        "the name of an exploration",
    );
    let none = Limits {
        descriptors: 1,
        ..Limits::default()
    };
    refused(
        orders().limits(none),
        Kind::BadOption,
        "a limit of the kernel is out of its range",
    );
    refused(
        orders().task("loop", |_, _| Ok(())),
        Kind::BadTask,
        "two tasks have the name 'loop'",
    );
    refused(Orders::new(|_| ()), Kind::BadProgram, "1 to 63 tasks");
    let calls = AtomicUsize::new(0);
    let varies = Orders::new(|kernel| pipe(kernel, Events::IN)).task("t", |t, e: &Pipe| {
        let digit = b'0' + calls.fetch_add(1, SeqCst) as u8;
        t.write(e.writer, &[digit]).map(drop)
    });
    refused(
        varies.outcomes(),
        Kind::NotTheSame,
        "in turn 1 write(4, \"1\") of t, where it was write(4, \"0\") of t, after the same turns",
    );
    let another = Orders::new(|kernel| pipe(kernel, Events::IN)).task("t", |t, e: &Pipe| {
        t.kernel().task(9).write(e.writer, b"a").map(drop)
    });
    refused(
        another,
        Kind::BadTask,
        "a call was made as caller 9 in a turn of t, which is caller 1",
    );
}

#[test]
#[should_panic(expected = "setup has a fault")]
fn a_setup_that_panics() {
    let orders = Orders::new(|_| panic!("setup has a fault")).task("t", |_, ()| Ok(()));
    let _ = orders.explore();
}
