//! Programs for all threads of a process, so this file has one test.

use seccompiler::{
    apply_filter, apply_filter_all_threads, BpfProgram, Error, SeccompAction, SeccompFilter,
};
use std::env::{self, consts::ARCH};
use std::fs;
use std::sync::mpsc::{self, Receiver, Sender};
use std::thread;

#[cfg(target_arch = "x86_64")]
const GETCWD: i64 = 79;
#[cfg(not(target_arch = "x86_64"))]
const GETCWD: i64 = 17;

/// Returns the errno of asking for the current folder.
fn refused() -> Option<i32> {
    env::current_dir()
        .err()
        .and_then(|error| error.raw_os_error())
}

/// Returns the number of this thread.
fn number() -> i64 {
    let link = fs::read_link("/proc/thread-self").expect("Linux");
    let number = link
        .file_name()
        .and_then(|it| it.to_str())
        .expect("a number");
    number.parse().expect("a number")
}

/// The program that answers `getcwd` with an errno.
fn denying(errno: u32) -> BpfProgram {
    let (allow, deny) = (SeccompAction::Allow, SeccompAction::Errno(errno));
    let arch = ARCH.try_into().expect("it runs here");
    let filter = SeccompFilter::new([(GETCWD, vec![])].into(), allow, deny, arch);
    filter.expect("a filter").try_into().expect("a program")
}

/// Sends its number and its errno, and both again when it is asked. If an errno is given, it first installs a filter.
fn thread_of_its_own(own: Option<u32>, tell: &Sender<(i64, Option<i32>)>, ask: &Receiver<()>) {
    if let Some(errno) = own {
        apply_filter(&denying(errno)).expect("the kernel takes it");
    }
    tell.send((number(), refused())).expect("the test waits");
    ask.recv().expect("the test asks");
    tell.send((number(), refused())).expect("the test waits");
}

/// Starts such a thread, and returns what it sends and how it is asked.
fn start(own: Option<u32>) -> (Receiver<(i64, Option<i32>)>, Sender<()>) {
    let (tell, told) = mpsc::channel();
    let (asking, ask) = mpsc::channel();
    thread::spawn(move || thread_of_its_own(own, &tell, &ask));
    (told, asking)
}

#[test]
fn a_filter_holds_for_threads_that_were_there_before() {
    // A thread with a filter of its own can't take another thread's, and is told.
    let (told, ask) = start(Some(1001));
    let (thread, errno) = told.recv().expect("the thread tells");
    assert_eq!(errno, Some(1001));
    match apply_filter_all_threads(&denying(1000)) {
        Err(Error::ThreadSync(number)) => assert_eq!(number, thread),
        answer => panic!("{answer:?}"),
    }
    assert_eq!(refused(), None);
    ask.send(()).expect("the thread waits");
    assert_eq!(told.recv().expect("the thread tells"), (thread, Some(1001)));
    assert!(told.recv().is_err());

    let (told, ask) = start(None);
    let (thread, errno) = told.recv().expect("the thread tells");
    assert_eq!(errno, None);
    // The thread before may take a moment to be gone.
    let installed = (0..1000).any(|_| {
        thread::sleep(std::time::Duration::from_millis(5));
        apply_filter_all_threads(&denying(1000)).is_ok()
    });
    assert!(installed);
    ask.send(()).expect("the thread waits");
    assert_eq!(told.recv().expect("the thread tells"), (thread, Some(1000)));
    assert_eq!(refused(), Some(1000));
    assert!(matches!(
        apply_filter_all_threads(&[]),
        Err(Error::EmptyFilter)
    ));
}
