//! Standard input, output and error, and whether they are there.
#![allow(unsafe_code)]
use std::ffi::c_int;
use std::fs::{File, Metadata};
use std::io::{self, Read, Write};
use std::os::fd::AsFd;
use std::sync::atomic::{AtomicBool, Ordering};

/// Whether standard input, output and error, descriptors 0 to 2, were closed when the program began.
static CLOSED: [AtomicBool; 3] = [const { AtomicBool::new(false) }; 3];

/// Rust's runtime opens /dev/null in the place of one that is closed, before `main` is called: all that is printed would be lost, and nobody
/// told. So this is asked earlier: what stands in this section is called before Rust's runtime begins.
#[used]
#[link_section = ".init_array"]
static BEFORE_MAIN: extern "C" fn() = ask;

extern "C" fn ask() {
    extern "C" {
        fn fcntl(descriptor: c_int, command: c_int, ...) -> c_int;
    }
    const F_GETFD: c_int = 1;
    for (descriptor, closed) in (0..).zip(&CLOSED) {
        // SAFETY: this is libc's function as it is declared; the command takes no third argument and changes nothing, and a descriptor
        // that is closed is answered with -1.
        let flags = unsafe { fcntl(descriptor, F_GETFD) };
        closed.store(flags == -1, Ordering::Relaxed);
    }
}

fn open(descriptor: usize) -> io::Result<()> {
    match CLOSED[descriptor].load(Ordering::Relaxed) {
        true => Err(io::Error::other("it is closed")),
        false => Ok(()),
    }
}

/// Standard input, if it is there.
pub fn input() -> io::Result<impl Read> {
    open(0).map(|()| io::stdin())
}

/// What is known of the file that standard input is.
pub fn input_metadata() -> io::Result<Metadata> {
    let file = open(0).and_then(|()| io::stdin().as_fd().try_clone_to_owned()).map(File::from)?;
    file.metadata()
}

/// Standard error, if it is there. It is written as a file is, since `io::Stderr` takes one that is not open for writing for one that nobody wants.
pub fn error() -> io::Result<File> {
    open(2).and_then(|()| io::stderr().as_fd().try_clone_to_owned()).map(File::from)
}

/// An error where nothing can be written to standard output. Who writes no byte learns it only by this.
pub fn output_is_there() -> io::Result<()> {
    StandardOutput::new().write(&[]).map(|_| ())
}

/// Standard output. Where it is not there, the first write fails. It is written as a file is, since `io::Stdout` takes an output that is not
/// open for writing for one that nobody wants.
pub struct StandardOutput(io::Result<File>);

impl StandardOutput {
    pub fn new() -> StandardOutput {
        StandardOutput(open(1).and_then(|()| io::stdout().as_fd().try_clone_to_owned()).map(File::from))
    }
}

impl Write for StandardOutput {
    fn write(&mut self, bytes: &[u8]) -> io::Result<usize> {
        match &mut self.0 {
            Ok(file) => file.write(bytes),
            Err(error) => Err(io::Error::other(error.to_string())),
        }
    }

    fn flush(&mut self) -> io::Result<()> {
        Ok(())
    }
}
