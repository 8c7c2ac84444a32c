//! What Rattle's std has and Rust's has not, for the programs that .ci/checked builds: the runtime that `main` takes, the allocator, and
//! what is made with one.

/// What stands for Rattle's runtime: standard input and output, and the allocator.
pub struct HostRuntime(());

impl HostRuntime {
    /// The one that `main` takes.
    pub fn new() -> HostRuntime {
        HostRuntime(())
    }

    /// The allocator.
    pub fn alloc(&self) -> Global {
        Global
    }

    /// Standard input.
    pub fn reader(&self) -> std::io::Stdin {
        std::io::stdin()
    }
}

/// The allocator. Rust's own takes no argument.
#[derive(Clone, Copy)]
pub struct Global;

/// No memory was left. Rust ends the program there, so it is never given.
#[derive(Debug)]
pub struct AllocError;

impl From<AllocError> for std::io::Error {
    fn from(_: AllocError) -> std::io::Error {
        std::io::ErrorKind::OutOfMemory.into()
    }
}

/// Rust's `std::io`, with the two buffers and the writer as Rattle makes them.
pub mod io {
    use crate::{Global, HostRuntime};
    pub use std::io::*;

    /// Standard output.
    pub fn writer(_: &HostRuntime) -> Stdout {
        stdout()
    }

    /// A reader with a buffer.
    pub struct BufReader<R>(std::io::BufReader<R>);

    impl<R: Read> BufReader<R> {
        pub fn new(_: Global, reader: R) -> Result<BufReader<R>> {
            Ok(BufReader(std::io::BufReader::new(reader)))
        }
    }

    impl<R: Read> Read for BufReader<R> {
        fn read(&mut self, bytes: &mut [u8]) -> Result<usize> {
            self.0.read(bytes)
        }
    }

    /// A writer with a buffer.
    pub struct BufWriter<W: Write>(std::io::BufWriter<W>);

    impl<W: Write> BufWriter<W> {
        pub fn new(_: Global, writer: W) -> Result<BufWriter<W>> {
            Ok(BufWriter(std::io::BufWriter::new(writer)))
        }
    }

    impl<W: Write> Write for BufWriter<W> {
        fn write(&mut self, bytes: &[u8]) -> Result<usize> {
            self.0.write(bytes)
        }

        fn flush(&mut self) -> Result<()> {
            self.0.flush()
        }
    }
}

/// `vec![in alloc; value; count]`.
#[macro_export]
macro_rules! rattle_vec {
    (in $alloc:expr; $value:expr; $count:expr) => {{
        let _: $crate::Global = $alloc;
        Ok::<_, $crate::AllocError>(std::vec![$value; $count])
    }};
}

/// `print!(rt; ..)`: a result in the place of a panic.
#[macro_export]
macro_rules! rattle_print {
    ($runtime:expr; $($text:tt)*) => {{
        let _: &$crate::HostRuntime = &$runtime;
        std::io::Write::write_fmt(&mut std::io::stdout(), format_args!($($text)*))
    }};
}

/// `println!(rt; ..)`: the same with the end of a line.
#[macro_export]
macro_rules! rattle_println {
    ($runtime:expr; $($text:tt)*) => {{
        let _: &$crate::HostRuntime = &$runtime;
        std::io::Write::write_fmt(&mut std::io::stdout(), format_args!("{}\n", format_args!($($text)*)))
    }};
}

/// `prove!(..)` is looked at as the program runs.
#[macro_export]
macro_rules! rattle_prove {
    ($($condition:tt)*) => {
        assert!($($condition)*)
    };
}

/// What each file has without a `use`: these types,
pub mod prelude {
    pub use crate::{AllocError, Global, HostRuntime};
}

/// and these macros, by name, since Rust's own would stand before those of a `*`.
pub mod macros {
    pub use crate::{rattle_print as print, rattle_println as println, rattle_prove as prove, rattle_vec as vec};
}
