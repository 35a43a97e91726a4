//! The output of a command, read beside it, so that a command which gives nothing any more is not
//! waited for without end: `fst2vcd` turns in a circle on some damaged files.
use super::told;
use std::io::{self, Cursor, ErrorKind, Read};
use std::sync::mpsc::{sync_channel, Receiver, RecvTimeoutError, SyncSender};
use std::thread;
use std::time::Duration;

/// The bytes that are read at once, and how many such blocks may wait to be taken.
const BLOCK: usize = 1 << 16;
const WAITING: usize = 4;

/// The output of a command.
pub struct Piped {
    blocks: Receiver<io::Result<Vec<u8>>>,
    block: Cursor<Vec<u8>>,
    /// How long the command may give nothing.
    silence: Duration,
}

impl Piped {
    /// Begins to read an output.
    pub fn of(output: impl Read + Send + 'static, silence: Duration) -> Piped {
        let (sender, blocks) = sync_channel(WAITING);
        thread::spawn(|| send(output, sender));
        let block = Cursor::new(Vec::new());
        Piped {
            blocks,
            block,
            silence,
        }
    }
}

/// Sends what an output gives until it ends or nobody takes it.
fn send(mut output: impl Read, sender: SyncSender<io::Result<Vec<u8>>>) {
    let mut goes_on = true;
    while goes_on {
        let mut block = vec![0; BLOCK];
        let read = match output.read(&mut block) {
            Err(error) if error.kind() == ErrorKind::Interrupted => continue,
            read => read,
        };
        let more = matches!(read, Ok(1..));
        let block = read.map(|count| {
            block.truncate(count);
            block
        });
        goes_on = sender.send(block).is_ok() && more;
    }
}

impl Read for Piped {
    fn read(&mut self, buffer: &mut [u8]) -> io::Result<usize> {
        let count = self.block.read(buffer)?;
        if count > 0 || buffer.is_empty() {
            return Ok(count);
        }
        match self.blocks.recv_timeout(self.silence) {
            Ok(block) => {
                self.block = Cursor::new(block?);
                self.block.read(buffer)
            }
            Err(RecvTimeoutError::Disconnected) => Ok(0),
            Err(RecvTimeoutError::Timeout) => {
                let seconds = self.silence.as_secs();
                Err(told(format!(
                    "this is an FST, and fst2vcd, which reads it, gave nothing for {seconds} seconds \
                     and was ended: the file may be damaged"
                )))
            }
        }
    }
}

#[cfg(test)]
mod tests {
    use super::*;

    /// Gives a byte, and another one after a while.
    struct Slow(u8, Duration);

    impl Read for Slow {
        fn read(&mut self, buffer: &mut [u8]) -> io::Result<usize> {
            self.0 += 1;
            if self.0 == 2 {
                thread::sleep(self.1);
            }
            buffer[0] = self.0;
            Ok(usize::from(self.0 < 3))
        }
    }

    #[test]
    fn all_that_is_given_is_read() {
        let bytes: Vec<u8> = (0..=255).cycle().take(5 * BLOCK + 7).collect();
        let mut piped = Piped::of(Cursor::new(bytes.clone()), Duration::from_secs(60));
        let mut read = Vec::new();
        piped.read_to_end(&mut read).unwrap();
        assert_eq!(read, bytes);
    }

    #[test]
    fn an_error_is_passed_on() {
        struct Broken;
        impl Read for Broken {
            fn read(&mut self, _: &mut [u8]) -> io::Result<usize> {
                Err(ErrorKind::BrokenPipe.into())
            }
        }
        let mut piped = Piped::of(Broken, Duration::from_secs(60));
        let error = piped.read(&mut [0]).unwrap_err();
        assert_eq!(error.kind(), ErrorKind::BrokenPipe);
    }

    #[test]
    fn a_silence_that_is_too_long_is_told() {
        let mut read = Vec::new();
        let (short, long) = (Duration::from_secs(1), Duration::from_secs(3600));
        let mut patient = Piped::of(Slow(0, short), long);
        assert_eq!(patient.read_to_end(&mut read).unwrap(), 2);
        // the thread that sleeps ends with the tests
        let mut hasty = Piped::of(Slow(0, long), short);
        let words = hasty.read_to_end(&mut read).unwrap_err().to_string();
        assert!(words.contains("gave nothing for 1 seconds and was ended"));
    }
}
