//! The daemon's transcript on standard output. A reader that is slow or gone holds up nothing here.

use crate::say;
use nix::sys::stat::{fstat, stat};
use std::io::Write;
use std::sync::mpsc::{channel, sync_channel, Receiver, SyncSender, TrySendError};
use std::time::Duration;

const NULL: &str = "/dev/null";
/// How many pieces wait for a slow reader.
const PIECES: usize = 256;
/// How long the end waits for it.
const END: Duration = Duration::from_secs(1);

pub struct Copy {
    pieces: Option<SyncSender<Vec<u8>>>,
    ended: Receiver<()>,
    lost: bool,
}

impl Copy {
    pub fn start() -> Copy {
        let (pieces, coming) = sync_channel::<Vec<u8>>(PIECES);
        let (end, ended) = channel();
        if goes_nowhere() {
            return Copy { pieces: None, ended, lost: false };
        }
        std::thread::spawn(move || {
            let mut out = std::io::stdout();
            for piece in coming {
                if out.write_all(&piece).and_then(|()| out.flush()).is_err() {
                    break;
                }
            }
            let _ = end.send(());
        });
        Copy { pieces: Some(pieces), ended, lost: false }
    }

    pub fn write(&mut self, piece: Vec<u8>) {
        let sent = self.pieces.as_ref().map_or(Ok(()), |pieces| pieces.try_send(piece));
        match sent {
            Ok(()) => {}
            Err(TrySendError::Full(_)) if self.lost => {}
            Err(TrySendError::Full(_)) => {
                self.lost = true;
                say!(Warning, "standard output is slow: some of the transcript is lost");
            }
            Err(TrySendError::Disconnected(_)) => self.pieces = None,
        }
    }

    /// Waits a little until all is written.
    pub fn end(&mut self) {
        if self.pieces.take().is_some() {
            let _ = self.ended.recv_timeout(END);
        }
    }
}

/// Whether standard output is the null device, as under the units.
fn goes_nowhere() -> bool {
    matches!((fstat(libc::STDOUT_FILENO), stat(NULL)), (Ok(out), Ok(null)) if out.st_rdev == null.st_rdev)
}
