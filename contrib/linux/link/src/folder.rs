//! The folder of a run: the daemon's files, the links to what it calls, and the lock.

use crate::table::INTERFACES;
use nix::fcntl::{flock, FlockArg};
use std::fs::{self, File};
use std::io;
use std::os::unix::fs::symlink;
use std::os::unix::io::AsRawFd;
use std::path::{Path, PathBuf};

/// The daemon's files: leases, DUID and `resolv.conf`.
pub const FILES: &str = "files";
/// What the daemon calls for rows and hooks, which is this program, and the hook that it runs.
pub const HOST: &str = "host";
pub const HOOK: &str = "hook";
/// Where the hook stands that a folder begins with: beside this program, or in the repository that has both.
const HOOKS: [&str; 2] = [HOOK, "../../../hook"];
const LOCK: &str = "lock";

/// A folder that no other run has.
pub struct Folder {
    pub path: PathBuf,
    _lock: File,
}

/// Why a folder can't be had.
pub enum Refused {
    InUse,
    Failed(io::Error),
}

impl From<io::Error> for Refused {
    fn from(error: io::Error) -> Refused {
        Refused::Failed(error)
    }
}

impl Folder {
    /// Makes what isn't there of it. A hook that is there stays, so that a user's own can stand there.
    pub fn make(path: &Path, interfaces: &[String]) -> Result<Folder, Refused> {
        fs::create_dir_all(path.join(FILES))?;
        let path = path.canonicalize()?;
        let lock = File::create(path.join(LOCK))?;
        match flock(lock.as_raw_fd(), FlockArg::LockExclusiveNonblock) {
            Ok(()) => {}
            Err(nix::errno::Errno::EWOULDBLOCK) => return Err(Refused::InUse),
            Err(error) => return Err(Refused::Failed(error.into())),
        }
        let program = std::env::current_exe()?;
        replace_link(&program, &path.join(HOST))?;
        let hook = path.join(HOOK);
        if fs::symlink_metadata(&hook).is_err() {
            let found = HOOKS.iter().map(|name| beside(&program, name)).find(|path| path.exists());
            symlink(found.unwrap_or_else(|| beside(&program, HOOK)), hook)?;
        }
        fs::write(path.join(INTERFACES), interfaces.iter().map(|name| format!("{name}\n")).collect::<String>())?;
        Ok(Folder { path, _lock: lock })
    }

    pub fn files(&self) -> PathBuf {
        self.path.join(FILES)
    }
}

fn replace_link(to: &Path, link: &Path) -> io::Result<()> {
    if fs::symlink_metadata(link).is_ok() {
        fs::remove_file(link)?;
    }
    symlink(to, link)
}

/// A file of the folder in which a program stands.
pub fn beside(program: &Path, name: &str) -> PathBuf {
    program.parent().unwrap_or_else(|| Path::new("/")).join(name)
}
