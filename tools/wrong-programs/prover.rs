//! `rt ci`, in a copy of some crates.

use std::fs::File;
use std::io;
use std::os::unix::process::parent_id;
use std::path::Path;
use std::process::{Command, Stdio};
use std::time::Duration;

pub struct Prover {
    parent: u32,
}

impl Prover {
    pub fn new() -> Prover {
        Prover { parent: parent_id() }
    }

    /// Whether somebody still waits for an answer: who asked is there, and the folder for temporary files.
    fn is_awaited(&self) -> bool {
        parent_id() == self.parent && std::env::temp_dir().is_dir()
    }

    /// Has `rt` lay out a crate's files, as `rt ci` asks: a wrong program's lines need not be.
    pub fn lay_out(&self, tree: &Path) -> io::Result<()> {
        Command::new("rt")
            .arg("fmt")
            .current_dir(tree)
            .stdin(Stdio::null())
            .stdout(Stdio::null())
            .stderr(Stdio::null())
            .status()
            .map(drop)
    }

    /// Runs `rt ci` in the repository, and leaves all that it says in `log`: on all processors, or on one. Whether all passed.
    pub fn ci(&self, repository: &Path, log: &Path, alone: bool) -> io::Result<bool> {
        let said = File::create(log)?;
        let mut rt = Command::new("rt");
        rt.arg("ci").current_dir(repository);
        if !alone {
            rt.env("RT_JOBS", "1");
        }
        let mut child = rt.stdin(Stdio::null()).stdout(said.try_clone()?).stderr(said).spawn()?;
        while self.is_awaited() {
            if let Some(ended) = child.try_wait()? {
                return Ok(ended.success());
            }
            std::thread::sleep(Duration::from_millis(50));
        }
        child.kill()?;
        child.wait()?;
        std::process::exit(1);
    }
}
