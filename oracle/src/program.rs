//! A program under comparison: a script on its standard input, its standard output taken whole.

use std::io::{Read, Write};
use std::path::{Path, PathBuf};
use std::process::{Child, Command, Stdio};
use std::sync::mpsc;
use std::thread;
use std::time::Duration;

pub(crate) struct Program {
    path: PathBuf,
    patience: Duration,
}

impl Program {
    pub(crate) fn new(path: &Path, patience: Duration) -> Self {
        Self { path: path.to_path_buf(), patience }
    }

    /// What the program writes for this script. Its exit status does not count; a signal that ends
    /// it, an output that never ends and a program that does not start do.
    pub(crate) fn output_for(&self, script: &[u8]) -> Result<Vec<u8>, String> {
        let mut child = Command::new(&self.path)
            .stdin(Stdio::piped())
            .stdout(Stdio::piped())
            .spawn()
            .map_err(|error| format!("{}: {error}", self.path.display()))?;
        feed(&mut child, script);
        let output = collect(&mut child);
        let output = match output.recv_timeout(self.patience) {
            Ok(output) => output,
            Err(_) => {
                // A program that ended in between cannot be ended again, which is as well.
                let _ = child.kill();
                let _ = child.wait();
                return Err(format!("no end of output within {} s", self.patience.as_secs()));
            }
        };
        let status = child.wait().map_err(|error| error.to_string())?;
        match status.code() {
            Some(_) => Ok(output),
            None => Err(format!("{status}")),
        }
    }
}

/// Writes beside the reading, because both pipes can be full at once.
fn feed(child: &mut Child, script: &[u8]) {
    let mut input = child.stdin.take().expect("the input is piped");
    let script = script.to_vec();
    thread::spawn(move || {
        // A program may end without reading all; its output then speaks for itself.
        let _ = input.write_all(&script);
    });
}

fn collect(child: &mut Child) -> mpsc::Receiver<Vec<u8>> {
    let mut output = child.stdout.take().expect("the output is piped");
    let (sender, receiver) = mpsc::channel();
    thread::spawn(move || {
        let mut bytes = Vec::new();
        let _ = output.read_to_end(&mut bytes);
        let _ = sender.send(bytes);
    });
    receiver
}
