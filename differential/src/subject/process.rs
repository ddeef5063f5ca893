//! A program that takes requests on its standard input and gives replies on its standard output.
use super::{stream, Reply, Subject};
use crate::gen::Case;
use std::io::{BufReader, BufWriter, Write};
use std::process::{Child, ChildStdin, ChildStdout, Command, Stdio};

pub struct Process {
    command: String,
    running: Option<(Child, BufWriter<ChildStdin>, BufReader<ChildStdout>)>,
}

impl Process {
    /// A command for the shell.
    pub fn new(command: &str) -> Process {
        Process { command: command.to_string(), running: None }
    }

    fn start(&mut self) -> Result<(), String> {
        if self.running.is_some() {
            return Ok(());
        }
        let mut child = Command::new("sh")
            .args(["-c", &format!("exec {}", self.command)])
            .stdin(Stdio::piped())
            .stdout(Stdio::piped())
            .spawn()
            .map_err(|e| format!("{}: {e}", self.command))?;
        let (i, o) = (child.stdin.take().unwrap(), child.stdout.take().unwrap());
        self.running = Some((child, BufWriter::new(i), BufReader::new(o)));
        Ok(())
    }

    fn ask(&mut self, case: &Case) -> std::io::Result<Reply> {
        let (_, input, output) = self.running.as_mut().unwrap();
        stream::put_request(input, case)?;
        input.flush()?;
        stream::reply(output)
    }
}

impl Subject for Process {
    /// A program that ends too soon is started anew for the next case.
    fn build(&mut self, case: &Case) -> Result<Reply, String> {
        self.start()?;
        self.ask(case).map_err(|e| {
            let (mut child, input, output) = self.running.take().unwrap();
            drop((input, output));
            let _ = child.kill();
            let status = child.wait().map_or("unknown".into(), |s| s.to_string());
            format!("no reply: {e} ({status})")
        })
    }
}

impl Drop for Process {
    fn drop(&mut self) {
        if let Some((mut child, input, output)) = self.running.take() {
            drop((input, output));
            let _ = child.wait();
        }
    }
}
