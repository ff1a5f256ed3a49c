//! The library where it cannot be linked because the processor is not x86-64: `served.c` has it, runs under the
//! emulator of the Rattle kit (`tools/run`), and is asked over pipes, one request and one answer for each call.

use crate::desk::Desk;
use std::cell::RefCell;
use std::fs;
use std::io::{self, ErrorKind, Read, Write};
use std::path::Path;
use std::process::{Child, Command, Stdio};

pub struct Served {
    program: RefCell<Child>,
}

impl Served {
    /// Starts the program, and sees that it answers.
    pub fn start() -> Result<Served, &'static str> {
        let root = Path::new(env!("CARGO_MANIFEST_DIR")).join("..");
        let made = |name: &str| fs::metadata(root.join(name)).and_then(|file| file.modified()).ok();
        match (made("target/bin/served"), made("target/staticlib/libexport.a")) {
            (Some(program), Some(archive)) if program >= archive => {}
            _ => {
                return Err(
                    "target/bin/served is not there or old: tools/build export && tools/compile second/served.c",
                );
            }
        }
        let mut command = Command::new(root.join("tools/run"));
        let started = command.arg("served").stdin(Stdio::piped()).stdout(Stdio::piped()).spawn();
        let program = RefCell::new(started.map_err(|_| "tools/run cannot be started")?);
        let served = Served { program };
        served.ask(b'f', &[], &[], 0).map_err(|_| "target/bin/served, started by tools/run, does not answer")?;
        Ok(served)
    }

    /// One request and its answer: what the call answered, and the room's bytes as they are then.
    fn ask(&self, call: u8, chart: &[u8], report: &[u8], room: usize) -> io::Result<(u64, Vec<u8>)> {
        let mut program = self.program.borrow_mut();
        let mut request = Vec::new();
        for number in [u64::from(call), chart.len() as u64, report.len() as u64] {
            request.extend(number.to_le_bytes());
        }
        request.extend(chart);
        request.extend(report);
        let to = program.stdin.as_mut().ok_or(ErrorKind::BrokenPipe)?;
        to.write_all(&request)?;
        to.flush()?;

        let mut answer = vec![0; 8 + room];
        program.stdout.as_mut().ok_or(ErrorKind::BrokenPipe)?.read_exact(&mut answer)?;
        let bytes = answer.split_off(8);
        Ok((u64::from_le_bytes(answer.try_into().expect("8 bytes")), bytes))
    }

    /// Asks where no answer is a fault of the library: the program has said on standard error what it saw.
    fn call(&self, call: u8, chart: &[u8], report: &[u8], room: usize) -> (u64, Vec<u8>) {
        self.ask(call, chart, report, room).unwrap_or_else(|why| {
            let (name, lengths) = (char::from(call), (chart.len(), report.len()));
            panic!(
                "no answer of target/bin/served to the call {name} with chart and report of {lengths:?} bytes: {why}"
            )
        })
    }
}

fn narrow((answer, _): (u64, Vec<u8>)) -> u32 {
    u32::try_from(answer).expect("an answer of 32 bits")
}

impl Desk for Served {
    fn test(&self, chart: &[u8], report: &mut [u8]) -> u32 {
        let answer = self.call(b't', chart, report, report.len());
        report.copy_from_slice(&answer.1);
        narrow(answer)
    }

    fn form(&self, report: &[u8]) -> u32 {
        narrow(self.call(b'f', &[], report, 0))
    }

    fn body(&self, report: &[u8]) -> u64 {
        self.call(b'b', &[], report, 0).0
    }

    fn judge(&self, chart: &[u8], report: &[u8]) -> u32 {
        narrow(self.call(b'j', chart, report, 0))
    }
}
