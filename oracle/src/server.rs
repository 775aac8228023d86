//! Our side: the server process over the proved library. It reads a whole batch before it answers, so that neither
//! side waits for the other with a full pipe.

use crate::calls;
use crate::case::Case;
use std::io::{self, BufReader, Read, Write};
use std::process::{Child, ChildStdin, ChildStdout, Command, Stdio};

pub struct Server {
    command: Vec<String>,
    child: Child,
    to: ChildStdin,
    from: BufReader<ChildStdout>,
}

/// All that a call left: unlike an answer, whole lists.
#[derive(Clone, Debug, PartialEq, Eq)]
pub struct Left {
    pub number: u64,
    pub out: Vec<u64>,
    pub lists: Vec<Vec<u64>>,
}

/// What a side would leave that answers by the rules.
#[cfg(test)]
impl From<crate::case::Answer> for Left {
    fn from(answer: crate::case::Answer) -> Left {
        Left { number: answer.number, out: answer.out, lists: answer.lists }
    }
}

impl Server {
    pub fn start(command: &[String]) -> io::Result<Server> {
        let mut child =
            Command::new(&command[0]).args(&command[1..]).stdin(Stdio::piped()).stdout(Stdio::piped()).spawn()?;
        let (Some(to), Some(from)) = (child.stdin.take(), child.stdout.take()) else {
            return Err(io::Error::other("no pipes"));
        };
        Ok(Server { command: command.to_vec(), child, to, from: BufReader::with_capacity(1 << 18, from) })
    }

    /// A fresh process, after one that died.
    pub fn restart(&mut self) -> io::Result<()> {
        *self = Server::start(&self.command.clone())?;
        Ok(())
    }

    pub fn send<'a>(&mut self, cases: impl IntoIterator<Item = &'a Case>) -> io::Result<()> {
        let mut batch = vec![0; 4];
        for case in cases {
            case.frame(calls::of(case).lists, &mut batch);
        }
        let length = u32::try_from(batch.len() - 4).map_err(io::Error::other)?;
        batch[..4].copy_from_slice(&length.to_le_bytes());
        self.to.write_all(&batch)?;
        self.to.flush()
    }

    pub fn receive(&mut self, case: &Case) -> io::Result<Left> {
        let call = calls::of(case);
        let head = self.words(1 + call.out)?;
        let mut lists = Vec::with_capacity(case.lists.len());
        for (&length, list) in case.lists.iter().zip(call.lists) {
            lists.push(if list.cell.is_byte() {
                self.bytes(length)?.into_iter().map(u64::from).collect()
            } else {
                self.words(length)?
            });
        }
        Ok(Left { number: head[0], out: head[1..].to_vec(), lists })
    }

    /// Whether the archive has each call; call n stands at n - 1.
    pub fn calls_there(&mut self) -> io::Result<Vec<bool>> {
        // Call 0, with nothing lent: the answer is a number and a word of bits.
        self.to.write_all(&[5, 0, 0, 0, 0, 0, 0, 0, 0])?;
        self.to.flush()?;
        let bits = self.words(2)?[1];
        Ok((1..=calls::CALLS.len()).map(|n| bits >> n & 1 == 1).collect())
    }

    /// One case by itself.
    pub fn ask(&mut self, case: &Case) -> io::Result<Left> {
        self.send([case])?;
        self.receive(case)
    }

    /// A batch of them.
    pub fn ask_all(&mut self, cases: &[Case]) -> io::Result<Vec<Left>> {
        self.send(cases)?;
        cases.iter().map(|case| self.receive(case)).collect()
    }

    fn bytes(&mut self, n: usize) -> io::Result<Vec<u8>> {
        let mut bytes = vec![0; n];
        self.from.read_exact(&mut bytes)?;
        Ok(bytes)
    }

    fn words(&mut self, n: usize) -> io::Result<Vec<u64>> {
        let bytes = self.bytes(8 * n)?;
        let word = |c: &[u8]| u64::from_le_bytes(c.try_into().unwrap_or_default());
        Ok(bytes.chunks_exact(8).map(word).collect())
    }
}

impl Drop for Server {
    fn drop(&mut self) {
        // It ends by itself when its input does; a process that hangs must not outlive us.
        let _ = self.child.kill();
        let _ = self.child.wait();
    }
}
