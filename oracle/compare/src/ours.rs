//! Our timer behind its C functions: linked into this program, or in a worker process where the archive is for another processor. A call is a frame of
//! bytes that becomes the reply; frame.rs, board_frame.rs and trace_frame.rs have the three kinds.

use std::io::{Read, Write};
use std::process::{Child, ChildStdin, ChildStdout, Command, Stdio};

/// A frame of one kind.
pub trait Call {
    /// Frames sent at a time: few enough that neither side of a pipe ever waits for the other to read. One alone may be longer, since the worker
    /// answers when it has all of it.
    const AT_A_TIME: usize;

    fn bytes(&mut self) -> &mut [u8];

    /// Makes the call in this program.
    fn serve_linked(&mut self);
}

pub struct Ours {
    worker: Option<(Child, ChildStdin, ChildStdout)>,
}

impl Ours {
    /// The worker's command is in `PIT_WORKER`, its words apart by spaces; a linked program needs none.
    pub fn start() -> Result<Self, String> {
        if cfg!(linked) {
            return Ok(Self { worker: None });
        }
        let line = std::env::var("PIT_WORKER").map_err(|_| {
            "libpit.a is not there, or is for another processor, and PIT_WORKER names no worker: see oracle/README.md".to_string()
        })?;
        let mut words = line.split_whitespace();
        let program = words.next().ok_or("PIT_WORKER is empty")?;
        let mut child = Command::new(program)
            .args(words)
            .stdin(Stdio::piped())
            .stdout(Stdio::piped())
            .spawn()
            .map_err(|error| format!("{program}: {error}"))?;
        let (to, from) = (child.stdin.take().expect("a pipe"), child.stdout.take().expect("a pipe"));
        Ok(Self { worker: Some((child, to, from)) })
    }

    /// Makes the calls, in order; each frame becomes its reply.
    pub fn serve<C: Call>(&mut self, frames: &mut [C]) {
        match &mut self.worker {
            None => frames.iter_mut().for_each(Call::serve_linked),
            Some((_, to, from)) => {
                for part in frames.chunks_mut(C::AT_A_TIME) {
                    let bytes: Vec<u8> = part.iter_mut().flat_map(|frame| frame.bytes().to_vec()).collect();
                    to.write_all(&bytes).and_then(|()| to.flush()).expect("the worker takes the calls");
                    for frame in part {
                        from.read_exact(frame.bytes()).expect("the worker answers the calls");
                    }
                }
            }
        }
    }

    pub fn call<C: Call>(&mut self, frame: C) -> C {
        let mut frames = [frame];
        self.serve(&mut frames);
        let [reply] = frames;
        reply
    }
}
