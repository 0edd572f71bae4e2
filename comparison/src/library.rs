//! The proved library, which calls.c makes a process of its own, and its program `booklet`.
//!
//! SANKAYOP_CALLS and SANKAYOP_BOOKLET name the two programs.

use crate::comparison::{Outcome, Subject, NO_ANSWER};
use crate::inputs::{Call, Input};
use crate::paper::Side;
use std::env;
use std::ffi::OsStr;
use std::io::{self, BufReader, Read, Write};
use std::os::unix::ffi::OsStrExt;
use std::process::{ChildStdin, ChildStdout, Command, Output, Stdio};

pub struct Library {
    requests: ChildStdin,
    answers: BufReader<ChildStdout>,
}

impl Library {
    pub fn start() -> Result<Library, String> {
        named("SANKAYOP_BOOKLET")?;
        let mut process = Command::new(named("SANKAYOP_CALLS")?)
            .stdin(Stdio::piped())
            .stdout(Stdio::piped())
            .spawn()
            .map_err(|error| format!("SANKAYOP_CALLS is not run: {error}"))?;
        let pipes = (process.stdin.take(), process.stdout.take());
        let (Some(requests), Some(answers)) = pipes else {
            return Err("SANKAYOP_CALLS has no pipes".to_string());
        };
        Ok(Library {
            requests,
            answers: BufReader::new(answers),
        })
    }

    /// One call as calls.c reads it, and the answer with all lent memory as calls.c writes it.
    fn ask(&mut self, input: &Input) -> io::Result<Outcome> {
        self.requests.write_all(&request(input))?;
        let mut answer = [0; 8];
        self.answers.read_exact(&mut answer)?;
        Ok(Outcome {
            answer: u64::from_le_bytes(answer),
            text: self.bytes(input.text.len())?,
            map: self.words(input.map.len())?,
            bench: self.words(input.bench.len())?,
            mask: self.bytes(input.mask.len())?,
            route: self.words(input.route.len())?,
        })
    }

    fn bytes(&mut self, length: usize) -> io::Result<Vec<u8>> {
        let mut bytes = vec![0; length];
        self.answers.read_exact(&mut bytes)?;
        Ok(bytes)
    }

    fn words(&mut self, length: usize) -> io::Result<Vec<u32>> {
        let bytes = self.bytes(4 * length)?;
        let word = |word: &[u8]| u32::from_le_bytes([word[0], word[1], word[2], word[3]]);
        Ok(bytes.chunks_exact(4).map(word).collect())
    }
}

impl Subject for Library {
    fn perform(&mut self, input: &Input) -> Outcome {
        self.ask(input).unwrap_or_else(|_| {
            let mut outcome = Outcome::before(input);
            outcome.answer = NO_ANSWER;
            outcome
        })
    }

    /// The program's output; a failure to run it is put into words, which no right output equals.
    fn booklet(&mut self, arguments: &[Vec<u8>], text: &[u8]) -> Vec<u8> {
        match run_booklet(arguments, text) {
            Ok(output) if output.status.success() => output.stdout,
            Ok(output) => format!("ended with {}", output.status).into_bytes(),
            Err(error) => format!("not run: {error}").into_bytes(),
        }
    }
}

fn request(input: &Input) -> Vec<u8> {
    let call = match input.call {
        Call::Read => 0,
        Call::Open => 1,
        Call::Turn(Side::Forward) => 2,
        Call::Turn(Side::Backward) => 3,
        Call::Area => 4,
        Call::Route => 5,
    };
    let order = input.order;
    let numbers = [call, input.n, input.m, order.start, order.target];
    let more = [order.stretch, input.locality, input.crossing];
    let lengths = [
        input.text.len(),
        input.map.len(),
        input.bench.len(),
        input.mask.len(),
        input.route.len(),
    ];
    let mut request = Vec::new();
    add_words(&mut request, &numbers);
    add_words(&mut request, &more);
    add_words(&mut request, &lengths.map(|length| length as u32));
    request.extend(&input.text);
    add_words(&mut request, &input.map);
    add_words(&mut request, &input.bench);
    request.extend(&input.mask);
    add_words(&mut request, &input.route);
    request
}

fn add_words(request: &mut Vec<u8>, words: &[u32]) {
    request.extend(words.iter().flat_map(|word| word.to_le_bytes()));
}

fn named(variable: &str) -> Result<String, String> {
    env::var(variable).map_err(|_| format!("{variable} names no program"))
}

fn run_booklet(arguments: &[Vec<u8>], text: &[u8]) -> io::Result<Output> {
    let program = named("SANKAYOP_BOOKLET").map_err(io::Error::other)?;
    let mut child = Command::new(program)
        .args(arguments.iter().map(|argument| OsStr::from_bytes(argument)))
        .stdin(Stdio::piped())
        .stdout(Stdio::piped())
        .spawn()?;
    if let Some(mut input) = child.stdin.take() {
        match input.write_all(text) {
            // It may stop reading at a bad argument or past the text it has room for.
            Err(error) if error.kind() != io::ErrorKind::BrokenPipe => return Err(error),
            _ => {}
        }
    }
    child.wait_with_output()
}
