// The program that is compared: it reads one encoded molecule from its standard input, and writes to its standard output.
use std::io::{ErrorKind, Read, Write};
use std::path::Path;
use std::process::{Command, Stdio};
use std::time::Duration;

// What it writes for some bytes, which it is handed in so many pieces, or how it failed. More than a pipe holds is never
// written, so that it ends before it is read from.
pub fn output(program: &Path, bytes: &[u8], pieces: usize) -> Result<Vec<u8>, String> {
    let told = |e: std::io::Error| e.to_string();
    let mut command = Command::new(program);
    let mut child = command.stdin(Stdio::piped()).stdout(Stdio::piped()).stderr(Stdio::null()).spawn().map_err(told)?;
    let mut stdin = child.stdin.take().unwrap();
    for (at, piece) in bytes.chunks(bytes.len().div_ceil(pieces).max(1)).enumerate() {
        if at > 0 {
            // So that it has read the piece before.
            std::thread::sleep(Duration::from_millis(1));
        }
        match stdin.write_all(piece) {
            // It may end without reading all.
            Err(e) if e.kind() == ErrorKind::BrokenPipe => break,
            written => written.map_err(told)?,
        }
    }
    drop(stdin);
    let mut output = Vec::new();
    child.stdout.take().unwrap().read_to_end(&mut output).map_err(told)?;
    let status = child.wait().map_err(told)?;
    if status.success() { Ok(output) } else { Err(format!("{status}")) }
}
