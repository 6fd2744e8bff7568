// What the program prints for a script. One that hangs is ended by `timeout`.

use std::io::Write;
use std::process::{Command, Stdio};

pub fn printed(player: &str, text: &str) -> Result<String, String> {
    let mut child = Command::new("timeout")
        .args(["20", player])
        .stdin(Stdio::piped())
        .stdout(Stdio::piped())
        .stderr(Stdio::piped())
        .spawn()
        .map_err(|e| format!("it does not start: {e}"))?;
    let _ = child.stdin.take().unwrap().write_all(text.as_bytes()); // the program reads all before it prints
    let out = child.wait_with_output().map_err(|e| e.to_string())?;
    let lines = String::from_utf8_lossy(&out.stdout).to_string();
    if !out.stderr.is_empty() {
        Err(format!("on standard error {:?}", String::from_utf8_lossy(&out.stderr)))
    } else if out.status.success() {
        Ok(lines)
    } else {
        Err(format!("{}, its last line {:?}", out.status, lines.lines().last()))
    }
}
