//! NASM: lines of text into the bytes of each.

use std::io::Write;
use std::process::Command;

/// Lines to a file. NASM's passes are over the whole of it.
const FILE: usize = 20_000;

/// The bytes of each line, through NASM's listing. An error of NASM stands in the place of the bytes.
pub fn assemble(lines: &[String]) -> Vec<Result<Vec<u8>, String>> {
    lines.chunks(FILE).flat_map(file).collect()
}

fn file(lines: &[String]) -> Vec<Result<Vec<u8>, String>> {
    let path = |end: &str| std::env::temp_dir().join(format!("outside-{}.{end}", std::process::id()));
    let (source, listing, image, errors) = (path("asm"), path("lst"), path("img"), path("err"));
    let mut text = String::from("cpu 8086\nbits 16\n");
    for line in lines {
        text.push_str(line);
        text.push('\n');
    }
    std::fs::File::create(&source).and_then(|mut f| f.write_all(text.as_bytes())).expect("a temporary file");
    // NASM writes no listing where a line has an error: such lines are left out, and the rest is assembled again.
    let mut nasm = Command::new("nasm");
    nasm.args(["-w-all", "-f", "bin", "-l"]).arg(&listing).arg("-o").arg(&image).arg("-Z").arg(&errors).arg(&source);
    let status = nasm.status().expect("nasm");
    let mut results: Vec<Result<Vec<u8>, String>> = vec![Ok(Vec::new()); lines.len()];
    let said = std::fs::read_to_string(&errors).unwrap_or_default();
    if !status.success() {
        for line in said.lines() {
            // `outside.asm:17: error: ..`
            let mut parts = line.rsplitn(2, ": error: ");
            let what = parts.next().unwrap_or("").to_string();
            let number = parts.next().and_then(|p| p.rsplit(':').next()).and_then(|n| n.parse::<usize>().ok());
            match number {
                Some(n) if n > 2 => results[n - 3] = Err(what),
                _ => panic!("nasm: {line}"),
            }
        }
        let kept: Vec<usize> = (0..lines.len()).filter(|i| results[*i].is_ok()).collect();
        assert!(kept.len() < lines.len(), "nasm failed and named no line: {said}");
        let left: Vec<String> = kept.iter().map(|i| lines[*i].clone()).collect();
        for (i, result) in kept.into_iter().zip(file(&left)) {
            results[i] = result;
        }
        return results;
    }
    // `     3 00000000 83C005                  add ax, strict byte 5`
    for line in std::fs::read_to_string(&listing).expect("nasm's listing").lines() {
        let mut words = line.split_whitespace();
        let (Some(number), Some(_), Some(bytes)) = (words.next().and_then(|n| n.parse::<usize>().ok()), words.next(), words.next()) else { continue };
        if number < 3 || bytes.is_empty() || bytes.len() % 2 != 0 || !bytes.bytes().all(|b| b.is_ascii_hexdigit()) {
            continue;
        }
        let taken = (0..bytes.len() / 2).map(|i| u8::from_str_radix(&bytes[2 * i..2 * i + 2], 16).unwrap());
        if let Ok(into) = &mut results[number - 3] {
            into.extend(taken);
        }
    }
    for end in ["asm", "lst", "img", "err"] {
        let _ = std::fs::remove_file(path(end));
    }
    results
}
