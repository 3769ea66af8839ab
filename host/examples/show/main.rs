//! show FILE: prints an Ion 1.0 binary file as Ion text. At bytes that do not read it prints what it has, and then on standard error why
//! and where; the exit status is 1.
use std::env;
use std::fs;
use std::io::{self, BufWriter, Write};
use std::process::ExitCode;

mod text;

fn main() -> ExitCode {
    let files: Vec<_> = env::args_os().skip(1).collect();
    let [file] = &files[..] else {
        eprintln!("usage: show FILE");
        return ExitCode::from(2);
    };
    let name = file.to_string_lossy();
    let stream = match fs::read(file) {
        Ok(stream) => stream,
        Err(why) => {
            eprintln!("{name}: {why}");
            return ExitCode::from(2);
        }
    };
    let mut out = BufWriter::new(io::stdout().lock());
    let printed = text::print(&mut out, &stream).and_then(|read| out.flush().map(|()| read));
    match printed {
        Ok(Ok(())) => ExitCode::SUCCESS,
        Ok(Err(refused)) => {
            eprintln!("{name}: {}: {refused}", refused.refusal.number());
            ExitCode::FAILURE
        }
        // whoever reads has seen enough
        Err(why) if why.kind() == io::ErrorKind::BrokenPipe => ExitCode::SUCCESS,
        Err(why) => {
            eprintln!("{name}: {why}");
            ExitCode::from(2)
        }
    }
}
