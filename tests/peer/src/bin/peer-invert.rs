//! The program of the peer's invert job: a named file, else standard input, to
//! standard output.

fn main() -> std::io::Result<()> {
    peer::files::run_one(peer::Program::Invert)
}
