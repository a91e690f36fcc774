//! The program of the peer's map job: a named file, else standard input, to
//! standard output.

fn main() -> std::io::Result<()> {
    peer::files::run_one(peer::Program::Map)
}
