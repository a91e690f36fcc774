//! The program of the peer's reduce job: a named file, else standard input, to
//! standard output.

fn main() -> std::io::Result<()> {
    peer::files::run_one(peer::Program::Reduce)
}
