//! The program of the peer's slip job: three named files to standard output.

fn main() -> std::io::Result<()> {
    peer::files::run_three()
}
