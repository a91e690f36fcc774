//! The program of the peer's compare job: two named files to standard output.

fn main() -> std::io::Result<()> {
    peer::files::run_two(peer::files::Pairing::Compare)
}
