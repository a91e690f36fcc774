//! The program of the peer's join job: two named files to standard output.

fn main() -> std::io::Result<()> {
    peer::files::run_two(peer::files::Pairing::Join)
}
