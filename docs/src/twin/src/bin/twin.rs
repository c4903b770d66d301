//! The twin's program.

fn main() -> std::io::Result<()> {
    twin::program::run()
}
