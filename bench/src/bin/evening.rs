fn main() -> std::io::Result<()> {
    twin::program::main(twin::program::Program::Evening)
}
