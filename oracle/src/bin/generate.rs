fn main() -> std::process::ExitCode {
    spindlecove_oracle::generate_main()
}
