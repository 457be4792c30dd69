fn main() -> std::process::ExitCode {
    spindlecove_oracle::compare_main()
}
