fn main() -> std::process::ExitCode {
    spindlecove_oracle::oracle_main()
}
