fn main() {
    spindlecove_oracle::load_main();
}
