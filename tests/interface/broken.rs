//! broken FILE..: examples/profile.rs for each file in turn, in one process. After what it says of a file comes its status.
#[allow(dead_code)]
#[path = "../../examples/profile.rs"]
mod profile;

fn main() {
    for file in std::env::args_os().skip(1) {
        let name = file.to_string_lossy().into_owned();
        println!("{name}: status {}", profile::run(&[file]));
    }
}
