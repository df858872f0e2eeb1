//! The command `vorruda`, which `make install` installs. `vorruda --help` tells what it does.

use std::env;
use std::process::ExitCode;

use vorruda_host::command;

fn main() -> ExitCode {
    let given = env::args_os().skip(1);
    let given: Vec<String> = given
        .map(|word| word.to_string_lossy().into_owned())
        .collect();
    command::run(&given)
}
