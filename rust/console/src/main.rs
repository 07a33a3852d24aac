// SPDX-License-Identifier: Apache-2.0
// SPDX-FileCopyrightText: Copyright the Vortex contributors

//! The program `console`.

fn main() -> std::process::ExitCode {
    vortex_logical_types_console::run(std::env::args_os()).into()
}
