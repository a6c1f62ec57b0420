//! Where the figures come from: the machine, and the versions of what was built.

use std::env::consts::{ARCH, OS};
use std::fs::read_to_string;
use std::thread::available_parallelism;

/// Prints both. What can't be found is `unknown`. No name of a host or of a user is
/// printed, and no path.
pub fn print() {
    println!("processor  {}, {} cores", processor(), cores());
    println!("system     {OS} {}, {ARCH}", kernel());
    println!("rustc      {}", env!("RUSTC_VERSION").trim_start_matches("rustc "));
    println!("rt         {}", env!("RT_VERSION"));
}

fn processor() -> String {
    let told = read_to_string("/proc/cpuinfo").unwrap_or_default();
    let name = told.lines().find_map(|line| line.strip_prefix("model name")?.split_once(':'));
    name.map_or("unknown", |(_, name)| name.trim()).to_string()
}

fn cores() -> String {
    available_parallelism().map_or_else(|_| String::from("unknown"), |cores| cores.to_string())
}

fn kernel() -> String {
    let told = read_to_string("/proc/sys/kernel/osrelease");
    told.map_or_else(|_| String::from("unknown"), |release| release.trim().to_string())
}
