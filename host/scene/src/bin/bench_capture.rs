//! bench_capture SEED FILE: writes the bench capture of a seed as P6. examples/bench.ppm has seed 1.
use std::io::Write;

fn main() -> std::io::Result<()> {
    let args: Vec<String> = std::env::args().collect();
    let [_, seed, path] = &args[..] else {
        eprintln!("usage: bench_capture SEED FILE");
        std::process::exit(2);
    };
    let Ok(seed) = seed.parse() else {
        eprintln!("bench_capture: {seed} is not a seed");
        std::process::exit(2);
    };
    let scene = scene::bench(seed);
    let mut file = std::fs::File::create(path)?;
    write!(file, "P6\n{} {}\n255\n", scene.w, scene.h)?;
    file.write_all(&scene.take())
}
