//! cases ARRAY TABLE ..: judges each pair of files and writes a line for it: the table's name and the verdict.

fn read(path: &str) -> Vec<u8> {
    std::fs::read(path).unwrap_or_default()
}

fn main() {
    let names: Vec<String> = std::env::args().skip(1).collect();
    for pair in names.chunks_exact(2) {
        print!("{} {}", pair[1], plain::programs::judge_text(&read(&pair[0]), &read(&pair[1])));
    }
}
