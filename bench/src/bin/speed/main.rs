//! Measures the proved side and the plain one side by side, and prints ratios.

mod clock;
mod fills;
mod pipes;

fn main() -> std::io::Result<()> {
    fills::compare();
    pipes::compare()?;
    println!(
        "compared: Aisle's proved libraries and its program serve, and a plain implementation of the same documents, \
         by turns on this machine; each figure is the median of seven rounds"
    );
    Ok(())
}
