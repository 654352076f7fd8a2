//! What of the originals runs by itself: `peers collector` prints a round's rows, `peers script` answers a script.
fn main() -> std::io::Result<()> {
    match std::env::args().nth(1).as_deref() {
        #[cfg(feature = "epoch")]
        Some("collector") => bench::collector::round(),
        #[cfg(feature = "original")]
        Some("script") => bench::script::answer()?,
        other => panic!("{other:?} is not here, or was left out"),
    }
    Ok(())
}
