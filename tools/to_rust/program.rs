use crate::*;
use crate::shim::{Global, Vec, String};
pub static FILLS: std::sync::atomic::AtomicUsize = std::sync::atomic::AtomicUsize::new(0);
struct Files;
impl carp_outside::Shelf for Files {
    fn look(&mut self, name: &str, at: u64, buffer: &mut [u8]) -> Result<usize, carp_outside::ShelfFault> {
        let bytes = std::fs::read(name).map_err(|_| carp_outside::ShelfFault)?;
        let rest = &bytes[(at as usize).min(bytes.len())..];
        let n = rest.len().min(buffer.len());
        buffer[..n].copy_from_slice(&rest[..n]);
        Ok(n)
    }
    fn keep(&mut self, name: &str, bytes: &[u8]) -> Result<(), carp_outside::ShelfFault> {
        std::fs::write(name, bytes).map_err(|_| carp_outside::ShelfFault)
    }
}
struct Out;
impl carp_outside::Sink for Out {
    fn put(&mut self, piece: &[u8]) -> Result<usize, carp_outside::SinkFault> {
        use std::io::Write;
        std::io::stdout().write_all(piece).map_err(|_| carp_outside::SinkFault)?;
        Ok(piece.len())
    }
}
pub fn main() {
    let a = Global;
    let mut words: Vec<String> = Vec::new(a);
    for word in std::env::args().skip(1) { words.push(String(word)).ok(); }
    let mut helpers: Vec<Box<dyn plan_model::Proposer>> = Vec::new(a);
    helpers.push(Box::new(path_scanning::Scanner::new(1))).ok();
    helpers.push(Box::new(augment_merge::Merger::new(2))).ok();
    helpers.push(Box::new(giant_split::Splitter::new(3))).ok();
    helpers.push(Box::new(local_moves::Mover::new(4))).ok();
    let mut advisers: Vec<Box<dyn leaf_adviser::Adviser>> = Vec::new(a);
    advisers.push(Box::new(shore_prices::ShoreAdviser)).ok();
    advisers.push(Box::new(price_ascent::AscentAdviser)).ok();
    advisers.push(Box::new(leaf_programs::LeafPrograms::new(a))).ok();
    let status = carp_cli::run_with(a, &words, &mut Files, &mut Out, &mut helpers, &mut advisers, &mut progress::Silent);
    crate::shim::list_reached();
    std::process::exit(status.code() as i32);
}
