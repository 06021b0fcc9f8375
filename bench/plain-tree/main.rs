//! A plain loop over the bytes of a certificate of bench/certificate-trees.sh: reads a file, makes the list
//! of the nodes of the evade tree that begins at a place, and writes the file again. Prints how many nodes
//! the tree has and whether the same bytes came out.
use std::{env, fs};

enum Node {
    Open,
    Close,
    Fork(u16, u16),
}

fn main() {
    let args: Vec<String> = env::args().collect();
    let bytes = fs::read(&args[1]).unwrap();
    let begin: usize = args[2].parse().unwrap();
    let mut nodes = Vec::new();
    let mut at = begin;
    let mut wanted: u128 = 1;
    while wanted > 0 {
        wanted -= 1;
        match bytes[at] {
            0 => nodes.push(Node::Open),
            1 => nodes.push(Node::Close),
            _ => {
                let image = u16::from_be_bytes([bytes[at + 1], bytes[at + 2]]);
                let kids = u16::from_be_bytes([bytes[at + 3], bytes[at + 4]]);
                wanted += u128::from(kids);
                nodes.push(Node::Fork(image, kids));
                at += 4;
            }
        }
        at += 1;
    }
    let mut again = bytes[..begin].to_vec();
    for node in &nodes {
        match node {
            Node::Open => again.push(0),
            Node::Close => again.push(1),
            Node::Fork(image, kids) => {
                again.push(2);
                again.extend(image.to_be_bytes());
                again.extend(kids.to_be_bytes());
            }
        }
    }
    again.extend(&bytes[at..]);
    println!("{} nodes, {}", nodes.len(), if again == bytes { "the same" } else { "other bytes" });
}
