// Searches one leaf for the rows that have the word reply, and prints their docids.
//
//     rustc --edition 2024 -o search examples/search.rs -L target/staticlib -l static=fts4box
//
// Edition 2021 takes it as well, from rustc 1.82 on.

unsafe extern "C" {
    fn fts4_search(
        names: *const u8, names_len: usize, name_ends: *const u32, name_ends_len: usize,
        leaves: *const u8, leaves_len: usize, leaf_ends: *const u32, leaf_ends_len: usize,
        levels: *const u32, levels_len: usize, indexes: *const u32, indexes_len: usize,
        query: *const u8, query_len: usize, room: *mut i64, room_len: usize, second: *mut u64,
    ) -> u32;
}

/// The docids listed, or the answer's number and the number beside it; `ages` are the leaves' levels and indexes. The types keep
/// what the header asks of a caller: a slice has its elements, and a `&mut` overlaps nothing.
fn search<'a>(
    names: (&[u8], &[u32]), leaves: (&[u8], &[u32]), ages: (&[u32], &[u32]), query: &[u8], room: &'a mut [i64],
) -> Result<&'a [i64], (u32, u64)> {
    let mut second = 0;
    let answer = unsafe {
        fts4_search(
            names.0.as_ptr(), names.0.len(), names.1.as_ptr(), names.1.len(),
            leaves.0.as_ptr(), leaves.0.len(), leaves.1.as_ptr(), leaves.1.len(),
            ages.0.as_ptr(), ages.0.len(), ages.1.as_ptr(), ages.1.len(),
            query.as_ptr(), query.len(), room.as_mut_ptr(), room.len(), &mut second,
        )
    };
    if answer == 0 { Ok(&room[..second as usize]) } else { Err((answer, second)) }
}

fn main() {
    // the leaf of one row: docid 7, node "n12", sent "probe", outcome "reply reply"
    let leaf = b"\x00\x03n12\x03\x07\x02\x00\x00\x05probe\x05\x07\x01\x01\x02\x00\x00\x05reply\x06\x07\x01\x02\x02\x03\x00";
    let mut room = [0i64; 16];
    // several byte strings are one slice, with the place where each ends; with one leaf its age says nothing
    match search((b"nodesentoutcome", &[4, 8, 15]), (leaf, &[leaf.len() as u32]), (&[0], &[0]), b"reply", &mut room) {
        Ok(docids) => {
            println!("docs {}", docids.len());
            docids.iter().for_each(|docid| println!("{docid}"));
        }
        Err((answer, second)) => {
            println!("refused {answer} {second}");
            std::process::exit(1);
        }
    }
}
