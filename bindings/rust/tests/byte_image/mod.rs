//! Images of one-byte pieces, made by hand, whatever their lives.

fn list(locations: &[[u64; 3]]) -> Vec<u8> {
    [&[locations.len() as u64], locations.as_flattened()].concat().iter().flat_map(|n| n.to_le_bytes()).collect()
}

/// The image of these bytes at these locations, at most eight bytes in the order of their arrival: a root and a node for each. The
/// locations of one byte are taken as they stand; the root's are sorted, where they are not those of one byte alone.
pub fn byte_image(bytes: &[(u8, &[[u64; 3]])]) -> Vec<u8> {
    let mut all = bytes.iter().flat_map(|b| b.1).copied().collect::<Vec<_>>();
    if bytes.len() > 1 {
        all.sort_unstable();
        all.dedup();
    }
    let none = list(&[]);
    let mut image = [vec![3], none.clone(), none.clone(), list(&all), (bytes.len() as u64).to_le_bytes().to_vec()].concat();
    let mut offset = image.len() + 9 * bytes.len();
    for (byte, locations) in bytes {
        image.push(*byte);
        image.extend((offset as u64).to_le_bytes());
        offset += 34 + 24 * locations.len();
    }
    for (_, locations) in bytes {
        image.extend([&[1, 3], &none[..], &list(locations), &none, &[0; 8]].concat());
    }
    image
}
