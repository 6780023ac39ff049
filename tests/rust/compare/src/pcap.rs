//! Captures for tshark, in the format of libpcap, and what tshark shows of them.

/// Writes a capture of packets of a link type, one in each second; true where it is written.
pub fn write(file: &str, link_type: u32, packets: impl Iterator<Item = Vec<u8>>) -> bool {
    let head: [u32; 6] = [0xA1B2_C3D4, 0x0004_0002, 0, 0, 262_144, link_type];
    let mut out: Vec<u8> = head.iter().flat_map(|n| n.to_le_bytes()).collect();
    for (i, packet) in packets.enumerate() {
        let n = packet.len() as u32;
        out.extend([i as u32, 0, n, n].iter().flat_map(|n| n.to_le_bytes()));
        out.extend(packet);
    }
    match std::fs::write(file, out) {
        Ok(()) => true,
        Err(e) => {
            eprintln!("{file}: {e}");
            false
        }
    }
}

/// A number that tshark shows.
pub fn number(text: &str) -> Option<u64> {
    match text.strip_prefix("0x") {
        Some(digits) => u64::from_str_radix(digits, 16).ok(),
        None => text.parse().ok(),
    }
}
