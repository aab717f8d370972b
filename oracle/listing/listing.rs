// The listing by the Rust's own packet reader: what our program is compared with.
use std::io::{Read, Write};
use vrf_net::packet::RawPacketReader;

fn flag(on: bool, letter: char) -> char {
    if on { letter } else { '-' }
}

fn main() {
    let mut log = Vec::new();
    std::io::stdin().lock().read_to_end(&mut log).unwrap();
    let mut out = std::io::BufWriter::with_capacity(1 << 16, std::io::stdout().lock());
    let mut reader = RawPacketReader::new();
    let mut end = match log.first() {
        None => Some("X 0".to_string()),
        Some(1) => None,
        Some(b) => Some(format!("V {b}")),
    };
    let mut at = 1;
    while end.is_none() && at < log.len() {
        let whole = log.get(at..at + 6).and_then(|h| {
            let n = usize::from(u16::from_be_bytes([h[0], h[1]]));
            let id = i32::from_be_bytes([h[2], h[3], h[4], h[5]]);
            log.get(at + 6..at + 6 + n).map(|p| (id, p))
        });
        let Some((id, packet)) = whole else {
            end = Some(format!("X {at}"));
            break;
        };
        let r = reader.read_packet(packet, id, |h, _| {
            let state = if h.has_channel_limit_error {
                'L'
            } else if h.has_partial_error {
                'E'
            } else {
                flag(h.is_partial_completed, 'K')
            };
            writeln!(
                out,
                "B {} {} {} {}{}{}{} {} {} {}",
                h.packet_id, h.ch_index, h.ch_sequence, flag(h.b_reliable, 'R'), flag(h.b_partial, 'P'),
                flag(h.b_partial_initial, 'I'), flag(h.b_partial_final, 'F'), h.payload_bit_count, h.payload_bit_offset, state
            )
            .unwrap();
        });
        writeln!(out, "P {} {} {} {} {}", id, r.bunch_count, u8::from(r.is_malformed), r.partial_error_count, r.channel_limit_count).unwrap();
        at += 6 + packet.len();
    }
    if let Some(line) = end {
        writeln!(out, "{line}").unwrap();
        out.flush().unwrap();
        eprintln!("the listing ended early: {line}");
    }
}
