//! Normalises a request that netlink-packet-route emits, and shows it.

use netlink_packet_route::link::nlas::{Info, InfoKind, Nla};
use netlink_packet_route::{LinkMessage, NetlinkHeader, NetlinkMessage, NetlinkPayload, RtnlMessage, NLM_F_CREATE, NLM_F_REQUEST};

/// Returns a request for a dummy link of this name.
fn make_request(name: &str) -> Vec<u8> {
    let mut message = LinkMessage::default();
    message.nlas.push(Nla::IfName(name.to_string()));
    message.nlas.push(Nla::Mtu(1450));
    message.nlas.push(Nla::Info(vec![Info::Kind(InfoKind::Dummy)]));
    let mut packet = NetlinkMessage {
        header: NetlinkHeader { flags: NLM_F_REQUEST | NLM_F_CREATE, sequence_number: 1, ..Default::default() },
        payload: NetlinkPayload::from(RtnlMessage::NewLink(message)),
    };
    packet.finalize();
    let mut bytes = vec![0; packet.header.length as usize];
    packet.serialize(&mut bytes);
    bytes
}

fn main() -> Result<(), Box<dyn std::error::Error>> {
    let capture = make_request("d0");
    let text = linkcap::normalize(&capture)?;
    assert!(linkcap::same(&capture, &text)?);
    print!("{}", linkcap::lines(&capture)?);
    Ok(())
}

#[cfg(test)]
mod tests {
    use super::make_request;

    #[test]
    fn request_of_a_dummy() {
        linkcap::golden(make_request("d0"), "tests/dummy.lines");
    }
}
