//! Prints whether a file has a request that creates a vxlan with the VNI 10: `cargo run --example vni FILE`.

use linkcap::Options;

const NLM_F_CREATE: u16 = 0x400;

fn main() -> Result<(), Box<dyn std::error::Error>> {
    let capture = std::fs::read(std::env::args_os().nth(1).ok_or("a file is missing")?)?;
    let vni = "IFLA_LINKINFO > IFLA_INFO_DATA > IFLA_VXLAN_ID";
    let all = Options::new().only("newlink").attributes(&capture)?.collect::<Result<Vec<_>, _>>()?;
    println!("{}", all.iter().any(|a| a.path == vni && a.value == "10" && a.message.flags & NLM_F_CREATE != 0));
    Ok(())
}
