//! Keeps a node out of one domain alone: profile W with an EXRS by which AS 64497
//! isn't entered through 192.0.2.12. Prints the include list that says so, what
//! it excludes for each domain, and the paths that are left; then why a list is
//! refused in which no domain follows the EXRS. Run from the top of the
//! repository.

use yachayniq::{read_exrs, write_exrs, Excluded, Profile, Request, Stop};

fn main() -> Result<(), Box<dyn std::error::Error>> {
    let profile = Profile::new(std::fs::read("examples/w.dsp")?)?;
    let exrs = write_exrs(&[Excluded::node("192.0.2.12".parse()?).demanded()])?;
    // AS 64496, 64497 and 64498 are the domains 0, 1 and 2.
    let mut stops = [0, 1, 2].map(Stop::new);
    stops[1].exrs = exrs;
    let list = profile.write_list(&stops)?;
    println!("{}", words(&list).join(" "));
    for stop in profile.read_include(0, &list)? {
        for exclusion in read_exrs(&stop.exrs)? {
            if let Excluded::Nodes { address, prefix } = exclusion.what {
                println!("domain {} without {address}/{prefix}", stop.domain);
            }
        }
    }
    // The whole list, then AS 64496 and the EXRS.
    for include in [&list[..], &list[..20]] {
        let request = Request {
            include,
            bandwidth: 100.0,
            ..Request::new("192.0.2.1".parse()?, "192.0.2.99".parse()?)
        };
        match profile.paths(&request) {
            Ok(paths) => paths.for_each(|path| {
                path.addresses.iter().for_each(|node| print!("{node} "));
                println!("total {}", path.total);
            }),
            Err(refusal) => println!("{refusal}"),
        }
    }
    Ok(())
}

fn words(list: &[u8]) -> Vec<String> {
    let word = |bytes: &[u8]| bytes.iter().map(|byte| format!("{byte:02X}")).collect();
    list.chunks(4).map(word).collect()
}
