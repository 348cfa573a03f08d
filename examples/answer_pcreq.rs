//! Answers PCReqs on profile W: with a PCRep for each shortest path, with one
//! that says that there is none, and with why a message is refused. Run from
//! the top of the repository.

use yachayniq::{read_pcreq, write_pcrep, write_pcreq, Pcrep, Pcreq, Profile, Refusal, Request};

fn main() -> Result<(), Box<dyn std::error::Error>> {
    let profile = Profile::new(std::fs::read("examples/w.dsp")?)?;
    let request = Request {
        include: &[32, 4, 0xFB, 0xF1, 32, 4, 0xFB, 0xF2], // AS 64497, AS 64498
        bandwidth: 100.0,
        ..Request::new("192.0.2.1".parse()?, "192.0.2.99".parse()?)
    };
    let asked = write_pcreq(&Pcreq::of(7, &request))?;
    let bound = Some(13.0);
    let bounded = write_pcreq(&Pcreq::of(7, &Request { bound, ..request }))?;
    let mut unknown = asked.clone();
    unknown[17] = 0x22; // END-POINTS of type 2, with P set
    for message in [asked, bounded, unknown] {
        if let Err(refusal) = answer(&profile, &message) {
            println!("{refusal}");
        }
    }
    Ok(())
}

fn answer(profile: &Profile, message: &[u8]) -> Result<(), Refusal> {
    let asked = read_pcreq(message)?;
    let mut paths = profile.pcreq_paths(0, message)?.peekable();
    if paths.peek().is_none() {
        print(&write_pcrep(&Pcrep::none(&asked))?);
    }
    for path in paths {
        print(&write_pcrep(&Pcrep::of(&asked, &path))?);
    }
    Ok(())
}

fn print(message: &[u8]) {
    let word = |bytes: &[u8]| bytes.iter().map(|byte| format!("{byte:02X}")).collect();
    let words: Vec<String> = message.chunks(4).map(word).collect();
    println!("{}", words.join(" "));
}
