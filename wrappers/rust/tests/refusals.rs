//! What a refusal says in one line: one of each kind of call, where the same
//! number means different things among them.

mod common;

use common::*;
use std::fmt::Debug;
use yachayniq::{
    check_profile, read_pcrep, read_pcreq, write_pcrep, write_pcreq, Metric, Pcrep, Pcreq, Refusal,
    Request,
};

#[track_caller]
fn says<T: Debug>(result: Result<T, Refusal>, expected: &str) {
    let refusal = result.unwrap_err();
    assert_eq!(refusal.to_string(), format!("refused: number {expected}"));
    assert!(expected.ends_with(refusal.meaning()));
}

#[test]
fn of_profiles_and_lists() {
    says(
        check_profile(&W[..11]),
        "10, place 0: profile under 12 bytes",
    );
    let mut wrong = W.to_vec();
    wrong[78] = 3; // record 3 is now from 192.0.3.1
    let pool = "16, place 3: AS or a node's address outside the reserved ranges in class 0, \
        or inside them in class 1 (place: record, from 0, domain records first)";
    says(check_profile(&wrong), pool);
    let kind = "24, place 0: subobject's type not 1 (IPv4), 5 or 32 (AS), 6 (OSPF area), \
        7 (IS-IS area) or, outside an EXRS, 33 (EXRS) (place: offset in the include list)";
    says(w().read_include(0, &[34, 4, 0, 0]), kind);
    let left = "42, place 4: an EXRS with no new domain after it \
        (place: offset in the include list)";
    let list = [32, 4, 0xFB, 0xF1, 33, 8, 0, 0, 32, 4, 0, 9];
    says(w().read_include(0, &list), left);
    let written = w().write_list(&[]).unwrap_err().to_string();
    assert!(written.starts_with("refused: number 35, place 0: not a sequence that can be written"));
}

#[test]
fn of_requests() {
    let request = request();
    let refused = |request: Request, expected: &str| {
        says(w().tree(&request), expected);
        says(w().first(&request), expected);
        says(w().next(&request, &EVERY[0]), expected);
        says(w().paths(&request), expected);
    };
    let include = &[5, 8, 0, 0, 0, 0, 0xFB, 0xF1, 5, 8, 0, 0, 0, 0, 0xFB, 0xF0];
    let back = "30, place 8: a domain of the sequence that was left comes back \
        (place: offset in the include list)";
    refused(Request { include, ..request }, back);
    let ingress = 3;
    let outside = "20, place 0: ingress not below the profile's domain count";
    refused(Request { ingress, ..request }, outside);
    let list = &[0; 1025];
    let include = Request {
        include: list,
        ..request
    };
    refused(include, "22, place 0: include list over 1,024 bytes");
    let exclude = Request {
        exclude: list,
        ..request
    };
    refused(exclude, "22, place 1: exclude list over 1,024 bytes");
    let range = "out of range: negative, -0.0, infinite or not a number";
    let bound = Some(-1.0);
    let bounded = Request { bound, ..request };
    refused(bounded, &format!("21, place 1: bound {range}"));
    let bandwidth = -1.0;
    let wide = Request {
        bandwidth,
        ..bounded
    };
    refused(wide, &format!("21, place 0: bandwidth {range}"));
    let length = "33, place 0: given list has more or fewer addresses than a path";
    says(w().next(&request, &EVERY[0][1..]), length);
}

#[test]
fn of_messages() {
    let reply = pcrep(&[RP, ENDS]);
    let header = "36, place 0: header of the message wrong: under 4 bytes, version not 1, \
        type not 3 (PCReq), or a length that is not the message's or no multiple of 4";
    says(read_pcreq(&reply), header);
    says(w().pcreq_tree(0, &reply), header);
    says(w().pcreq_first(0, &reply), header);
    says(w().pcreq_next(0, &reply, &EVERY[0]), header);
    says(w().pcreq_paths(0, &reply), header);
    let object = "38, place 16: object of another class or type, with P set \
        (place: offset in the message)";
    says(read_pcrep(&reply), object);
    let hop = "24, place 0: subobject's type not 1 (IPv4) (place: offset in the ERO's body)";
    says(read_pcrep(&pcrep(&[RP, "07100008 20040000"])), hop);
    let range = "out of range: negative, -0.0, infinite or not a number";
    let metric = format!("21, place 1: value of a METRIC {range}");
    says(
        read_pcreq(&pcreq(&[RP, ENDS, "0610000C 00000102 80000000"])),
        &metric,
    );
    let bandwidth = format!("21, place 0: BANDWIDTH {range}");
    says(
        read_pcreq(&pcreq(&[RP, ENDS, "05120008 7F800000"])),
        &bandwidth,
    );

    let unwritten = "37, place 0: not a message that can be written: over 65,535 bytes, or";
    let asked = Pcreq {
        exclude: &[0; 5],
        ..Pcreq::of(7, &request())
    };
    let list = format!("{unwritten} a list whose length is no multiple of 4");
    says(write_pcreq(&asked), &list);
    let reply = Pcrep {
        metrics: vec![Metric::new(2, 2, 1.0); 6000],
        ..Pcrep::none(&asked)
    };
    let metrics = format!("{unwritten} METRIC lists that differ in length");
    says(write_pcrep(&reply), &metrics);
}
