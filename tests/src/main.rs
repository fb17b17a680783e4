//! The second program: compares each call of libketvaulo.a with an answer written from the papers.
//!
//! SHA-256, HMAC and key wrapping are OpenSSL's; everything above them (`model`) is this program's own reading of
//! documents 01 and 02. `cases` has the inputs, `guard` the lent buffers, of which every byte is compared after each call.
//! The last line is `N passed, M failed`; the exit status is 0 only if none failed.

// a library that does not have every call yet leaves parts unused
#![cfg_attr(not(every_call), allow(dead_code, unused_imports))]

mod bytes;
mod call;
mod cases;
mod ffi;
mod guard;
mod model;
mod openssl;
mod pairs;
mod rng;

use call::Group;
use std::process::ExitCode;

/// What passed and what failed so far.
#[derive(Default)]
struct Total {
    passed: u64,
    failed: u64,
}

impl Total {
    fn run(&mut self, name: &'static str, comparisons: fn(&mut Group)) {
        let mut group = Group::new(name);
        comparisons(&mut group);
        let (passed, failed) = group.finish();
        self.passed += passed;
        self.failed += failed;
    }
}

/// Runs each group whose calls the archive exports.
macro_rules! run_exported {
    ($total:ident: $([$($call:literal),*] $name:literal => $comparisons:path;)*) => {
        $(
            #[cfg(all($(exported = $call),*))]
            $total.run($name, $comparisons);
        )*
    };
}

fn main() -> ExitCode {
    let mut total = Total::default();
    tell_apart();
    total.run("names in archive and header", cases::exports::run);
    total.run("the model on the paper's cases", cases::paper::run);
    run_exported! { total:
        ["kv_sha256"] "FIPS 180-4 vectors" => cases::published::fips_180;
        ["kv_hmac_sha256"] "RFC 4231 vectors" => cases::published::rfc_4231;
        ["kv_write_key_attribute"] "RFC 3394 vector" => cases::published::rfc_3394;
        ["kv_sha256"] "kv_sha256" => cases::hash::sha256;
        ["kv_hmac_sha256"] "kv_hmac_sha256" => cases::hash::hmac_sha256;
        ["kv_aka_keys"] "RFC 5448 vectors" => cases::published::rfc_5448;
        ["kv_aka_keys"] "kv_aka_keys" => cases::aka::run;
        ["kv_usage_key"] "kv_usage_key" => cases::usage::run;
        ["kv_visited_root_key"] "kv_visited_root_key" => cases::visited::root_keys;
        ["kv_visited_master_key"] "kv_visited_master_key" => cases::visited::master_keys;
        ["kv_visited_reauth_key"] "kv_visited_reauth_key" => cases::visited::reauth_keys;
        ["kv_domain_root_key", "kv_usage_key"] "kv_domain_root_key" => cases::domain::root_keys;
        ["kv_domain_reauth_key"] "kv_domain_reauth_key" => cases::domain::reauth_keys;
        ["kv_key_name"] "kv_key_name" => cases::key_name::run;
        ["kv_r0_key"] "kv_r0_key" => cases::handover::r0_keys;
        ["kv_r1_key"] "kv_r1_key" => cases::handover::r1_keys;
        ["kv_r0_name"] "kv_r0_name" => cases::handover::r0_names;
        ["kv_r0_key", "kv_r1_key", "kv_r0_name"] "handovers" => cases::handover::handovers;
        ["kv_choose_offer"] "kv_choose_offer" => cases::offers::choose;
        ["kv_answer_offer"] "kv_answer_offer" => cases::offers::answer;
        ["kv_check_renewed"] "kv_check_renewed" => cases::offers::recheck;
        ["kv_choose_offer", "kv_answer_offer", "kv_check_renewed"] "logins whose list or reply may be altered"
            => cases::offers::logins;
        ["kv_read_area", "kv_read_area_lenient"] "kv_read_area and kv_read_area_lenient" => cases::area::run;
        ["kv_write_key_attribute"] "kv_write_key_attribute" => cases::key_attribute::write;
        ["kv_read_key_attribute"] "kv_read_key_attribute" => cases::key_attribute::read;
        ["kv_write_key_attribute", "kv_read_key_attribute"] "key attributes, there and back"
            => cases::key_attribute::round_trips;
        ["kv_sign_packet", "kv_check_packet"] "kv_sign_packet" => cases::packet::sign;
        ["kv_sign_packet", "kv_check_packet"] "kv_check_packet" => cases::packet::check;
        ["kv_write_bundle"] "kv_write_bundle" => cases::bundle::write;
        ["kv_read_bundle"] "kv_read_bundle" => cases::bundle::read;
        ["kv_write_bundle", "kv_read_bundle"] "bundles, there and back" => cases::bundle::round_trips;
        ["kv_compare_bundles"] "kv_compare_bundles" => cases::compare::run;
        ["kv_put_slot"] "kv_put_slot" => cases::slots::put;
        ["kv_drop_slot"] "kv_drop_slot" => cases::slots::drop;
        ["kv_live_slots"] "kv_live_slots" => cases::slots::live;
        ["kv_put_slot", "kv_drop_slot", "kv_live_slots"] "slots, call after call" => cases::slots::walks;
    }
    println!("{} passed, {} failed", total.passed, total.failed);
    if total.failed == 0 {
        ExitCode::SUCCESS
    } else {
        ExitCode::FAILURE
    }
}

/// Prints the pairs of refusals that are not tried together, because no input makes both hold.
fn tell_apart() {
    let lists = [
        ("kv_usage_key", cases::usage::APART),
        ("kv_answer_offer, kv_check_renewed", cases::offers::APART),
        ("kv_read_area, kv_read_area_lenient", cases::area::APART),
        ("kv_read_key_attribute", cases::key_attribute::APART),
        ("kv_sign_packet, kv_check_packet", cases::packet::APART),
        ("kv_write_bundle", cases::bundle::WRITE_APART),
        ("kv_read_bundle", cases::bundle::READ_APART),
        ("kv_put_slot", cases::slots::APART),
    ];
    println!("pairs of refusals that cannot hold together (all others are tried):");
    for (calls, pairs) in lists {
        for (first, second, why) in pairs {
            println!("  {calls}: {first} and {second}, {why}");
        }
    }
}
