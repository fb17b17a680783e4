//! The calls of libketvaulo.a, as `include/ketvaulo.h` declares them. A slice is a pointer and then a length.
//!
//! Each is safe to call when every pointer may be read (or, for `out`, written) for its length, or the length is 0.

/// `refusal` is 0 where the call is accepted; `value` is then what it returns. On a refusal it is the place that this carries, or 0.
#[repr(C)]
#[derive(Clone, Copy, Debug, PartialEq)]
pub struct Outcome {
    pub refusal: u32,
    pub value: u64,
}

/// The first round's answer; `ask` is 0 for Carry On and 1 for Ask.
#[repr(C)]
#[derive(Clone, Copy, Debug, Default, PartialEq)]
pub struct FirstRound {
    pub refusal: u32,
    pub ask: u32,
    pub value: u32,
    pub position: u32,
}

/// What reading an area answers; `at` is the place that a refusal carries.
#[repr(C)]
#[derive(Clone, Copy, Debug, Default, PartialEq)]
pub struct Area {
    pub refusal: u32,
    pub offers: u32,
    pub at: u64,
    pub name_at: u64,
    pub name_len: u64,
    pub same_name: u32,
}

/// What reading a Key attribute answers.
#[repr(C)]
#[derive(Clone, Copy, Debug, Default, PartialEq)]
pub struct KeyAttribute {
    pub refusal: u32,
    pub app_id: u32,
    pub lifetime: u32,
    pub key_len: u32,
    pub kind: u8,
    pub kek_id: [u8; 16],
    pub key_id: [u8; 16],
}

/// What comparing two bundles answers: how many entries of each kind were written.
#[repr(C)]
#[derive(Clone, Copy, Debug, Default, PartialEq)]
pub struct Comparison {
    pub refusal: u32,
    pub only_first: u32,
    pub changed: u32,
    pub only_second: u32,
}

/// The name of a key.
#[repr(C)]
#[derive(Clone, Copy, Debug, Default, PartialEq)]
pub struct Name {
    pub bytes: [u8; 8],
}

/// Slots for live keys: a bit for each that is taken, the names, and the parents.
#[repr(C)]
#[derive(Clone, Copy, Debug, PartialEq)]
pub struct Slots {
    pub taken: u64,
    pub names: [Name; 64],
    pub parents: [u8; 64],
}

/// What a put and a drop answer: the slots after the call are in it.
#[repr(C)]
#[derive(Clone, Copy, Debug, PartialEq)]
pub struct SlotsOutcome {
    pub refusal: u32,
    pub value: u64,
    pub slots: Slots,
}

extern "C" {
    pub fn kv_sha256(message: *const u8, message_len: usize, out: *mut u8, out_len: usize) -> Outcome;

    pub fn kv_hmac_sha256(
        key: *const u8,
        key_len: usize,
        message: *const u8,
        message_len: usize,
        out: *mut u8,
        out_len: usize,
    ) -> Outcome;

    pub fn kv_aka_keys(
        ck: *const u8,
        ck_len: usize,
        ik: *const u8,
        ik_len: usize,
        name: *const u8,
        name_len: usize,
        sqn_xor_ak: *const u8,
        sqn_xor_ak_len: usize,
        identity: *const u8,
        identity_len: usize,
        out: *mut u8,
        out_len: usize,
    ) -> Outcome;

    pub fn kv_usage_key(
        emsk: *const u8,
        emsk_len: usize,
        label: *const u8,
        label_len: usize,
        data: *const u8,
        data_len: usize,
        n: u64,
        out: *mut u8,
        out_len: usize,
    ) -> Outcome;

    pub fn kv_visited_root_key(emsk: *const u8, emsk_len: usize, out: *mut u8, out_len: usize) -> Outcome;

    pub fn kv_visited_master_key(
        vrk: *const u8,
        vrk_len: usize,
        server_id: *const u8,
        server_id_len: usize,
        domain: *const u8,
        domain_len: usize,
        out: *mut u8,
        out_len: usize,
    ) -> Outcome;

    pub fn kv_visited_reauth_key(vmsk: *const u8, vmsk_len: usize, out: *mut u8, out_len: usize) -> Outcome;

    pub fn kv_domain_root_key(
        emsk: *const u8,
        emsk_len: usize,
        domain: *const u8,
        domain_len: usize,
        out: *mut u8,
        out_len: usize,
    ) -> Outcome;

    pub fn kv_domain_reauth_key(dsrk: *const u8, dsrk_len: usize, out: *mut u8, out_len: usize) -> Outcome;

    pub fn kv_key_name(
        session_id: *const u8,
        session_id_len: usize,
        label: *const u8,
        label_len: usize,
        out: *mut u8,
        out_len: usize,
    ) -> Outcome;

    pub fn kv_r0_key(
        rrk: *const u8,
        rrk_len: usize,
        ad_id: *const u8,
        ad_id_len: usize,
        spa: *const u8,
        spa_len: usize,
        out: *mut u8,
        out_len: usize,
    ) -> Outcome;

    pub fn kv_r1_key(
        r0_key: *const u8,
        r0_key_len: usize,
        ad_id: *const u8,
        ad_id_len: usize,
        an_id: *const u8,
        an_id_len: usize,
        spa: *const u8,
        spa_len: usize,
        out: *mut u8,
        out_len: usize,
    ) -> Outcome;

    pub fn kv_r0_name(
        r0_key: *const u8,
        r0_key_len: usize,
        ad_id: *const u8,
        ad_id_len: usize,
        spa: *const u8,
        spa_len: usize,
        out: *mut u8,
        out_len: usize,
    ) -> Outcome;

    pub fn kv_choose_offer(
        offers: *const u16,
        offers_len: usize,
        supported: *const u16,
        supported_len: usize,
    ) -> FirstRound;

    pub fn kv_answer_offer(offers: *const u16, offers_len: usize, reply: u16, out: *mut u16, out_len: usize)
        -> Outcome;

    pub fn kv_check_renewed(
        original: *const u16,
        original_len: usize,
        choice: u16,
        renewed: *const u16,
        renewed_len: usize,
    ) -> Outcome;

    pub fn kv_read_area(
        area: *const u8,
        area_len: usize,
        own_name: *const u8,
        own_name_len: usize,
        out: *mut u16,
        out_len: usize,
    ) -> Area;

    pub fn kv_read_area_lenient(
        area: *const u8,
        area_len: usize,
        own_name: *const u8,
        own_name_len: usize,
        out: *mut u16,
        out_len: usize,
    ) -> Area;

    pub fn kv_write_key_attribute(
        kind: u8,
        app_id: u32,
        kek_id: *const u8,
        kek_id_len: usize,
        key_id: *const u8,
        key_id_len: usize,
        lifetime: u32,
        kek: *const u8,
        kek_len: usize,
        key: *const u8,
        key_len: usize,
        out: *mut u8,
        out_len: usize,
    ) -> Outcome;

    pub fn kv_read_key_attribute(
        kek: *const u8,
        kek_len: usize,
        attribute: *const u8,
        attribute_len: usize,
        out: *mut u8,
        out_len: usize,
    ) -> KeyAttribute;

    pub fn kv_sign_packet(
        mac_key: *const u8,
        mac_key_len: usize,
        kind: u8,
        packet: *mut u8,
        packet_len: usize,
    ) -> Outcome;

    pub fn kv_check_packet(
        mac_key: *const u8,
        mac_key_len: usize,
        kind: u8,
        packet: *const u8,
        packet_len: usize,
    ) -> Outcome;

    pub fn kv_write_bundle(attributes: *const u8, attributes_len: usize, out: *mut u8, out_len: usize) -> Outcome;

    pub fn kv_read_bundle(file: *const u8, file_len: usize, out: *mut u8, out_len: usize) -> Outcome;

    pub fn kv_compare_bundles(
        first: *const u8,
        first_len: usize,
        second: *const u8,
        second_len: usize,
        out: *mut u8,
        out_len: usize,
    ) -> Comparison;

    pub fn kv_put_slot(slots: Slots, name: Name, parent: u64) -> SlotsOutcome;

    pub fn kv_drop_slot(slots: Slots, number: u64) -> SlotsOutcome;

    pub fn kv_live_slots(slots: Slots) -> u32;
}
