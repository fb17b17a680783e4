/* Ketvaulo: the key library of a yard radio controller.
 *
 * Link with libketvaulo.a, which needs nothing but memcpy, memmove and memset. tools/install makes it for x86-64 Linux, and
 * tools/controller for Cortex-M0+, M3, M4, M7 and M33 and for RISC-V (rv32imac); docs/CONTROLLER.md says how it is placed, and
 * what each call costs there in stack and time. The header is the same everywhere.
 *
 * What it is for, and in which order the calls are made
 *
 * The EMSK. A login with EAP-AKA' begins with CK and IK of the handheld's SIM. kv_aka_keys makes K_encr, K_aut, K_re, MSK and
 * EMSK of these, the network name and the identity. Other logins give the EMSK themselves.
 *
 * Keys. After a login, the controller and the server share one secret, the EMSK. From it the controller derives the key
 * under which each siding reports (kv_usage_key). For a handheld that visits another domain it derives two keys:
 * kv_domain_root_key under the EMSK, and kv_domain_reauth_key under that key. The first is never derived from the same bytes
 * for two domains. For a peer that only knows draft-dondeti-eap-vkh-00 it derives three keys instead, each under the one
 * before: kv_visited_root_key under the EMSK, kv_visited_master_key under that key, and kv_visited_reauth_key under that one.
 * kv_key_name makes a public name for a key. All of these are made of kv_sha256 and kv_hmac_sha256.
 *
 * Handover keys. A handheld that moves from one access node to another does not log in again. The server and the handheld hold
 * the rRK, a usage key of 64 bytes. For each access domain the server derives an R0-Key (kv_r0_key) and gives it to that
 * domain's controller, with its name (kv_r0_name). The controller derives an R1-Key for each of its access nodes (kv_r1_key)
 * and gives it to that node. The handheld derives the same keys itself, and so shares a key with each node that it meets.
 *
 * Offers. A login negotiates which key derivation function it uses. The peer is the side that logs in, and the server is the
 * side that it logs in to. So a controller is the peer at its own login, and makes the calls of steps 2 and 4. The call of
 * step 3 is the server's; a controller makes it only where it serves the logins of others.
 *   1. The server sends its offers.
 *   2. The peer reads them off the message (kv_read_area) and picks one (kv_choose_offer). If it picks the first offer,
 *      the negotiation is over. Otherwise it sends its pick as a reply.
 *   3. The server makes the renewed list (kv_answer_offer) and sends it.
 *   4. The peer reads that list (kv_read_area) and checks that it is the one that its own choice asks for
 *      (kv_check_renewed). This is RFC 5448's protection against bidding down.
 *
 * What a login may rely on. If the peer asked in step 2 and accepts in step 4, and the renewed list came from the server
 * whole, then the peer had seen the server's own list, its own reply had arrived, and both sides hold the first offer of the
 * server's list that the peer supports. So nobody on the way took an offer out, put one in, moved one, or swapped the reply.
 * If nothing was altered, the peer does accept. This is proved for every list and reply. Three things are the caller's: to
 * lend to kv_check_renewed the list and the choice of step 2, to check the MAC of the message that carries the renewed list
 * (AT_MAC), and to end the login on a refusal. A login that ended in step 2 with the first offer is not covered: there only
 * the MAC of the message protects the list. docs/NEGOTIATION.md has an example.
 *
 * Key attributes. A key travels to a neighbour wrapped in a RADIUS Key attribute: the sender calls kv_write_key_attribute,
 * the receiver calls kv_read_key_attribute, and both hold the same KEK. The unwrapping protects the key alone, so a key is
 * delivered safely in this order. The sender writes the Key attribute into a RADIUS packet that has a place for a
 * Message-Authentication-Code, and signs the packet last (kv_sign_packet). The receiver checks the packet first
 * (kv_check_packet), and reads the Key attribute only if that was accepted. Then App ID, IDs and lifetime are the sender's.
 *
 * Bundles. When a box moves, its Key attributes travel in one file, a bundle: kv_write_bundle makes it of the attributes packed
 * end to end, and kv_read_bundle gives them back so. Before the box goes out, kv_compare_bundles lists what changed against
 * an earlier bundle. No KEK is wanted for any of these.
 *
 * Slots. A controller keeps the names of its live keys in 64 slots, each below the key that it was derived from. The slots
 * are a value of the caller's: kv_put_slot and kv_drop_slot take them and return those after the call. When a key expires, a
 * drop of its slot takes everything that was derived from it.
 *
 * One key, one call
 *
 * Under one EMSK no two of these give the same bytes to HMAC: usage keys that differ in label, data or length, the VRK, and the
 * root keys of different domains (the theorems Separated and DomainsApart). Under one rRK or R0-Key no two handover keys with
 * different identifiers do (R0Apart, R1Apart, NeverShared). These are not kept apart, and are the caller's to keep apart:
 * - One key as an EMSK and as a MAC key: a packet can be made up whose MAC is a usage key. Use a key for one purpose alone.
 * - A usage key of 64 bytes without data whose label is KV_VRK_LABEL is the VRK, and with KV_RRK_LABEL it is the rRK of
 *   RFC 5296 under the EMSK. Whoever may choose the label gets these. Choose labels yourself. (KV_DSRK_LABEL is refused.)
 * - Names: Session-ID "sess1" with label "gate" and "sess" with "1gate" have one name. Give Session-IDs one length. Two slots
 *   may hold one name, and the number of a dropped slot is given out again.
 * - A MAC that was made for one attribute type is accepted for another, where both attributes stand in the packet and the
 *   bytes are moved. Check a packet under one type number, and never under a second.
 * - HMAC keys of up to 64 bytes that differ only in zeros at their end are one key. Give keys one length.
 * - A wrapped key shows whether it is the same as another under that KEK: wrapping adds nothing random.
 *
 * Conventions
 *
 * - A slice is a pointer and then its length. The pointer is aligned for its type, and the length counts values of that
 *   type. A slice of length 0 may have a null pointer.
 * - `out` is the slice that a call writes, always from its start. It must not overlap an input of the same call. Inputs may
 *   overlap each other, and no call alters one. kv_sign_packet has no `out`: it writes the MAC's 32 bytes of `packet`, which
 *   must not overlap the key.
 * - Every input has an answer. A call gives only the refusals that its comment lists. If several hold, it gives the
 *   first of them.
 * - A refused call alters no byte of `out`, nor of the `packet` that kv_sign_packet is lent. An accepted call returns 0 as
 *   its refusal and alters only the bytes that it says it writes.
 * - No call keeps a pointer, allocates memory, blocks, or has a state. Calls may run at the same time where none writes a
 *   buffer that another uses. The same call with the same input gives the same answer.
 * - Every answer has to be looked at. A compiler that can do so warns where one is ignored.
 * - The stack that a call takes is bounded, and does not grow with its input. docs/CONTROLLER.md has the bytes of each call,
 *   which are measured and not proved. Its time grows with its input: the largest usage key holds a core of 120 MHz for
 *   about a quarter of a second, by an estimate from its instructions.
 *
 * What is proved
 *
 * For every input, every call is proved to end, to do nothing undefined, to give the answer that is said here, and to leave
 * in every slice that it writes what is said here. A proof speaks of what a call is lent and of what it leaves when it
 * returns. What this header says of the time in between is so by the code, and no proof says it: that no byte of a key is
 * written before its unwrapping was found right, that all 32 bytes of a MAC are compared whatever they hold, that nothing is
 * computed on a refusal. The sizes that are "always enough" are tested. These are not proved either:
 *
 * - The compiler's back end, which makes machine code of the proved program through LLVM, and the linker.
 * - The C code that calls the library, and the C library's memcpy, memmove and memset.
 * - On a core with 32 bits, the C functions by which the calls reach the proved program: they are compared with x86-64.
 * - What a call lets be known of a secret by its time. It is tested: no branch depends on a secret but the verdicts 28 and 38,
 *   and no address but those of AES's look-ups, which can show in the cache of a processor that has one.
 * - What a call leaves on the stack and in registers. No call wipes its stack: ketvaulo_wipe.h has functions that do.
 * - That SHA-1, SHA-256, HMAC and AES are secure. The proofs say that the library computes them as the standards define them.
 *
 * The proofs were checked with the Rattle kit whose KIT-ID is "rattle-kit-13f logic dac8208d650f15bf".
 *
 * Sources
 *
 * Document 01 is the customer's paper "Keys, offers and key attributes on the yard controller"; the refusal numbers 1 to
 * 28 are its own. Document 02 is "The next customer requests". Where a draft and a published standard differ, document 01
 * says which of them decides. It builds on these drafts, which it calls source documents:
 *
 *   000  draft-salowey-eap-emsk-deriv-00, "Specification for the Derivation of Usage Specific Root Keys (USRK) from an
 *        Extended Master Session Key (EMSK)"; it became RFC 5295
 *   001  draft-dondeti-eap-vkh-00, "EAP Keying and Re-authentication in Visited Domains"
 *   002  draft-arkko-eap-aka-kdf-00, "Improved Extensible Authentication Protocol Method for 3rd Generation
 *        Authentication and Key Agreement (EAP-AKA')"; it became RFC 5448
 *   003  draft-cao-hoakey-hierarchical-hokey-00, "Handover Key Hierarchy based on Extended Master Session Key (EMSK)
 *        Derivation"; only document 02 uses it
 *   004  draft-zorn-radius-keywrap-03, "RADIUS Attributes for Key Delivery"
 *
 * The standards are FIPS 180-4 (SHA-1, SHA-256), FIPS 197 (AES), RFC 2104 (HMAC), RFC 3394 (AES key wrap), RFC 4306 (prf+),
 * RFC 5295, RFC 5296 and RFC 5448.
 */
#ifndef KETVAULO_H
#define KETVAULO_H

#include <stddef.h>
#include <stdint.h>

/* The version of this interface. CHANGELOG.md says what changed for a caller. */
#define KV_VERSION "2.0.3"
#define KV_VERSION_MAJOR 2
#define KV_VERSION_MINOR 0
#define KV_VERSION_PATCH 3

/* Sizes and limits. Lengths are in bytes, counts in values. */
#define KV_DIGEST_LEN 32          /* what kv_sha256 and kv_hmac_sha256 write */
#define KV_ROOT_KEY_MIN 64        /* an EMSK, VRK, VMSK or MAC key */
#define KV_ROOT_KEY_MAX 128
#define KV_AKA_KEY_LEN 16         /* a CK, an IK */
#define KV_SQN_LEN 6              /* SQN xor AK */
#define KV_NETWORK_NAME_MAX 1016  /* a network name, which may also be empty */
#define KV_IDENTITY_MAX 255
#define KV_AKA_KEYS_LEN 208       /* what kv_aka_keys writes: five keys, from these places on */
#define KV_AKA_K_ENCR_AT 0        /* K_encr, 16 bytes */
#define KV_AKA_K_AUT_AT 16        /* K_aut, 32 bytes */
#define KV_AKA_K_RE_AT 48         /* K_re, 32 bytes */
#define KV_AKA_MSK_AT 80          /* MSK, 64 bytes */
#define KV_AKA_EMSK_AT 144        /* EMSK, 64 bytes */
#define KV_LABEL_MAX 255          /* with an at-sign */
#define KV_LABEL_PLAIN_MAX 64     /* without one */
#define KV_DATA_MAX 2048          /* the optional data of a usage key */
#define KV_USAGE_KEY_MAX 8160     /* the longest usage key */
#define KV_VISITED_KEY_LEN 64     /* a VRK, VMSK or V-rRK that is written */
#define KV_DOMAIN_KEY_LEN 64      /* the root key of a domain, and the re-authentication root key under it */
#define KV_SERVER_ID_MAX 255
#define KV_DOMAIN_MAX 253
#define KV_SESSION_ID_MAX 255
#define KV_KEY_NAME_LEN 8
#define KV_RRK_LEN 64             /* an rRK that is lent */
#define KV_HANDOVER_KEY_LEN 32    /* an R0-Key or R1-Key */
#define KV_HANDOVER_ID_LEN 16     /* an AD-ID or AN-ID */
#define KV_SPA_LEN 6              /* the link layer address of a handheld */
#define KV_R0_NAME_LEN 16
#define KV_OFFERS_MAX 16          /* offers of a server */
#define KV_OFFERS_ROOM 17         /* room for the offers of any area, and for any renewed list */
#define KV_KEK_LEN 16
#define KV_ID_LEN 16              /* a KEK ID, a Key ID */
#define KV_WRAPPED_KEY_MIN 16     /* a key to wrap, a multiple of 8 */
#define KV_WRAPPED_KEY_MAX 192
#define KV_KEY_ATTRIBUTE_MORE 60  /* a Key attribute is so much longer than its key */
#define KV_KEY_ATTRIBUTE_MAX 252
#define KV_PACKET_MIN 20          /* a RADIUS packet */
#define KV_PACKET_MAX 4096
#define KV_MAC_ATTRIBUTE_LEN 52   /* a Message-Authentication-Code attribute; its MAC stands from byte 20 on */
#define KV_MAC_LEN 32
#define KV_BUNDLE_KEYS_MAX 64     /* attributes of a bundle */
#define KV_BUNDLE_MAX 17410       /* the largest bundle */
#define KV_BUNDLE_BODIES_MAX 16128 /* room for the attributes of any bundle, packed end to end */
#define KV_CHANGE_LEN 17          /* an entry that kv_compare_bundles writes: its kind, one of the next three, and the Key ID */
#define KV_ONLY_FIRST 1           /* the Key ID stands in the first bundle alone */
#define KV_CHANGED 2              /* it stands in both, and the attributes differ */
#define KV_ONLY_SECOND 3          /* it stands in the second bundle alone */
#define KV_CHANGES_MAX 2176       /* room for the entries of any two bundles */
#define KV_SLOTS 64               /* slots for live keys, numbered from 0 */
#define KV_NO_PARENT (~(uint64_t)0) /* the parent of a root, as kv_put_slot takes it */

/* The fixed labels, as texts of C: the length of one is its sizeof less 1. */
#define KV_VRK_LABEL "EAP Visited domain Root Key"
#define KV_V_RRK_LABEL "EAP Re-authentication Root Key"
#define KV_DSRK_LABEL "dsrk@ietf.org"
#define KV_RRK_LABEL "EAP Re-authentication Root Key@ietf.org"

/* For the declarations below: a warning where an answer is ignored, and an error where a struct is not laid out as in the
 * library. */
#if defined(__cplusplus) && __cplusplus >= 201703L
#define KV_USE_RESULT [[nodiscard]]
#elif defined(__GNUC__)
#define KV_USE_RESULT __attribute__((warn_unused_result))
#else
#define KV_USE_RESULT
#endif
#if defined(__cplusplus) && __cplusplus >= 201103L
#define KV_LAYOUT(condition) static_assert(condition, "not the library's layout")
#elif !defined(__cplusplus) && defined(__STDC_VERSION__) && __STDC_VERSION__ >= 201112L
#define KV_LAYOUT(condition) _Static_assert(condition, "not the library's layout")
#else
#define KV_LAYOUT(condition) extern char kv_layout[(condition) ? 1 : -1]
#endif

#ifdef __cplusplus
extern "C" {
#endif

/* The refusals by name. The comment at each call says in which order they are tested there. ketvaulo_text.h has these words as
 * texts. */
enum {
    KV_ACCEPTED = 0,

    /* document 01 */
    KV_ROOT_KEY_LENGTH = 1,         /* root key (EMSK, VRK, VMSK) or MAC key not 64 to 128 bytes, or the parent of a domain's
                                       rRK not 64 */
    KV_LABEL_LENGTH = 2,            /* label not 1 to 255 bytes */
    KV_LABEL_BYTE = 3,              /* a label byte outside 32 to 126 */
    KV_DATA_LENGTH = 4,             /* optional data over 2,048 bytes */
    KV_KEY_LENGTH = 5,              /* key length not 1 to 8,160 */
    KV_ROOM = 6,                    /* output buffer too short */
    KV_SERVER_ID = 7,               /* server ID not 1 to 255 bytes, or a byte of it outside 33 to 126 */
    KV_DOMAIN = 8,                  /* domain not 1 to 253 bytes, or a byte not a letter, digit, hyphen or dot */
    KV_SESSION_ID = 9,              /* Session-ID not 1 to 255 bytes */
    KV_OFFER_COUNT = 10,            /* offers not 1 to 16 (1 to 17 when reading an area) */
    KV_REPEATED_OFFER = 11,         /* an offer value occurs twice */
    KV_NO_OFFER_SUPPORTED = 12,     /* no offer is supported */
    KV_REPLY_IS_FIRST = 13,         /* reply (on renewal, the choice) equals the first offer */
    KV_REPLY_NOT_OFFERED = 14,      /* reply (on renewal, the choice) is not among the offers */
    KV_RENEWED_LIST = 15,           /* renewed list is not the choice followed by the original */
    KV_ATTRIBUTE_BOUNDS = 16,       /* attribute without a length byte, of length 0, or past the area's end */
    KV_KDF_LENGTH = 17,             /* AT_KDF whose length is not 1 */
    KV_KDF_INPUT = 18,              /* AT_KDF_INPUT whose length disagrees with its name length */
    KV_NETWORK_NAME = 19,           /* AT_KDF_INPUT missing or repeated */
    KV_ATTRIBUTE_TYPE = 20,         /* attribute type 0 */
    KV_ID_LENGTH = 21,              /* KEK ID or Key ID not 16 bytes */
    KV_KEK_LENGTH = 22,             /* KEK not 16 bytes */
    KV_KEY_TO_WRAP_LENGTH = 23,     /* key to wrap not a multiple of 8 from 16 to 192 bytes */
    KV_KEY_ATTRIBUTE_LENGTH = 24,   /* Key attribute of wrong length */
    KV_RESERVED_BYTE = 25,          /* reserved byte not zero */
    KV_ENC_TYPE = 26,               /* Enc Type not 0 */
    KV_IV_FIELD = 27,               /* IV field not eight bytes A6 */
    KV_INTEGRITY = 28,              /* unwrapping does not yield the initial value A6 (eight times) */

    /* document 02 */
    KV_KDF_INPUT_PADDING = 29,      /* AT_KDF_INPUT whose padding is not zero */
    KV_NETWORK_NAME_DIFFERS = 30,   /* a differing network name, where the caller does not ask for lenient reading */
    KV_DOMAIN_LABEL = 31,           /* a usage request under the EMSK with the label of the domain root key */
    KV_LABEL_SYNTAX = 32,           /* a label with a space, a comma, a second at-sign or one first or last; or over 64 bytes
                                       without an at-sign */
    KV_HANDOVER_KEY_LENGTH = 33,    /* rRK not 64 or R0-Key not 32 bytes */
    KV_IDENTIFIER_LENGTH = 34,      /* an identifier of wrong length */
    KV_PACKET_LENGTH = 35,          /* packet not 20 to 4,096 bytes, or of a length unlike its header */
    KV_PACKET_ATTRIBUTE_BOUNDS = 36, /* any attribute of the packet shorter than 2 or past the end */
    KV_MAC_ATTRIBUTE = 37,          /* MAC attribute absent, repeated, not 52 long, reserved not zero, or another MAC Type */
    KV_MAC_DIFFERS = 38,            /* MAC differs */
    KV_BUNDLE_COUNT = 39,           /* bundle under two bytes, or of a count not 1 to 64 */
    KV_BUNDLE_CONTENTS = 40,        /* contents cut short, or an offset that is not the previous end */
    KV_BUNDLE_END = 41,             /* a file not ending with the last body */
    KV_REPEATED_KEY_ID = 42,        /* repeated Key ID */
    KV_AKA_INPUT_LENGTH = 43,       /* CK, IK or SQN of wrong length */
    KV_NETWORK_NAME_LENGTH = 44,    /* network name over 1,016 bytes */
    KV_IDENTITY_LENGTH = 45,        /* identity not 1 to 255 bytes */
    KV_SLOTS_FULL = 46,             /* all 64 slots are taken */
    KV_NO_SUCH_SLOT = 47,           /* no such live slot */
    KV_PARENT_NOT_LIVE = 48,        /* parent not live */
    KV_TOO_DEEP = 49,               /* too deep: from the parent, no root within two steps through live slots */
    KV_KEY_ID_UNLIKE_CONTENTS = 50  /* a Key ID unlike its line of the contents */
};

/* What most calls return. An accepted call has `refusal` 0 and, as `value`, the count of what it wrote. (kv_check_renewed
 * writes nothing; its `value` is the choice.) A refused call has its number as `refusal`. Its `value` is the place of the
 * fault where the comment at the call says that the refusal carries one, and else 0. */
typedef struct {
    uint32_t refusal;
    uint64_t value;
} kv_outcome;
KV_LAYOUT(sizeof(kv_outcome) == 16 && offsetof(kv_outcome, value) == 8);

/* The SHA-256 digest of a message (FIPS 180-4). The message may have any length. Writes 32 bytes and returns 32.
 * Refusals: 6 `out` has fewer than 32 bytes. */
KV_USE_RESULT kv_outcome kv_sha256(const uint8_t *message, size_t message_len, uint8_t *out, size_t out_len);

/* The HMAC-SHA-256 of a message under a key (RFC 2104). Key and message may have any length. Writes 32 bytes and returns
 * 32.
 * Refusals: 6 `out` has fewer than 32 bytes. */
KV_USE_RESULT kv_outcome kv_hmac_sha256(const uint8_t *key, size_t key_len, const uint8_t *message,
                                        size_t message_len, uint8_t *out, size_t out_len);

/* The keys below are made by prf+ (RFC 4306, section 2.13) with HMAC-SHA-256, from a key K and a text S. T1 is the MAC
 * under K of S and the byte 1. Each later Ti is the MAC under K of T(i-1), S and the byte i. The derived key is as many
 * bytes as are asked for, from the start of T1, T2 and so on. */

/* The keys of a login with EAP-AKA' (3GPP TS 33.402, Annex A.2, and RFC 5448, section 3.3), from CK and IK of a SIM, 16 bytes
 * each. CK' and IK' are the halves of the HMAC-SHA-256 under CK then IK of the byte 20 hex, the network name, its length in two
 * bytes, SQN xor AK, and 00 06. The 208 bytes are prf+ where K is IK' then CK' and S is "EAP-AKA'" and then the identity:
 * K_encr (16), K_aut (32), K_re (32), MSK (64) and EMSK (64), at the places KV_AKA_K_ENCR_AT and on. `sqn_xor_ak` is the
 * first 6 bytes of AUTN. The network name is that of AT_KDF_INPUT (see kv_read_area), and may be empty here; failing the login
 * for an empty one, as RFC 5448 has the peer do, is the caller's act. Every call under an EMSK takes this EMSK. Nothing is
 * computed on a refusal. Writes 208 bytes and returns 208.
 * Refusals, in this order: 43 CK or IK not 16 bytes, or SQN xor AK not 6; 44 network name over 1,016 bytes; 45 identity not 1
 * to 255 bytes; 6 `out` has fewer than 208 bytes. */
KV_USE_RESULT kv_outcome kv_aka_keys(const uint8_t *ck, size_t ck_len, const uint8_t *ik, size_t ik_len, const uint8_t *name,
                                     size_t name_len, const uint8_t *sqn_xor_ak, size_t sqn_xor_ak_len,
                                     const uint8_t *identity, size_t identity_len, uint8_t *out, size_t out_len);

/* The usage key of a label and optional data under an EMSK (RFC 5295): n bytes of prf+. K is the EMSK. S is the label,
 * one zero byte, the data, and n as two bytes, high byte first. n counts bytes. No data is data of length 0. Requests
 * under one EMSK that differ in label, data or n never give the same bytes to HMAC. Writes n bytes and returns n.
 * Refusals, in this order: 1 EMSK not 64 to 128 bytes; 2 label not 1 to 255 bytes; 3 a label byte outside 32 to 126, with
 * the position of the first such byte, counted from 0, as `value`; 32 the label breaches the syntax of a label (below); 31
 * the label is KV_DSRK_LABEL, for which kv_domain_root_key is the call; 4 data over 2,048 bytes; 5 n not 1 to 8,160; 6 `out`
 * has fewer than n bytes.
 *
 * The syntax of a label, here and in kv_key_name: no space and no comma; at most one at-sign, which stands neither first nor
 * last; and at most 64 bytes where there is no at-sign. With one it may have up to 255. Exempt are KV_VRK_LABEL, KV_V_RRK_LABEL
 * and KV_RRK_LABEL as whole labels. */
KV_USE_RESULT kv_outcome kv_usage_key(const uint8_t *emsk, size_t emsk_len, const uint8_t *label, size_t label_len,
                                      const uint8_t *data, size_t data_len, uint64_t n, uint8_t *out, size_t out_len);

/* The visited-domain keys of a handheld (draft-dondeti-eap-vkh-00): the VRK under the EMSK, a VMSK for a server and its
 * domain under the VRK, and the V-rRK under a VMSK. Each call writes 64 bytes and returns 64. They are for peers that know
 * only this draft. Two pairs of server ID and domain can join to the same bytes there; the keys of a domain, below, have no
 * such pairs. */

/* The VRK: the usage key of the label KV_VRK_LABEL, "EAP Visited domain Root Key", with no data and n = 64.
 * Refusals, in this order: 1 EMSK not 64 to 128 bytes; 6 `out` has fewer than 64 bytes. */
KV_USE_RESULT kv_outcome kv_visited_root_key(const uint8_t *emsk, size_t emsk_len, uint8_t *out, size_t out_len);

/* The VMSK: prf+ where K is the VRK and S is the server ID and then the domain, with no length. Within one domain, each
 * server ID has an S of its own. Across domains, two pairs of server ID and domain that join to the same bytes have the
 * same VMSK. So give out no server ID that can run into a domain.
 * Refusals, in this order: 1 VRK not 64 to 128 bytes; 7 server ID not 1 to 255 bytes, or a byte of it outside 33 to 126;
 * 8 domain not 1 to 253 bytes, or a byte not an ASCII letter, digit, hyphen or dot; 6 `out` has fewer than 64 bytes. */
KV_USE_RESULT kv_outcome kv_visited_master_key(const uint8_t *vrk, size_t vrk_len, const uint8_t *server_id,
                                               size_t server_id_len, const uint8_t *domain, size_t domain_len,
                                               uint8_t *out, size_t out_len);

/* The V-rRK: prf+ where K is the VMSK and S is KV_V_RRK_LABEL, "EAP Re-authentication Root Key", with no length.
 * Refusals, in this order: 1 VMSK not 64 to 128 bytes; 6 `out` has fewer than 64 bytes. */
KV_USE_RESULT kv_outcome kv_visited_reauth_key(const uint8_t *vmsk, size_t vmsk_len, uint8_t *out, size_t out_len);

/* The keys of a domain: the root key of a domain under the EMSK (RFC 5295, section 4, where it is called DSRK), and the
 * re-authentication root key under that (RFC 5296, section 4.1, where it is called rRK). Each call writes 64 bytes and returns
 * 64. Use these where the peer knows them: unlike a VMSK, the root key of a domain is never derived from the same bytes as
 * that of another domain, nor as any usage key or VRK under the same EMSK. */

/* The root key of a domain: prf+ where K is the EMSK and S is KV_DSRK_LABEL, "dsrk@ietf.org", one zero byte, the domain, and
 * 64 as two bytes, high byte first.
 * Refusals, in this order: 1 EMSK not 64 to 128 bytes; 8 domain not 1 to 253 bytes, or a byte not an ASCII letter, digit,
 * hyphen or dot; 6 `out` has fewer than 64 bytes. */
KV_USE_RESULT kv_outcome kv_domain_root_key(const uint8_t *emsk, size_t emsk_len, const uint8_t *domain,
                                            size_t domain_len, uint8_t *out, size_t out_len);

/* The re-authentication root key: prf+ where K is the root key of a domain and S is KV_RRK_LABEL, "EAP Re-authentication Root
 * Key@ietf.org", one zero byte, and 64 as two bytes, high byte first.
 * Refusals, in this order: 1 the root key of the domain not 64 bytes; 6 `out` has fewer than 64 bytes. */
KV_USE_RESULT kv_outcome kv_domain_reauth_key(const uint8_t *dsrk, size_t dsrk_len, uint8_t *out, size_t out_len);

/* A name of a key, which is no secret (draft-dondeti-eap-vkh-00): the first 8 bytes of SHA-256 over the Session-ID and
 * then the label. The Session-ID is that of the login whose EMSK the key is derived from. The label of a VRK's name is
 * KV_VRK_LABEL, and that of a VMSK's name is its server ID and then its domain; the draft names no V-rRK. A server ID and a
 * domain that kv_visited_master_key accepts can be refused here: by 32 where they have a comma, two at-signs, one first, or
 * over 64 bytes and no at-sign, and by 2 where they have over 255 bytes. Writes 8 bytes and returns 8.
 * Refusals, in this order: 9 Session-ID not 1 to 255 bytes; 2 label not 1 to 255 bytes; 3 a label byte outside 32 to 126,
 * with the position of the first such byte, counted from 0, as `value`; 32 the label breaches the syntax of a label, as for
 * kv_usage_key; 6 `out` has fewer than 8 bytes. */
KV_USE_RESULT kv_outcome kv_key_name(const uint8_t *session_id, size_t session_id_len, const uint8_t *label,
                                     size_t label_len, uint8_t *out, size_t out_len);

/* The handover keys of a handheld (draft-cao-hoakey-hierarchical-hokey-00). An rRK is a usage key of 64 bytes under the EMSK:
 * RFC 5296 gives it the label "EAP Re-authentication Root Key@ietf.org" and no data; the draft's section 4.1 has the data
 * "Roaming USRK Derivation" and a label that both ends agree on. The AD-ID names the access domain and has 16 bytes, the AN-ID
 * names the access node and has 16, the SPA is the handheld's link layer address and has 6.
 *
 * A key is the first 32 bytes of two MACs, one after the other. Each is the HMAC-SHA-1 under K of: the number 1 or 2 in two
 * bytes, low byte first; a label; one zero byte; the identifiers; 00 01, which is 256 in two bytes, low byte first. Requests
 * under one K that differ in any identifier never give the same bytes to HMAC, and an R0-Key and an R1-Key never do. */

/* The R0-Key of an access domain and a handheld, under an rRK: K is the first 32 bytes of the rRK, the label is
 * "R0 Key derivation", the identifiers are AD-ID and SPA. The server derives it for the domain's controller, and the handheld
 * for itself. Writes 32 bytes and returns 32.
 * Refusals, in this order: 33 rRK not 64 bytes; 34 AD-ID not 16 or SPA not 6 bytes; 6 `out` has fewer than 32 bytes. */
KV_USE_RESULT kv_outcome kv_r0_key(const uint8_t *rrk, size_t rrk_len, const uint8_t *ad_id, size_t ad_id_len,
                                   const uint8_t *spa, size_t spa_len, uint8_t *out, size_t out_len);

/* The R1-Key of an access node and a handheld, under the R0-Key of the node's domain: K is the R0-Key, the label is
 * "R1 Key derivation", the identifiers are AD-ID, AN-ID and SPA. The domain's controller derives it for the node, and the
 * handheld for itself. Writes 32 bytes and returns 32.
 * Refusals, in this order: 33 R0-Key not 32 bytes; 34 AD-ID or AN-ID not 16 or SPA not 6 bytes; 6 `out` has fewer than 32
 * bytes. */
KV_USE_RESULT kv_outcome kv_r1_key(const uint8_t *r0_key, size_t r0_key_len, const uint8_t *ad_id, size_t ad_id_len,
                                   const uint8_t *an_id, size_t an_id_len, const uint8_t *spa, size_t spa_len,
                                   uint8_t *out, size_t out_len);

/* The R0Name, which names an R0-Key and is no secret: the first 16 bytes of SHA-256 over the R0-Key, "R0 Key Name", AD-ID and
 * SPA. Writes 16 bytes and returns 16.
 * Refusals, in this order: 33 R0-Key not 32 bytes; 34 AD-ID not 16 or SPA not 6 bytes; 6 `out` has fewer than 16 bytes. */
KV_USE_RESULT kv_outcome kv_r0_name(const uint8_t *r0_key, size_t r0_key_len, const uint8_t *ad_id, size_t ad_id_len,
                                    const uint8_t *spa, size_t spa_len, uint8_t *out, size_t out_len);

/* What the peer's first round returns. `value` is the offer that is picked. `ask` is 0 for Carry On: this is the first
 * offer, and it is used. `ask` is 1 for Ask: the offer stands at `position`, counted from 0, and the peer has to ask the
 * server for it. `position` is 0 on Carry On. On a refusal every field but `refusal` is 0. */
typedef struct {
    uint32_t refusal, ask, value, position;
} kv_first_round;
KV_LAYOUT(sizeof(kv_first_round) == 16 && offsetof(kv_first_round, position) == 12);

/* The offers below are AT_KDF values (RFC 5448, section 3.2) as numbers of the machine, in the server's order of
 * preference. Value 0 is a value like any other. A server has 1 to 16 offers, so a renewed list has at most 17. */

/* The peer's first round: picks the first offer, in the server's order, that is in `supported`. That list may have any
 * length and order, and values may repeat in it. Writes nothing.
 * Refusals, in this order: 10 not 1 to 16 offers; 11 an offer value occurs twice; 12 no offer is supported. */
KV_USE_RESULT kv_first_round kv_choose_offer(const uint16_t *offers, size_t offers_len, const uint16_t *supported,
                                             size_t supported_len);

/* The server, on the peer's reply: accepts exactly a reply that is an offer after the first. Writes the reply and then
 * the entire list. Returns the new count of values, which is one more than the offers. Room for 17 is always enough.
 * Refusals, in this order: 10 not 1 to 16 offers; 11 an offer value occurs twice; 13 the reply is the first offer; 14 the
 * reply is not among the offers; 6 `out` has no room for one value more than the offers. */
KV_USE_RESULT kv_outcome kv_answer_offer(const uint16_t *offers, size_t offers_len, uint16_t reply, uint16_t *out,
                                         size_t out_len);

/* The peer, on the renewed list, which may have any length: accepts exactly the choice followed by the original list.
 * Writes nothing, and returns the choice as `value`.
 * Refusals, in this order: 10 the original has not 1 to 16 offers; 11 an offer value occurs twice in it; 13 the choice is
 * its first offer; 14 the choice is not among its offers; 15 the renewed list is not the choice followed by the original. */
KV_USE_RESULT kv_outcome kv_check_renewed(const uint16_t *original, size_t original_len, uint16_t choice,
                                          const uint16_t *renewed, size_t renewed_len);

/* What reading an attribute area returns: the count of the offers written, the name's offset from the area's first byte,
 * its length in bytes, and whether it agrees with the peer's own name (1) or not (0). On refusal 16 `at` is the offset of the
 * attribute that was met, from the area's first byte. Every other refusal, and acceptance, has `at` 0. On a refusal every
 * other field but `refusal` is 0. */
typedef struct {
    uint32_t refusal, offers;
    uint64_t at, name_at, name_len;
    uint32_t same_name;
} kv_area;
KV_LAYOUT(sizeof(kv_area) == 40 && offsetof(kv_area, at) == 8 && offsetof(kv_area, same_name) == 32);

/* Reads the offers and the network name of an attribute area (RFC 5448, sections 3.1 and 3.2), which may have any length.
 * AT_KDF is type 24, AT_KDF_INPUT is type 23, and an attribute's length counts words of four bytes. Writes the offers in
 * order, 1 to 17 of them.
 *
 * The network's name is compared with the peer's own by fields, as RFC 5448 has it: both are split at colons, the extra fields
 * of the longer are dropped, and the rest must be equal. "FOO" agrees with "FOO:BAR". An empty name is one empty field, so it
 * agrees with "" and with ":BAR", and not with "FOO:BAR".
 *
 * A name that differs is refused (30). kv_read_area_lenient reads the same and only reports it: what to do about it is then
 * the caller's decision. An accepted answer of kv_read_area has `same_name` 1.
 *
 * What is left to the caller:
 * - Attributes of every other type are stepped over, also of a type below 128. RFC 4187 has a peer refuse a message with
 *   an attribute below 128 that it does not know. That is the caller's act.
 * - A value may occur twice here; kv_choose_offer refuses that.
 * - An empty name is read like any other. Failing the login for it is the caller's act.
 *
 * Refusals: first 6 `out` has no room for 17 values. Then attribute by attribute: 16 no length byte, length 0, or past the
 * area's end, with the attribute's offset as `at`; 17 an AT_KDF whose length is not 1; 18 an AT_KDF_INPUT whose length
 * disagrees with its name length; 29 one whose padding is not zero; 19 a second AT_KDF_INPUT; 10 an eighteenth AT_KDF. At the
 * end: 19 no AT_KDF_INPUT; 10 no AT_KDF; 30 the name differs. */
KV_USE_RESULT kv_area kv_read_area(const uint8_t *area, size_t area_len, const uint8_t *own_name, size_t own_name_len,
                                   uint16_t *out, size_t out_len);

/* Reads an area as kv_read_area does, but a name that differs from the peer's own is only reported: `same_name` is then 0.
 * Refusals: as those of kv_read_area, without 30. */
KV_USE_RESULT kv_area kv_read_area_lenient(const uint8_t *area, size_t area_len, const uint8_t *own_name,
                                           size_t own_name_len, uint16_t *out, size_t out_len);

/* The RADIUS Key attribute (draft-zorn-radius-keywrap-03, section 3.1). Its key is wrapped under a KEK by RFC 3394 with
 * AES-128 (FIPS 197). By byte: 0 type, 1 length, 2 reserved (0), 3 Enc Type (0), 4 App ID, 8 KEK ID, 24 Key ID,
 * 40 lifetime in seconds, 44 IV (eight bytes A6), 52 the wrapped key, which is 8 bytes longer than the key. Numbers are
 * high byte first. The attribute is 60 bytes longer than its key: 252 bytes hold every attribute, and 192 every key.
 *
 * What is written reads back to the same fields and key under the same KEK. What is accepted, written again, is the same
 * bytes.
 *
 * The unwrapping authenticates the key alone. Type, App ID, both IDs and lifetime are not covered by it: whoever can alter
 * the packet can alter them, and the attribute is still accepted. Rely on them only where the whole packet is
 * authenticated, which kv_check_packet does. */

/* Writes the attribute that carries a key. Returns its length, which is 60 plus `key_len`.
 * Refusals, in this order: 20 type 0; 21 KEK ID or Key ID not 16 bytes; 22 KEK not 16 bytes; 23 key not a multiple of 8
 * from 16 to 192 bytes; 6 `out` has no room for the attribute. */
KV_USE_RESULT kv_outcome kv_write_key_attribute(uint8_t type, uint32_t app_id, const uint8_t *kek_id,
                                                size_t kek_id_len, const uint8_t *key_id, size_t key_id_len,
                                                uint32_t lifetime, const uint8_t *kek, size_t kek_len,
                                                const uint8_t *key, size_t key_len, uint8_t *out, size_t out_len);

/* What reading a Key attribute returns: its fields, and the length of the key written to `out`. On a refusal every field
 * but `refusal` is 0. */
typedef struct {
    uint32_t refusal, app_id, lifetime, key_len;
    uint8_t type, kek_id[16], key_id[16];
} kv_key_attribute;
KV_LAYOUT(sizeof(kv_key_attribute) == 52 && offsetof(kv_key_attribute, type) == 16 && offsetof(kv_key_attribute, key_id) == 33);

/* Reads an attribute of `attribute_len` bytes and writes its key, which is 60 bytes shorter. Writes no byte of the key
 * before the unwrapping has been found right.
 * Refusals, in this order: 22 KEK not 16 bytes; 24 fewer than 2 bytes, a length byte unequal to `attribute_len`, or a
 * length that is not 60 plus a multiple of 8 from 16 to 192; 20 type 0; 25 reserved byte not zero; 26 Enc Type not 0;
 * 27 IV field not eight bytes A6; 6 `out` has no room for the key; 28 the unwrapping does not yield the initial value. */
KV_USE_RESULT kv_key_attribute kv_read_key_attribute(const uint8_t *kek, size_t kek_len, const uint8_t *attribute,
                                                     size_t attribute_len, uint8_t *out, size_t out_len);

/* The Message-Authentication-Code attribute of a RADIUS packet (draft-zorn-radius-keywrap-03, section 3.3), of MAC Type 2,
 * HMAC-SHA-256. By byte: 0 type, which the caller gives, 1 length (52), 2 reserved (0), 3 MAC Type (2), 4 MAC Key ID (16),
 * 20 MAC (32). The MAC is the HMAC-SHA-256 under the MAC key of the whole packet as lent, its own 32 bytes read as zero.
 *
 * A packet is 20 to 4,096 bytes: 0 code, 1 identifier, 2 length, 4 authenticator (16), 20 attributes, each a type, a length
 * in bytes that counts these two, and a value. What is lent is the packet and nothing beyond it.
 *
 * What is left to the caller: to put in the authenticator that the section names for that kind of packet, before signing and
 * before checking; to choose the MAC key by the MAC Key ID, which no call looks at; to refuse a packet that came before.
 *
 * What is signed is accepted under the same key and type number. Signing again changes nothing. A packet is accepted exactly
 * where none of the refusals 1 to 37 holds and signing it would change nothing. Every byte outside the MAC's 32 is covered by
 * the MAC. */

/* Signs a packet: writes the MAC into its attribute of the type, over what stands there. All bytes of the packet but the MAC's
 * 32 stay as they were. `packet` is lent to be written, and must not overlap the key. Returns 32.
 * Refusals, in this order: 1 MAC key not 64 to 128 bytes; 20 type 0; 35 packet not 20 to 4,096 bytes, or of another length than
 * its header says; 36 any attribute shorter than 2 or past the packet's end; 37 no attribute of the type, more than one, or one
 * that is not 52 bytes long, has a reserved byte that is not zero, or another MAC Type. */
KV_USE_RESULT kv_outcome kv_sign_packet(const uint8_t *mac_key, size_t mac_key_len, uint8_t type, uint8_t *packet,
                                        size_t packet_len);

/* Checks a packet: its MAC is the one that kv_sign_packet would write. All 32 bytes are compared, whatever they hold. Writes
 * nothing, and returns 0.
 * Refusals, in this order: those of kv_sign_packet; 38 the MAC differs. */
KV_USE_RESULT kv_outcome kv_check_packet(const uint8_t *mac_key, size_t mac_key_len, uint8_t type, const uint8_t *packet,
                                         size_t packet_len);

/* A bundle (document 02, request 9): a file of Key attributes with its table of contents first. By byte: 0 the count of the
 * attributes, 1 to 64, in two bytes; then for each attribute a line of 20 bytes, its Key ID (16), its offset from the file's
 * first byte (2) and its length (2); then the attributes in the same order, with no gap. Numbers are high byte first. No Key ID
 * stands twice. The largest bundle has 17,410 bytes. The attributes are checked as kv_read_key_attribute checks them before the
 * KEK is used: a bundle says nothing of whether a key can be unwrapped, and it is not authenticated.
 *
 * What is written reads back to the same attributes. What is read, written again, is the same file, byte for byte. */

/* Writes the bundle of attributes that are packed end to end, each as long as its length byte says. Returns the file's length,
 * which is that of the attributes and 2 and 20 for each of them.
 * Refusals: first attribute by attribute 24 no length byte, a length byte that leads past the end, or a length that is not 60
 * plus a multiple of 8 from 16 to 192; 20 type 0; 25 reserved byte not zero; 26 Enc Type not 0; 27 IV field not eight bytes A6.
 * Then 39 not 1 to 64 attributes; 42 repeated Key ID; 6 `out` has no room for the file. */
KV_USE_RESULT kv_outcome kv_write_bundle(const uint8_t *attributes, size_t attributes_len, uint8_t *out, size_t out_len);

/* Reads a bundle, and writes its attributes, packed end to end. Returns how many bytes these are.
 * Refusals, each settled for the whole file before the next: 39 under two bytes, or a count not 1 to 64; 40 contents cut short,
 * or an offset that is not the end of the attribute before (for the first, the end of the contents); 41 the file does not end
 * with the last attribute; 42 repeated Key ID in the contents. Then attribute by attribute 24 a length byte unequal to the
 * length in its line, or a length that is not 60 plus a multiple of 8 from 16 to 192; 20, 25, 26 and 27 as above; 50 its Key ID
 * is not that of its line. Then 6 `out` has no room for the attributes. */
KV_USE_RESULT kv_outcome kv_read_bundle(const uint8_t *file, size_t file_len, uint8_t *out, size_t out_len);

/* What kv_compare_bundles returns: how many entries of each kind it wrote. On a refusal every count is 0. */
typedef struct {
    uint32_t refusal, only_first, changed, only_second;
} kv_comparison;
KV_LAYOUT(sizeof(kv_comparison) == 16 && offsetof(kv_comparison, only_second) == 12);

/* Lists what changed between two bundles, say last month's and this month's (document 02, request 10). An entry has 17
 * bytes: its kind, which is 1 (only in the first), 2 (in both, and the attributes differ) or 3 (only in the second), and
 * then the Key ID (16). Each Key ID that differs is listed exactly once, and none whose attributes agree. Those of kind 1
 * and 2 come first, mixed, in the order of the first bundle, and then those of kind 3 in the order of the second. Returns
 * how many there are of each kind; what is written is 17 times their sum. Where nothing differs nothing is written, and
 * `out` may have no bytes. Room for 2,176 bytes is always enough. Both files may be the same memory.
 *
 * Attributes differ where their lengths do or any byte does. Their order in the file is no difference. A key that was
 * wrapped under another KEK, or has another lifetime, is a change.
 * Refusals: first those of kv_read_bundle for `first`, without 6; then those for `second`, likewise. Then 6 `out` has no
 * room for the entries. */
KV_USE_RESULT kv_comparison kv_compare_bundles(const uint8_t *first, size_t first_len, const uint8_t *second, size_t second_len,
                                               uint8_t *out, size_t out_len);

/* Slots for live keys. Each of the 64 is free or holds a key's name, which is any 8 bytes, as kv_key_name writes them, and
 * its parent: none, so that the key is a root, or the slot of the key that it was derived from.
 *
 * The slots are passed and returned by value, so no call alters a byte of the caller's: a program keeps the `slots` that a
 * call returned in place of those that it had. {0} has all slots free. From there on, after any calls, every live slot's
 * parent is none or live, a root is reached from it within three steps, and the live slots are the accepted puts less the sum
 * of what accepted drops returned. Slots that were made in any other way are taken as they are. */
typedef struct {
    uint8_t bytes[8];
} kv_name;
KV_LAYOUT(sizeof(kv_name) == 8);

/* Slot i is live where bit i of `taken` is 1, bit 0 being the lowest. Its parent is a slot's number, or 255 for none; 64 to
 * 254 is no slot. The name and the parent of a free slot count for nothing. */
typedef struct {
    uint64_t taken;
    kv_name names[64];
    uint8_t parents[64];
} kv_slots;
KV_LAYOUT(sizeof(kv_slots) == 584 && offsetof(kv_slots, names) == 8 && offsetof(kv_slots, parents) == 520);

/* What a put and a drop return: a put the slot's number as `value`, a drop how many went; and the slots after the call. On a
 * refusal `value` is 0, and `slots` is the argument, byte for byte. */
typedef struct {
    uint32_t refusal;
    uint64_t value;
    kv_slots slots;
} kv_slots_outcome;
KV_LAYOUT(sizeof(kv_slots_outcome) == 600 && offsetof(kv_slots_outcome, value) == 8 && offsetof(kv_slots_outcome, slots) == 16);

/* Puts a name and its parent into the lowest free slot, and returns the slot's number. `parent` is a live slot's number, or
 * KV_NO_PARENT for a root. Nothing changes but the slot that is taken.
 * Refusals, in this order: 48 the parent is neither KV_NO_PARENT nor a live slot; 49 from the parent, which may be a root
 * itself, no root is reached within two steps through live slots; 46 all 64 slots are taken. */
KV_USE_RESULT kv_slots_outcome kv_put_slot(kv_slots slots, kv_name name, uint64_t parent);

/* Frees a slot and all that descend from it, and returns how many went. Those descend from it from which one to three steps
 * through live slots lead to it; in a loop of parents, which no calls make, a slot counts once. Nothing changes but the slots
 * that went. Names and parents stay where they stood, and count for nothing.
 * Refusals: 47 the number is over 63, or that slot is free. */
KV_USE_RESULT kv_slots_outcome kv_drop_slot(kv_slots slots, uint64_t number);

/* How many slots are live, 0 to 64. It refuses nothing. */
KV_USE_RESULT uint32_t kv_live_slots(kv_slots slots);

#ifdef __cplusplus
}
#endif

#endif
