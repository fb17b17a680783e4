/* The words of the refusals, for a log. They are those of the comments in ketvaulo.h.
 *
 * Included nowhere else, this header costs nothing; where kv_refusal_text is called, the texts are in the program: about 2 KiB. */
#ifndef KETVAULO_TEXT_H
#define KETVAULO_TEXT_H

#include "ketvaulo.h"

/* The words of a refusal. `refusal` is what a call returned as such. */
static inline const char *kv_refusal_text(uint32_t refusal)
{
    switch (refusal) {
    case KV_ACCEPTED: return "accepted";
    case KV_ROOT_KEY_LENGTH: return "root key (EMSK, VRK, VMSK) or MAC key not 64 to 128 bytes, or the parent of a domain's rRK not 64";
    case KV_LABEL_LENGTH: return "label not 1 to 255 bytes";
    case KV_LABEL_BYTE: return "a label byte outside 32 to 126";
    case KV_DATA_LENGTH: return "optional data over 2,048 bytes";
    case KV_KEY_LENGTH: return "key length not 1 to 8,160";
    case KV_ROOM: return "output buffer too short";
    case KV_SERVER_ID: return "server ID not 1 to 255 bytes, or a byte of it outside 33 to 126";
    case KV_DOMAIN: return "domain not 1 to 253 bytes, or a byte not a letter, digit, hyphen or dot";
    case KV_SESSION_ID: return "Session-ID not 1 to 255 bytes";
    case KV_OFFER_COUNT: return "offers not 1 to 16 (1 to 17 when reading an area)";
    case KV_REPEATED_OFFER: return "an offer value occurs twice";
    case KV_NO_OFFER_SUPPORTED: return "no offer is supported";
    case KV_REPLY_IS_FIRST: return "reply (on renewal, the choice) equals the first offer";
    case KV_REPLY_NOT_OFFERED: return "reply (on renewal, the choice) is not among the offers";
    case KV_RENEWED_LIST: return "renewed list is not the choice followed by the original";
    case KV_ATTRIBUTE_BOUNDS: return "attribute without a length byte, of length 0, or past the area's end";
    case KV_KDF_LENGTH: return "AT_KDF whose length is not 1";
    case KV_KDF_INPUT: return "AT_KDF_INPUT whose length disagrees with its name length";
    case KV_NETWORK_NAME: return "AT_KDF_INPUT missing or repeated";
    case KV_ATTRIBUTE_TYPE: return "attribute type 0";
    case KV_ID_LENGTH: return "KEK ID or Key ID not 16 bytes";
    case KV_KEK_LENGTH: return "KEK not 16 bytes";
    case KV_KEY_TO_WRAP_LENGTH: return "key to wrap not a multiple of 8 from 16 to 192 bytes";
    case KV_KEY_ATTRIBUTE_LENGTH: return "Key attribute of wrong length";
    case KV_RESERVED_BYTE: return "reserved byte not zero";
    case KV_ENC_TYPE: return "Enc Type not 0";
    case KV_IV_FIELD: return "IV field not eight bytes A6";
    case KV_INTEGRITY: return "unwrapping does not yield the initial value A6 (eight times)";
    case KV_KDF_INPUT_PADDING: return "AT_KDF_INPUT whose padding is not zero";
    case KV_NETWORK_NAME_DIFFERS: return "a differing network name, where the caller does not ask for lenient reading";
    case KV_DOMAIN_LABEL: return "a usage request under the EMSK with the label of the domain root key";
    case KV_LABEL_SYNTAX: return "a label with a space, a comma, a second at-sign or one first or last; or over 64 bytes without an at-sign";
    case KV_HANDOVER_KEY_LENGTH: return "rRK not 64 or R0-Key not 32 bytes";
    case KV_IDENTIFIER_LENGTH: return "an identifier of wrong length";
    case KV_PACKET_LENGTH: return "packet not 20 to 4,096 bytes, or of a length unlike its header";
    case KV_PACKET_ATTRIBUTE_BOUNDS: return "any attribute of the packet shorter than 2 or past the end";
    case KV_MAC_ATTRIBUTE: return "MAC attribute absent, repeated, not 52 long, reserved not zero, or another MAC Type";
    case KV_MAC_DIFFERS: return "MAC differs";
    case KV_BUNDLE_COUNT: return "bundle under two bytes, or of a count not 1 to 64";
    case KV_BUNDLE_CONTENTS: return "contents cut short, or an offset that is not the previous end";
    case KV_BUNDLE_END: return "a file not ending with the last body";
    case KV_REPEATED_KEY_ID: return "repeated Key ID";
    case KV_AKA_INPUT_LENGTH: return "CK, IK or SQN of wrong length";
    case KV_NETWORK_NAME_LENGTH: return "network name over 1,016 bytes";
    case KV_IDENTITY_LENGTH: return "identity not 1 to 255 bytes";
    case KV_SLOTS_FULL: return "all 64 slots are taken";
    case KV_NO_SUCH_SLOT: return "no such live slot";
    case KV_PARENT_NOT_LIVE: return "parent not live";
    case KV_TOO_DEEP: return "too deep: from the parent, no root within two steps through live slots";
    case KV_KEY_ID_UNLIKE_CONTENTS: return "a Key ID unlike its line of the contents";
    default: return "no refusal of this version";
    }
}

#endif
